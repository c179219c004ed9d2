"""What is refused, and what a refusal leaves."""

import threading
import unittest

from text_block_renderer import (
    BadArgumentError,
    BadWidthError,
    Colour,
    FinishedError,
    NoRendererError,
    NotACommandError,
    NothingToEndError,
    NotUtf8Error,
    Renderer,
    RowDoesNotFitError,
    ScriptError,
    StillOpenError,
    TooNarrowError,
    render_script,
    text_width,
)


class Refusals(unittest.TestCase):
    def test_a_renderer_has_columns(self) -> None:
        with self.assertRaises(BadWidthError):
            Renderer(0)

    def test_numbers_are_not_cut(self) -> None:
        with Renderer(20) as renderer:
            for number in (-1, 2**64):
                self.assertRaises(ValueError, Renderer, number)
                self.assertRaises(ValueError, renderer.start_subrender, number)
                self.assertRaises(ValueError, renderer.add_horizontal_border_width, number)
            self.assertRaises(ValueError, renderer.ordered_item_prefix, 2**63)
            self.assertRaises(ValueError, renderer.push_colour, Colour(0, 256, 0))

    def test_a_surrogate_is_no_text(self) -> None:
        with Renderer(20) as renderer:
            self.assertRaises(NotUtf8Error, renderer.add_inline_text, "\ud800")
            self.assertRaises(NotUtf8Error, text_width, "\ud800")
            renderer.add_inline_text("a")
            self.assertEqual(renderer.into_string(), "a\n")

    def test_an_end_needs_its_beginning(self) -> None:
        with Renderer(20) as renderer:
            ends = [
                renderer.pop_ws,
                renderer.pop_preformat,
                renderer.end_link,
                renderer.end_emphasis,
                renderer.end_strong,
                renderer.end_strikeout,
                renderer.end_code,
                renderer.end_superscript,
                renderer.pop_colour,
                renderer.pop_bgcolour,
                renderer.end_cell,
                renderer.end_quote,
                renderer.end_item,
                lambda: renderer.end_ordered_item(1),
                lambda: renderer.end_header(1),
                lambda: renderer.append_subrender("", ""),
            ]
            for end in ends:
                self.assertRaises(NothingToEndError, end)

    def test_what_began_outside_does_not_end_inside(self) -> None:
        with Renderer(20) as renderer:
            renderer.start_emphasis()
            with renderer.subrender(18, "", ""):
                self.assertRaises(NothingToEndError, renderer.end_emphasis)
                self.assertRaises(NothingToEndError, renderer.end_cell)
            renderer.end_emphasis()

    def test_cells_have_columns_and_rows(self) -> None:
        with Renderer(20) as renderer:
            self.assertRaises(BadWidthError, renderer.start_subrender, 0)
            self.assertRaises(BadWidthError, renderer.start_cell, 0)
            self.assertRaises(BadArgumentError, renderer.start_cell, 1, 0)
            self.assertEqual(renderer.depth(), 0)

    def test_what_is_open_does_not_finish(self) -> None:
        with Renderer(20) as renderer:
            renderer.start_subrender(18)
            self.assertRaises(StillOpenError, renderer.into_string)
            with renderer.cell(5):
                pass
            self.assertEqual(renderer.waiting_cells(), 1)
            self.assertRaises(StillOpenError, renderer.append_subrender, "", "")
            renderer.append_vert_row()
            renderer.append_subrender("", "")

    def test_a_row_that_does_not_fit_changes_nothing(self) -> None:
        with Renderer(9) as renderer:
            with renderer.cell(1, span=2):
                renderer.add_inline_text("AB")
            renderer.append_columns_with_borders()
            with renderer.cell(1):
                renderer.add_inline_text("x")
            self.assertRaises(RowDoesNotFitError, renderer.append_columns_with_borders)
            self.assertEqual(renderer.waiting_cells(), 1)
            self.assertIsNone(renderer.failure())

    def test_what_is_too_narrow_stays_so(self) -> None:
        with Renderer(1) as renderer:
            renderer.add_inline_text("漢")
            self.assertRaises(TooNarrowError, renderer.new_line)
            self.assertRaises(TooNarrowError, renderer.add_inline_text, "a")
            self.assertIsInstance(renderer.failure(), TooNarrowError)
        with Renderer(1, allow_width_overflow=True) as wider:
            wider.add_inline_text("a漢b")
            self.assertEqual(wider.into_string(), "a\n漢\nb\n")

    def test_a_prefix_leaves_columns_or_is_too_wide(self) -> None:
        with Renderer(5) as renderer:
            self.assertRaises(TooNarrowError, renderer.width_minus, 3, 4)
            self.assertEqual(renderer.width_minus(1, 4), 4)
            self.assertIsNone(renderer.failure())

    def test_questions_are_of_the_innermost_level(self) -> None:
        with Renderer(9) as renderer:
            self.assertTrue(renderer.empty())
            renderer.start_link("t")
            renderer.add_inline_text("a")
            self.assertEqual((renderer.empty(), renderer.open_links(), renderer.width()), (False, 1, 9))
            with renderer.subrender(5, "", ""):
                self.assertEqual((renderer.empty(), renderer.open_links(), renderer.width()), (True, 0, 5))
                self.assertEqual(renderer.depth(), 1)
            with renderer.cell(1, span=2):
                renderer.add_inline_text("ab")
            self.assertFalse(renderer.has_overhang())
            renderer.append_columns_with_borders()
            self.assertTrue(renderer.has_overhang())


class Use(unittest.TestCase):
    def test_a_finished_renderer_is_not_filled(self) -> None:
        with Renderer(9) as renderer:
            renderer.add_inline_text("one two")
            self.assertEqual([str(line) for line in renderer.into_lines()], ["one two"])
            self.assertRaises(FinishedError, renderer.add_inline_text, "a")
            self.assertRaises(FinishedError, renderer.into_string)

    def test_a_closed_renderer_is_none(self) -> None:
        renderer = Renderer(9)
        renderer.close()
        renderer.close()
        self.assertRaises(NoRendererError, renderer.add_inline_text, "a")

    def test_lines_are_gone_with_their_renderer(self) -> None:
        with Renderer(9) as renderer:
            renderer.add_inline_text("one two three")
            lines = renderer.into_lines()
            next(lines)
        self.assertRaises(NoRendererError, next, lines)

    def test_one_that_was_not_closed_is_told(self) -> None:
        with self.assertWarns(ResourceWarning):
            Renderer(9)

    def test_a_renderer_goes_from_thread_to_thread(self) -> None:
        def use(renderer: Renderer) -> None:
            renderer.add_inline_text("two")
            texts.append(renderer.into_string())

        texts: list[str] = []
        with Renderer(9) as renderer:
            renderer.add_inline_text("one ")
            thread = threading.Thread(target=use, args=(renderer,))
            thread.start()
            thread.join()
        self.assertEqual(texts, ["one two\n"])

    def test_calls_of_threads_take_turns(self) -> None:
        def use() -> None:
            for _ in range(500):
                renderer.add_inline_text("word ")

        with Renderer(4) as renderer:
            threads = [threading.Thread(target=use) for _ in range(4)]
            for thread in threads:
                thread.start()
            for thread in threads:
                thread.join()
            self.assertEqual(renderer.into_string(), "word\n" * 2000)

    def test_each_thread_has_its_own(self) -> None:
        texts: list[str] = []

        def render() -> None:
            with Renderer(8) as renderer:
                renderer.add_inline_text("Hello, world. " * 200)
                texts.append(renderer.into_string())

        threads = [threading.Thread(target=render) for _ in range(4)]
        for thread in threads:
            thread.start()
        for thread in threads:
            thread.join()
        self.assertEqual(texts, ["Hello,\nworld.\n" * 200] * 4)


class Scripts(unittest.TestCase):
    def test_a_script_is_refused_by_its_line(self) -> None:
        with self.assertRaises(ScriptError) as refused:
            render_script(b"new 8 plain\nendcell\n")
        self.assertIsInstance(refused.exception.reason, NothingToEndError)
        self.assertEqual(refused.exception.line, 2)
        self.assertEqual(str(refused.exception), "line 2: nothing to end")

    def test_any_bytes_may_come(self) -> None:
        with self.assertRaises(ScriptError) as refused:
            render_script(b"new 8 plain\ntext \xff\n")
        self.assertIsInstance(refused.exception.reason, NotACommandError)
        with self.assertRaisesRegex(ScriptError, "^too narrow$"):
            render_script("new 1 plain\ntext 漢\n".encode())

    def test_a_script_may_be_longer_than_its_text_or_shorter(self) -> None:
        self.assertEqual(render_script(b"new 8 plain\ntext Hello\n"), "Hello\n")
        self.assertEqual(render_script(b"new 40 plain\nborder\n"), "─" * 40 + "\n")


if __name__ == "__main__":
    unittest.main()
