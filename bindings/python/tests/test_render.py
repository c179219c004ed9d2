"""What comes out of the renderer. The texts are those of docs/SCRIPT.md, where the same calls are lines of a script."""

import unittest
from collections.abc import Callable
from typing import Any

from text_block_renderer import (
    Annotation,
    CellAlign,
    Colour,
    Decorator,
    Format,
    FragmentStart,
    ImageRenderMode,
    Kind,
    Renderer,
    TaggedLine,
    WhiteSpace,
    render_script,
    text_width,
)

Calls = Callable[[Renderer], object]


def rendered(calls: Calls, width: int, *args: Any, **options: Any) -> str:
    with Renderer(width, *args, **options) as renderer:
        calls(renderer)
        return renderer.into_string()


def lines(calls: Calls, width: int, *args: Any, **options: Any) -> list[TaggedLine]:
    with Renderer(width, *args, **options) as renderer:
        calls(renderer)
        return list(renderer.into_lines())


class Text(unittest.TestCase):
    def test_words_go_on_the_line_or_are_cut(self) -> None:
        text = rendered(lambda r: r.add_inline_text("Hello, world.  Superlongwordreally"), 8)
        self.assertEqual(text, "Hello,\nworld.\nSuperlon\ngwordrea\nlly\n")

    def test_columns_are_counted(self) -> None:
        text = rendered(lambda r: r.add_inline_text("漢字漢字 cafe\u0301!"), 5)
        self.assertEqual(text, "漢字\n漢字\ncafe\u0301!\n")

    def test_a_text_has_a_width(self) -> None:
        widths = {"": 0, "a b": 3, "  ": 2, " a ": 3, "漢字": 4, "cafe\u0301": 4, "a\tb\n\u200bc": 3}
        self.assertEqual({text: text_width(text) for text in widths}, widths)

    def test_a_nul_is_a_character_like_others(self) -> None:
        def calls(r: Renderer) -> None:
            r.record_frag_start("a\0b")
            r.add_inline_text("be\0ll")

        marker, text = lines(calls, 20)[0]
        self.assertEqual(marker, FragmentStart("a\0b"))
        self.assertEqual(text.text, "bell")

    def test_no_control_character_comes_out(self) -> None:
        def calls(r: Renderer) -> None:
            r.start_subrender(9)
            with r.link("\x1b]0;x\x07"):
                r.add_inline_text("here")
            r.append_subrender("\x9b\n", "")

        settings: dict[str, Any] = {"decorator": Decorator.RICH, "include_link_footnotes": True}
        self.assertEqual(rendered(calls, 20, **settings), "%C2%9B%0Ahere[1]\n\n[1]: %1B]0;x%07\n")
        self.assertEqual(rendered(calls, 20, raw=True, **settings), "\x9b\nhere[1]\n\n[1]: \x1b]0;x\x07\n")
        link = list(lines(calls, 20, **settings)[0].tagged_strings())[1]
        self.assertEqual(link.annotations, (Annotation(Kind.LINK, "\x1b]0;x\x07"),))

    def test_no_control_character_of_a_script_comes_out(self) -> None:
        script = "new 20 plain\nsub 9\ntext a\nappend \\u{1b}\\n | \n"
        self.assertEqual(render_script(script), "%1B%0Aa\n")
        self.assertEqual(render_script(script, raw=True), "\x1b\na\n")

    def test_lines_are_shown_in_formats(self) -> None:
        def calls(r: Renderer) -> None:
            with r.link("https://example.org/\x1b"):
                r.add_inline_text("a < b")
            r.new_line()
            with r.link("javascript:x()"), r.strong():
                r.add_inline_text("\u6f22")

        def shown(format: Format, *args: Any) -> str:
            with Renderer(20, *args) as renderer:
                calls(renderer)
                return renderer.into_string(format)

        ansi = "\x1b[4m\x1b]8;;https://example.org/%1B\x1b\\a < b\x1b]8;;\x1b\\\x1b[24m\n"
        ansi += "\x1b[4m\x1b]8;;\x1b\\\x1b[1m\u6f22\x1b]8;;\x1b\\\x1b[24m\x1b[22m\n"
        html = '<a href="https://example.org/%1B">a &lt; b</a>\n'
        html += '<a><strong><span class="wide">\u6f22</span></strong></a>\n'
        json = '{"border":false,"columns":5,"pieces":[{"text":"a < b","columns":5,"annotations":'
        json += '[{"kind":"link","target":"https://example.org/\\u001b"}]}]}\n'
        self.assertEqual(shown(Format.TEXT, Decorator.RICH), "a < b\n\u6f22\n")
        self.assertEqual(shown(Format.ANSI, Decorator.RICH), ansi)
        self.assertEqual(shown(Format.HTML, Decorator.RICH), html)
        self.assertEqual(shown(Format.JSON, Decorator.RICH).splitlines(keepends=True)[0], json)
        self.assertEqual(shown(Format.HTML), '[a &lt; b]\n[<span class="wide">\u6f22</span>]\n')
        self.assertEqual(
            shown(Format.JSON).splitlines()[0],
            '{"border":false,"columns":7,"pieces":[{"text":"[a < b]","columns":7,"annotations":[]}]}',
        )
        with Renderer(20, Decorator.RICH) as renderer:
            calls(renderer)
            self.assertEqual(list(renderer.into_strings(Format.ANSI)), ansi.splitlines())

    def test_white_space_is_kept_where_a_mode_says_so(self) -> None:
        def calls(r: Renderer) -> None:
            r.push_ws(WhiteSpace.PRE)
            r.add_inline_text("foo\nbar\nwib   asdf;\n")
            r.pop_ws()
            r.add_inline_text("and as usual")

        self.assertEqual(rendered(calls, 20), "foo\nbar\nwib   asdf;\nand as usual\n")

    def test_an_image_shows_its_title(self) -> None:
        def untitled(r: Renderer) -> None:
            r.add_image("cats/tom.png", "")

        self.assertEqual(rendered(lambda r: r.add_image("cats/tom.png", "Tom the cat"), 30), "[Tom the cat]\n")
        self.assertEqual(rendered(untitled, 30), "")
        self.assertEqual(rendered(untitled, 30, img_mode=ImageRenderMode.SHOW_ALWAYS), "[]\n")
        self.assertEqual(rendered(untitled, 30, img_mode=ImageRenderMode.FILENAME), "[tom.png]\n")

    def test_struck_out_text_has_strokes(self) -> None:
        def calls(r: Renderer) -> None:
            r.start_strikeout()
            r.add_inline_text("a rat")
            r.end_strikeout()

        self.assertEqual(rendered(calls, 20), "a\u0336 \u0336r\u0336a\u0336t\u0336\n")
        self.assertEqual(rendered(calls, 20, use_unicode_strikeout=False), "a rat\n")

    def test_links_have_footnotes(self) -> None:
        def calls(r: Renderer) -> None:
            r.start_link("https://example.org/a/long/way")
            r.add_inline_text("A long way")
            r.end_link()

        cut = rendered(calls, 20, include_link_footnotes=True)
        self.assertEqual(cut, "[A long way][1]\n\n[1]: https://example\n.org/a/long/way\n")
        uncut = rendered(calls, 20, include_link_footnotes=True, wrap_links=False)
        self.assertEqual(uncut, "[A long way][1]\n\n[1]: https://example.org/a/long/way\n")

    def test_decorators_show_stretches(self) -> None:
        def calls(r: Renderer) -> None:
            r.add_inline_text("See ")
            r.start_link("https://example.org")
            r.add_inline_text("the rules")
            r.end_link()
            r.add_inline_text(" of x")
            r.start_superscript()
            r.add_inline_text("2")
            r.end_superscript()

        self.assertEqual(rendered(calls, 30), "See [the rules] of x^{2}\n")
        self.assertEqual(rendered(calls, 30, Decorator.TRIVIAL), "See the rules of x^{2}\n")


class Blocks(unittest.TestCase):
    def test_blocks_stand_apart(self) -> None:
        def calls(r: Renderer) -> None:
            r.add_inline_text("First block")
            r.start_block()
            r.add_inline_text("second block,")
            r.new_line()
            r.add_inline_text("on a line of its own")
            r.end_block()
            r.add_inline_text(" and a third.")

        expected = "First block\n\nsecond block,\non a line of its own\n\nand a third.\n"
        self.assertEqual(rendered(calls, 20), expected)

    def test_hard_lines_and_empty_lines(self) -> None:
        def calls(r: Renderer) -> None:
            r.add_inline_text("above")
            r.new_line_hard()
            r.new_line_hard()
            r.add_inline_text("below")
            r.add_empty_line()
            r.add_inline_text("last")

        self.assertEqual(rendered(calls, 20), "above\n\nbelow\n\nlast\n")

    def test_borders_have_a_width(self) -> None:
        def calls(r: Renderer) -> None:
            r.add_horizontal_border()
            r.add_inline_text("between")
            r.add_horizontal_border_width(5)

        self.assertEqual(rendered(calls, 12), "────────────\nbetween\n─────\n")

    def test_levels_lie_within_one_another(self) -> None:
        def calls(r: Renderer) -> None:
            with r.subrender(6, "> ", "> "), r.subrender(4, "- ", "  "):
                r.add_inline_text("a b c d")

        self.assertEqual(rendered(calls, 8), "> - a b\n>   c d\n")

    def test_lines_are_wrapped_and_padded(self) -> None:
        text = "A line of forty columns is hard to read beside others."
        wrapped = rendered(lambda r: r.add_inline_text(text), 40, wrap_width=20)
        self.assertEqual(wrapped, "A line of forty\ncolumns is hard to\nread beside others.\n")
        self.assertEqual(rendered(lambda r: r.add_inline_text("a"), 4, pad_block_width=True), "a   \n")

    def test_the_decorator_has_prefixes(self) -> None:
        with Renderer(20) as plain, Renderer(20, Decorator.TRIVIAL) as trivial:
            self.assertEqual(plain.header_prefix(3), "### ")
            self.assertEqual(plain.header_prefix(40), "#" * 40 + " ")
            self.assertEqual(plain.quote_prefix(), "> ")
            self.assertEqual(plain.unordered_item_prefix(), "* ")
            self.assertEqual(plain.ordered_item_prefix(-1), "-1. ")
            self.assertEqual(trivial.quote_prefix(), "")


class Tables(unittest.TestCase):
    def test_cells_span_rows_and_are_aligned(self) -> None:
        def calls(r: Renderer) -> None:
            r.add_horizontal_border_width(24)
            with r.cell(16, span=2):
                r.add_inline_text("Bread, a dark loaf and a white one")
            with r.cell(7, align=CellAlign.RIGHT):
                r.add_inline_text("3.20")
            r.append_columns_with_borders()
            with r.cell(16):
                pass
            with r.cell(7, align=CellAlign.RIGHT):
                r.add_inline_text("2.80")
            r.append_columns_with_borders()

        expected = [
            "────────────────┬───────",
            "Bread, a dark   │   3.20",
            "loaf and a white├───────",
            "one             │   2.80",
            "────────────────┴───────",
        ]
        self.assertEqual(rendered(calls, 36).splitlines(), expected)

    def test_borders_are_left_out(self) -> None:
        def calls(r: Renderer) -> None:
            with r.cell(3, align=CellAlign.RIGHT):
                r.add_inline_text("a")
            with r.cell(5, align=CellAlign.CENTRE):
                r.add_inline_text("bc")
            r.append_columns_with_borders()

        self.assertEqual(rendered(calls, 9, draw_borders=False), "  a  bc  \n")

    def test_a_table_in_a_table_collapses(self) -> None:
        def inner(r: Renderer) -> None:
            r.add_horizontal_border()
            for text in ("1", "2"):
                with r.cell(1):
                    r.add_inline_text(text)
            r.append_columns_with_borders()

        def calls(r: Renderer) -> None:
            r.add_horizontal_border()
            with r.cell(3):
                inner(r)
            with r.cell(1):
                r.add_inline_text("xy")
            r.append_columns_with_borders(collapse=True)

        self.assertEqual(rendered(calls, 5), "─┬─┬─\n1│2│x\n │ │y\n─┴─┴─\n")

    def test_cells_stand_one_below_another(self) -> None:
        def calls(r: Renderer) -> None:
            for text in ("Name", "Maya Lindqvist"):
                with r.cell(12):
                    r.add_inline_text(text)
            r.append_vert_row()

        self.assertEqual(rendered(calls, 12), "Name\n////////////\nMaya\nLindqvist\n────────────\n")


class Lines(unittest.TestCase):
    def test_pieces_have_annotations(self) -> None:
        orange = Colour(255, 128, 0)

        def calls(r: Renderer) -> None:
            r.add_inline_text("see ")
            r.start_link("https://example.org/ü")
            r.start_emphasis()
            r.add_inline_text("hère")
            r.end_emphasis()
            r.end_link()
            r.push_colour(orange)
            r.push_bgcolour(Colour(0, 0, 0))
            r.add_inline_text("it is")
            r.pop_bgcolour()
            r.pop_colour()

        (line,) = lines(calls, 30, Decorator.RICH)
        pieces = [(piece.text, piece.annotations) for piece in line.tagged_strings()]
        link = Annotation(Kind.LINK, "https://example.org/ü")
        colours = (Annotation(Kind.COLOUR, colour=orange), Annotation(Kind.BACKGROUND, colour=Colour(0, 0, 0)))
        self.assertEqual(pieces, [("see ", ()), ("hère", (link, Annotation(Kind.EMPHASIS))), ("it is", colours)])
        self.assertEqual(line.width, 13)

    def test_each_kind_of_stretch_has_its_annotation(self) -> None:
        def calls(r: Renderer) -> None:
            r.start_strong()
            r.start_code()
            r.add_inline_text("a")
            r.end_code()
            r.end_strong()
            r.start_strikeout()
            r.add_inline_text("b")
            r.end_strikeout()
            r.add_image("c.png", "c")
            r.start_superscript()
            r.end_superscript()

        (line,) = lines(calls, 40, Decorator.RICH)
        kinds = [[annotation.kind for annotation in piece.annotations] for piece in line.tagged_strings()]
        self.assertEqual(kinds, [[Kind.STRONG, Kind.CODE], [Kind.STRIKEOUT], [Kind.IMAGE], [Kind.DEFAULT]])

    def test_a_preformatted_line_that_goes_on_says_so(self) -> None:
        def calls(r: Renderer) -> None:
            r.push_ws(WhiteSpace.PRE)
            r.push_preformat()
            r.add_inline_text("abcd")
            r.pop_preformat()
            r.pop_ws()

        pieces = [piece for line in lines(calls, 3, Decorator.RICH) for piece in line.tagged_strings()]
        kinds = [piece.annotations[0].kind for piece in pieces]
        self.assertEqual(kinds, [Kind.PREFORMATTED, Kind.PREFORMATTED_CONTINUED])

    def test_markers_stand_between_the_words(self) -> None:
        def calls(r: Renderer) -> None:
            r.add_inline_text("ab ")
            r.record_frag_start("x")
            r.add_inline_text("cde")

        first, second = lines(calls, 3)
        self.assertEqual((str(first), str(second)), ("ab", "cde"))
        self.assertEqual(second.elements[0], FragmentStart("x"))

    def test_an_empty_line_and_a_border_are_told_apart(self) -> None:
        def calls(r: Renderer) -> None:
            r.add_empty_line()
            r.add_horizontal_border()

        seen = [(str(line), line.width, line.is_border) for line in lines(calls, 4)]
        self.assertEqual(seen, [("", 0, False), ("────", 4, True)])


if __name__ == "__main__":
    unittest.main()
