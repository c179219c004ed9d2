"""Tables that find their widths are what tables of the widths are that browsers give them."""

import doctest
import random
import unittest
from collections.abc import Callable
from itertools import chain

import text_block_renderer.renderer
import text_block_renderer.widths
from text_block_renderer import (
    CellAlign,
    Extent,
    InTableError,
    NoTableError,
    NothingToEndError,
    NotUtf8Error,
    Renderer,
    StillOpenError,
    TooNarrowError,
    WhiteSpace,
    measure,
    text_width,
)

WORDS = ("a", "tea", "bread", "Sundays,", "漢字", "cafe\u0301", "a-very-long-word")
Texts = list[list[str]]


def random_texts(numbers: random.Random) -> Texts:
    """The texts of a table without spans, each of a word or more."""
    columns = numbers.randint(1, 4)
    return [
        [" ".join(numbers.choices(WORDS, k=numbers.randint(1, 5))) for _ in range(columns)]
        for _ in range(numbers.randint(1, 4))
    ]


def longest_word(text: str) -> int:
    return max(map(text_width, text.split()))


def widths(texts: Texts, of: Callable[[str], int]) -> list[int]:
    """The widest of each column."""
    return [max(map(of, column)) for column in zip(*texts, strict=True)]


def fill_table(page: Renderer, texts: Texts) -> None:
    with page.table() as table:
        for row in texts:
            with table.row():
                for text in row:
                    with table.cell():
                        page.add_inline_text(text)


def fill_given(page: Renderer, texts: Texts, columns: list[int]) -> None:
    """The same by cells of given widths."""
    page.start_table()
    page.add_horizontal_border_width(sum(columns) + len(columns) - 1)
    for row in texts:
        for width, text in zip(columns, row, strict=True):
            with page.cell(width):
                page.add_inline_text(text)
        page.append_columns_with_borders(collapse=True)
    page.end_block()


def text_of(width: int, texts: Texts, given: list[int] | None = None) -> str:
    with Renderer(width) as page:
        page.add_inline_text("before")
        if given is None:
            fill_table(page, texts)
        else:
            fill_given(page, texts, given)
        page.add_inline_text("after")
        return page.into_string()


class Tables(unittest.TestCase):
    def test_examples(self) -> None:
        for module in (text_block_renderer.renderer, text_block_renderer.widths):
            self.assertEqual(doctest.testmod(module).failed, 0)

    def test_where_all_fits_columns_are_as_wide_as_their_widest_lines(self) -> None:
        for seed in range(300):
            texts = random_texts(random.Random(seed))
            needed = widths(texts, text_width)
            room = sum(needed) + len(needed) - 1
            for width in (room, room + 7):
                with self.subTest(seed=seed, width=width):
                    self.assertEqual(text_of(width, texts), text_of(width, texts, needed))

    def test_where_only_words_fit_they_have_their_columns(self) -> None:
        for seed in range(300):
            texts = random_texts(random.Random(seed))
            needed = widths(texts, longest_word)
            room = sum(needed) + len(needed) - 1
            with self.subTest(seed=seed):
                self.assertEqual(text_of(room, texts), text_of(room, texts, needed))

    def test_no_word_is_cut_and_no_line_is_too_wide(self) -> None:
        for seed in range(300):
            numbers = random.Random(seed)
            texts = random_texts(numbers)
            width = numbers.randint(16, 60)
            with self.subTest(seed=seed):
                text = text_of(width, texts)
                self.assertLessEqual(max(map(text_width, text.splitlines())), width)
                shown = text.replace("│", " ").split()
                for word in " ".join(chain.from_iterable(texts)).split():
                    self.assertIn(word, shown)

    def test_a_table_in_a_cell_is_measured_as_its_columns_and_lines(self) -> None:
        with Renderer(60) as page, page.table() as table, table.row(), table.cell():
            fill_table(page, [["bread and butter", "3.20"], ["tea", "12.00"]])
            self.assertEqual(table.measure(), Extent(6 + 1 + 5, 16 + 1 + 5))

    def test_texts_are_measured(self) -> None:
        for seed in range(300):
            for row in random_texts(random.Random(seed)):
                for text in row:
                    self.assertEqual(measure(text), (longest_word(text), text_width(text)))
        self.assertEqual(measure("ab  c\nd", WhiteSpace.PRE), (5, 5))
        self.assertEqual(measure("ab  c\nd", WhiteSpace.PRE_WRAP), (2, 5))
        self.assertRaises(NotUtf8Error, measure, "\ud800")

    def test_a_block_has_a_prefix_of_ones_own_in_a_cell(self) -> None:
        with Renderer(12) as page:
            with page.table() as table, table.row():
                with table.cell(), page.prefixed("漢 ", "   "):
                    page.add_inline_text("Tea or milk")
                with table.cell():
                    page.add_inline_text("3")
            self.assertRaises(TooNarrowError, page.start_prefixed, 12)
            self.assertRaises(NotUtf8Error, page.prefixed, "\ud800", "")
            self.assertEqual(page.into_string(), "──────────┬─\n漢 Tea or │3\n   milk   │ \n──────────┴─\n")

    def test_ends_without_their_beginnings_are_refused(self) -> None:
        with Renderer(20) as page:
            self.assertRaises(NoTableError, page.start_auto_cell)
            for end in (page.end_auto_cell, page.end_auto_row, page.end_auto_table):
                self.assertRaises(NothingToEndError, end)
            with page.table() as table, table.row(), table.cell(align=CellAlign.RIGHT):
                for end in (page.end_auto_row, page.end_auto_table, page.end_quote, page.end_strong, page.end_link):
                    self.assertRaises(NothingToEndError, end)
                self.assertRaises(NoTableError, table.cell().__enter__)
                page.add_inline_text("kept")
            self.assertEqual(page.into_string(), "────\nkept\n────\n")

    def test_what_is_not_known_before_the_end_is_refused(self) -> None:
        with Renderer(20) as page, page.table() as table:
            self.assertRaises(InTableError, page.add_inline_text, "outside of cells")
            self.assertRaises(InTableError, table.measure)
            for question in (page.width, page.empty, page.has_overhang, page.open_links, page.into_string):
                self.assertRaises(InTableError, question)
            self.assertEqual((page.depth(), page.quote_prefix(), page.failure()), (1, "> ", None))

    def test_a_cell_that_is_left_open_is_told(self) -> None:
        with Renderer(20) as page, self.assertRaises(StillOpenError), page.table() as table, table.row():
            page.start_auto_cell()

    def test_an_exception_ends_what_it_leaves(self) -> None:
        with Renderer(20) as page:
            with self.assertRaises(ZeroDivisionError), page.table() as table, table.row(), table.cell():
                page.add_inline_text("some")
                raise ZeroDivisionError
            self.assertEqual(page.into_string(), "────\nsome\n────\n")


if __name__ == "__main__":
    unittest.main()
