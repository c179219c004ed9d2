"""Blocks and stretches that `with` fills give what a script does in which docs/SCRIPT.md's rules write them out."""

import doctest
import io
import random
import re
import unittest
from contextlib import AbstractContextManager, redirect_stdout
from dataclasses import dataclass, field
from pathlib import Path
from typing import Any

import text_block_renderer.renderer
from text_block_renderer import (
    BadArgumentError,
    Colour,
    Decorator,
    NoRendererError,
    NothingToEndError,
    Renderer,
    StillOpenError,
    TooNarrowError,
    WhiteSpace,
    render_script,
)

README = Path(__file__).resolve().parents[1] / "README.md"
COLOUR = Colour(255, 128, 0)
TEXTS = ("The baker ", "is back", " on Sundays,  from nine.", "漢字", "a-very-long-word")
# The lines of a script about what each of these fills.
STRETCHES = {
    "link": ("link a", "endlink"),
    "emphasis": ("em", "endem"),
    "strong": ("strong", "endstrong"),
    "strikeout": ("strike", "endstrike"),
    "code": ("code", "endcode"),
    "superscript": ("super", "endsuper"),
    "preformatted": ("ws pre\npre", "endpre\nendws"),
    "colour": ("colour 255 128 0", "endcolour"),
    "background": ("bg 255 128 0", "endbg"),
    "white_space": ("ws prewrap", "endws"),
}
ARGUMENTS = {"link": ["a"], "colour": [COLOUR], "background": [COLOUR], "white_space": [WhiteSpace.PRE_WRAP]}
BLOCKS = ("quote", "item", "ordered_item", "header")


@dataclass
class Node:
    """A text, or a call that fills what is inside."""

    text: str = ""
    call: str = ""
    number: int = 0
    inside: "list[Node]" = field(default_factory=list)

    def begun(self, renderer: Renderer) -> AbstractContextManager[None]:
        arguments = [self.number] if self.number else ARGUMENTS.get(self.call, [])
        begun: AbstractContextManager[None] = getattr(renderer, self.call)(*arguments)
        return begun

    def fill(self, renderer: Renderer) -> None:
        if not self.call:
            renderer.add_inline_text(self.text)
            return
        with self.begun(renderer):
            for node in self.inside:
                node.fill(renderer)

    def script(self, columns: int) -> str:
        """The same as lines of a script, in so many columns."""
        if not self.call:
            return f"text {self.text}\n"
        if self.call in STRETCHES:
            begin, end = STRETCHES[self.call]
            return f"{begin}\n{self._script_inside(columns)}{end}\n"
        prefix = {"quote": "> ", "item": "* ", "ordered_item": f"{self.number}. ", "header": "#" * self.number + " "}
        if self.call in ("quote", "header"):
            return f"block\n{self._script_after(prefix[self.call], prefix[self.call], columns)}endblock\n"
        return self._script_after(prefix[self.call], " " * len(prefix[self.call]), columns)

    def _script_after(self, first: str, others: str, columns: int) -> str:
        left = columns - len(first)
        return f"sub {left}\n{self._script_inside(left)}append {first} | {others}\n"

    def _script_inside(self, columns: int) -> str:
        return "".join(node.script(columns) for node in self.inside)


def random_node(numbers: random.Random, depth: int) -> Node:
    if not depth or not numbers.randrange(3):
        return Node(text=numbers.choice(TEXTS))
    call = numbers.choice([*BLOCKS, *BLOCKS, *STRETCHES])
    number = {"ordered_item": numbers.choice([-99, 1, 9, 10, 12345]), "header": numbers.randint(1, 6)}.get(call, 0)
    return Node("", call, number, [random_node(numbers, depth - 1) for _ in range(numbers.randrange(4))])


class Nested(unittest.TestCase):
    def test_random_ones_are_what_the_script_says(self) -> None:
        for seed in range(50):
            numbers = random.Random(seed)
            columns = numbers.randint(40, 70)
            nodes = [random_node(numbers, 4) for _ in range(20)]
            with Renderer(columns, include_link_footnotes=True) as renderer:
                for node in nodes:
                    node.fill(renderer)
                script = f"new {columns} plain footnotes\n" + "".join(node.script(columns) for node in nodes)
                self.assertEqual(renderer.into_string(), render_script(script), script)

    def test_the_trivial_decorator_has_no_prefixes(self) -> None:
        with Renderer(4, Decorator.TRIVIAL) as renderer:
            with renderer.header(2**64 - 1):
                renderer.add_inline_text("a")
            with renderer.item():
                renderer.add_inline_text("bcd e")
            self.assertEqual(renderer.into_string(), "a\nbcd\ne\n")

    def test_the_examples_are_what_they_say(self) -> None:
        results = doctest.testmod(text_block_renderer.renderer)
        self.assertFalse(results.failed)
        self.assertGreater(results.attempted, 10)

    def test_the_programs_of_the_page_print_what_it_says(self) -> None:
        shown = r"^```python\n(.*?)^```\n\nprints\n\n```text\n(.*?)^```$"
        programs = re.findall(shown, README.read_text(), re.M | re.S)
        names: dict[str, Any] = {}
        for program, expected in programs:
            with redirect_stdout(io.StringIO()) as printed:
                exec(program, names)
            self.assertEqual(printed.getvalue(), expected)
        self.assertEqual(len(programs), 2)


class Refusals(unittest.TestCase):
    def test_what_an_exception_leaves_is_ended(self) -> None:
        for raised in (ValueError, KeyboardInterrupt):
            with Renderer(20) as renderer:
                with self.assertRaises(raised), renderer.quote(), renderer.strikeout():
                    renderer.add_inline_text("a")
                    raise raised
                self.assertEqual(renderer.depth(), 0)
                renderer.add_inline_text("b")
                self.assertEqual(renderer.into_string(), "> a\u0336\n\nb\n")

    def test_a_block_that_has_no_columns_is_not_begun(self) -> None:
        with Renderer(2) as renderer:
            renderer.add_inline_text("a")
            blocks = [renderer.quote(), renderer.item(), renderer.ordered_item(-(2**63)), renderer.header(2**64 - 1)]
            for block in blocks:
                self.assertRaises(TooNarrowError, block.__enter__)
            self.assertIsNone(renderer.failure())
            renderer.add_inline_text("b")
            self.assertEqual(renderer.into_string(), "ab\n")

    def test_a_header_of_more_levels_than_the_library_takes_is_told(self) -> None:
        with Renderer(300) as renderer:
            self.assertRaises(BadArgumentError, renderer.header(256).__enter__)
            with renderer.header(255):
                renderer.add_inline_text("a")
            self.assertRaises(BadArgumentError, renderer.end_header, 256)
            self.assertEqual(renderer.into_string(), "#" * 255 + " a\n")

    def test_a_level_that_is_left_open_is_told(self) -> None:
        with Renderer(20) as renderer:
            with self.assertRaises(StillOpenError), renderer.quote():
                renderer.start_subrender(9)
            self.assertEqual(renderer.depth(), 2)
            renderer.append_subrender("", "")
            renderer.end_quote()
            with self.assertRaises(StillOpenError), renderer.item(), renderer.cell(3):
                pass
            self.assertEqual((renderer.depth(), renderer.waiting_cells()), (1, 1))

    def test_an_exception_is_told_before_a_level_that_is_left_open(self) -> None:
        with Renderer(20) as renderer, self.assertRaises(ValueError), renderer.quote():
            renderer.start_subrender(9)
            raise ValueError

    def test_what_is_closed_inside_is_not_closed_again(self) -> None:
        with Renderer(20) as renderer:
            renderer.start_quote()
            with self.assertRaises(NothingToEndError), renderer.item():
                renderer.end_item()
            self.assertEqual(renderer.depth(), 1)
            with self.assertRaises(NoRendererError), renderer.emphasis():
                renderer.close()

    def test_a_refusal_that_is_kept_is_told(self) -> None:
        with Renderer(3) as renderer:
            with self.assertRaises(TooNarrowError), renderer.quote():
                renderer.add_inline_text("漢")
                renderer.new_line()
            self.assertIsInstance(renderer.failure(), TooNarrowError)


if __name__ == "__main__":
    unittest.main()
