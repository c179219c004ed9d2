"""What is given has a type. A TypeError says which was expected, and which came, and nothing is done."""

import unittest
from array import array
from typing import Any

from text_block_renderer import (
    CellAlign,
    Colour,
    Decorator,
    ImageRenderMode,
    Renderer,
    ScriptError,
    WhiteSpace,
    render_script,
    text_width,
)


class Index:
    """What counts as a whole number."""

    def __index__(self) -> int:
        return 8


class Types(unittest.TestCase):
    def refused(self, sentence: str, call: Any, *arguments: Any, **named: Any) -> None:
        with self.assertRaises(TypeError) as raised:
            call(*arguments, **named)
        self.assertEqual(str(raised.exception), sentence)

    def test_a_text_is_a_str(self) -> None:
        with Renderer(20) as renderer:
            for value, came in ((3, "int"), (b"a", "bytes"), (None, "NoneType")):
                self.refused(f"text must be a str, not {came}", renderer.add_inline_text, value)
                self.refused(f"text must be a str, not {came}", text_width, value)
                self.refused(f"name must be a str, not {came}", renderer.record_frag_start, value)
                self.refused(f"target must be a str, not {came}", renderer.start_link, value)
                self.refused(f"target must be a str, not {came}", renderer.link(value).__enter__)
                self.refused(f"source must be a str, not {came}", renderer.add_image, value, "")
                self.refused(f"title must be a str, not {came}", renderer.add_image, "", value)
                self.refused(f"first must be a str, not {came}", renderer.append_subrender, value, "")
                self.refused(f"others must be a str, not {came}", renderer.append_subrender, "", value)
            self.assertEqual(renderer.into_string(), "")

    def test_a_prefix_is_refused_before_its_block(self) -> None:
        with Renderer(20) as renderer:
            self.refused("first must be a str, not int", renderer.subrender(18, 3, "").__enter__)
            self.refused("others must be a str, not int", renderer.subrender(18, "", 3).__enter__)
            self.refused("first must be a str, not int", renderer.prefixed, 3, "")
            self.refused("others must be a str, not int", renderer.prefixed, "", 3)
            self.assertEqual(renderer.depth(), 0)

    def test_a_number_is_whole(self) -> None:
        with Renderer(20) as renderer:
            for value, came in (("24", "str"), (24.0, "float"), (None, "NoneType"), (CellAlign.RIGHT, "CellAlign")):
                self.refused(f"width must be an int, not {came}", Renderer, value)
                self.refused(f"width must be an int, not {came}", renderer.start_subrender, value)
                self.refused(f"width must be an int, not {came}", renderer.start_cell, value)
                self.refused(f"span must be an int, not {came}", renderer.start_cell, 7, value)
                self.refused(f"span must be an int, not {came}", renderer.cell(7, value).__enter__)
                self.refused(f"columns must be an int, not {came}", renderer.add_horizontal_border_width, value)
                self.refused(f"prefix_len must be an int, not {came}", renderer.width_minus, value, 1)
                self.refused(f"min_width must be an int, not {came}", renderer.width_minus, 1, value)
                self.refused(f"level must be an int, not {came}", renderer.header_prefix, value)
                self.refused(f"number must be an int, not {came}", renderer.ordered_item_prefix, value)
                self.refused(f"level must be an int, not {came}", renderer.header(value).__enter__)
                self.refused(f"number must be an int, not {came}", renderer.ordered_item(value).__enter__)
            self.refused("wrap_width must be an int, not str", Renderer, 24, wrap_width="8")
            self.assertEqual((renderer.depth(), renderer.empty()), (0, True))

    def test_what_counts_as_a_whole_number_is_one(self) -> None:
        with Renderer(Index()) as renderer, Renderer(True) as narrow:
            self.assertEqual((renderer.width(), narrow.width()), (8, 1))
            self.assertEqual(renderer.ordered_item_prefix(True), "1. ")

    def test_a_choice_is_a_member(self) -> None:
        with Renderer(20) as renderer:
            for value, came in ((1, "int"), ("right", "str"), (None, "NoneType"), (Colour(0, 0, 0), "Colour")):
                self.refused(f"decorator must be a member of Decorator, not {came}", Renderer, 24, value)
                self.refused(f"img_mode must be a member of ImageRenderMode, not {came}", Renderer, 24, img_mode=value)
                self.refused(f"mode must be a member of WhiteSpace, not {came}", renderer.push_ws, value)
                self.refused(f"mode must be a member of WhiteSpace, not {came}", renderer.white_space(value).__enter__)
                self.refused(f"align must be a member of CellAlign, not {came}", renderer.start_cell, 7, 1, value)
            self.refused("decorator must be a member of Decorator, not CellAlign", Renderer, 24, CellAlign.LEFT)
            self.assertEqual((renderer.depth(), renderer.empty()), (0, True))

    def test_a_member_is_not_a_number(self) -> None:
        for kind in (CellAlign, Decorator, ImageRenderMode, WhiteSpace):
            self.assertFalse(any(isinstance(member, int) for member in kind))

    def test_a_colour_has_parts(self) -> None:
        with Renderer(20) as renderer:
            for push in (renderer.push_colour, renderer.push_bgcolour):
                self.refused("colour must be a Colour, not tuple", push, (255, 128, 0))
                for part, came in (("128", "str"), (0.5, "float")):
                    self.refused(f"colour.g must be an int, not {came}", push, Colour(255, part, 0))
                    self.refused(f"colour.b must be an int, not {came}", push, Colour(255, 0, part))
            self.assertTrue(renderer.empty())

    def test_a_number_out_of_bounds_is_told(self) -> None:
        with Renderer(20) as renderer:
            for number in (-1, 2**64, 10**5000):
                with self.assertRaisesRegex(ValueError, "^width must be from 0 to 18446744073709551615$"):
                    Renderer(number)
                with self.assertRaisesRegex(ValueError, "^span must be from 0 to 18446744073709551615$"):
                    renderer.start_cell(7, number)
            with self.assertRaisesRegex(ValueError, "^colour.g must be from 0 to 255$"):
                renderer.push_colour(Colour(0, 256, 0))
            for number in (-(2**63) - 1, 2**63):
                with self.assertRaisesRegex(ValueError, f"^number must be from {-(2**63)} to {2**63 - 1}$"):
                    renderer.ordered_item_prefix(number)

    def test_flags_count_by_their_truth(self) -> None:
        flags: list[Any] = ["yes", [0], 2]
        for flag in flags:
            with Renderer(4, pad_block_width=flag) as renderer:
                renderer.add_inline_text("a")
                self.assertEqual(renderer.into_string(), "a   \n")


class Scripts(unittest.TestCase):
    SCRIPT = "new 8 plain\ntext 漢字!\n"

    def test_a_script_is_a_text_or_bytes(self) -> None:
        encoded = self.SCRIPT.encode()
        padded = encoded + b"\n" * (-len(encoded) % 4)
        every_other = memoryview(bytes(byte for pair in encoded for byte in (pair, 0)))[::2]
        given = (self.SCRIPT, encoded, bytearray(encoded), memoryview(encoded), every_other, array("I", padded))
        for script in given:
            self.assertEqual(render_script(script), "漢字!\n")

    def test_a_script_with_a_surrogate_is_no_command_there(self) -> None:
        with self.assertRaisesRegex(ScriptError, "^line 2: not a command$"):
            render_script("new 8 plain\ntext \ud800\n")

    def test_what_has_no_bytes_is_no_script(self) -> None:
        scripts: list[tuple[Any, str]] = [(3, "int"), (None, "NoneType"), ([1], "list")]
        for script, came in scripts:
            with self.assertRaisesRegex(TypeError, f"^script must be a str or a bytes-like object, not {came}$"):
                render_script(script)


if __name__ == "__main__":
    unittest.main()
