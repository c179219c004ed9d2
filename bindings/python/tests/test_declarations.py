"""The library is called as its header declares it."""

import ctypes
import re
import unittest
from pathlib import Path

from text_block_renderer import (
    CellAlign,
    Decorator,
    Format,
    ImageRenderMode,
    Kind,
    WhiteSpace,
    __version__,
    errors,
    library_version,
)
from text_block_renderer import _library as library

HEADER = Path(__file__).resolve().parents[3] / "include" / "text_block_renderer.h"
PROJECT = Path(__file__).resolve().parents[1] / "pyproject.toml"
C_TYPES = {
    "size_t": ctypes.c_size_t,
    "uint32_t": ctypes.c_uint32,
    "uint16_t": ctypes.c_uint16,
    "uint8_t": ctypes.c_uint8,
    "int64_t": ctypes.c_int64,
    "bool": ctypes.c_bool,
    "const char *": ctypes.c_char_p,
    "char *": ctypes.c_char_p,
    "tbr_white_space": ctypes.c_uint32,
    "tbr_alignment": ctypes.c_uint32,
    "tbr_format": ctypes.c_uint32,
    "tbr_renderer *": ctypes.c_void_p,
    "size_t *": ctypes.POINTER(ctypes.c_size_t),
    "bool *": ctypes.POINTER(ctypes.c_bool),
    "tbr_line *": ctypes.POINTER(library.Line),
    "tbr_piece *": ctypes.POINTER(library.Piece),
    "tbr_annotation *": ctypes.POINTER(library.Annotation),
    "tbr_extent *": ctypes.POINTER(library.Extent),
}
STRUCTS = {
    "tbr_options": library.Options,
    "tbr_answer": library.Answer,
    "tbr_line": library.Line,
    "tbr_piece": library.Piece,
    "tbr_annotation": library.Annotation,
    "tbr_extent": library.Extent,
}
ENUMS = {
    "tbr_decorator": Decorator,
    "tbr_images": ImageRenderMode,
    "tbr_format": Format,
    "tbr_white_space": WhiteSpace,
    "tbr_alignment": CellAlign,
    "tbr_annotation_kind": Kind,
}


def declared(text: str) -> list[tuple[str, str]]:
    """The type and the name of each parameter or field."""
    return re.findall(r"([\w ]+?[ *]+)(\w+)\s*(?:[,;]|$)", " ".join(text.split()))


def c_types(text: str) -> list[type]:
    return [C_TYPES[kind.strip()] for kind, _ in declared(text)]


class Declarations(unittest.TestCase):
    @classmethod
    def setUpClass(cls) -> None:
        cls.header = re.sub(r"/\*.*?\*/", "", HEADER.read_text(), flags=re.S)

    def test_each_call_is_declared(self) -> None:
        calls = re.findall(r"^tbr_status tbr_(\w+)\(tbr_renderer \*renderer(.*?)\);", self.header, re.M | re.S)
        taken = {name: tuple(c_types(parameters)) for name, parameters in calls}
        without_length = {name for name in taken if f"{name}_n" in taken}
        self.assertEqual({name: taken[name] for name in taken if name not in without_length}, library.CALLS)

    def test_calls_without_a_renderer_are_declared(self) -> None:
        for name in ("render", "render_raw", "text_width_n"):
            parameters = re.search(rf"^\w+ tbr_{name}\((.*?)\);", self.header, re.M | re.S)
            assert parameters
            function = getattr(library.LIBRARY, f"tbr_{name}")
            self.assertEqual(list(function.argtypes), c_types(parameters[1]), name)

    def test_each_struct_has_its_fields(self) -> None:
        for name, struct in STRUCTS.items():
            fields = re.search(rf"typedef struct {name} {{(.*?)}}", self.header, re.S)
            assert fields
            expected = [(field, C_TYPES[kind.strip()]) for kind, field in declared(fields[1])]
            self.assertEqual(struct._fields_, expected, name)

    def test_each_enum_has_its_values(self) -> None:
        for name, enum in ENUMS.items():
            values = re.search(rf"typedef enum {name} {{(.*?)}}", self.header, re.S)
            assert values
            numbers = [int(number) for number in re.findall(r"= (\d+)", values[1])]
            self.assertEqual([value.value for value in enum], numbers, name)

    def test_each_status_has_its_exception(self) -> None:
        numbers = re.findall(r"TBR_\w+ = (\d+)", self.header[: self.header.index("} tbr_status;")])
        words = library.LIBRARY.tbr_status_text
        words.restype = ctypes.c_char_p
        for number in map(int, numbers):
            refused = errors.refusal(number)
            self.assertEqual(str(refused) if refused else "well", words(number).decode(), number)
        self.assertEqual(len(numbers), 18)

    def test_each_version_is_that_of_the_header(self) -> None:
        version = re.search(r'^#define TBR_VERSION "(.*)"$', self.header, re.M)
        assert version
        self.assertEqual(__version__, version[1])
        self.assertIn(f'\nversion = "{version[1]}"\n', PROJECT.read_text())
        self.assertIn(library_version(), (version[1], f"{version[1]}+unproved"))


if __name__ == "__main__":
    unittest.main()
