#!/usr/bin/env python3
"""Reads a script from standard input, makes each of its calls by this package, and writes the text.

It answers as the program `blockrender` does. docs/SCRIPT.md teaches the language.
"""

import re
import sys
from collections.abc import Callable, Iterator
from contextlib import contextmanager
from pathlib import Path
from typing import Any

sys.path.insert(0, str(Path(__file__).resolve().parents[1]))

from text_block_renderer import (  # noqa: E402
    CellAlign,
    Colour,
    Decorator,
    ImageRenderMode,
    NothingToEndError,
    OutOfMemoryError,
    Renderer,
    RendererError,
    RowDoesNotFitError,
    TooNarrowError,
    WhiteSpace,
)

Call = Callable[[Renderer], None]


class NotACommand(Exception):
    """A line that is no command."""


class Refusal(Exception):
    """Why a script isn't rendered: the line on standard error, and the status."""

    def __init__(self, message: str, status: int) -> None:
        super().__init__(message)
        self.status = status


def refusal(number: int, error: Exception) -> Refusal:
    """The refusal of a call for the line of this number. What closes where more is open inside it is no command."""
    match error:
        case TooNarrowError() | OutOfMemoryError():
            return Refusal(str(error), 1)
        case NothingToEndError() | RowDoesNotFitError():
            return Refusal(f"line {number}: {error}", 2)
    return Refusal(f"line {number}: not a command", 2)


# ---- texts and numbers

# A backslash, and what makes it an escape, if anything does.
ESCAPE = re.compile(r"\\(?:([nt\\])|u\{([0-9A-Fa-f]{1,6})\}|)")
LETTERS = {"n": "\n", "t": "\t", "\\": "\\"}
MOST = 2**64 - 1


def unescaped(found: re.Match[str]) -> str:
    letter, digits = found.groups()
    if letter:
        return LETTERS[letter]
    if not digits or int(digits, 16) > sys.maxunicode or 0xD800 <= int(digits, 16) < 0xE000:
        raise NotACommand
    return chr(int(digits, 16))


def as_text(writing: str) -> str:
    """The text with its escapes replaced."""
    return ESCAPE.sub(unescaped, writing)


def two_texts(writing: str) -> tuple[str, str]:
    """Two texts, with the first ` | ` between them."""
    one, bar, other = writing.partition(" | ")
    if not bar:
        raise NotACommand
    return as_text(one), as_text(other)


def number(digits: str, least: int = 0, most: int = MOST) -> int:
    """A number in decimal digits alone, within these bounds. Python reads no number of thousands of digits."""
    significant = digits.lstrip("0")
    if not (digits.isascii() and digits.isdecimal() and len(significant) <= len(str(MOST))):
        raise NotACommand
    if not least <= int(significant or "0") <= most:
        raise NotACommand
    return int(significant or "0")


def size(digits: str) -> int:
    return number(digits, least=1)


def named(names: dict[str, Any], word: str) -> Any:
    """What has a name."""
    if word not in names:
        raise NotACommand
    return names[word]


# ---- commands

PLAIN: dict[str, Call] = {
    "block": Renderer.start_block,
    "endblock": Renderer.end_block,
    "table": Renderer.start_table,
    "line": Renderer.new_line,
    "hardline": Renderer.new_line_hard,
    "empty": Renderer.add_empty_line,
    "border": Renderer.add_horizontal_border,
    "endws": Renderer.pop_ws,
    "pre": Renderer.push_preformat,
    "endpre": Renderer.pop_preformat,
    "endlink": Renderer.end_link,
    "em": Renderer.start_emphasis,
    "endem": Renderer.end_emphasis,
    "strong": Renderer.start_strong,
    "endstrong": Renderer.end_strong,
    "strike": Renderer.start_strikeout,
    "endstrike": Renderer.end_strikeout,
    "code": Renderer.start_code,
    "endcode": Renderer.end_code,
    "super": Renderer.start_superscript,
    "endsuper": Renderer.end_superscript,
    "endcolour": Renderer.pop_colour,
    "endbg": Renderer.pop_bgcolour,
    "endcell": Renderer.end_cell,
    "row": Renderer.append_columns_with_borders,
    "vrow": Renderer.append_vert_row,
}
MODES = {"normal": WhiteSpace.NORMAL, "pre": WhiteSpace.PRE, "prewrap": WhiteSpace.PRE_WRAP}
ALIGNMENTS = {"left": CellAlign.LEFT, "right": CellAlign.RIGHT, "centre": CellAlign.CENTRE}


def colour(argument: str) -> Colour:
    parts = argument.split(" ")
    if len(parts) != 3:
        raise NotACommand
    red, green, blue = (number(part, most=255) for part in parts)
    return Colour(red, green, blue)


def cell(argument: str) -> tuple[int, int, CellAlign]:
    match argument.split(" "):
        case [width, span]:
            return size(width), size(span), CellAlign.LEFT
        case [width, span, align]:
            return size(width), size(span), named(ALIGNMENTS, align)
    raise NotACommand


def with_argument(renderer: Renderer, word: str, argument: str) -> None:
    """Makes the call of a command that has an argument."""
    match word:
        case "text":
            renderer.add_inline_text(as_text(argument))
        case "frag":
            renderer.record_frag_start(as_text(argument))
        case "link":
            renderer.start_link(as_text(argument))
        case "image":
            renderer.add_image(*two_texts(argument))
        case "border":
            renderer.add_horizontal_border_width(number(argument))
        case "ws":
            renderer.push_ws(named(MODES, argument))
        case "colour":
            renderer.push_colour(colour(argument))
        case "bg":
            renderer.push_bgcolour(colour(argument))
        case "sub":
            renderer.start_subrender(size(argument))
        case "append":
            renderer.append_subrender(*two_texts(argument))
        case "cell":
            renderer.start_cell(*cell(argument))
        case "row" if argument == "collapse":
            renderer.append_columns_with_borders(collapse=True)
        case _:
            raise NotACommand


def run(renderer: Renderer, line: str) -> None:
    """Makes the call that a line asks for."""
    word, space, argument = line.partition(" ")
    if space:
        with_argument(renderer, word, argument)
    else:
        named(PLAIN, line)(renderer)


# ---- the first command

DECORATORS = {"plain": Decorator.PLAIN, "trivial": Decorator.TRIVIAL, "rich": Decorator.RICH}
OPTIONS: dict[str, dict[str, Any]] = {
    "pad": {"pad_block_width": True},
    "overflow": {"allow_width_overflow": True},
    "footnotes": {"include_link_footnotes": True},
    "nowraplinks": {"wrap_links": False},
    "nostrike": {"use_unicode_strikeout": False},
    "noborders": {"draw_borders": False},
    "img=ignore": {"img_mode": ImageRenderMode.IGNORE_EMPTY},
    "img=always": {"img_mode": ImageRenderMode.SHOW_ALWAYS},
    "img=filename": {"img_mode": ImageRenderMode.FILENAME},
}


def opened(line: str) -> Renderer:
    """The renderer that the first command asks for."""
    match line.split(" "):
        case ["new", width, decorator, *words]:
            options: dict[str, Any] = {}
            for word in words:
                options |= option(word)
            return Renderer(size(width), named(DECORATORS, decorator), raw=True, **options)
    raise NotACommand


def option(word: str) -> dict[str, Any]:
    if word.startswith("wrap="):
        return {"wrap_width": size(word.removeprefix("wrap="))}
    return named(OPTIONS, word)


# ---- the script


@contextmanager
def at_line(number: int) -> Iterator[None]:
    """What is raised inside is the refusal of the line of this number."""
    try:
        yield
    except (NotACommand, UnicodeDecodeError, RendererError) as error:
        raise refusal(number, error) from error


def text_of(script: bytes) -> str:
    """The text of a script. `Refusal` where a line is at fault, or a call refuses."""
    lines = script.removesuffix(b"\n").split(b"\n") if script else []
    end = len(lines) + 1
    commands = ((number, line) for number, line in enumerate(lines, 1) if line)
    number, first = next(commands, (end, b""))
    with at_line(number):
        renderer = opened(first.decode())
    with renderer:
        for number, line in commands:
            with at_line(number):
                run(renderer, line.decode())
        with at_line(end):
            text = renderer.into_string()
    return text


def main() -> int:
    try:
        text = text_of(sys.stdin.buffer.read())
    except Refusal as refused:
        print(refused, file=sys.stderr)
        return refused.status
    sys.stdout.buffer.write(text.encode())
    return 0


if __name__ == "__main__":
    sys.exit(main())
