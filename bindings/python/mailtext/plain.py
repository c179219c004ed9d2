"""Plain text, drawn with its quotes."""

from collections.abc import Iterable
from itertools import groupby

from text_block_renderer import WhiteSpace

from .flowed import Line
from .page import Page

# Deeper quotes are shown as of this depth. So much is left of a line in it, where the page has more.
DEEPEST_QUOTE = 20
LEAST_COLUMNS = 20


def draw_plain(page: Page, lines: Iterable[Line]) -> None:
    """Draws lines of text, each with how deep it is quoted. Those between empty lines keep their white space."""
    deepest = max(1, min(DEEPEST_QUOTE, (page.renderer.width() - LEAST_COLUMNS) // len(page.renderer.quote_prefix())))
    depth = 0
    for now, run in groupby(lines, lambda line: min(line[0], deepest)):
        text = without_empty_lines([line for _, line in run])
        if not text:
            continue
        for _ in range(now, depth):
            page.renderer.end_quote()
        for _ in range(depth, now):
            page.renderer.start_quote()
        depth = now
        page.renderer.end_block()
        with page.renderer.white_space(WhiteSpace.PRE_WRAP):
            page.renderer.add_inline_text(text)
    for _ in range(depth):
        page.renderer.end_quote()


def without_empty_lines(lines: list[str]) -> str:
    """The text of lines without those in front and at the end that are empty."""
    kept = [line.rstrip() for line in lines]
    while kept and not kept[-1]:
        kept.pop()
    begin = next((number for number, line in enumerate(kept) if line), len(kept))
    return "\n".join(kept[begin:])
