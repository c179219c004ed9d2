"""What a page holds as text, for a terminal, and as HTML. No control characters come out except newlines, and the
escapes for a terminal, none of which comes from a mail.
"""

import re

from .page import Page

# What ends styles of a terminal one by one.
ENDS = re.compile("(?:\x1b\\[(?:2[2349]|39)m)+")
STYLE = "<style>pre .wide { display: inline-block; width: 2ch }</style>"


def formatted(page: Page) -> str:
    """What a page holds, without spaces at the ends of lines. It can't be filled any longer.

    For a terminal all styles end together, since some readers can't end a single one.
    """
    text = "\n".join(line.rstrip(" ") for line in page.into_string().split("\n"))
    return ENDS.sub("\x1b[0m", text) if "\x1b" in text else text


def document(body: str) -> str:
    """A document of its own, of lines in HTML."""
    return f'<!DOCTYPE html>\n<meta charset="utf-8">\n{STYLE}\n<pre>\n{body}</pre>\n'
