"""Plain text of mails: its lines, by the depth at which they are quoted, joined as `format=flowed` says."""

from collections.abc import Iterator

# What comes before a signature, with its space.
SIGNATURE = "-- "

# How deep a line is quoted, and the line.
Line = tuple[int, str]


def flowed(text: str, deletes_space: bool) -> Iterator[Line]:
    """The paragraphs of text in which a line that ends in a space continues in the next one, if that isn't empty.

    deletes_space: the space isn't part of the text, as in languages without spaces between words.
    """
    words: list[str] = []
    depth = 0
    for now, line in map(unstuffed, text.split("\n")):
        if words and (now != depth or line in ("", SIGNATURE)):
            yield depth, "".join(words)
            words = []
        depth = now
        goes_on = line.endswith(" ") and line != SIGNATURE
        words.append(line[:-1] if goes_on and deletes_space else line)
        if not goes_on:
            yield depth, "".join(words)
            words = []
    if words:
        yield depth, "".join(words)


def fixed(text: str) -> Iterator[Line]:
    """The lines of text that keeps them."""
    return map(quoted, text.split("\n"))


def unstuffed(line: str) -> Line:
    """How deep a line is quoted, and the line without that, and without the space that is put in front of some."""
    words = line.lstrip(">")
    return len(line) - len(words), words.removeprefix(" ")


def quoted(line: str) -> Line:
    """How deep a line is quoted where marks may have spaces between them, and the line without that."""
    depth = at = 0
    while line.startswith((">", " >"), at) and (depth or line[0] == ">"):
        at += 1 + (line[at] == " ")
        depth += 1
    return depth, line[at:].removeprefix(" ") if depth else line
