"""Compares the blocks marked `rust` on pages with the sources of the crates.

Each paragraph of a block has to be in one source file, line for line but for white space in front. A line `// ..`
in it means lines that the page leaves out; they stay within one function.
"""
import re
from pathlib import Path

TOP = Path(__file__).resolve().parent.parent
LEFT_OUT = "// ..\n"
# Lines that don't begin another function, as few as possible.
BETWEEN = r"(?:(?!(?:pub )?fn )[^\n]*\n)*?"


def stripped(text):
    return "".join(f"{line.strip()}\n" for line in text.splitlines())


def paragraphs(page):
    """The paragraphs of the page's blocks, each after the number of its first line."""
    for block in re.finditer(r"^```rust\n(.*?)^```$", page, re.M | re.S):
        for paragraph in re.finditer(r"(?:[^\n]*\S[^\n]*\n)+", block[1]):
            yield page.count("\n", 0, block.start(1) + paragraph.start()) + 1, stripped(paragraph[0])


def is_quoted(paragraph, sources):
    pieces = map(re.escape, paragraph.split(LEFT_OUT))
    quoted = re.compile("^" + BETWEEN.join(pieces), re.M)
    return any(quoted.search(source) for source in sources)


def missing(pages):
    """What is on pages and in no source, by page and line."""
    sources = [stripped(it.read_text()) for it in sorted(TOP.glob("crates/*/src/**/*.rt"))]
    return [
        f"{page}:{line}: no source has these lines: {paragraph.splitlines()[0]} .."
        for page in pages
        for line, paragraph in paragraphs((TOP / page).read_text(encoding="utf-8"))
        if not is_quoted(paragraph, sources)
    ]


def pages():
    """The pages of this repository, by their paths in it."""
    return ["README.md", *sorted(str(it.relative_to(TOP)) for it in [*TOP.glob("docs/*.md"), *TOP.glob("crates/*/README.md")])]
