"""What a page may not have: more words than there is room for, long sentences, dead links, names that don't exist.

The page of promises has to name each law of the top crate.

A word has a letter or a digit; those in tables and code count too. A sentence is one of a paragraph, an item or a cell of
a table, where a piece of code counts as one word.
"""
import re
from dataclasses import dataclass
from functools import lru_cache
from pathlib import Path

TOP = Path(__file__).resolve().parent.parent
# The words of all pages but those of the bindings, which are packed with these.
WORDS = 22_000
# The words of a sentence, and of one that defines something.
SENTENCE = 30
DEFINITION = 40
DEFINES = ("docs/MODEL.md",)
# The lines of pages that are to be read at a glance.
LINES = {"README.md": 125, "docs/architecture.md": 70, "docs/CONTRIBUTING.md": 70}
CRATE_LINES = 70
# The page that names each law of a crate, and that crate's sources.
PROMISES = "docs/PROMISES.md"
LAWS = "crates/text_block_renderer/src"
LAW = re.compile(r"^pub fn (\w+)", re.M)

WORD = re.compile(r"\S*[^\W_]\S*")
FENCED = re.compile(r"^ *```.*?^ *```$", re.M | re.S)
CODE = re.compile(r"`([^`\n]+(?:\n[^`\n]+)?)`")
LINK = re.compile(r"\[((?:[^\[\]]|\[[^\]]*\])*)\]\(([^)\s]+)\)")
HEADING = re.compile(r"^#+ (.+)$", re.M)
ITEM = re.compile(r"^\s*(?:[-*]|\d+\.) ")
ENDS = re.compile(r"(?<=[.!?])[)\"*]*\s+(?=[^a-z])")
FILE = re.compile(r"[\w.*-]+(?:/[\w.*-]+)*\.(?:rt|antt|md|txt|py|script|out|edit|c|h|rs|toml)$|[\w.*-]+(?:/[\w.*-]+)+/?$")
NAME = re.compile(r"[A-Za-z_]\w{2,}(?:::\w+)*(?:\(\))?$")
# In place of a name that a reader puts there.
PLACEHOLDER = re.compile(r"(?:^|[/.])[A-Z][A-Z_]*(?:[/.]|$)")
# The code that names come from, with what begins a comment there.
SOURCES = {"crates/**/*.rt": "//", "crates/**/*.antt": "--", "tools/*": "#", "bench/*": "#", "include/*.h": "\0"}
SOURCES |= {"bindings/**/*.rs": "//", "bindings/**/*.py": "#", "crates.txt": "#"}
SOURCES |= {"examples/**/*.rs": "//", "examples/**/*.py": "#", "examples/**/*.c": "//"}
# Folders of what is built.
BUILT = {"out", "target", "build"}
# Names of html2text and of std that have none here, and of files that a reader makes.
FOREIGN = {"UnicodeWidthStr", "consume", "into_untagged_lines", "to_string", "extend_to", "Deref", "DerefMut"}
FOREIGN |= {"non_exhaustive", "first.c"}


@dataclass
class Page:
    """A page by its path in the repository, and its text."""

    path: str
    text: str

    def words(self):
        return len(WORD.findall(self.text))

    def lines(self):
        return self.text.count("\n")

    def prose(self):
        """The text without code blocks."""
        return FENCED.sub("\n", self.text)

    def anchors(self):
        """The anchors of its headings."""
        plain = (LINK.sub(r"\1", it).replace("`", "").lower() for it in HEADING.findall(self.prose()))
        return {re.sub(r"[^\w\- ]", "", it).strip().replace(" ", "-") for it in plain}

    def sentences(self):
        """Its sentences, each with how many words it has."""
        for paragraph in paragraphs(self.prose()):
            plain = LINK.sub(r"\1", CODE.sub("Code", paragraph))
            for sentence in ENDS.split(plain):
                yield len(WORD.findall(sentence)), " ".join(sentence.split())


def paragraphs(prose):
    """What holds sentences: paragraphs, items, headings and the cells of tables."""
    held = []
    for line in [*prose.splitlines(), ""]:
        if held and (not line.strip() or ITEM.match(line) or line.lstrip().startswith(("|", "#"))):
            yield " ".join(held)
            held = []
        if line.lstrip().startswith("|"):
            yield from line.split("|")
        elif line.strip():
            held.append(ITEM.sub("", line).lstrip("# "))


def pages():
    """All pages of this repository."""
    paths = sorted(str(it.relative_to(TOP)) for it in TOP.glob("**/*.md") if not is_built(it))
    return [Page(it, (TOP / it).read_text(encoding="utf-8")) for it in paths if not it.startswith(".")]


def is_built(file):
    return not BUILT.isdisjoint(file.relative_to(TOP).parts[:-1])


def long_sentences(page):
    limit = DEFINITION if page.path in DEFINES else SENTENCE
    for words, sentence in page.sentences():
        if words > limit:
            yield f"a sentence of {words} words, {limit} at most: {sentence[:70]} .."


def long_page(page):
    limit = CRATE_LINES if page.path.startswith("crates/") else LINES.get(page.path)
    if limit and page.lines() > limit:
        yield f"{page.lines()} lines, {limit} at most"


def dead_links(page):
    for _, target in LINK.findall(page.prose()):
        if re.match(r"[a-z]+:", target):
            continue
        path, _, anchor = target.partition("#")
        there = (TOP / page.path).parent / path if path else TOP / page.path
        if not there.exists():
            yield f"a dead link: {target}"
        elif anchor and anchor not in Page(target, there.read_text(encoding="utf-8")).anchors():
            yield f"a link to no heading: {target}"


@lru_cache(maxsize=None)
def known_names():
    """The names in the code of this repository, and those of others that pages may use."""
    names = set(FOREIGN)
    for pattern, comment in SOURCES.items():
        for file in TOP.glob(pattern):
            if file.is_file() and not is_built(file):
                names.update(re.findall(r"\w+", re.sub(f"{comment}.*", "", file.read_text(encoding="utf-8"))))
    return names


@lru_cache(maxsize=None)
def is_file(name, folder):
    """Whether there is a file of this path, from the top, from the page's folder, or anywhere in a folder of it."""
    return any(any(base.glob(name.rstrip("/"))) for base in (TOP, TOP / folder)) or any(TOP.glob(f"crates/**/{name}"))


def names_of_nothing(page):
    folder = str(Path(page.path).parent)
    for code in CODE.findall(page.prose()):
        if FILE.match(code):
            is_here = PLACEHOLDER.search(code) or code in FOREIGN or code.split("/")[0] in BUILT
            if not is_here and not is_file(code, folder):
                yield f"no file: {code}"
        elif NAME.match(code):
            missing = [it for it in re.findall(r"\w+", code) if it not in known_names()]
            if missing and not code.isupper():
                yield f"no such name: {code}"


def laws():
    """The laws of the top crate."""
    for file in sorted([*TOP.glob(f"{LAWS}/laws.rt"), *TOP.glob(f"{LAWS}/laws/*.rt")]):
        yield from LAW.findall(file.read_text(encoding="utf-8"))


def unnamed_laws(page):
    if page.path == PROMISES:
        named = CODE.findall(page.prose())
        yield from (f"a law that isn't named: {law}" for law in laws() if law not in named)


def complaints(page):
    """What is wrong with a page, each by its path."""
    checks = (long_page, long_sentences, dead_links, names_of_nothing, unnamed_laws)
    return [f"{page.path}: {it}" for check in checks for it in dict.fromkeys(check(page))]


def total(found):
    """The words of pages, but for those of the bindings."""
    return sum(page.words() for page in found if not page.path.startswith("bindings/"))


def wrong(found):
    """What is wrong with pages, and with all of them together."""
    told = [it for page in found for it in complaints(page)]
    return told + [f"all pages: {total(found)} words, {WORDS} at most"] * (total(found) > WORDS)
