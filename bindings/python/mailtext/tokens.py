"""HTML as tags and the text between them, read much as browsers read it, in time in proportion to its length."""

import re
from html import unescape

from .characters import clean

# A tag whose quotes have neither `<` nor `>`, as nearly all.
USUAL = re.compile(r"""<(/?[a-zA-Z][^\s/<>"']*)([^<>"']*(?:"[^"<>]*"[^<>"']*){0,40})>""")
# The name of a tag, or what else may follow a `<`.
NAME = r"/?[a-zA-Z][^\s/>]*|!--|[!?]|/[^>]"
ATTRIBUTE = re.compile(r"""([^\s/>=][^\s/>=]*)(?:\s*=\s*("[^"]*"|'[^']*'|[^\s>]*))?""")
BETWEEN = r"[\s/]*"
# Of more tags than people write only the text around them is read, of longer attributes only the beginning.
MOST_TAGS = 500_000
MOST_ATTRIBUTES = 1 << 16
TAG = "<[^<>]*>"
# More digits than a reference to a character has.
LONG_REFERENCE = "&#[0-9]{9,};?"

# Elements whose content is no HTML.
RAW = frozenset("script style title textarea xmp iframe noembed noframes".split())
# Those whose references to characters are read all the same.
REFERENCES_IN_RAW = frozenset(("title", "textarea"))


class Tokens:
    """Reads HTML, and calls a method for each tag, and one for each stretch of text."""

    def __init__(self, html: str) -> None:
        self._html = html
        self._at = 0
        # What was looked for up to the end, and isn't there.
        self._missing: set[str] = set()
        self._tags = 0

    def start(self, tag: str, attributes: str) -> None:
        """A start tag, with the text of its attributes, which `attributes_of` reads."""

    def end(self, tag: str) -> None:
        """An end tag."""

    def text(self, text: str) -> None:
        """A stretch of text, which isn't empty. Two may follow one another."""

    def read(self) -> None:
        """Reads it all."""
        html = self._html
        while self._tags < MOST_TAGS and (begin := html.find("<", self._at)) >= 0:
            if begin > self._at:
                self._text(html[self._at : begin])
            if found := USUAL.match(html, begin):
                self._at = found.end()
                self._tag(found[1].lower(), found[2])
            elif self._find(">", begin) >= 0:
                self._at = begin + 1
                self._markup()
            else:
                self._at = begin
                break
        if self._at < len(html):
            rest = html[self._at :]
            self._text(re.sub(TAG, " ", rest) if self._tags == MOST_TAGS else rest)

    def _tag(self, name: str, attributes: str) -> None:
        """Takes a tag."""
        self._tags += 1
        if name[0] == "/":
            self.end(name[1:])
            return
        self.start(name, attributes)
        if name in RAW:
            self._raw(name)

    def _markup(self) -> None:
        """Reads what follows a `<`, other than a usual tag."""
        found = re.compile(NAME).match(self._html, self._at)
        if found is None:
            self.text("<")
            return
        name = found[0]
        if not name.lstrip("/")[:1].isalpha():
            self._declaration(name)
            return
        end = self._end_of_tag(found.end())
        self._at = end + 1
        self._tag(name.lower(), self._html[found.end() : min(end, found.end() + MOST_ATTRIBUTES)])

    def _text(self, text: str) -> None:
        self.text(unescaped(text) if "&" in text else text)

    def _declaration(self, name: str) -> None:
        """Passes over a comment, or something that looks like a tag and isn't one."""
        end = self._find("-->") if name == "!--" else -1
        length = 3
        if end < 0:
            end, length = self._find(">"), 1
        if end < 0:
            self.text("<")
        else:
            self._at = end + length

    def _end_of_tag(self, begin: int) -> int:
        """Where the `>` of a tag is, of which one between quotes isn't."""
        html = self._html
        end = html.find(">", begin)
        if (html.count('"', begin, end) | html.count("'", begin, end)) & 1 == 0:
            return end
        at = self._after_space(begin)
        while at < begin + MOST_ATTRIBUTES and (found := ATTRIBUTE.match(html, at)):
            at = self._after_space(found.end())
        return at if html[at : at + 1] == ">" else end

    def _after_space(self, begin: int) -> int:
        """Where the white space and the slashes end that begin there."""
        found = re.compile(BETWEEN).match(self._html, begin)
        return found.end() if found else begin

    def _raw(self, name: str) -> None:
        """Passes over the content of an element that isn't HTML, if it has an end."""
        if name in self._missing:
            return
        found = re.compile(f"</{name}(?=[\\s/>])", re.I).search(self._html, self._at)
        if found is None:
            self._missing.add(name)
            return
        content = self._html[self._at : found.start()]
        self._at = found.start()
        if content:
            self.text(unescaped(content) if name in REFERENCES_IN_RAW else content)

    def _find(self, text: str, begin: int | None = None) -> int:
        """Where a text comes next, or -1. What was missed once is missing further on."""
        if text in self._missing:
            return -1
        found = self._html.find(text, self._at if begin is None else begin)
        if found < 0:
            self._missing.add(text)
        return found


def attributes_of(text: str) -> dict[str, str]:
    """The attributes that a start tag's text has. Of two of a name the first counts."""
    if not text or text.isspace():
        return {}
    read: dict[str, str] = {}
    for name, value in ATTRIBUTE.findall(text):
        if value[:1] in ('"', "'") and value[-1:] == value[0] and len(value) > 1:
            value = value[1:-1]
        if "&" in value:
            value = unescaped(value)
        read.setdefault(name.lower(), value)
    return read


def unescaped(text: str) -> str:
    """A text with the characters that it refers to."""
    try:
        return clean(unescape(text))
    except ValueError:
        return clean(unescape(re.sub(LONG_REFERENCE, "\ufffd", text)))
