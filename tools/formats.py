"""What the formats of blockview say, read by parsers that know nothing of it.

They are json and html.parser of Python, and a reader of the control sequences of ECMA-48 and of terminals' hyperlinks.

Each reader raises Wrong where a text isn't of its format, or lets a control character out.
"""
import json
import re
import urllib.parse
from html.parser import HTMLParser

# All control characters but the newline, which ends a line of each format.
CONTROL = re.compile(r"[\x00-\x09\x0b-\x1f\x7f-\x9f]")
# A selection of how characters are shown, and a hyperlink.
SELECTS = re.compile(r"\x1b\[((?:\d+;)*\d+)m")
LINKS = re.compile(r"\x1b\]8;;([\x21-\x7e]*)\x1b\\")
BEGINS = {"1", "2", "3", "4", "9", "36", "38", "48"}
ENDS = {"22", "23", "24", "29", "39", "49"}
# What stays as it is in a target: all that may be in a URL, and the escapes that it has.
SAFE = "".join(chr(c) for c in range(0x21, 0x7F) if chr(c) not in '"<>\\^`{|}')
FOLLOWED = ("http://", "https://", "mailto:", "ftp://")
ELEMENTS = {"pre", "a", "em", "strong", "s", "code", "span"}
VOID = {"meta"}


class Wrong(Exception):
    """A text isn't of its format."""


def clean(text):
    """A text without control characters."""
    return CONTROL.sub("", text).replace("\n", "")


def encoded(target):
    """A target as it is in a link."""
    return urllib.parse.quote(target, safe=SAFE)


def is_followed(target):
    """Whether a link may lead to a target: it has no scheme, or one of those."""
    return ":" not in target or target.startswith(FOLLOWED)


def require(holds, what):
    if not holds:
        raise Wrong(what)


# ---- JSON, an object a line


def lines_of_json(text):
    """The objects of the lines."""
    require(not CONTROL.search(text), "a control character in JSON")
    lines = [json.loads(line) for line in text.split("\n")[:-1]]
    for line in lines:
        pieces = [piece for piece in line["pieces"] if "text" in piece]
        require(line["columns"] == sum(piece["columns"] for piece in pieces), "columns that aren't the sum")
        require(set(line) == {"border", "columns", "pieces"}, "a line with other keys")
    return lines


def characters(line):
    return "".join(piece.get("text", "") for piece in line["pieces"])


def text_of_json(lines):
    """The characters of the lines, each with a newline."""
    return "".join(characters(line) + "\n" for line in lines)


# ---- control sequences


def read_ansi(text):
    """The characters that a terminal shows, and the links, each with its characters. No link leads to a script."""
    shown, links, target = [], [], ""
    at = 0
    while at < len(text):
        if found := SELECTS.match(text, at):
            code = found[1].split(";")[0]
            require(code in BEGINS | ENDS, f"an unknown selection {found[1]}")
        elif found := LINKS.match(text, at):
            target = found[1]
            require(is_followed(target), f"a hyperlink to {target}")
        else:
            c = text[at]
            require(not CONTROL.match(c), f"a control character U+{ord(c):04X} in text for a terminal")
            require(c != "\n" or not target, "a link that goes on in another line")
            shown.append(c)
            if target and c != "\n":
                links.append((target, c))
            at += 1
            continue
        at = found.end()
    require(not target, "a link that doesn't end")
    return "".join(shown), links


def links_of_json(lines):
    """The characters of links, each with its target as it is in a link; of links inside another the inner one.

    A link without a target leads nowhere, and so does one to a target that isn't followed.
    """
    for line in lines:
        for piece in line["pieces"]:
            targets = [it["target"] for it in piece.get("annotations", []) if it["kind"] == "link"]
            if targets and targets[-1] and is_followed(targets[-1]):
                yield from ((encoded(targets[-1]), c) for c in clean(piece["text"]))


# ---- HTML


class Page(HTMLParser):
    """The text of what is in the elements `pre`, and the targets of its links."""

    def __init__(self):
        super().__init__(convert_charrefs=True)
        self.open, self.text, self.hrefs = [], [], []

    def handle_starttag(self, tag, attrs):
        if tag in VOID or tag == "style":
            self.open += [tag] if tag == "style" else []
            return
        require(tag in ELEMENTS, f"an element {tag}")
        for name, value in attrs:
            require(name in {"href", "id", "class", "style", "title"}, f"an attribute {name}")
            require(not CONTROL.search(value or ""), "a control character in an attribute")
        self.hrefs += [value for name, value in attrs if name == "href"]
        self.open.append(tag)

    def handle_endtag(self, tag):
        require(self.open and self.open[-1] == tag, f"an end of {tag} where {self.open[-1:]} is open")
        self.open.pop()

    def handle_data(self, data):
        if "pre" in self.open:
            self.text.append(data)
        elif "style" not in self.open:
            require(not data.strip(), "text that stands outside")

    def handle_comment(self, data):
        raise Wrong("a comment")

    def unknown_decl(self, data):
        raise Wrong("a declaration")

    def handle_pi(self, data):
        raise Wrong("a processing instruction")


def read_html(text):
    """The characters that a browser shows. Its links lead to no script."""
    require(not CONTROL.search(text), "a control character in HTML")
    page = Page()
    page.feed(text)
    page.close()
    require(not page.open, f"elements that don't end: {page.open}")
    shown = "".join(page.text)
    # A newline at the front of `pre` isn't shown.
    require(shown.startswith("\n"), "no newline at the front")
    for href in page.hrefs:
        require(is_followed(href), f"a link to {href}")
    return shown[1:]
