"""Characters that a terminal obeys, and those of charsets, as a mail may bring them."""

import codecs
import re

# Patterns that aren't compiled here are used by few mails: compiling them takes longer than showing some.

# What a terminal obeys, but for tabs and newlines; halves of characters, which no file has. Then other ends of lines.
CONTROLS = re.compile("[\x00-\x08\x0e-\x1f\x7f-\x9f\ud800-\udfff]")
ENDS = ("\r\n", "\r", "\x0b", "\x0c")

# What senders call by another name than Python does, as browsers read it.
NAMES = {
    "iso-8859-1": "windows-1252",
    "iso8859-1": "windows-1252",
    "latin1": "windows-1252",
    "latin-1": "windows-1252",
    "us-ascii": "",
    "ascii": "",
    "iso-8859-9": "windows-1254",
    "iso-8859-11": "windows-874",
    "tis-620": "windows-874",
    "gb2312": "gb18030",
    "gbk": "gb18030",
    "gb_2312-80": "gb18030",
    "x-gbk": "gb18030",
    "ks_c_5601-1987": "cp949",
    "euc-kr": "cp949",
    "shift_jis": "cp932",
    "x-sjis": "cp932",
    "shift-jis": "cp932",
    "unicode-1-1-utf-7": "utf-7",
}
# Encodings of Python's that no mail is in.
NOT_OF_MAIL = frozenset("idna punycode unicode-escape raw-unicode-escape undefined mbcs oem".split())
MARKS = {codecs.BOM_UTF8: "utf-8-sig", codecs.BOM_UTF16_LE: "utf-16", codecs.BOM_UTF16_BE: "utf-16"}
DECLARATION = rb"""(?i)<(?:meta\s[^>]{0,300}?charset\s*=\s*["']?|\?xml\s[^>]{0,80}?encoding\s*=\s*["'])([\w.:-]+)"""
# Where a document may say in which charset it is.
BEGINNING = 4096


def clean(text: str) -> str:
    """A text without control characters except tabs and newlines, which end its lines."""
    for end in ENDS:
        text = text.replace(end, "\n")
    return CONTROLS.sub("", text)


def one_line(text: str) -> str:
    """A text in one line, without control characters."""
    return " ".join(clean(text).split())


def decoded(data: bytes, charset: str | None) -> str:
    """The text of bytes in this charset. If none is known, it is UTF-8, or that of most old mails."""
    for mark, name in MARKS.items():
        if data.startswith(mark):
            return data.decode(name, "replace")
    told = known(charset)
    if told is None:
        return guessed(data)
    try:
        return data.decode(told, "replace")
    except (UnicodeError, LookupError, ValueError):
        return guessed(data)


def known(charset: str | None) -> str | None:
    """The name by which Python knows a charset, if it is one of mail."""
    name = (charset or "").strip(" \t'\"").lower()
    name = NAMES.get(name, name)
    try:
        found = codecs.lookup(name)
    except (LookupError, ValueError, UnicodeError):
        return None
    is_text = getattr(found, "_is_text_encoding", True)
    return name if is_text and found.name.replace("_", "-") not in NOT_OF_MAIL else None


def declared(html: bytes) -> str | None:
    """The charset that an HTML document names at its beginning. A charset without ASCII can't be named there."""
    begin = html[:BEGINNING].lower()
    found = re.search(DECLARATION, begin) if b"charset" in begin or b"encoding" in begin else None
    name = found[1].decode().lower() if found else ""
    return "utf-8" if name.startswith("utf-16") else name or None


def guessed(data: bytes) -> str:
    """The text of bytes of which nothing is known."""
    try:
        return data.decode()
    except UnicodeError:
        return data.decode("windows-1252", "replace")
