"""The headers of a mail or of a part of it.

Python's `email` is used only for parameters that are in pieces or in charsets of their own. Loading it takes longer
than showing most mails, and it doesn't join a character that is in two encoded words.
"""

from __future__ import annotations

import re
from itertools import groupby

from .characters import guessed, known, one_line

# Headers of more bytes aren't read, and parameters of more characters.
MOST_BYTES = 1 << 18
MOST_PARAMETERS = 2000
NAME = re.compile(r"([!-9;-~]+)[ \t]*:")
# A parameter that needs no decoding.
PARAMETER = re.compile(r""";\s*([^\s=;*"]+)\s*=\s*(?:"((?:[^"\\]|\\.)*)"|([^\s;"]*))""")
WORD = r"=\?([^?\s]+)\?([bBqQ])\?([^?]*)\?="
ENCODED = r"(?:=\?[^?\s]+\?[bBqQ]\?[^?]*\?=)+"
# White space between encoded words isn't shown.
BETWEEN = r"(\?=)\s+(?==\?)"


class Headers:
    """The headers of these bytes, in order. Lines that aren't headers are skipped."""

    def __init__(self, head: bytes) -> None:
        fields: list[tuple[str, list[str]]] = []
        for line in guessed(head[:MOST_BYTES]).replace("\r\n", "\n").split("\n"):
            if line[:1] in (" ", "\t") and fields:
                fields[-1][1].append(line)
            elif found := NAME.match(line):
                fields.append((found[1], [line[found.end() :]]))
        self._fields = [(name, "".join(lines)) for name, lines in fields]

    def names(self) -> list[str]:
        """The names of headers, each once, in order."""
        return list({name.lower(): name for name, _ in reversed(self._fields)}.values())[::-1]

    def raw(self, name: str) -> str:
        """The first header of a name as it came, or an empty text."""
        return next((value for found, value in self._fields if found.lower() == name), "")

    def all(self, name: str) -> list[str]:
        """The headers of a name as people read them, each in one line."""
        return [words(value) for found, value in self._fields if found.lower() == name.lower()]

    def parameters(self, name: str) -> dict[str, str]:
        """The parameters of a header by their names in small letters. Encoded words are as they came."""
        value = self.raw(name)[:MOST_PARAMETERS]
        begin = value.find(";")
        if begin < 0:
            return {}
        if "*" in value:
            return decoded_parameters(value)
        found = PARAMETER.findall(value, begin)
        return {it.lower(): re.sub(r"\\(.)", r"\1", text) or bare for it, text, bare in reversed(found)}


def words(value: str) -> str:
    """A header as people read it, in one line: with its encoded words decoded, whatever they are in."""
    if "=?" not in value:
        return one_line(value)
    joined = re.sub(BETWEEN, r"\1", value)
    return one_line(re.sub(ENCODED, run_of_words, joined))


def run_of_words(found: re.Match[str]) -> str:
    """Encoded words that follow one another. A character may be in two of them."""
    shown = ""
    for charset, run in groupby(re.findall(WORD, found[0]), charset_of):
        data = b"".join(word_data(kind, encoded) for _, kind, encoded in run)
        shown += data.decode(known(charset) or "utf-8", "replace")
    return shown


def charset_of(word: tuple[str, str, str]) -> str:
    """The charset of an encoded word, without the language that may come after it."""
    return word[0].partition("*")[0].lower()


def word_data(kind: str, encoded: str) -> bytes:
    """The bytes of an encoded word. If it isn't encoded as it says, it stays as it is."""
    import binascii

    data = encoded.encode("utf-8", "replace")
    try:
        return binascii.a2b_qp(data, header=True) if kind in "qQ" else binascii.a2b_base64(data + b"==")
    except binascii.Error:
        return data


def decoded_parameters(value: str) -> dict[str, str]:
    """Parameters that are in pieces, or in a charset of their own."""
    from email.message import Message
    from email.utils import collapse_rfc2231_value

    message = Message()
    try:
        message["content-type"] = value.replace("\n", " ")
        found: list[tuple[str, str]] = message.get_params(failobj=[])
        return {name.lower(): one_line(collapse_rfc2231_value(it)) for name, it in reversed(found)}
    except Exception:  # as above
        return {}
