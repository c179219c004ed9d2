"""The parts of a mail, each with its headers and its bytes, cut in time in proportion to their length."""

from __future__ import annotations

import re
from typing import NamedTuple

from .characters import clean, decoded
from .headers import Headers, words

# Parts that are deeper are shown as they came.
DEEPEST_PART = 30
# What comes after so many parts belongs to the last of them.
MOST_PARTS = 1000
BLANK_LINE = re.compile(rb"\r?\n\r?\n")


class Span(NamedTuple):
    """Bytes of a mail, of which no copy is made before they are read."""

    data: bytes
    begin: int
    end: int

    def copied(self) -> bytes:
        """A copy of them."""
        return self.data[self.begin : self.end]

    def divided(self) -> tuple[Span, Span]:
        """The headers of a part and its body, between which is an empty line."""
        data, begin, end = self
        for line in (b"\n", b"\r\n"):
            if data.startswith(line, begin, end):
                return Span(data, begin, begin), Span(data, begin + len(line), end)
        found = BLANK_LINE.search(data, begin, end)
        if found is None:
            return self, Span(data, end, end)
        return Span(data, begin, found.start()), Span(data, found.end(), end)

    def cut(self, boundary: bytes) -> list[Span]:
        """The parts between the lines that a boundary makes."""
        mark = b"--" + boundary
        parts: list[Span] = []
        begin = -1
        at = self.data.find(mark, self.begin, self.end)
        while at >= 0 and len(parts) < MOST_PARTS:
            after = at + len(mark)
            is_last = self.data.startswith(b"--", after, self.end)
            line = self.data.find(b"\n", after, self.end)
            line = self.end if line < 0 else line + 1
            if self._is_line(at, after + 2 * is_last, line):
                parts += [self._part(begin, at)] if begin >= 0 else []
                begin = -1 if is_last else line
            at = -1 if is_last and begin < 0 else self.data.find(mark, line, self.end)
        return [*parts, Span(self.data, begin, self.end)] if begin >= 0 else parts

    def _is_line(self, at: int, after: int, line: int) -> bool:
        """Whether what is there is a line of its own, except for white space at its end."""
        begins = at == self.begin or self.data[at - 1 : at] == b"\n"
        return begins and not self.data[after : min(line, after + 80)].strip()

    def _part(self, begin: int, end: int) -> Span:
        """A part, without the end of a line that belongs to the boundary after it."""
        for line in (b"\n", b"\r"):
            end -= end > begin and self.data[end - 1 : end] == line
        return Span(self.data, begin, end)


class Part:
    """A part of a mail, or a mail: headers and a body."""

    def __init__(self, span: Span, depth: int = 0, usual: str = "text/plain") -> None:
        head, self._body = span.divided()
        self.depth = depth
        self.headers = Headers(head.copied())
        self.kind = kind_of(self.headers.raw("content-type"), usual)
        self.parameters = self.headers.parameters("content-type")

    @property
    def file_name(self) -> str:
        """The name that it has as a file, or an empty text."""
        told = self.headers.parameters("content-disposition")
        return words(told.get("filename") or self.parameters.get("name") or "")

    @property
    def is_attached(self) -> bool:
        """Whether the sender has attached it."""
        return self.headers.raw("content-disposition").strip().lower().startswith("attachment")

    def data(self) -> bytes:
        """Its bytes, decoded."""
        import binascii

        encoding = self.headers.raw("content-transfer-encoding").strip().lower()
        body = self._body.copied()
        if encoding == "base64":
            return from_base64(body)
        return binascii.a2b_qp(body) if encoding == "quoted-printable" else body

    def text(self) -> str:
        """Its text, without control characters."""
        return clean(decoded(self.data(), self.parameters.get("charset")))

    def children(self) -> list[Part]:
        """The parts inside it, or the mail that it forwards."""
        if self.depth >= DEEPEST_PART:
            return []
        if self.kind == "message/rfc822":
            return [mail_of(self.data(), self.depth + 1)]
        boundary = self.parameters.get("boundary", "")
        if not self.kind.startswith("multipart/") or not boundary:
            return []
        usual = "message/rfc822" if self.kind == "multipart/digest" else "text/plain"
        return [Part(it, self.depth + 1, usual) for it in self._body.cut(boundary.encode())]


def mail_of(data: bytes, depth: int = 0) -> Part:
    """A mail, without the line that is in front of it in a mailbox."""
    begin = data.find(b"\n") + 1 if data.startswith((b"From ", b">From ")) else 0
    return Part(Span(data, begin, len(data)), depth)


def kind_of(value: str, usual: str) -> str:
    """A type as `text/plain`. One that isn't well-formed is text."""
    kind = "".join(value.partition(";")[0].split()).lower()
    main, slash, sub = kind.partition("/")
    if not kind:
        return usual
    return kind if main and slash and sub and kind.isprintable() else "text/plain"


def from_base64(body: bytes) -> bytes:
    """What is encoded in base64, as far as it is."""
    import binascii

    decoded_parts = []
    for kept in re.sub(rb"[^A-Za-z0-9+/=]+", b"", body).split(b"="):
        kept = kept[: len(kept) - (len(kept) % 4 == 1)]
        decoded_parts.append(binascii.a2b_base64(kept + b"=" * (-len(kept) % 4)))
    return b"".join(decoded_parts)
