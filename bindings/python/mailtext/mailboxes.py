"""The mails of a mailbox: an mbox, which is a file, or a maildir, which is a folder."""

from __future__ import annotations

import mmap
import os
import re
from collections.abc import Iterator
from typing import NamedTuple

# A line between two mails without an empty line before it has a year.
SEPARATOR = re.compile(rb"From \S+ .*\d{4}\s*$")
ESCAPED = re.compile(rb"^>(>*From )", re.M)
# What has no place in the name of a file.
ODD = re.compile(r"[^\w.,=+-]")
LONGEST_NAME = 120


class NoMailbox(Exception):
    """What was named isn't a mailbox."""


class Mail(NamedTuple):
    """Where a mail is: all of a file, or a part of it. `name` is that of the text that is made of it."""

    name: str
    path: str
    begin: int = 0
    end: int = -1

    def data(self) -> bytes:
        """Its bytes."""
        with open(self.path, "rb") as file:
            if self.end < 0:
                return file.read()
            file.seek(self.begin)
            return ESCAPED.sub(rb"\1", file.read(self.end - self.begin))


def mails_of(path: str) -> list[Mail]:
    """The mails of a mailbox, in order. `NoMailbox` if it isn't one, `OSError` if it can't be read."""
    if os.path.isdir(path):
        return list(mails_of_maildir(path))
    with open(path, "rb") as file:
        if os.fstat(file.fileno()).st_size == 0:
            return []
        with mmap.mmap(file.fileno(), 0, access=mmap.ACCESS_READ) as data:
            if data[:5] != b"From ":
                raise NoMailbox(f"{path} is no mbox, since its first line doesn't begin with 'From '")
            ends = [*separators(data), len(data)]
    return [Mail(f"{number:08}", path, *place) for number, place in enumerate(zip([0, *ends], ends), start=1)]


def separators(data: mmap.mmap) -> Iterator[int]:
    """Where the lines in front of mails begin, except for the first."""
    at = data.find(b"\nFrom ")
    while at >= 0:
        after_empty_line = data[max(at - 2, 0) : at] in (b"\r\n", b"\n\r") or data[max(at - 1, 0) : at] == b"\n"
        end = data.find(b"\n", at + 1)
        if after_empty_line or SEPARATOR.match(data[at + 1 : min(end if end >= 0 else len(data), at + 300)]):
            yield at + 1
        at = data.find(b"\nFrom ", at + 1)


def mails_of_maildir(path: str) -> Iterator[Mail]:
    """The mails of a maildir, whether they were seen or not, by the part of their names that stays the same."""
    folders = [os.path.join(path, name) for name in ("cur", "new")]
    if not any(map(os.path.isdir, folders)):
        raise NoMailbox(f"{path} is no maildir, since it has neither cur nor new")
    found = sorted(
        (file.name, file.path)
        for folder in folders
        if os.path.isdir(folder)
        for file in os.scandir(folder)
        if file.is_file()
    )
    taken: dict[str, int] = {}
    for name, file in found:
        stem = ODD.sub("_", name.partition(":")[0])[:LONGEST_NAME].lstrip(".") or "_"
        taken[stem] = taken.get(stem, 0) + 1
        yield Mail(stem if taken[stem] == 1 else f"{stem}~{taken[stem]}", file)
