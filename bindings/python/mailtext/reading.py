"""What workers do: they make texts of mails, and no mail stops the work."""

from __future__ import annotations

from collections.abc import Iterable
from typing import NamedTuple

from .options import Options
from .show import mail_shown


class Read(NamedTuple):
    """A mail by its name: its text, or why there is none."""

    name: str
    text: str | None
    why: str = ""


# The names of mails, and their bytes.
Batch = list[tuple[str, bytes]]


def read_batch(batch: Batch, options: Options) -> list[Read]:
    """The texts of mails."""
    return [read_mail(name, data, options) for name, data in batch]


def read_mail(name: str, data: bytes, options: Options) -> Read:
    """The text of a mail. Whatever goes wrong in it is reported."""
    try:
        return Read(name, mail_shown(data, options))
    except Exception as error:
        return Read(name, None, f"{type(error).__name__}: {error}")


def lost(batch: Batch, why: str) -> list[Read]:
    """What is reported of mails whose worker ended."""
    return [Read(name, None, why) for name, _ in batch]


def alone(batches: Iterable[Batch]) -> list[Batch]:
    """Each mail of the batches by itself."""
    return [[mail] for batch in batches for mail in batch]
