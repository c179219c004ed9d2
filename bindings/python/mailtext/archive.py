"""An archive of mails as texts, each in a file of its own. What was written stays when it is called again."""

from __future__ import annotations

import os
import sys
import time
from collections.abc import Iterator

from .mailboxes import Mail, NoMailbox, mails_of
from .options import Options
from .reading import Batch, Read
from .workers import NoCluster, by_cluster, by_processes

__all__ = ["NoCluster", "NoMailbox", "write_archive"]

# A batch ends with the mail by which it has so many mails or bytes.
MOST_MAILS = 32
MOST_BYTES = 1 << 20
# Where mails are copied that have no text.
ASIDE = "unread"
BAR = 30
SECONDS = 0.2


def write_archive(mailbox: str, out: str, options: Options, workers: int | None, cluster: str | None) -> int:
    """Writes the text of each mail of a mailbox below a folder, if it isn't there, and answers the command's status.

    A mail without a text is copied aside, and reported. `NoMailbox` or `OSError` if nothing can be read or written.
    """
    mails = {mail.name: mail for mail in mails_of(mailbox)}
    archive = Archive(out, options)
    waiting = [mail for mail in mails.values() if not archive.has(mail)]
    progress = Progress(len(mails), len(mails) - len(waiting))
    batches = archive.batches(waiting, progress)
    read = by_cluster(batches, options, cluster) if cluster else by_processes(batches, options, workers)
    for batch in read:
        for it in batch:
            archive.take(it, mails[it.name], progress)
        progress.show()
    return progress.end()


class Archive:
    """A folder of texts."""

    def __init__(self, out: str, options: Options) -> None:
        self._out = out
        self._aside = os.path.join(out, ASIDE)
        self._ending = ".html" if options.format == "html" else ".txt"
        os.makedirs(out, exist_ok=True)

    def has(self, mail: Mail) -> bool:
        """Whether the text of a mail is there."""
        return os.path.exists(self._path(mail.name))

    def batches(self, mails: list[Mail], progress: Progress) -> Iterator[Batch]:
        """The bytes of mails. One that can't be read is reported."""
        batch: Batch = []
        for mail in mails:
            try:
                batch.append((mail.name, mail.data()))
            except OSError as error:
                progress.tell(f"{mail.path} can't be read: {error.strerror}")
            if len(batch) == MOST_MAILS or sum(len(data) for _, data in batch) >= MOST_BYTES:
                yield batch
                batch = []
        if batch:
            yield batch

    def take(self, read: Read, mail: Mail, progress: Progress) -> None:
        """Writes the text of a mail, or a copy of the mail aside."""
        aside = os.path.join(self._aside, f"{mail.name}.eml")
        if read.text is None:
            os.makedirs(self._aside, exist_ok=True)
            write(aside, mail.data())
            progress.tell(f"{mail.path}: mail {mail.name} isn't shown, and is copied to {aside}: {read.why}")
            return
        write(self._path(mail.name), read.text.encode("utf-8", "replace"))
        if os.path.exists(aside):
            os.remove(aside)
        progress.done += 1

    def _path(self, name: str) -> str:
        return os.path.join(self._out, name + self._ending)


def write(path: str, data: bytes) -> None:
    """Writes a file, whole or not at all."""
    part = f"{path}.part"
    with open(part, "wb") as file:
        file.write(data)
    os.replace(part, path)


class Progress:
    """Reports on standard error how many mails have their texts: by a bar on a terminal, and by a line at the end."""

    def __init__(self, total: int, before: int) -> None:
        self.done = before
        self._total = total
        self._before = before
        self._unread = 0
        self._begun = self._shown = time.monotonic()
        self._has_bar = sys.stderr.isatty()

    def tell(self, text: str) -> None:
        """Reports a mail that isn't shown."""
        from .command import tell

        self._unread += 1
        self._clear()
        tell(text)

    def show(self) -> None:
        """Shows the bar, at most five times a second."""
        if self._has_bar and time.monotonic() - self._shown > SECONDS:
            self._shown = time.monotonic()
            full = BAR * self.done // max(self._total, 1)
            bar = "#" * full + "." * (BAR - full)
            print(
                f"\r[{bar}] {self.done} of {self._total}, {self._speed():.0f} a second",
                end="",
                file=sys.stderr,
                flush=True,
            )

    def end(self) -> int:
        """Reports what was done, and answers the command's status."""
        self._clear()
        new = self.done - self._before
        told = f"{new} mails in {time.monotonic() - self._begun:.1f} s, {self._speed():.0f} a second"
        told += f"; {self._before} were there" if self._before else ""
        told += f"; {self._unread} couldn't be read" if self._unread else ""
        print(f"mailtext: {told}", file=sys.stderr)
        return 1 if self._unread else 0

    def _speed(self) -> float:
        return (self.done - self._before) / max(time.monotonic() - self._begun, 0.001)

    def _clear(self) -> None:
        if self._has_bar:
            print("\r\x1b[K", end="", file=sys.stderr)
