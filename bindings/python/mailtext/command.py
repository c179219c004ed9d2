"""The command `mailtext`."""

from __future__ import annotations

import argparse
import os
import sys
from typing import NoReturn

from . import __version__
from .options import FORMATS, LINKS, MOST_COLUMNS, Options

ABOUT = "Shows mails or HTML as text: headings, lists, quotes, tables, and the targets of links."
STATUSES = """\
status: 0 all was shown; 1 memory is refused, or a mail of an archive wasn't read; 2 the command line is wrong;
3 a file can't be read, or standard output can't be written. Of several files the greatest status counts.
"""
# Statuses, as blockview has them.
REFUSED, UNREADABLE = 1, 3
HELP_COLUMNS = 100


def main() -> NoReturn:
    """Runs the command with the words after its name, and ends."""
    try:
        sys.exit(run(sys.argv[1:]))
    except KeyboardInterrupt:
        os._exit(130)


def run(words: list[str]) -> int:
    """Runs the command with these words, and answers its status."""
    given = parser().parse_args(words)
    options = Options(given.width, given.format, given.links, given.headers)
    if given.archive:
        return archived(given, options)
    shown, status = shown_files(given.files or ["-"], given, options)
    return max(status, written(shown))


def parser() -> argparse.ArgumentParser:
    """What the words of the command mean."""
    made = argparse.ArgumentParser("mailtext", description=ABOUT, epilog=STATUSES, formatter_class=Help)
    made.add_argument("files", nargs="*", metavar="FILE", help="mails or HTML; `-`, or no FILE, is standard input")
    made.add_argument("--html", action="store_true", help="read each FILE as HTML, whatever it begins with")
    made.add_argument("--charset", metavar="NAME", help="the charset of HTML, where a mail reader knows it")
    made.add_argument("--width", type=columns, default=72, metavar="N", help="the columns of a line (72)")
    made.add_argument("--format", choices=FORMATS, default="text", help="how the text is written (text)")
    made.add_argument("--links", choices=LINKS, default="cut", help="how the targets of links are shown (cut)")
    made.add_argument("--headers", action=argparse.BooleanOptionalAction, help="show all headers of a mail, or none")
    made.add_argument("--version", action="version", version=f"mailtext {__version__}")
    archive = made.add_argument_group("archives")
    archive.add_argument(
        "--archive", nargs=2, metavar=("MAILBOX", "OUT"), help="write each mail of an mbox or a maildir as a text"
    )
    archive.add_argument("--workers", type=workers, metavar="N", help="how many processes read mails (one per core)")
    archive.add_argument("--cluster", metavar="ADDRESS", help="the scheduler of Dask whose workers read the mails")
    return made


class Help(argparse.RawDescriptionHelpFormatter):
    """Help in lines of a fixed width."""

    def __init__(self, prog: str) -> None:
        super().__init__(prog, width=HELP_COLUMNS)


def columns(text: str) -> int:
    """A number of columns, at least 1."""
    return number(text, MOST_COLUMNS)


def workers(text: str) -> int:
    """A number of processes, at least 1."""
    return number(text, 1000)


def number(text: str, most: int) -> int:
    """A number from 1 to the greatest."""
    try:
        found = int(text)
    except ValueError:
        found = 0
    if not 1 <= found <= most:
        raise argparse.ArgumentTypeError(f"{text} is not in 1..{most}")
    return found


def shown_files(files: list[str], given: argparse.Namespace, options: Options) -> tuple[str, int]:
    """What is shown of files, and the greatest status. What can't be read is reported."""
    shown: list[str] = []
    status = 0
    for file in files:
        try:
            shown.append(shown_bytes(read(file), given, options))
        except OSError as error:
            status = max(status, UNREADABLE)
            tell(f"{file} {why_unread(error)}")
        except MemoryError:
            status = max(status, REFUSED)
            tell(f"{file} takes more memory than there is; a smaller mail may be shown")
    return "\n".join(shown), status


def read(file: str) -> bytes:
    """The bytes of a file, or of standard input."""
    if file == "-":
        return sys.stdin.buffer.read()
    with open(file, "rb") as opened:
        return opened.read()


def why_unread(error: OSError) -> str:
    """Why a file isn't read."""
    if isinstance(error, FileNotFoundError):
        return "isn't there"
    if isinstance(error, IsADirectoryError):
        return "is a folder; --archive reads one of mails"
    if isinstance(error, PermissionError):
        return "may not be read: permission is denied"
    return "can't be read"


def shown_bytes(data: bytes, given: argparse.Namespace, options: Options) -> str:
    """What is shown of a mail, or of HTML without a mail around it."""
    from .show import html_shown, mail_shown

    if given.html or not is_mail(data):
        return html_shown(data, options, given.charset)
    return mail_shown(data, options)


def is_mail(data: bytes) -> bool:
    """Whether the bytes are a mail, and not HTML without a mail around it."""
    from .kinds import is_mail as begins_as_mail

    return begins_as_mail(data)


def archived(given: argparse.Namespace, options: Options) -> int:
    """Writes the mails of an archive as texts."""
    from .archive import NoCluster, NoMailbox, write_archive

    mailbox, out = given.archive
    try:
        return write_archive(mailbox, out, options, given.workers, given.cluster)
    except (NoCluster, NoMailbox) as error:
        tell(str(error))
    except OSError as error:
        tell(f"{error.filename or out} {why_unread(error)}")
    return UNREADABLE


def written(text: str) -> int:
    """Writes to standard output, and answers the status."""
    try:
        sys.stdout.buffer.write(text.encode("utf-8", "replace"))
        sys.stdout.buffer.flush()
    except OSError:
        tell("standard output can't be written")
        os.dup2(os.open(os.devnull, os.O_WRONLY), sys.stdout.fileno())
        return UNREADABLE
    return 0


def tell(text: str) -> None:
    """Reports on standard error what is wrong, with control characters as escapes."""
    shown = "".join(c if c.isprintable() else c.encode("unicode_escape").decode() for c in text)
    print(f"mailtext: {shown}", file=sys.stderr)
