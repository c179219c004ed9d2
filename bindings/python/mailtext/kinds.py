"""Whether bytes are a mail, or HTML without a mail around it."""

import re

# Headers that a mail begins with. Others may come before the first of these.
HEADER = re.compile(rb"([!-9;-~]+)[ \t]*:")
OF_MAIL = frozenset(
    b"from to cc bcc sender reply-to date subject received return-path delivered-to message-id in-reply-to references"
    b" mime-version content-type content-transfer-encoding authentication-results status dkim-signature".split()
)
BEGINNINGS = (b"x-", b"list-", b"arc-", b"resent-")
BLANK_LINE = re.compile(rb"\r?\n[ \t]*\r?\n")
# So much is looked at.
BEGINNING = 1 << 16


def is_mail(data: bytes) -> bool:
    """Whether the bytes begin with headers of a mail, after the line that a mailbox has in front of it."""
    begin = data[:BEGINNING].lstrip(b"\r\n")
    if begin.startswith((b"From ", b">From ")):
        begin = begin.partition(b"\n")[2]
    found = BLANK_LINE.search(begin)
    head = begin[: found.start()] if found else begin
    names = [found[1].lower() for found in map(HEADER.match, head.split(b"\n")) if found]
    return HEADER.match(head) is not None and any(it in OF_MAIL or it.startswith(BEGINNINGS) for it in names)
