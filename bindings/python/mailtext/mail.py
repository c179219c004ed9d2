"""What a mail shows: its headers, the parts that are text, and the names of the others."""

from __future__ import annotations

from collections.abc import Iterator

from text_block_renderer import text_width

from .flowed import fixed, flowed
from .headers import Headers
from .mime import Part, mail_of
from .options import Options
from .page import Page
from .plain import draw_plain
from .show import drawn, html_part

SHOWN_HEADERS = ("From", "To", "Cc", "Date", "Subject")
# What is text, beside all that calls itself so.
TEXTS = frozenset(("message/delivery-status", "message/disposition-notification", "message/global-delivery-status"))
MAILS = frozenset(("message/rfc822", "message/global"))
# Other forms of the same text, which programs read.
NOT_FOR_PEOPLE = frozenset(("text/x-amp-html", "text/calendar", "text/watch-html"))
FORWARDED = "─── Forwarded mail "
UNITS = ("bytes", "KB", "MB", "GB")


def mail_parts(mail: bytes, options: Options) -> str:
    """A mail, with an empty line between its headers and what it says, and between its parts."""
    return "\n".join(it for it in sections(mail_of(mail), options) if it.strip())


def sections(mail: Part, options: Options) -> Iterator[str]:
    """What is shown of a mail, part by part."""
    yield headers(mail.headers, options)
    attached: list[Part] = []
    yield from shown(mail, options, attached)
    if attached:
        yield drawn(lambda page: draw_attached(page, attached), options)


def headers(found: Headers, options: Options) -> str:
    """The headers that readers show, or all, or none."""
    if options.headers is False:
        return ""
    names = found.names() if options.headers else SHOWN_HEADERS
    lines = [(name, value) for name in names for value in found.all(name) if value]

    def draw(page: Page) -> None:
        for name, value in lines:
            page.start_inside(2)
            page.begin("strong", "")
            page.add_text(f"{name}:")
            page.end("strong", "")
            page.add_text(f" {value}")
            page.end_inside("", "  ")

    return drawn(draw, options)


def shown(part: Part, options: Options, attached: list[Part]) -> Iterator[str]:
    """What is shown of a part. What isn't is added to what is attached."""
    children = part.children()
    if part.is_attached and part.depth and part.kind not in MAILS:
        attached.append(part)
    elif part.kind in MAILS and children:
        yield drawn(lambda page: draw_forwarded(page, options.width), options)
        yield from sections(children[0], options)
    elif part.kind == "multipart/alternative":
        yield from best(children, options, attached)
    elif children:
        for child in children:
            if not is_in_html(child, part):
                yield from shown(child, options, attached)
    elif part.kind.startswith("text/") or part.kind in TEXTS or part.kind.startswith("multipart/"):
        yield text_of(part, options)
    else:
        attached.append(part)


def best(children: list[Part], options: Options, attached: list[Part]) -> Iterator[str]:
    """The last of the alternatives that people can read, if it has any text."""
    for child in reversed(children):
        if child.kind in NOT_FOR_PEOPLE:
            continue
        found: list[Part] = []
        said = list(shown(child, options, found))
        if any(it.strip() for it in said):
            attached += found
            yield from said
            return
    attached += [it for it in children if not it.kind.startswith("text/")]


def is_in_html(part: Part, outer: Part) -> bool:
    """Whether a part is an image that the HTML beside it shows."""
    return outer.kind == "multipart/related" and part.kind.startswith("image/") and not part.is_attached


def text_of(part: Part, options: Options) -> str:
    """A part that is text."""
    if part.kind == "text/html":
        return html_part(part.data(), part.parameters.get("charset"), options)
    text = part.text()
    told = part.parameters
    is_flowed = part.kind == "text/plain" and told.get("format", "").lower() == "flowed"
    lines = flowed(text, told.get("delsp", "").lower() == "yes") if is_flowed else fixed(text)
    return drawn(lambda page: draw_plain(page, lines), options)


def draw_forwarded(page: Page, width: int) -> None:
    """Draws a line above a mail that is forwarded."""
    page.add_text(FORWARDED + "─" * min(width - text_width(FORWARDED), width))


def draw_attached(page: Page, parts: list[Part]) -> None:
    """Draws a line for each part that is attached."""
    for part in parts:
        told = [it for it in (part.file_name, part.kind, size(len(part.data()))) if it]
        page.add_text(f"[attached: {', '.join(told)}]")
        page.renderer.new_line()


def size(count: int) -> str:
    """A number of bytes as people say it."""
    unit = 0
    scaled = float(count)
    while scaled >= 1000 and unit < len(UNITS) - 1:
        scaled /= 1000
        unit += 1
    return f"{scaled:.0f} {UNITS[unit]}" if not unit or scaled >= 10 else f"{scaled:.1f} {UNITS[unit]}"
