"""Documents and mails, shown as the options say."""

from collections.abc import Callable

from text_block_renderer import text_width

from .characters import clean, declared, decoded
from .formats import document, formatted
from .links import Targets
from .options import Options
from .page import Page
from .tree import parse

Draws = Callable[[Page], None]


def html_shown(html: str | bytes, options: Options, charset: str | None = None) -> str:
    """An HTML document, in a document of its own if the format is HTML."""
    return whole(html_part(html, charset, options), options)


def mail_shown(mail: bytes, options: Options) -> str:
    """A mail, in a document of its own if the format is HTML."""
    from .mail import mail_parts

    return whole(mail_parts(mail, options), options)


def whole(text: str, options: Options) -> str:
    """What is shown of one document or of one mail."""
    return document(text) if options.format == "html" else text


def html_part(html: str | bytes, charset: str | None, options: Options) -> str:
    """An HTML document, with the targets of its links below."""
    if isinstance(html, bytes):
        html = decoded(html, charset or declared(html))
    targets = Targets(options)
    tree = parse(clean(html), targets)
    return drawn(tree.draw, options) + footnotes(targets.footnotes(), options)


def drawn(draw: Draws, options: Options) -> str:
    """What is drawn on a page."""
    page = Page(options)
    with page.renderer:
        draw(page)
        return formatted(page)


def footnotes(notes: list[tuple[int, str]], options: Options) -> str:
    """The targets of links by their numbers, after an empty line. Whole targets are on lines as wide as they are."""
    if not notes:
        return ""
    if options.links == "whole":
        options = options._replace(width=max(options.width, *(text_width(f"[{number}]: {it}") for number, it in notes)))

    def draw(page: Page) -> None:
        page.begin_preformatted()
        for number, target in notes:
            page.add_text(f"[{number}]: ")
            link = target if len(target) < options.width else ""
            page.begin_link(link, "")
            page.add_text(f"{target}\n")
            page.end_link(link, "")
        page.end_preformatted()

    return "\n" + drawn(draw, options)
