"""Mail as text for people: HTML, plain and forwarded mails, in lines of a width, by a proved renderer.

`python -m mailtext FILE` shows a mail, and `docs/mail.md` has the command's options.
"""

__version__ = "0.3.0"

__all__ = ["html_text", "mail_text"]


def html_text(html: str | bytes, width: int = 72, links: str = "cut", format: str = "text") -> str:
    """An HTML document in lines of `width` columns. Bytes are read by the charset that they name.

    links: `whole`, `cut`, `inline` or `none`, as the command has them. format: `text`, `ansi` or `html`. `ValueError`
        for any other, and for a width of 0.
    """
    from .options import Options
    from .show import html_shown

    return html_shown(html, Options(width, format, links).checked())


def mail_text(mail: bytes, width: int = 72, links: str = "cut", format: str = "text") -> str:
    """A mail in lines of `width` columns: its headers, its text and what is attached. It refuses as `html_text` does.

    Any bytes may come: the text says what isn't understood.
    """
    from .options import Options
    from .show import mail_shown

    return mail_shown(mail, Options(width, format, links).checked())
