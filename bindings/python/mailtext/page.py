"""A page on which a mail is drawn: a renderer, with what depends on the format and on how links are shown."""

import re

from text_block_renderer import Decorator, Format, Renderer, WhiteSpace, text_width

from .options import Options

FORMATS = {"text": Format.TEXT, "ansi": Format.ANSI, "html": Format.HTML}
# Words in tables that take more columns may be broken, so that a long address doesn't take a table apart.
LONGEST_WORD = 24
# What may be such a word: its characters take up to two columns each. No line is wrapped at a no-break space.
MAYBE_LONG = re.compile(f"[^ \t\n\u2000-\u200b\u3000]{{{LONGEST_WORD // 2 + 1},}}")
# Where one is broken first.
PLACES = re.compile(r"(?<=[\w/][-/_@?&=])(?=\w)")
# Terminals follow no link that is longer, and each line of a link has its target.
MOST_TARGET = 2000


class Page:
    """Takes text, and passes it on to its renderer before a call to that. Stretches of text come to it in one, however
    many calls bring them.

    A text has marks around emphasis and links. The other formats have none, since they show these in other ways.
    """

    def __init__(self, options: Options) -> None:
        self._format = FORMATS[options.format]
        self._has_marks = self._format is Format.TEXT
        decorator = Decorator.PLAIN if self._has_marks else Decorator.RICH
        self._renderer = Renderer(
            options.width, decorator, allow_width_overflow=True, use_unicode_strikeout=self._has_marks
        )
        self._texts: list[str] = []
        self._mark = ""
        self._modes = 0
        self._tables = 0
        self._begun: dict[str, int] = {}

    @property
    def renderer(self) -> Renderer:
        """The renderer, to which all text went that came."""
        if self._texts:
            text = "".join(self._texts)
            self._texts = []
            if self._tables:
                text = MAYBE_LONG.sub(breakable, text)
            if text:
                self._renderer.add_inline_text(text)
        return self._renderer

    def into_string(self) -> str:
        """Its text in the format. It can't be filled any longer."""
        return self.renderer.into_string(self._format)

    # ---- text

    def add_text(self, text: str) -> None:
        """Adds text. A mark that waits goes in front of its first word."""
        if self._mark:
            word = text.lstrip()
            if not word:
                self._texts.append(text)
                return
            self._texts += [text[: len(text) - len(word)], self._mark]
            self._mark, text = "", word
        self._texts.append(text)

    def begin(self, kind: str, mark: str) -> None:
        """Begins a stretch of text of a kind, which has a mark at its ends if the format has no other means.

        One inside another of the same kind changes nothing.
        """
        if self._has_marks and kind != "strikeout":
            self._mark += mark
            return
        self._begun[kind] = self._begun.get(kind, 0) + 1
        if self._begun[kind] == 1:
            getattr(self.renderer, f"start_{kind}")()

    def end(self, kind: str, mark: str) -> None:
        """Ends such a stretch of text. Its mark goes after its last word."""
        if not self._has_marks or kind == "strikeout":
            self._begun[kind] -= 1
            if not self._begun[kind]:
                getattr(self.renderer, f"end_{kind}")()
        elif mark and self._mark.endswith(mark):
            self._mark = self._mark.removesuffix(mark)
        elif mark:
            self._after_word(mark)

    def begin_link(self, target: str, mark: str) -> None:
        """Begins a link, which has a mark before its first word."""
        if self._leads(target):
            self.renderer.start_link(target)
        self._mark += mark

    def end_link(self, target: str, mark: str) -> None:
        """Ends a link, which has a mark after its last word."""
        if self._leads(target):
            self.renderer.end_link()
        if mark:
            self._after_word(mark)

    def _leads(self, target: str) -> bool:
        """Whether the format has a link to this target."""
        return not self._has_marks and 0 < len(target) <= MOST_TARGET

    def add_image(self, title: str) -> None:
        """Adds an image by its title."""
        if self._has_marks:
            self.add_text(f"[{title}]")
        else:
            self.renderer.add_image("", title)

    def _after_word(self, text: str) -> None:
        """Adds text after the last word, in front of the white space that came after it."""
        space = words = ""
        while self._texts and not self._modes and not (words := self._texts[-1].rstrip()):
            space = self._texts.pop() + space
        if words:
            space = self._texts[-1][len(words) :] + space
            self._texts[-1] = words
        self._texts += [text, space]

    # ---- blocks

    def begin_preformatted(self) -> None:
        """Begins text whose white space is kept."""
        self.renderer.push_ws(WhiteSpace.PRE)
        self._renderer.push_preformat()
        self._modes += 1

    def end_preformatted(self) -> None:
        """Ends text whose white space is kept."""
        self.renderer.pop_preformat()
        self._renderer.pop_ws()
        self._modes -= 1

    def start_inside(self, columns: int) -> None:
        """Begins a block with this many columns in front of it."""
        self.renderer.start_prefixed(columns)

    def end_inside(self, mark: str, others: str | None = None) -> None:
        """Ends a block whose first line comes after a mark, and the others after as many spaces, or after others."""
        self.renderer.append_subrender(mark, " " * text_width(mark) if others is None else others)

    def start_table(self) -> None:
        """Begins a table."""
        self.renderer.start_auto_table()
        self._tables += 1

    def end_table(self) -> None:
        """Ends a table."""
        self._renderer.end_auto_table()
        self._tables -= 1


def breakable(found: re.Match[str]) -> str:
    """A word that may be broken as an address is, if it has too many columns for a table."""
    word = found[0]
    parts = [word] if text_width(word) <= LONGEST_WORD else PLACES.split(word)
    return "\u200b".join(map(cuttable, parts))


def cuttable(part: str) -> str:
    """A part of a word that may be cut anywhere if it still has too many columns."""
    if text_width(part) <= LONGEST_WORD:
        return part
    least = LONGEST_WORD if part.isascii() else LONGEST_WORD // 2
    return "\u200b".join([part[:least], *part[least:]])
