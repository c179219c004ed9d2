"""Where links lead: their targets as they are shown, each with a number of its own."""

import re

from .characters import one_line
from .elements import Link
from .options import Options

# What no address has as it is, but for what browsers take out of it.
ODD = "[\x00-\x20\x7f-\xa0\u2028\u2029\ud800-\udfff]+"
TAKEN_OUT = ("\t", "\n", "\r")
PICTURES = (".png", ".jpg", ".jpeg", ".gif", ".webp", ".svg", ".bmp", ".avif")
LONGEST_NAME = 60


class Targets:
    """The targets of a document's links, by the numbers of their footnotes. Links to the same place share one."""

    def __init__(self, options: Options) -> None:
        self._options = options
        self._base = ""
        self._numbers: dict[str, int] = {}

    def set_base(self, base: str) -> None:
        """Sets the base of addresses that aren't whole. The first one counts."""
        self._base = self._base or shown(base)

    def number(self, links: list[Link]) -> None:
        """Gives links their targets and marks, and gives a text to those that show a picture without one."""
        for link in links:
            link.target = self._whole(shown(link.attributes["href"]))
            if link.is_blank() and (picture := link.picture()):
                link.show(name_of(picture.attributes.get("src", "")) or without_query(link.target))
            if not link.is_blank():
                link.mark(*self._marks(link.target))

    def footnotes(self) -> list[tuple[int, str]]:
        """The numbers and targets that links show, in order."""
        return [(number, target) for target, number in self._numbers.items()]

    def _marks(self, target: str) -> tuple[str, str]:
        """The marks before and after a link to a target."""
        if self._options.links == "none":
            return "", ""
        if self._options.links == "inline":
            return "", f" <{target}>"
        number = self._numbers.setdefault(target, len(self._numbers) + 1)
        return ("[", f"][{number}]") if self._options.format == "text" else ("", f"[{number}]")

    def _whole(self, target: str) -> str:
        """A target, below the base if there is one."""
        if not self._base:
            return target
        from urllib.parse import urljoin

        try:
            return shown(urljoin(self._base, target))
        except ValueError:
            return target


def shown(address: str) -> str:
    """An address as a browser shows it: without white space, and with other odd characters as escapes."""
    for odd in TAKEN_OUT:
        address = address.replace(odd, "")
    address = address.strip("\x00 ")
    return address if address.isprintable() and " " not in address else re.sub(ODD, escaped, address)


def escaped(found: re.Match[str]) -> str:
    """Characters as the escapes that they are in addresses."""
    return "".join(f"%{byte:02X}" for byte in found[0].encode("utf-8", "replace"))


def name_of(source: str) -> str:
    """The name of an image's file, if its address has one that says something."""
    from urllib.parse import unquote

    path, _, _ = source.partition("?")
    name = one_line(unquote(path.rpartition("/")[2]))
    says_something = name.lower().endswith(PICTURES) and len(name) <= LONGEST_NAME
    return name if says_something and not source.startswith(("data:", "cid:")) else ""


def without_query(target: str) -> str:
    """An address up to its query."""
    return target.partition("?")[0]
