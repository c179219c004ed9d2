"""What inline styles and style sheets say of an element: whether it is hidden, and whether its text has a size."""

import re
from functools import lru_cache

# What a mail has more of is beyond what anybody wrote.
MOST_RULES = 2000
# A brace, or what begins a rule that has rules inside.
BRACE = r"(@[^{};]*\{|[{}])"
SELECTOR = r"([a-zA-Z][a-zA-Z0-9]*)?([.#][\w-]+)"
UNITS = ("px", "pt", "em", "rem", "%", "in", "cm", "mm")


@lru_cache(1024)
def properties(style: str) -> dict[str, str]:
    """The properties of a style, in small letters."""
    found = (entry.partition(":") for entry in style.lower().split(";"))
    return {name.strip(): value.replace("!important", "").strip() for name, _, value in found}


def is_zero(length: str) -> bool:
    """Whether a length is none."""
    number = next((length.removesuffix(unit) for unit in UNITS if length.endswith(unit)), length)
    return "0" in number and not number.strip("0.")


@lru_cache(1024)
def hides(style: str) -> bool:
    """Whether a style hides an element and all in it."""
    told = properties(style)
    if told.get("display") == "none" or told.get("visibility") in ("hidden", "collapse"):
        return True
    if is_zero(told.get("opacity", "")):
        return True
    sizes = (told.get(name, "") for name in ("height", "max-height", "width", "max-width"))
    return told.get("overflow", "") == "hidden" and any(map(is_zero, sizes))


@lru_cache(1024)
def font_size(style: str) -> str | None:
    """The size that a style gives text: `zero` or `some`, or None if it gives none."""
    size = properties(style).get("font-size")
    return None if not size else "zero" if is_zero(size) else "some"


class StyleSheets:
    """The rules of the document's sheets that hide what has a class or a name."""

    def __init__(self) -> None:
        self._hiding: set[tuple[str, str]] = set()

    def __bool__(self) -> bool:
        return bool(self._hiding)

    def read(self, sheet: str) -> None:
        """Adds the rules of a sheet, except those only for some media."""
        for rule in outside_media(without_comments(sheet)).split("}")[:MOST_RULES]:
            selectors, _, body = rule.partition("{")
            if "display" in body.lower() and properties(body).get("display") == "none":
                found = map(re.compile(SELECTOR).fullmatch, map(str.strip, selectors.split(",")))
                self._hiding.update(((it[1] or "").lower(), it[2]) for it in found if it)

    def hide(self, tag: str, attributes: dict[str, str]) -> bool:
        """Whether an element is hidden by its class or its name."""
        names = [f".{it}" for it in attributes.get("class", "").split()]
        if "id" in attributes:
            names.append(f"#{attributes['id']}")
        return any((tag, name) in self._hiding or ("", name) in self._hiding for name in names)


def without_comments(sheet: str) -> str:
    """A sheet without its comments, and without the marks by which it is hidden from old programs."""
    first, *others = sheet.replace("<!--", "").replace("-->", "").split("/*")
    return first + "".join(part.partition("*/")[2] for part in others)


def outside_media(sheet: str) -> str:
    """A sheet without what is inside rules as `@media`."""
    kept: list[str] = []
    depth = 0
    for part in re.split(BRACE, sheet):
        if depth:
            depth += part.endswith("{") - (part == "}")
        elif part.startswith("@") and part.endswith("{"):
            depth = 1
        else:
            kept.append(part)
    return "".join(kept)
