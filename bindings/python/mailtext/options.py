"""How a mail is shown."""

from typing import NamedTuple

FORMATS = ("text", "ansi", "html")
LINKS = ("whole", "cut", "inline", "none")
# Wider lines are of no use, and take memory.
MOST_COLUMNS = 10_000


class Options(NamedTuple):
    """How a mail is shown: in how many columns, in which format, and how the targets of links are shown.

    headers: None for those that readers show, or whether all are shown, or none.
    """

    width: int = 72
    format: str = "text"
    links: str = "cut"
    headers: bool | None = None

    def checked(self) -> "Options":
        """These options. `ValueError` if one isn't among its choices."""
        if not 1 <= self.width <= MOST_COLUMNS:
            raise ValueError(f"width must be from 1 to {MOST_COLUMNS}")
        if self.format not in FORMATS:
            raise ValueError(f"format must be one of {', '.join(FORMATS)}")
        if self.links not in LINKS:
            raise ValueError(f"links must be one of {', '.join(LINKS)}")
        return self
