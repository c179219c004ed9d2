"""Renders blocks of text, tables and links into lines of a width, by a proved library."""

from .errors import (
    BadArgumentError,
    BadWidthError,
    BufferTooSmallError,
    FinishedError,
    InTableError,
    NoLineError,
    NoPieceError,
    NoRendererError,
    NoTableError,
    NotACommandError,
    NotFinishedError,
    NothingToEndError,
    NotUtf8Error,
    OutOfMemoryError,
    RendererError,
    RowDoesNotFitError,
    ScriptError,
    StillOpenError,
    TooNarrowError,
)
from .lines import Annotation, FragmentStart, Kind, TaggedLine, TaggedString
from .options import CellAlign, Colour, Decorator, Format, ImageRenderMode, WhiteSpace
from .renderer import Renderer
from .script import render_script
from .tables import Table
from .versions import library_version
from .widths import Extent, measure, text_width

__version__ = "0.3.0"

__all__ = [
    "Annotation",
    "BadArgumentError",
    "BadWidthError",
    "BufferTooSmallError",
    "CellAlign",
    "Colour",
    "Decorator",
    "Extent",
    "FinishedError",
    "Format",
    "FragmentStart",
    "ImageRenderMode",
    "InTableError",
    "Kind",
    "NoLineError",
    "NoPieceError",
    "NoRendererError",
    "NoTableError",
    "NotACommandError",
    "NotFinishedError",
    "NotUtf8Error",
    "NothingToEndError",
    "OutOfMemoryError",
    "Renderer",
    "RendererError",
    "RowDoesNotFitError",
    "ScriptError",
    "StillOpenError",
    "Table",
    "TaggedLine",
    "TaggedString",
    "TooNarrowError",
    "WhiteSpace",
    "library_version",
    "measure",
    "render_script",
    "text_width",
]
