"""The library, and what it exports, as `include/text_block_renderer.h` declares it."""

import ctypes
from ctypes import POINTER, Structure, c_bool, c_char_p, c_int64, c_size_t, c_uint8, c_uint16, c_uint32, c_void_p
from typing import Any

from ._search import FILE, FOLDER, HOW_TO_GET_IT, folders, library_file


class Options(Structure):
    _fields_ = [
        ("size", c_size_t),
        ("width", c_size_t),
        ("wrap_width", c_size_t),
        ("decorator", c_uint32),
        ("images", c_uint32),
        ("overflow", c_bool),
        ("pad", c_bool),
        ("footnotes", c_bool),
        ("wrap_links", c_bool),
        ("strikeout_strokes", c_bool),
        ("draw_borders", c_bool),
        ("unused", c_uint16),
        ("raw", c_bool),
    ]


class Answer(Structure):
    _fields_ = [("status", c_uint32), ("line", c_size_t), ("length", c_size_t)]


class Line(Structure):
    _fields_ = [("bytes", c_size_t), ("columns", c_size_t), ("pieces", c_size_t), ("is_border", c_bool)]


class Piece(Structure):
    _fields_ = [
        ("begin", c_size_t),
        ("end", c_size_t),
        ("annotations", c_size_t),
        ("name_bytes", c_size_t),
        ("kind", c_uint32),
    ]


class Annotation(Structure):
    _fields_ = [
        ("target_bytes", c_size_t),
        ("kind", c_uint32),
        ("red", c_uint8),
        ("green", c_uint8),
        ("blue", c_uint8),
    ]


class Extent(Structure):
    _fields_ = [("longest_word", c_size_t), ("widest_line", c_size_t)]


_TEXT = (c_char_p, c_size_t)
_COLOUR = (c_uint8, c_uint8, c_uint8)
_BUFFER = (c_char_p, c_size_t, POINTER(c_size_t))
_SIZE = (POINTER(c_size_t),)
_FLAG = (POINTER(c_bool),)

# What each call takes after the renderer. Texts go in by the calls that take their lengths.
CALLS: dict[str, tuple[type[Any], ...]] = {
    "add_text_n": _TEXT,
    "start_block": (),
    "end_block": (),
    "start_table": (),
    "new_line": (),
    "new_line_hard": (),
    "add_empty_line": (),
    "add_border": (),
    "add_border_width": (c_size_t,),
    "push_white_space": (c_uint32,),
    "pop_white_space": (),
    "start_preformatted": (),
    "end_preformatted": (),
    "start_link_n": _TEXT,
    "end_link": (),
    "start_emphasis": (),
    "end_emphasis": (),
    "start_strong": (),
    "end_strong": (),
    "start_strikeout": (),
    "end_strikeout": (),
    "start_code": (),
    "end_code": (),
    "start_superscript": (),
    "end_superscript": (),
    "start_colour": _COLOUR,
    "end_colour": (),
    "start_background": _COLOUR,
    "end_background": (),
    "add_image_n": _TEXT + _TEXT,
    "add_marker_n": _TEXT,
    "start_quote": (),
    "end_quote": (),
    "start_item": (),
    "end_item": (),
    "start_ordered_item": (c_int64,),
    "end_ordered_item": (c_int64,),
    "start_header": (c_size_t,),
    "end_header": (c_size_t,),
    "start_sub": (c_size_t,),
    "start_prefixed": (c_size_t,),
    "append_sub_n": _TEXT + _TEXT,
    "start_cell": (c_size_t, c_size_t, c_uint32),
    "end_cell": (),
    "add_row": (c_bool,),
    "add_vertical_row": (),
    "start_auto_table": (),
    "start_auto_cell": (c_size_t, c_size_t, c_uint32),
    "end_auto_cell": (),
    "end_auto_row": (),
    "end_auto_table": (),
    "measure_open": (POINTER(Extent),),
    "finish": (),
    "finish_text": _SIZE,
    "refusal": (),
    "is_empty": _FLAG,
    "has_overhang": _FLAG,
    "width": _SIZE,
    "width_minus": (c_size_t, c_size_t) + _SIZE,
    "open_levels": _SIZE,
    "open_links": _SIZE,
    "waiting_cells": _SIZE,
    "quote_prefix": _BUFFER,
    "item_prefix": _BUFFER,
    "ordered_item_prefix": (c_int64,) + _BUFFER,
    "header_prefix": (c_size_t,) + _BUFFER,
    "text": _BUFFER,
    "text_as": (c_uint32,) + _BUFFER,
    "next_line": (POINTER(Line),),
    "line_text": _BUFFER,
    "line_as": (c_uint32,) + _BUFFER,
    "get_piece": (c_size_t, POINTER(Piece)),
    "marker_name": (c_size_t,) + _BUFFER,
    "get_annotation": (c_size_t, c_size_t, POINTER(Annotation)),
    "annotation_target": (c_size_t, c_size_t) + _BUFFER,
}


def load() -> ctypes.CDLL:
    """The library, with the types of what it exports. ImportError where it isn't found, or is another one."""
    file = library_file()
    try:
        library = ctypes.CDLL(file)
    except OSError as error:
        raise ImportError(f"{_why(file, error)}. {HOW_TO_GET_IT}") from error
    try:
        _declare(library)
    except AttributeError as error:
        raise ImportError(f"{file} is of another version than this package: {error}. {HOW_TO_GET_IT}") from error
    return library


def _why(file: str, error: OSError) -> str:
    """Why a file isn't loaded."""
    if file != FILE:
        return f"{file} isn't loaded: {error}"
    tried = ", ".join(folders())
    return f"{FILE} isn't found: {FOLDER} isn't set, none of {tried} has it, and the system's loader says: {error}"


def _declare(library: ctypes.CDLL) -> None:
    for name, taken in CALLS.items():
        function = getattr(library, f"tbr_{name}")
        function.argtypes = (c_void_p, *taken)
        function.restype = c_uint32
    library.tbr_new.argtypes = (POINTER(Options), POINTER(c_void_p))
    library.tbr_new.restype = c_uint32
    library.tbr_free.argtypes = (c_void_p,)
    library.tbr_free.restype = None
    for render in (library.tbr_render, library.tbr_render_raw):
        render.argtypes = (*_TEXT, c_char_p, c_size_t)
        render.restype = Answer
    library.tbr_text_width_n.argtypes = (*_TEXT, *_SIZE)
    library.tbr_text_width_n.restype = c_uint32
    library.tbr_measure_n.argtypes = (*_TEXT, c_uint32, POINTER(Extent))
    library.tbr_measure_n.restype = c_uint32
    library.tbr_version.argtypes = ()
    library.tbr_version.restype = c_char_p


LIBRARY = load()
