"""Scripts, in the language that `docs/SCRIPT.md` teaches."""

from ctypes import Array, c_char, create_string_buffer
from typing import TYPE_CHECKING

from ._arguments import raw as as_bytes
from ._library import LIBRARY
from .errors import ScriptError, refusal

if TYPE_CHECKING:
    from _typeshed import ReadableBuffer


def render_script(script: "str | ReadableBuffer", *, raw: bool = False) -> str:
    """The text of a script, which is a `str` or bytes.

    The text has no control characters except the newlines that end lines. With `raw`, those of prefixes, and of the
    targets in footnotes, stay as they are, as by the program `blockrender`.

    The script may be any bytes. `ScriptError` if a line is at fault, or refuses. `TypeError` for what isn't a text or
    bytes.
    """
    encoded = as_bytes(script, "script")
    text = create_string_buffer(max(len(encoded), 1))
    length = _render_into(encoded, text, raw)
    if length > len(text):
        text = create_string_buffer(length)
        _render_into(encoded, text, raw)
    return text.raw[:length].decode()


def _render_into(script: bytes, text: Array[c_char], raw: bool) -> int:
    """Writes as much of the text of a script as there is room for, and answers its length."""
    render = LIBRARY.tbr_render_raw if raw else LIBRARY.tbr_render
    answer = render(script, len(script), text, len(text))
    if reason := refusal(answer.status):
        raise ScriptError(reason, answer.line or None)
    return int(answer.length)
