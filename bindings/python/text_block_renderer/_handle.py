"""An owned renderer of the library, and the calls to it."""

from collections.abc import Callable
from ctypes import Structure, byref, c_bool, c_size_t, c_void_p, create_string_buffer
from threading import RLock
from typing import Any, TypeVar

from ._arguments import utf8
from ._library import CALLS, LIBRARY, Options
from .errors import BufferTooSmallError, check

_Answer = TypeVar("_Answer", bound=Structure)
_FUNCTIONS: dict[str, Callable[..., int]] = {name: getattr(LIBRARY, f"tbr_{name}") for name in CALLS}


class OwnedRenderer:
    """A renderer that is freed once, and used by one call at a time: a call on another thread waits."""

    def __init__(self, options: Options) -> None:
        self._at = c_void_p()
        self._lock = RLock()
        check(LIBRARY.tbr_new(byref(options), byref(self._at)))

    def close(self) -> None:
        """Frees it, once. Each later call raises `NoRendererError`."""
        with self._lock:
            at, self._at = self._at, c_void_p()
            LIBRARY.tbr_free(at)

    @property
    def is_closed(self) -> bool:
        return not self._at

    def call(self, name: str, *arguments: Any) -> None:
        """Makes a call with the renderer."""
        check(self._status(name, *arguments))

    def with_text(self, call: str, text: str) -> None:
        """Makes a call with a text, as its bytes and their number."""
        encoded = utf8(text, "text")
        check(self._status(call, encoded, len(encoded)))

    def with_texts(self, call: str, **texts: str) -> None:
        """Makes a call with texts, each as its bytes and their number."""
        encoded = [utf8(text, name) for name, text in texts.items()]
        self.call(call, *(argument for text in encoded for argument in (text, len(text))))

    def number(self, name: str, *arguments: Any) -> int:
        """The answer of a question that writes a number."""
        answer = c_size_t()
        self.call(name, *arguments, byref(answer))
        return answer.value

    def flag(self, name: str) -> bool:
        """The answer of a question that writes whether something is so."""
        answer = c_bool()
        self.call(name, byref(answer))
        return answer.value

    def fill(self, answer: _Answer, name: str, *arguments: Any) -> _Answer:
        """A struct that a call fills."""
        self.call(name, *arguments, byref(answer))
        return answer

    def text(self, room: int, name: str, *arguments: Any) -> str:
        """The text that a call writes into a buffer, which has this much room at first."""
        length = c_size_t()
        with self._lock:
            buffer = create_string_buffer(max(room, 1))
            try:
                self.call(name, *arguments, buffer, room, byref(length))
            except BufferTooSmallError:
                buffer = create_string_buffer(length.value)
                self.call(name, *arguments, buffer, length, byref(length))
        return buffer.raw[: length.value].decode()

    def refusal(self) -> int:
        """The status that the renderer keeps."""
        return self._status("refusal")

    def _status(self, name: str, *arguments: Any) -> int:
        function = _FUNCTIONS[name]
        with self._lock:
            return function(self._at, *arguments)
