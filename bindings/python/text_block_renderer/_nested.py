"""What a `with` block fills and then ends."""

from collections.abc import Callable, Iterator
from contextlib import contextmanager, suppress

from .errors import NothingToEndError, RendererError, StillOpenError


@contextmanager
def nested(depth: Callable[[], int], start: Callable[[], None], end: Callable[[], None]) -> Iterator[None]:
    """Starts something and ends it, also where an exception leaves the block, which then goes on.

    It isn't ended if it is no longer in the innermost level: `StillOpenError` if the block leaves a level open,
    `NothingToEndError` if it closed the one that it was in.
    """
    start()
    begun = depth()
    try:
        yield
    except BaseException:
        with suppress(RendererError):
            _end_at(begun, depth(), end)
        raise
    _end_at(begun, depth(), end)


def _end_at(begun: int, now: int, end: Callable[[], None]) -> None:
    if now > begun:
        raise StillOpenError
    if now < begun:
        raise NothingToEndError
    end()
