"""Why a call did nothing: an exception for each status of the library."""


class RendererError(Exception):
    """Any refusal of the library."""

    message = "no status"

    def __init__(self) -> None:
        super().__init__(self.message)


class OutOfMemoryError(RendererError, MemoryError):
    """Memory was refused, or a size passes that of the machine. A renderer keeps this refusal."""

    message = "out of memory"


class TooNarrowError(RendererError):
    """A word holds a character that is wider than the line.

    This never happens in lines of two columns or more. A renderer keeps this refusal.
    """

    message = "too narrow"


class NotACommandError(RendererError):
    """A line of a script isn't a command, or isn't allowed there."""

    message = "not a command"


class NothingToEndError(RendererError):
    """In the open level, nothing is open that the call could end."""

    message = "nothing to end"


class RowDoesNotFitError(RendererError):
    """The cells of a row are in the way of cells that overhang from the rows above."""

    message = "row does not fit"


class NotUtf8Error(RendererError, ValueError):
    """A text has a surrogate, or bytes aren't UTF-8."""

    message = "not UTF-8"


class BadWidthError(RendererError, ValueError):
    """A width of 0 columns."""

    message = "a width of 0 columns"


class BadArgumentError(RendererError, ValueError):
    """A span of 0 rows, or a number that the library has no meaning for."""

    message = "bad argument"


class StillOpenError(RendererError):
    """Inside what the call would end, a level is open, or cells wait for a row."""

    message = "a level is open or cells wait"


class FinishedError(RendererError):
    """The renderer is finished."""

    message = "the renderer is finished"


class NotFinishedError(RendererError):
    """The renderer isn't finished."""

    message = "the renderer is not finished"


class NoLineError(RendererError):
    """There is no line."""

    message = "no line"


class NoPieceError(RendererError):
    """The line has no such piece, or the piece has no such annotation."""

    message = "no such piece"


class BufferTooSmallError(RendererError):
    """A text has more bytes than the buffer has room for."""

    message = "the buffer is too small"


class NoRendererError(RendererError):
    """The renderer was closed."""

    message = "no renderer"


class InTableError(RendererError):
    """A table is open that finds its widths, and the call has to wait for its end, or for a cell."""

    message = "a table is open"


class NoTableError(RendererError):
    """No table that finds its widths is open that could take a cell."""

    message = "no table is open"


class ScriptError(Exception):
    """Why a script isn't rendered: `reason`, and the number of the line at fault, from 1, or None."""

    def __init__(self, reason: RendererError, line: int | None) -> None:
        super().__init__(f"line {line}: {reason}" if line else str(reason))
        self.reason = reason
        self.line = line


_BY_STATUS: dict[int, type[RendererError]] = {
    1: OutOfMemoryError,
    2: TooNarrowError,
    3: NotACommandError,
    4: NothingToEndError,
    5: RowDoesNotFitError,
    6: NotUtf8Error,
    7: BadWidthError,
    8: BadArgumentError,
    9: StillOpenError,
    10: FinishedError,
    11: NotFinishedError,
    12: NoLineError,
    13: NoPieceError,
    14: BufferTooSmallError,
    15: NoRendererError,
    16: InTableError,
    17: NoTableError,
}


def refusal(status: int) -> RendererError | None:
    """The exception of a status, or None if the status is no refusal."""
    return _BY_STATUS.get(status, RendererError)() if status else None


def check(status: int) -> None:
    """Raises the exception of a status, if it has one."""
    if status and (refused := refusal(status)):
        raise refused
