"""Which library runs."""

from ._library import LIBRARY


def library_version() -> str:
    """The version of the library that runs, as `0.3.0`. Without its proofs it has `+unproved` after that."""
    version: bytes = LIBRARY.tbr_version()
    return version.decode()
