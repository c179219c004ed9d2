"""Where the library is looked for."""

import os

FOLDER = "TEXT_BLOCK_RENDERER_LIB"
FILE = "libtext_block_renderer.so"
HOW_TO_GET_IT = (
    "In its repository ./build quick makes it without proofs, and ./build with them. "
    f"Elsewhere install the wheel, which has it, or set {FOLDER} to the folder that has it."
)
_PACKAGE = os.path.dirname(os.path.realpath(__file__))
_REPOSITORY = os.path.realpath(os.path.join(_PACKAGE, "../../.."))


def library_file() -> str:
    """The path of the library, or its name alone for the system's loader.

    ImportError where the environment names a folder that doesn't have it.
    """
    if named := os.environ.get(FOLDER):
        folder = os.path.abspath(named)
        if not os.path.exists(os.path.join(folder, FILE)):
            raise ImportError(f"{folder}, which {FOLDER} names, has no {FILE}. {HOW_TO_GET_IT}")
        return os.path.join(folder, FILE)
    return next(filter(os.path.exists, (os.path.join(folder, FILE) for folder in folders())), FILE)


def folders() -> list[str]:
    """Those that may have it, where the environment names none: that of the package, and those of a release or of the
    repository, if the package is in one.
    """
    if not os.path.exists(os.path.join(_REPOSITORY, "include", "text_block_renderer.h")):
        return [_PACKAGE]
    return [_PACKAGE, *(os.path.join(_REPOSITORY, folder) for folder in ("lib", "out/lib", "out/quick/lib"))]
