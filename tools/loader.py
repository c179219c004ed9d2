"""Runs programs with tools/refuse.c in front of the C library, which counts what they ask for and refuses it."""
import subprocess
import tempfile
from dataclasses import dataclass
from pathlib import Path


@dataclass
class Ended:
    """How a run ended: what it is compared by, and how many requests, reads and writes there were."""

    seen: tuple
    counts: list


class Loader:
    """Runs programs with tools/refuse.c in front of the C library."""

    def __init__(self, folder):
        self.folder = folder
        self.library = f"{folder}/refuse.so"
        source = Path(__file__).resolve().parent / "refuse.c"
        subprocess.run(["cc", "-O2", "-shared", "-fPIC", "-o", self.library, source], check=True)

    def run(self, words, given=b"", **how):
        settings = {"LD_PRELOAD": self.library, **{name.upper(): str(value) for name, value in how.items()}}
        ran = subprocess.run(words, input=given, capture_output=True, env=settings, timeout=60, check=False)
        return ran.returncode, ran.stderr, ran.stdout

    def count(self, words, given=b"", **how):
        """A run in which nothing is refused."""
        with tempfile.NamedTemporaryFile(dir=self.folder) as told:
            seen = self.run(words, given, counts=told.name, **how)
            return Ended(seen, [int(number) for number in told.read().split()] or [0, 0, 0])
