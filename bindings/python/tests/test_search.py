"""Where the library is looked for, by the package in folders of the tests' own."""

import os
import shutil
import subprocess
import sys
import sysconfig
import tempfile
import unittest
from pathlib import Path

from text_block_renderer import _library

HERE = Path(__file__).resolve().parents[1]
FILE = "libtext_block_renderer.so"
VARIABLE = "TEXT_BLOCK_RENDERER_LIB"
ASKED = "import text_block_renderer._library as it; print(it.LIBRARY._name)"


class Search(unittest.TestCase):
    def setUp(self) -> None:
        self.library = Path(_library.LIBRARY._name)
        if not self.library.is_absolute():
            self.skipTest("the system's loader has the library")
        room = tempfile.TemporaryDirectory()
        self.addCleanup(room.cleanup)
        self.top = Path(room.name).resolve()
        self.package = self.top / "bindings" / "python" / "text_block_renderer"
        shutil.copytree(HERE / "text_block_renderer", self.package, ignore=shutil.ignore_patterns("__pycache__", FILE))

    def imported(self, **environment: str) -> str:
        """What library an import of the package loads, or the last line of what it says."""
        kept = {name: value for name, value in os.environ.items() if name not in (VARIABLE, "LD_LIBRARY_PATH")}
        ran = subprocess.run(
            [sys.executable, "-c", ASKED],
            env={**kept, "PYTHONPATH": str(self.package.parent), **environment},
            cwd=self.top,
            capture_output=True,
            text=True,
        )
        return (ran.stdout + ran.stderr).splitlines()[-1]

    def put(self, folder: Path) -> str:
        """Puts the library into a folder, and answers its path."""
        folder.mkdir(parents=True, exist_ok=True)
        (folder / FILE).symlink_to(self.library)
        return str(folder / FILE)

    def make_repository(self) -> None:
        (self.top / "include").mkdir()
        (self.top / "include" / "text_block_renderer.h").touch()

    def test_what_comes_first_counts(self) -> None:
        self.make_repository()
        for folder in (self.top / "out" / "quick" / "lib", self.top / "out" / "lib", self.package):
            path = self.put(folder)
            self.assertEqual(self.imported(), path)
        named = self.top / "named"
        path = self.put(named)
        for name in (str(named), "named"):
            self.assertEqual(self.imported(**{VARIABLE: name}), path)

    def test_the_folder_that_is_named_may_be_the_one_of_work(self) -> None:
        path = self.put(self.top)
        self.assertEqual(self.imported(**{VARIABLE: "."}), path)

    def test_an_empty_name_is_none(self) -> None:
        path = self.put(self.package)
        self.assertEqual(self.imported(**{VARIABLE: ""}), path)

    def test_what_is_made_elsewhere_does_not_count(self) -> None:
        self.put(self.top / "out" / "lib")
        self.assertRegex(self.imported(), f"^ImportError: {FILE} isn't found: {VARIABLE} isn't set")

    def test_where_none_is_the_error_says_what_to_do(self) -> None:
        self.make_repository()
        said = self.imported()
        self.assertRegex(said, f"^ImportError: {FILE} isn't found: {VARIABLE} isn't set")
        for part in (self.package, self.top / "out" / "lib", self.top / "out" / "quick" / "lib"):
            self.assertIn(str(part), said)
        for part in ("./build quick", "install the wheel", f"set {VARIABLE}"):
            self.assertIn(part, said)

    def test_a_folder_that_is_named_has_it(self) -> None:
        self.put(self.package)
        said = self.imported(**{VARIABLE: str(self.top)})
        self.assertTrue(said.startswith(f"ImportError: {self.top}, which {VARIABLE} names, has no {FILE}. "), said)

    def test_a_file_that_is_no_library_is_told(self) -> None:
        (self.package / FILE).write_text("no library")
        self.assertTrue(self.imported().startswith(f"ImportError: {self.package / FILE} isn't loaded: "))

    def test_another_library_is_told(self) -> None:
        other = Path(sysconfig.get_config_var("DESTSHARED"))
        (self.package / FILE).symlink_to(next(other.glob("*.so")))
        self.assertTrue(self.imported().startswith(f"ImportError: {self.package / FILE} is of another version than "))


if __name__ == "__main__":
    unittest.main()
