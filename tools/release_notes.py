"""What a release is of: a commit, its time, and what was proved."""
import re
import subprocess
from dataclasses import dataclass
from pathlib import Path

import kit

LAW = re.compile(r"((?:^/// .*\n)+)pub fn (\w+)", re.M)
# What the gate says of a commit, where it ran here.
VERDICT = Path(kit.TOP, "out", "verdict")
PROVED = """\
# What was proved

| | |
|---|---|
| version | {version} |
| commit | `{commit}` |
| kit | `{kit}` |
| the gate | {verdict} |

{claim}
"""
CLAIM = """\
Each function of the programs, and of the library except for `text_block_renderer.c`, is proved to meet its contract.

## The laws

Each is a function whose contract is the law; its file is in the repository.

| law | what it says |
|---|---|
{laws}"""
NO_CLAIM = "Nothing: this was built without proofs."


@dataclass(frozen=True)
class Release:
    """What is packed: a folder of what was built, under a version, of a commit that was made at a time."""

    built: Path
    version: str
    commit: str
    seconds: int

    @staticmethod
    def of_commit(built, version):
        """That of the commit that is checked out, in which nothing may be changed."""
        if git("status", "--porcelain"):
            raise SystemExit("tools/release: there are changes that aren't committed")
        commit, seconds = git("log", "-1", "--format=%H %ct").split()
        return Release(built, version, commit, int(seconds))

    def proved(self):
        """The page on what was proved."""
        rt = subprocess.run([kit.RT, "version"], stdout=subprocess.PIPE, check=True, text=True).stdout.strip()
        claim = NO_CLAIM if "+" in self.version else CLAIM.format(laws="\n".join(laws()))
        return PROVED.format(version=self.version, commit=self.commit, kit=rt, verdict=self.verdict(), claim=claim)

    def verdict(self):
        """What the gate said of this commit here."""
        commit, _, said = VERDICT.read_text(encoding="ascii").partition(" ") if VERDICT.exists() else ("", "", "")
        return f"`{said.strip()}`" if commit == self.commit else "wasn't run by whoever made this"


def git(*words):
    return subprocess.run(["git", "-C", kit.TOP, *words], stdout=subprocess.PIPE, check=True, text=True).stdout.strip()


def laws():
    """A row of a table for each law."""
    for crate in kit.crates().values():
        source = Path(crate.folder, "src")
        for file in sorted([*source.glob("laws.rt"), *source.glob("laws/*.rt")]):
            for words, name in LAW.findall(file.read_text(encoding="utf-8")):
                said = " ".join(line.removeprefix("///").strip() for line in words.splitlines())
                yield f"| `{name}` of {crate.name} | {said.replace('|', chr(92) + '|')} |"
