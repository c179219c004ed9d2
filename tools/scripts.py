"""Scripts with what the program has to answer, as they are written in this repository, and how they are run.

FILE.txt      cases, as replays/README.md says
FILE.script   a script, whose answer is in FILE.out: what it prints, and then `status N` where that isn't 0
FILE.md       a page, of which each block marked `script` is followed by one marked `text`, written as FILE.out
"""
import difflib
import re
import subprocess
from concurrent.futures import ThreadPoolExecutor
from dataclasses import dataclass, field
from pathlib import Path

BEGINNING = re.compile(r"^(===|---|\+\+\+) ?(.*)$")
BLOCK = re.compile(r"^```(\w*)\n(.*?)^```$", re.M | re.S)
STATUS = re.compile(r"^status (\d+)\n\Z", re.M)
SECONDS = 60


@dataclass
class Case:
    """A script, and how the program has to end: its text, its status, and the line on standard error."""

    name: str
    script: str = ""
    text: str = ""
    ended: str = field(default="0")

    def answer(self):
        """The text, and then how the program ends."""
        return f"{self.text}--- {self.ended}\n"


def cases_of(path):
    """The cases of a file."""
    content = Path(path).read_text(encoding="utf-8")
    kind = {".txt": replays, ".script": with_answer_beside, ".md": of_page}[Path(path).suffix]
    return list(kind(Path(path), content))


def replays(path, content):
    """The cases of a file of several. A right answer after the crate's takes its place."""
    case = part = None
    for line in content.splitlines(keepends=True):
        begins = BEGINNING.match(line.rstrip("\n"))
        if begins and begins[1] == "===":
            if case:
                yield case
            case, part = Case(f"{path.name}, {begins[2]}"), "script"
        elif begins:
            case.ended, case.text, part = begins[2], "", "text"
        else:
            setattr(case, part, getattr(case, part) + line)
    if case:
        yield case


def with_answer_beside(path, content):
    yield printed(f"{path.parent.name}/{path.name}", content, path.with_suffix(".out").read_text(encoding="utf-8"))


def of_page(path, content):
    script, number = None, 0
    for block in BLOCK.finditer(content):
        if block[1] == "script":
            script, number = block[2], number + 1
        elif block[1] == "text" and script is not None:
            yield printed(f"{path.name}, script {number}", script, block[2])
            script = None


def printed(name, script, answer):
    """The case of a script that prints this: a text, or the line on standard error and the status."""
    status = STATUS.search(answer)
    if not status:
        return Case(name, script, answer)
    return Case(name, script, "", f"{status[1]} {answer[: status.start()].rstrip()}".rstrip())


def differs(program, case):
    """How the program's answer differs from the right one, or nothing."""
    how = {"input": case.script.encode(), "capture_output": True, "timeout": SECONDS, "check": False}
    ran = subprocess.run(program, **how)
    ended = f"{ran.returncode} {ran.stderr.decode(errors='replace')}".strip()
    return difference(case, ran.stdout.decode(errors="replace"), ended)


def difference(case, text, ended):
    """How an answer differs from the right one, or nothing."""
    lines = [it.answer().splitlines(keepends=True) for it in (case, Case(case.name, case.script, text, ended))]
    return "".join(difflib.unified_diff(*lines, "right", "seen"))


def run_all(program, cases, lanes=None):
    """What differs, by the names of the cases. The program is the words of a command."""
    with ThreadPoolExecutor(lanes) as pool:
        differences = pool.map(lambda case: differs(program, case), cases)
        return {case.name: difference for case, difference in zip(cases, differences) if difference}
