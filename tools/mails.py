"""Tests of mailtext over a library: its own, mails in readers, an archive on a cluster, and hostile mails."""
import os
import re
import subprocess
import sys
from pathlib import Path

import kit

TOP = Path(kit.TOP)
RAN = re.compile(r"^Ran (\d+) tests?", re.M)
ENDED = re.compile(r"^(\d+) passed, (\d+) failed$", re.M)
SKIPPED = re.compile(r"skipped ['\"](.*)['\"]$", re.M)
WRONG = re.compile(r"^(?:FAIL|ERROR): (\S+)", re.M)
# Debian's Python has Debian's Dask.
PYTHONS = [sys.executable, "/usr/bin/python3"]
HOSTILE = "300"


def tests(lib):
    """How many of its own tests passed, and what is told of each that failed."""
    said = run(
        python_with("distributed"),
        "-W",
        "error::ResourceWarning",
        "-m",
        "unittest",
        "discover",
        "-v",
        "-s",
        "tests",
        "-p",
        "test_mailtext*.py",
        "-t",
        ".",
        lib=lib,
        folder=TOP / "bindings" / "python",
    )
    for why in sorted(set(SKIPPED.findall(said))):
        print(f"not tested: {why}", flush=True)
    ran = RAN.search(said)
    if not ran:
        return 0, {"tests of mailtext": said}
    wrong = {f"mailtext: {name}": "" for name in WRONG.findall(said)}
    if wrong:
        wrong[next(iter(wrong))] = said
    return int(ran[1]) - len(wrong) - said.count(" ... skipped "), wrong


def counted(name, *words, lib):
    """The same of a tool whose last line counts what passed."""
    said = run(sys.executable, TOP / "tools" / name, *words, lib=lib, folder=TOP)
    ended = ENDED.findall(said)
    if not ended:
        return 0, {f"tools/{name}": said}
    print("".join(f"{line}\n" for line in said.split("\n") if "isn't on the path" in line), end="", flush=True)
    passed, failed = map(int, ended[-1])
    return passed, {f"tools/{name}": said} if failed else {}


def python_with(module):
    """A Python that has a module, or else the one that runs."""
    asked = [*PYTHONS, sys.executable]
    has = (
        it
        for it in asked
        if os.path.exists(it)
        and not subprocess.run([it, "-c", f"import {module}"], stderr=subprocess.DEVNULL, check=False).returncode
    )
    return next(has, sys.executable)


def run(*words, lib, folder):
    """What a command prints, over the library in a folder."""
    paths = {
        "TEXT_BLOCK_RENDERER_LIB": str(lib),
        "PYTHONPATH": str(TOP / "bindings" / "python"),
        "PYTHONDONTWRITEBYTECODE": "1",
    }
    how = {"stdout": subprocess.PIPE, "stderr": subprocess.STDOUT, "text": True, "errors": "replace", "check": False}
    return subprocess.run(words, cwd=folder, env={**os.environ, **paths}, **how).stdout


def all_of(lib):
    """All of these, together."""
    passed, failed = tests(lib)
    for name, *words in (["hostile_mails", HOSTILE], ["mail_readers"]):
        more, wrong = counted(name, *words, lib=lib)
        passed, failed = passed + more, failed | wrong
    return passed, failed
