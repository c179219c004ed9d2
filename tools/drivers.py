"""Scripts answered over the library by the drivers in C, Rust and Python, each of which makes their calls one by one."""
import json
import os
import subprocess
import sys
from pathlib import Path

import kit
import library
import scripts

TOP = Path(kit.TOP)
RUST = TOP / "bindings" / "rust"


class NotBuilt(Exception):
    """A driver isn't compiled. It holds what was said."""


def by_c(lib, cases, lanes, room):
    """What differs by the program in C, which is linked with the static library."""
    program = Path(room, "replay")
    words = ["cc", "-std=c99", "-O1", f"-I{TOP}/include", TOP / "bindings/c/tests/replay.c", lib / f"lib{library.NAME}.a"]
    run([*words, "-o", program])
    return scripts.run_all([program], cases, lanes)


def by_rust(lib, cases, lanes, room):
    """What differs by the example in Rust."""
    found = {**os.environ, "TEXT_BLOCK_RENDERER_LIB": str(lib), "CARGO_TARGET_DIR": room}
    run(["cargo", "build", "--offline", "--quiet", "--release", "--example", "blockrender"], cwd=RUST, env=found)
    return scripts.run_all([Path(room, "release", "examples", "blockrender")], cases, lanes)


def by_python(lib, cases, *_):
    """What differs by the package for Python, in one process for all cases."""
    found = {**os.environ, "TEXT_BLOCK_RENDERER_LIB": str(lib), "PYTHONDONTWRITEBYTECODE": "1"}
    asked = json.dumps([case.script for case in cases])
    said = json.loads(run([sys.executable, TOP / "tools" / "python_answers"], input=asked, env=found))
    differences = {case.name: scripts.difference(case, *answer) for case, answer in zip(cases, said)}
    return {name: difference for name, difference in differences.items() if difference}


# Each by the tool that it needs.
DRIVERS = {"C": ("cc", by_c), "Rust": ("cargo", by_rust), "Python": ("python3", by_python)}


def run(words, **how):
    """What a command prints."""
    ran = subprocess.run(words, stdout=subprocess.PIPE, stderr=subprocess.PIPE, text=True, check=False, **how)
    if ran.returncode:
        raise NotBuilt(f"{words[0]} failed:\n{ran.stderr}")
    return ran.stdout
