"""The Rattle kit, as the tools of this repository use it."""
import functools
import importlib.machinery
import importlib.util
import os
import shutil
import sys

TOP = os.path.dirname(os.path.dirname(os.path.realpath(__file__)))
RT = shutil.which("rt") or "/opt/rattle/bin/rt"
# What a check takes of memory, in bytes.
CHECK_MEMORY = 4_000_000_000


@functools.cache
def rt():
    """The module of the command `rt`."""
    library()
    loader = importlib.machinery.SourceFileLoader("rt", os.path.realpath(RT))
    module = importlib.util.module_from_spec(importlib.util.spec_from_loader("rt", loader))
    loader.exec_module(module)
    return module


@functools.cache
def library():
    """The module that `rt` has its crates from."""
    folder = os.path.dirname(os.path.realpath(RT))
    if folder not in sys.path:
        sys.path.insert(0, folder)
    import rtlib

    return rtlib


@functools.cache
def crates():
    """The crates of this repository by name, each after those that it uses."""
    return {crate.name: crate for crate in library().crates_below(TOP)}


def needed_by(*names):
    """Crates and those of this repository that they use, each after what it needs itself."""
    needed = {below.name for name in names for below in crates()[name].below()} | {*names}
    return [it for it in crates().values() if it.name in needed]


def beside_others(niceness, *words):
    """Runs a command of `rt` that keeps others out of its own crate alone. Nobody may change the crates below meanwhile."""
    os.nice(int(niceness))
    own = rt().rtlib
    hold = own.lock
    own.lock = lambda crates: hold(crates[-1:])
    return rt().main(list(words))


def side_by_side(memory):
    """How many commands run at a time that take so many bytes each."""
    with open("/proc/meminfo", encoding="ascii") as file:
        free = next(1024 * int(line.split()[1]) for line in file if line.startswith("MemAvailable"))
    return max(1, min(len(os.sched_getaffinity(0)), free // memory))
