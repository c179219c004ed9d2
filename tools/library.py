"""Lays out what is installed: programs, the library for C, Rust and Python, and what other tools find them by.

The folder that it fills has the form of a prefix: bin, include, lib and share. The same sources give the same bytes in
any folder.
"""
import compileall
import os
import re
import shutil
import subprocess
import tempfile
from concurrent.futures import ThreadPoolExecutor
from dataclasses import dataclass
from pathlib import Path

import kit
import manuals

# Each is compiled by itself, so that what both call is inlined as if it were called from one alone.
CRATES = ["tbr_c", "tbr_c_script"]
PROGRAMS = ["blockrender", "blockview"]
NAME = "text_block_renderer"
HEADER = Path(kit.TOP, "include", f"{NAME}.h")
# The C code that is compiled into the library, and the texts that other tools find it by.
SOURCES = Path(kit.TOP, "bindings", "c", "src")
PACKAGING = Path(kit.TOP, "bindings", "c", "packaging")
EXPORTS = SOURCES / "exports.map"
# What is laid out, and nothing else in the folder.
PARTS = ["bin", "include", "lib", "share"]
VERSION = re.compile(r'^#define TBR_VERSION "([^"]+)"$', re.M)


@dataclass(frozen=True)
class Built:
    """What was built: the programs by their paths, what has the calls of the proved crates, and what the version says."""

    programs: list
    objects: list
    suffix: str = ""


def version():
    """The version that the header names."""
    return VERSION.search(HEADER.read_text(encoding="utf-8"))[1]


def proved(as_built):
    """What ./build has proved and built, or, where `rt ci` has just done so here, what that built."""
    programs = [Path(kit.crates()[name].folder, "out", name) for name in PROGRAMS]
    with ThreadPoolExecutor() as pool:
        return Built(programs, list(pool.map(compiled_by_ci if as_built else archive_of, CRATES)))


def lay_out(prefix, built):
    """Fills a folder."""
    for part in PARTS:
        shutil.rmtree(prefix / part, ignore_errors=True)
    for part in ("bin", "include", "lib"):
        (prefix / part).mkdir(parents=True)
    for program in built.programs:
        shutil.copy2(program, prefix / "bin" / program.stem)
    shutil.copy(HEADER, prefix / "include")
    describe(prefix, "lib", built.suffix)
    manuals.lay_out(prefix / "share", prefix / "bin" / "blockview", version() + built.suffix)
    link(built.objects, built.suffix, prefix / "lib")
    compile_python()


def compile_python():
    """Compiles the packages for Python where they are, so that they start sooner even if Python keeps no bytecode."""
    for name in (NAME, "mailtext"):
        compileall.compile_dir(Path(kit.TOP, "bindings", "python", name), quiet=2)


def link(objects, suffix, lib):
    """Makes the static and the shared library of what has the proved calls."""
    with tempfile.TemporaryDirectory() as room:
        calls = compiled(Path(room, "calls.o"), suffix)
        archive([*objects, calls], lib)
        share([*objects, calls], lib)


def describe(prefix, lib, suffix):
    """Writes what pkg-config and CMake find the library by, which is in a folder of the prefix, as lib."""
    words = {"@VERSION@": version() + suffix, "@NUMBERS@": version(), "@UNPROVED@": " (built without proofs)" if suffix else ""}
    words |= {"@LIB@": lib, "@UP@": "/".join([".."] * len(Path(lib).parts))}
    for template in sorted(PACKAGING.iterdir()):
        folder = prefix / lib / ("pkgconfig" if template.suffix == ".pc" else f"cmake/{NAME}")
        text = template.read_text(encoding="utf-8")
        for word, meaning in words.items():
            text = text.replace(word, meaning)
        folder.mkdir(parents=True, exist_ok=True)
        (folder / template.name).write_text(text, encoding="utf-8")


def archive_of(name):
    """Where the archive of a crate is, once it is built."""
    return Path(kit.crates()[name].folder, "out", f"lib{name}.a")


def compiled_by_ci(name):
    """The archive of a crate, whose libraries `rt ci` has just proved and built here, but no archive."""
    rtlib, crate, made = kit.library(), kit.crates()[name], archive_of(name)
    made.parent.mkdir(exist_ok=True)
    jobs = max(kit.side_by_side(kit.CHECK_MEMORY) // len(CRATES), 1)
    words = [*crate.words(["--jobs", str(jobs)], keeps=False), "--toolchain", f"{rtlib.KIT}/toolchain", "-o", str(made)]
    run([rtlib.RATTLE, "build", *words], cwd=crate.folder)
    return made


def compiled(made, suffix, *words):
    """The calls of the header, compiled by the kit's clang, which comes without headers of its own."""
    how = ["--target=x86_64-unknown-linux-gnu", "-std=c99", "-O2", "-fPIC", "-ffunction-sections", *words]
    how += ["-nostdinc", "-isystem", str(SOURCES / "freestanding"), f"-I{HEADER.parent}", f'-DTBR_BUILD="{suffix}"']
    run([toolchain("bin/clang"), *how, "-c", str(SOURCES / f"{NAME}.c"), "-o", str(made)])
    return made


def archive(objects, lib):
    """The static library, which needs no other than the C library."""
    added = "".join(f"{'addlib' if it.suffix == '.a' else 'addmod'} {it}\n" for it in [*objects, of_kit()])
    script = f"create {lib}/lib{NAME}.a\n{added}save\nend\n"
    run([toolchain("bin/llvm-ar"), "-M"], input=script, text=True)


def share(objects, lib, exports=EXPORTS):
    """The shared library, under its whole version, that of its calls, and none."""
    whole = f"lib{NAME}.so.{version()}"
    of_calls = f"lib{NAME}.so.{version().split('.')[0]}"
    words = ["-m", "elf_x86_64", "-shared", "-soname", of_calls, "--version-script", str(exports), "--build-id=sha1"]
    words += ["--no-undefined-version", "--eh-frame-hdr", "--gc-sections", "-z", "defs", "-z", "relro", "-z", "now"]
    words += ["-z", "noexecstack", "--whole-archive", *map(str, objects), "--no-whole-archive", str(of_kit())]
    words += [toolchain("lib/libc.so.6"), toolchain("lib/libc_nonshared.a"), toolchain("lib/libgcc_s.so.1")]
    words += [toolchain("lib/libm.so.6"), "-o", str(lib / whole)]
    run([toolchain("bin/ld.lld"), *words])
    for link in (of_calls, f"lib{NAME}.so"):
        os.symlink(whole, lib / link)


def of_kit():
    """What the kit adds to the C library."""
    return Path(kit.library().KIT, "c", "liblibc_c.a")


def toolchain(path):
    return f"{kit.library().KIT}/toolchain/{path}"


def run(words, **how):
    """Runs a command, and stops with what it said where it fails."""
    ran = subprocess.run(words, stdout=subprocess.PIPE, stderr=subprocess.STDOUT, check=False, **how)
    if ran.returncode:
        said = ran.stdout if isinstance(ran.stdout, str) else ran.stdout.decode(errors="replace")
        raise SystemExit(f"{words[0]} failed:\n{said}")
