"""Builds without proofs what the proved crates export for C.

The kit's quick build compiles what a `main` reaches and nothing else. So a program is written that makes each call once,
in a copy of the crates' code. It is compiled and never run: the compiler is told to keep the calls under their names.
"""
import os
import re
import shutil

import kit
import library
import quick

CALL = re.compile(r'^pub extern "C" fn (tbr1_\w+)\(([^)]*)\)( -> Answer| -> u32)?', re.M)
# A value of each type that a call takes.
VALUES = {
    "Global": "alloc",
    "Handle": "back.again()",
    "&mut Returned": "&mut back",
    "&Options": "&options",
    "&[u8]": "&bytes",
    "&mut [u8]": "&mut out",
    "&mut usize": "&mut size",
    "&mut bool": "&mut flag",
    "&mut LineSize": "&mut line",
    "&mut PiecePlace": "&mut piece",
    "&mut AnnotationKind": "&mut annotation",
    "&mut Extent": "&mut extent",
    "usize": "1",
    "u32": "1",
    "i64": "1",
    "u8": "1",
    "bool": "true",
}
# What lets a pointer be used twice, for a program that is never run.
AGAIN = """
impl Returned {
    pub fn fresh(alloc: Global) -> Returned {
        Returned { ptr: core::ptr::null_mut(), alloc }
    }

    pub fn again(&self) -> Handle {
        Handle { ptr: self.ptr, alloc: self.alloc }
    }
}
"""
MAIN = """\
use crate::extent::Extent;
use crate::handle::{Handle, Returned};
use crate::options::Options;
use std::process::ExitCode;
use tbr_c_lines::{AnnotationKind, LineSize, PiecePlace};

fn main(rt: HostRuntime) -> ExitCode {
    let alloc = rt.alloc();
    let options = Options {
        width: 1, wrap_width: 0, decorator: 0, images: 0, overflow: false, pad: false, footnotes: false,
        wrap_links: true, strikeout_strokes: true, draw_borders: true, raw: false,
    };
    let bytes = [65u8];
    let mut out = [0u8];
    let mut size = 0usize;
    let mut flag = false;
    let mut line = LineSize { bytes: 0, columns: 0, pieces: 0, is_border: false };
    let mut piece = PiecePlace { begin: 0, end: 0, annotations: 0, name_bytes: 0, kind: 0 };
    let mut annotation = AnnotationKind { target_bytes: 0, kind: 0, red: 0, green: 0, blue: 0 };
    let mut extent = Extent { longest_word: 0, widest_line: 0 };
    let mut back = Returned::fresh(alloc);
    let mut sum = 0u32;
CALLS
    ExitCode::from(if sum == 0 { 0 } else { 1 })
}
"""
# The calls keep the names that C knows, and `main` isn't seen.
EDITS = r"""sed -E -i -e 's/^define internal (.*)@"tbr_c::[a-z_]+::(tbr1_[a-z_]+)"\(/define \1@\2(/' \
    -e 's/@"tbr_c::[a-z_]+::(tbr1_[a-z_]+)"/@\1/g' -e 's/^define i32 @main\(/define internal i32 @main(/' module.ll"""
# There is nothing to link and to run.
COMPILED = f'lean && clang "${{{{words[@]}}}}" -c -fPIC {quick.SOON} && cp module.o "{{room}}/calls.o" && exit 1'
COMPILER = quick.unchecked(COMPILED, EDITS)


def build():
    """Builds the calls where they aren't built from these sources, and answers the object that has them."""
    return quick.newest("calls.o", library.CRATES, calls_in)


def calls_in(room):
    """Builds the calls in an empty folder, and answers their path there."""
    crates = [kit.crates()[name] for name in library.CRATES]
    code = os.path.join(room, "src")
    for crate in crates:
        shutil.copytree(os.path.join(crate.folder, "src"), code, dirs_exist_ok=True)
    os.remove(os.path.join(code, "lib.rt"))
    with open(os.path.join(code, "handle.rt"), "a", encoding="utf-8") as file:
        file.write(AGAIN)
    main = main_of(code)
    with open(os.path.join(code, "main.rt"), "w", encoding="utf-8") as file:
        file.write(main)
    words = ["--stdin", os.devnull, "--crate-name", crates[0].name, os.path.join(code, "main.rt")]
    said = quick.run(words, crates, room, quick.toolchain_with({"clang": COMPILER}, room))
    built = os.path.join(room, "calls.o")
    if not os.path.exists(built):
        raise quick.NotBuilt(said)
    return built


def main_of(code):
    """A `main` that makes each call of these modules."""
    modules = sorted(name.removesuffix(".rt") for name in os.listdir(code))
    calls = [call for module in modules for call in calls_of(code, module)]
    # The call that frees comes last.
    calls.sort(key=lambda call: "tbr1_free" in call)
    return "".join(f"mod {module};\n" for module in modules) + MAIN.replace("CALLS", "\n".join(calls))


def calls_of(code, module):
    """The statements that make each call of a module."""
    with open(os.path.join(code, f"{module}.rt"), encoding="utf-8") as file:
        for name, parameters, answer in CALL.findall(file.read()):
            types = [it.split(":")[1].strip() for it in parameters.split(",") if it.strip()]
            call = f"crate::{module}::{name}({', '.join(VALUES[it] for it in types)})"
            if answer.endswith("Answer"):
                call += ".status"
            yield f"    sum = sum | {call};" if answer else f"    {call};"
