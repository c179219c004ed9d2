"""What programs take on the workloads of bench/workloads, by valgrind's callgrind and GNU time."""
import os
import re
import shutil
import subprocess
import sys

TOP = os.path.dirname(os.path.dirname(os.path.realpath(__file__)))
BUILT = f"{TOP}/crates/blockrender/out/blockrender"
BLOCKRENDER = os.environ.get("BENCH_PROGRAM", BUILT)
# Instructions a byte of html2text 0.17.4's renderer under the same language, compiled in release.
UPSTREAM = {
    "letter": 301, "one_run": 305, "one_word": 461, "wide": 224, "annotated": 362, "quoted": 366, "table": 433,
    "spanning": 462, "preformatted": 568,
}
# Not measured for html2text, and at no other width: they show that the cost is linear.
ALONE = ["tags", "deep"]
# GNU time, which forks from little memory of its own.
TIME = "/usr/bin/time"


def stop(why):
    print(f"{os.path.relpath(sys.argv[0], TOP)}: {why}", file=sys.stderr)
    sys.exit(69)


def need(*tools):
    for tool in tools:
        if not shutil.which(tool):
            stop(f"{tool} isn't here")


def known(names):
    """The workloads of these names, or all where there is none."""
    unknown = [name for name in names if name not in [*UPSTREAM, *ALONE]]
    if unknown:
        stop(f"no workload: {' '.join(unknown)}")
    return names or [*UPSTREAM, *ALONE]


def build():
    """Proves and builds the programs and the library where they aren't built and no other program is named."""
    if BLOCKRENDER == BUILT:
        subprocess.run([f"{TOP}/build"], check=True)


def instructions(program, script, folder):
    """The instructions that a program takes, whose words are parted by spaces, or none where it refuses the script."""
    words = ["valgrind", "--tool=callgrind", f"--callgrind-out-file={folder}/callgrind", *program.split()]
    with open(script, "rb") as source:
        ran = subprocess.run(words, stdin=source, stdout=subprocess.DEVNULL, stderr=subprocess.PIPE, text=True)
    if ran.returncode:
        return None
    return int(re.search(r"Collected : (\d+)", ran.stderr)[1])


def peak(program, script):
    """A program's peak memory in MB, or none where it refuses the script."""
    with open(script, "rb") as source:
        words = [TIME, "-f", "%M", program]
        ran = subprocess.run(words, stdin=source, stdout=subprocess.DEVNULL, stderr=subprocess.PIPE, text=True)
    return None if ran.returncode else int(ran.stderr.split()[-1]) / 1000


class Scripts:
    """The workloads' scripts, each made where it is first asked for."""

    def __init__(self, folder):
        self.folder = folder

    def script(self, name, scale=1, width=0):
        folder = f"{self.folder}/{scale}_{width}"
        if not os.path.isdir(folder):
            subprocess.run([f"{TOP}/bench/workloads", folder, str(scale), str(width)], check=True)
        return f"{folder}/{name}.script"


class Cost:
    """What a script takes for each byte in a program, without the program's start."""

    def __init__(self, program, folder):
        self.program, self.folder, self.scripts = program, folder, Scripts(folder)
        nothing = f"{folder}/nothing.script"
        with open(nothing, "w", encoding="utf-8") as script:
            script.write("new 72 plain\n")
        self.start = instructions(program, nothing, folder)

    def a_byte(self, name, scale=1, width=0):
        script = self.scripts.script(name, scale, width)
        taken = instructions(self.program, script, self.folder)
        return None if taken is None else (taken - self.start) / os.path.getsize(script)


def shown(number, digits=0):
    return "–" if number is None else f"{number:.{digits}f}"


def share(number, whole):
    return None if number is None or whole is None else number / whole
