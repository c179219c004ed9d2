"""What blockview says of scripts, files and its command line: checks of what the rules want, for tools/shown.

Each check answers what is wrong, by the name of its case.
"""
import os
import random
import re
import resource
import tempfile
from pathlib import Path

LITTLE = 64 * 2**20
PLACE = re.compile(r"^(?P<name>.*?):(?P<line>\d+)(:(?P<column>\d+))?: (?P<kind>error|warning): (?P<message>.*)$", re.M)
GREATEST = 2**64 - 1
# The numbers of commands: what is in front of one, what is after it, its least and its greatest.
NUMBERS = [
    ("new ", " plain", 1, GREATEST),
    ("new 9 plain pad wrap=", "", 1, GREATEST),
    ("sub ", "", 1, GREATEST),
    ("cell ", " 1", 1, GREATEST),
    ("cell 5 ", " right", 1, GREATEST),
    ("cell auto ", "", 1, GREATEST),
    ("cell auto 2 ", " right", 1, GREATEST),
    ("border ", "", 0, GREATEST),
    ("heading ", "", 1, GREATEST),
    ("ordered ", "", 0, 2**63 - 1),
    ("colour ", " 1 2", 0, 255),
    ("colour 1 ", " 2", 0, 255),
    ("bg 1 2 ", "", 0, 255),
]
# Lines that are no command, and the character where the word at fault begins.
FAULTS = [
    ("textt a", 1),
    ("cell 5 1 middel", 10),
    ("em x", 4),
    ("text \u00e9\u6f22 \\q", 9),
    ("link \\n\\u{110000}", 8),
    (" text a", 1),
    ("row ", 4),
    ("ws all", 4),
    ("new 9 plain", 1),
]
OPENINGS = [("new 9 plaine", 7), ("new 9 rich pad \u00e9pad", 16), ("text a", 1)]
WORDS = ["em", "strong", "strike", "code", "super", "pre", "ws pre", "link a", "colour 1 2 3", "bg 1 2 3"]
# What is written of the names of files: their control characters as escapes of scripts.
NAMES = {"a\x1b[31mb": r"a\u{1b}[31mb", "c\nd": r"c\nd", "e\tf": r"e\tf", "g\x9b\x7f": r"g\u{9b}\u{7f}"}


class Stretches:
    """A random script of stretches that overlap, in levels, and the lines of those that aren't ended in their own."""

    def __init__(self, seed):
        self.random = random.Random(seed)
        self.lines = ["new 60 rich"]
        self.open = [[]]
        self.left = set()
        for _ in range(self.random.randrange(40)):
            self.step()
        while len(self.open) > 1:
            self.close()
        self.left |= {number for _, number in self.open.pop()}

    def step(self):
        kind = self.random.randrange(6)
        if kind < 3:
            word = self.random.choice(WORDS)
            self.lines.append(word)
            self.open[-1].append((word.split()[0], len(self.lines)))
        elif kind == 3:
            self.end()
        elif kind == 4:
            self.lines.append(self.random.choice(["sub 40", "quote"]))
            self.open.append([])
        elif len(self.open) > 1:
            self.close()

    def end(self):
        """Ends the last of a kind that is open in the innermost level."""
        begun = self.open[-1]
        if begun:
            word = self.random.choice(begun)[0]
            begun.remove(max(one for one in begun if one[0] == word))
            self.lines.append(f"end{word}")

    def close(self):
        self.left |= {number for _, number in self.open.pop()}
        opener = self.opener()
        self.lines.append("endquote" if opener == "quote" else "append | | ")

    def opener(self):
        """What opened the innermost level."""
        depth = 0
        for line in reversed(self.lines):
            depth += {"endquote": 1, "append | | ": 1, "quote": -1, "sub 40": -1}.get(line, 0)
            if depth < 0:
                return line
        return ""

    def script(self):
        return "\n".join(self.lines) + "\n"


def places(said, kind):
    """Where problems of a kind are, each with its message."""
    return [found for found in PLACE.finditer(said) if found["kind"] == kind]


def run(view, script, *words, **how):
    """The status, what is written and what is said of a script on standard input."""
    ran = view.run([*words], input=script.encode(), **how)
    return ran.returncode, ran.stdout.decode(), ran.stderr.decode()


def check_number(view, before, after, number, limits):
    """Whether a number is taken where it is within limits, and where it isn't is told with them and its place."""
    opening = "" if before.startswith("new") else "new 30 plain\n"
    _, _, said = run(view, f"{opening}{before}{number}{after}\n")
    told = [found for found in places(said, "error") if f"from {limits[0]} to {limits[1]}, not `{number}`" in found["message"]]
    if limits[0] <= number <= limits[1]:
        return f"it says {said!r}" if told else ""
    return "" if told and told[0]["column"] == str(len(before) + 1) else f"it says {said!r}"


def check_numbers(view):
    wrong = {}
    for before, after, least, greatest in NUMBERS:
        for number in (least - 1, least, greatest, greatest + 1):
            if number >= 0:
                wrong[f"`{before}{number}{after}`"] = check_number(view, before, after, number, (least, greatest))
    return wrong


def check_fault(view, script, line, column):
    """Whether the word at fault is told with its line and the character where it begins."""
    status, written, said = run(view, script)
    at = [(found["line"], found["column"]) for found in places(said, "error")]
    right = status == 2 and not written and at == [(str(line), str(column))]
    return "" if right else f"{status} {written!r} {said!r}"


def check_faults(view):
    inside = {f"`{line}`": check_fault(view, f"new 9 plain\n{line}\n", 2, column) for line, column in FAULTS}
    return inside | {f"`{line}`": check_fault(view, f"{line}\n", 1, column) for line, column in OPENINGS}


def check_stretches(view, seed):
    """Whether each stretch that isn't ended is told where it began, and no other."""
    made = Stretches(seed)
    status, _, said = run(view, made.script())
    told = {int(found["line"]) for found in places(said, "warning") if found["message"].endswith("isn't ended")}
    return "" if status == 0 and told == made.left else f"{status}, {sorted(told)} and not {sorted(made.left)}: {made.script()!r}"


def check_width(view, seed):
    """Whether the first row that is wider than --width is told with its columns, and none where all fit."""
    chosen = random.Random(seed)
    lines, wide, width = ["new 80 plain"], None, chosen.randint(1, 30)
    for _ in range(chosen.randint(1, 3)):
        cells = [chosen.randint(2, 9) for _ in range(chosen.randint(1, 4))]
        lines += [line for cell in cells for line in (f"cell {cell} 1", "text a", "endcell")]
        lines.append("row")
        columns = sum(cells) + len(cells) - 1
        wide = wide or (columns > width and (str(len(lines)), f"the row takes {columns} columns, and --width says {width}"))
    status, _, said = run(view, "\n".join(lines) + "\n", "--width", str(width))
    told = [(found["line"], found["message"]) for found in places(said, "warning")]
    return "" if status == 0 and told == ([wide] if wide else []) else f"{status} {told} and not {wide}: {lines!r}"


def check_heading(view):
    """Whether a prefix of 2 GB is refused at once: its columns are told, which are those of its signs and a space."""
    script = "new 20 plain\nheading 2000000000\ntext a\nendheading\n"
    status, written, said = run(view, script, preexec_fn=with_little_memory)
    right = status == 2 and not written and "takes 2000000001 columns, and there are 20" in said
    return "" if right else f"{status} {said!r}"


def check_documents(view, folder):
    """Whether only what is shown is written, in one document, and nothing at all where all is refused."""
    files = {name: os.path.join(folder, name) for name in ("good", "bad")}
    Path(files["good"]).write_text("new 9 plain\ntext shown\n", encoding="utf-8")
    Path(files["bad"]).write_text("new 9 plain\nno\n", encoding="utf-8")
    wrong = {}
    for names in (["bad"], ["bad", "bad"], ["good", "bad"], ["bad", "good"], ["good"]):
        ran = view.run(["--format", "html", *(files[name] for name in names)])
        written = ran.stdout.decode()
        counts = written.count("<pre>"), written.count("</pre>"), written.count("shown")
        right = counts == (1, 1, 1) if "good" in names else not written
        right = right and ran.returncode == (2 if "bad" in names else 0)
        wrong[f"HTML of {names}"] = "" if right else f"{ran.returncode} {written!r}"
    return wrong


def check_names(view, folder):
    """Whether control characters of names are told as escapes, of files that are faulty and of those that aren't there."""
    wrong = {}
    for name, shown in NAMES.items():
        path = Path(folder, name)
        absent = view.run([str(path)])
        path.write_text("no\n", encoding="utf-8")
        faulty = view.run([str(path)])
        right = f"{folder}/{shown} isn't there\n".encode() in absent.stderr and absent.returncode == 3
        right = right and f"{folder}/{shown}:1:1: error: ".encode() in faulty.stderr and faulty.returncode == 2
        wrong[f"a file named {name!r}"] = "" if right else f"{absent.stderr!r} {faulty.stderr!r}"
    return wrong


def check_unread(view, folder):
    """Whether a file that isn't there, a folder and a file without permission are told apart."""
    closed = Path(folder, "closed")
    closed.write_text("new 9 plain\n", encoding="utf-8")
    closed.chmod(0)
    told = {name: view.run([os.path.join(folder, name)]) for name in ("absent", ".", "closed")}
    said = {name: ran.stderr.decode() for name, ran in told.items()}
    right = "isn't there" in said["absent"] and "is a folder" in said["."]
    # The superuser may read all.
    right = right and (os.geteuid() == 0 or "permission" in said["closed"])
    right = right and all(ran.returncode == 3 for name, ran in told.items() if name != "closed" or os.geteuid())
    return "" if right else f"{said}"


def check_help(view):
    """Whether the help has no line of more than 80 columns, and the version is told."""
    shown = view.run(["--help"]).stdout.decode()
    long = [line for line in shown.split("\n") if len(line) > 80]
    version = view.run(["--version"]).stdout.decode()
    right = not long and re.fullmatch(r"blockview \d+\.\d+\.\d+(\+unproved)?\n", version)
    return "" if right else f"{long} {version!r}"


def with_little_memory():
    resource.setrlimit(resource.RLIMIT_AS, (LITTLE, LITTLE))


def check(view, pool, count, seed):
    """The number of cases, and what is wrong, by their names."""
    seeds = range(seed, seed + count)
    wrong = {f"random stretches {at}": said for at, said in zip(seeds, pool.map(lambda at: check_stretches(view, at), seeds))}
    wrong |= {f"random rows {at}": said for at, said in zip(seeds, pool.map(lambda at: check_width(view, at), seeds))}
    wrong |= check_numbers(view) | check_faults(view)
    wrong |= {"a long heading": check_heading(view), "--help": check_help(view)}
    with tempfile.TemporaryDirectory() as folder:
        wrong |= check_documents(view, folder) | check_names(view, folder)
        wrong |= {"files that aren't read": check_unread(view, folder)}
    return len(wrong), {name: said for name, said in wrong.items() if said}
