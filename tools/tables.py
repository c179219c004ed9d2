"""Tables that find their widths, as blockview shows them: checks of what the rules want, for tools/random_tables.

Each check answers what is wrong, or nothing.
"""
import random
import re
import subprocess
import tempfile

from loader import Loader

ALIGNMENTS = ["", " left", " right", " centre"]
KINDS = ["text"] * 5 + ["quote", "item", "ordered 12", "link http://x/", "em", "super", "line", "block", "table"]
# How deep tables may be inside others.
DEEPEST = 2
SECONDS = 60
PLACE = re.compile(r"^-:(?P<line>\d+)(:(?P<column>\d+))?: (?P<kind>error|note)", re.M)
# A cell that is open, in a table that is open on line 2.
CELL = "table auto/cell auto"
# Scripts without their first line, the line and the character at fault, and the line that it has to do with.
REFUSED = [
    ("cell auto/", 2, 1, None),
    ("endtable/", 2, 1, None),
    ("table auto/", 3, None, 2),
    ("table auto/text a", 3, 1, 2),
    ("table auto/em", 3, 1, 2),
    ("table auto/quote", 3, 1, 2),
    ("table auto/table auto", 3, 1, 2),
    ("table auto/endcell", 3, 1, 2),
    ("table auto/row", 3, 1, 2),
    ("table auto/cell 5 1", 3, 1, None),
    ("table auto/vrow", 3, 1, None),
    (f"{CELL}/endcell/row collapse", 5, 1, None),
    (f"{CELL}/endcell/endtable", 5, None, 3),
    (f"{CELL}/endcell/row/row", 6, 1, 2),
    (f"{CELL}/", 4, None, 3),
    (f"{CELL}/row", 4, 1, 3),
    (f"{CELL}/endtable", 4, 1, 3),
    (f"{CELL}/cell auto", 4, 1, 3),
    (f"{CELL}/cell 5 1", 4, 1, None),
    (f"{CELL}/vrow", 4, 1, None),
    (f"{CELL}/row collapse", 4, 1, None),
    (f"{CELL}/endem", 4, 1, 3),
    (f"{CELL}/append > | > ", 4, 1, 3),
    (f"{CELL}/quote/endcell", 5, 1, 4),
    (f"{CELL}/sub 3/endquote", 5, 1, 4),
    (f"{CELL}/heading 2000000000", 4, 1, None),
    (f"em/{CELL}/endem", 5, 1, 4),
    (f"{CELL}/{CELL}/endcell/row/endtable/endtable", 9, 1, 3),
    ("cell 5 1/endcell/table auto", 4, None, 2),
    ("cell 1 2/text ab/endcell/row/table auto", 6, 1, 2),
    ("table auto/cell auto 0", 3, 11, None),
    ("table auto/cell auto 1 0", 3, 13, None),
    ("table auto/cell auto 1 middel", 3, 13, None),
    ("table auto/cell auto 1 2 3", 3, 15, None),
    ("table auto/cell auto left 3", 3, 1, None),
    ("table auto/cell auto ", 3, 10, None),
    ("table auto x", 2, 12, None),
]


class Script:
    """A random script of one table, and its words."""

    def __init__(self, seed):
        self.random = random.Random(seed)
        self.width = self.random.randint(24, 90)
        self.lines = [f"new {self.width} plain"]
        self.words = []
        self.table(0)

    def text(self, most):
        """A text of some words, each another one."""
        begun = len(self.words)
        self.words += [f"w{begun + n}" + "x" * self.random.randint(0, 3) for n in range(self.random.randint(1, most))]
        self.lines.append("text " + " ".join(self.words[begun:]))

    def inside(self, kind):
        """A text between a command and its end, on lines of its own."""
        self.lines += ["line", kind]
        self.text(4)
        self.lines += ["end" + kind.split()[0], "line"]

    def content(self, depth):
        for _ in range(self.random.choice([0, 1, 1, 1, 2, 3])):
            kind = self.random.choice(KINDS)
            if kind == "text":
                self.text(6)
            elif kind in ("line", "block"):
                self.lines.append(kind)
            elif kind != "table":
                self.inside(kind)
            elif depth < DEEPEST:
                self.table(depth + 1)

    def table(self, depth):
        self.lines.append("table auto")
        for _ in range(self.random.randint(1, 4)):
            for _ in range(self.random.randint(1, 4)):
                self.cell(depth)
            self.lines.append("row")
        self.lines.append("endtable")

    def cell(self, depth):
        rows, columns = self.random.choice([1, 1, 1, 2, 3]), self.random.choice([1, 1, 1, 2, 3])
        self.lines.append(f"cell auto {rows} {columns}{self.random.choice(ALIGNMENTS)}")
        self.content(depth)
        self.lines.append("endcell")

    def script(self):
        return "\n".join(self.lines) + "\n"


def run(program, script, *words):
    return subprocess.run([program, *words], input=script.encode(), capture_output=True, timeout=SECONDS, check=False)


def check_random(program, seed):
    """Whether no line is wider than the script's columns, and each word is there, whole.

    Where the table takes fewer columns, each line is as wide as its border.
    """
    made = Script(seed)
    ran = run(program, made.script())
    if ran.returncode or ran.stderr:
        return f"status {ran.returncode}: {ran.stderr.decode()}"
    shown = ran.stdout.decode()
    lines = shown.splitlines()
    if any(len(line) > made.width for line in lines):
        return "a line is too wide"
    if len(lines[0]) < made.width and any(len(line) != len(lines[0]) for line in lines):
        return "a line is not as wide as the border"
    return next((f"{word} is missing" for word in made.words if word not in shown), "")


def check_refused(program, case):
    """Whether a script is refused with its line, its character and the other line, and nothing is shown."""
    lines, line, column, other = case
    ran = run(program, "new 20 plain\n" + lines.rstrip("/").replace("/", "\n") + "\n")
    said = ran.stderr.decode()
    told = [(found["kind"], found["line"], found["column"]) for found in PLACE.finditer(said)]
    wanted = [("error", str(line), column and str(column))] + ([("note", str(other), None)] if other else [])
    right = ran.returncode == 2 and not ran.stdout and told == wanted and "help: " in said
    return "" if right else f"{ran.returncode} {ran.stdout!r} {said!r}, and not {wanted}"


def check_memory(program, seed):
    """Whether a table is shown whole or not at all where requests for memory are refused, once and from then on."""
    with tempfile.TemporaryDirectory() as folder:
        loader = Loader(folder)
        given = Script(seed).script().encode()
        whole = loader.count([program], given)
        for number in range(1, whole.counts[0] + 1):
            for last in (number, 2**63):
                seen = loader.run([program], given, refuse=f"memory {number} {last}")
                is_refused = seen[0] and not seen[2]
                if seen != whole.seen and not is_refused:
                    return f"request {number} to {last} refused: {seen}"
    return ""


def check_all(program, pool, seeds):
    """What is wrong with random tables and with faulty ones, by their names, or nothing of each."""
    told = dict(zip((f"table {it}" for it in seeds), pool.map(lambda it: check_random(program, it), seeds)))
    names = (f"`{case[0]}`" for case in REFUSED)
    return told | dict(zip(names, pool.map(lambda case: check_refused(program, case), REFUSED)))
