"""The definitions of this repository behind a contract, for tools/definitions and ./test."""
import functools
import re
from pathlib import Path

TOP = Path(__file__).resolve().parent.parent
# Contracts, each with the members that its clauses name, and how many definitions may be behind it.
WATCHED = [
    ("crates/tbr_renderer/src/renderer.rt", "add_inline_text", ["crates/tbr_renderer/src/sub/calls.rt:calls"], 149),
    (
        "crates/tbr_renderer/src/renderer.rt",
        "append_columns_aligned",
        ["crates/tbr_renderer/src/sub/calls.rt:" + it for it in ("calls", "handed_out", "has_places_for", "ends_best")],
        289,
    ),
    ("crates/tbr_runner/src/runner.rt", "run", [], 502),
    ("crates/text_block_renderer/src/laws/headline.rt", "the_headline", [], 514),
]
WORD = re.compile(r"[^\s(){}\[\],;.]+")
USE = re.compile(r"^\s*(?:pub |ghost )?use (Rattle[^\s{]*?)(?:\.\{([^}]*)\})?(?: as (\S+?))?;?\s*$", re.M)
# A definition that is a record, and its fields.
RECORD = re.compile(r"[^\n]*\n[^\n]* = record \{\n")
FIELD = re.compile(r" +(\w+) = ")
DECLARED = re.compile(r"( *)(?:abbrev pub|abbrev|pub record|pub data|pub) (?P<name>[^\s(){}:,]+)")


class Module:
    """A file of definitions: what it defines, by name, and where other names come from."""

    def __init__(self, name, path):
        self.name = name
        self.text = re.sub(r"(?m)--.*$", "", path.read_text(encoding="utf-8"))
        self.names, self.aliases = imported(self.text)
        self.bodies = bodies(self.text)


def bodies(text):
    """The text of each definition, by name. What is in a record belongs to it."""
    found, name, inside = {}, None, None
    for line in text.split("\n"):
        begins = DECLARED.match(line)
        if begins and begins["name"] != "use" and (inside is None or len(begins[1]) <= inside):
            name = begins["name"]
            inside = len(begins[1]) if line.lstrip().startswith("pub record") else None
        if name:
            found[name] = found.get(name, "") + line + "\n"
    return found


def imported(text):
    """Names with the module and the name there, and modules by another name, as `use` says."""
    names, aliases = {}, {}
    for found in USE.finditer(text):
        if found[2] is None:
            aliases[found[3] or found[1].rpartition(".")[2]] = found[1]
            continue
        for name in filter(None, map(str.strip, found[2].split(","))):
            own, _, other = name.partition(" as ")
            names[other or own] = (found[1], own)
    return names, aliases


@functools.cache
def module(name):
    """The module of that name, if it is one of this repository that isn't made of Rust."""
    _, crate, *parts = name.split(".")
    path = TOP / "crates" / crate / Path(*parts).with_suffix(".antt") if parts else None
    if path is None or "declared" in parts:
        return None
    return Module(name, path) if path.is_file() else passed_on(crate, *parts)


def passed_on(crate, *parts):
    """The module that a crate passes on under this name, if it does."""
    whole = TOP / "crates" / crate / parts[0] / "Lib.antt"
    text = whole.read_text(encoding="utf-8") if whole.is_file() else ""
    found = re.search(rf"^pub use (\S+\.{parts[-1]})$", text, re.M)
    return module(found[1]) if found else None


def origin(name, own):
    """The module that defines a name which a module gives, and its name there."""
    found = module(name)
    if found is None or own in found.bodies:
        return (found.name, own) if found else None
    return origin(*found.names[own]) if own in found.names else None


def named(text, names, aliases):
    """What a text names: each definition by its module and name."""
    for alias, own in re.findall(r"\b(\w+)\.(%s)" % WORD.pattern, text):
        if alias in aliases:
            yield origin(aliases[alias], own)
    for word in set(WORD.findall(text)):
        if word in names:
            yield origin(*names[word])


def counted(body, said):
    """What of a definition counts. Of a record these are the fields that are read, as `.field`, in what is said."""
    if not RECORD.match(body):
        return body
    lines = [(FIELD.match(line), line) for line in body.split("\n")]
    return "\n".join(line for field, line in lines if not field or re.search(rf"\.{field[1]}\b", said))


def reached(roots, said):
    """All definitions that these lead to, with themselves."""
    seen, waiting = set(), [*roots]
    while waiting:
        one = waiting.pop()
        if one in seen:
            continue
        seen.add(one)
        here = module(one[0])
        body = counted(here.bodies[one[1]], said)
        waiting += [it for it in named(body, here.names, here.aliases) if it]
        waiting += [(one[0], word) for word in set(WORD.findall(body)) if word in here.bodies]
    return seen


def behind(roots, text):
    """All definitions that a text and these lead to, with themselves."""
    roots, found, more = [it for it in roots if it], set(), True
    while more:
        said = "".join([text, *(module(name).bodies[own] for name, own in found)])
        more = (now := reached(roots, said)) != found
        found = now
    return found


def clauses(text, function):
    """The clauses of a function."""
    begins = re.search(rf"\bfn {function}\b", text).start()
    ends = re.search(r"\n *(?:\{|\{\}|[^\n]*;)\n", text[begins:])
    return text[begins : begins + ends.end()]


def member(text, name):
    """What an instance gives as a ghost member."""
    return re.search(rf"ghost {name} = (\{{.*?\}});", text, re.S)[1]


def count(file, function, members):
    """How many definitions are behind a contract, and how many lines these have."""
    text = (TOP / file).read_text(encoding="utf-8")
    said = clauses(text, function)
    roots = list(named(said, *imported(text)))
    for it in members:
        file, _, name = it.partition(":")
        text = (TOP / file).read_text(encoding="utf-8")
        roots += named(member(text, name), *imported(text))
    found = behind(roots, said)
    bodies = [module(name).bodies[own] for name, own in found]
    return len(found), sum(1 for body in bodies for line in body.split("\n") if line.strip())


def watched():
    """What is told of each contract that is watched, and whether it has no more definitions than it may."""
    for file, function, members, most in WATCHED:
        definitions, lines = count(file, function, members)
        yield f"{function}: {definitions} definitions of {lines} lines, {most} at most", definitions <= most
