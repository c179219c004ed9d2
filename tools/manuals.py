"""Man pages and shell completions of both programs, from what blockview says of itself and from the text here; and the
man page of the command mailtext, from the parser of its command line.

blockrender takes no arguments, so its page is written here, and nothing completes it.
"""
import importlib
import re
import subprocess
import sys
from dataclasses import dataclass
from pathlib import Path

import kit

OPTION = re.compile(r"^ +(?:-\w, )?--([\w-]+)(?: <(\w+)>)?(?: {2,}(.*))?$")
VALUES = re.compile(r"\[possible values: ([^\]]+)\]")
FOLDERS = {
    "man": ("man/man1", "{}.1"),
    "bash": ("bash-completion/completions", "{}"),
    "zsh": ("zsh/site-functions", "_{}"),
    "fish": ("fish/vendor_completions.d", "{}.fish"),
}
BLOCKRENDER = r"""
.SH NAME
blockrender \- renders a script of text blocks as text
.SH SYNOPSIS
.B blockrender
<
.I SCRIPT
.SH DESCRIPTION
Reads a script from standard input up to its end, and writes its text to standard output: blocks, links, and rows of
cells in lines of the width that the script names. It takes no arguments. If the script is refused, nothing is written.
Control characters of prefixes and targets are written as they come;
.BR blockview (1)
can leave them out.
.SH EXIT STATUS
.TP
.B 0
The text was written.
.TP
.B 1
A text is too narrow for its line, or memory was refused.
.TP
.B 2
A line of the script isn't a command, or comes where it may not.
.TP
.B 3
Standard input can't be read, or standard output can't be written.
"""


@dataclass(frozen=True)
class Option:
    """An option of a program: its name, what comes after it, the words that may, and what it does."""

    name: str
    value: str
    words: list
    meaning: str


@dataclass(frozen=True)
class Help:
    """What a program says of itself."""

    about: str
    usage: str
    options: list
    rest: str


def lay_out(share, program, version):
    """Writes pages and completions below a folder, for a program blockview and for blockrender beside it."""
    told = read(program, said(program, "--help"))
    write(share, "man", "blockview", page("blockview", version, viewed(told)))
    write(share, "man", "blockrender", page("blockrender", version, BLOCKRENDER + ".SH SEE ALSO\n.BR blockview (1)\n"))
    for shell, completion in (("bash", bash), ("zsh", zsh), ("fish", fish)):
        write(share, shell, "blockview", completion("blockview", told.options, files=True))
        write(share, shell, "blockrender", completion("blockrender", [], files=False))


def mailtext(version):
    """The man page of mailtext."""
    sys.path.insert(0, str(Path(kit.TOP, "bindings", "python")))
    parser = importlib.import_module("mailtext.command").parser()
    usage = " ".join(parser.format_usage().removeprefix("usage: ").split())
    # argparse has no other list of its options.
    options = [option_of(it) for it in parser._actions if it.option_strings]  # pylint: disable=protected-access
    told = Help(parser.description.removesuffix("."), usage, options, parser.epilog.removeprefix("status: ").strip())
    return page("mailtext", version, f"{described(told)}.SH EXIT STATUS\n{roff(told.rest)}\n")


def option_of(action):
    """An option as argparse has it."""
    names = [name.removeprefix("--") for name in action.option_strings if name.startswith("--")]
    words = list(action.choices or [])
    after = action.metavar or "|".join(words)
    meaning = action.help[0].upper() + action.help[1:]
    return Option(", --".join(names), after if isinstance(after, str) else " ".join(after), words, meaning)


def write(share, kind, name, text):
    path = share / path_of(kind, name)
    path.parent.mkdir(parents=True, exist_ok=True)
    path.write_text(text, encoding="utf-8")


def path_of(kind, name):
    """Where a page or a completion is, below the folder of both."""
    folder, form = FOLDERS[kind]
    return Path(folder, form.format(name))


def said(program, *words):
    """What a program says where it shows nothing."""
    how = {"stdin": subprocess.DEVNULL, "stdout": subprocess.PIPE, "stderr": subprocess.STDOUT}
    return subprocess.run([program, *words], check=False, **how).stdout.decode()


def read(program, text):
    """The parts of a program's help text."""
    about, usage, *sections = text.split("\n\n")
    at = next(i for i, section in enumerate(sections) if section.startswith("Options:"))
    options = list(options_of(program, sections[at].splitlines()[1:]))
    return Help(about, usage.removeprefix("Usage: "), options, "\n\n".join(sections[at + 1 :]).strip("\n"))


def options_of(program, lines):
    """The options of a help text, whose meanings may go on in further lines.

    The words that may come after one are told where another comes.
    """
    starts = [i for i, line in enumerate(lines) if OPTION.match(line)]
    for start, end in zip(starts, [*starts[1:], len(lines)]):
        name, value, meaning = OPTION.match(lines[start]).groups()
        meaning = " ".join([meaning or "", *(line.strip() for line in lines[start + 1 : end])]).strip()
        words = VALUES.search(said(program, f"--{name}", "?")) if value else None
        yield Option(name, value or "", words[1].split(", ") if words else [], meaning)


def page(name, version, body):
    """A man page."""
    return f'.TH {name.upper()} 1 "" "text_block_renderer {version}" "User Commands"{body}'


def viewed(told):
    """The page of blockview."""
    return f"{described(told)}.SH SCRIPTS\n.nf\n{roff(told.rest)}\n.fi\n.SH SEE ALSO\n.BR blockrender (1)\n"


def described(told):
    """The name of a program, how it is called, and its options."""
    name, _, usage = told.usage.partition(" ")
    body = f"\n.SH NAME\n{name} \\- {roff(told.about[0].lower() + told.about[1:])}\n"
    body += f".SH SYNOPSIS\n.B {name}\n{roff(usage)}\n.SH OPTIONS\n"
    for option in told.options:
        value = f" \\fI{option.value}\\fR" if option.value else ""
        body += f".TP\n\\fB\\-\\-{roff(option.name)}\\fR{value}\n{roff(option.meaning)}.\n"
    return body


def roff(text):
    """A text as man pages write it."""
    lines = text.replace("\\", "\\e").replace("-", "\\-").splitlines()
    return "\n".join("\\&" + line if line.startswith((".", "'")) else line for line in lines)


def bash(name, options, files):
    """What completes a program in bash."""
    cases = "".join(
        f'    --{it.name}) COMPREPLY=($(compgen -W "{" ".join(it.words)}" -- "$word")); return ;;\n' for it in options if it.value
    )
    names = " ".join(f"--{it.name}" for it in options)
    return f"""\
_{name}() {{
    local word=${{COMP_WORDS[COMP_CWORD]}}
    COMPREPLY=()
    case ${{COMP_WORDS[COMP_CWORD - 1]}} in
{cases}    esac
    case $word in
    -*) COMPREPLY=($(compgen -W "{names}" -- "$word")) ;;
    esac
}}
complete {"-o default " if files else ""}-F _{name} {name}
"""


def zsh(name, options, files):
    """What completes a program in zsh."""
    words = [f"'--{it.name}{zsh_value(it)}'" for it in options] + (["'*:file:_files'"] if files else [])
    return f"#compdef {name}\n_arguments {' '.join(words)}\n"


def zsh_value(option):
    """What comes after the name of an option, and what it does."""
    meaning = re.sub(r"(['\[\]:])", lambda it: "'\\''" if it[1] == "'" else "\\" + it[1], option.meaning)
    value = f":{option.value}:({' '.join(option.words)})" if option.value else ""
    return f"{'=' if option.value else ''}[{meaning}]{value}"


def fish(name, options, files):
    """What completes a program in fish."""
    lines = [f"complete -c {name}{'' if files else ' -f'}"] if not files else []
    for it in options:
        value = f" -x -a '{' '.join(it.words)}'" if it.value else ""
        meaning = it.meaning.replace("\\", "\\\\").replace("'", "\\'")
        lines.append(f"complete -c {name} -l {it.name}{value} -d '{meaning}'")
    return "\n".join(lines) + "\n"
