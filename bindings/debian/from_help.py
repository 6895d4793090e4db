#!/usr/bin/env python3
"""Prints the man page of the program `slh`, or its completions for bash or zsh. Commands and options come from `slh
--help` and `slh COMMAND --help`, the names of the sets from `slh params`, the refusals from docs/FORMATS.md.

usage: bindings/debian/from_help.py PROGRAM VERSION man|bash|zsh
"""
import pathlib
import re
import subprocess
import sys

OPTION = re.compile(r"^ +(?:(-\w), )?(--[a-z-]+)(?: <([A-Z]+)>)? {2,}(\S.*)$")
USUAL = re.compile(r"^  (\d+ \w+) {2,}(\S.*)$")
COMMAND = re.compile(r"^  ([a-z]+) {2,}(\S.*)$")
FORMATS = pathlib.Path(__file__).resolve().parents[2] / "docs" / "FORMATS.md"
REFUSALS = "### Refusals of the program"

DESCRIPTION = """\
slh makes keys and signatures of SLH-DSA with SHA-2 (FIPS 205), and verifies them. It has no source of random bytes: the
seeds of a key are read from standard input, and `--random` takes the randomizer of a signature.

Keys are text files, which name their parameter set. Signatures are raw bytes. Each command writes its result to
standard output. A shell empties the file after `>` before slh starts: write to a new name, and rename it if the exit
status is 0. After `set -C` the shell refuses to write over a file.

Hardware that fails while it signs can allow forgeries. `--twice` signs two times and writes the signature only if both
results agree. `--random` makes each signature another one.
"""

EXAMPLES = {
    "To make a key pair, which for a 192 set takes 72 random bytes and for a 256 set 96:": """\
umask 077; set -C
openssl rand -hex 48 | slh keygen --set SLH-DSA-SHA2-128f > secret.key
slh public --key secret.key > public.key
""",
    "To sign, where a 192 set takes 24 random bytes and a 256 set 32:": """\
slh sign --key secret.key --message letter.txt --twice \\
    --random "$(openssl rand -hex 16)" > letter.sig
""",
    "To verify in a script, by the exit status:": """\
if slh verify --key public.key --message letter.txt \\
    --signature letter.sig > /dev/null; then echo genuine; fi
""",
    "To sign in the pre-hash form, under a context, with eight threads:": """\
slh sign --key secret.key --message disk.img --prehash SHA2-256 \\
    --context "$(printf backup | xxd -p)" --workers 8 --xmss-levels 1 > disk.sig
""",
}

STATUS = {
    "0": "done, `valid`, `consistent`, or all tests passed",
    "1": "`invalid`, `inconsistent`, or a test failed",
    "2": "refused: standard error has the number and the name of the refusal, and a terminal also the cause. "
         "Nothing was written to standard output, unless a write failed (33).",
}


class Help:
    """A help text: its sentence, its usage, its commands and options, and the paragraph at its end. The sentence of the
    program itself has its version before it. A line that is indented further continues the option above it."""

    def __init__(self, text):
        parts = re.sub(r"\n {20,}", " ", text.rstrip("\n")).split("\n\n")
        self.sentence = parts[0]
        self.usage = next(it for it in parts if it.startswith("Usage: ")).removeprefix("Usage: ")
        self.commands = self.found(parts, "Commands:", COMMAND)
        self.options = self.found(parts, "Options:", OPTION)
        self.end = parts[-1]
        if len(parts) != 4 + bool(self.commands):
            sys.exit(f"a help text of other parts: {text}")

    @staticmethod
    def found(parts, head, line):
        """The lines of a part, each of which has to be as the pattern says."""
        lines = [it for part in parts if part.startswith(head + "\n") for it in part.split("\n")[1:]]
        matches = [line.match(it) for it in lines]
        if None in matches:
            sys.exit(f"not as expected: {lines[matches.index(None)]}")
        return [it.groups() for it in matches]


def says(program, *words):
    return subprocess.run([program, *words], check=True, capture_output=True, text=True).stdout


def roff(text):
    """The text as it is, for roff."""
    text = text.replace("\\", "\\e").replace("-", "\\-").replace("'", "\\(aq").replace("`", "\\(ga")
    return re.sub(r"^(?=\.)", r"\\&", text, flags=re.M)


def man_options(options):
    for short, long, value, sentence in options:
        yield ".TP"
        yield "\\fB" + roff(", ".join(filter(None, (short, long)))) + "\\fR" + (f" \\fI{value}\\fR" if value else "")
        yield roff(sentence)


def man_end(text):
    """The paragraph at the end of a command's help text: notes, its usual refusals, and its example as it is typed."""
    before, example = text.split("Example: ")
    lines = [it for it in before.splitlines() if not it.startswith(("Refusals: ", "Usual refusals:"))]
    refusals = [it.groups() for it in map(USUAL.match, lines) if it]
    notes = [it for it in lines if not USUAL.match(it)]
    if notes:
        yield from (".PP", *map(roff, notes))
    yield from (".PP", "Usual refusals:")
    for name, cause in refusals:
        yield from (".TP", f"\\fB{name}\\fR", roff(cause))
    yield from (".PP", "Example:", *man_typed(example))


def man_typed(text):
    """Lines as they are typed."""
    yield from (".PP", ".RS 4", ".nf", roff(text.rstrip("\n")), ".fi", ".RE")


def man_text(text):
    """Text of Markdown, with its code in bold and without the targets of its links."""
    text = re.sub(r"\[([^]]*)\]\([^)]*\)", r"\1", text).replace("\\|", "|")
    parts = [roff(it) for it in text.split("`")]
    return "".join(f"\\fB{it}\\fR" if index % 2 else it for index, it in enumerate(parts))


def man_refusals():
    """The refusals of the program: when each comes, and the usual causes."""
    table = FORMATS.read_text().split(REFUSALS + "\n")[1].split("\n#")[0]
    rows = [re.split(r"(?<!\\) \| ", it.strip("| ")) for it in table.split("\n") if re.match(r"\| [0-9]", it)]
    if not rows or any(len(it) != 4 for it in rows):
        sys.exit(f"not as expected: the refusals of {FORMATS}")
    for number, name, when, look in rows:
        yield from (".TP", f"\\fB{number} {name}\\fR", man_text(when) + ".", ".br", f"Look at: {man_text(look)}.")


def man_examples():
    for purpose, typed in EXAMPLES.items():
        yield from (".PP", roff(purpose), *man_typed(typed))


def man(program, commands, version):
    name = program.sentence.split(": ", 1)[-1]
    name = name[0].lower() + name[1:]
    yield f'.TH SLH 1 "" "slh {version}" "User Commands"'
    yield from (".SH NAME", f"slh \\- {roff(name)}", ".SH SYNOPSIS", f"\\fB{roff(program.usage)}\\fR")
    yield from (".SH DESCRIPTION", man_text(DESCRIPTION.rstrip("\n")).replace("\n\n", "\n.PP\n"))
    yield ".SH OPTIONS"
    yield from man_options(program.options)
    yield ".SH COMMANDS"
    for name, it in commands.items():
        yield from (f".SS {name}", roff(it.sentence), ".PP", f"\\fB{roff(it.usage)}\\fR")
        yield from man_options(it.options)
        yield from man_end(it.end)
    yield ".SH EXAMPLES"
    yield from man_examples()
    yield ".SH EXIT STATUS"
    for status, text in STATUS.items():
        yield from (".TP", f"\\fB{status}\\fR", man_text(text))
    yield ".SH REFUSALS"
    yield roff("A refusal is a line on standard error, slh: NUMBER NAME. The first fault that is found is reported. "
               "If standard error is a terminal, one sentence on the cause follows. It is found by another look at the "
               "arguments and files.")
    yield from man_refusals()
    yield from (".SH FILES", ".TP", ".I /usr/share/doc/slh/FORMATS.md.gz")
    yield "Formats of keys, and the refusals of the library. In the repository it is docs/FORMATS.md."


def values(option, sets):
    """What an option's value can be: `files`, some words, or nothing that is known."""
    _, long, value, sentence = option
    if value == "FILE":
        return "files"
    if long == "--set":
        return sets
    return re.findall(r"SHA2-[0-9/]+", sentence) if long == "--prehash" else []


def options_of(text):
    return " ".join(it[1] for it in text.options)


def bash(program, commands, sets):
    options = {it[1]: it for command in commands.values() for it in command.options if it[2]}
    yield "# Completion of the commands, options and values of slh, made from its help texts."
    yield "_slh() {"
    yield "    local word=${COMP_WORDS[COMP_CWORD]} words="
    yield "    case ${COMP_WORDS[COMP_CWORD - 1]} in"
    for name, option in options.items():
        known = values(option, sets)
        if known == "files":
            yield f'    {name}) compopt -o filenames; mapfile -t COMPREPLY < <(compgen -f -- "$word"); return ;;'
        else:
            yield f'    {name}) words="{" ".join(known)}" ;;'
    yield "    *)"
    yield "        case $COMP_CWORD-${COMP_WORDS[1]} in"
    yield f'        1-*) words="{" ".join(name for name, _ in program.commands)} {options_of(program)}" ;;'
    yield f'        2-help) words="{" ".join(commands)}" ;;'
    for name, command in commands.items():
        yield f'        *-{name}) words="{options_of(command)}" ;;'
    yield "        esac"
    yield "        ;;"
    yield "    esac"
    yield '    mapfile -t COMPREPLY < <(compgen -W "$words" -- "$word")'
    yield "}"
    yield "complete -F _slh slh"


def quoted(text):
    return "'" + text.replace("'", "'\\''") + "'"


def zsh_option(option, sets):
    _, long, value, sentence = option
    spec = long + "[" + re.sub(r"([\[\]\\])", r"\\\1", sentence) + "]"
    known = values(option, sets)
    if known == "files":
        spec += f":{value}:_files"
    elif value:
        spec += f":{value}:" + (f"({' '.join(known)})" if known else " ")
    return quoted(spec)


def zsh(program, commands, sets):
    yield "#compdef slh"
    yield "# Completion of the commands, options and values of slh, made from its help texts."
    yield "_slh() {"
    yield "    local -a commands=("
    yield from ("        " + quoted(f"{name}:{sentence}") for name, sentence in program.commands)
    yield "    )"
    yield "    if (( CURRENT == 2 )); then"
    yield "        _describe command commands"
    yield "        return"
    yield "    fi"
    yield "    local command=$words[2]"
    yield "    shift words"
    yield "    (( CURRENT-- ))"
    yield "    case $command in"
    yield "    help) (( CURRENT == 2 )) && _describe command commands ;;"
    for name, command in commands.items():
        yield f"    {name})"
        yield "        _arguments \\"
        yield " \\\n".join("            " + zsh_option(it, sets) for it in command.options)
        yield "        ;;"
    yield "    esac"
    yield "}"
    yield '_slh "$@"'


def main():
    path, version, kind = sys.argv[1:]
    program = Help(says(path, "--help"))
    commands = {name: Help(says(path, name, "--help")) for name, _ in program.commands if name != "help"}
    sets = [it.split()[0] for it in says(path, "params").splitlines()]
    if kind == "man":
        lines = man(program, commands, version)
    else:
        lines = {"bash": bash, "zsh": zsh}[kind](program, commands, sets)
    print("\n".join(lines))


main()
