#!/usr/bin/env python3
"""Writes the man page and the completions of shells from the tables of docs/COMMANDS.md, which are compared with the program's sources.

    python3 tools/manual.py            # writes docs/engrave_cli.1 and docs/completions/
    python3 tools/manual.py --check    # says whether they are up to date, and agree with the program; .ci/run does this

It fails where a command, an option, whether that is required, its range or words, or what holds without it, isn't the same in
docs/COMMANDS.md and in the sources that read the words of a command; and where docs/LIMITS.md or docs/FONTS.md say it otherwise.

    man -l docs/engrave_cli.1
    source docs/completions/engrave_cli.bash
"""

import argparse
import re
import sys
import textwrap

from manual_tables import TOP, faults, read_manual, read_source

MADE = "made by tools/manual.py from docs/COMMANDS.md: change that, and run it"
STORED = ("drawing", "code")

def plain(cell):
    """A cell of a table without links."""
    return re.sub(r"\[([^\]]*)\]\([^)]*\)", r"\1", cell)


def filled(text):
    """The lines of a paragraph of a man page."""
    return textwrap.wrap(text, 78, break_long_words=False, break_on_hyphens=False)


def roff(cell):
    """A cell of a table as text of a man page: words of the command are bold."""
    text = plain(cell).replace("\\", "\\e").replace("-", "\\-")
    text = re.sub(r"`([^`]*)`", r"\\fB\1\\fR", text)
    return re.sub(r"^([.'])", r"\\&\1", text)


def value_sign(option):
    """How the value of an option is written in a synopsis."""
    if option.words:
        return "WORD"
    shape = re.match(r"`([A-Z]+[,/][A-Z]+)`", option.values)
    if shape:
        return shape[1]
    return "FILE" if option.name in STORED else "TEXT" if option.name == "text" else "NUMBER"


def synopsis(manual, command):
    options = manual.options_of(command)
    needed = [f".BI \\-\\-{option.name}= {value_sign(option)}" for option in options if option.is_required]
    return [".HP", f".B engrave_cli {command.name}", *needed, *([".RI [ options ]"] if len(needed) < len(options) else [])]


def command_lines(command):
    """What a command prints, and which options it takes."""
    own = ", ".join(f"`--{name}`" for name in command.own)
    drawn = "those of the drawing" if command.draws else ""
    options = ", ".join(filter(None, [drawn, own]))
    return [".TP", f".B {command.name}", *filled(f"Prints {roff(command.summary)}."), *filled(f"Options: {roff(options)}.")]


def option_lines(option):
    """What an option means, its values, and what holds where it is left out."""
    forms = "" if option.forms in ("", "all") else f" (with {roff(option.forms)})"
    left_out = f"{roff(option.default)}." if option.default.startswith("required") else f"If left out: {roff(option.default)}."
    meaning = roff(option.meaning)
    said = f"{meaning[0].upper()}{meaning[1:]}{forms}. Values: {roff(option.values)}. {left_out[0].upper()}{left_out[1:]}"
    return [".TP", f".BI \\-\\-{option.name}= {value_sign(option)}", *filled(said)]


ABOUT = [
    "It prints its answer on standard output, one or more whole lines, and ends with a status. It changes no file. "
    "Lengths are whole grid units: hundredths of a millimetre, unless `--units` says otherwise.",
    "Options are written `--name=value` or `--name value`, in any order, each at most once. "
    "A value that begins with `-` is written with `=`. Names aren't abbreviated.",
]

ELSEWHERE = "In the repository: docs/TUTORIAL.md, three jobs from start to end; docs/COMMANDS.md, the manual; docs/MESSAGES.md; docs/LIMITS.md."


def man_page(manual):
    lines = [f'.\\" {MADE}', '.TH ENGRAVE_CLI 1 "" "Wokihare" "Wokihare"', ".nh", ".ad l", ".SH NAME",
             "engrave_cli \\- carve drawings with a conical bit, and judge G\\-code programs", ".SH SYNOPSIS"]
    for command in manual.commands:
        lines += synopsis(manual, command)
    lines += [".SH DESCRIPTION", *filled(roff(ABOUT[0])), ".PP", *filled(roff(ABOUT[1])), ".SH COMMANDS"]
    for command in manual.commands:
        lines += command_lines(command)
    for heading, options in [("OPTIONS OF THE DRAWING", manual.drawing), ("OTHER OPTIONS", manual.own)]:
        lines += [f".SH {heading}", *(line for option in options for line in option_lines(option))]
    lines.append(".SH EXIT STATUS")
    for status, when in manual.statuses:
        lines += [".TP", f".B {status}", *filled(f"{roff(when)}.")]
    lines += [".SH EXAMPLES", ".nf", *map(roff, manual.examples), ".fi", ".SH SEE ALSO", *filled(roff(ELSEWHERE))]
    return "\n".join(lines) + "\n"


BASH = """# {made}
# bash: source this file, or put it into the folder of completions
_engrave_cli() {{
    local line=${{COMP_LINE:0:COMP_POINT}} name option value options words used
    local -a typed
    read -ra typed <<< "$line"
    [[ $line == *[[:blank:]] ]] && typed+=("")
    local last=$((${{#typed[@]}} - 1))
    COMPREPLY=()
    if ((last <= 1)); then
        COMPREPLY=($(compgen -W "{commands}" -- "${{typed[1]}}"))
        return
    fi
    case ${{typed[1]}} in
{cases}
    *) return ;;
    esac
    if [[ ${{typed[last]}} == --*=* ]]; then
        option=${{typed[last]%%=*}} value=${{typed[last]#*=}}
    elif [[ ${{typed[last - 1]}} == --* && ${{typed[last - 1]}} != *=* ]]; then
        option=${{typed[last - 1]}} value=${{typed[last]}}
    fi
    case $option in
{values}
    '')
        compopt -o nospace
        used=" ${{typed[*]:2:last-2}} "
        for name in $options; do
            [[ $used == *" --$name="* || $used == *" --$name "* ]] || words+=" --$name="
        done
        COMPREPLY=($(compgen -W "$words" -- "${{typed[last]}}"))
        ;;
    esac
}}
complete -F _engrave_cli engrave_cli
"""


def bash_page(manual):
    cases, values = [], []
    for command in manual.commands:
        names = " ".join(option.name for option in manual.options_of(command))
        cases.append(f'    {command.name}) options="{names}" ;;')
    for option in manual.drawing + manual.own:
        if option.words:
            values.append(f'    --{option.name}) COMPREPLY=($(compgen -W "{" ".join(option.words)}" -- "$value")) ;;')
    stored = "|".join(f"--{name}" for name in STORED)
    values += [f'    {stored}) compopt -o filenames; mapfile -t COMPREPLY < <(compgen -f -- "$value") ;;']
    commands = " ".join(command.name for command in manual.commands)
    return BASH.format(made=MADE, commands=commands, cases="\n".join(cases), values="\n".join(values))


def zsh_spec(option):
    """An option as `_arguments` takes it."""
    meaning = re.sub(r"([\[\]:'`])", "", plain(option.meaning).split(";")[0])
    action = f"({' '.join(option.words)})" if option.words else "_files" if option.name in STORED else " "
    return f"'--{option.name}=[{meaning}]:{value_sign(option).lower()}:{action}'"


def zsh_page(manual):
    lines = ["#compdef engrave_cli", f"# {MADE}", "# zsh: put this file into a folder of $fpath"]
    lines += ["_engrave_cli() {", "    local -a commands", "    commands=(", *(f"        '{command.name}:{plain(command.summary)}'" for command in manual.commands), "    )"]
    lines += ["    if ((CURRENT == 2)); then", "        _describe command commands", "        return", "    fi",
              "    local name=$words[2]", "    shift words", "    ((CURRENT--))", "    case $name in"]
    for command in manual.commands:
        lines += [f"    {command.name})", "        _arguments \\"]
        lines += [" \\\n".join(f"            {zsh_spec(option)}" for option in manual.options_of(command)), "        ;;"]
    return "\n".join([*lines, "    esac", "}", '_engrave_cli "$@"']) + "\n"


def main():
    parser = argparse.ArgumentParser(description=__doc__.splitlines()[0])
    parser.add_argument("--check", action="store_true")
    check = parser.parse_args().check
    manual = read_manual()
    if wrong := list(faults(manual, read_source())):
        sys.exit("\n".join(wrong))
    pages = {"engrave_cli.1": man_page, "completions/engrave_cli.bash": bash_page, "completions/_engrave_cli": zsh_page}
    for name, page in pages.items():
        path, text = TOP / "docs" / name, page(manual)
        if not check:
            path.parent.mkdir(exist_ok=True)
            path.write_text(text)
        elif not path.exists() or path.read_text() != text:
            sys.exit(f"docs/{name} is out of date: run python3 tools/manual.py")


if __name__ == "__main__":
    main()
