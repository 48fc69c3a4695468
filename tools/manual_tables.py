"""What the manual says of the commands and their options, and what the program's sources say of them; and where the two differ."""

import re
from pathlib import Path
from typing import NamedTuple

TOP = Path(__file__).resolve().parent.parent
MANUAL = TOP / "docs/COMMANDS.md"
SOURCES = TOP / "crates/job_words/src"


class Option(NamedTuple):
    """A row of the manual's tables: for which forms of drawings, what it means, its values, and what holds where it is left out."""

    name: str
    forms: str
    meaning: str
    values: str
    default: str

    @property
    def is_required(self):
        return self.default == "required"

    @property
    def words(self):
        """The words that are its values, none where they are numbers, names or texts."""
        named = re.findall(r"`(\w+)`", self.values.partition(";")[0])
        return [word for word in named if re.fullmatch(r"[a-z]+[0-9]*", word)]


class Command(NamedTuple):
    """A command of the manual: its summary, whether it takes the options of a drawing, and its own options."""

    name: str
    summary: str
    draws: bool
    own: list


class Manual(NamedTuple):
    commands: list
    drawing: list
    own: list
    statuses: list
    examples: list

    def options_of(self, command):
        """All options of a command, those that are required first."""
        own = {option.name: option for option in self.drawing + self.own}
        listed = (self.drawing if command.draws else []) + [own[name] for name in command.own]
        return sorted(listed, key=lambda option: not option.is_required)


def section_of(text, heading):
    """What stands under a heading, up to the next one of its rank or a higher one."""
    rank = len(heading) - len(heading.lstrip("#"))
    behind = text.partition(f"\n{heading}")[2]
    return re.split(rf"\n#{{1,{rank}}} ", behind)[0]


def rows_of(text):
    """The cells of each row of the tables of a text, but for heads and rules."""
    rows = re.findall(r"^\|(?!.*\|\n\|-)(?!-)(.*)\|$", text, re.M)
    return [[cell.strip() for cell in row.split("|")] for row in rows]


def option_rows(text):
    """The rows of a text whose first cell is one option."""
    for cells in rows_of(text):
        if named := re.fullmatch(r"`--(\w+)`", cells[0]):
            yield named[1], cells[1:]


def own_options(section):
    """Whether the line `Options:` of a command's section speaks of the drawing's options, and which others it names."""
    said = re.split(r"\.\s", section.partition("Options: ")[2])[0]
    return "(#the-drawing)" in said, re.findall(r"`--(\w+)`", said)


def read_manual():
    text = MANUAL.read_text()
    drawing = [Option(name, *cells) for name, cells in option_rows(section_of(text, "## The drawing"))]
    own = [Option(name, "", *cells) for name, cells in option_rows(section_of(text, "## Words"))]
    of_drawing = {option.name for option in drawing}
    commands = []
    for name, summary in re.findall(r"^\| \[`(\w+)`\]\(\S+\) \| (.*) \|$", text, re.M):
        draws, named = own_options(section_of(text, f"## `{name}`"))
        commands.append(Command(name, summary, draws, [option for option in named if not draws or option not in of_drawing]))
    statuses = [cells for cells in rows_of(section_of(text, "## Statuses")) if cells[0].isdigit()]
    examples = re.findall(r"^    \$ (engrave_cli .*)", section_of(text, "## A job"), re.M)[:3]
    return Manual(commands, drawing, own, statuses, examples)


class Source(NamedTuple):
    """What the program's sources say: the options of each command, which options are required, and their values."""

    commands: dict
    required: dict
    ranges: dict
    words: dict
    defaults: dict


def number(digits):
    return int(digits.replace("_", "").replace(",", ""))


def named_words(values):
    """For each function that reads a value out of a list: its words, by the variants that they are read as."""
    read = {}
    for name, body in re.findall(r"pub fn (read_\w+)\(.*?\n\{\n(.*?)\n\}\n", values, re.S):
        pairs = re.findall(r'text == "(\w+)" \{\s*Some\((\w+::\w+)\)', body)
        if pairs:
            read[name] = {variant: word for word, variant in pairs}
    return read


def values_of(found, values):
    """The ranges of the options that are numbers, the words of the others, and what holds where one is left out."""
    ranges, words, defaults = {}, {}, {}
    for name, default, least, most in re.findall(r'number_in\(found, "(\w+)", ([\d_]+), ([\d_]+), ([\d_]+)\)', found):
        ranges[name], defaults[name] = (number(least), number(most)), [str(number(default))]
    for name, least, most in re.findall(r'read_number\(found\.get_str\("(\w+)"\)\?, ([\d_]+), ([\d_]+)\)', found):
        ranges[name] = (number(least), number(most))
    ranges["bit"] = tuple(map(number, re.search(r"in_range\(sn, (\d+), (\d+)\)", values).groups()))
    ranges["text"] = tuple(map(number, re.search(r"(\d+) <= count && count <= (\d+)", values).groups()))
    read = named_words(values)
    reader = r'found\.get_str\(("?\w+"?)\) \{\s*Some\(text\) => (read_\w+)\(text\),\s*None => Some\((\w+::\w+)\)'
    for name, function, variant in re.findall(reader, found):
        asked = [name.strip('"')] if name.startswith('"') else re.findall(r'yes_in\(found, "(\w+)"\)', found)
        for option in asked:
            words[option] = list(read[function].values())
            defaults.setdefault(option, []).append(read[function][variant])
    return ranges, words, defaults


def read_source():
    shape = (SOURCES / "shape.rt").read_text()
    found = (SOURCES / "found.rt").read_text() + shape
    rows = re.findall(r'const (\w+): CommandOption = CommandOption \{\s*name: "(\w+)",\s*required: (\w+),', found)
    names = {constant: name for constant, name, _ in rows}
    listed = r"static \w+: \[CommandOption; \d+\] = \[([^\]]*)\]"
    drawing = [names[constant] for constant in re.findall(r"\w+", re.search(listed, shape)[1])]
    commands = {}
    for name in re.findall(r'name == "(\w+)"', (SOURCES / "words.rt").read_text()):
        text = (SOURCES / "commands" / f"{name}.rt").read_text()
        own = re.search(listed, text)
        constants = re.findall(r"\w+", own[1]) if own else []
        commands[name] = (drawing if "of_drawing(), words" in text else []) + [names[constant] for constant in constants]
    required = {name: said == "true" for _, name, said in rows}
    return Source(commands, required, *values_of(found, (SOURCES / "values.rt").read_text()))


def numbers_in(cell):
    return tuple(map(number, re.findall(r"\d[\d,]*", re.sub(r"`[^`]*`", "", cell))))


def alone(what, told, known):
    """The names that the manual alone or the program alone has."""
    for name in sorted(set(told) ^ set(known)):
        yield f"{what}{name} is in the {'manual' if name in told else 'program'} alone"


def command_faults(manual, source):
    """Commands and options that are in the manual or in the program alone."""
    told = {command.name: command for command in manual.commands}
    rows = [option.name for option in manual.drawing + manual.own]
    yield from alone("the command ", told, source.commands)
    yield from alone("the option --", rows, source.required)
    yield from (f"the option --{name} has two rows" for name in sorted({name for name in rows if rows.count(name) > 1}))
    for name in told.keys() & source.commands.keys():
        said = [*(option.name for option in manual.drawing if told[name].draws), *told[name].own]
        yield from alone(f"{name}: the option --", said, source.commands[name])


def option_faults(option, source, where):
    """What a row says of an option otherwise than the program."""
    if option.is_required != source.required.get(option.name):
        yield f"{where}: whether --{option.name} is required"
    if option.name in source.ranges and numbers_in(option.values)[:2] != source.ranges[option.name]:
        yield f"{where}: the range of --{option.name}, which is {source.ranges[option.name]}"
    if sorted(option.words) != sorted(source.words.get(option.name, [])):
        yield f"{where}: the words of --{option.name}, which are {source.words.get(option.name, [])}"
    said = [digits.replace(",", "") for digits in re.findall(r"[\w,]+", option.default)]
    if any(default not in said for default in source.defaults.get(option.name, [])):
        yield f"{where}: what holds without --{option.name}, which is {source.defaults[option.name]}"


def page_faults(manual, source):
    """Rows of other pages that say an option's values otherwise."""
    told = {option.name: option for option in manual.drawing + manual.own}
    for name, cells in option_rows(section_of((TOP / "docs/FONTS.md").read_text(), "## The text and its size")):
        if (told[name].values, told[name].default) != tuple(cells[1:]):
            yield f"FONTS.md: --{name} otherwise than COMMANDS.md"
    rows = [row for row in rows_of((TOP / "docs/LIMITS.md").read_text()) if row[0].startswith("`--")]
    limited = {name: row[1] for row in rows for name in re.findall(r"`--(\w+)`", row[0])}
    for name in source.ranges:
        if numbers_in(limited.get(name, ""))[:2] != source.ranges[name]:
            yield f"LIMITS.md: the range of --{name}, which is {source.ranges[name]}"
    listed = re.findall(r"^\| `(\w+)` \|", (TOP / "README.md").read_text().split("\n## ")[0], re.M)
    yield from (f"README.md: the command {name}" for name in sorted(set(listed) ^ set(source.commands)))


def faults(manual, source):
    """Where the manual, the program, and the other pages differ."""
    yield from command_faults(manual, source)
    for option in manual.drawing + manual.own:
        yield from option_faults(option, source, "COMMANDS.md")
    yield from page_faults(manual, source)
