"""Makes the words of a command by its grammar, most of them accepted, for tools/hostile.py.

Each option has values of its form: usual ones, the ends of its range and what is just beyond them, and texts that are no value of it. In
some of the words one thing is wrong: an option that is missing, there twice, of another command, or unknown, or a word too many.
"""

import hostile_expected
from hostile_expected import NUMBERS, OPTIONS, SHAPE_WORDS, WAYS

FILES = {b"drawing": b"d", b"code": b"c"}
# numbers that keep a run short, for what may make it long
SHORT = {b"over": [50, 100, 500], b"radius": [1, 50, 450], b"step": [250, 500], b"pitch": [100, 1000], b"count": [1, 2, 3], b"limit": [1, 60, 300], b"depth": [1, 10, 60], b"rmax": [2, 60, 600]}
# what open lines may come in, and the options that say so
OPEN_FORMS, OPEN = [b"dxf", b"cxf"], [b"form", b"text"]
NOT_NUMBERS = [b"", b"-", b"+1", b"1.0", b"0x1", b" 1", b"1 ", b"one", b"1,1", b"1/1", b"9999999999", b"-1", b"\xc3\xa9"]
NOT_NAMES = [b"", b"None", b"X", b"xy", b"both ", b"even", b"evenodd\n", b"refuse,evenodd", b"loop"]
NOWHERE = [b"help", b"count", b"cross-", b"pocket-way", b"o", b"", b"Over"]


def number(chance, name, separator, low, high):
    """A number of the option, or a text that is none."""
    size = chance.random()
    if size < 0.05:
        return chance.choice(NOT_NUMBERS)
    if size < 0.12:
        return b"%d" % chance.choice([low - 1, high + 1])
    if separator:
        return separator.join(b"%d" % chance.choice([low, high, 1, 500, 2000]) for _ in range(2))
    if name in SHORT and size < 0.9:
        return b"%d" % chance.choice(SHORT[name])
    text = b"%d" % chance.choice([low, high, chance.randint(low, high)])
    return text.rjust(9, b"0") if size > 0.98 else text


def value(chance, name):
    """A value of the option, which is seldom out of its form or range."""
    named = {**SHAPE_WORDS, b"pocket": WAYS}
    if name in named:
        return chance.choice(NOT_NAMES) if chance.random() < 0.05 else chance.choice(named[name].split())
    if name in NUMBERS:
        return number(chance, name, *NUMBERS[name])
    if name == b"text":
        return chance.choice([b"I", b"I O", b"\n", b"a" * 200, b"\xc3\xa4" * 200, b"", b"a" * 201])
    return FILES[name] if chance.random() < 0.97 else chance.choice([b"nothing", b"folder", b"", b"-"])


def chosen(chance, command):
    """The names of the options: those that are required, and some of the others; seldom one less, one twice, or one of another command."""
    known, required = (names.split() for names in OPTIONS[command])
    required += OPEN if command == b"strokes" else []
    names = required + chance.sample([name for name in known if name not in required], chance.choice([0, 1, 1, 2, 3]) if len(known) > 5 else 0)
    wrong = chance.random()
    if wrong < 0.03:
        names.pop(chance.randrange(len(names)))
    elif wrong < 0.06:
        names.append(chance.choice(names))
    elif wrong < 0.1:
        names.append(chance.choice([b"over", b"pocket", b"cross", b"count", b"at", b"code", b"depth", b"radius"]))
    chance.shuffle(names)
    return names


def command(chance):
    """The words of a command."""
    name = chance.choice([*OPTIONS, b"carve", b"carve", b"trial"])
    words = [name]
    for option in chosen(chance, name):
        text = value(chance, option) if option in hostile_expected.KNOWN else b"1"
        if name == b"strokes" and option == b"form" and chance.random() < 0.9:
            text = chance.choice(OPEN_FORMS)
        words += [b"--%s=%s" % (option, text)] if chance.random() < 0.8 else [b"--" + option, text]
    if chance.random() < 0.03:
        words.insert(chance.randint(0, len(words)), chance.choice([b"--", b"-", b"d", *(b"--" + other for other in NOWHERE)]))
    return words
