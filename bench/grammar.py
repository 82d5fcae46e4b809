"""The lines of a script, by docs/FORMATS.md, read without vale."""

import re

U32, U64 = 2**32 - 1, 2**64 - 1
# what stands behind the first word of each line; what may be left out stands in brackets
FORMS = {
    "pool": "POOL",
    "user": "USER",
    "open": "USER NAME U32 U32 [U32]",
    "put": "USER NAME COUNT MAC MAC LEN FILL",
    "hex": "USER NAME HEX",
    "play": "USER NAME FILE BATCH",
    "tx": "USER NAME",
    "rx": "USER NAME [keep]",
    "fwd": "USER NAME NAME COUNT",
    "poke": "USER NAME SIDE U32 FIELD VALUE",
    "move": "USER NAME SIDE U32 U32",
    "swap": "USER NAME SIDE U32 NAME SIDE U32 [quiet]",
    "extra": "USER NAME U32 U32",
    "watch": "USER NAME NAME SIDES",
    "stat": "USER NAME",
    "save": "USER NAME FILE",
    "close": "USER NAME",
    "par": "",
    "end": "",
}
FIXED = {"SIDE": ["tx", "rx"], "SIDES": ["t", "r", "tr"], "FIELD": ["idx", "len", "flags", "ptr"], "[keep]": ["keep"], "[quiet]": ["quiet"]}
RANGES = {"POOL": (1, 262_144), "U32": (0, U32), "[U32]": (0, U32), "COUNT": (0, 1_000_000), "LEN": (0, 2048), "BATCH": (1, 4095)}
FIELDS = {"idx": U32, "len": 65535, "flags": 65535, "ptr": U64}
DIGITS = {"FILL": "[0-9a-fA-F]{2}", "HEX": r"([0-9a-fA-F]{2}){1,2048}|\."}
NAMES = {
    "USER": "[A-Za-z0-9_-]{1,16}",
    "NAME": r"(?=.{1,16}$)(vale[A-Za-z0-9_-]*:[A-Za-z0-9_-]+|pipe[A-Za-z0-9_-]+[{}]|mon[A-Za-z0-9_-]+)",
    "MAC": "[0-9a-fA-F]{2}(:[0-9a-fA-F]{2}){5}",
}


class BadLine(Exception):
    """A line that is no line of a script, and its cause."""


def check(holds, cause):
    if not holds:
        raise BadLine(cause)


def is_monitor(name):
    return name.startswith("mon")


def is_pipe(name):
    return name.startswith("pipe")


def is_number(word, low, high):
    return bool(re.fullmatch("[0-9]{1,20}", word)) and low <= int(word) <= high


def value_of(kind, word):
    """What a word says."""
    if kind in RANGES or kind == "VALUE":
        return int(word)
    if kind in ("MAC", "HEX", "FILL"):
        return bytes.fromhex(word.replace(":", "").strip("."))
    return word


def ports_of(first, name, said):
    """The ports that a line is on, each with the ring that it needs there."""
    if first in ("put", "hex", "play", "tx"):
        return [(name, "tx")]
    if first == "fwd":
        return [(name, "rx"), (said[0], "tx")]
    if first in ("poke", "move"):
        return [(name, said[0])]
    if first == "swap":
        return [(name, said[0]), (said[2], said[3])]
    return [(name, "rx")]


class Reader:
    """The lines of a script, judged one after another. Each is kept as its number, its user, its first word
    and what the others say; those of a block are kept user by user."""

    def __init__(self):
        self.pool, self.said, self.users, self.lines = 8192, False, [], []
        # how many frames the lines put and forward, and which file each line plays
        self.counts, self.plays = 0, []
        # the lines of the block that is open, and where it began
        self.block, self.begun = None, None
        # of each user, its open ports, each with whether it is saved; and the files that are saved
        self.opened, self.saved = [], set()

    def read(self, at, line):
        """Judges a line that says something."""
        check(all(33 <= byte <= 126 or byte in b" \t" for byte in line), "word")
        first, *words = line.decode().split()
        check(first in FORMS, "word")
        kinds = FORMS[first].split()
        said = list(zip(kinds, words))
        check(all(word in FIXED[kind] for kind, word in said if kind in FIXED), "word")
        check(len([kind for kind in kinds if "[" not in kind]) <= len(words) <= len(kinds), "count")
        check(all(is_number(word, *RANGES[kind]) for kind, word in said if kind in RANGES), "number")
        check(all(re.fullmatch(DIGITS[kind], word) for kind, word in said if kind in DIGITS), "number")
        check(first != "poke" or is_number(words[5], 0, FIELDS[words[4]]), "number")
        check(all(re.fullmatch(NAMES[kind], word) for kind, word in said if kind in NAMES), "name")
        values = [value_of(kind, word) for kind, word in said]
        self.counts += sum(value for kind, value in zip(kinds, values) if kind == "COUNT")
        if first in ("pool", "user", "par", "end"):
            self.read_without_port(at, first, *values)
        else:
            check(words[0] in self.users, "user")
            self.read_port(at, first, self.users.index(words[0]), *values[1:])
        self.said = True

    def read_without_port(self, at, first, value=None):
        """A line that is on no port."""
        check(not self.said if first == "pool" else (self.block is not None) == (first == "end"), "order")
        if first == "pool":
            self.pool = value
        elif first == "par":
            self.block, self.begun = [], at
        elif first == "end":
            self.lines += sorted(self.block, key=lambda line: line[1])
            self.block = None
        else:
            check(value not in self.users and len(self.users) < 64, "twice")
            self.users.append(value)
            self.opened.append({})
            self.lines.append((at, len(self.users) - 1, first))

    def read_port(self, at, first, user, name, *said):
        opened = self.opened[user]
        if first == "open":
            check(name not in opened, "twice")
            opened[name] = False
        else:
            check(all(port in opened and not (side == "tx" and is_monitor(port)) for port, side in ports_of(first, name, said)), "port")
            check(first != "watch" or is_monitor(name) and not is_monitor(said[0]), "port")
        if first == "play":
            check(said[0] not in self.saved, "twice")
            self.plays.append(said[0])
        elif first == "save":
            check(said[0] not in [*self.saved, *self.plays] and not opened[name], "twice")
            self.saved.add(said[0])
            opened[name] = True
        elif first == "close":
            del opened[name]
        (self.lines if self.block is None else self.block).append((at, user, first, name, *said))
