"""Scripts at random, over all lines of the grammar, and captures for them to play.

Most lines are on ports that their users have opened, so that most scripts run; some break a rule.
Frames are often longer than a buffer, and rings and pools so small that they fit and do not fit.
"""

import struct

STATIONS = [f"02:00:00:00:00:{last:02x}" for last in range(1, 5)]
# addresses that share an entry of the table, groups, and the address of nobody
OTHERS = ["02:00:00:01:00:02", "02:00:04:01:00:00", "02:00:04:00:00:01", "03:00:00:00:00:0a", "ff:ff:ff:ff:ff:ff"]
OTHERS += ["01:00:5e:00:00:01", "00:00:00:00:00:00"]
LENGTHS = [60, 60, 60, 0, 1, 6, 13, 14, 15, 20, 2047, 2048]
# frames that fill their buffers, that do just not, and that are too long to be put
LONG = [2049, 4095, 4096, 4097, 5000, 6144, 6145, 9000] * 3 + [65536, 131071, 131072, 131073, 200000]
SPELLED = [".", "00", "ffffffffffff02000000000188b5", "02000000000202000000000488B5" + "a1" * 300]
SIZES = [2, 3, 4, 5, 6, 8] * 8 + [12, 16, 65, 66, 70, 128] * 2 + [4095, 4096, 0, 1, 1024, 4097, 4294967295]
POOLS = [1, 2, 7, 9, 20, 40] + [64, 100, 300, 1000, 4096, 65536, 262144] * 2
BATCHES = [1, 1, 2, 3, 5, 4095]
# a slot goes on with 32; 8 is the no-learn mark, 1 that of another buffer, 16 that of an indirect one
FLAGS = [32, 32, 32, 32, 40, 40, 33, 8, 0, 1, 48, 544]
SILENT = ["", "   ", "\t#", "# a note \x00\xff"]
BAD = ["user", "put", "pool 3", "user a\x80", "us\x7fer x", "user abcdefghijklmnopq", "tx nobody vale0:a", "end", "par x"]
BAD += ["open u0 vale0:a 4", "open u0 vale0:a 000000000000000000004 4", "open u0 pipe0: 4 4", "open u0 vale:x 4 4", "load 7"]
BAD += ["open u0 vale0:muchtoolong0 4 4", "put u0 vale0:a 1000001 02:00:00:00:00:01 02:00:00:00:00:02 60 11"]
BAD += ["rx u0 vale0:a keep", "rx u0 vale0:a 0 keep", "close u0 vale9:q", "open u0 vale0:e 4 4 3", "open u0 vale0:f 4 4 x"]
BAD += ["play u0 vale0:a 0.pcap 4096", "play u0 vale0:a 0.pcap 0", "hex u0 vale0:a 0", "hex u0 vale0:a ..", "watch u0 vale0:a mon0 t"]
BAD += ["put u0 vale0:a 1 02:00:00:00:00:01 02:00:00:00:00:02 2049 11", "poke u0 vale0:a tx 0 flags 65536", "fwd u0 vale0:a mon0 1"]
# how often lines come, and lines that belong together
LINES = {"open": 10, "put": 14, "hex": 3, "play": 8, "tx": 16, "rx": 22, "fwd": 8, "poke": 8, "move": 1, "swap": 2}
LINES |= {"extra": 1, "watch": 6, "stat": 2, "save": 2, "close": 2}
ALL = {**LINES, "join": 8, "carry": 16, "block": 2}


def is_monitor(name):
    return name.startswith("mon")


class Script:
    """The lines of a script so far, and of each user the ports that these have opened.

    A method with the name of a line gives the words behind its user, or None where none fits."""

    def __init__(self, chance):
        self.chance, self.lines, self.saved = chance, [], []
        self.users = [f"u{i}" for i in range(chance.randint(1, 5))]
        switches = [f"vale{i}" for i in range(chance.choice([1, 1, 1, 2, 6]))]
        letters = "abcdefghijklmnopqrstu"[: chance.choice([2, 3, 4, 21])]
        self.names = [f"{switch}:{letter}" for switch in switches for letter in letters]
        self.names += ["mon0", "pipe0{", "pipe0}", "mon1", "pipe1{", "pipe1}"][: chance.choice([0, 1, 3, 6, 6])]
        # each port with the size of its transmit ring
        self.opened = {user: {} for user in self.users}

    def add(self, *words):
        self.lines.append(" ".join(map(str, words)))

    # Words.

    def port(self, user):
        return self.chance.choice(list(self.opened[user]))

    def senders(self, user):
        """The ports that have transmit rings."""
        return [name for name in self.opened[user] if not is_monitor(name)]

    def sender(self, user):
        return self.chance.choice(self.senders(user)) if self.chance.random() < 0.999 else self.port(user)

    def slot(self, user):
        """A port with a side and a slot of it."""
        side, most = self.chance.choice(["tx", "tx", "tx", "rx"]), self.chance.choice([4, 4, 8, 70])
        return [self.sender(user) if side == "tx" else self.port(user), side, self.chance.randrange(most)]

    def addresses(self):
        return [self.chance.choice(STATIONS + OTHERS) for _ in range(2)]

    def capture(self):
        return [f"{self.chance.randrange(3)}.pcap", self.chance.choice(BATCHES)]

    # Lines.

    def open(self, user):
        chance, name = self.chance, self.chance.choice(self.names)
        if name in self.opened[user] and chance.random() < 0.998:
            return None
        tx = 0 if is_monitor(name) and chance.random() < 0.95 else chance.choice(SIZES)
        self.opened[user][name] = tx
        return [name, tx, chance.choice(SIZES), *chance.choice([[], [], [], [0], [3], [1025]])]

    def put(self, user):
        count, fill = self.chance.choice([0, 1, 1, 1, 2, 3, 5, 9, 40]), f"{self.chance.randrange(256):02x}"
        return [self.sender(user), count, *self.addresses(), self.chance.choice(LENGTHS), fill]

    def hex(self, user):
        return [self.sender(user), self.chance.choice(SPELLED)]

    def play(self, user):
        return [self.sender(user), *self.capture()]

    def tx(self, user):
        return [self.sender(user)]

    def rx(self, user):
        return [self.port(user), *self.chance.choice([[], [], [], ["keep"]])]

    def fwd(self, user):
        return [self.port(user), self.sender(user), self.chance.choice([0, 1, 1, 2, 9, 1000] * 20 + [400_000])]

    def poke(self, user):
        chance = self.chance
        lengths, buffers = chance.choice(LENGTHS + [2049] * 4), chance.choice([2, 3, 4, 5, 6, chance.randrange(40)])
        field = chance.choice([("flags", chance.choice(FLAGS)), ("flags", 32), ("len", lengths), ("idx", buffers), ("ptr", 7)])
        return [*self.slot(user), *field]

    def move(self, user):
        port, side, _ = self.slot(user)
        return [port, side, *self.chance.choices([0, 1, 2, 3, 5, 4294967295], k=2)]

    def swap(self, user):
        return [*self.slot(user), *self.slot(user), *self.chance.choice([[], ["quiet"]])]

    def extra(self, user):
        return [self.port(user), self.chance.randrange(4), self.chance.randrange(5)]

    def watch(self, user):
        monitors = [name for name in self.opened[user] if is_monitor(name)]
        targets = [name for ports in self.opened.values() for name in ports if not is_monitor(name)]
        if not monitors or not targets:
            return None
        return [self.chance.choice(monitors), self.chance.choice(targets * 3 + self.names), self.chance.choice(["t", "r", "tr"])]

    def stat(self, user):
        return [self.port(user)]

    def save(self, user):
        name = self.port(user)
        if (user, name) in self.saved and self.chance.random() < 0.99:
            return None
        self.saved.append((user, name))
        return [name, f"{len(self.saved)}.saved"]

    def close(self, user):
        name = self.port(user)
        del self.opened[user][name]
        self.saved = [pair if pair != (user, name) else None for pair in self.saved]
        return [name]

    # Lines that belong together. These add them.

    def join(self, user):
        """Frames are put, most slots of their ring are marked as going on, few get other lengths, and all is sent."""
        chance, rings = self.chance, self.opened[user]
        name = max(self.senders(user), key=rings.get) if chance.random() < 0.3 else self.sender(user)
        size, marked = min(rings[name], 128), chance.choice([0.5, 0.8, 1])
        self.add("put", user, name, chance.choice([1, 2, 3, 5, max(size - 1, 0)]), *self.addresses(), chance.choice(LENGTHS), "5a")
        for slot in range(size):
            if chance.random() < marked:
                self.add("poke", user, name, "tx", slot, "flags", chance.choice(FLAGS if chance.random() < 0.01 else [32, 32, 40]))
            if chance.random() < 0.05:
                self.add("poke", user, name, "tx", slot, "len", chance.choice(LENGTHS + [2049]))
        self.add("tx", user, name)

    def carry(self, user):
        """A capture is played, read at a port, and sent on from another one."""
        chance, other = self.chance, self.chance.choice([other for other in self.users if self.senders(other)])
        by, to = self.port(other), self.sender(other)
        self.add("play", user, self.sender(user), *self.capture())
        for _ in range(chance.choice([1, 2])):
            self.add("rx", other, by)
        if chance.random() < 0.3:
            self.add("poke", other, by, "rx", chance.randrange(5), "flags", chance.choice(FLAGS))
        self.add("fwd", other, by, to, chance.choice([1, 2, 9]))
        self.add("tx", other, to)

    def block(self, user):
        """A block of one user, whose entries come in one order."""
        self.add("par")
        for _ in range(self.chance.randint(0, 5)):
            self.go_on(user, LINES)
        self.add("end")

    def go_on(self, user, weights=ALL):
        kind = self.chance.choices(list(weights), list(weights.values()))[0] if self.senders(user) else "open"
        words = getattr(self, kind)(user)
        if words:
            self.add(kind, user, *words)


def script_of(chance):
    script = Script(chance)
    if chance.random() < 0.6:
        script.add("pool", chance.choice(POOLS))
    for user in script.users:
        script.add("user", user)
    for _ in range(chance.randint(0, chance.choice([10, 40, 150, 500]))):
        script.go_on(chance.choice(script.users))
        if chance.random() < 0.02:
            script.add(chance.choice(SILENT))
        if chance.random() < 0.001:
            script.add(chance.choice(BAD))
    text = "\n".join(script.lines) + chance.choice(["\n"] * 12 + ["", "\r"])
    text = text.replace("\n", "\r\n") if chance.random() < 0.1 else text
    text = text.replace(" ", " \t ") if chance.random() < 0.1 else text
    script = bytearray(text.encode("latin-1"))
    for _ in range(chance.choice([0] * 22 + [1, 2]) if script else 0):
        script[chance.randrange(len(script))] = chance.choice(b" \t\r\n#:~0Aaz\x00\x7f\x80")
    return bytes(script)


def capture_of(chance):
    """A capture, mostly of long frames, and seldom a broken one."""
    order, magic, link = chance.choice("<>"), chance.choice([0xA1B2C3D4, 0xA1B23C4D]), chance.choice([1, 1, 0x10000001])
    records = [struct.pack(order + "IHHIIII", magic, 2, 4, 0, 0, 262144, link)]
    for _ in range(chance.choice([0, 1, 1, 2, 3, 5])):
        length, filling = chance.choice(LONG if chance.random() < 0.7 else LENGTHS), bytes(range(251)) * 800
        to, source = (bytes.fromhex(chance.choice(STATIONS + OTHERS).replace(":", "")) for _ in range(2))
        frame = (to + source + filling[chance.randrange(251) :])[:length]
        records.append(struct.pack(order + "IIII", 1, 2, length, length + chance.choice([0, 7])) + frame)
    capture = bytearray(b"".join(records))
    if chance.random() < 0.01:
        capture[chance.randrange(24)] ^= 1
    return bytes(capture[: chance.randrange(len(capture))] if chance.random() < 0.01 else capture)


def files_of(chance):
    """A script, and the captures that it may play."""
    return {"script": script_of(chance), **{f"{number}.pcap": capture_of(chance) for number in range(3)}}
