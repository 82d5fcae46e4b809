#!/usr/bin/env python3
"""What the rules of docs/RULES.md and docs/FORMATS.md make of a script, worked out without vale.

`play` answers the transcript, the line on standard error, the status and the captures that are saved.
The lines are read by grammar.py, switches.py has what all users share, users.py what each has of its
own. The users of a block run one after another, which is one of the orders in which they may come.
`python3 model.py SCRIPT` writes what vale is to write, but for the captures.
"""

import os
import re
import struct
import sys

from grammar import BadLine, Reader, ports_of
from switches import Full, Switches
from users import User

MOST = {"script": 1_048_576, "lines": 10_000, "counts": 1_000_000, "inputs": 268_435_456, "frames": 1_000_000}
HEADER = bytes.fromhex("d4c3b2a1 0200 0400 00000000 00000000 00000400 01000000")


class Stop(Exception):
    """A line on standard error, and the status."""


def at_most(what, count):
    if count > MOST[what]:
        raise Stop(f"{what} {count} over {MOST[what]}", 7)


def lines_of(script):
    *ended, last = script.split(b"\n")
    lines = [line[:-1] if line.endswith(b"\r") else line for line in ended]
    return lines + [last] if last else lines


def read_script(name, read):
    script = read(name)
    if script is None:
        raise Stop(f"cannot read {name}", 4)
    at_most("script", min(len(script), MOST["script"] + 1))
    reader, lines = Reader(), lines_of(script)
    at_most("lines", len(lines))
    for at, line in enumerate(lines, 1):
        if not re.fullmatch(rb"[ \t]*(#.*)?", line, re.DOTALL):
            try:
                reader.read(at, line)
            except BadLine as bad:
                raise Stop(f"script line {at}: {bad}", 3) from None
    if reader.block is not None:
        raise Stop(f"script line {reader.begun}: order", 3)
    at_most("counts", reader.counts)
    return reader


def frames_of(capture, name):
    """The frames of a capture."""

    def want(holds, offset, cause):
        if not holds:
            raise Stop(f"{name}: byte {offset}: {cause}", 6)

    want(len(capture) >= 4, 0, "truncated")
    want(capture[:4].hex() in ("a1b2c3d4", "a1b23c4d", "d4c3b2a1", "4d3cb2a1"), 0, "magic")
    order = ">" if capture[0] == 0xA1 else "<"
    want(len(capture) >= 24, 0, "truncated")
    want(struct.unpack(order + "HH", capture[4:8]) == (2, 4), 4, "version")
    want(struct.unpack(order + "I", capture[20:24])[0] % 65536 == 1, 20, "link")
    at, frames = 24, []
    while at < len(capture):
        want(len(capture) - at >= 16, at, "truncated")
        length = struct.unpack(order + "I", capture[at + 8 : at + 12])[0]
        want(length <= 262_144, at, "record")
        want(len(capture) - at - 16 >= length, at, "truncated")
        frames.append(capture[at + 16 : at + 16 + length])
        at += 16 + length
    return frames


def read_captures(plays, read):
    """The frames of each file that is played, in order of the first line that plays it."""
    captures, bytes_read = {}, 0
    for name in dict.fromkeys(plays):
        capture = read(name)
        if capture is None:
            raise Stop(f"cannot read {name}", 4)
        bytes_read += len(capture)
        at_most("inputs", min(bytes_read, MOST["inputs"] + 1))
        captures[name] = frames_of(capture, name)
    at_most("frames", sum(len(captures[name]) for name in plays))
    return captures


def capture_of(port):
    """What a port has read, as a capture."""
    return HEADER + b"".join(struct.pack("<IIII", entry, place, len(frame), len(frame)) + frame for entry, place, frame in port.seen)


class Run:
    """The switches, the users that have come, and the ports that are saved, each with its file."""

    def __init__(self, pool, captures):
        self.switches, self.captures, self.users, self.saved = Switches(pool), captures, [], {}

    def line(self, at, user, first, *said):
        if first == "user":
            self.users.append(User(self.switches, user + 1))
            return
        user = self.users[user]
        # a line does nothing on a port that was refused
        if first == "open":
            user.open(*said)
        elif all(port in user.ports for port, _ in ports_of(first, said[0], said[1:])):
            self.on_port(at, user, first, *said)

    def on_port(self, at, user, first, name, *said):
        port = user.ports[name]
        if first == "close":
            user.close(name)
        elif first == "save":
            self.saved[at] = said[0], port
        elif first == "watch":
            self.switches.watch(port.number, *said)
        elif first == "stat":
            self.switches.stat(port.number)
        elif first == "play":
            user.play(port, self.captures[said[0]], said[1])
        else:
            act = user.put_frame if first == "hex" else getattr(user, first)
            act(port, *(user.ports.get(word, word) for word in said))


def play(name, read):
    """What vale makes of a script: standard output, standard error, the status, and the captures that are
    saved. `read` answers the bytes of a file, or None where there is none."""
    try:
        reader = read_script(name, read)
        run = Run(reader.pool, read_captures(reader.plays, read))
        for line in reader.lines:
            run.line(*line)
        for user in run.users:
            user.leave()
    except Full as full:
        what, count, limit = full.args
        return b"", f"vale: {what} {count} over {limit}\n".encode(), 7, {}
    except Stop as stop:
        return b"", f"vale: {stop.args[0]}\n".encode(), stop.args[1], {}
    saved = {name: capture_of(port) for _, (name, port) in sorted(run.saved.items())}
    return run.switches.transcript().encode(), b"", 0, saved


def read_file(name):
    if not os.path.isfile(name):
        return None
    with open(name, "rb") as file:
        return file.read()


if __name__ == "__main__":
    written, line, status, _ = play(sys.argv[1], read_file)
    sys.stdout.buffer.write(written)
    sys.stderr.buffer.write(line)
    sys.exit(status)
