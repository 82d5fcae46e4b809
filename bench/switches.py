"""What the rules of docs/RULES.md make of plain asks, worked out without vale.

The switches are kept here as people think of them, as rings of buffers, tables of addresses and the
free buffers, and no history is asked what stands. Each ask is a call of `Switches`: it answers None
where it is not enabled, else what it brings, and makes an entry.
"""

import heapq

BUFFER = 2048
MOST = {"switches": 4, "ports": 254, "pipes": 32, "monitors": 32, "ring": 4096, "extra": 1024, "batch": 4095, "frame": 131_072}
ROOM = {"entries": 16_777_216, "bytes": 1_073_741_824}


class NoLearn(bytes):
    """A frame marked no-learn."""


class Full(Exception):
    """The record has no room: of what, how much it would hold, and the limit."""


def buffers_of(frame):
    """How many buffers a frame takes."""
    return max(1, -(-len(frame) // BUFFER))


def parts_of(frame):
    """What lies in the buffers of a frame, each part with how many follow it."""
    count = buffers_of(frame)
    return [(bytes(frame[at * BUFFER : (at + 1) * BUFFER]), count - 1 - at) for at in range(count)]


def fitting(frames, space):
    """The longest prefix of frames that takes no more buffers than that."""
    for at, frame in enumerate(frames):
        space -= buffers_of(frame)
        if space < 0:
            return frames[:at]
    return frames


def listed(items):
    return ",".join(items) or "-"


def hexed(frame):
    return ("~" if isinstance(frame, NoLearn) else "") + (frame.hex() or ".")


def spans(numbers):
    """Buffers as a transcript lists them: neighbours by the first and the last of them."""
    out = []
    for number in numbers:
        if out and out[-1][1] + 1 == number:
            out[-1][1] = number
        else:
            out.append([number, number])
    return listed(str(a) if a == b else f"{a}-{b}" for a, b in out)


class Lot:
    """Frames that were given to a port, with their buffers, under the number of a grant or a put."""

    def __init__(self, number, session, frames, buffers, is_done):
        self.number, self.session, self.frames, self.buffers, self.is_done = number, session, frames, buffers, is_done


class Port:
    def __init__(self, session, name, sizes, idle):
        self.session, self.name, (self.tx, self.rx, self.extra) = session, name, sizes
        self.idle, self.line, self.is_open, self.out = idle, [], True, 0
        self.counts = dict.fromkeys(("sent", "short", "lone", "given", "full", "read"), 0)

    def kind(self):
        return "switch" if ":" in self.name else self.name[:3]

    def group(self):
        return self.name.split(":")[0] if self.kind() == "switch" else self.kind()

    def due(self):
        return self.tx + self.extra + self.out

    def space(self):
        return len(self.idle) - 1


class Switches:
    """The sessions, the ports, and the pool."""

    def __init__(self, pool):
        self.pool, self.free, self.entries, self.bytes = pool, list(range(2, pool + 2)), [], 0
        self.held, self.ports, self.learned, self.watched, self.offers = {}, {}, {}, {}, []

    # Readers.

    def count(self):
        return len(self.entries)

    def leases(self, session=None):
        return [lot for port in self.ports.values() for lot in port.line if not lot.is_done and session in (None, lot.session)]

    def is_settled(self, session):
        return not self.leases(session) and all(offer[1] != session for offer in self.offers)

    def open_port(self, number):
        port = self.ports.get(number)
        return port if port and port.is_open else None

    def named(self, name):
        return next((number for number, port in self.ports.items() if port.name == name and port.is_open), None)

    def holds(self, session, buffers):
        return len(set(buffers)) == len(buffers) and set(buffers) <= self.held[session]

    def transcript(self):
        """The entries as lines; frames are told here and not before, since a full record is never told."""
        told = lambda word: listed(map(hexed, word)) if isinstance(word, list) else str(word)
        lines = (f"{number} {' '.join(map(told, words))}\n" for number, words in enumerate(self.entries, 1))
        return f"vale 2 pool {self.pool}\n{''.join(lines)}end {self.count()} free {len(self.free)}\n"

    # Entries.

    def reserve(self, entries, size=0):
        """Wants room for so many entries, beside those stored and those promised, and so many bytes of frames."""
        promised = len(self.held) + sum(1 + port.is_open for port in self.ports.values()) + 2 * len(self.offers) + len(self.leases())
        for what, then in (("entries", self.count() + promised + entries), ("bytes", self.bytes + size)):
            if then > ROOM[what]:
                raise Full(what, then, ROOM[what])
        self.bytes += size

    def entry(self, *words):
        self.entries.append(words)
        return self.count()

    def enter(self, user):
        self.reserve(2)
        self.held[self.entry("enter", user)] = set()
        return self.count()

    def refusal(self, name, sizes):
        tx, rx, extra = sizes
        group = Port(0, name, sizes, []).group()
        there = [port.group() for port in self.ports.values()]
        switches = {port.group() for port in self.ports.values() if port.kind() == "switch"}
        most = {"pip": MOST["pipes"], "mon": MOST["monitors"]}.get(group, MOST["ports"])
        if not (tx == 0 if group == "mon" else 2 <= tx <= MOST["ring"]) or not 2 <= rx <= MOST["ring"] or extra > MOST["extra"]:
            return "badsize"
        if ":" in name and group not in switches and len(switches) == MOST["switches"]:
            return "switchesfull"
        if there.count(group) == most:
            return "portsfull"
        if name in [port.name for port in self.ports.values()]:
            return "nametaken"
        if sum(sizes) > len(self.free):
            return f"nobuffers {sum(sizes)} {len(self.free)}"
        return None

    def open(self, session, name, *sizes):
        """Answers the buffers of the transmit slots and of the extras, or False where it is refused."""
        if session not in self.held:
            return None
        refusal, (tx, rx, extra) = self.refusal(name, sizes), sizes
        self.reserve(1 if refusal else 3)
        number = self.entry(session, "open", name, tx, rx, extra, "=", refusal or "ok")
        if refusal:
            return False
        buffers = [heapq.heappop(self.free) for _ in range(sum(sizes))]
        self.ports[number] = Port(session, name, sizes, buffers[tx : tx + rx])
        self.held[session] |= set(buffers[:tx] + buffers[tx + rx :])
        return buffers[:tx] + buffers[tx + rx :]

    def place(self, port, mac):
        words = [int.from_bytes(mac[at : at + 2]) for at in (0, 2, 4)]
        return port.group(), (words[0] ^ words[1] ^ words[2]) % 1024

    def wanted_by(self, number, frame, others):
        """The ports of the switch for which a frame is, once its source is learned."""
        port, to, source = self.ports[number], frame[:6], frame[6:12]
        if len(frame) < 14:
            return []
        if source[0] % 2 == 0 and not isinstance(frame, NoLearn):
            self.learned[self.place(port, source)] = (source, number)
        known, at = self.learned.get(self.place(port, to), (None, None))
        if to[0] % 2 or known != to:
            return others
        return [at] if at != number else []

    def copies(self, number, side, frames):
        """What a monitor of the port is offered."""
        monitor, sides = self.watched.get(number, (None, ""))
        return {monitor: frames} if side in sides else {}

    def offer(self, session, wanted):
        """Offers of the entry that comes, and how they are told."""
        offers = [(self.count() + 1, session, to, frames) for to, frames in sorted(wanted.items()) if frames]
        self.offers += offers
        return listed(f"{to}*{len(frames)}" for _, _, to, frames in offers)

    def send(self, number, *frames):
        port, size = self.open_port(number), sum(map(buffers_of, frames))
        if not port or port.kind() != "switch" or not self.is_settled(port.session):
            return None
        if max(len(frames), size) > MOST["batch"] or any(len(frame) > MOST["frame"] for frame in frames):
            return None
        others = [other for other, there in self.ports.items() if there.is_open and there.group() == port.group() and other != number]
        wanted, short, lone = self.copies(number, "t", list(frames)), 0, 0
        for frame in frames:
            to = self.wanted_by(number, frame, others)
            short += len(frame) < 14
            lone += len(frame) >= 14 and not to
            for other in to:
                wanted.setdefault(other, []).append(frame)
        self.reserve(1 + 2 * sum(map(bool, wanted.values())), sum(map(len, frames)))
        told = self.offer(port.session, wanted)
        for what, count in (("sent", len(frames)), ("short", short), ("lone", lone)):
            port.counts[what] += count
        return self.entry(port.session, "send", number, list(frames), "= short", short, "lone", lone, "to", told)

    def grant(self, origin, to):
        """Answers whether a lease is begun."""
        offers = [offer for offer in self.offers if offer[0] == origin]
        if not offers or offers[0][2] != to:
            return None
        _, session, _, frames = offers[0]
        self.offers.remove(offers[0])
        port = self.open_port(to)
        given = fitting(frames, port.space()) if port else []
        missed = len(frames) - len(given)
        number = self.entry(session, "grant", origin, to, "= given", len(given), "full", missed if port else 0, "gone", 0 if port else missed)
        if port:
            port.counts["given"] += len(given)
            port.counts["full"] += missed
        if given:
            size = sum(map(buffers_of, given))
            port.line.append(Lot(number, session, given, port.idle[:size], False))
            port.idle = port.idle[size:]
        return bool(given)

    def done(self, lease):
        for lot in self.leases():
            if lot.number == lease:
                lot.is_done = True
                return self.entry(lot.session, "done", lease)
        return None

    def settle(self, session):
        """Grants all that the session's last entry offers, and ends each lease at once."""
        for origin, _, to, _ in [offer for offer in self.offers if offer[1] == session]:
            if self.grant(origin, to):
                self.done(self.count())

    def read(self, verb, number, back):
        """Answers the frames that were ready, and their buffers."""
        port = self.open_port(number)
        if not port or (port.kind() == "pip") != (verb == "get") or not self.is_settled(port.session):
            return None
        if len(back) > port.out or not self.holds(port.session, back):
            return None
        ready = next((at for at, lot in enumerate(port.line) if not lot.is_done), len(port.line))
        frames, buffers = [frame for lot in port.line[:ready] for frame in lot.frames], [buf for lot in port.line[:ready] for buf in lot.buffers]
        wanted = self.copies(number, "r", frames)
        self.reserve(1 + 2 * sum(map(bool, wanted.values())))
        told = self.offer(port.session, wanted)
        self.entry(port.session, verb, number, spans(back), "= gave", len(frames), "to", told)
        port.line = port.line[ready:]
        port.out += len(buffers) - len(back)
        port.idle += back
        self.held[port.session] = self.held[port.session] - set(back) | set(buffers)
        port.counts["read"] += len(frames)
        return frames, buffers

    def sync(self, number, *back):
        return self.read("sync", number, list(back))

    def get(self, number, *back):
        return self.read("get", number, list(back))

    def put(self, number, *items):
        """Answers the buffers that come for those taken, or False where there is no other end."""
        port = self.open_port(number)
        if not port or port.kind() != "pip" or not self.is_settled(port.session) or not self.holds(port.session, [index for index, _ in items]):
            return None
        if len(items) > MOST["batch"] or any(len(frame) > BUFFER for _, frame in items):
            return None
        peer = self.ports.get(self.named(port.name[:-1] + ("}" if port.name[-1] == "{" else "{")))
        if not peer:
            self.reserve(1)
            self.entry(port.session, "put", number, len(items), "= peergone")
            return False
        taken = items[: peer.space()]
        frames, buffers, came = [frame for _, frame in taken], [index for index, _ in taken], peer.idle[: len(taken)]
        wanted = self.copies(number, "t", frames)
        self.reserve(1 + 2 * sum(map(bool, wanted.values())), sum(map(len, frames)))
        told = self.offer(port.session, wanted)
        told_items = listed(f"{index}:{hexed(frame)}" for index, frame in taken)
        lot = Lot(self.entry(port.session, "put", number, len(items), "= took", told_items, "to", told), port.session, frames, buffers, True)
        peer.line += [lot] if taken else []
        peer.idle = peer.idle[len(taken) :]
        self.held[port.session] = self.held[port.session] - set(buffers) | set(came)
        port.counts["sent"] += len(taken)
        peer.counts["given"] += len(taken)
        return came

    def reset(self, number, side, fault):
        port = self.open_port(number)
        if not port or side == "tx" and port.tx == 0:
            return None
        self.reserve(1)
        return self.entry(port.session, "reset", number, side, fault)

    def watch(self, monitor, name, sides):
        port, target = self.open_port(monitor), self.named(name)
        if not port or port.kind() != "mon" or name.startswith("mon"):
            return None
        told = "notarget" if target is None else f"watched {self.watched[target][0]}" if target in self.watched else f"ok {target}"
        self.reserve(1)
        if told.startswith("ok"):
            self.watched[target] = (monitor, sides)
        return self.entry(port.session, "watch", monitor, name, sides, "=", told)

    def stat(self, number):
        port = self.open_port(number)
        if not port:
            return None
        self.reserve(1)
        return self.entry(port.session, "stat", number, "=", *(word for count in port.counts.items() for word in count))

    def shut(self, number):
        port = self.open_port(number)
        if not port or not self.is_settled(port.session):
            return None
        port.is_open = False
        self.learned = {place: pair for place, pair in self.learned.items() if pair[1] != number}
        self.watched = {target: (by, sides) for target, (by, sides) in self.watched.items() if number not in (target, by)}
        return self.entry(port.session, "shut", number)

    def finish(self, number, *bufs, found=0, astray=0):
        port = self.ports.get(number)
        if not port or port.is_open or len(bufs) != port.due() or not self.holds(port.session, bufs):
            return None
        out = sum(not lot.is_done for lot in port.line)
        if out:
            return f"waits {out}"
        unread = sum(len(lot.frames) for lot in port.line)
        self.held[port.session] -= set(bufs)
        for buffer in [*bufs, *port.idle, *(buffer for lot in port.line for buffer in lot.buffers)]:
            heapq.heappush(self.free, buffer)
        del self.ports[number]
        return self.entry(port.session, "finish", number, spans(bufs), "found", found, "astray", astray, "= unread", unread)

    def leave(self, session):
        if session not in self.held or not self.is_settled(session) or any(port.session == session for port in self.ports.values()):
            return None
        del self.held[session]
        return self.entry(session, "leave")

    def close(self):
        """Makes what was promised: offers by rising origin, leases by rising number, and the sessions."""
        while self.offers:
            origin = min(offer[0] for offer in self.offers)
            self.grant(origin, next(offer[2] for offer in self.offers if offer[0] == origin))
        while self.leases():
            self.done(min(lot.number for lot in self.leases()))
        for session in sorted(self.held):
            for number in sorted(number for number, port in self.ports.items() if port.session == session):
                self.shut(number)
                self.finish(number, *sorted(self.held[session])[: self.ports[number].due()])
            self.leave(session)
