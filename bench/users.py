"""What a user of a script has of its own, by docs/RULES.md: rings of slots, extra buffers, and the bytes in them."""

from grammar import is_pipe
from switches import BUFFER, MOST, NoLearn, buffers_of, parts_of

CHANGED, NO_LEARN, INDIRECT, MORE = 1, 8, 16, 32


class Slot:
    def __init__(self, idx=0, len=0, flags=0, ptr=0):
        self.idx, self.len, self.flags, self.ptr = idx, len, flags, ptr


class Ring:
    """Slots, the buffers in their places, and the positions: those of the user, and the last ones accepted."""

    def __init__(self, side, places):
        self.side, self.places, self.size = side, places, len(places)
        self.slots = [Slot(buffer or 0) for buffer in places]
        self.head, self.cur, self.accepted, self.tail = 0, 0, 0, self.size - 1 if side == "tx" else 0

    def distance(self, start, end):
        return (end - start) % self.size

    def between(self, start, end):
        return [(start + step) % self.size for step in range(self.distance(start, end))]

    def pushed(self):
        return self.between(self.accepted, self.head)

    def owns(self, at):
        """Whether a slot is one of the user's."""
        return at < self.size and self.distance(self.accepted, at) < self.distance(self.accepted, self.tail)

    def refusal(self):
        if self.head >= self.size or self.distance(self.accepted, self.head) > self.distance(self.accepted, self.tail):
            return f"headout {self.head} {self.accepted} {self.tail}"
        if self.cur >= self.size or self.distance(self.head, self.cur) > self.distance(self.head, self.tail):
            return f"curout {self.cur} {self.head} {self.tail}"
        return None

    def has(self, count):
        """Whether so many slots stand from head on."""
        return not self.refusal() and self.distance(self.head, self.tail) >= count

    def next(self):
        """The slot at head, behind which head and cur go on."""
        slot = self.slots[self.head]
        self.head, self.cur = (self.head + 1) % self.size, (self.cur + 1) % self.size
        return slot


class Extras:
    """The extra buffers of a port. All are the user's at all times."""

    def __init__(self, places):
        self.places, self.head = places, places[0] if places else 0

    def owns(self, _):
        return True


class OwnPort:
    """A port that is open, with all frames that it has read, each with the entry that gave it and its place there."""

    def __init__(self, number, name, tx, rx, extras):
        self.number, self.is_pipe, self.tx, self.rx, self.extras, self.seen = number, is_pipe(name), tx, rx, extras, []

    def ring(self, side):
        return self.tx if side == "tx" else self.rx


class User:
    def __init__(self, switches, number):
        self.switches, self.session, self.ports = switches, switches.enter(number), {}
        # of each buffer of the session what lies in it, but for zeros at the end, and the place that it is in
        self.bytes, self.places = {}, {}

    # Buffers.

    def lay(self, ring, at, buffer):
        ring.places[at] = buffer
        self.places[buffer] = ring, at

    def come(self, ring, at, buffer, part=b""):
        """A buffer comes to the session, cleared but for a part of a frame."""
        self.bytes[buffer] = part
        self.lay(ring, at, buffer)

    def go(self, buffer):
        del self.bytes[buffer], self.places[buffer]

    def is_named(self, buffer):
        ring, at = self.places.get(buffer, (None, None))
        return ring is not None and ring.owns(at)

    def write(self, buffer, part):
        if self.is_named(buffer):
            self.bytes[buffer] = part + self.bytes[buffer][len(part) :]

    def bytes_of(self, slot):
        return self.bytes[slot.idx][: slot.len].ljust(slot.len, b"\0")

    # Syncs.

    def refusal(self, port, ring):
        """Why a sync of a ring is refused."""
        if ring.refusal():
            return ring.refusal()
        # how many slots the frame has so far
        pushed, earlier, begun, sends = ring.pushed(), set(), 0, ring.side == "tx"
        for at in pushed:
            slot, was = ring.slots[at], ring.places[at]
            idx, flags, begun = slot.idx, slot.flags, begun + 1
            if sends and flags & INDIRECT:
                return f"indirect {at}"
            if not 2 <= idx <= self.switches.pool + 1:
                return f"indexout {at} {idx}"
            if not self.is_named(idx):
                return f"notheld {at} {idx}"
            if idx in earlier:
                return f"doubled {at} {idx}"
            if idx != was and not flags & CHANGED:
                return f"unannounced {at} {idx} {was}"
            if sends and slot.len > BUFFER:
                return f"longlen {at} {slot.len}"
            if sends and flags & MORE and (port.is_pipe or at == pushed[-1] or begun == 64):
                return f"fragment {at}"
            earlier.add(idx)
            begun = begun if flags & MORE else 0
        return None

    def is_reset(self, port, ring):
        """Whether a sync of a ring is refused, which resets it."""
        refusal = self.refusal(port, ring)
        if not refusal:
            return False
        self.switches.reset(port.number, ring.side, refusal)
        ring.head = ring.cur = ring.accepted
        for at in ring.between(ring.accepted, ring.tail):
            slot = ring.slots[at]
            slot.idx, slot.flags, slot.ptr = ring.places[at], 0, 0
            slot.len = 0 if ring.side == "tx" else slot.len
        return True

    def exchange(self, ring, pushed):
        """Each buffer pushed changes places with the one that its slot names."""
        for at in pushed:
            slot, was = ring.slots[at], ring.places[at]
            self.lay(*self.places[slot.idx], was)
            self.lay(ring, at, slot.idx)
            slot.flags &= ~CHANGED
        ring.accepted = ring.head

    def frames(self, slots):
        """The frames in slots, each with the mark of its first one."""
        frames, parts = [], []
        for slot in slots:
            if not parts:
                kind = NoLearn if slot.flags & NO_LEARN else bytes
            parts.append(self.bytes_of(slot))
            if not slot.flags & MORE:
                frames.append(kind(b"".join(parts)))
                parts = []
        return frames

    def tx(self, port):
        """Sends what lies in the transmit ring; whether that was accepted, and the other end of a pipe is there."""
        ring, came = port.tx, None
        if self.is_reset(port, ring):
            return False
        pushed = ring.pushed()
        if port.is_pipe:
            # those that were not taken before, and then the new ones
            offered = ring.between(ring.tail + 1, ring.accepted) + pushed
            came = self.switches.put(port.number, *((ring.slots[at].idx, self.bytes_of(ring.slots[at])) for at in offered))
            self.exchange(ring, pushed)
            for at, buffer in zip(offered, came or []):
                self.go(ring.places[at])
                self.come(ring, at, buffer)
                ring.slots[at].idx = buffer
            ring.tail = (ring.tail + len(came or [])) % ring.size
        else:
            self.switches.send(port.number, *self.frames([ring.slots[at] for at in pushed]))
            self.exchange(ring, pushed)
            ring.tail = (ring.head - 1) % ring.size
        self.switches.settle(self.session)
        return came is not False

    def rx(self, port, keep=None):
        ring = port.rx
        if not keep:
            ring.head = ring.cur = ring.tail
        if self.is_reset(port, ring):
            return
        pushed = ring.pushed()
        frames, buffers = self.switches.read("get" if port.is_pipe else "sync", port.number, [ring.slots[at].idx for at in pushed])
        port.seen += [(self.switches.count(), place, frame) for place, frame in enumerate(frames)]
        self.exchange(ring, pushed)
        for at in pushed:
            self.go(ring.places[at])
            ring.places[at] = None
        parts = [part for frame in frames for part in parts_of(frame)]
        for (part, rest), buffer in zip(parts, buffers, strict=True):
            ring.slots[ring.tail] = Slot(buffer, len(part), MORE + 256 * rest if rest else 0)
            self.come(ring, ring.tail, buffer, part)
            ring.tail = (ring.tail + 1) % ring.size
        self.switches.settle(self.session)

    # Frames into a transmit ring.

    def put_frame(self, port, frame):
        """Puts a frame, for which it sends first where the ring has too few slots; whether it was put."""
        if not port.tx.has(buffers_of(frame)) and not (self.tx(port) and port.tx.has(buffers_of(frame))):
            return False
        for part, rest in parts_of(frame):
            slot = port.tx.next()
            port.tx.cur = port.tx.head
            self.write(slot.idx, part)
            slot.len, slot.flags = len(part), slot.flags & ~(NO_LEARN | INDIRECT | MORE) | (MORE if rest else 0)
        return True

    def put(self, port, count, to, source, length, fill):
        frame = (to + source + b"\x88\xb5" + fill * BUFFER)[:length]
        for _ in range(count):
            if not self.put_frame(port, frame):
                return

    def play(self, port, frames, batch):
        longest = BUFFER if port.is_pipe else MOST["frame"]
        put = 0
        for frame in frames:
            if len(frame) > longest:
                continue
            if not self.put_frame(port, frame):
                return
            put += 1
            if put % batch == 0 and not self.tx(port):
                return
        if put % batch:
            self.tx(port)

    # What changes slots alone.

    def fwd(self, port, other, count):
        rx, tx = port.rx, other.tx
        for _ in range(count):
            ready = rx.between(rx.head, rx.tail) if not rx.refusal() else []
            size = next((before + 1 for before, at in enumerate(ready) if not rx.slots[at].flags & MORE), 0)
            if not size or not tx.has(size) or other.is_pipe and size > 1:
                return
            for _ in range(size):
                got, free = rx.next(), tx.next()
                got.idx, free.idx, free.len = free.idx, got.idx, got.len
                got.flags |= CHANGED
                free.flags = free.flags & ~MORE | got.flags & MORE | CHANGED

    def poke(self, port, side, at, field, value):
        if port.ring(side).owns(at):
            setattr(port.ring(side).slots[at], field, int(value))

    def move(self, port, side, head, cur):
        port.ring(side).head, port.ring(side).cur = head, cur

    def swap(self, port, side, at, other, other_side, other_at, quiet=None):
        one, two = port.ring(side), other.ring(other_side)
        if one.owns(at) and two.owns(other_at):
            one, two = one.slots[at], two.slots[other_at]
            one.idx, two.idx = two.idx, one.idx
            for slot in (one, two):
                slot.flags |= 0 if quiet else CHANGED

    def extra(self, port, one, other):
        places = port.extras.places
        if max(one, other) <= len(places):
            index = places[other - 1] if other else 0
            if one:
                self.write(places[one - 1], index.to_bytes(4, "little"))
            else:
                port.extras.head = index

    # Opening and closing.

    def open(self, name, tx, rx, extra=0):
        buffers = self.switches.open(self.session, name, tx, rx, extra)
        if buffers is False:
            return
        rings = Ring("tx", buffers[:tx]), Ring("rx", [None] * rx), Extras(buffers[tx:])
        self.ports[name] = OwnPort(self.switches.count(), name, *rings)
        for ring in (rings[0], rings[2]):
            for at, buffer in enumerate(ring.places):
                self.come(ring, at, buffer)
        for buffer, following in zip(buffers[tx:], buffers[tx + 1 :]):
            self.write(buffer, following.to_bytes(4, "little"))

    def chain(self, extras):
        """How many extra buffers the chain meets."""
        index, met = extras.head, set()
        while index in extras.places and index not in met:
            met.add(index)
            index = int.from_bytes(self.bytes[index][:4], "little")
        return len(met)

    def close(self, name):
        port = self.ports.pop(name)
        received = [port.rx.places[at] for at in port.rx.between(port.rx.accepted, port.rx.tail)]
        buffers, found = [*port.tx.places, *received, *port.extras.places], self.chain(port.extras)
        self.switches.shut(port.number)
        self.switches.finish(port.number, *buffers, found=found, astray=len(port.extras.places) - found)
        for buffer in buffers:
            self.go(buffer)

    def leave(self):
        for name in list(self.ports):
            self.close(name)
        self.switches.leave(self.session)
