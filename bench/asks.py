"""Asks at random for switches.py, also ones that are not enabled, and what each is answered."""

from switches import MOST, NoLearn, Switches, hexed, listed, spans

NAMES = ["vale0:a", "vale0:b", "vale0:c", "vale1:a", "vale1:b", "pipe0{", "pipe0}", "pipe1{", "pipe1}", "mon0", "mon1"] * 3 + ["vale2:a", "vale3:a", "vale4:a"]
SIZES = [2, 2, 3, 4, 5] * 4 + [1, 12, 66, 4096, 4097]
MACS = [bytes.fromhex(mac) for mac in ("02000000000a", "02000000000b", "020000010000", "ffffffffffff", "03000000000a")]
# frames that fill their buffers, that do just not, and that are too long to be sent
LENGTHS = [2048, 2049, 4096, 4097, 5000, 6144, 9000] * 4 + [65536, 131071, 131072, 131073]
FAULTS = ["headout 5 0 3", "curout 1 2 3", "indirect 0", "indexout 0 1", "notheld 0 6", "doubled 1 2", "unannounced 0 14 10", "longlen 0 2049", "fragment 0"]
WEIGHTS = {"enter": 1, "open": 4, "send": 8, "sync": 8, "get": 5, "put": 5, "watch": 2, "stat": 1, "reset": 1, "shut": 1, "finish": 1, "leave": 0.3, "grant": 1, "done": 1}
FITS = {"send": ["switch"], "sync": ["switch", "mon"], "get": ["pip"], "put": ["pip"], "watch": ["mon"]}


def frame_of(chance, long=0.2):
    if chance.random() < 0.1:
        return bytes(chance.randrange(14))
    length = chance.choice(LENGTHS) if chance.random() < long else chance.choice([14, 14, 14, 60])
    return (chance.choice(MACS) + chance.choice(MACS[:3] + MACS[4:])).ljust(length, bytes([chance.randrange(256)]))


def frames_of(chance):
    """The frames of a send, seldom about as many as it may have."""
    if chance.random() < 0.02:
        return [frame_of(chance, 1)] + [b""] * (MOST["batch"] - chance.choice([0, 1, 2, 3]))
    return [chance.choice([bytes] * 9 + [NoLearn])(frame_of(chance)) for _ in range(chance.choice([0, 1, 1, 2, 3, 5]))]


def some_of(chance, known, most):
    """One of those known, or a number nearby that may be none."""
    return chance.choice(known) if known and chance.random() < 0.85 else chance.randrange(1, most + 3)


def buffers_of(chance, held, count):
    """So many buffers of a session, or nearly so."""
    if chance.random() < 0.1:
        count += chance.choice([-1, 1])
    buffers = chance.sample(sorted(held), min(max(count, 0), len(held)))
    return buffers + [chance.randrange(2, 40)] if chance.random() < 0.05 else buffers


def verb_of(chance, model):
    """A verb: what is begun is mostly gone on with."""
    weights = dict(WEIGHTS, enter=6 if len(model.held) < 3 else 0.5, grant=25 if model.offers else 1, done=15 if model.leases() else 1)
    weights["finish"] = 6 if any(not port.is_open for port in model.ports.values()) else 0.5
    return chance.choices(list(weights), list(weights.values()))[0]


def port_of(chance, model, verb):
    """A port, mostly one of the kind that the verb is for."""
    fits = [number for number, port in model.ports.items() if port.kind() in FITS.get(verb, [port.kind()]) and port.is_open == (verb != "finish")]
    return some_of(chance, fits if chance.random() < 0.9 else list(model.ports), model.count())


def ask_of(chance, model):
    """A verb and what it says."""
    verb = verb_of(chance, model)
    number = port_of(chance, model, verb)
    port = model.ports.get(number)
    session = port.session if port and verb != "open" else some_of(chance, list(model.held), model.count())
    held = model.held.get(session, set())
    offers, leases = model.offers, [lot.number for lot in model.leases()]
    said = {
        "enter": lambda: [chance.randrange(100)],
        "open": lambda: [session, name := chance.choice(NAMES), 0 if name[0] == "m" and chance.random() < 0.9 else chance.choice(SIZES), chance.choice(SIZES), chance.choice([0, 0, 0, 1, 1, 2, 2, 1025])],
        "send": lambda: [number, *frames_of(chance)],
        "grant": lambda: list(chance.choice(offers)[::2][:2]) if offers and chance.random() < 0.9 else [some_of(chance, [], model.count()), number],
        "done": lambda: [some_of(chance, leases, model.count())],
        "sync": lambda: [number, *buffers_of(chance, held, chance.randint(0, port.out if port else 1))],
        "get": lambda: [number, *buffers_of(chance, held, chance.randint(0, port.out if port else 1))],
        "put": lambda: [number, *((index, frame_of(chance, 0.05)) for index in buffers_of(chance, held, chance.choice([0, 1, 1, 2, 3])))],
        "reset": lambda: [number, chance.choice(["tx", "rx"]), chance.choice(FAULTS)],
        "watch": lambda: [number, chance.choice(NAMES), chance.choice(["t", "r", "tr"])],
        "stat": lambda: [number],
        "shut": lambda: [number],
        "finish": lambda: [number, *buffers_of(chance, held, port.due() if port else 2)],
        "leave": lambda: [session],
    }
    return verb, said[verb]()


def line_of(number, verb, said):
    """An ask as the line of an entry, with an answer that says nothing."""
    texts = {
        "enter": lambda: f"{number} enter {said[0]}",
        "open": lambda: f"{number} {said[0]} open {' '.join(map(str, said[1:]))} = ok",
        "send": lambda: f"{number} 1 send {said[0]} {listed(map(hexed, said[1:]))} = short 0 lone 0 to -",
        "grant": lambda: f"{number} 1 grant {said[0]} {said[1]} = given 0 full 0 gone 0",
        "done": lambda: f"{number} 1 done {said[0]}",
        "sync": lambda: f"{number} 1 sync {said[0]} {spans(map(int, said[1:]))} = gave 0 to -",
        "get": lambda: f"{number} 1 get {said[0]} {spans(map(int, said[1:]))} = gave 0 to -",
        "put": lambda: f"{number} 1 put {said[0]} {len(said) - 1} = took {listed(f'{index}:{hexed(frame)}' for index, frame in said[1:])} to -",
        "reset": lambda: f"{number} 1 reset {said[0]} {said[1]} {said[2]}",
        "watch": lambda: f"{number} 1 watch {said[0]} {said[1]} {said[2]} = notarget",
        "stat": lambda: f"{number} 1 stat {said[0]} = sent 0 short 0 lone 0 given 0 full 0 read 0",
        "shut": lambda: f"{number} 1 shut {said[0]}",
        "finish": lambda: f"{number} 1 finish {said[0]} {spans(map(int, said[1:]))} found 0 astray 0 = unread 0",
        "leave": lambda: f"{number} {said[0]} leave",
    }
    return texts[verb]()


def answer_of(model, verb, said):
    """How the drive tells what became of an ask."""
    answer = getattr(model, verb)(*said)
    return "none" if answer is None else answer if isinstance(answer, str) else "made"


def asks_of(chance, pool, count):
    """Asks as a text, what each is answered, and the transcript of the drive once it is closed."""
    model, lines, answers = Switches(pool), [], []
    for number in range(1, count + 1):
        verb, said = ask_of(chance, model)
        lines.append(line_of(number, verb, said))
        answers.append(answer_of(model, verb, said))
    model.close()
    asks = "\n".join([f"vale 2 pool {pool}", *lines, f"end {count} free {pool}", ""])
    return asks, "\n".join([*answers, model.transcript()])
