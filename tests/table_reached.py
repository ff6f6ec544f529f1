"""Which places of the rules a scenario of the table reaches: each opening by what is in use, each frame by whom it is for, each
call at each place, and what the places do among each other. To keep the words apart, a number 0 to 7 is called a seat here."""

import model
import reached
from model import SETUP_ID, Settings
from reached import listed, outcome
from table_model import CALLS, PLACES, REPLIES

SEATS = range(PLACES)
NOT_THERE = 8, 9, 255           # seats that no table has; every call at them is answered 4
PHASES = "setup", "parameters", "open"


def split(line):
    """The seat that a line names, or None, and the rest of its words."""
    words = [word for word in line.split(b" ") if word]
    return (int(words[0]), words[1:]) if words[0].isdigit() else (None, words)


def bare(answer):
    """An answer without the seat that it names."""
    return answer.split(" at ")[0]


def label(line, answer):
    seat, words = split(line)
    if answer.startswith("error"):
        return "error"
    if words[0] == b"owner":
        return "no owner" if answer == "-" else "owner"
    if seat is None and words[0] == b"time":
        return "time for all"
    return reached.label(b" ".join(words), bare(answer))


def place_of(console, line, before):
    """The places that this line is at, before it is answered. `before` has what the seats held earlier."""
    seat, words = split(line)
    try:
        if seat is not None:
            yield from place_of_call(console, seat, words, before)
        elif words[0] == b"open" and len(words) in (1, 12):
            yield from place_of_open(console, Settings(*map(model.decimal, words[1:])), before)
        elif words[0] == b"frame":
            yield from place_of_frame(console, model.identifier(words[1]), model.octets(words[2:]), before)
        elif words[0] == b"owner":
            for role in roles(console, model.identifier(model.one(words[1:])), before):
                yield "owner, " + role
    except (model.Malformed, IndexError):
        return


def records(console):
    return console.table.records


# Openings

def place_of_open(console, given, before):
    closed = [seat for seat in SEATS if records(console)[seat].phase == "closed"]
    yield "open, closed %s" % (" ".join(map(str, closed)) or "none")
    wrong = list(out_of_range(given))
    taken = [(what, seat) for seat in SEATS if seat not in closed for what in ("unit", "rx")
             if getattr(records(console)[seat].settings, what) == getattr(given, what)]
    if not closed:
        phases = {record.phase for record in records(console)}
        yield "open, full of %s" % (phases.pop() if len(phases) == 1 else "several phases")
        for what in wrong or [what for what, _ in taken] or ["nothing"]:
            yield "open, full, wrong %s" % what
        return
    yield from reached.place_of_settings(model.Connection(), "open", given)
    if given.rx in EDGES:
        yield "open rx %d" % given.rx
    if not wrong and len(taken) == 1:
        what, seat = taken[0]
        yield "open, %s of %d in use, %s" % (what, seat, records(console)[seat].phase)
    for seat in closed:
        last = before.settings[seat]
        for what in ("unit", "rx"):
            if last and getattr(last, what) == getattr(given, what):
                yield "open, %s of closed %d" % (what, seat)
    if records(console)[closed[0]].left is not None:
        yield "open, A8 due at %d" % closed[0]


EDGES = 0x1FF, 0x200, 0x201, 0x2EE, 0x2EF, 0x2F0, 0x2F1, 0x2FF


def out_of_range(given):
    for name, value, (low, high) in zip(given._fields, given, model.RANGES):
        if not low <= value <= high or name == "t1" and value % 64 == 0:
            yield name
    if given.rx in REPLIES:
        yield "rx of replies"


# Frames

def roles(console, ident, before):
    """What an ID is to each seat."""
    for seat, record in enumerate(records(console)):
        if record.phase == "closed":
            last = before.settings[seat]
            if last and ident in (last.rx, SETUP_ID + last.unit):
                yield "%s of closed %d" % ("rx" if ident == last.rx else "unit", seat)
            continue
        unit, rx = SETUP_ID + record.settings.unit, record.settings.rx
        if ident == (unit if record.phase == "setup" else rx):
            yield "%d listens, %s" % (seat, record.phase)
        elif ident in (unit, rx):
            yield "%s of %d, %s" % ("rx" if ident == rx else "unit", seat, record.phase)
        elif ident > 0x7FF and ident & 0x7FF == (unit if record.phase == "setup" else rx):
            yield "beyond 7FF"
    if all(record.phase == "closed" for record in records(console)):
        yield "all closed"


def place_of_frame(console, ident, data, before):
    for role in roles(console, ident, before):
        yield "frame, " + role
    seat = console.table.owner(ident)
    if seat is None or records(console)[seat].phase != "open" or model.sort(data)[0] != "data":
        return
    begun = [type(record.receiver.course) is tuple for record in records(console) if record.phase == "open"]
    if sum(begun) == PLACES:
        yield "data at %d, messages begun at all eight" % seat
        if data[0] & 0x10:
            yield "last frame at %d, messages begun at all eight" % seat


# Calls that name their place

def place_of_call(console, seat, words, before):
    name = words[0].decode("latin-1")
    if words[0] not in CALLS:
        return
    if seat >= PLACES:
        yield "%s at %s" % (name, seat if seat in NOT_THERE or seat == 256 else "no seat" if seat < 256 else "over 256")
        return
    record = records(console)[seat]
    yield "%s at %d, %s" % (name, seat, record.phase)
    others = [other for other in records(console) if other is not record]
    if name == "due" and seat in before.discarded:
        yield "due after A8 was discarded at %d" % seat
    if name == "time" and all(other.phase != "closed" for other in others):
        yield "time at %d, the others in use" % seat
    if name == "due" and all(other.in_sending() for other in records(console)) and record.sender.due():
        yield "data due at %d, all eight sending" % seat
    if name == "take" and all(other.phase == "open" and other.receiver.complete for other in records(console)):
        yield "take at %d, messages wait at all eight" % seat
    if name == "buffer" and len({bytes(place.buffer) for place in console.places}) == PLACES:
        yield "buffer at %d, all eight differ" % seat


def place_after(console, line, answer):
    """The places that only the answer shows."""
    seat, words = split(line)
    if seat is None and words[0] == b"time" and not answer.startswith("error"):
        lost = [str(place) for place, number in enumerate(answer.split(" ")) if number == "8"]
        yield "time for all, 8 at %s" % (lost[0] if len(lost) == 1 else "several" if lost else "none")


def said(line, answer):
    """What a place is counted with."""
    seat, words = split(line)
    if seat is not None and words[:1] == [b"buffer"] and answer != "4" and not answer.startswith("error"):
        return {"shown"}
    return {outcome(bare(answer)), answer} if words and words[0] in (b"open", b"owner") else {outcome(bare(answer))}


class Before:
    """What the seats held earlier: the settings last opened with, and where an opening has discarded an A8."""

    def __init__(self):
        self.settings = [None] * PLACES
        self.discarded = set()

    def after(self, console, line, answer, left):
        """`left` are the seats at which an A8 was due before the call."""
        seat, words = split(line)
        if words and words[0] == b"open" and answer.startswith("0"):
            seat = int(answer.split(" ")[-1])
            self.settings[seat] = records(console)[seat].settings
            if seat in left:
                self.discarded.add(seat)
        elif words and words[0] == b"due" and seat is not None and not answer.startswith("error"):
            self.discarded.discard(seat)
        if words and words[0] == b"new" and answer == "0":
            self.__init__()


# What a run must have reached.

# Of frames, by the phase of the owner.
ARRIVING = {"setup": ("0", "1", "4", "11"),
            "parameters": ("0", "1", "2", "4", "0 padded", "2 padded", "4 padded"),
            "open": ("0", "0 done", "1", "2", "4", "5", "7", "8", "9", "12",
                     "0 padded", "0 done padded", "2 padded", "4 padded", "8 padded", "12 padded")}

# Of the calls that name their place, by the place's phase.
CALLED = {"closed": {"time": "0", "send": "4", "due": "0", "take": "4", "close": "4"},
          "setup": {"time": "0 8", "send": "4", "due": "0", "take": "4", "close": "0"},
          "parameters": {"time": "0 8", "send": "4", "due": "0", "take": "4", "close": "0"},
          "open": {"time": "0 8", "send": "0 5 6", "due": "0 7", "take": "0 5 7", "close": "0"}}

OPENED = """
open rx 511: 0|open rx 512: 10|open rx 513: 10|open rx 750: 10|open rx 751: 10|open rx 752: 0|open rx 753: 0|open rx 767: 0
open, closed none: 13|open, full of setup: 13|open, full of parameters: 13|open, full of open: 13
open, full of several phases: 13|open, full, wrong nothing: 13|open, full, wrong rx: 13|open, full, wrong unit: 13
open, full, wrong rx of replies: 13|open, full, wrong block: 13|open, full, wrong t1: 13|open, full, wrong t3: 13
open, full, wrong te: 13|open, full, wrong mntc: 13|open, full, wrong repeats: 13|open, full, wrong twait: 13
open, full, wrong interval: 13|open, full, wrong tests: 13|frame, all closed: 3|owner, all closed: -|frame, beyond 7FF: 3
owner, beyond 7FF: -|time for all, 8 at none|time for all, 8 at several
"""

# The limits of a lone record's settings hold in a table too.
LIMITS = [place for place in listed(reached.REACHED) if place.startswith("open ") and "and more, " not in place]


def masks():
    """Every set of closed places but the empty one: the lowest is taken."""
    for mask in range(1, 1 << PLACES):
        closed = [seat for seat in SEATS if mask >> seat & 1]
        yield "open, closed %s: 0 at %d" % (" ".join(map(str, closed)), closed[0])


def at_seat(seat):
    for phase in PHASES:
        for number in ARRIVING[phase]:
            yield "frame, %d listens, %s: %s" % (seat, phase, number)
        yield "owner, %d listens, %s: %d" % (seat, phase, seat)
        other = "rx" if phase == "setup" else "unit"
        yield "frame, %s of %d, %s: 3" % (other, seat, phase)
        yield "owner, %s of %d, %s: -" % (other, seat, phase)
        for what in ("unit", "rx"):
            yield "open, %s of %d in use, %s: 10" % (what, seat, phase)
    for what in ("unit", "rx"):
        yield "frame, %s of closed %d: 3" % (what, seat)
        yield "owner, %s of closed %d: -" % (what, seat)
    for phase, calls in CALLED.items():
        for name, numbers in calls.items():
            for number in numbers.split():
                yield "%s at %d, %s: %s" % (name, seat, phase, number)
        yield "room at %d, %s: 0" % (seat, phase)
        yield "buffer at %d, %s: shown" % (seat, phase)
    yield "open, A8 due at %d: 0 at %d" % (seat, seat)
    for name in ("due after A8 was discarded at %d: 0", "time at %d, the others in use: 8", "time for all, 8 at %d",
                 "data due at %d, all eight sending: 0", "data at %d, messages begun at all eight: 0",
                 "last frame at %d, messages begun at all eight: 0", "take at %d, messages wait at all eight: 0",
                 "buffer at %d, all eight differ: shown"):
        yield name % seat


def nowhere():
    for name in CALLS:
        name = name.decode()
        for seat in (*NOT_THERE, "no seat"):
            yield "%s at %s: 4" % (name, seat)
        for seat in (8, 256, "over 256"):       # badly written, at 8 by what follows
            yield "%s at %s: error" % (name, seat)


ANSWERS = (*reached.ANSWERS, "13", "owner", "no owner", "time for all")


def wanted():
    places = [*ANSWERS, *listed(OPENED), *LIMITS, *masks(), *nowhere()]
    for seat in SEATS:
        places += at_seat(seat)
        for what in ("unit", "rx"):
            # Where another place is taken, a closed one's unit and receive ID are free all the same.
            places += ["open, %s of closed %d: 0 at %d" % (what, seat, seat)]
    return places


def summary(tally):
    return reached.summary(tally, ANSWERS)


def missing(tally):
    return [name for name in wanted() if not tally[name]]
