"""Which places of the rules a scenario reaches: both sides of each limit, each row, each end of a timer."""

import model
from model import Settings, named, sort


def name_of(line):
    """The first word of a line that has one."""
    return next(word for word in line.split(b" ") if word)


def label(line, answer):
    if name_of(line) == b"buffer" and not answer.startswith("error"):
        return "buffer"
    words = answer.split()
    if words[0] == "error":
        return "error"
    if words[0] == "11" or words[-1] in ("done", "padded"):
        return answer
    if words[0] == "0" and len(words) > 1:
        return "0 flags" if words[1] == "flags" else "0 message" if name_of(line) == b"take" else "0 frame"
    return words[0]


def outcome(answer):
    """An answer's number with `done` and `padded`, without what else it carries."""
    number, *words = answer.split(" ")
    return " ".join([number, *(word for word in words if word in ("done", "padded"))])


# Declared lengths at the limits, with what they are answered where the buffer is long enough.
DECLARED = {0: 9, 1: 0, model.LONGEST: 0, model.LONGEST + 1: 9, 4095: 9}

# What the bytes of a setting can hold.
WIDEST = (65535, 255, 255, 255, 255, 65535, 255, 255, 65535, 65535, 255)


# The rows of TP 1.6 as CAN IDs, which tables 2 and 5 of 001 have as sums: where a unit replies from, our receive ID, the transmit ID
# that a reply names. Written out here, so that the model's sums are held to them.
LIMITS = {
    "drive": {"unit": (0x00, 0x1F), "from": (0x200, 0x21F), "rx": (0x740, 0x7BF), "tx": (0x740, 0x7BF)},
    "comfort": {"unit": (0x00, 0x1F), "from": (0x2E0, 0x2FF), "rx": (0x300, 0x31F), "tx": (0x320, 0x33F)},
    "high": {"unit": (0x30, 0x3F), "from": (0x4D0, 0x4DF), "rx": (0x4E0, 0x4EF), "tx": (0x4F0, 0x4FF)},
    "low": {"unit": (0x30, 0x3F), "from": (0x4D0, 0x4DF), "rx": (0x690, 0x69F), "tx": (0x6B0, 0x6BF)},
}
SETUPS = 0x200, 0x2D0, 0x2E0, 0x4A0
OLD = "1.6 "                # before a place that a connection by TP 1.6 is at


def near(value, limit):
    return {limit - 1: "one less", limit: "equal", limit + 1: "one more"}.get(value)


def place_of(console, line, past):
    """The places at a limit or in a rule that this line is at, before it is answered; those of TP 1.6 are told apart."""
    before = "" if console.connection.profile is model.TP20 else OLD
    for place in place_of_line(console, line, past):
        yield before + place


def place_of_line(console, line, past):
    words = [word for word in line.split(b" ") if word]
    c = console.connection
    if c.phase == "closed" and c.left is not None:
        yield "A8 due, %s" % words[0].decode("latin-1")
    try:
        if words[0] == b"open" and len(words) == 12:
            yield from place_of_settings(c, "open", Settings(*map(model.decimal, words[1:])))
        elif words[0] == b"open16" and len(words) == 2 and words[1].decode("latin-1") in LIMITS:
            yield "open16 %s, %s" % (words[1].decode(), c.phase)
        elif words[0] == b"open16" and len(words) == 13 and words[1].decode("latin-1") in LIMITS:
            yield from place_of_old(c, words[1].decode(), Settings(*map(model.decimal, words[2:])))
        elif words[0] == b"frame":
            yield from place_of_frame(console, model.identifier(words[1]), model.octets(words[2:]))
        else:
            yield from place_of_call(console, words, past)
    except (model.Malformed, IndexError, ValueError):
        return


def place_of_settings(c, name, given, *more, closed=True):
    wide = max(*given, *more) >= 2**64
    if c.phase != "closed":
        if wide:
            yield "%s 64 bits and more, %s" % (name, c.phase)
        return
    if wide:
        yield "%s 64 bits and more" % name
    if not closed:
        return
    for field, value, (low, high), most in zip(given._fields, given, model.RANGES, WIDEST):
        if value in (low - 1, low, high, high + 1):
            yield "%s %s %d" % (name, field, value)
        if value > most:
            yield "%s %s too wide" % (name, field)
    if given.t1 in (0x40, 0x41, 0x80, 0xC0, 0xC1):
        yield "%s t1 %d" % (name, given.t1)


def good_elsewhere(given, row, but):
    """Whether all settings but the named ones are good in the row, so that the answer shows how those are judged."""
    limits = {**dict(zip(given._fields, model.RANGES)), **{name: LIMITS[row][name] for name in ("unit", "rx")}}
    t1, t3 = model.tenths(given.t1 % 256), model.tenths(given.t3 % 256)
    return all(name in but or limits[name][0] <= value <= limits[name][1] for name, value in given._asdict().items()) and (
        "t1" in but or t1 > 0) and ("t3" in but or t3 >= 100) and ("twait" in but or t3 < given.twait < t1)


def place_of_old(c, row, given):
    """Settings of TP 1.6, of which one alone is at a limit or beyond it; what they would be in another row."""
    yield from place_of_settings(c, "open16", given, closed=False)
    if c.phase != "closed":
        return
    for field, value, limits, most in zip(given._fields, given, model.RANGES, WIDEST):
        low, high = LIMITS[row].get(field, limits)
        if not good_elsewhere(given, row, (field, "twait") if field in ("t1", "t3") else (field,)):
            continue
        if value in (low - 1, low, high, high + 1) and field not in ("t3", "twait"):
            yield "%s %s %d" % (row, field, value)
        if value > most:
            yield "%s %s too wide" % (row, field)
        for other, theirs in LIMITS.items():
            if field in theirs and LIMITS[row][field] != theirs[field] and value == theirs[field][0]:
                yield "%s %s of %s" % (row, field, other)
        if field == "rx" and value in (LIMITS[row]["tx"][0], LIMITS[row]["rx"][0] & 0xFF):
            yield "%s rx %d" % (row, value)
    t1, t3 = model.tenths(given.t1 % 256), model.tenths(given.t3 % 256)
    if good_elsewhere(given, row, ("twait",)):
        for name, bound in (("T3", t3), ("T1", t1)):
            if near(given.twait, bound):
                yield "%s T_WAIT %s, %s" % (row, name, near(given.twait, bound))
    if good_elsewhere(given, row, ("t3",)) and given.t3 < 256 and t3 < given.twait < t1:
        yield "t3 code %02X" % given.t3
        if given.t3 in (0x49, 0x4A):
            yield "%s T3 %d" % (row, t3)


def place_of_call(console, words, past):
    """The calls that both sides have, but for frames."""
    c = console.connection
    if words[0] == b"time":
        span = model.at_most(model.TIME, model.decimal(words[1]))
        for name, left in timers(c).items():
            if near(span, left):
                yield "time %s %s" % (name, near(span, left))
            if span >= left:
                yield from place_of_end(c, name)
        if span == model.TIME:
            yield "time longest, %s" % c.phase
        if c.phase == "open" and 0 < c.settings.interval <= span and c.profile is not model.TP20:
            yield "time of the unused interval"
    elif words[0] == b"close":
        yield "close %s" % c.phase
    elif c.phase != "open":
        return
    elif words[0] == b"send" and c.sender.length is None:
        length = len(model.octets(words[1:]))
        if length in (0, 1, model.LONGEST, model.LONGEST + 1):
            yield "send %d" % length
        if c.sender.hold:
            yield "send in a hold"
    elif words[0] == b"take" and c.receiver.complete:
        length, flags = c.receiver.complete
        if length in (1, model.LONGEST):
            yield "take %d" % length
        if near(len(console.buffer), length):
            yield "take room %s" % near(len(console.buffer), length)
        yield "take, flags %X" % flags
        if flags:
            yield "take, flagged message waits"
        for event in past:
            yield "take %s flags after %s" % ("with" if flags else "without", event)
    elif words[0] == b"take" and flags_of(c.receiver.course):
        yield "take, flagged message begun"
    elif words[0] == b"due":
        if c.test_due() and c.receiver.ack and c.answering and c.sender.due():
            yield "due all kinds"
        if c.test_again and c.sender.unacknowledged():
            yield "due test kept back"
        if c.sender.length and c.test_due():
            yield "due test in a message"
        if c.receiver.ack and c.sender.due() and not c.answering and not c.test_due():
            yield "due Ack and data"


def place_of_end(c, name):
    """A timer that ends, with what its count says."""
    if name == "T_E":
        count, most = c.repeats, c.settings.mntc
    elif name == "wait":
        count, most = c.sender.repeats, c.settings.repeats
    elif name == "test":
        count, most = c.unanswered, c.settings.tests
    else:
        return
    if name == "T_E" and count == most == 20:
        yield "T_E ends, 20 of 20"
    if count == most:
        yield "%s ends, count %s" % (name, "0 of 0" if most == 0 else "255 of 255" if most == 255 else "full")
    elif count == most - 1:
        yield "%s ends, count one short" % name
    else:
        yield "%s ends" % name


def filled(console, line):
    """What is left of a padded telegram without its padding; None if the line is none, or one that is not sorted. Told by
    the bytes and not by the model's sorting, so that each is held to the other."""
    words = [word for word in line.split(b" ") if word]
    c = console.connection
    if words[:1] != [b"frame"] or c.phase in ("closed", "setup"):
        return None
    try:
        ident, data = model.identifier(words[1]), model.octets(words[2:])
    except (model.Malformed, IndexError):
        return None
    if ident != c.settings.rx or len(data) != 8:
        return None
    if data[0] in (0xA3, 0xA4) and c.profile is not model.TP20:
        return None
    if data[0] == 0xA1:
        return data[:6]
    return data[:1] if data[0] in (0xA3, 0xA4, 0xA8, *range(0x90, 0xA0), *range(0xB0, 0xC0)) else None


def place_of_frame(console, ident, data):
    c = console.connection
    where = "closed" if c.phase == "closed" else "another ID" if ident != c.listens_on() else c.phase
    if c.phase == "setup" and c.profile is not model.TP20:
        yield from ("%s reply on %03X and unit" % (c.profile.NAME, base) for base in SETUPS if ident == base + c.settings.unit)
    if data:
        yield "%s of %d, %s" % (named(data[0]), len(data), where)
    if where == "closed":
        yield "frame closed"
    if where in ("closed", "another ID"):
        return
    if c.phase == "setup":
        yield "bytes setup %d" % len(data)
        if c.profile is not model.TP20:
            yield from place_of_old_reply(c, data)
            return
        if len(data) == 7 and data[1] in (0xD0, 0xD6, 0xD7, 0xD8):
            yield "reply %02X, asked %s, due %s" % (data[1], c.asked, c.asking)
        if len(data) == 8 and data[0] == 0x00 and c.asked:
            yield "reply %02X of 8" % data[1]
        return
    yield from place_of_sorted(console, data)
    if c.phase == "parameters" and sort(data)[0] == "A1":
        yield from place_of_a1(c, data, c.asked, "asked %s, due %s" % (c.asked, c.asking))


def place_of_old_reply(c, data):
    """A reply by TP 1.6: with one thing that counts, all else being good."""
    row, state = c.profile.NAME, "asked %s, due %s" % (c.asked, c.asking)
    if len(data) == 7 and data[0] == 0x00 and data[1] in (0xD0, 0xD8):
        yield "reply %02X of TP 2.0" % data[1]
    if len(data) >= 3 and data[0] == 0x00 and data[1] in (0xD0, 0xD8) and (data[1] == 0xD8 or c.profile.named_by(data, c.settings)):
        yield "reply %02X of %d" % (data[1], len(data))
    if len(data) != 3:
        return
    if data[1] in (0xD0, 0xD6, 0xD7, 0xD8):
        yield "%s reply %02X, byte 0 %s" % (row, data[1], "00" if data[0] == 0x00 else "another")
    if data[0] != 0x00:
        return
    if data[1] in (0xD0, 0xD8):
        yield "reply %02X, %s" % (data[1], state)
    if data[1] == 0xD0:
        low, high = LIMITS[row]["tx"]
        tx = low - low % 256 + data[2]
        if tx in (low - 1, low, high, high + 1):
            yield "%s D0 names %03X" % (row, tx)
        if tx == c.settings.rx:
            yield "%s D0 names our own ID" % row


def place_of_sorted(console, data):
    """A frame where telegrams are sorted; on an open connection, what it finds there."""
    c = console.connection
    kind, _ = c.sort(data)
    yield "bytes %s %d" % (c.phase, len(data))
    yield "kind %s %s" % (c.phase, kind)
    if c.phase == "open":
        yield from place_of_open(console, kind, data)


def place_of_a1(c, data, judged, state):
    if judged and len(data) == 8:
        yield "padded A1, %s, block size %s, behind it %s" % (
            c.phase, *("good" if 1 <= size <= 15 else "bad" for size in (data[1], data[6])))
    if data[1] in (0, 1, 15, 16):
        yield "A1 block %d, %s" % (data[1], state)


def place_of_open(console, kind, data):
    c = console.connection
    if kind == "A1":
        yield from place_of_a1(c, data, c.test_out, "test out %s, again %s" % (c.test_out, c.test_again))
    elif kind == "ack":
        s = c.sender
        ready = "ready" if data[0] & 0x20 else "not ready"
        if s.length is None or s.hold:
            yield "ack %s, message %s, hold %s" % (ready, s.length is not None, s.hold > 0)
            return
        distance, count = (data[0] - s.number - s.oldest) % 16, s.unacknowledged()
        where = "0" if distance == 0 else "in range" if distance <= count else "beyond"
        yield "ack %s, distance %s, wait %s" % (ready, where, s.wait > 0)
        if count in (14, 15) and distance == 15:
            yield "ack %s, distance 15 of %d" % (ready, count)
        if distance == 0 and ready == "not ready":
            most = c.settings.repeats
            yield "ack not ready, count %s" % ("full" if s.repeats == most else
                                               "one short" if s.repeats == most - 1 else "below")
            if not count:
                yield "ack not ready, nothing unacknowledged"
        if 0 < distance < count and s.next < s.high:
            yield "ack in a repeat"
    elif kind == "break":
        r = c.receiver
        back = r.expected != r.place[0]
        yield "break, back %s, %s to %s, message waits %s" % (
            back, shape(r.course), shape(r.place[1]), r.complete is not None)
        if back and flags_of(r.place[1]):
            yield "break into a flagged message, %s" % shape(r.course)
        elif back and flags_of(r.course):
            yield "break to before a flagged message"
        if r.complete and r.complete[1]:
            yield "break, flagged message waits"
    elif kind == "data":
        r = c.receiver
        asks, last = not data[0] & 0x20, bool(data[0] & 0x10)
        order = data[0] & 15 == r.expected
        yield "data in order %s, message waits %s, asks %s" % (order, r.complete is not None, asks)
        if r.complete and r.complete[1]:
            yield "data, flagged message waits"
        if not order or r.complete is not None:
            return
        room = len(console.buffer)
        if type(r.course) is tuple:
            declared, reached = r.course[0], r.course[1] + len(data) - 1
            if near(room, declared):
                yield "later frame, room %s" % near(room, declared)
            if flags_of(r.course):
                yield "later frame of a flagged message"
        elif r.course is None and len(data) >= 3:
            flags, declared, reached = data[1] >> 4, (data[1] & 15) << 8 | data[2], len(data) - 3
            if declared in DECLARED:
                yield "declared %d, flags %X" % (declared, flags)
            if near(room, declared):
                yield "first frame, room %s, flags %X" % (near(room, declared), flags)
            if flags:
                yield "first frame of a flagged message"
        else:
            yield "%s frame, %d bytes, last %s" % ("thrown" if r.course else "first", len(data), last)
            return
        if 1 <= declared <= model.LONGEST and room >= declared:
            yield "%s frame %s, last %s, asks %s" % (
                "first" if r.course is None else "later",
                "short" if reached < declared else "full" if reached == declared else "over", last, asks)


def shape(course):
    return "nothing" if course is None else "thrown" if course == model.THROWN else "begun"


def flags_of(course):
    return course[2] if type(course) is tuple else 0


def past_after(past, console, line, places, answer):
    """What befell flagged messages since a take last showed a message, and whether that one was flagged."""
    if console.connection.phase != "open":
        return set()
    number, *rest = answer.split(" ")
    if name_of(line) == b"take" and number == "0":
        return {"a flagged message" if rest[0] == "flags" else "an unflagged message"}
    return past | {"%s, %s" % (place.removeprefix(OLD), number) for place in places if "flagged" in place and "after" not in place}


def timers(c):
    """The running timers and what is left of each."""
    if c.phase == "open":
        left = {"T3": c.sender.gap, "wait": c.sender.wait, "hold": c.sender.hold,
                "test": c.test_wait, "interval": c.quiet}
    else:
        left = {"T_E": c.timer} if c.phase in ("setup", "parameters") else {}
    return {name: value for name, value in left.items() if value}


def picture(console):
    """All that a refusal must leave alone; the due Ack and the place of a break stand apart."""
    c = dict(console.connection.__dict__)
    sender = tuple(c.pop("sender").__dict__.items()) if "sender" in c else None
    receiver = dict(c.pop("receiver").__dict__) if "receiver" in c else {}
    asked = receiver.pop("ack", None), receiver.pop("place", None)
    return (tuple(c.items()), sender, tuple(receiver.items()), bytes(console.storage), len(console.buffer)), asked


# What a whole run must have reached: both sides of each limit, each row, each end of a timer. First, at either side, on an
# open connection and of the lines themselves.
OPEN = """
A1 block 0, test out True, again False: 2|A1 block 1, test out True, again False: 0
A1 block 15, test out True, again False: 0|A1 block 16, test out True, again False: 2
A1 block 15, test out True, again True: 0|A1 block 15, test out False, again False: 4
A1 block 16, test out False, again False: 4|send 0: 6|send 1: 0|send 1024: 0|send 1025: 6|send in a hold: 0
first frame, room one less, flags 0: 9|later frame, room equal: 0|later frame, room one less: 7
later frame, room one more: 0|take 1: 0|take 1024: 0|take room equal: 0|take room one less: 7|take room one more: 0
ack ready, distance 15 of 15: 0|ack ready, distance 15 of 15: 0 done|ack ready, distance 15 of 14: 12
ack not ready, distance 15 of 15: 0|ack not ready, distance 15 of 14: 12|ack ready, distance 0, wait True: 12
ack ready, distance in range, wait True: 0|ack ready, distance in range, wait True: 0 done
ack ready, distance beyond, wait True: 12|ack ready, distance 0, wait False: 12
ack ready, distance in range, wait False: 0|ack ready, distance in range, wait False: 0 done
ack not ready, distance 0, wait True: 0|ack not ready, distance 0, wait True: 8
ack not ready, distance in range, wait True: 0|ack not ready, distance in range, wait True: 0 done
ack not ready, distance beyond, wait True: 12|ack not ready, count full: 8|ack not ready, count one short: 0
ack not ready, count below: 0|ack not ready, nothing unacknowledged: 0|ack in a repeat: 0
ack ready, message True, hold True: 12|ack not ready, message True, hold True: 12
ack ready, message False, hold False: 12|ack not ready, message False, hold False: 12
ack ready, message False, hold True: 12|time wait one less: 0|time wait equal: 0|time wait equal: 8
time hold one less: 0|time hold equal: 0|time T3 one less: 0|time T3 equal: 0|time test one less: 0|time test equal: 0
time test equal: 8|time interval one less: 0|time interval equal: 0|time longest, open: 0|time longest, open: 8
wait ends, count 0 of 0: 8|wait ends, count full: 8|wait ends, count one short: 0|test ends, count 0 of 0: 8
test ends, count full: 8|test ends, count one short: 0|kind open None: 1|kind open disconnect: 0|kind open test: 0
close open: 0|due all kinds: 0|due Ack and data: 0|due test kept back: 0|due test in a message: 0|first frame, 2 bytes, last True: 9
first frame, 2 bytes, last False: 9|thrown frame, 2 bytes, last False: 0|thrown frame, 8 bytes, last True: 0
first frame short, last False, asks True: 0|first frame short, last True, asks True: 9
first frame full, last False, asks True: 9|first frame full, last True, asks False: 0
first frame over, last True, asks True: 9|first frame over, last False, asks False: 9
later frame short, last False, asks True: 0|later frame short, last True, asks True: 9
later frame full, last False, asks True: 9|later frame full, last True, asks True: 0
later frame over, last True, asks True: 9|later frame over, last False, asks False: 9
data in order True, message waits True, asks True: 5|data in order True, message waits True, asks False: 5
data in order False, message waits True, asks True: 12|data in order False, message waits False, asks True: 12
data in order False, message waits False, asks False: 12|break, back True, begun to begun, message waits False: 0
break, back True, begun to nothing, message waits False: 0|break, back True, thrown to nothing, message waits False: 0
break, back True, thrown to begun, message waits False: 0|break, back True, thrown to thrown, message waits False: 0
break, back False, nothing to nothing, message waits True: 0|CR before LF|CR before LF, blank|CR before LF, comment
CR twice: error|CR within: error|CR before LF, longest|CR before LF, too long: error|take, flagged message begun: 5
data, flagged message waits: 5|data, flagged message waits: 12|break into a flagged message, begun: 0
break into a flagged message, thrown: 0|break to before a flagged message: 0|break, flagged message waits: 0
take with flags after an unflagged message: 0|take with flags after a flagged message: 0
take without flags after a flagged message: 0|take with flags after break into a flagged message, begun, 0: 0
take with flags after break into a flagged message, thrown, 0: 0
take with flags after break to before a flagged message, 0: 0
take without flags after break to before a flagged message, 0: 0
take with flags after break, flagged message waits, 0: 0|take with flags after data, flagged message waits, 5: 0
take with flags after data, flagged message waits, 12: 0|take with flags after take, flagged message begun, 5: 0
take with flags after take, flagged message waits, 7: 0|take with flags after first frame of a flagged message, 0: 0
take with flags after first frame of a flagged message, 7: 0
take without flags after first frame of a flagged message, 7: 0
take with flags after first frame of a flagged message, 9: 0
take without flags after first frame of a flagged message, 9: 0
take with flags after later frame of a flagged message, 0: 0
take with flags after later frame of a flagged message, 7: 0
take without flags after later frame of a flagged message, 9: 0|ack of 8, open: 0 padded|ack of 8, open: 0 done padded
ack of 8, open: 8 padded|ack of 8, open: 12 padded|test of 8, open: 0 padded|break of 8, open: 0 padded
disconnect of 8, open: 0 padded|A1 of 8, open: 0 padded|A1 of 8, open: 2 padded|A1 of 8, open: 4 padded
data of 8, open: 0|data of 8, open: 5|data of 8, open: 7|data of 8, open: 9|data of 8, open: 12
padded A1, open, block size good, behind it good: 0 padded|padded A1, open, block size good, behind it bad: 0 padded
padded A1, open, block size bad, behind it good: 2 padded|padded A1, open, block size bad, behind it bad: 2 padded
"""

# Then, of the side that opens, the settings and the opening.
REACHED = """
open rx 0: 0|open rx 2047: 0|open rx 2048: 10|open unit 0: 0|open unit 239: 0|open unit 240: 10|open block 0: 10
open block 1: 0|open block 15: 0|open block 16: 10|open t1 0: 10|open t1 64: 10|open t1 65: 0|open t1 128: 10
open t1 192: 10|open t1 193: 0|open t1 255: 0|open t3 0: 0|open t3 255: 0|open te 0: 10|open te 1: 0|open te 10000: 0
open te 10001: 10|open mntc 0: 0|open mntc 255: 0|open repeats 0: 0|open repeats 255: 0|open twait 0: 10|open twait 1: 0
open twait 65535: 0|open interval 0: 0|open interval 65535: 0|open tests 0: 0|open tests 255: 0
A1 block 0, asked True, due False: 2|A1 block 1, asked True, due False: 0|A1 block 15, asked True, due False: 0
A1 block 16, asked True, due False: 2|A1 block 15, asked False, due True: 4|A1 block 16, asked False, due True: 4
A1 block 15, asked True, due True: 0|time T_E one less: 0|time T_E equal: 0|time T_E equal: 8|time T_E one more: 0
time longest, setup: 0|time longest, parameters: 0|T_E ends, count 0 of 0: 8|T_E ends, count full: 8
T_E ends, count one short: 0|reply D0, asked True, due False: 0|reply D0, asked True, due True: 0
reply D0, asked False, due True: 4|reply D0, asked True, due False: 1|reply D0, asked False, due True: 1
reply D6, asked True, due False: 11|reply D7, asked True, due False: 11|reply D8, asked True, due False: 11
reply D6, asked False, due True: 4|reply D6, asked True, due False: 1|kind parameters data: 4|kind parameters ack: 4
kind parameters A0: 4|kind parameters test: 4|kind parameters break: 4|kind parameters disconnect: 0
kind parameters None: 1|kind open A0: 4|close closed: 4|close setup: 0|close parameters: 0|frame closed: 4
A8 due, time: 0|A8 due, frame: 4|A8 due, close: 4|A8 due, send: 4|A8 due, take: 4|A8 due, open: 10|A8 due, open: 0
A8 due, due: 0|carried to the car|carried to the box|open rx too wide: 10|open unit too wide: 10|open block too wide: 10
open t1 too wide: 10|open t3 too wide: 10|open te too wide: 10|open mntc too wide: 10|open repeats too wide: 10
open twait too wide: 10|open interval too wide: 10|open tests too wide: 10|open 64 bits and more: 10
open 64 bits and more, setup: 4|open 64 bits and more, parameters: 4|open 64 bits and more, open: 4
ack of 8, parameters: 4 padded|test of 8, parameters: 4 padded|break of 8, parameters: 4 padded
disconnect of 8, parameters: 0 padded|A1 of 8, parameters: 0 padded|A1 of 8, parameters: 2 padded
A1 of 8, parameters: 4 padded|reply D0 of 8: 1|reply D6 of 8: 1|reply D7 of 8: 1|reply D8 of 8: 1
data of 8, parameters: 4|padded A1, parameters, block size good, behind it good: 0 padded
padded A1, parameters, block size good, behind it bad: 0 padded
padded A1, parameters, block size bad, behind it good: 2 padded
padded A1, parameters, block size bad, behind it bad: 2 padded
"""


ANSWERS = ("0", "0 done", "0 frame", "0 message", "0 flags", *map(str, range(1, 11)), "11 D6", "11 D7", "11 D8", "12",
           "0 padded", "0 done padded", "2 padded", "4 padded", "8 padded", "12 padded", "buffer", "error")

# The lengths of control telegrams; all but A0 may have 8 bytes too.
OWN = {"ack": 1, "test": 1, "break": 1, "disconnect": 1, "A0": 6, "A1": 6}


def summary(tally, answers=ANSWERS):
    return "%d calls in %d scenarios, all alike; answers: %s" % (
        tally["calls"], tally["scenarios"], ", ".join("%s x%d" % (name, tally[name]) for name in answers))


def listed(text):
    return [place for line in text.strip().split("\n") for place in line.split("|")]


def with_padding(places):
    """Padding alters nothing: what an Ack, a break or an A1 meets, a padded one has met too."""
    return places + [place + " padded" for place in places
                     if place.startswith(("ack ", "break", "A1 ")) and "padded" not in place]


def at_lengths(phases):
    """Where telegrams are sorted: every length badly formed, and every kind at every length that is not its own."""
    return ["bytes %s %d: 1" % (phase, length) for phase in phases for length in range(13)] + [
        "%s of %d, %s: 1" % (kind, length, phase) for kind, own in OWN.items() for length in range(1, 10)
        if length not in (own, 8) or (kind, length) == ("A0", 8) for phase in phases]


def open_places():
    """All that a run at either side must have reached on an open connection."""
    return with_padding(listed(OPEN)) + flagged()


def flagged():
    return [place % nibble for nibble in range(16) for place in (
        "take, flags %X: 0", "take, flags %X: 7", "first frame, room one less, flags %X: 7",
        "first frame, room equal, flags %X: 0", "first frame, room one more, flags %X: 0",
        *("declared %d, flags %%X: %d" % pair for pair in DECLARED.items()))]


# By TP 1.6 all that both protocols have is asked for once more, but for what starts so: a test or a break is in it, or a form of the
# opening. What stands in its place follows.
GONE = ("break", "test ", "time test", "time interval", "due all kinds", "due test", "kind open test", "kind parameters test",
        "kind parameters break", "A1 block", "A1 of 8, open", "padded A1, open", "open ", "reply ", "A8 due", "close closed",
        "frame closed", "CR ")
INSTEAD = """
A1 block 0, test out False, again False: 4|A1 block 1, test out False, again False: 4
A1 block 15, test out False, again False: 4|A1 block 16, test out False, again False: 4
A1 block 0, asked True, due False: 2|A1 block 1, asked True, due False: 0|A1 block 15, asked True, due False: 0
A1 block 16, asked True, due False: 2|A1 block 15, asked False, due True: 4|A1 block 16, asked False, due True: 4
A1 block 15, asked True, due True: 0|A1 of 8, open: 4 padded|test of 1, parameters: 1|test of 8, parameters: 1
test of 1, open: 1|test of 8, open: 1|break of 1, parameters: 1|break of 8, parameters: 1|break of 1, open: 1
break of 8, open: 1|time of the unused interval: 0|reply D0, asked True, due False: 0|reply D0, asked True, due True: 0
reply D0, asked False, due True: 4|reply D0, asked True, due False: 1|reply D0, asked False, due True: 1
reply D8, asked True, due False: 11|reply D8, asked True, due True: 11|reply D8, asked False, due True: 4
reply D0 of TP 2.0: 1|reply D8 of TP 2.0: 1|reply D0 of 3: 0|reply D8 of 3: 11|reply D0 of 4: 1|reply D8 of 4: 1
reply D0 of 8: 1|reply D8 of 8: 1|open 64 bits and more, setup: 4|open 64 bits and more, parameters: 4
open 64 bits and more, open: 4|open16 64 bits and more, setup: 4|open16 64 bits and more, parameters: 4
open16 64 bits and more, open: 4|T_E ends, 20 of 20: 8
"""


def old_places():
    """All that a run must have reached by TP 1.6."""
    both = [place for place in listed(OPEN) + listed(REACHED) if not place.startswith(GONE) and " after break" not in place]
    instead = listed(INSTEAD)
    padded = [place for place in with_padding(instead) if place not in instead and place.startswith("A1 ")]
    lengths = ["bytes setup %d: 1" % length for length in range(13)] + at_lengths(("parameters", "open"))
    found = [OLD + place for place in (*with_padding(both), *instead, *padded, *lengths, *flagged(),
                                       *unsorted("another ID: 3", "setup: 1"))]
    for row in LIMITS:
        found += settings_of(row) + replies_of(row)
    # No T1 is longer than the longest T3, so that code leaves no T_WAIT.
    found += ["t3 code %02X: %d" % (code, 0 if model.tenths(code) >= 100 else 10) for code in range(255)]
    return found + ["open16 64 bits and more: 10", "A8 due, open16: 0", "A8 due, open16: 10"]


def settings_of(row):
    """Each setting at both sides of each limit, and the lowest unit and receive ID of the other rows."""
    limits = LIMITS[row]
    found = ["open16 %s, closed: 0" % row]
    for phase in ("setup", "parameters", "open"):
        found += ["%sopen16 %s, %s: 4" % (old, row, phase) for old in ("", OLD)]
    for field, usual, most in zip(Settings._fields, model.RANGES, WIDEST):
        low, high = limits.get(field, usual)
        found.append("%s %s too wide: 10" % (row, field))
        if field not in ("t3", "twait"):
            found += ["%s %s %d: %d" % (row, field, value, 0 if low <= value <= high else 10)
                      for value in (low - 1, low, high, high + 1) if 0 <= value <= most and (field, value) != ("t1", 0)]
    found += ["%s %s of %s: %d" % (row, what, other, 0 if limits[what][0] <= theirs[what][0] <= limits[what][1] else 10)
              for other, theirs in LIMITS.items() for what in ("unit", "rx") if limits[what] != theirs[what]]
    if limits["tx"] != limits["rx"]:
        found.append("%s rx %d: 10" % (row, limits["tx"][0]))
    if limits["rx"][0] & 0xFF:
        found.append("%s rx %d: 10" % (row, limits["rx"][0] & 0xFF))
    found += ["%s T_WAIT %s: %d" % (row, *pair) for pair in (
        ("T3, one less", 10), ("T3, equal", 10), ("T3, one more", 0), ("T1, one less", 0), ("T1, equal", 10), ("T1, one more", 10))]
    return found + ["%s T3 90: 10" % row, "%s T3 100: 0" % row]


def replies_of(row):
    """Each opcode, byte 0, the transmit IDs at the limits and our own, and the setups of the other rows."""
    low, high = LIMITS[row]["tx"]
    own = LIMITS[row]["from"][0] - LIMITS[row]["unit"][0]
    found = ["%s reply %s, byte 0 %s: %d" % (row, *one) for one in (
        ("D0", "00", 0), ("D0", "00", 1), ("D0", "another", 1), ("D6", "00", 1), ("D7", "00", 1), ("D8", "00", 11), ("D8", "another", 1))]
    found += ["%s D0 names %03X: %d" % (row, tx, 0 if low <= tx <= high else 1)
              for tx in (low - 1, low, high, high + 1) if tx // 256 == low // 256]
    found += ["%s reply on %03X and unit: 3" % (row, other) for other in SETUPS if other != own]
    found.append("%s D0 names our own ID: %d" % (row, 0 if row == "drive" else 1))
    return [OLD + place for place in found]


def unsorted(*answered):
    """Every kind at 8 bytes where nothing is sorted."""
    return ["%s of 8, %s" % (kind, place) for kind in OWN for place in answered]


def missing(tally):
    lengths = ["bytes setup %d: 1" % length for length in range(13)] + at_lengths(("parameters", "open"))
    wanted = [*ANSWERS, *lengths, *unsorted("closed: 4", "another ID: 3", "setup: 1"), *open_places(), *with_padding(listed(REACHED)),
              *old_places()]
    return [name for name in wanted if not tally[name]]
