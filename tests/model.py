#!/usr/bin/env python3
"""One end of a connection as a plain executable model: the side that opens it, by TP 2.0 or by a row of TP 1.6, and the control
unit's side, by TP 2.0; over each the line protocol of its console; and the ends that talk to them in the scenarios. Run as a
program, it answers standard input line by line as the console does, with --unit as the unit's console does.

A call answers a pair: the number, and what it carries (None, "done", an opcode, a frame, a message with its flags).
The answer to an arriving frame has a third part: whether it carries the mark of a padded telegram.
A timer at 0 does not run: every time that can be waited for is above 0, but for the peer's T3.
"""

import sys
from typing import NamedTuple

LONGEST = 1024          # bytes in a message
SETUP_ID = 0x200        # the opening request comes from here, its reply from here + unit
REFUSALS = 0xD6, 0xD7, 0xD8


def tenths(code):
    """Time codes: bits 7-6 the unit, bits 5-0 the multiplier."""
    return (1, 10, 100, 1000)[code >> 6] * (code & 0x3F)


class Settings(NamedTuple):
    rx: int = 0x300
    unit: int = 0x01
    block: int = 8
    t1: int = 0x8A
    t3: int = 0x32
    te: int = 1000
    mntc: int = 10
    repeats: int = 5
    twait: int = 1000
    interval: int = 10000
    tests: int = 5

    def good(self):
        return (all(low <= value <= high for value, (low, high) in zip(self, RANGES))
                and self.t1 & 0x3F != 0)


# In the order of the settings.
RANGES = ((0, 0x7FF), (0x00, 0xEF), (1, 15), (0, 255), (0, 255), (1, 10000),
          (0, 255), (0, 255), (1, 65535), (0, 65535), (0, 255))


# What differs between the two protocols. A record has one of these classes as its profile.

class TP20:
    REFUSALS = REFUSALS
    UNKNOWN = ()            # first bytes that are no telegram, though the other protocol has them

    @staticmethod
    def good(s):
        return s.good()

    @staticmethod
    def interval(s):
        """Without a frame for so long, a test goes out; 0 means none."""
        return s.interval

    @staticmethod
    def replies_from(unit):
        return SETUP_ID + unit

    @staticmethod
    def request(s):
        """The C0."""
        return SETUP_ID, bytes([s.unit, 0xC0, 0x00, 0x10, s.rx & 0xFF, s.rx >> 8, 0x01])

    @staticmethod
    def well_formed(data):
        return len(data) == 7 and data[0] == 0x00

    @staticmethod
    def named_by(data, s):
        """Our transmit ID, by a D0; None if it is badly formed."""
        good = data[2:4] == s.rx.to_bytes(2, "little") and data[5] <= 0x07 and data[6] == 0x01
        return int.from_bytes(data[4:6], "little") if good else None


class TP16:
    """Channel setup and its answer have three bytes (001, 5.1). The last is the ID without its offset: ours in the C0, the unit's in the
    D0. Of refusals there is D8 alone, and neither test nor break is in table 9."""

    REFUSALS = 0xD8,
    UNKNOWN = 0xA3, 0xA4

    @classmethod
    def default(cls):
        """By 02; the IDs are the lowest of the row."""
        return Settings(rx=cls.OFFSET + cls.OURS[0], unit=cls.UNITS[0], t3=0x4A, mntc=20, twait=500)

    @classmethod
    def good(cls, s):
        """After 01's ranges those of the row. A tester's T3 is never below 10 ms (001, 5.2.2.3), and where the unit is not ready we
        wait longer than T3 and less than T1 (5.2.2.2)."""
        return (s.good() and inside(s.unit, cls.UNITS) and inside(s.rx - cls.OFFSET, cls.OURS)
                and 100 <= tenths(s.t3) < s.twait < tenths(s.t1))

    @staticmethod
    def interval(s):
        return 0

    @classmethod
    def replies_from(cls, unit):
        return cls.SETUP + unit

    @classmethod
    def request(cls, s):
        return cls.SOURCE, bytes([s.unit, 0xC0, s.rx - cls.OFFSET])

    @staticmethod
    def well_formed(data):
        """The tester's own target address is 00 (table 1)."""
        return len(data) == 3 and data[0] == 0x00

    @classmethod
    def named_by(cls, data, s):
        return cls.OFFSET + data[2] if inside(data[2], cls.THEIRS) else None


def inside(value, limits):
    return limits[0] <= value <= limits[1]


# The columns of 001's tables. Tables 1 to 3 have one line for infotainment, which is good for both priorities. Tables 4 and 5
# disagree on infotainment's channels; 5 has the ranges of both sides, so it holds.
COLUMNS = {
    "NAME": ("drive", "comfort", "high", "low"),
    "SOURCE": (0x200, 0x2D0, 0x2D0, 0x2D0),                                     # table 1: default tester source
    "SETUP": (0x200, 0x2E0, 0x4A0, 0x4A0),                                      # table 2: ECU setup offset
    "UNITS": ((0x00, 0x1F), (0x00, 0x1F), (0x30, 0x3F), (0x30, 0x3F)),          # table 3: destination range
    "OFFSET": (0x700, 0x300, 0x400, 0x600),                                     # table 5: ChId offset
    "OURS": ((0x40, 0xBF), (0x00, 0x1F), (0xE0, 0xEF), (0x90, 0x9F)),           # table 5: ChId range channel setup
    "THEIRS": ((0x40, 0xBF), (0x20, 0x3F), (0xF0, 0xFF), (0xB0, 0xBF)),         # table 5: ChId range channel acknowledge
}
ROWS = {row[0]: type("TP 1.6, " + row[0], (TP16,), dict(zip(COLUMNS, row))) for row in zip(*COLUMNS.values())}


# Request 4: the kinds that some units fill up to 8 bytes. Data has its own length there, and A0 is not named.
FILLABLE = ("ack", "test", "break", "disconnect", "A1")


def named(first):
    """The kind that a first byte names, whatever the length."""
    if first & 0xC0 == 0x00:
        return "data"
    if first & 0xD0 == 0x90:
        return "ack"
    return {0xA0: "A0", 0xA1: "A1", 0xA3: "test", 0xA4: "break", 0xA8: "disconnect"}.get(first)


def sort(data):
    """Each telegram is sorted before any rule looks at it: its kind, None if it is badly formed, and whether it is
    padded."""
    kind, length = named(data[0]) if data else None, len(data)
    if kind in FILLABLE and length == 8:
        return kind, True
    if kind == "data":
        good = 2 <= length <= 8
    else:
        good = length == (6 if kind in ("A0", "A1") else 1)
    return kind if good else None, False


class Message(NamedTuple):
    """A message as it is handed out."""
    data: bytes
    flags: int = 0


def length_bytes(length, flags=0):
    """What stands before a message, high byte first: four bits of flags, then its length in twelve."""
    return (flags << 12 | length).to_bytes(2, "big")


def frames_of(length):
    """Two length bytes and the message, cut in sevens."""
    return (2 + length + 6) // 7


def cut(message, place, block, number, flags=0):
    """The frame at this place (from 0) of the message; its number is given. Only a unit sets flags."""
    last = place == frames_of(len(message)) - 1
    asks = last or (place + 1) % block == 0
    stream = length_bytes(len(message), flags) + message
    first = (0x00 if asks else 0x20) | (0x10 if last else 0x00) | number
    return bytes([first]) + stream[7 * place:7 * place + 7], asks


class Sender:
    """The sending half of an open connection."""

    def __init__(self, block, gap):
        self.block = block
        self.peer_gap = gap     # the peer's T3
        self.length = None      # of the message in sending
        self.number = 0         # of the message's first frame
        self.oldest = 0         # place of the oldest unacknowledged frame
        self.next = 0           # place of the frame to send next
        self.high = 0           # frames of the message ever handed over
        self.repeats = 0
        self.gap = self.wait = self.hold = 0

    def unacknowledged(self):
        return self.high - self.oldest

    def send(self, length):
        if self.length is not None:
            return 5
        if not 1 <= length <= LONGEST:
            return 6
        self.length = length
        self.oldest = self.next = self.high = 0
        return 0

    def due(self):
        return self.length is not None and not (self.gap or self.wait or self.hold)

    def hand_over(self, message, t1):
        """The next frame; the caller has seen that one is due and that the message has the right length."""
        frame, asks = cut(message, self.next, self.block, (self.number + self.next) % 16)
        self.next += 1
        self.high = max(self.high, self.next)
        self.gap = self.peer_gap
        if asks:
            self.wait = t1
        return frame

    def ack(self, ready, number, settings):
        """The number, and whether the message is done."""
        if self.length is None or self.hold:
            return 12, None
        distance = (number - self.number - self.oldest) % 16
        if distance > self.unacknowledged() or (distance == 0 and ready):
            return 12, None
        if distance > 0:
            self.repeats = 0
        elif self.repeats == settings.repeats:
            return 8, None
        else:
            self.repeats += 1
        self.oldest += distance
        self.next = self.oldest
        self.wait = 0
        if not ready:
            self.hold = settings.twait
        if self.oldest < frames_of(self.length):
            return 0, None
        self.number = (self.number + self.oldest) % 16
        self.length = None
        self.oldest = self.next = self.high = 0
        return 0, "done"

    def elapse(self, time, settings):
        """True if the repeats are used up."""
        ends = 0 < self.wait <= time
        self.gap = max(0, self.gap - time)
        self.hold = max(0, self.hold - time)
        self.wait = max(0, self.wait - time)
        if ends and self.repeats == settings.repeats:
            return True
        if ends:
            self.repeats += 1
            self.next = self.oldest
        return False


THROWN = "thrown away"      # up to and including the next EOM


class Receiver:
    """The receiving half of an open connection."""

    def __init__(self):
        self.expected = 0
        self.course = None      # the message begun: None, THROWN, or declared length, bytes so far and flags
        self.complete = None    # length and flags of the message that waits untaken
        self.place = (0, None)  # what a break returns to: expected and course
        self.ack = None         # the due Ack

    def data(self, data, buffer):
        asks, last, number = not data[0] & 0x20, bool(data[0] & 0x10), data[0] & 0x0F
        waited = self.complete is not None
        ended = False
        if number != self.expected:
            answer = 12
        elif waited:
            answer = 5
        else:
            if type(self.course) is tuple and len(buffer) < self.course[0]:
                return 7
            answer = self.in_order(data[1:], last, buffer)
            self.expected = (self.expected + 1) % 16
            ended = last
        if asks:
            self.ack = (0x90 if waited else 0xB0) | self.expected
        if asks or ended:
            self.place = (self.expected, self.course)
        return answer

    def in_order(self, payload, last, buffer):
        """Uses the frame or throws it away; a later frame has been found to have buffer enough."""
        if self.course == THROWN:
            self.course = None if last else THROWN
            return 0
        answer = 0
        if self.course is None:
            flags, declared = divmod(int.from_bytes(payload[:2], "big"), 4096)
            fill, body = 0, payload[2:]
            if len(payload) < 2 or not 1 <= declared <= LONGEST:
                answer = 9
        else:
            declared, fill, flags = self.course
            body = payload
        reached = fill + len(body)
        if reached > declared or last != (reached == declared):
            answer = 9
        if answer == 0 and len(buffer) < declared:
            answer = 7
        if answer:
            self.course = None if last else THROWN
            return answer
        buffer[fill:reached] = body
        self.course = None if last else (declared, reached, flags)
        self.complete = (declared, flags) if last else None
        return 0

    def go_back(self):
        """A break: what was used since the place is to come again."""
        self.expected, self.course = self.place

    def take(self, buffer):
        if self.complete is None:
            return 5, None
        length, flags = self.complete
        if len(buffer) < length:
            return 7, None
        self.complete = None
        return 0, Message(bytes(buffer[:length]), flags)


class End:
    """What both sides have: the closed record, what is due outside an open connection, and the open connection. Which
    phases lie between is a side's own."""

    KEPT = ()               # what every phase keeps, closed too
    profile = TP20

    def enter(self, phase, **fields):
        """Another phase, with nothing from before but what is named."""
        kept = {name: self.__dict__[name] for name in self.KEPT}
        self.__dict__.clear()
        self.__dict__.update(kept, phase=phase, **fields)

    def shut(self, left=None):
        """Closed; of what is due, this frame alone is left."""
        self.enter("closed", left=left)

    def part(self):
        """Closed with an A8 due, by a close or by the peer's A8."""
        self.shut((self.tx, bytes([0xA8])))

    def begin_open(self, block, t3):
        """Open, as the A1 leaves it: numbers at 0, the smaller block size, the peer's T3, and nothing from before."""
        s = self.settings
        self.enter("open", settings=s, tx=self.tx,
                   sender=Sender(min(s.block, block), tenths(t3)),
                   receiver=Receiver(),
                   answering=False,         # our A1 is due
                   test_out=False,
                   test_again=False,        # a repeated test is due
                   test_wait=0,
                   unanswered=0,
                   quiet=self.profile.interval(s))      # what is left of the test interval

    def parameters(self, opcode):
        """An A0 or A1 of our settings."""
        s = self.settings
        return bytes([opcode, s.block, s.t1, 0xFF, s.t3, 0xFF])

    def sort(self, data):
        return (None, False) if data and data[0] in self.profile.UNKNOWN else sort(data)

    def arrive_own(self, data, buffer):
        """A frame on the own receive ID. Every answer but 1 carries the mark on; padding alters nothing else, since no
        rule looks behind a kind's own bytes."""
        kind, padded = self.sort(data)
        if kind is None:
            return 1, None, False
        if kind == "disconnect":
            self.part()
            return 0, None, padded
        return (*self.arrive_sorted(kind, data, buffer), padded)

    def arrive_open(self, kind, data, buffer):
        """What both sides do with a telegram on an open connection: all kinds but A8 and A0."""
        answer = self.arrive_kind(kind, data, buffer)
        if answer[0] == 8:
            self.shut()
        elif answer[0] == 0:
            self.quiet = self.profile.interval(self.settings)
        return answer

    def arrive_kind(self, kind, data, buffer):
        if kind == "A1":
            if not self.test_out:
                return 4, None
            if bad_block(data[1]):
                return 2, None
            self.test_out = self.test_again = False
            self.test_wait = self.unanswered = 0
            return 0, None
        if kind == "test":
            self.answering = True
            return 0, None
        if kind == "break":
            self.receiver.go_back()
            return 0, None
        if kind == "ack":
            return self.sender.ack(bool(data[0] & 0x20), data[0] & 0x0F, self.settings)
        return self.receiver.data(data, buffer), None

    def elapse_open(self, time):
        lost = self.sender.elapse(time, self.settings)
        ends = 0 < self.test_wait <= time
        self.test_wait = max(0, self.test_wait - time)
        self.quiet = max(0, self.quiet - time)
        if ends:
            lost = lost or self.unanswered == self.settings.tests
            self.unanswered += 1
            self.test_again = True
        if lost:
            self.shut()
            return 8, None
        return 0, None

    def test_due(self):
        if self.sender.unacknowledged():
            return False
        if self.test_out:
            return self.test_again
        return self.profile.interval(self.settings) != 0 and self.quiet == 0

    def due_open(self, message):
        t1 = tenths(self.settings.t1)
        if self.answering:
            self.answering = False
            data = self.parameters(0xA1)
        elif self.test_due():
            self.test_out, self.test_again, self.test_wait = True, False, t1
            data = bytes([0xA3])
        elif self.receiver.ack is not None:
            data = bytes([self.receiver.ack])
            self.receiver.ack = None
        elif self.sender.due():
            if len(message) != self.sender.length:
                return 7, None
            data = self.sender.hand_over(message, t1)
        else:
            return 0, None
        self.quiet = self.profile.interval(self.settings)
        return 0, (self.tx, data)

    def in_sending(self):
        """An accepted message is not done."""
        return self.phase == "open" and self.sender.length is not None

    def send(self, message):
        if self.phase != "open":
            return 4, None
        return self.sender.send(len(message)), None

    def take(self, buffer):
        if self.phase != "open":
            return 4, None
        return self.receiver.take(buffer)


def bad_block(size):
    """Row 2."""
    return not 1 <= size <= 15


class Connection(End):
    """The record of the side that opens. Its phase is closed, setup (the D0 is awaited), parameters (the A1 is awaited)
    or open. An opening brings its profile, which the record has until it is closed."""

    KEPT = "profile",

    def __init__(self):
        self.shut()

    def shut(self, left=None):
        self.profile = TP20
        super().shut(left)

    # The calls

    def open(self, settings, profile=TP20):
        if self.phase != "closed":
            return 4, None
        if not profile.good(settings):
            return 10, None
        self.profile = profile
        self.begin("setup", settings=settings)
        return 0, None

    def begin(self, phase, **fields):
        """A phase of the opening, with its request due."""
        self.enter(phase, **fields,
                   asking=True,         # the request is due
                   asked=False,         # it was handed over at least once
                   repeats=0,
                   timer=0)

    def listens_on(self):
        return self.profile.replies_from(self.settings.unit) if self.phase == "setup" else self.settings.rx

    def arrive(self, ident, data, buffer):
        """Until the D0 nothing is sorted, so nothing is marked."""
        if self.phase == "closed":
            return 4, None, False
        if ident != self.listens_on():
            return 3, None, False
        if self.phase == "setup":
            return (*self.arrive_setup(data), False)
        return self.arrive_own(data, buffer)

    def arrive_setup(self, data):
        if not self.profile.well_formed(data):
            return 1, None
        tx = self.profile.named_by(data, self.settings) if data[1] == 0xD0 else None
        if tx is None and data[1] not in self.profile.REFUSALS:
            return 1, None
        if not self.asked:
            return 4, None
        if tx is None:
            self.shut()
            return 11, data[1]
        self.begin("parameters", settings=self.settings, tx=tx)
        return 0, None

    def arrive_sorted(self, kind, data, buffer):
        if self.phase == "parameters":
            return self.arrive_parameters(kind, data)
        if kind == "A0":
            return 4, None
        return self.arrive_open(kind, data, buffer)

    def arrive_parameters(self, kind, data):
        if kind != "A1" or not self.asked:
            return 4, None
        if bad_block(data[1]):
            return 2, None
        self.begin_open(data[1], data[4])
        return 0, None

    def elapse(self, time):
        if self.phase == "closed":
            return 0, None
        if self.phase == "open":
            return self.elapse_open(time)
        ends = 0 < self.timer <= time
        self.timer = max(0, self.timer - time)
        if ends and self.repeats == self.settings.mntc:
            self.shut()
            return 8, None
        if ends:
            self.repeats += 1
            self.asking = True
        return 0, None

    def due(self, message):
        """At most one frame: its ID and bytes."""
        if self.phase == "closed":
            frame = self.left
            self.shut()
            return 0, frame
        if self.phase == "open":
            return self.due_open(message)
        if not self.asking:
            return 0, None
        self.asking, self.asked, self.timer = False, True, self.settings.te
        return 0, self.profile.request(self.settings) if self.phase == "setup" else (self.tx, self.parameters(0xA0))

    def close(self):
        if self.phase == "closed":
            return 4, None
        if self.phase == "setup":
            self.shut()
        else:
            self.part()
        return 0, None


class Unit(End):
    """The record of the control unit's side. Its phase is closed, D0 due, D0 out, A1 due or open; before it is open,
    `left` is the one frame that is due, and nothing is timed."""

    KEPT = "settings", "reply"
    DEFAULT = Settings(rx=0x740), 0xD0

    def __init__(self):
        self.settings, self.reply = self.DEFAULT
        self.shut()

    # The calls

    def set(self, settings, reply):
        if self.phase != "closed":
            return 4, None
        if not settings.good() or settings.rx == SETUP_ID or reply not in (0xD0, *REFUSALS):
            return 10, None
        self.settings, self.reply = settings, reply
        self.shut()
        return 0, None

    def listens_on(self):
        """Beside 0x200."""
        return self.settings.rx

    def arrive(self, ident, data, buffer):
        """0x200 comes first, in every state, and is never marked."""
        if ident == SETUP_ID:
            return (*self.arrive_setup(data), False)
        if self.phase == "closed":
            return 4, None, False
        if ident != self.listens_on():
            return 3, None, False
        return self.arrive_own(data, buffer)

    def arrive_setup(self, data):
        """A C0 ends what was there; its reply goes to the newest asker."""
        if len(data) != 7 or data[1:4] != b"\xC0\x00\x10" or data[5] > 0x07 or data[6] != 0x01:
            return 1, None
        unit, own = self.settings.unit, self.settings.rx
        if data[0] != unit:
            return 3, None
        answer = 8 if self.in_sending() else 0
        reply = SETUP_ID + unit, bytes([0x00, self.reply, *data[4:6], own & 0xFF, own >> 8, 0x01])
        if self.reply in REFUSALS:
            self.shut(reply)
        else:
            self.enter("D0 due", tx=int.from_bytes(data[4:6], "little"), left=reply)
        return answer, None

    def arrive_sorted(self, kind, data, buffer):
        if kind == "A0" and self.phase != "D0 due":
            return self.arrive_a0(data)
        if self.phase != "open":
            return 4, None
        return self.arrive_open(kind, data, buffer)

    def arrive_a0(self, data):
        """Whatever there was ends; the fields of the newest A0 hold from the A1's hand-over."""
        if bad_block(data[1]):
            return 2, None
        answer = 8 if self.in_sending() else 0
        self.enter("A1 due", tx=self.tx, left=(self.tx, self.parameters(0xA1)), block=data[1], t3=data[4])
        return answer, None

    def elapse(self, time):
        return self.elapse_open(time) if self.phase == "open" else (0, None)

    def due(self, message):
        """At most one frame: its ID and bytes."""
        if self.phase == "open":
            return self.due_open(message)
        frame = self.left
        if self.phase == "closed":
            self.shut()
        elif self.phase == "A1 due":
            self.begin_open(self.block, self.t3)
        else:
            self.enter("D0 out", tx=self.tx, left=None)
        return 0, frame

    def close(self):
        if self.phase == "closed":
            return 4, None
        self.part()
        return 0, None


# The consoles

LINE = 16000            # characters in a line, without its end
BUFFER = 4096
TIME = 18446744073709551615
DIGITS = frozenset(b"0123456789")
HEX = frozenset(b"0123456789abcdefABCDEF")


if hasattr(sys, "set_int_max_str_digits"):
    sys.set_int_max_str_digits(0)       # a line is full of digits at most


class Malformed(Exception):
    pass


def decimal(word):
    """A number of any length."""
    if not word or not DIGITS.issuperset(word):
        raise Malformed
    return int(word)


def at_most(most, number):
    if number > most:
        raise Malformed
    return number


def identifier(word):
    if len(word) > 4 or not HEX.issuperset(word):
        raise Malformed
    return int(word, 16)


def octets(words):
    if not words:
        raise Malformed
    if words == [b"-"]:
        return b""
    if any(len(word) % 2 or not HEX.issuperset(word) for word in words):
        raise Malformed
    return bytes.fromhex(b"".join(words).decode())


def no_more(words):
    if words:
        raise Malformed


def one(words):
    if len(words) != 1:
        raise Malformed
    return words[0]


def pairs(data):
    return data.hex(" ").upper()


def without_return(line):
    return line[:-1] if line.endswith(b"\r") else line


class Console:
    """The lines over the side that opens."""

    END = Connection
    ROWS = ROWS

    def __init__(self, lines=0):
        self.lines = lines      # read so far
        self.new()

    def new(self):
        self.connection = self.END()
        self.storage = bytearray(BUFFER)
        self.accepted = b""
        self.lend(1024)

    def lend(self, room):
        self.buffer = memoryview(self.storage)[:room]

    def answer(self, line, ended=True):
        """The answer to one line (bytes, without its LF), or None if it has none. A CR before the LF is of the line's
        end; where the input ends without an LF, a CR is a character."""
        self.lines += 1
        if ended:
            line = without_return(line)
        try:
            if len(line) > LINE:
                raise Malformed
            if line.startswith(b"#"):
                return None
            words = [word for word in line.split(b" ") if word]
            if not words:
                return None
            return self.call(words[0], words[1:])
        except Malformed:
            return "error line %d" % self.lines

    def call(self, name, words):
        connection = self.connection
        if name == b"frame":
            if not words:
                raise Malformed
            result = connection.arrive(identifier(words[0]), octets(words[1:]), self.buffer)
        elif name == b"due":
            result = connection.due(octets(words) if words else self.accepted)
        elif name == b"time":
            result = connection.elapse(at_most(TIME, decimal(one(words))))
        elif name == b"send":
            message = octets(words)
            result = connection.send(message)
            if result[0] == 0:
                self.accepted = message
        elif name == b"take":
            no_more(words)
            result = connection.take(self.buffer)
        elif name == b"close":
            no_more(words)
            result = connection.close()
        elif name == b"room":
            self.lend(at_most(BUFFER, decimal(one(words))))
            result = 0, None
        elif name == b"buffer":
            no_more(words)
            return pairs(self.buffer)
        elif name == b"new":
            no_more(words)
            self.new()
            result = 0, None
        else:
            result = self.own_call(name, words)
        return spoken(*result)

    def own_call(self, name, words):
        """The calls that only this side has."""
        if name == b"open16":
            return self.open16(*words)
        if name != b"open" or len(words) not in (0, len(RANGES)):
            raise Malformed
        return self.connection.open(Settings(*map(decimal, words)))

    def open16(self, name=b"", *words):
        row = self.ROWS.get(name.decode("latin-1"))
        if row is None or len(words) not in (0, len(RANGES)):
            raise Malformed
        return self.connection.open(Settings(*map(decimal, words)) if words else row.default(), row)


class UnitConsole(Console):
    """The lines over the control unit's side."""

    END = Unit

    def own_call(self, name, words):
        if name != b"set" or len(words) not in (0, len(RANGES) + 1):
            raise Malformed
        if not words:
            return self.connection.set(*Unit.DEFAULT)
        *settings, reply = map(decimal, words)
        return self.connection.set(Settings(*settings), reply)


def spoken(number, value, padded=False):
    if padded:
        return spoken(number, value) + " padded"
    if value is None:
        return "%d" % number
    if value == "done":
        return "%d done" % number
    if number == 11:
        return "11 %02X" % value
    if type(value) is tuple:
        return "%d %03X %s" % (number, value[0], pairs(value[1]))
    flags = " flags %X" % value.flags if value.flags else ""
    return "%d%s %s" % (number, flags, pairs(value.data))


# The other ends

class Other:
    """The other end, for realistic traffic. `habits` gives each habit its chance (0 if not named)."""

    row = None                  # of TP 1.6; None is TP 2.0

    def __init__(self, rng, habits):
        self.rng, self.habits = rng, habits
        self.sent = []          # its messages that were acknowledged whole
        self.heard = []         # the messages that it received

    def chance(self, habit):
        return self.rng.random() < self.habits.get(habit, 0)

    def control(self, *data):
        """A control telegram as it goes out, padded with any content or not."""
        return bytes(data) + self.rng.randbytes(8 - len(data) if self.chance("pad") else 0)


class Car(Other):
    """A unit in the car that keeps the rules loosely: it answers the opening, acknowledges, sends messages of its own, is not
    ready now and then, tests, breaks off and disconnects. Its habits: refuse, refuse_data, hold, test, break, bye, speak,
    flag, pad."""

    def __init__(self, rng, tx, block, t3, habits):
        super().__init__(rng, habits)
        self.tx, self.block, self.t3 = tx, block, t3
        self.rx = None          # the ID it sends on; None while no channel is open

    def talks(self):
        return self.rx is not None

    def start(self):
        self.agreed = self.block
        self.parameters = False
        self.expected, self.stream = 0, b""
        self.message, self.flags, self.number = None, 0, 0
        self.oldest = self.next = self.high = 0
        self.waiting = self.pausing = False

    def hear(self, ident, data):
        """What it sends at once, as IDs and bytes."""
        reply = self.hear_setup(ident, data)
        if reply:
            return [reply]
        if self.rx is None or ident != self.tx:
            return []
        kind, _ = sort(data)
        if kind == "A0":
            self.start()
            self.agreed = min(self.block, data[1])
            self.parameters = True
        if kind in ("A0", "test"):
            return [(self.rx, self.control(0xA1, self.block, 0x8A, 0xFF, self.t3, 0xFF))]
        if kind == "disconnect":
            rx, self.rx = self.rx, None
            return [(rx, self.control(0xA8))]
        if kind == "ack":
            self.hear_ack(data[0])
        elif kind == "data":
            return self.hear_data(data)
        return []

    def hear_setup(self, ident, data):
        """Its reply, where the frame is a C0."""
        if ident != SETUP_ID or len(data) != 7 or data[1] != 0xC0:
            return None
        unit, own = data[0], data[4:6]
        if self.chance("refuse"):
            return SETUP_ID + unit, bytes([0, self.rng.choice((0xD6, 0xD7, 0xD8)), *own, 0, 0x10, 1])
        self.start()
        self.rx = own[0] | (own[1] & 7) << 8
        return SETUP_ID + unit, bytes([0, 0xD0, *own, self.tx & 0xFF, self.tx >> 8, 1])

    def hear_ack(self, first):
        distance = (first - self.number - self.oldest) % 16
        if self.message is None or distance > self.high - self.oldest:
            return
        if distance or not first & 0x20:
            self.oldest += distance
            self.next, self.waiting = self.oldest, False
            self.pausing = not first & 0x20
        if self.oldest == frames_of(len(self.message)):
            self.sent.append(Message(self.message, self.flags))
            self.number = (self.number + self.oldest) % 16
            self.message, self.oldest, self.next, self.high = None, 0, 0, 0

    def hear_data(self, data):
        ready = not self.chance("hold")
        if data[0] & 0x0F == self.expected and (ready or not self.chance("refuse_data")):
            self.expected = (self.expected + 1) % 16
            self.stream += data[1:]
            if data[0] & 0x10:
                if len(self.stream) > 2 and self.stream[:2] == length_bytes(len(self.stream) - 2):
                    self.heard.append(self.stream[2:])
                self.stream = b""
        if data[0] & 0x20:
            return []
        return [(self.rx, self.control((0xB0 if ready else 0x90) | self.expected))]

    def work(self, lengths):
        """What it sends of its own accord: at most one frame; None if it has nothing to say."""
        if self.rx is None or not self.parameters:
            return None
        if self.chance("test"):
            return self.rx, self.control(0xA3)
        if self.chance("bye"):
            rx, self.rx = self.rx, None
            return rx, self.control(0xA8)
        if self.message is None:
            if not self.chance("speak"):
                return None
            self.message = self.rng.randbytes(self.rng.choice(lengths))
            self.flags = self.rng.randrange(1, 16) if self.chance("flag") else 0
        elif self.chance("break"):
            self.next, self.waiting = self.oldest, False
            return self.rx, self.control(0xA4)
        if self.waiting or self.pausing:
            return None
        frame, self.waiting = cut(self.message, self.next, self.agreed, (self.number + self.next) % 16, self.flags)
        self.next += 1
        self.high = max(self.high, self.next)
        return self.rx, frame

    def tire(self):
        """Its wait has run out: it goes on from the oldest unacknowledged frame."""
        if self.rx is not None:
            self.waiting = self.pausing = False
            self.next = self.oldest


class OldCar(Car):
    """A unit of a row of TP 1.6. It tests and breaks off too, though these are no telegrams there."""

    def __init__(self, rng, row, *others):
        super().__init__(rng, *others)
        self.row = row

    def hear_setup(self, ident, data):
        if ident != self.row.SOURCE or len(data) != 3 or data[1] != 0xC0:
            return None
        there = self.row.SETUP + data[0]
        if self.chance("refuse"):
            return there, bytes([0, 0xD8, self.rng.randrange(256)])
        self.start()
        self.rx = self.row.OFFSET + data[2]
        return there, bytes([0, 0xD0, self.tx - self.row.OFFSET])


class Tester(Other):
    """A tester: the side that opens, with someone who sends, takes and closes. Its habits: speak, flag, pad, late (with
    taking), break, bye, and again: a second C0 or A0 out of turn."""

    def __init__(self, rng, settings, habits, patient):
        super().__init__(rng, habits)
        self.settings, self.patient = settings, patient     # a patient one repeats no request of its opening
        self.end, self.buffer = Connection(), bytearray(LONGEST)
        self.message, self.flags = b"", 0

    def talks(self):
        return self.end.phase == "open"

    def open(self, unit):
        self.end.open(self.settings._replace(unit=unit))

    def hear(self, ident, data):
        if self.end.arrive(ident, data, self.buffer)[1] == "done":
            self.sent.append(Message(self.message, self.flags))
        return []

    def work(self, lengths):
        """What it sends: at most one frame; None if it has nothing to say."""
        end = self.end
        if end.phase == "open":
            if end.receiver.complete and not self.chance("late"):
                self.heard.append(end.take(self.buffer)[1].data)
            if end.sender.length is None and self.chance("speak"):
                self.message = self.rng.randbytes(self.rng.choice(lengths))
                self.flags = self.rng.randrange(1, 16) if self.chance("flag") else 0
                end.send(self.message)
            if self.chance("break"):
                return end.tx, self.control(0xA4)
            if self.chance("again"):
                return self.rng.choice(((end.tx, end.parameters(0xA0)), end.profile.request(end.settings)))
            if self.chance("bye"):
                end.close()
        frame = end.due(self.message)[1]
        if frame is None or frame[0] == SETUP_ID:
            return frame
        return frame[0], self.dressed(frame[1])

    def dressed(self, data):
        """As it goes out: the message's flags are put into its first frame."""
        kind, _ = sort(data)
        if kind in FILLABLE:
            return self.control(*data)
        if kind == "data" and self.end.sender.next == 1:
            return bytes([data[0], data[1] | self.flags << 4, *data[2:]])
        return data

    def tire(self):
        """Time passes."""
        if self.talks() or not self.patient:
            self.end.elapse(self.rng.choice((1, 50, 50, 100, 1000)))


def answers(data, console):
    """A console's answers to a whole input."""
    *lines, last = data.split(b"\n")
    said = [console.answer(line) for line in lines]
    if last:
        said.append(console.answer(last, False))
    return [answer for answer in said if answer is not None]


def serve(console):
    """Answers standard input."""
    for line in sys.stdin.buffer:
        ended = line.endswith(b"\n")
        answer = console.answer(line[:-1] if ended else line, ended)
        if answer is not None:
            sys.stdout.write(answer + "\n")
            sys.stdout.flush()


if __name__ == "__main__":
    serve(UnitConsole() if "--unit" in sys.argv[1:] else Console())
