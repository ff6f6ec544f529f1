"""Consoles whose TP 1.6 is wrong in one way each, or whose TP 2.0 is no longer as it was. Each has to be told from the model by a
line of the scenarios: so far the comparison can see."""

import collections
import random

import model
import scenarios
from model import ROWS, TP16, TP20, Connection, Console, Settings, inside, tenths
from sweeps16 import SWEEPS16

WRONG = []


def wrong(cls):
    WRONG.append(cls)
    return cls


def rows(cls):
    """A console whose rows are altered."""
    altered = {name: type(row.__name__, (cls, row), {}) for name, row in ROWS.items()}
    return wrong(type(cls.__name__, (Console,), {"ROWS": altered, "__doc__": cls.__doc__}))


def record(cls):
    """A console over another record."""
    return wrong(type(cls.__name__, (Console,), {"END": cls, "__doc__": cls.__doc__}))


def numbers(why, only=tuple(ROWS), **columns):
    """Other numbers in some rows."""
    altered = {name: type(row.__name__, (row,), columns if name in only else {}) for name, row in ROWS.items()}
    wrong(type("Numbers", (Console,), {"ROWS": altered, "__doc__": why}))


# Numbers of the rows

INFOTAINMENT = "high", "low"
numbers("Comfort's C0 goes out on 0x200.", ("comfort",), SOURCE=0x200)
numbers("Infotainment's C0 goes out on 0x4A0.", INFOTAINMENT, SOURCE=0x4A0)
numbers("Comfort's reply comes from 0x200 + unit.", ("comfort",), SETUP=0x200)
numbers("Comfort's reply comes from 0x2D0 + unit.", ("comfort",), SETUP=0x2D0)
numbers("Infotainment's reply comes from 0x4D0 + unit.", INFOTAINMENT, SETUP=0x4D0)
numbers("Infotainment's reply comes from 0x2E0 + unit.", INFOTAINMENT, SETUP=0x2E0)
numbers("Low priority has the offset of high.", ("low",), OFFSET=0x400)
numbers("Infotainment's channels are those of table 4.", ("high",), OURS=(0xB0, 0xCF), THEIRS=(0xB0, 0xCF))
numbers("Low priority's channels are those of table 4.", ("low",), OURS=(0x60, 0x7F), THEIRS=(0x60, 0x7F))
numbers("Units are 0x00 to 0x0F in infotainment.", INFOTAINMENT, UNITS=(0x00, 0x0F))
numbers("Units are those of TP 2.0.", UNITS=(0x00, 0xEF))
for name, row in ROWS.items():
    for column, of in (("UNITS", "units"), ("OURS", "receive IDs"), ("THEIRS", "transmit IDs")):
        low, high = getattr(row, column)
        for how, limits in (("lowest is missing", (low + 1, high)), ("highest is missing", (low, high - 1)),
                            ("range goes one too low", (low - 1, high)), ("range goes one too high", (low, high + 1))):
            if 0 <= limits[0] and limits[1] <= 0xFF:
                numbers("Of the %s of %s the %s." % (of, name, how), (name,), **{column: limits})


# Settings

class Judging(TP16):
    """Settings judged otherwise."""

    @classmethod
    def bounds(cls, t3, twait, t1):
        return 100 <= t3 < twait < t1

    @classmethod
    def good(cls, s):
        return (s.good() and inside(s.unit, cls.UNITS) and inside(s.rx - cls.OFFSET, cls.OURS)
                and cls.bounds(tenths(s.t3), s.twait, tenths(s.t1)))


def bounds(why, holds):
    rows(type("Bounds", (Judging,), {"bounds": staticmethod(holds), "__doc__": why}))


bounds("T_WAIT equal to T1 is taken.", lambda t3, twait, t1: 100 <= t3 < twait <= t1)
bounds("T_WAIT equal to T3 is taken.", lambda t3, twait, t1: 100 <= t3 <= twait < t1)
bounds("T_WAIT above T1 is taken.", lambda t3, twait, t1: 100 <= t3 < twait)
bounds("T_WAIT below T3 is taken.", lambda t3, twait, t1: 100 <= t3 and twait < t1)
bounds("T3 of 9 ms is taken.", lambda t3, twait, t1: 90 <= t3 < twait < t1)
bounds("T3 of 10 ms is refused.", lambda t3, twait, t1: 100 < t3 < twait < t1)
bounds("Any T3 is taken.", lambda t3, twait, t1: t3 < twait < t1)
bounds("T1 has to be over four times T3.", lambda t3, twait, t1: 100 <= t3 < twait < t1 and t1 > 4 * t3)


@rows
class CodesCompared(TP16):
    """T3 is judged by its code, not by its time."""

    @classmethod
    def good(cls, s):
        return super().good(s) or (s.t3 <= 255 and s.t3 > 0x4A and super().good(s._replace(t3=0x4A)))


@rows
class ComfortInDrive(TP16):
    """Any row's receive IDs are taken in each."""

    @classmethod
    def good(cls, s):
        taken = any(inside(s.rx - row.OFFSET, row.OURS) for row in ROWS.values())
        return taken and super().good(s._replace(rx=cls.OFFSET + cls.OURS[0]))

    @classmethod
    def request(cls, s):
        return cls.SOURCE, bytes([s.unit, 0xC0, s.rx & 0xFF])


@rows
class Unused(TP16):
    """Test settings that lie unused may be any number."""

    @classmethod
    def good(cls, s):
        return super().good(s._replace(interval=0, tests=0))


def default(why, **other):
    class Default(TP16):
        @classmethod
        def default(cls):
            return super().default()._replace(**other)

    Default.__doc__ = why
    rows(Default)


default("MNTC is 10 by default.", mntc=10)
default("MNTC is 21 by default.", mntc=21)
default("T3 is 0x32 by default.", t3=0x32)
default("T_WAIT is 1,000 by default.", twait=1000)
default("T_WAIT is 501 by default.", twait=501)
default("The block size is 15 by default.", block=15)
default("T1 is 0x86 by default.", t1=0x86)
default("T_E is 500 by default.", te=500)
default("Block repeats are 6 by default.", repeats=6)
default("Each row opens with the lowest IDs of drive.", rx=0x740, unit=0x00)


# The opening

@rows
class SevenBytes(TP16):
    """The C0 has seven bytes."""

    @classmethod
    def request(cls, s):
        return cls.SOURCE, TP20.request(s)[1]


@rows
class FourBytes(TP16):
    """The C0 names our receive ID's high byte behind its low one."""

    @classmethod
    def request(cls, s):
        return cls.SOURCE, bytes([s.unit, 0xC0, s.rx & 0xFF, s.rx >> 8])


@rows
class OffsetForgotten(TP16):
    """The transmit ID lacks its offset."""

    @classmethod
    def named_by(cls, data, s):
        found = super().named_by(data, s)
        return None if found is None else found - cls.OFFSET


@rows
class AnyTransmit(TP16):
    """Any transmit ID is taken."""

    @classmethod
    def named_by(cls, data, s):
        return cls.OFFSET + data[2]


@rows
class AnotherId(TP16):
    """A D0 that names our own receive ID is badly formed."""

    @classmethod
    def named_by(cls, data, s):
        found = super().named_by(data, s)
        return None if found == s.rx else found


@rows
class AnyFirst(TP16):
    """Byte 0 of a reply is not checked."""

    @staticmethod
    def well_formed(data):
        return len(data) == 3


@rows
class UnitFirst(TP16):
    """Byte 0 of a reply may be any unit."""

    @staticmethod
    def well_formed(data):
        return len(data) == 3 and data[0] <= 0x1F


@rows
class Longer(TP16):
    """A reply may be longer than three bytes."""

    @staticmethod
    def well_formed(data):
        return len(data) >= 3 and data[0] == 0x00


@rows
class LongD0(TP16):
    """A D0 of seven bytes is taken too."""

    @staticmethod
    def well_formed(data):
        return TP16.well_formed(data) or TP20.well_formed(data) and data[1] == 0xD0


@rows
class Shorter(TP16):
    """A D8 may have two bytes."""

    @staticmethod
    def well_formed(data):
        return TP16.well_formed(data) or data == b"\x00\xD8"


@rows
class ZeroD8(TP16):
    """Byte 2 of a D8 has to be 0."""

    @staticmethod
    def well_formed(data):
        return TP16.well_formed(data) and (data[1] != 0xD8 or data[2] == 0x00)


for opcodes, why in (((0xD6, 0xD8), "D6 refuses."), ((0xD7, 0xD8), "D7 refuses."), ((), "D8 is badly formed."),
                     ((0xD8, 0xD9), "D9 refuses.")):
    rows(type("Refusing", (TP16,), {"REFUSALS": opcodes, "__doc__": why}))


# Telegrams

for first, why in (((0xA4,), "A3 is answered."), ((0xA3,), "A4 is taken."), ((0xA3, 0xA4, 0xA8), "A8 is badly formed."),
                   ((0xA3, 0xA4, 0xA1), "A1 is badly formed.")):
    rows(type("Knowing", (TP16,), {"UNKNOWN": first, "__doc__": why}))


@rows
class Testing(TP16):
    """A test goes out."""

    interval = staticmethod(TP20.interval)


class Old(Connection):
    """A record by TP 1.6."""

    def old(self):
        return self.profile is not TP20


@record
class PaddedKnown(Old):
    """A padded A3 or A4 is known."""

    def sort(self, data):
        return model.sort(data) if len(data) == 8 else super().sort(data)


@record
class Marked(Old):
    """A padded A3 or A4 is answered 1 with the mark."""

    def arrive(self, ident, data, buffer):
        known = self.old() and self.phase in ("parameters", "open") and ident == self.listens_on()
        number, value, padded = super().arrive(ident, data, buffer)
        return number, value, padded or known and len(data) == 8 and data[0] in (0xA3, 0xA4)


@record
class FourWhileAwaited(Old):
    """A3 and A4 are 4 while the A1 is awaited."""

    def sort(self, data):
        return model.sort(data) if self.phase == "parameters" else super().sort(data)


@record
class OwnLength(Old):
    """No padded telegram is taken."""

    def sort(self, data):
        kind, padded = super().sort(data)
        return (None, False) if padded and self.old() else (kind, padded)


@record
class AnsweredA1(Old):
    """An A1 on an open connection is answered 0."""

    def arrive_kind(self, kind, data, buffer):
        return (0, None) if kind == "A1" and self.old() else super().arrive_kind(kind, data, buffer)


@record
class BlockFirst(Old):
    """An A1 on an open connection is 2 if its block size is bad."""

    def arrive_kind(self, kind, data, buffer):
        if kind == "A1" and self.old() and model.bad_block(data[1]):
            return 2, None
        return super().arrive_kind(kind, data, buffer)


@record
class SilentA8(Old):
    """An A8 is not answered by ours (001, 5.2.3)."""

    def arrive_own(self, data, buffer):
        old = self.old()
        answer = super().arrive_own(data, buffer)
        if old and self.phase == "closed":
            self.shut()
        return answer


@record
class TurnedNumbers(Old):
    """Numbers start at 0 with a change of direction (001, 5.2.3)."""

    def take(self, buffer):
        answer = super().take(buffer)
        if self.old() and answer[0] == 0:
            self.sender.number = 0
        return answer


@record
class NeverWaiting(Old):
    """T1 0xFF is no time-out (001, 5.2.2.3)."""

    def due_open(self, message):
        answer = super().due_open(message)
        if self.old() and self.settings.t1 == 0xFF:
            self.sender.wait = 0
        return answer


@record
class LeastGap(Old):
    """The unit's T3 counts as 10 ms at least."""

    def begin_open(self, block, t3):
        super().begin_open(block, t3)
        if self.old():
            self.sender.peer_gap = max(100, self.sender.peer_gap)


@record
class DataFirst(Old):
    """Data goes before an Ack."""

    def due_open(self, message):
        ack = self.receiver.ack
        if not self.old() or ack is None or not self.sender.due() or len(message) != self.sender.length:
            return super().due_open(message)
        self.receiver.ack = None
        answer = super().due_open(message)
        self.receiver.ack = ack
        return answer


# Between the two

@record
class Staying(Old):
    """A closed record stays with TP 1.6."""

    def shut(self, left=None):
        before = self.__dict__.get("profile", TP20)
        super().shut(left)
        self.profile = before

    def open(self, settings, profile=TP20):
        return super().open(settings, self.profile if self.profile is not TP20 and self.profile.good(settings) else profile)


@record
class Spread(Old):
    """TP 2.0 has the bounds of T3 and T_WAIT too."""

    def open(self, settings, profile=TP20):
        answer = super().open(settings, profile)
        if answer[0] == 0 and not 100 <= tenths(settings.t3) < settings.twait < tenths(settings.t1):
            self.shut()
            return 10, None
        return answer


@record
class NoTestAtAll(Old):
    """No test goes out by TP 2.0 either."""

    def begin_open(self, block, t3):
        self.settings = self.settings._replace(interval=0)
        super().begin_open(block, t3)


@record
class BothForms(Old):
    """TP 2.0 takes a D8 of three bytes too."""

    def arrive_setup(self, data):
        return super().arrive_setup(bytes([*data, 0, 0, 0, 0]) if not self.old() and data[:2] == b"\x00\xD8" and len(data) == 3 else data)


# Lines

@wrong
class AnyCase(Console):
    """A row's name may have upper-case letters."""

    def open16(self, name=b"", *words):
        return super().open16(name.lower(), *words)


@wrong
class OfNoRow(Console):
    """No name means drive."""

    def open16(self, name=b"drive", *words):
        return super().open16(b"drive", name, *words) if name.isdigit() else super().open16(name, *words)


@wrong
class TenFirst(Console):
    """10 comes before 4."""

    def open16(self, name=b"", *words):
        answer = super().open16(name, *words)
        if words and answer[0] == 4 and not self.ROWS[name.decode()].good(Settings(*map(int, words))):
            return 10, None
        return answer


@wrong
class TooLarge(Console):
    """A number too large for its setting is badly written."""

    def open16(self, name=b"", *words):
        if any(int(word) > 65535 for word in words if word.isdigit()):
            raise model.Malformed
        return super().open16(name, *words)


@wrong
class Wrapped(Console):
    """A number is taken by its last 16 bits."""

    def open16(self, name=b"", *words):
        return super().open16(name, *(b"%d" % (int(word) % 65536) if word.isdigit() else word for word in words))


# That each is told

def told(seed, most=2000):
    """True if each is found."""
    left, consoles = list(WRONG), {cls: cls() for cls in WRONG}
    start = scenarios.SWEEPS.index(SWEEPS16[0])             # most are told there
    for played in (*range(start, most), *range(start)):
        if not left:
            break
        play = scenarios.ActivePlay(random.Random("%s/%d" % (seed, played)), 0, collections.Counter(), False)
        scenarios.scenario(play, played)
        for cls in list(left):
            console = consoles[cls]
            console.lines = 0
            if any(console.answer(line) != answer for line, answer in zip(play.lines, play.expected)):
                left.remove(cls)
    for cls in left:
        print("not told by any line: %s" % cls.__doc__)
    if not left:
        print("%d wrong consoles of TP 1.6, each told by a line" % len(WRONG))
    return not left
