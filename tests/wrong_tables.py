"""Tables and consoles that are wrong in one way each. Each has to be told from the model by the scenarios' lines, and those
whose places are not apart by pairs of runs too: so far the two tests can see."""

import collections
import random

import model
import table_laws
import table_scenarios
from table_model import PLACES, REPLIES, Table
from table_scenarios import Led, TablePlay

WRONG, MIXED = [], []


def wrong(cls):
    WRONG.append(cls)
    return cls


def mixed(cls):
    MIXED.append(cls)
    return wrong(cls)


class Other(Led):
    """A console over another table."""

    TABLE = Table

    def new(self):
        super().new()
        self.table.__class__ = self.TABLE


def table(cls):
    """A wrong table, in a console."""
    return wrong(type(cls.__name__, (Other,), {"TABLE": cls, "__doc__": cls.__doc__}))


def closed(records):
    return [place for place, record in enumerate(records) if record.phase == "closed"]


# Openings

@table
class RangeFirst(Table):
    """10 comes before 13."""

    def open(self, settings):
        return (10, None) if not settings.good() else super().open(settings)


@table
class RepliesFirst(Table):
    """A receive ID of the replies is 10 also where the table is full."""

    def open(self, settings):
        return (10, None) if settings.rx in REPLIES else super().open(settings)


@table
class InUseFirst(Table):
    """A unit in use is 10 also where the table is full."""

    def open(self, settings):
        if not closed(self.records) and any(record.settings.unit == settings.unit for record in self.records):
            return 10, None
        return super().open(settings)


class Choosing(Table):
    """Another closed place than the lowest."""

    def choose(self, free):
        raise NotImplementedError

    def open(self, settings):
        number, place = super().open(settings)
        free = sorted([*closed(self.records), place]) if number == 0 else []
        chosen = self.choose(free) if free else place
        if chosen != place:
            self.records[place].shut()
            self.records[chosen].open(settings)
        return number, chosen


@table
class Highest(Choosing):
    """The highest closed place is taken."""

    def choose(self, free):
        return free[-1]


@table
class Next(Choosing):
    """The places are taken in turn."""

    def choose(self, free):
        self.turn = next((place for place in free if place >= getattr(self, "turn", -1) + 1), free[0])
        return self.turn


@table
class SkippingA8(Table):
    """A closed place with an A8 due is not free."""

    def open(self, settings):
        free = [place for place in closed(self.records) if self.records[place].left is None]
        if not free and closed(self.records):
            return 13, None
        kept = {place: self.records[place].left for place in closed(self.records) if place < (free or [0])[0]}
        number, place = super().open(settings)
        if number == 0 and place != free[0]:
            self.records[place].shut(kept[place])
            self.records[free[0]].open(settings)
            place = free[0]
        return number, place


@wrong
class KeepingA8(Led):
    """An opening leaves the A8 due; it goes before the C0."""

    def new(self):
        super().new()
        self.left = {}

    def open(self, words):
        lefts = [getattr(record, "left", None) for record in self.table.records]
        answer = super().open(words)
        if answer.startswith("0") and lefts[int(answer[-1])]:
            self.left[int(answer[-1])] = lefts[int(answer[-1])]
        return answer

    def call_at(self, place, words):
        if words and words[0] == b"due" and place in self.left:
            return model.spoken(0, self.left.pop(place))
        return super().call_at(place, words)


class Comparing(Table):
    """Something else is compared with what is in use."""

    def used(self):
        return [record.settings for record in self.records if record.phase != "closed"]

    def refuses(self, settings):
        raise NotImplementedError

    def open(self, settings):
        free = closed(self.records)
        if not free:
            return 13, None
        if self.refuses(settings) or self.records[free[0]].open(settings)[0]:
            return 10, None
        return 0, free[0]


@table
class UnitNotCompared(Comparing):
    """A unit may be opened twice."""

    def refuses(self, s):
        return s.rx in REPLIES or any(s.rx == other.rx for other in self.used())


@table
class IdNotCompared(Comparing):
    """A receive ID may be there twice."""

    def refuses(self, s):
        return s.rx in REPLIES or any(s.unit == other.unit for other in self.used())


@table
class BothCompared(Comparing):
    """Unit and receive ID are refused only where both are one place's."""

    def refuses(self, s):
        return s.rx in REPLIES or any((s.unit, s.rx) == (other.unit, other.rx) for other in self.used())


@table
class FreeAfterD0(Comparing):
    """A unit is free again after its D0."""

    def refuses(self, s):
        return (s.rx in REPLIES or any(s.rx == other.rx for other in self.used())
                or any(s.unit == record.settings.unit for record in self.records if record.phase == "setup"))


@table
class IdFreeBeforeD0(Comparing):
    """A receive ID is in use only from the D0 on."""

    def refuses(self, s):
        return (s.rx in REPLIES or any(s.unit == other.unit for other in self.used())
                or any(s.rx == record.settings.rx for record in self.records if record.phase in ("parameters", "open")))


class Ranging(Comparing):
    """Other receive IDs are shut out."""

    OUT = ()

    def refuses(self, s):
        return s.rx in self.OUT or any(s.unit == other.unit or s.rx == other.rx for other in self.used())


for name, out, why in (("Any", (), "No receive ID is shut out."), ("From201", range(0x201, 0x2F0), "0x200 is a receive ID."),
                       ("To2EE", range(0x200, 0x2EF), "0x2EF is a receive ID."),
                       ("To2FF", range(0x200, 0x300), "0x2F0 to 0x2FF are shut out."),
                       ("To2F0", range(0x200, 0x2F1), "0x2F0 is shut out."), ("From1FF", range(0x1FF, 0x2F0), "0x1FF is shut out.")):
    table(type(name, (Ranging,), {"OUT": out, "__doc__": why}))


@table
class Remembering(Comparing):
    """The unit of a closed place stays in use."""

    def refuses(self, s):
        return s.rx in REPLIES or any(s.rx == other.rx for other in self.used()) or any(
            s.unit == unit for place, unit in getattr(self, "units", {}).items())

    def open(self, s):
        number, place = super().open(s)
        if number == 0:
            self.units = {**getattr(self, "units", {}), place: s.unit}
        return number, place


@table
class UnitLimit(Comparing):
    """Unit 0xEF is out of range."""

    def refuses(self, s):
        return s.unit == 0xEF or s.rx in REPLIES or any(s.unit == other.unit or s.rx == other.rx for other in self.used())


@table
class Seven(Table):
    """Seven places are all there is."""

    def open(self, settings):
        return (13, None) if closed(self.records) == [PLACES - 1] else super().open(settings)


# Owners

class Owning(Table):
    """Another place may own an ID."""

    def also(self, record, ident):
        raise NotImplementedError

    def owner(self, ident):
        found = super().owner(ident)
        return found if found is not None else next(
            (place for place, record in enumerate(self.records) if self.also(record, ident)), None)


@table
class UnitAfterD0(Owning):
    """A place listens to its unit's ID after the D0 too."""

    def also(self, record, ident):
        return record.phase != "closed" and ident == 0x200 + record.settings.unit


@table
class IdBeforeD0(Owning):
    """A place listens to its receive ID before the D0 too."""

    def also(self, record, ident):
        return record.phase != "closed" and ident == record.settings.rx


@table
class Wide(Owning):
    """Of an ID only eleven bits are looked at."""

    def also(self, record, ident):
        return record.phase != "closed" and ident & 0x7FF == record.listens_on()


@table
class ClosedOwning(Owning):
    """With all closed, place 0 owns every frame."""

    def also(self, record, ident):
        return all(record.phase == "closed" for record in self.records)


@wrong
class NoneIs4(Led):
    """A frame with all closed is answered 4."""

    def frame(self, words):
        answer = super().frame(words)
        return "4" if answer == "3" and len(closed(self.table.records)) == PLACES else answer


@wrong
class MarkLast(Led):
    """The mark of a padded telegram stands behind the place."""

    def frame(self, words):
        answer = super().frame(words)
        return answer.replace(" padded", "") + " padded" if " padded" in answer else answer


@wrong
class NamingRefused(Led):
    """10 names a place."""

    def open(self, words):
        answer = super().open(words)
        return "10 at 0" if answer == "10" else answer


# Places that are not apart

@mixed
class OneBuffer(Led):
    """All places have one buffer."""

    def call(self, name, words):
        for place in self.places:
            if place.storage is not self.places[0].storage:
                room = len(place.buffer)
                place.storage = self.places[0].storage
                place.lend(room)
        return super().call(name, words)


@wrong
class OneRoom(Led):
    """All places have one room."""

    def call_at(self, place, words):
        answer = super().call_at(place, words)
        if words[0] == b"room" and answer == "0":
            for other in self.places:
                other.lend(len(self.places[place].buffer))
        return answer


@wrong
class OneMessage(Led):
    """All places lend the message last accepted at any."""

    def call_at(self, place, words):
        answer = super().call_at(place, words)
        if words[0] == b"send" and answer == "0":
            for other in self.places:
                other.accepted = self.places[place].accepted
        return answer


@mixed
class OneClock(Led):
    """Time at one place passes at the next too."""

    def call_at(self, place, words):
        answer = super().call_at(place, words)
        if words[0] == b"time" and place < PLACES:
            super().call_at((place + 1) % PLACES, words)
        return answer


@mixed
class OneAck(Led):
    """A due Ack at one place takes that of the next away."""

    def call_at(self, place, words):
        answer = super().call_at(place, words)
        if words[0] == b"due" and place < PLACES and answer != "0":
            record = self.table.records[(place + 1) % PLACES]
            if record.phase == "open":
                record.receiver.ack = None
        return answer


@mixed
class LosingBoth(Led):
    """A connection lost by time takes the next one with it."""

    def call_at(self, place, words):
        answer = super().call_at(place, words)
        if words[0] == b"time" and answer == "8":
            self.table.records[(place + 1) % PLACES].shut()
        return answer


@mixed
class ClosingAbove(Led):
    """A close drops what is in sending at the places above."""

    def call_at(self, place, words):
        answer = super().call_at(place, words)
        if words[0] == b"close" and answer == "0":
            for record in self.table.records[place + 1:]:
                if record.phase == "open":
                    record.sender.length = None
        return answer


@mixed
class OneCounter(Led):
    """The places share the repeats."""

    def call(self, name, words):
        before = [record.sender.repeats if record.phase == "open" else None for record in self.table.records]
        answer = super().call(name, words)
        for record, count in zip(self.table.records, before):
            if record.phase == "open" and count is not None and record.sender.repeats > count:
                for other in self.table.records:
                    if other.phase == "open":
                        other.sender.repeats = record.sender.repeats
        return answer


# Lines

@wrong
class TimeStops(Led):
    """Time for all stops at the first place that is lost."""

    def call(self, name, words):
        if name != b"time":
            return super().call(name, words)
        answers = []
        for place in self.places:
            answers.append("0" if "8" in answers else place.call(name, words))
        return " ".join(answers)


@wrong
class Wrapping(Led):
    """A place is a number modulo 8."""

    def call_at(self, place, words):
        return super().call_at(place % PLACES, words)


@wrong
class NineIsThere(Led):
    """Place 8 is answered as an empty one."""

    def call_at(self, place, words):
        return model.Console().call(words[0], words[1:]) if place == PLACES and words else super().call_at(place, words)


@wrong
class TimeAnywhere(Led):
    """Time and due are good at every place."""

    def call_at(self, place, words):
        answer = super().call_at(place, words)
        return "0" if place >= PLACES and words[0] in (b"time", b"due") else answer


@wrong
class RoomAnywhere(Led):
    """Room is good at every place."""

    def call_at(self, place, words):
        answer = super().call_at(place, words)
        return "0" if place >= PLACES and words[0] == b"room" else answer


@wrong
class FourFirst(Led):
    """At a place that is not there, what is badly written is answered 4 too."""

    def call_at(self, place, words):
        return "4" if place >= PLACES and words else super().call_at(place, words)


@wrong
class Any4(Led):
    """A number over 255 names a place too."""

    def call(self, name, words):
        return super().call(b"255" if name.isdigit() and int(name) > 255 else name, words)


@wrong
class Bare(Led):
    """A call without a place is place 0's."""

    def call(self, name, words):
        return super().call(b"0", [name, *words]) if name in (b"due", b"take") else super().call(name, words)


@wrong
class Renewing(Led):
    """An opening lends a fresh buffer."""

    def open(self, words):
        answer = super().open(words)
        if answer.startswith("0"):
            place = self.places[int(answer[-1])]
            place.storage[:] = bytes(len(place.storage))
        return answer


@wrong
class Widening(Led):
    """An opening lends 1,024 bytes again."""

    def open(self, words):
        answer = super().open(words)
        if answer.startswith("0"):
            self.places[int(answer[-1])].lend(1024)
        return answer


@wrong
class OldBuffers(Led):
    """`new` leaves the buffers."""

    def new(self):
        storages = [bytes(place.storage) for place in getattr(self, "places", [])]
        super().new()
        for place, storage in zip(self.places, storages):
            place.storage[:] = storage


# That each is told

def told(seed, most=2000, runs=300):
    """True if each is found."""
    left, played = list(WRONG), 0
    consoles = {cls: cls() for cls in left}
    while left and played < most:
        play = TablePlay(random.Random("%s/%d" % (seed, played)), 0, collections.Counter(), False)
        table_scenarios.scenario(play, played)
        played += 1
        for cls in list(left):
            console = consoles[cls]
            console.lines = 0
            if any(console.answer(line) != answer for line, answer in zip(play.lines, play.expected)):
                left.remove(cls)
    together = [cls for cls in MIXED if not any(
        table_laws.apart(random.Random("%s/apart/%d" % (seed, number)), cls) for number in range(runs))]
    for cls in left:
        print("not told by any line: %s" % cls.__doc__)
    for cls in together:
        print("not told by any pair of runs: %s" % cls.__doc__)
    if not left and not together:
        print("%d wrong tables, each told by a line, and %d of them, whose places are not apart, by a pair of runs" % (
            len(WRONG), len(MIXED)))
    return not left and not together
