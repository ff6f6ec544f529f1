"""Scenarios for the table's console. One place at a time is led as a lone record's console is, and the lead goes from place to
place; so all that can befall a lone record befalls each place, with calls to the others between."""

import re

import model
import reached
import table_reached
from model import Settings
from play import (HUGE, LENGTHS, LONG, SHORT, WIDE, anything, every_ack, every_first_frame, every_flags, every_later_frame,
                  every_length, every_time_code, full_blocks, malformed_lines, openings, receiving, sending, settings,
                  short_buffers, shown, testing, values_at)
from reached import picture, timers
from scenarios import ActivePlay
from table_model import CALLS, NAMED, PLACES, REPLIES, TableConsole
from table_reached import EDGES, PHASES, SEATS

# A lone record's call, as it stands at the start of a line.
LONE = re.compile(rb"( *)(" + b"|".join(CALLS) + rb")(?![^ \r])")

# What only a table's console finds badly written, besides what any console does.
NO_CALLS = (
    "due", "due 01", "due -", "take", "close", "send 01", "room 5", "buffer", "0", "7", "8", "255", "0 new", "3 open", "8 open",
    "3 open 768 1 15 138 50 1000 10 5 1000 0 5", "0 frame 300 A8", "8 frame 300 A8", "0 owner 300", "8 owner 300", "8 new",
    "8 hello", "0 hello", "0 0", "0 0 due", "1 2 due", "8 8 due", "due 0 1", "0due", "0: due", "0, due", "-1 due", "+1 due",
    "0x1 due", "1. due", "1.0 due", "1a due", "a due", "P due", "- due", "-0 due", "0- due", "time", "time time 1",
    "0 time", "0 time 1 1", "0 time -1", "time 1 1", "time 0 1", "0 time 18446744073709551616", "8 time", "8 time x",
    "8 time 18446744073709551616", "8 send", "8 send 0", "8 room", "8 room 4097", "8 due 0", "8 take 1", "8 close now",
    "8 buffer 0", "9 room 5000", "255 time 18446744073709551616", "255 send xx", "owner", "owner -", "owner 300 300",
    "owner 00300", "owner g00", "owner 0x300", "owner 10000", "owner 300 A8", "owner 300 -", "Owner 300", "owner300", "new 0",
    "0 \rdue", "0\r due", "0 due\r\r", "owner \r300", "0 Due", "0 DUE", "/ due", ": due", "0/ due", "open16 drive", "0 open16 drive",
    "open16 low 1680 48 8 138 74 1000 20 5 500 10000 5")

TOO_LARGE = (256, 256, 257, 263, 264, 300, 511, 512, 999, 1000, 65535, 65536, 65543, 2**32, 2**32 + 7, *WIDE)


class Led(TableConsole):
    """The table's console, seen as the lone console of the place that is led."""

    at = 0

    @property
    def led(self):
        return self.places[self.at]

    connection = property(lambda self: self.led.connection)
    storage = property(lambda self: self.led.storage)
    buffer = property(lambda self: self.led.buffer)
    accepted = property(lambda self: self.led.accepted)


class TablePlay(ActivePlay):
    CONSOLE = Led
    PLACES = table_reached
    SECOND = "open", "open 768 1 16 138 50 1000 10 5 1000 0 5"

    def __init__(self, rng, start, tally, check):
        self.before = table_reached.Before()
        self.hops = 0           # how often a single step goes to another place first
        super().__init__(rng, start, tally, check)

    @property
    def at(self):
        return self.console.at

    @at.setter
    def at(self, place):
        self.console.at = place

    @property
    def records(self):
        return self.console.table.records

    # Saying

    def say(self, line):
        """A lone record's call is said to the place that is led. The answer comes back without the place that it names."""
        line = line.encode() if type(line) is str else line
        if LONE.match(line):
            line = self.number(self.at).encode() + b" " + line
        return self.speak(line)

    def number(self, place):
        return self.rng.choice(("%d",) * 12 + ("%02d", "%03d", " %d ", "%020d")) % place

    def speak(self, line):
        """A line of the table's console, as it stands."""
        line = line.encode() if type(line) is str else line
        if self.returns and self.rng.random() < self.returns:
            line += b"\r"
        sent, line = line, model.without_return(line)
        call = bool(line.strip(b" ")) and line[:1] != b"#" and len(line) <= model.LINE
        places = list(table_reached.place_of(self.console, line, self.before)) if call else []
        left = [seat for seat, record in enumerate(self.records) if record.phase == "closed" and record.left is not None]
        pictures = [picture(place) for place in self.console.places] if self.check else None
        owed = self.owed(line) if self.check and call else None
        answer = self.console.answer(sent)
        self.lines.append(sent)
        self.expected.append(answer)
        self.count_returns(sent, answer)
        if answer is not None and call:
            self.tally[table_reached.label(line, answer)] += 1
            for place in places:
                for said in table_reached.said(line, answer):
                    self.tally["%s: %s" % (place, said)] += 1
            for place in table_reached.place_after(self.console, line, answer):
                self.tally[place] += 1
            self.before.after(self.console, line, answer, left)
            if reached.name_of(line) == b"open" and answer.startswith("0"):
                self.at = int(answer.split(" ")[-1])
        elif answer is not None:
            self.tally["error"] += 1
        if self.check:
            self.holds(line, answer, pictures, owed)
        return None if answer is None else table_reached.bare(answer)

    # What request 7 says of every call

    def owed(self, line):
        """Whom a call concerns, told by the lines and the records' fields, not by the model's table: `new`, `open`, `time`, a
        place, or None for nobody."""
        seat, words = table_reached.split(line)
        if seat is not None:
            return seat if seat < PLACES else None
        if words[0] in (b"new", b"open", b"time"):
            return words[0].decode()
        if words[0] == b"frame" and len(words) > 1 and len(words[1]) <= 4 and model.HEX.issuperset(words[1]):
            owners = owners_of(self.records, int(words[1], 16))
            return owners[0] if owners else None
        return None

    def holds(self, line, answer, before, owed):
        """No unit, receive ID or ID listened on is there twice; a call changes what it concerns and nothing else; a frame is
        answered for its owner, and 13 is given exactly when all eight are in use."""
        used = [record.settings for record in self.records if record.phase != "closed"]
        for what in ([s.unit for s in used], [s.rx for s in used],
                     [listened(record) for record in self.records if record.phase != "closed"]):
            assert len(set(what)) == len(what), (line, what)
        after = [picture(place) for place in self.console.places]
        changed = {seat for seat in SEATS if before[seat] != after[seat]}
        number = (answer or "error").split(" ")[0]
        if number == "error" or owed is None:
            assert not changed, (line, answer, changed)
            assert number in ("error", "3", "4") or reached.name_of(line) == b"owner", (line, answer)
        elif owed == "open":
            full = all(dict(seat[0][0])["phase"] != "closed" for seat in before)
            assert (number == "13") == full, (line, answer)
            assert changed == ({self.at} if number == "0" else set()), (line, answer, changed)
            if number == "0":
                # The lowest closed place, with the C0 due; its buffer and room stay.
                assert all(dict(before[seat][0][0])["phase"] != "closed" for seat in range(self.at)), (line, answer)
                assert self.c.phase == "setup" and self.c.asking and before[self.at][0][3:] == after[self.at][0][3:]
        elif owed == "time":
            assert len(answer.split(" ")) == PLACES, (line, answer)
        elif owed != "new":
            assert changed <= {owed}, (line, answer, changed)
            if reached.name_of(line) == b"frame":
                assert answer.endswith(" at %d" % owed), (line, answer)

    # Settings

    def free(self, **fixed):
        """A unit and a receive ID that no place uses."""
        used = [record.settings for record in self.records if record.phase != "closed"]
        units, ids = {s.unit for s in used}, {s.rx for s in used}
        rng = self.rng
        last = [s for s in self.before.settings if s and s.unit not in units and s.rx not in ids]
        if last and rng.random() < 0.3:
            again = rng.choice(last)        # of a place that was closed
            return dict({"unit": again.unit, "rx": again.rx}, **fixed)
        unit = rng.choice([u for u in (0, 1, 2, 0x10, 0xEF, *(rng.randrange(0xF0) for _ in range(12))) if u not in units])
        ident = rng.choice([i for i in (0, 0x1FF, 0x2F0, 0x300, 0x301, 0x7FF, *(rng.randrange(0x800) for _ in range(20)))
                            if i not in ids and i not in REPLIES])
        return dict({"unit": unit, "rx": ident}, **fixed)

    def settings(self, **fixed):
        """Mostly such as open. A place that is led may not choose its unit and receive ID by itself."""
        fixed.pop("rx", None), fixed.pop("unit", None)
        chosen = super().settings(**fixed)
        used = [record.settings for record in self.records if record.phase != "closed"]
        way = self.rng.random()
        if way < 0.85 or not used:
            return chosen._replace(**self.free())
        chosen, other = chosen._replace(**self.free()), self.rng.choice(used)
        return self.rng.choice((chosen._replace(unit=other.unit), chosen._replace(rx=other.rx),
                                chosen._replace(unit=other.unit, rx=other.rx), chosen._replace(rx=self.rng.choice(EDGES))))

    def odd_settings(self):
        """One setting at a limit or beyond it."""
        chosen = list(self.settings())
        if self.rng.random() < 0.2:
            chosen[0] = self.rng.choice(EDGES)
            return chosen
        at = self.rng.randrange(11)
        chosen[at] = self.odd_value(at)
        return chosen

    # Single steps

    def step(self, weights):
        if self.rng.random() < self.hops:
            self.at = self.rng.randrange(PLACES)
        way = self.rng.random()
        if self.hops and way < 0.02:
            return self.around()
        super().step(weights)

    def around(self):
        """A call that is not the led place's own."""
        way = self.rng.randrange(6)
        if way == 0:
            self.stranger()
        elif way == 1:
            self.owner(self.some_id())
        elif way == 2:
            self.nowhere()
        elif way == 3:
            self.time_for_all()
        elif way == 4:
            self.speak(self.rng.choice(NO_CALLS))
        else:
            self.speak("%s %s" % (self.number(self.rng.randrange(PLACES)), self.rng.choice(("buffer", "due", "take", "time 1"))))

    def some_id(self):
        """An ID that is or was somebody's, or one beside it."""
        rng = self.rng
        known = [0x200, 0x300, rng.randrange(0x10000)]
        for record, last in zip(self.records, self.before.settings):
            for s in (last, getattr(record, "settings", None)):
                if s:
                    known += [s.rx, 0x200 + s.unit]
        ident = rng.choice(known)
        return rng.choice((ident,) * 6 + (ident ^ 1, ident | 0x800))

    def stranger(self):
        """A frame from anywhere."""
        rng = self.rng
        self.frame(self.some_id(), rng.choice((
            b"", b"\xA8", b"\xA8" + self.bytes(7), b"\xA3", b"\xA4", b"\xB0", b"\x10\x00\x01\x55", b"\x00\xD6" + self.bytes(5),
            b"\x00\xD0\x00\x03\x40\x07\x01", b"\xA1\x0F\x8A\xFF\x00\xFF", b"\xA1\x10\x8A\xFF\x00\xFF", self.bytes(rng.randrange(9)))))

    def owner(self, ident):
        return self.speak("owner " + self.rng.choice(("%X", "%03X", "%03X", "%04X", "%x")) % ident)

    def nowhere(self):
        """A call at a place that is not there, or badly written."""
        rng = self.rng
        place = rng.choice((8, 8, 9, 255, 255, rng.randrange(8, 256), *TOO_LARGE))
        call = rng.choice(("time 1", "time 0", "send 01", "send -", "send " + "5A" * 1025, "due", "due 01", "due -", "take", "close",
                           "room 0", "room 4096", "buffer"))
        self.speak("%s %s" % (self.number(place), call))

    def time_for_all(self):
        running = [left for record in self.records for left in timers(record).values()]
        rng = self.rng
        if running and rng.random() < 0.8:
            span = max(0, rng.choice(running) + rng.choice((0, 0, 0, -1, 1)))
        else:
            span = rng.choice((0, 1, 50, rng.randrange(2000), rng.choice(HUGE)))
        self.speak("time %d" % span)

    def odd_line(self):
        if self.rng.random() < 0.3:
            self.speak(self.rng.choice(NO_CALLS))
        elif self.rng.random() < 0.1:
            self.nowhere()
        else:
            super().odd_line()

    def finish(self):
        for place in self.rng.sample(SEATS, PLACES):
            self.at = place
            self.buffer()
        self.at = self.rng.randrange(PLACES)
        super().finish()
        self.at = self.rng.randrange(PLACES)
        self.time()


def listened(record):
    return 0x200 + record.settings.unit if record.phase == "setup" else record.settings.rx


def owners_of(records, ident):
    return [seat for seat, record in enumerate(records) if record.phase != "closed" and listened(record) == ident]


# Bringing places into a state

def bring(play, phase, tx=None, block=15, t3=0, **fixed):
    """A place more in use, in this phase; it is led from here on."""
    chosen = Settings(interval=0, **play.free())._replace(**fixed)
    assert play.open(chosen) == "0", chosen
    if phase != "setup":
        play.due()
        play.heard(*play.d0(0x740 + play.at if tx is None else tx))
    if phase == "open":
        play.due()
        play.a1(block, t3)


def fill(play, phase=None):
    """All eight places in use, in this phase or in any."""
    while any(record.phase == "closed" for record in play.records):
        bring(play, phase or play.rng.choice(PHASES))


def neighbours(play, seat):
    """All places but this one in use, with something going on at each."""
    play.speak("new")
    fill(play)
    for other in SEATS:
        play.at = other
        if play.c.phase == "open":
            for _ in range(play.rng.randrange(4)):
                play.rng.choice((play.data, play.run, lambda: play.send(SHORT)))()
    play.at = seat
    play.say("close")
    used = [record.settings for record in play.records if record.phase != "closed"]
    if any(s.unit == 1 or s.rx in (0x300, 0x7A5, 0x123) for s in used):
        neighbours(play, seat)


def among(sweep, seat):
    """What is swept at a lone record, at a place among others."""
    def swept(play):
        neighbours(play, seat)
        sweep(play)
    return swept


# Going through all values

def limits(play):
    """Each setting at each limit, on both sides, and at each width: with all closed, one closed, none."""
    for used in (0, PLACES - 1, PLACES):
        play.speak("new")
        for seat in range(used):
            bring(play, PHASES[seat % 3], unit=0x20 + seat, rx=0x400 + seat)
        for at in range(len(model.RANGES)):
            for value in values_at(at):
                chosen = list(Settings())
                chosen[at] = value
                if play.open(chosen) == "0":
                    play.due()
                    play.say("close")


def every_receive_id(play):
    """Each receive ID, with two places in use and one closed again."""
    bring(play, "open", unit=0x20, rx=0x000)
    bring(play, "setup", unit=0x21, rx=0x7FF)
    bring(play, "parameters", unit=0x22, rx=0x2F0)
    play.say("close")
    for ident in (*range(0x803), 0xFFFF, 0x10000, 0x10200, 0x10300):
        if play.open(Settings(rx=ident)) == "0":
            play.say("close")


def every_unit(play):
    """Each unit: in use while opening, after its D0, when open, and free when closed."""
    bring(play, "open", unit=0xEE, rx=0x500)
    for unit in range(0xF2):
        for phase in PHASES[unit % 3:]:
            if play.open(Settings(unit=unit, interval=0)) != "0":
                continue
            if phase != "setup":
                play.due()
                play.heard(*play.d0(0x740))
            if phase == "open":
                play.due()
                play.a1(15, 0)
            place = play.at
            play.open(Settings(unit=unit, rx=0x301))
            play.open(Settings(unit=(unit + 1) % 0xEE, rx=0x300))
            play.owner(0x200 + unit)
            play.owner(0x300)
            play.at = place
            play.say("close")
            play.owner(0x200 + unit)
            play.owner(0x300)


def every_closing(play):
    """Each set of closed places, closed in any order: the lowest is taken, with what it had due discarded, and the next then."""
    rng = play.rng
    for mask in range(1 << PLACES):
        fill(play)
        closed = [seat for seat in SEATS if mask >> seat & 1]
        for seat in rng.sample(closed, len(closed)):
            play.at = seat
            play.say("close")
        while play.open(Settings(interval=0, **play.free())) == "0":
            play.due()
            if rng.random() < 0.3:
                play.due()
                play.due()
            if rng.random() < 0.5:
                break
        if rng.random() < 0.2:
            play.speak("new")


def every_in_use(play):
    """The unit and the receive ID of each place, in each phase, and of each closed place, with an A8 due or not."""
    for phase in PHASES:
        play.speak("new")
        for seat in SEATS:
            bring(play, phase, unit=0x40 + seat, rx=0x400 + seat)
        play.open(Settings(unit=0x40, rx=0x500))
        play.open(Settings(unit=0x50, rx=0x400))
        play.open(Settings(unit=0x50, rx=0x500))
        for closed in SEATS:
            play.at = closed
            play.say("close")
            for other in SEATS:
                if other != closed:
                    for unit, rx in ((0x40 + other, 0x500), (0x50, 0x400 + other), (0x40 + other, 0x400 + other)):
                        play.open(Settings(unit=unit, rx=rx))
            for unit, rx in ((0x40 + closed, 0x500), (0x50, 0x400 + closed)):
                play.open(Settings(unit=unit, rx=rx))
                play.due()
                play.due()
                play.say("close")
            bring(play, phase, unit=0x40 + closed, rx=0x400 + closed)


def every_owner(play):
    """Each ID, with all places in use, some of them closed, and all of them."""
    for used in (PLACES, 5, 0):
        play.speak("new")
        for seat in range(PLACES if used else 0):
            bring(play, PHASES[seat % 3], unit=seat * 30, rx=(0x1FF, 0x2F0, 0x2FF, 0x300, 0x000, 0x7FF, 0x123, 0x6AB)[seat])
        for seat in play.rng.sample(SEATS, PLACES - used):
            play.at = seat
            play.say("close")
        for ident in (*range(0x801), 0x8FF, 0xA00, 0xA1E, 0xB00, 0xFFF, 0x1000, 0x1300, 0xFFFF):
            play.owner(ident)
            play.frame(ident, play.rng.choice((b"", b"\xA2", b"\x40\x00", b"\xA8\x00")))


def every_call(play):
    """Every call at places that are there and at others, in every phase, and where the number is badly written or too large."""
    for phase in ("closed", *PHASES):
        for again in (0, 1):
            play.speak("new")
            if phase != "closed":
                fill(play, phase)
            for place in (*SEATS, 8, 9, 10, 127, 128, 254, 255, 256, 257, 264, 300, 65536, 2**32, 2**64, 2**64 + 3):
                for call in ("time 1", "send 01 02 03", "send -", "send " + "5A" * 1025, "due", "due 01 02", "due -", "take",
                             "room 3", "buffer", "room 4096", "room 1024", "time", "send", "send 1", "due 1", "take 1", "close -",
                             "room", "room 4097", "buffer 1", "open", "new", "frame 300 A8", "owner 300", "", "close", "close",
                             "due", "due"):
                    play.speak(("%d %s", "%03d  %s ")[again] % (place, call))


def every_number(play):
    """Each number that may name a place, and what is none."""
    fill(play)
    for place in range(NAMED + 50):
        for form in ("%d take", "0%d buffer", "%030d take"):
            play.speak(form % place)
    for line in NO_CALLS:
        play.speak(line)


def every_loss(play):
    """Time for all, and at one place, that ends a last wait at one place alone, at several, and at none."""
    for phase in PHASES:
        for alone in (*SEATS, None):
            for call in ("time 100", "time 101", "time 99", "%d time 100" % (alone or 0), "time 18446744073709551615"):
                play.speak("new")
                for seat in SEATS:
                    short = seat == alone
                    bring(play, phase, unit=0x40 + seat, rx=0x400 + seat, te=100 if short else 200, mntc=0,
                          repeats=0, t1=0x4A if short else 0x54)
                    if phase == "open":
                        play.send((5,))
                    play.due()
                play.speak(call)
                for seat in SEATS:
                    play.speak("%d due" % seat)
                play.owner(0x400 + (alone or 0))
                play.owner(0x240 + (alone or 0))


def every_give_up(play):
    """An Ack that uses up the repeats at one place, bare and padded, with the others waiting for theirs."""
    for alone in SEATS:
        for behind in (b"", play.filling(7)):
            play.speak("new")
            for seat in SEATS:
                bring(play, "open", unit=0x40 + seat, rx=0x400 + seat, repeats=0)
                play.send((5,))
                play.due()
            play.at = alone
            play.heard(0x90, *behind)
            for seat in SEATS:
                play.at = seat
                play.due()
                play.frame(0x400 + seat, (0xB1, *behind))


def every_telegram(play):
    """At each place, a frame of each kind in each phase, bare and padded, on the ID listened on and on its other one."""
    for alone in SEATS:
        for behind in (b"", play.filling(7)):
            play.speak("new")
            for seat in SEATS:
                bring(play, PHASES[seat % 3] if seat != alone else "setup", unit=0x40 + seat, rx=0x400 + seat, interval=50)
            for phase in (*PHASES, "closed"):
                play.at = alone
                for ident in (0x240 + alone, 0x400 + alone):
                    play.owner(ident)
                    for first in (0x10, 0xB1, 0xA3, 0xA4, 0xA2):
                        play.frame(ident, (first, *behind))
                for size in (0, 16):        # with a test out, where it is open
                    play.frame(0x400 + alone, (0xA1, size, 0x8A, 0xFF, 0x32, 0xFF, *behind[:2]))
                play.due()
                play.heard(*play.d0(0x740)) if phase == "setup" else play.a1(15, 0)
                play.wait(50)
                play.due()
                play.due()
                if phase == "open":
                    for size in (0, 16, 15):
                        play.frame(0x400 + alone, (0xA1, size, 0x8A, 0xFF, 0x32, 0xFF, *behind[:2]))
                    play.say("close")


def eight_at_once(play):
    """A message each way at each place, frame by frame in turn; each place is the first to end once."""
    for first, length, room in ((0, 1024, 1024), (1, 208, 4096), (2, 1, 1), *((seat, 13, 13) for seat in SEATS)):
        turn = [(first + seat) % PLACES for seat in SEATS]
        play.speak("new")
        for seat in SEATS:
            bring(play, "open", unit=0x40 + seat, rx=0x400 + seat, block=15 - seat)
            play.say("room %d" % room)
        messages = [play.bytes(length) for _ in SEATS]
        flags = [play.flags() for _ in SEATS]
        for frame in range(model.frames_of(length)):
            for play.at in turn:
                seat = play.at
                data, asks = model.cut(messages[seat], frame, play.c.sender.block, play.c.receiver.expected, flags[seat])
                play.heard(*data)
                if asks:
                    play.due()
        for play.at in turn:
            play.buffer()
            assert shown(play.say("take")) == model.Message(messages[play.at], flags[play.at])
        for play.at in turn:
            play.say("send " + play.typed(messages[(play.at + 1) % PLACES]))
        while any(record.in_sending() for record in play.records):
            for play.at in turn:
                s = play.c.sender
                if s.wait:
                    play.control(0xB0 | (s.number + s.next) % 16)
                elif s.length is not None:
                    play.due()


SWEEPS = (limits, every_receive_id, every_unit, every_closing, every_in_use, every_owner, every_call, every_number, every_loss,
          every_give_up, every_telegram, eight_at_once, among(every_ack, 3), among(every_first_frame, 7),
          among(every_later_frame, 0), among(every_flags, 5), among(every_length, 6), among(every_time_code, 1))


# At random

def led(kind, most=1.0):
    """A lone record's scenario, with the lead going from place to place."""
    def played(play, rng, steps):
        play.hops = rng.choice((0.02, 0.1, 0.5, most))
        for _ in range(rng.choice((0, 2, 5, 7, 8))):
            bring(play, rng.choice(PHASES), repeats=rng.choice((5, 0, 1)), block=rng.choice((15, 2, 3)),
                  interval=rng.choice((0, 0, 200)))
        kind(play, rng, steps)
    return played


def churn(play, rng, steps):
    """Openings and closings, with frames to whoever was or is there."""
    for _ in range(steps):
        way = rng.random()
        closed = [seat for seat in SEATS if play.records[seat].phase == "closed"]
        if way < 0.4:
            play.open(play.settings() if rng.random() < 0.7 else play.odd_settings())
        elif way < 0.5 and closed:
            bring(play, rng.choice(PHASES))
        elif way < 0.65:
            play.at = rng.randrange(PLACES)
            play.say("close")
        elif way < 0.75:
            play.stranger()
        elif way < 0.8:
            play.owner(play.some_id())
        else:
            play.at = rng.randrange(PLACES)
            play.due() if way < 0.9 else play.step({})


def strangers(play, rng, steps):
    """Frames for owners and for none."""
    for _ in range(rng.randrange(9)):
        bring(play, rng.choice(PHASES)) if any(r.phase == "closed" for r in play.records) else None
    for _ in range(steps):
        rng.choice((play.stranger, play.stranger, lambda: play.owner(play.some_id()), play.nowhere, play.time_for_all,
                    lambda: play.step({}), play.around))()
        if rng.random() < 0.2:
            play.at = rng.randrange(PLACES)


class Talk:
    """One place's part of a bus: its car, what is under way to it, and what was said."""

    def __init__(self, car):
        self.car = car
        self.there, self.accepted, self.taken = [], [], []


def bus(play, rng, steps, lengths, loss=0.0, clean=False):
    """Several units talk at once, each over a link that loses and repeats; clean links must deliver all of it in order."""
    pick = rng.choice
    habits = {"speak": 0.5, "hold": pick((0, 0.05)), "test": pick((0, 0.02)), "flag": pick((0, 0.3)), "pad": pick((0, 0.5, 0.9))}
    if not clean:
        habits.update({"break": pick((0, 0.01)), "refuse": 0.05, "refuse_data": 0.3, "bye": pick((0, 0.002))})
    twice = 0 if clean else pick((0, 0.1))
    talks, here = {}, []

    def put(link, frame):
        if rng.random() >= loss:
            link += [frame] * (2 if rng.random() < twice else 1)

    def begin():
        chosen = play.settings(t1=0x8A, interval=pick((0, 3000)), repeats=255 if clean else pick((5, 20)), tests=5, mntc=10,
                               twait=pick((100, 1000)))._replace(**play.free())
        if play.open(chosen) == "0":
            talks[play.at] = Talk(model.Car(rng, 0x740 + play.at, rng.randrange(1, 16), pick((0, 0, 0x32, 0x01)), habits))

    for _ in range(rng.randrange(2, PLACES + 1)):
        begin()
    for _ in range(steps):
        play.at = pick(list(talks))
        talk, c = talks[play.at], play.c
        car = talk.car
        if play.over(car):
            if clean:
                continue
            begin()
            continue
        due = play.something_due()
        quick = clean and c.phase != "open"
        options = {"due": 8 if due else 0.4, "time": 0 if quick else 1 if due or here or talk.there else 3,
                   "here": 8 if here else 0, "there": 8 if talk.there else 0, "work": 3,
                   "tire": 0.1 if car.talks() and (here or talk.there) else 1}
        if c.phase == "open":
            options.update({"send": 2 if c.sender.length is None else 0.02,
                            "take": 0.02 if c.receiver.complete is None else 20, "buffer": 0.02})
        way = rng.choices(list(options), list(options.values()))[0]
        if way == "due":
            frame = play.due()
            if frame:
                put(talk.there, frame)
        elif way == "there":
            for frame in car.hear(*talk.there.pop(0)):
                put(here, frame)
        elif way == "here":
            play.frame(*here.pop(0))
        elif way == "work":
            frame = car.work(lengths)
            if frame:
                put(here, frame)
        elif way == "tire":
            car.tire()
        elif way == "time":
            left = timers(c)
            short = left.get("T3") or (0 if here or talk.there else min(left.values(), default=0))
            if rng.random() < 0.2 and not clean:
                play.speak("time %d" % (short or rng.randrange(40)))
            else:
                play.wait(short or rng.randrange(40))
        elif way == "send":
            message = play.bytes(pick(lengths))
            if play.say("send " + play.typed(message)) == "0":
                talk.accepted.append(message)
        elif way == "take":
            answer = play.say("take")
            if answer.startswith("0"):
                talk.taken.append(shown(answer))
        else:
            play.buffer()
    if clean:
        for talk in talks.values():
            heard, sent = talk.car.heard, talk.car.sent
            assert heard == talk.accepted[:len(heard)] and talk.taken[:len(sent)] == sent[:len(talk.taken)]
            assert len(talk.taken) >= len(sent) - 1
            for name, carried in zip(play.ENDS, (talk.taken, heard)):
                play.tally["carried to the " + name] += len(carried)


def clean_bus(play, rng, steps):
    bus(play, rng, 4 * steps, rng.choice((SHORT, LENGTHS)), clean=True)


def lossy_bus(play, rng, steps):
    bus(play, rng, 3 * steps, rng.choice((SHORT, LENGTHS)), loss=rng.choice((0, 0.02, 0.1, 0.3)))


def long_bus(play, rng, steps):
    bus(play, rng, 2000, LONG, loss=rng.choice((0, 0.002, 0.01)))


KINDS = {led(openings): 4, led(sending): 12, led(receiving): 14, led(short_buffers): 6, led(testing): 8, led(anything): 14,
         led(malformed_lines): 6, led(settings): 4, led(full_blocks): 3, churn: 14, strangers: 8, clean_bus: 6, lossy_bus: 8,
         long_bus: 2}


def at_random(play):
    kind = play.rng.choices(list(KINDS), list(KINDS.values()))[0]
    kind(play, play.rng, play.rng.randrange(40, 200))


def scenario(play, index):
    """The first few go through all values of something; the rest are random."""
    if index < len(SWEEPS):
        SWEEPS[index](play)
    else:
        at_random(play)
    play.finish()
