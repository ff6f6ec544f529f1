"""A tester with a table of connections and up to eight control units, each a program of this repository, on one bus.

The tester is the table's console, each unit a unit's console. The tester's frames go into one link, from which each reaches
every unit; each unit's go into its own, to the tester. A link's first frame arrives and goes, arrives and stays (it is
repeated), or is lost, for all alike. Time is simulated, in tenths of a millisecond, and is the same everywhere; a program is
told of it before its next call.
"""

import random
from typing import NamedTuple

from carrier import FRAME, LATER, PAUSE, REST, SILENCE, STUCK, Failed, Frame, Line, Side

MOST = 8                # units
LONG = 250              # what passes where nothing has moved for a good while


class Plan(NamedTuple):
    """What is played with a unit: the call that opens its place, that which sets the unit, and a message each way."""
    opening: str
    settings: str
    request: bytes
    answer: bytes


def plans(count):
    """Units 1 and up, each asked for its measuring values, of which it has 905 to 1,024 bytes, in records that name the unit and
    their own number, so that whatever gets mixed up shows. The settings are those of the exchange with one unit."""
    return [Plan("open %d %d 8 138 50 1000 10 5 1000 5000 5" % (0x300 + unit - 1, unit),
                 "set %d %d 8 138 50 1000 10 5 1000 10000 5 208" % (0x740 + unit - 1, unit),
                 bytes([0x21, unit]),
                 (bytes([0x61, unit]) + b"".join(bytes([unit, k, 0xFF - k, (7 * k + 31 * unit) & 0xFF])
                                                 for k in range(256)))[:888 + 17 * unit])
            for unit in range(1, count + 1)]


class Bus:
    """One run: `run` plays it and gives the log."""

    def __init__(self, tester, cars, seed=0, lose=0, repeat=0, plan=None):
        self.tester, self.cars = tester, cars
        self.plan = plan or plans(len(cars))
        self.places = [Side(tester, [plan.request]) for plan in self.plan]
        self.units = [Side(car, [plan.answer]) for car, plan in zip(cars, self.plan)]
        self.link = []          # out of the tester; a unit's is its own
        self.draw = random.Random(seed).random
        self.lose, self.repeat = lose, repeat       # percent
        self.now = 0
        self.told = {program: 0 for program in (tester, *cars)}     # up to when a program knows of time
        self.log = []
        self.pauses = 0         # in a row
        self.still = 0          # how long nothing has moved
        self.agreed = set()     # the places that have their A1
        self.begun = False      # messages may go: all that belongs to the openings has arrived
        self.ending = None      # when the tester closes
        self.closed = False     # it has
        self.data_at = 0        # when data was last handed over

    def run(self):
        for car, plan in zip(self.cars, self.plan):
            self.first(car, "new", "0")
            self.first(car, plan.settings, "0")
        self.first(self.tester, "new", "0")
        for place, plan in enumerate(self.plan):
            self.first(self.tester, plan.opening, "0 at %d" % place)
        while self.still < SILENCE:
            self.step()
        return self.log

    def first(self, program, line, wanted):
        if program.call(line) != wanted:
            raise Failed("%s refuses %s" % (program.command[0], line))

    def step(self):
        moved = self.hand_over()
        if self.carry() or moved:
            self.pauses = self.still = 0
            return
        # A frame of an opening that is still under way could begin a connection anew, so messages wait for all of them.
        if not self.begun and all(place in self.agreed or side.lost for place, side in enumerate(self.places)):
            self.begun, self.data_at = True, self.now
        if self.talk():
            self.pauses = self.still = 0
            return
        span = PAUSE if self.pauses < 10 else LATER if self.pauses < 20 else LONG
        self.pauses += 1
        self.still += span
        self.now += span

    # Calls

    def calls(self, program, lines):
        """The answers, after the time that has passed."""
        span, self.told[program] = self.now - self.told[program], self.now
        if not span:
            return program.calls(lines)
        passed, *answers = program.calls(["time %d" % span, *lines])
        sides = self.places if program is self.tester else [self.units[self.cars.index(program)]]
        for side, number in zip(sides, passed.split(" ")):
            side.lost = side.lost or number == "8"
        return answers

    # Frames

    def hand_over(self):
        """At most one frame from each place and each unit."""
        given = [(self.link, answer) for answer in self.calls(self.tester, ["%d due" % place for place in range(len(self.places))])]
        for unit in self.units:
            given += [(unit.link, answer) for answer in self.calls(unit.program, ["due"])]
        frames = [(link, answer.split(" ")[1:]) for link, answer in given if " " in answer]
        for link, words in frames:
            frame = Frame(int(words[0], 16), bytes.fromhex("".join(words[1:])))
            self.log.append(Line(self.now, frame))
            link.append(frame)
            if self.begun and frame.data[0] < 0x40:
                self.data_at = self.now
            self.now += FRAME
        return bool(frames)

    def carry(self):
        """The first frame of each unit's link, and of the tester's as many as it has places."""
        moved = False
        for link, arrive in (*((self.link, self.reach_units) for _ in self.places),
                             *((unit.link, self.reach_tester) for unit in self.units)):
            if not link:
                continue
            moved, chance = True, 100 * self.draw()
            if chance < self.lose:
                del link[0]
            elif chance < self.lose + self.repeat:
                arrive(link[0])
            else:
                arrive(link.pop(0))
        return moved

    def reach_units(self, frame):
        for unit in self.units:
            self.arrived(unit, self.calls(unit.program, [frame_line(frame)])[0], frame, "take")

    def reach_tester(self, frame):
        answer, _, place = self.calls(self.tester, [frame_line(frame)])[0].partition(" at ")
        if not place:
            return              # for none
        if answer.startswith("0") and frame.data[0] == 0xA1:
            self.agreed.add(int(place))
        self.arrived(self.places[int(place)], answer, frame, place + " take")

    def arrived(self, side, answer, frame, take):
        number, *words = answer.split(" ")
        if number == "8":
            side.lost = True
        elif number == "0" and "done" in words:
            side.done += 1
        elif number == "0" and self.begun and frame.data[0] < 0x40 and frame.data[0] & 0x10:
            number, *words = self.calls(side.program, [take])[0].split(" ")
            if number == "0":
                side.taken.append(None if words[0] == "flags" else bytes.fromhex("".join(words)))   # none of ours has flags

    # Messages

    def talk(self):
        """What the users do once nothing moves by itself: the tester sends its requests, the units their answers, all at once,
        when each has taken one, and the tester closes. What is lost is left alone; the others go on."""
        if not self.begun:
            return False
        pairs = [(place, here, there) for place, (here, there) in enumerate(zip(self.places, self.units))
                 if not (here.lost or there.lost)]
        asked = all(there.taken for _, _, there in pairs)
        moved = False
        for place, here, there in pairs:
            moved |= self.send(here, "%d send " % place)
            moved |= asked and self.send(there, "send ")
        if moved or self.closed:
            return moved
        if self.ending is None and all(self.finished(place) for place in range(len(self.places))):
            self.ending = self.now + REST
        if self.now >= (self.data_at + STUCK if self.ending is None else self.ending):
            self.closed = True
            open_ones = [place for place, side in enumerate(self.places) if not side.lost]
            return "0" in self.calls(self.tester, ["%d close" % place for place in open_ones])
        return False

    def send(self, side, call):
        if not side.script or self.calls(side.program, [call + side.script[0].hex(" ").upper()])[0] != "0":
            return False
        side.accepted.append(side.script.pop(0))
        return True

    def finished(self, place):
        here, there = self.places[place], self.units[place]
        return here.lost or there.lost or all(
            not one.script and one.done == len(one.accepted) == len(other.taken) for one, other in ((here, there), (there, here)))

    def kept(self):
        """What was taken at each place is, byte for byte, what its unit sent, so far as it came, and the other way round."""
        return all(one.taken == other.accepted[:len(one.taken)] for here, there in zip(self.places, self.units)
                   for one, other in ((here, there), (there, here)))


def frame_line(frame):
    return "frame %03X %s" % (frame.ident, frame.data.hex(" ").upper() or "-")
