"""A tester and a control unit, each a program of this repository, and what carries frames and time between them.

The tester is the console and the car is the unit's console. A frame that a side hands over goes last into its link; a link's
first frame arrives and goes, arrives and stays (it is repeated), or is lost. Time is simulated, in tenths of a millisecond,
and is the same at both sides.
"""

import os
import random
import re
import subprocess
from typing import NamedTuple

TESTER, CAR = 0, 1
NAMES = "tester", "car"

FRAME = 2               # tenths that a frame takes on the bus
PAUSE, LATER = 10, 50   # what passes where nothing moves, at first and after some such pauses
REST = 5500             # after the last message, before the tester closes: a test of its own goes out in it
STUCK = 30000           # no data moves for so long though the script is not finished: the tester closes
SILENCE = 12000         # nothing moves for so long, not even a test: the exchange is over

# The defaults of both sides, but that the tester tests after half a second without a frame, before the car would.
OPENING, SETTINGS = "open 768 1 8 138 50 1000 10 5 1000 5000 5", "set"


class Failed(Exception):
    """A program that does not keep its line protocol."""


class Program:
    """A console as a child process: one line is one call, and each is answered by one line."""

    def __init__(self, command):
        self.command = command
        self.process = subprocess.Popen(command, stdin=subprocess.PIPE, stdout=subprocess.PIPE, text=True)

    def call(self, line):
        return self.calls((line,))[0]

    def calls(self, lines):
        """Several calls, written at once."""
        answers = []
        try:
            self.process.stdin.write("".join(line + "\n" for line in lines))
            self.process.stdin.flush()
        except BrokenPipeError:
            pass
        for line in lines:
            answer = self.process.stdout.readline()
            if not re.match(r"\d", answer):
                raise Failed("%s answers %s to %s" % (self.command[0], answer.rstrip("\n") or "nothing", line))
            answers.append(answer.rstrip("\n"))
        return answers

    def end(self):
        try:
            self.process.stdin.close()
        except BrokenPipeError:
            pass
        self.process.stdout.close()
        self.process.wait()


class Frame(NamedTuple):
    ident: int
    data: bytes


class Message(NamedTuple):
    """A message of the script: its side, its bytes, and how many of the other side's have to be taken before it is sent."""
    side: int
    data: bytes
    after: int = 0


class Line(NamedTuple):
    """A line of the log."""
    time: int           # tenths
    frame: Frame

    def __str__(self):
        seconds, rest = divmod(self.time, 10000)
        return "(%d.%06d) can0 %03X#%s" % (seconds, rest * 100, self.frame.ident, self.frame.data.hex().upper())


def dialogue(exchanges):
    """A script from requests, each with its answers: each message waits for all before it."""
    script, count = [], [0, 0]
    for request, *answers in exchanges:
        for side, data in ((TESTER, request), *((CAR, answer) for answer in answers)):
            script.append(Message(side, data, count[1 - side]))
            count[side] += 1
    return script


FAULTS = b"".join((0x4000 + 37 * k).to_bytes(2, "big") + bytes([0x60 if k % 3 else 0xE0]) for k in range(40))

# A diagnostic session with an engine's unit: start, identification, measuring values, a fingerprint written, and the fault
# memory, for which the unit asks for time first.
SESSION = dialogue((
    (bytes.fromhex("10 89"), bytes.fromhex("50 89")),
    (bytes.fromhex("1A 9B"), bytes.fromhex("5A 9B") + b"03G906016CD 9375" + bytes.fromhex("03 00 01 72 04 F9 2D")
     + b"R4 2,0L EDC G000SG  "),
    (bytes.fromhex("21 01"),
     bytes.fromhex("61 01 01 00 00 27 00 00 22 00 80 1A 32 4B 25 02 7A 25 00 00 25 00 00 25 00 00")),
    (bytes.fromhex("3B 9A 26 11 17 00 04 F9 2D 00 01 E2 40"), bytes.fromhex("7B 9A")),
    (bytes.fromhex("18 00 FF 00"), bytes.fromhex("7F 18 78"), bytes.fromhex("58 28") + FAULTS),
))


class Side:
    """A side: its program, the link out of it, and what is known of its messages."""

    def __init__(self, program, script):
        self.program = program
        self.script = script    # its messages still to be sent
        self.link = []
        self.accepted = []
        self.done = 0
        self.taken = []         # the other side's messages, as this one takes them
        self.lost = False       # it answered 8


class Exchange:
    """One run: `run` plays it and gives the log."""

    def __init__(self, tester, car, seed=0, lose=0, repeat=0, script=SESSION, opening=OPENING, settings=SETTINGS):
        self.sides = [Side(program, [message for message in script if message.side == side])
                      for side, program in ((TESTER, tester), (CAR, car))]
        self.draw = random.Random(seed).random
        self.lose, self.repeat = lose, repeat       # percent
        self.first_calls = opening, settings
        self.now = 0
        self.log = []
        self.pauses = 0         # in a row
        self.still = 0          # how long nothing has moved
        self.agreed = False     # the tester has its A1
        self.begun = False      # messages may go: all that belongs to the opening has arrived
        self.ending = None      # when the tester closes
        self.closed = False     # it has
        self.data_at = 0        # when data was last handed over

    def run(self):
        for side, line in zip(self.sides, self.first_calls):
            for call in ("new", line):
                if side.program.call(call) != "0":
                    raise Failed("%s refuses %s" % (side.program.command[0], call))
        while self.still < SILENCE:
            self.step()
        return self.log

    def step(self):
        moved = [self.hand_over(side) for side in self.sides]
        links = [self.carry(side) for side in (TESTER, CAR)]
        if any(moved) or any(links):
            self.pauses = self.still = 0
            return
        # A frame of the opening that is still under way could begin the connection anew, so messages wait for it.
        if self.agreed and not self.begun:
            self.begun, self.data_at = True, self.now
        if self.talk():
            self.pauses = self.still = 0
            return
        span = PAUSE if self.pauses < 10 else LATER
        self.pauses += 1
        self.still += span
        self.elapse(span)

    # Frames

    def hand_over(self, side):
        words = side.program.call("due").split(" ")
        if len(words) < 3:
            return False
        frame = Frame(int(words[1], 16), bytes.fromhex("".join(words[2:])))
        self.log.append(Line(self.now, frame))
        side.link.append(frame)
        if self.begun and frame.data[0] < 0x40:
            self.data_at = self.now
        self.elapse(FRAME)
        return True

    def carry(self, side):
        """The first frame of a side's link."""
        link = self.sides[side].link
        if not link:
            return False
        chance = 100 * self.draw()
        if chance < self.lose:
            del link[0]
        elif chance < self.lose + self.repeat:
            self.arrive(1 - side, link[0])
        else:
            self.arrive(1 - side, link.pop(0))
        return True

    def arrive(self, side, frame):
        here = self.sides[side]
        number, *words = here.program.call("frame %03X %s" % (frame.ident, frame.data.hex(" ").upper() or "-")).split(" ")
        if number == "8":
            here.lost = True
        elif number == "0" and "done" in words:
            here.done += 1
        elif number == "0" and side == TESTER and frame.data[:1] == b"\xA1":
            self.agreed = True
        if self.begun and number == "0":
            self.take(here)

    # Time

    def elapse(self, span):
        self.now += span
        for side in self.sides:
            if side.program.call("time %d" % span).split(" ")[0] == "8":
                side.lost = True

    # Messages

    def take(self, side):
        number, *words = side.program.call("take").split(" ")
        if number == "0":
            side.taken.append(None if words[0] == "flags" else bytes.fromhex("".join(words)))   # none of ours has flags

    def talk(self):
        """What the two sides' users do once nothing moves by itself: they send what is next, and the tester closes."""
        if not self.begun or any(side.lost for side in self.sides):
            return False
        sent = [self.send(side) for side in self.sides]
        if any(sent):
            return True
        if self.closed:
            return False
        if self.ending is None and all(self.finished(side) for side in (TESTER, CAR)):
            self.ending = self.now + REST
        if self.now >= (self.data_at + STUCK if self.ending is None else self.ending):
            self.closed = True
            return self.sides[TESTER].program.call("close") == "0"
        return False

    def send(self, side):
        if not side.script or side.done < len(side.accepted) or len(side.taken) < side.script[0].after:
            return False
        message = side.script.pop(0).data
        if side.program.call("send " + message.hex(" ").upper()) != "0":
            return False
        side.accepted.append(message)
        return True

    def finished(self, side):
        here, there = self.sides[side], self.sides[1 - side]
        return not here.script and here.done == len(here.accepted) == len(there.taken)

    def kept(self):
        """What each side took is, byte for byte, the first so many messages that the other accepted."""
        return all(here.taken == there.accepted[:len(here.taken)]
                   for here, there in (self.sides, reversed(self.sides)))


# The programs

ROOT = os.path.dirname(os.path.dirname(os.path.abspath(__file__)))
CONSOLE, UNIT_CONSOLE, TABLE_CONSOLE = (os.path.join("crates", name, "out", name)
                                        for name in ("console", "unit_console", "table_console"))
PROGRAMS = CONSOLE, UNIT_CONSOLE


def missing(programs=PROGRAMS):
    """The programs that are not there, by their names."""
    return [os.path.basename(path) for path in programs if not os.access(os.path.join(ROOT, path), os.X_OK)]


def started(programs=PROGRAMS):
    return [Program([os.path.join(ROOT, path)]) for path in programs]
