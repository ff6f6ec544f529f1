"""What request 7 says of two runs, asked of a model of the table: with the same openings and the same calls to the others, one
connection getting other calls of its own between, and the same places, units and receive IDs in use at each opening, the
answers, buffers and records of the others are the same.

A connection lasts from the opening that names its place to the next one that does; its own calls are those that name its place
and the frames that it owns meanwhile. Each connection is lent a buffer of its own."""

import collections
import copy
import random
from typing import NamedTuple

import model
from reached import name_of, picture
from table_model import PLACES
from table_reached import split
from table_scenarios import Led, TablePlay, at_random, owners_of

RUNS = 2000
MOST = 400              # lines of a run


class Run:
    """A run from an empty table, in which one connection is looked at: the one that so many openings answered 0 precede."""

    def __init__(self, console, one):
        self.console, self.one = console, one
        self.openings = 0
        self.seat = None        # the place of the one, while it lasts

    @property
    def record(self):
        """The one's record; None before its opening, and after the next that takes its place."""
        return None if self.seat is None else self.console.table.records[self.seat]

    def whom(self, line):
        """The place that a call is to, "open", or None where it is to no connection."""
        seat, words = split(line)
        if seat is not None:
            return seat if seat < PLACES else None
        if words[0] == b"frame" and len(words) > 1 and len(words[1]) <= 4 and model.HEX.issuperset(words[1]):
            return next(iter(owners_of(self.console.table.records, int(words[1], 16))), None)
        return "open" if words[0] == b"open" else None

    def used(self):
        return [(seat, record.settings.unit, record.settings.rx) for seat, record in enumerate(self.console.table.records)
                if record.phase != "closed"]

    def call(self, line):
        answer = self.console.answer(line)
        if name_of(line) == b"open" and answer.startswith("0"):
            seat = int(answer.split(" ")[-1])
            place = self.console.places[seat]
            place.storage, place.accepted = bytearray(model.BUFFER), b""
            place.lend(1024)
            if self.openings == self.one:
                self.seat = seat
            elif seat == self.seat:
                self.seat = None
            self.openings += 1
        return answer

    def others(self):
        """The records and buffers of all others."""
        return [picture(place) for seat, place in enumerate(self.console.places) if seat != self.seat]


class Step(NamedTuple):
    """A call of the first run."""
    line: bytes
    whom: object
    own: bool               # to the one
    used: list              # what was in use before it
    kept: bool              # the one was in use before it
    answer: str
    others: list


class Twin(TablePlay):
    """What is played at the one connection in the second run: of a scenario's steps, the calls of its own."""

    def begin(self, run):
        self.second, self.console, self.own = run, run.console, 0
        self.returns, self.stay = 0, False      # it has to stay in use, for an opening to come

    def speak(self, line):
        line = line.encode() if type(line) is str else line
        if line == b"new":
            return "0"
        if not line.strip(b" ") or line[:1] == b"#" or self.second.whom(line) != self.second.seat:
            return "0"
        kept = copy.deepcopy(self.c.__dict__) if self.stay else None
        answer = self.second.call(line)
        self.own += 1
        if kept and self.c.phase == "closed":
            self.c.__dict__.clear()             # that call did not come
            self.c.__dict__.update(kept)
        return answer.split(" at ")[0]


def lines_of(rng):
    """A scenario's lines; time for all is eight calls."""
    play = TablePlay(rng, 0, collections.Counter(), False)
    play.returns = 0
    at_random(play)
    openings, lines = 0, []
    for line, answer in zip(play.lines[1:MOST], play.expected[1:MOST]):
        if answer is None or answer.startswith("error"):
            continue
        openings += name_of(line) == b"open" and answer.startswith("0")
        lines += [b"%d %s" % (seat, line) for seat in range(PLACES)] if name_of(line) == b"time" else [line]
    return lines, openings


def story(lines, run):
    """The first run."""
    for line in lines:
        whom, used, record = run.whom(line), run.used(), run.record
        own = whom == run.seat and record is not None
        kept = record is not None and record.phase != "closed"
        answer = run.call(line)
        yield Step(line, whom, own, used, kept, answer, run.others())


def apart(rng, console=Led, tally=None):
    """What differs for the others in two runs; None if nothing does."""
    tally = collections.Counter() if tally is None else tally
    lines, openings = lines_of(rng)
    one = rng.randrange(openings) if openings else 0
    steps = list(story(lines, Run(console(), one)))
    needed = max((at for at, step in enumerate(steps) if step.whom == "open" and step.kept), default=-1)
    run = Run(console(), one)
    play = Twin(rng, 0, collections.Counter(), False)
    play.begin(run)
    for at, step in enumerate(steps):
        for _ in range(rng.choice((0, 0, 1, 1, 2, 5)) if run.record else 0):
            play.at, play.stay = run.seat, at <= needed
            play.step({})
        if step.whom is None or step.own:
            tally["own calls left out"] += step.own
            continue
        if step.whom == "open":
            if run.record and not step.kept and run.record.phase != "closed":
                run.call(b"%d close" % run.seat)
            if run.used() != step.used:
                return step.line, step.used, run.used()
            tally["openings meanwhile"] += run.record is not None
        answer = run.call(step.line)
        tally["calls to the others"] += run.record is not None
        if answer != step.answer or run.others() != step.others:
            return step.line, step.answer, answer
    tally["own calls put in"] += play.own
    return None


def held(seed, runs=RUNS):
    """Plays so many pairs of runs: True if the others are the same in each."""
    tally = collections.Counter()
    for number in range(runs):
        found = apart(random.Random("%s/apart/%d" % (seed, number)), tally=tally)
        if found:
            print("pair of runs %d of seed %s: %r" % (number, seed, found))
            return False
    print("%d pairs of runs, in which the others' answers, buffers and records are the same: %s" % (
        runs, ", ".join("%s x%d" % item for item in sorted(tally.items()))))
    return True
