"""Which places of the rules a scenario of the control unit's side reaches: every cell of its table of states and calls, what
is dropped and what goes out in its place, the settings, and all of an open connection."""

from typing import NamedTuple

import model
import reached
from model import Settings, named, sort
from reached import at_lengths, listed, open_places, place_of_call, place_of_settings, place_of_sorted

# What each call and telegram is answered in each state; of a due call that is answered 0, what it hands over.
CELLS = """
                | closed | A8 due | reply due  | D0 due | D0 out | A1 due | open              | in sending
set good        | 0      | 0      | 0          | 4      | 4      | 4      | 4                 | 4
set bad         | 10     | 10     | 10         | 4      | 4      | 4      | 4                 | 4
C0              | 0      | 0      | 0          | 0      | 0      | 0      | 0                 | 8
A0 good         | 4      | 4      | 4          | 4      | 0      | 0      | 0                 | 8
A0 bad          | 4      | 4      | 4          | 4      | 2      | 2      | 2                 | 2
A8              | 4      | 4      | 4          | 0      | 0      | 0      | 0                 | 0
A1              | 4      | 4      | 4          | 4      | 4      | 4      | 0, 2, 4           | 0, 2, 4
A3              | 4      | 4      | 4          | 4      | 4      | 4      | 0                 | 0
A4              | 4      | 4      | 4          | 4      | 4      | 4      | 0                 | 0
Ack             | 4      | 4      | 4          | 4      | 4      | 4      | 12                | 0, 0 done, 8, 12
data            | 4      | 4      | 4          | 4      | 4      | 4      | 0, 5, 7, 9, 12    | 0, 5, 7, 9, 12
malformed       | 4      | 4      | 4          | 1      | 1      | 1      | 1                 | 1
another ID      | 4      | 4      | 4          | 3      | 3      | 3      | 3                 | 3
200, malformed  | 1      | 1      | 1          | 1      | 1      | 1      | 1                 | 1
200, other unit | 3      | 3      | 3          | 3      | 3      | 3      | 3                 | 3
send            | 4      | 4      | 4          | 4      | 4      | 4      | 0, 6              | 5
take            | 4      | 4      | 4          | 4      | 4      | 4      | 0, 5, 7           | 0, 5, 7
time            | 0      | 0      | 0          | 0      | 0      | 0      | 0, 8              | 0, 8
due             | none   | A8     | D6, D7, D8 | D0     | none   | A1     | none, A1, A3, Ack | none, A1, A3, Ack, data, 7
close           | 4      | 4      | 4          | 0      | 0      | 0      | 0                 | 0
"""

# What an event drops, and what the next due call hands over; then what shows which A0 holds.
REACHED = """
due after set drops A8: none|due after set drops D6: none|due after set drops D7: none|due after set drops D8: none
due after C0 drops A8: D0|due after C0 drops D0: D0|due after C0 drops A1: D0|due after C0 drops D6: D6
due after C0 drops D7: D7|due after C0 drops D8: D8|due after C0 drops Ack: D0|due after C0 drops A1 to a test: D0
due after C0 drops A3: D0|due after C0 drops data: D0|due after C0 drops a wait: D0|due after C0 drops a hold: D0
due after A0 drops A1: A1|due after A0 drops Ack: A1|due after A0 drops A1 to a test: A1|due after A0 drops A3: A1
due after A0 drops data: A1|due after A0 drops a wait: A1|due after A0 drops a hold: A1
due after A8 drops D0: A8|due after A8 drops A1: A8|due after A8 drops Ack: A8|due after A8 drops A1 to a test: A8
due after A8 drops A3: A8|due after A8 drops data: A8|due after close drops D0: A8|due after close drops A1: A8
due after close drops Ack: A8|due after close drops A1 to a test: A8|due after close drops A3: A8
due after close drops data: A8|data by a newer A0, smaller block size|data by a newer A0, larger block size
data by a newer A0, shorter T3|data by a newer A0, longer T3|data by an A0 when open, smaller block size
data by an A0 when open, larger block size|data by an A0 when open, shorter T3|data by an A0 when open, longer T3
number 0 sent again after A0|number 0 sent again after C0|number 0 received again after A0
number 0 received again after C0|message received gone after A0|message received gone after C0|message untaken gone after A0
message untaken gone after C0|asker changed by C0, D0 due|asker changed by C0, D0 out|asker changed by C0, A1 due
asker changed by C0, open|asker changed by C0, in sending|carried to the tester|carried to the unit
set rx 0: 0|set rx 2047: 0|set rx 2048: 10|set rx 511: 0|set rx 512: 10|set rx 513: 0|set unit 0: 0|set unit 239: 0
set unit 240: 10|set block 0: 10|set block 1: 0|set block 15: 0|set block 16: 10|set t1 0: 10|set t1 64: 10|set t1 65: 0
set t1 128: 10|set t1 192: 10|set t1 193: 0|set t1 255: 0|set t3 0: 0|set t3 255: 0|set te 0: 10|set te 1: 0
set te 10000: 0|set te 10001: 10|set mntc 0: 0|set mntc 255: 0|set repeats 0: 0|set repeats 255: 0|set twait 0: 10
set twait 1: 0|set twait 65535: 0|set interval 0: 0|set interval 65535: 0|set tests 0: 0|set tests 255: 0
set reply too wide: 10|set rx too wide: 10|set unit too wide: 10|set block too wide: 10|set t1 too wide: 10
set t3 too wide: 10|set te too wide: 10|set mntc too wide: 10|set repeats too wide: 10|set twait too wide: 10
set interval too wide: 10|set tests too wide: 10|set 64 bits and more: 10|set 64 bits and more, D0 due: 4
set 64 bits and more, D0 out: 4|set 64 bits and more, A1 due: 4|set 64 bits and more, open: 4|time longest, closed: 0
time longest, D0 due: 0|time longest, D0 out: 0|time longest, A1 due: 0
"""

ANSWERS = tuple(name for name in reached.ANSWERS if not name.startswith("11"))


def cells():
    """The outcomes of each cell. Where telegrams are sorted, a kind that may be padded has them with the mark too."""
    head, *rows = [line.split("|") for line in CELLS.strip("\n").split("\n")]
    table = {}
    for name, *row in rows:
        for column, cell in zip(head[1:], row):
            name, column = name.strip(), column.strip()
            outcomes = {outcome.strip() for outcome in cell.split(",")}
            if name in ("A8", "A1", "A3", "A4", "Ack") and column not in ("closed", "A8 due", "reply due"):
                outcomes |= {outcome + " padded" for outcome in outcomes}
            table[name, column] = outcomes
    return table


TABLE = cells()


def column(c):
    if c.phase == "closed":
        return "closed" if c.left is None else "A8 due" if c.left[1] == b"\xA8" else "reply due"
    return "in sending" if c.in_sending() else c.phase


def row(c, line):
    """The row that a line is of; None if it is no call or one that the table has not. Told by the bytes and numbers, and not
    by the model's reading of them, so that each is held to the other."""
    words = [word for word in line.split(b" ") if word]
    name, rest = words[0].decode("latin-1"), words[1:]
    try:
        if name == "set":
            numbers = [model.decimal(word) for word in rest] or [0x740, 1, 8, 0x8A, 0x32, 1000, 10, 5, 1000, 10000, 5, 0xD0]
            return None if len(numbers) != 12 else "set good" if settable(*numbers) else "set bad"
        if name == "frame":
            return row_of_frame(c, model.identifier(rest[0]), model.octets(rest[1:]))
        if name == "time":
            model.at_most(model.TIME, model.decimal(model.one(rest)))
        elif name in ("take", "close"):
            model.no_more(rest)
        elif name == "send" or name == "due" and rest:
            model.octets(rest)
        return name if name in ("send", "take", "time", "due", "close") else None
    except (model.Malformed, IndexError):
        return None


def settable(rx, unit, block, t1, t3, te, mntc, repeats, twait, interval, tests, reply):
    return (rx <= 0x7FF and rx != 0x200 and unit <= 0xEF and 1 <= block <= 15 and t1 <= 0xFF and t1 % 64 != 0 and t3 <= 0xFF
            and 1 <= te <= 10000 and max(mntc, repeats, tests) <= 0xFF and 1 <= twait <= 0xFFFF and interval <= 0xFFFF
            and reply in (0xD0, 0xD6, 0xD7, 0xD8))


def row_of_frame(c, ident, data):
    if ident == 0x200:
        formed = len(data) == 7 and data[1:4] == bytes([0xC0, 0x00, 0x10]) and data[5] < 8 and data[6] == 1
        return "200, malformed" if not formed else "C0" if data[0] == c.settings.unit else "200, other unit"
    if ident != c.settings.rx:
        return "another ID"
    kind, _ = sort(data)
    if kind == "A0":
        return "A0 good" if data[1] in range(1, 16) else "A0 bad"
    return {None: "malformed", "disconnect": "A8", "test": "A3", "break": "A4", "ack": "Ack"}.get(kind, kind)


def handed(where, answer):
    """What an answer to a due call hands over, by its kind."""
    number, *words = answer.split(" ")
    if not words:
        return "none" if number == "0" else number
    return kind_of(where, bytes.fromhex("".join(words[1:])))


def kind_of(where, data):
    if where in ("D0 due", "reply due"):
        return "%02X" % data[1]
    kind = named(data[0])
    return {"disconnect": "A8", "test": "A3", "ack": "Ack"}.get(kind, kind)


def pending(c):
    """What is due or under way, by name."""
    if c.phase != "open":
        if c.left is not None:
            yield kind_of(column(c), c.left[1])
        return
    for name, there in (("A1 to a test", c.answering), ("A3", c.test_due()), ("Ack", c.receiver.ack is not None),
                        ("data", c.sender.due()), ("a wait", c.sender.wait), ("a hold", c.sender.hold)):
        if there:
            yield name


def place_of(console, line, past):
    words = [word for word in line.split(b" ") if word]
    c = console.connection
    try:
        if words[0] == b"set" and len(words) == 13:
            *given, reply = map(model.decimal, words[1:])
            yield from place_of_settings(c, "set", Settings(*given), reply)
            if c.phase == "closed":
                yield "set reply %d" % reply if reply <= 300 else "set reply too wide"
                if given[0] in (0x1FF, 0x200, 0x201):
                    yield "set rx %d" % given[0]
        elif words[0] == b"frame":
            ident, data = model.identifier(words[1]), model.octets(words[2:])
            if c.phase != "closed" and ident == c.settings.rx:
                if data:
                    yield "%s of %d, %s" % (named(data[0]), len(data), c.phase)
                yield from place_of_sorted(console, data)
                if sort(data)[0] == "A0":
                    yield "A0 block %d, %s" % (data[1], c.phase)
        else:
            yield from place_of_call(console, words, past)
    except (model.Malformed, IndexError, ValueError):
        return


class Standing(NamedTuple):
    """How a line finds the unit."""
    row: str
    column: str
    phase: str
    pending: set        # what is due or under way
    tx: int             # None on a closed unit
    terms: tuple        # block size and the peer's T3, as they hold or will from the A1's hand-over
    traces: set         # what an A0 or a C0 would end


def standing(c, line):
    terms, traces = None, set()
    if c.phase == "A1 due":
        terms = min(c.settings.block, c.block), model.tenths(c.t3)
    elif c.phase == "open":
        s, r = c.sender, c.receiver
        terms = s.block, s.peer_gap
        found = (("number 0 sent again", s.number), ("number 0 received again", r.expected),
                 ("message received gone", r.course), ("message untaken gone", r.complete))
        traces = {name for name, there in found if there}
    return Standing(row(c, line), column(c), c.phase, set(pending(c)), getattr(c, "tx", None), terms, traces)


class Course:
    """What befell the unit over several calls: `after` gives the names of the places that a call reached."""

    def __init__(self):
        self.dropped = set()    # since the last due call, each with the event that dropped it
        self.fields = set()     # how the A0 that holds differs from the one before it
        self.ended = set()      # traces of the connection before this one that have not been shown to be gone

    def after(self, c, was, answer):
        number = answer.split(" ")[0]
        now = standing(c, b"-")
        if was.row in ("C0", "A0 good", "set good", "A8", "close") and number in ("0", "8"):
            event = was.row.split(" ")[0]
            self.dropped |= {"%s drops %s" % (event, name) for name in was.pending}
            if event == "C0" and None not in (was.tx, now.tx) and was.tx != now.tx:
                yield "asker changed by C0, %s" % was.column
            if event in ("C0", "A0") and was.phase == "open":
                self.ended = {(trace, event) for trace in was.traces}
            self.fields = set(differences(was, now)) if event == "A0" else set()
        elif was.row == "due":
            said = handed(was.column, answer)
            for drop in self.dropped:
                yield "due after %s: %s" % (drop, said)
            self.dropped = set()
            if said == "data" and c.sender.next > 1:
                for field in self.fields:
                    yield "data by " + field
            if said == "data" and c.sender.number + c.sender.next == 1:
                yield from self.shown("number 0 sent again")
        elif was.row == "data" and number == "0" and "number 0 received again" not in was.traces:
            yield from self.shown("number 0 received again")
        elif was.row == "take" and number == "5":
            yield from self.shown("message received gone")
            yield from self.shown("message untaken gone")
        if c.phase == "closed":
            self.ended = set()

    def shown(self, trace):
        for pair in [pair for pair in self.ended if pair[0] == trace]:
            yield "%s after %s" % pair
            self.ended.discard(pair)


def differences(was, now):
    """How an A0 differs from the one that held before it, if one did."""
    if was.terms:
        how = "a newer A0" if was.phase == "A1 due" else "an A0 when open"
        names = ("smaller block size", "larger block size"), ("shorter T3", "longer T3")
        for (less, more), old, new in zip(names, was.terms, now.terms):
            if old != new:
                yield "%s, %s" % (how, less if new < old else more)


def summary(tally):
    return reached.summary(tally, ANSWERS)


PHASES = "D0 due", "D0 out", "A1 due", "open"


def missing(tally):
    table = ["%s, %s: %s" % (*cell, outcome) for cell, outcomes in TABLE.items() for outcome in outcomes]
    replies = ["set reply %d: %d" % (value, 0 if value in (0xD0, 0xD6, 0xD7, 0xD8) else 10) for value in range(301)]
    blocks = ["A0 block %d, %s: %s" % (block, phase, "4" if phase == "D0 due" else "0" if block in range(1, 16) else "2")
              for block in range(256) for phase in PHASES]
    wanted = [*ANSWERS, *table, *replies, *blocks, *at_lengths(PHASES), *open_places(), *listed(REACHED)]
    return [name for name in wanted if not tally[name]]
