"""What is played at either side of a connection: lines, and the model's answer to each. The model leads, so that most lines
are at the edge of a rule. How a connection opens is the side's own: a subclass has it."""

import copy
import types

import model
from model import Settings
from reached import DECLARED, OLD, WIDEST, filled, label, name_of, outcome, past_after, picture, timers

HUGE = (65535, 65536, 2**31, 2**32 - 1, 2**32, 2**63, model.TIME - 1, model.TIME, model.TIME, model.TIME)
LENGTHS = (1, 1, 2, 4, 5, 6, 11, 12, 13, 26, 100, 102, 103, 104, 105, 110, 208, 209)
WIDE = (2**32, 2**64 - 1, 2**64, 2**64 + 1, 10**20, 2**128 + 1, 10**40, 10**400)      # above every setting
SHORT = (1, 2, 5, 6, 12, 13, 26)
LONG = (1, 103, 104, 400, 1019, 1023, 1024, 1024)


class Play:
    """One scenario: its lines, and the model's answer to each. A side has its CONSOLE, the module that names the PLACES it
    reaches, what it says to begin a SECOND time, what is MALFORMED for it, names of both ENDS, its own first, and these:
    own_id, settle, odd_settings, opening, opening_mishap, closed_step, something_due, over and restart."""

    def __init__(self, rng, start, tally, check):
        self.rng, self.tally, self.check = rng, tally, check
        self.console = self.CONSOLE(start)
        self.lines, self.expected = [], []
        self.past = set()       # as past_after has it
        self.returns = rng.choice((0, 0, 0, 0, 0, 0, 0.5, 1))       # how many lines end in CR LF
        self.pads = rng.choice((0, 0.2, 0.5, 0.9))                  # how many control telegrams are padded
        self.say("new")

    @property
    def c(self):
        return self.console.connection

    def say(self, line):
        if type(line) is str:
            line = line.encode()
        if self.returns and self.rng.random() < self.returns:
            line += b"\r"
        before = picture(self.console) if self.check else None
        sent, line = line, model.without_return(line)
        places = list(self.PLACES.place_of(self.console, line, self.past)) if line.strip(b" ") and line[:1] != b"#" else []
        bare = self.bare(line) if self.check else None
        answer = self.console.answer(sent)
        self.lines.append(sent)
        self.expected.append(answer)
        self.count_returns(sent, answer)
        if answer is None:
            return None
        self.tally[label(line, answer)] += 1
        number = answer.split(" ")[0]
        for place in places:
            self.tally["%s: %s" % (place, outcome(answer))] += 1
        self.past = past_after(self.past, self.console, line, places, answer)
        if self.check:
            self.left_alone(line, number, before)
            # The mark stands exactly on the answer to a padded telegram, and padding alters nothing else.
            assert answer.endswith("padded") == (bare is not None), (line, answer)
            assert bare is None or bare == (answer[:-len(" padded")], picture(self.console)), (line, answer, bare)
        return answer

    def bare(self, line):
        """Where the line is a padded telegram that is sorted: the answer at its own length, and the picture after it."""
        data = filled(self.console, line)
        if data is None:
            return None
        c = self.console
        storage = bytearray(c.storage)
        twin = types.SimpleNamespace(connection=copy.deepcopy(c.connection), storage=storage,
                                     buffer=memoryview(storage)[:len(c.buffer)])
        answer = model.spoken(*twin.connection.arrive(c.connection.listens_on(), data, twin.buffer))
        return answer, picture(twin)

    def count_returns(self, sent, answer):
        """Where a CR stands, and what came of it."""
        line = model.without_return(sent)
        if sent != line:
            self.tally["CR before LF" + (", comment" if line.startswith(b"#") else ", blank" if answer is None else "")] += 1
            if len(line) == model.LINE:
                self.tally["CR before LF, longest"] += 1
            if len(line) == model.LINE + 1:
                self.tally["CR before LF, too long: " + answer.split(" ")[0]] += 1
        if answer is not None and b"\r" in line:
            self.tally["CR %s: %s" % ("twice" if line.endswith(b"\r") else "within", answer.split(" ")[0])] += 1

    def left_alone(self, line, number, before):
        """What a refusal must not change."""
        after = picture(self.console)
        frame = name_of(line) == b"frame"
        later = type(dict(before[0][2]).get("course")) is tuple
        if number in ("1", "2", "3", "4", "6", "10", "error"):
            same = before == after
        elif number in ("5", "12"):
            same = before[0] == after[0] and (frame or before[1] == after[1])
        elif number == "7":
            same = before[0][3:] == after[0][3:] if frame and not later else before == after
        elif number == "9":
            same = before[0][3:] == after[0][3:]
        else:
            return
        assert same, (line, number, before, after)

    # Writing lines

    def typed(self, data):
        """Hex pairs of either case, with blanks between or none."""
        style = self.rng.random()
        if not data:
            return "-"
        if style < 0.8:
            return data.hex(" ").upper()
        if style < 0.85:
            return data.hex()
        if style < 0.9:
            return data.hex().upper()
        return "".join("%02X" % byte if self.rng.random() < 0.5 else "%02x%s" % (byte, self.rng.choice(("", " ", "  ")))
                       for byte in data)

    def frame(self, ident, data):
        style = self.rng.choice(("%X", "%03X", "%03X", "%03X", "%04X", "%x"))
        return self.say("frame %s %s" % (style % ident, self.typed(bytes(data))))

    def heard(self, *data):
        """A frame on the ID that the record listens on."""
        return self.frame(self.own_id(), data)

    def filling(self, count):
        """What may stand behind a padded telegram: anything, also what is a telegram by itself."""
        way = self.rng.randrange(5)
        if way == 0:
            return bytes([self.rng.choice((0x00, 0x55, 0xAA, 0xFF))]) * count
        if way == 1:
            return (self.rng.choice((b"\xA8", b"\xA3", b"\xA4", b"\x10\x00\x01", b"\xA1\x0F\x8A\xFF\x32\xFF"))
                    + self.bytes(8))[:count]
        if way == 2:
            return bytes([self.rng.choice((0x90, 0xB0)) | self.rng.randrange(16)]) * count
        return self.bytes(count)

    def control(self, *data):
        """A telegram on the ID that the record listens on, at its own length or filled up to 8 bytes, which for an A0 is
        badly formed."""
        return self.heard(*data, *self.filling(8 - len(data) if self.rng.random() < self.pads else 0))

    def due(self):
        """Hands over: None, or the ID and bytes."""
        words = self.say("due").split(" ")
        return (int(words[1], 16), bytes.fromhex("".join(words[2:]))) if len(words) > 1 else None

    def wait(self, span):
        return self.say("time %d" % span)

    def bytes(self, count):
        return self.rng.randbytes(count)

    def flags(self):
        return self.rng.choice((0, 0, 0, 8, self.rng.randrange(16)))

    def first(self, bits, declared, flags):
        """A first frame in order, with AR and EOM as the bits have them."""
        return self.heard(bits | self.c.receiver.expected, *model.length_bytes(declared, flags), *self.bytes(min(5, declared)))

    def later(self, bits, count):
        """So many bytes more, in order."""
        return self.heard(bits | self.c.receiver.expected, *self.bytes(count))

    def a1(self, block, t3):
        return self.control(0xA1, block, self.rng.randrange(256), self.rng.randrange(256), t3, self.rng.randrange(256))

    # Settings

    def choose(self):
        """By which protocol to open, where a side has two."""

    def settings(self, **fixed):
        pick, some = self.rng.choice, self.rng.randrange
        t1 = pick((0x8A, 0x8A, 0x01, 0x41, 0x7F, 0xC1, 0xFF, some(256)))
        chosen = Settings(
            rx=pick((0x300, 0x300, 0x300, 0, 0x7FF, 0x200, 0x201, some(0x800))),
            unit=pick((1, 1, 0, 0xEF, some(0xF0))),
            block=pick((8, 15, 1, 2, 3, some(1, 16), some(1, 16))),
            t1=t1 if t1 & 0x3F else 0x8A,
            t3=pick((0x32, 0, 0xFF, some(256))),
            te=pick((1000, 1, 10000, some(1, 10001))),
            mntc=pick((10, 0, 1, 2, 3, 255, some(256))),
            repeats=pick((5, 5, 0, 1, 2, 255, some(256))),
            twait=pick((1000, 1, 65535, some(1, 65536))),
            interval=pick((10000, 0, 0, 1, 65535, some(65536))),
            tests=pick((5, 0, 1, 2, 255, some(256))))
        return chosen._replace(**fixed)

    def odd_value(self, at):
        """A setting, named by its place, at a limit or beyond it, by any number of digits."""
        low, high = model.RANGES[at]
        choices = [low, high, max(0, low - 1), high + 1, WIDEST[at], WIDEST[at] + 1, WIDEST[at] + 1 + low, 2**32 + low,
                   2**64 + low, self.rng.choice(WIDE)]
        if Settings._fields[at] == "t1":
            choices += [0x00, 0x40, 0x80, 0xC0, 0x01, 0x41, 0x81, 0xC1]
        return self.rng.choice(choices)

    # Single steps

    def time(self):
        running, way = list(timers(self.c).values()), self.rng.random()
        if running and way < 0.8:
            span = self.rng.choice(running) + self.rng.choice((0, 0, 0, 0, -1, -1, 1, self.rng.randrange(60)))
        elif way < 0.4 or 0.84 < way < 0.9:
            span = self.rng.choice(HUGE)
        elif 0.8 < way < 0.84:
            span = 0
        else:
            span = self.rng.randrange(200)
        return self.wait(span)

    def junk(self):
        """Bytes of every length 0 to 12, most of them badly formed."""
        first = self.rng.choice((0xA0, 0xA1, 0xA2, 0xA3, 0xA4, 0xA5, 0xA8, 0xAF, 0x40, 0x7F, 0x80, 0x8F, 0xC0, 0xD0,
                                 0xFF, self.rng.randrange(0x90, 0xC0), self.rng.randrange(256)))
        length = self.rng.randrange(13)
        self.heard(*(bytes([first]) + self.bytes(length))[:length])

    def send(self, lengths=LENGTHS):
        self.say("send " + self.typed(self.bytes(self.rng.choice(lengths))))

    def odd_send(self):
        way = self.rng.choice((0, 0, 1, 1, 2, 3, 4))
        length = (0, model.LONGEST + 1, model.LONGEST, self.rng.randrange(1, model.LONGEST + 1),
                  self.rng.randrange(1026, 5000))[way]
        self.send((length,))

    def due_lending(self):
        """Lends another message than the accepted one, or the same as given bytes."""
        accepted = self.console.accepted
        lent = self.rng.choice((accepted, self.bytes(len(accepted)), accepted[:-1], accepted + b"\x55",
                                self.bytes(self.rng.randrange(1100))))
        self.say("due " + self.typed(lent))

    def run(self, most=40):
        """Hands over data up to the frame with AR."""
        for _ in range(self.rng.randrange(1, most)):
            if self.c.phase != "open":
                return
            s = self.c.sender
            if s.length is None or s.wait or s.hold:
                return
            if s.gap:
                self.wait(s.gap)
            else:
                self.due()

    def ack(self):
        s = self.c.sender
        count = s.unacknowledged()
        distance = self.rng.choice((count, count, count, count, 0, 1, count + 1, count - 1, 15, self.rng.randrange(16)))
        ready = 0x20 if self.rng.random() < 0.75 else 0x00
        self.control(0x90 | ready | (s.number + s.oldest + distance) % 16)

    def data(self):
        r, rng = self.c.receiver, self.rng
        number = r.expected if rng.random() < 0.85 else (r.expected + rng.choice((-1, -1, 1, rng.randrange(16)))) % 16
        asks = rng.random() < 0.4
        body = self.bytes(rng.randrange(1, 8))
        last = rng.random() < 0.4
        odd = rng.random() < 0.25
        if r.course is None:
            room = len(self.console.buffer)
            declared = rng.choice((1, 2, 5, 6, 12, 13, 19, 26, 40, rng.randrange(200)))
            if rng.random() < 0.2:
                declared = rng.choice((0, 1, room - 1, room, room + 1, 1023, 1024, 1025, 1026, 4095, rng.randrange(4096)))
            declared = max(0, min(4095, declared))
            body = model.length_bytes(declared, self.flags()) + self.bytes(min(5, declared))
            if not odd:
                last = declared <= 5
            elif rng.random() < 0.7:
                body = body[:2] + self.bytes(rng.randrange(6))
            else:
                body = body[:rng.randrange(1, 4)]
        elif r.course != model.THROWN and not odd:
            left = r.course[0] - r.course[1]
            last = left <= 7
            body = self.bytes(min(7, left) if rng.random() < 0.9 or last else rng.randrange(1, 7))
        self.heard((0x00 if asks else 0x20) | (0x10 if last else 0x00) | number, *body)

    def room(self):
        r = self.c.receiver if self.c.phase == "open" else None
        choices = [0, 1, 5, 26, 200, 1023, 1024, 1024, 1025, 4095, 4096]
        message = r and (r.complete or r.course)
        if type(message) is tuple:
            choices += [message[0] - 1, message[0], message[0] + 1] * 4
        self.say("room %d" % self.rng.choice(choices))

    def far_id(self):
        c = self.c
        ident = self.rng.choice((c.tx, 0x200, 0x200 + c.settings.unit, c.settings.rx ^ 1, c.settings.rx | 0x800, 0xFFFF,
                                 self.rng.randrange(0x10000)))
        first = self.rng.choice((b"", b"\xB0", b"\x90", b"\xA3", b"\xA4", b"\xA8", b"\xA1\x0F\x8A\xFF\x32\xFF"))
        self.frame(ident, first + self.filling(8 - len(first)) if first else self.bytes(self.rng.randrange(13)))

    def idle(self):
        self.say(self.rng.choice(("", " ", "    ", "#", "# words", "#new", "#" + "x" * 200, "\r", " \r", "# words\r", "#\r#")))

    def odd_line(self):
        """A malformed line, or a good one that is oddly written."""
        rng = self.rng
        way = rng.random()
        if way < 0.15:
            self.idle()
        elif way < 0.25:
            self.say(rng.choice(("time 0", "time 00", "time 007", "  time 1", "time  2  ", "room 1024", "room 01024",
                                 "due ", " due", "  due  - ", "buffer ", "take ")))
        elif way < 0.35:
            self.choose()
            self.settle(self.odd_settings())
        elif way < 0.45:
            self.say(bytes(rng.choice((*range(0x21, 0x7F), *range(0xA1, 0x100))) for _ in range(rng.randrange(8, 30)))
                     .replace(b"#", b"!"))
        elif way < 0.5:
            self.say(self.long_line())
        else:
            self.say(rng.choice(self.MALFORMED))

    def long_line(self):
        """Of 16,000 characters or one more."""
        name = self.rng.choice((b"send ", b"due ", b"frame 300 ", b"frame 201 ", b"x", b"new "))
        most = model.LINE + self.rng.randrange(2)
        odd = (most - len(name)) % 2
        return (name + (b"A5 " if odd else b"") + b"A5" * (most // 2))[:most]

    def buffer(self):
        self.say("buffer")

    def step(self, weights):
        """One call that suits the phase, at the edge of a rule more often than not."""
        if self.c.phase == "closed":
            return self.closed_step()
        if self.c.phase != "open":
            return self.opening_mishap(0x740, 15, 0)
        way = self.rng.choices(STEPS, [weights.get(step, BASE[step]) for step in STEPS])[0]
        if way == "due":
            self.due()
        elif way == "break":
            self.control(0xA4)
        elif way == "test":
            self.control(0xA3)
        elif way == "A1":
            self.a1(self.rng.choice((15, 1, 0, 16, self.rng.randrange(256))), self.rng.randrange(256))
        elif way == "A0":
            self.control(0xA0, 15, 0x8A, 0xFF, 0x32, 0xFF)
        elif way == "bye":
            self.control(0xA8)
        elif way in ("close", "take"):
            self.say(way)
        elif way == "open":
            self.say(self.rng.choice(self.SECOND))
        else:
            getattr(self, way)()

    # Whole scenarios

    def wander(self, steps, weights, **opening):
        """Single steps, led by the record so that most are at the edge of a rule."""
        mess = self.rng.choice((0, 0, 0.2, 0.5))
        for _ in range(steps):
            if self.c.phase != "closed" or self.rng.random() < 0.5:
                self.step(weights)
                continue
            fixed = {key: self.rng.choice(value) for key, value in opening.items()}
            self.opening(self.settings(**fixed), mess=mess,
                         tx=self.rng.choice((0x740, 0x740, 0, 0x7FF, self.rng.randrange(0x800))),
                         block=self.rng.choice((15, 15, 1, 2, 3, self.rng.randrange(1, 16))),
                         t3=self.rng.choice((0, 0, 0, 0x32, 0x01, 0x4A, 0xFF, self.rng.randrange(256))))

    def traffic(self, steps, other, lengths, loss=0.0, twice=0.0, swap=0.0, late=0.0, settings=None, clean=False):
        """Both ends talk over links that lose, repeat and reorder; clean links must deliver everything in order."""
        rng = self.rng
        there, here, accepted, taken = [], [], [], []
        hard = 0

        def put(link, frame):
            if rng.random() < loss:
                return
            link.append(frame)
            if rng.random() < twice:
                link.append(frame)
            if len(link) > 1 and rng.random() < swap:
                link[-2:] = reversed(link[-2:])

        for _ in range(steps):
            c = self.c
            if self.over(other):
                hard += 1
                if hard > 4 or (clean and hard > 1):
                    break
                self.restart(other, settings or self.settings())
                continue
            something_due = self.something_due()
            quick = clean and c.phase != "open"     # a repeated A0 that crosses the A1 would start the other end anew
            options = [("due", 8 if something_due else 0.4),
                       ("time", 0 if quick else 1 if something_due or here or there else 3),
                       ("here", 8 if here else 0), ("there", 8 if there else 0), ("work", 3),
                       ("tire", 0.1 if other.talks() and (here or there) else 1)]
            if c.phase == "open":
                options += [("send", 2 if c.sender.length is None else 0.02),
                            ("take", 0.02 if c.receiver.complete is None else 20 if rng.random() >= late else 0.3),
                            ("buffer", 0.02)]
            way = rng.choices([name for name, _ in options], [weight for _, weight in options])[0]
            if way == "due":
                frame = self.due()
                if frame:
                    put(there, frame)
            elif way == "there":
                for frame in other.hear(*there.pop(0)):
                    put(here, frame)
            elif way == "here":
                self.frame(*here.pop(0))
            elif way == "work":
                frame = other.work(lengths)
                if frame:
                    put(here, frame)
            elif way == "tire":
                other.tire()
            elif way == "time":
                left = timers(c)
                short = left.get("T3") or (0 if here or there else min(left.values(), default=0))
                self.wait(short or rng.randrange(40))
            elif way == "send":
                if self.say("send " + self.typed(message := self.bytes(rng.choice(lengths)))) == "0":
                    accepted.append(message)
            elif way == "take":
                answer = self.say("take")
                if answer.startswith("0"):
                    taken.append(shown(answer))
            else:
                self.buffer()
        if clean:
            assert other.heard == accepted[:len(other.heard)] and taken[:len(other.sent)] == other.sent[:len(taken)]
            assert len(taken) >= len(other.sent) - 1
            for name, carried in zip(self.ENDS, (taken, other.heard)):
                self.tally[(OLD if other.row else "") + "carried to the " + name] += len(carried)

    def finish(self):
        if self.rng.random() < 0.3:
            self.say("room 4096")
        self.buffer()
        if self.rng.random() < 0.5:
            self.say("close")
        self.due()
        self.due()


def shown(answer):
    """The message that the answer to a take shows."""
    words = answer.split(" ")[1:]
    flags = 0
    if words[0] == "flags":
        flags, words = int(words[1], 16), words[2:]
    return model.Message(bytes.fromhex("".join(words)), flags)


# What may be done at each step on an open connection, and how often.
BASE = {"due": 25, "run": 4, "ack": 8, "data": 14, "time": 10, "send": 4, "take": 6, "break": 2, "test": 2, "A1": 1.5,
        "A0": 0.4, "bye": 0.3, "close": 0.2, "junk": 2, "far_id": 0.7, "room": 1.5, "buffer": 0.5, "odd_line": 2,
        "odd_send": 0.4, "due_lending": 1.5, "open": 0.3}
STEPS = tuple(BASE)

MALFORMED = (
    "hello", "OPEN", "New", "frames 300 01", "newnew", "-", "0", "due-", "open-", "time1", "frame300 01", "0 done",
    "error line 1", "new 1", "new -", "take 1", "take -", "close now", "buffer 0", "buffer -", "time", "time 1 2",
    "room", "room 1 2", "open 1", "open 768 1 15 138 50 1000 10 5 1000 0",
    "open 768 1 15 138 50 1000 10 5 1000 0 5 5", "open 768 1 15 138 50 1000 10 5 1000 0 x",
    "open 0x300 1 15 138 50 1000 10 5 1000 0 5", "open -1 1 15 138 50 1000 10 5 1000 0 5",
    "open 768 1 15 8A 50 1000 10 5 1000 0 5", "frame", "frame 300", "frame -", "send", "frame 300 - -",
    "frame 300 - 01", "frame 300 01 -", "frame 300 --", "time 18446744073709551616", "time 18446744073709551625",
    "time 28446744073709551615", "time 99999999999999999999", "time 100000000000000000000",
    "time 36893488147419103232", "time 340282366920938463463374607431768211456",
    "time 340282366920938463463374607431768211457", "time -1", "time +1", "time 1.0", "time 1e3", "time 0x10",
    "time 1a", "time a", "time -", "time 1_000", "time 1,000", "room 4097", "room 5000", "room 65536",
    "room 4294967296", "room 4294967297", "room 18446744073709551616", "room -0", "room -1", "room 0x10", "room ten",
    "frame 300 0g", "frame 300 g0", "frame 300 0", "frame 300 123", "frame 300 01 2", "frame 300 01 2 3",
    "frame 300 0 1", "frame 300 01,02", "frame 300 0x01", "frame g00 01", "frame 00300 01", "frame 10000 01",
    "frame 0x300 01", "frame x 01", "frame 3-0 01", "frame 300: 01", "send 0", "send 012", "send xx", "send - -",
    "send - 01", "send 01 -", "send --", "send 01 0", "due 0", "due zz", "due - -", "due 01 0G", "due 1 2", "@0 01",
    "`0", "/", ":", "frame 300 :0", "frame 300 /0", "frame 300 @0", "frame 300 `0", "frame 300 G0", "time :",
    "time /", "room 1:", "due\r\r", "\r\r", "take \r\r", "\rdue", "due\r ", "due \r -", "ti\rme 1", "time 1\r2", "time \r1",
    "frame 300 A\r8", "new\r new", "\r#")


# Going through all values

def values_at(at):
    """A setting, named by its place, at each limit, on both sides, and at each width."""
    low, high = model.RANGES[at]
    values = {max(0, low - 1), low, low + 1, high - 1, high, high + 1, WIDEST[at], WIDEST[at] + 1, 2**32 + low, 2**64 + low,
              *WIDE}
    if Settings._fields[at] == "t1":
        values |= {0x00, 0x40, 0x80, 0xC0, 0x41, 0x81, 0xC1}
    return sorted(values)


def every_ack(play):
    """Every Ack, bare and padded, while each number of frames is unacknowledged."""
    for count in range(16):
        for first in (*range(0x90, 0xA0), *range(0xB0, 0xC0)):
            for behind in (b"", play.filling(7)):
                if play.c.phase != "open" or play.c.sender.unacknowledged() != count or play.c.sender.hold:
                    play.say("close")
                    play.opening(Settings(block=15, interval=0, repeats=1))
                    play.send((208,))
                    for _ in range(count):
                        play.due()
                play.heard(first, *behind)
    for behind in (b"", play.filling(7)):       # a message that is one block
        opened(play, block=15)
        play.send((103,))
        for _ in range(15):
            play.due()
        play.heard(0xBF, *behind)


def opened(play, **fixed):
    play.say("close")
    play.say("room 1024")
    play.opening(Settings(interval=0, **fixed))


BITS = (0x00, 0x10, 0x20, 0x30)         # asks for an Ack or not, EOM or not


def every_first_frame(play):
    """First frames of every length, with and without AR and EOM, of messages at the limits, in buffers at the limits."""
    for declared in (0, 1, 4, 5, 6, 7, 1024, 1025, 4095):
        for length in range(1, 8):
            for bits in BITS:
                for room in sorted({max(0, declared - 1), declared, declared + 1}):
                    opened(play)
                    play.say("room %d" % room)
                    play.heard(bits, *(model.length_bytes(declared) + play.bytes(5))[:length])
                    after_data(play)


def every_later_frame(play):
    """Later frames of every length, with and without AR and EOM, of messages short of their end, in buffers at the limits."""
    for declared in (6, 7, 8, 12, 13):
        for length in range(1, 8):
            for bits in BITS:
                for room in (declared - 1, declared):
                    opened(play)
                    play.first(play.rng.choice((0x00, 0x20)), declared, play.flags())
                    play.say("room %d" % room)
                    play.later(bits, length)
                    after_data(play)


def every_flags(play):
    """Every value of the flags, on messages behind each other: at both sides of each limit, and over breaks, every other
    time padded."""
    for flags in range(16):
        opened(play)
        for declared in DECLARED:
            play.first(0x10 if declared == 1 else 0x20, declared, flags)
            play.later(0x10, 1)
            play.say("take")
            play.first(0x10, 1, 0)
            play.say("take")
        for room in (4, 5, 6):
            play.say("room %d" % room)
            play.first(0x10, 5, flags)
            play.say("room 4")
            play.say("take")
            play.say("room %d" % room)
            play.say("take")
        play.say("room 1024")
        for bits, count, again in ((0x00, 1, None), (0x00, 7, None), (0x20, 1, flags), (0x20, 7, 0)):
            play.first(bits, 12, flags)
            play.later(0x20, count)
            play.say("take")
            play.heard(0xA4, *play.filling(7 * (flags % 2)))
            if again is not None:
                play.first(0x20, 12, again)
            play.later(0x10, 7)
            play.heard(0xA4, *play.filling(7 * (flags % 2)))
            play.say("take")
            play.due()
        play.first(0x20, 0, flags)              # broken, and still thrown away where a break leads back to
        play.later(0x00, 1)
        play.later(0x20, 1)
        play.heard(0xA4, *play.filling(7 * (flags % 2)))
        play.later(0x10, 1)
        play.due()


def after_data(play):
    """What shows how the frame before was taken."""
    play.due()
    play.say("take")
    if play.rng.random() < 0.3:
        play.control(0xA4)
    play.heard(0x10 | play.c.receiver.expected, 0x00, 0x01, 0x77)
    play.due()
    play.say("take")


def whole(play, length):
    """A message of this length each way, with nothing lost."""
    r, s = play.c.receiver, play.c.sender
    play.send((length,))
    while s.length is not None:
        if s.wait:
            play.control(0xB0 | (s.number + s.next) % 16)
        else:
            play.due()
    message, flags = play.bytes(length), play.flags()
    for place in range(model.frames_of(length)):
        frame, asks = model.cut(message, place, s.block, r.expected, flags)
        play.heard(*frame)
        if asks:
            play.due()
    play.say("take")


def every_length(play):
    opened(play)
    for length in (*range(1, 42), 102, 103, 104, 207, 208, 209, 255, 256, 257, 511, 512, 513, *range(1016, 1025)):
        whole(play, length)


def every_block(play):
    for block in range(1, 16):
        play.say("close")
        play.opening(Settings(block=block if block % 2 else 15, interval=0), block=15 if block % 2 else block)
        whole(play, model.LONGEST)
        play.buffer()


def every_time_code(play):
    """Every code as the unit's T3 and, where it may be, as our own T1: one tenth less, and then the last one."""
    for code in range(256):
        t1, t3 = model.tenths(code) or 1000, model.tenths(code)
        play.say("close")
        play.opening(Settings(t1=code if code % 64 else 0x8A, interval=0), t3=code)
        play.send((6,))
        play.due()
        for part in (t3 - 1, 1) if t3 else (0,):
            play.wait(part)
            play.due()
        for part in (t1 - 1, 1):
            play.wait(part)
            play.due()


# What a telegram can meet on an open connection.
OPEN_STATES = ("fresh", "test out", "test due again", "message begun", "message waits", "frames out", "wait",
               "repeats used up", "hold")


def brought_open(play, state):
    """A connection that has just opened, into this state: T1 is 1,000, tests go after 200 without a frame, of which 50 are
    left on a fresh connection, and one repeat is allowed."""
    if state == "fresh":
        play.wait(150)
    elif state.startswith("test"):
        play.wait(200)
        play.due()
        if state == "test due again":
            play.wait(1000)
    elif state == "message begun":
        play.first(0x00, 19, play.flags())
        play.due()
        play.later(0x20, 7)
    elif state == "message waits":
        play.first(0x10, 5, play.flags())
    elif state in ("frames out", "hold"):
        play.send((26,))
        play.due()
        play.due()
        if state == "hold":
            play.heard(0x91)
    else:
        play.send((12,))
        play.due()
        play.due()
        if state == "repeats used up":
            play.wait(1000)
            play.due()
            play.due()


def telegrams(play):
    """One of each kind, three for an Ack, and some of no kind, as they suit the record; what follows is anything."""
    oldest = count = expected = 0
    if play.c.phase == "open":
        s, expected = play.c.sender, play.c.receiver.expected
        oldest, count = s.number + s.oldest, s.unacknowledged()
    return ((0x10 | expected, 0x80, 0x05), (0x20 | expected,), (0xB0 | (oldest + count) % 16,), (0x90 | oldest % 16,),
            (0xB0 | (oldest + count + 1) % 16,), (0xA3,), (0xA4,), (0xA8,), (0xA0, 5, 0x8A, 0xFF, 0, 0xFF),
            (0xA1, 5, 0x8A, 0xFF, 0, 0xFF), (0xA2,), (0x01, 0xC0, 0x00, 0x10, 0x00, 0x03, 0x01),
            *((0x00, opcode, 0x00, 0x03, 0x40, 0x07, 0x01) for opcode in (0xD0, 0xD6, 0xD7, 0xD8)))


def after_control(play):
    """What shows how the telegrams before were taken."""
    play.due()
    play.say("take")
    for span in (0, 199, 1, 300):
        play.wait(span)
        play.due()


# At random

def openings(play, rng, steps):
    for _ in range(rng.randrange(1, 6)):
        play.opening(tx=rng.randrange(0x800), block=rng.randrange(1, 16), t3=rng.randrange(256),
                     mess=rng.choice((0, 0.3, 0.6, 0.9)))
        for _ in range(rng.randrange(6)):
            play.step({})
        play.say("close")
        if rng.random() < 0.5:
            play.due()


def sending(play, rng, steps):
    play.wander(steps, {"due": 15, "run": 25, "ack": 30, "data": 1, "send": 12, "take": 0.5, "break": 0.3, "test": 0.5},
                interval=(0, 0, 10000), rx=(0x300,), unit=(1,), repeats=(5, 0, 1, 2, 255), t1=(0x8A, 0x8A, 0x41),
                mntc=(10,))


def receiving(play, rng, steps):
    play.wander(steps, {"due": 20, "run": 0, "ack": 0.5, "data": 60, "send": 0.5, "take": 14, "time": 1, "break": 5,
                        "test": 0.3, "room": 3, "buffer": 2}, interval=(0, 10000), mntc=(10,))


def short_buffers(play, rng, steps):
    play.wander(steps, {"data": 60, "room": 15, "take": 15, "buffer": 4, "due": 10, "run": 0, "ack": 0, "send": 0,
                        "time": 0.5, "junk": 0.5}, interval=(0,), mntc=(10,))


def testing(play, rng, steps):
    play.wander(steps, {"due": 30, "run": 3, "time": 25, "A1": 6, "test": 4, "data": 10, "send": 3, "take": 1,
                        "odd_line": 0.5, "close": 0.1, "bye": 0.1},
                interval=(1, 2, 50, 100, 1000), tests=(0, 1, 2, 2, 5), t1=(0x8A, 0x41, 0x45, 0x01), repeats=(5, 255),
                mntc=(10,))


def anything(play, rng, steps):
    play.wander(steps, {})


def malformed_lines(play, rng, steps):
    play.wander(steps, {"odd_line": 30, "odd_send": 5, "far_id": 5, "junk": 10})


def settings(play, rng, steps):
    for _ in range(steps // 4):
        play.choose()
        if play.settle(play.odd_settings()) == "0" and rng.random() < 0.3:
            play.due()
        play.say("close")


def full_blocks(play, rng, steps):
    """A block of 15 and what lies around it."""
    play.opening(play.settings(block=15, interval=0, repeats=rng.choice((0, 1, 5)), t1=0x8A),
                 block=rng.choice((15, 15, 14)))
    for _ in range(rng.randrange(1, 6)):
        if play.c.phase != "open":
            break
        play.send((103, 104, 208, 1024))
        for _ in range(rng.randrange(4, 30)):
            play.step({"run": 40, "ack": 30, "due": 1, "data": 0.1, "send": 0.1, "take": 0.1, "close": 0, "bye": 0})
