"""Scenarios for the console, the side that opens, by TP 2.0 and by TP 1.6."""

import model
import reached
from model import Settings, tenths
from play import (HUGE, LENGTHS, LONG, MALFORMED, OPEN_STATES, SHORT, Play, after_control, anything, brought_open, every_ack,
                  every_block, every_first_frame, every_flags, every_later_frame, every_length, every_time_code,
                  full_blocks, malformed_lines, openings, receiving, sending, settings, short_buffers, telegrams, testing,
                  values_at, whole)
from reached import LIMITS, picture
from sweeps16 import SWEEPS16, defaults, values16


class ActivePlay(Play):
    CONSOLE = model.Console
    PLACES = reached
    SECOND = ("open", "open 768 1 16 138 50 1000 10 5 1000 0 5", "open 768 1 15 138 50 1000 10 5 1000 0 18446744073709551616",
              "open16 drive", "open16 low", "open16 high 1248 48 16 138 74 1000 20 5 500 0 5",
              "open16 comfort 768 0 8 138 74 1000 20 5 500 0 18446744073709551616")
    MALFORMED = (*MALFORMED, "open16", "open16 Drive", "open16 DRIVE", "open16 tp20", "open16 infotainment", "open16 driver",
                 "open16 drive comfort", "open16 1", "open16 -", "open16 drive 1", "open16drive", "open 16 drive", "open1.6 drive",
                 "open drive", "open20", "open16 1856 0 8 138 74 1000 20 5 500 10000 5",
                 "open16 drive 1856 0 8 138 74 1000 20 5 500 10000", "open16 drive 1856 0 8 138 74 1000 20 5 500 10000 5 5",
                 "open16 drive 1856 0 8 138 74 1000 20 5 500 10000 x", "open16 drive 0x740 0 8 138 74 1000 20 5 500 10000 5",
                 "open16 drive -1 0 8 138 74 1000 20 5 500 10000 5", "open16 drive 1856 0 8 8A 74 1000 20 5 500 10000 5",
                 "open16 none 1856 0 8 138 74 1000 20 5 500 10000 5", "open16 1856 drive 0 8 138 74 1000 20 5 500 10000 5",
                 "open16 drive\r\r", "open16 dr\rive", "open16 high -", "open16 low 0")
    ENDS = "box", "car"

    row = None              # the row of TP 1.6 by which openings are made; None is TP 2.0
    mixed = False           # whether each opening chooses

    def own_id(self):
        """Any, if the record is closed."""
        return 0x300 if self.c.phase == "closed" else self.c.listens_on()

    # Settings and opening

    def choose(self):
        """By which protocol the next opening is made."""
        if self.mixed:
            self.row = self.rng.choice((None,) * 5 + tuple(model.ROWS))

    def open(self, settings):
        """These settings; by TP 1.6 as near to them as the row has."""
        return self.settle(self.fitted(settings) if self.row else settings)

    def settle(self, settings):
        return self.say(" ".join(("open16 " + self.row if self.row else "open", *map(str, settings))))

    def open_default(self):
        return self.say("open16 " + self.row if self.row else "open")

    def fitted(self, s):
        """Settings that the row takes."""
        t1 = s.t1 if tenths(s.t1) > 101 else 0x8A
        t3 = s.t3 if 100 <= tenths(s.t3) < tenths(t1) - 1 else 0x4A
        low, high = tenths(t3) + 1, tenths(t1) - 1
        twait = s.twait if low <= s.twait <= high else self.rng.choice((low, high, (low + high) // 2))
        return s._replace(rx=self.near("rx", s.rx), unit=self.near("unit", s.unit), t1=t1, t3=t3, twait=twait)

    def near(self, what, value):
        """A number of the row, by any number."""
        low, high = LIMITS[self.row][what]
        return value if low <= value <= high else low + value % (high - low + 1)

    def odd_settings(self):
        """One setting at a limit or beyond it."""
        if self.row:
            return self.odd_settings16()
        chosen = list(Settings() if self.rng.random() < 0.5 else self.settings())
        at = self.rng.randrange(11)
        chosen[at] = self.odd_value(at)
        return chosen

    def odd_settings16(self):
        chosen = list(defaults(self.row) if self.rng.random() < 0.5 else self.fitted(self.settings()))
        at = self.rng.choice((0, 0, 1, 1, *range(11)))
        chosen[at] = self.rng.choice(values16(self.row, at))
        if self.rng.random() < 0.3:
            t3, t1 = tenths(chosen[4] % 256), tenths(chosen[3] % 256)
            chosen[8] = max(0, self.rng.choice((t3, t3 + 1, t1 - 1, t1)))
        return chosen

    def d0(self, tx):
        """As the record's own protocol has it."""
        if self.c.profile is not model.TP20:
            low, high = LIMITS[self.c.profile.NAME]["tx"]
            return [0x00, 0xD0, (tx if low <= tx <= high else low + tx % (high - low + 1)) & 0xFF]
        own = self.c.settings.rx
        return [0x00, 0xD0, own & 0xFF, own >> 8, tx & 0xFF, tx >> 8, 0x01]

    def bad_reply(self):
        """A reply to C0 with one thing wrong, or a refusal with anything where nothing is checked."""
        if self.c.profile is not model.TP20:
            return self.bad_reply16()
        reply = self.d0(self.rng.randrange(0x800))
        way = self.rng.randrange(7)
        if way == 0:
            reply[self.rng.randrange(7)] ^= 1 << self.rng.randrange(8)
        elif way == 1:
            reply = reply[:self.rng.randrange(7)]
        elif way == 2:
            reply += self.bytes(self.rng.randrange(1, 6))
        elif way == 3:
            reply[self.rng.choice((3, 5))] |= 1 << self.rng.randrange(3, 8)
        elif way == 4:
            reply[1] = self.rng.choice((0xD1, 0xD5, 0xD9, 0xC0, 0xA1, self.rng.randrange(256)))
        elif way == 5:
            reply = [0x00, self.rng.choice((0xD0, 0xD8)), self.rng.randrange(256)]
        else:
            reply[1] = self.rng.choice((0xD6, 0xD7, 0xD8))
            reply[self.rng.choice((0, 2, 6))] = self.rng.randrange(256)
            if self.rng.random() < 0.3:
                reply = reply[:self.rng.randrange(2, 7)]
        return self.heard(*reply)

    def bad_reply16(self):
        """The same, where a reply has three bytes."""
        rng = self.rng
        reply = self.d0(rng.randrange(0x800))
        low, high = LIMITS[self.c.profile.NAME]["tx"]
        way = rng.randrange(8)
        if way == 0:
            reply[rng.randrange(3)] ^= 1 << rng.randrange(8)
        elif way == 1:
            reply = reply[:rng.randrange(3)]
        elif way == 2:
            reply += self.bytes(rng.randrange(1, 6))
        elif way == 3:
            reply[2] = rng.choice((low - 1, low, high, high + 1)) & 0xFF
        elif way == 4:
            reply[1] = rng.choice((0xD1, 0xD6, 0xD6, 0xD7, 0xD7, 0xD9, 0xC0, 0xA1, rng.randrange(256)))
        elif way == 5:
            own = self.c.settings.rx
            reply = [0x00, rng.choice((0xD0, 0xD8)), own & 0xFF, own >> 8, low & 0xFF, low >> 8, 0x01]
        elif way == 6:
            reply[2] = rng.randrange(256)
        else:
            reply = [rng.choice((0, 1, 0x80)), 0xD8, *self.bytes(rng.randrange(3))]
        return self.heard(*reply)

    def opening(self, settings=None, tx=0x740, block=15, t3=0, mess=0.0):
        """Opens a connection; with mess it goes wrong on the way, and may end closed."""
        self.choose()
        if settings is None and self.rng.random() < 0.03:
            self.open_default()
        else:
            self.open(settings or self.settings())
        for _ in range(3000):
            if self.c.phase in ("open", "closed"):
                break
            if self.rng.random() < mess:
                self.opening_mishap(tx, block, t3)
            elif self.c.asking:
                self.due()
            elif self.c.phase == "setup":
                self.heard(*self.d0(tx))
            else:
                self.a1(block, t3)
        return self.c.phase == "open"

    def opening_mishap(self, tx, block, t3):
        rng, setup = self.rng, self.c.phase == "setup"
        way = rng.choices(list(MISHAPS), list(MISHAPS.values()))[0]
        if way == "time":
            self.time()
        elif way == "due":
            self.say("due" if rng.random() < 0.5 else "due " + self.typed(self.bytes(3)))
        elif way == "reply":
            self.heard(*self.d0(tx)) if setup else self.a1(block, t3)
        elif way == "bad reply" and setup:
            self.bad_reply()
        elif way == "bad reply":
            self.a1(rng.choice((0, 16, 0, 16, 255, rng.randrange(256))), t3)
        elif way == "refusal" and setup:
            self.heard(0x00, rng.choice((0xD6, 0xD7, 0xD8)), *self.bytes(5 if self.c.profile is model.TP20 else 1))
        elif way == "other ID":
            unit = self.c.settings.unit
            self.frame(rng.choice((0x200, 0x201, 0x300, 0x740, 0x7FF, 0xFFFF, rng.randrange(0x10000), 0x200 + unit, 0x2D0, 0x2D0 + unit,
                                   0x2E0 + unit, 0x4A0 + unit)),
                       self.d0(tx) if setup else [0xA1, 15, 0x8A, 0xFF, 0x32, 0xFF])
        elif way == "call":
            self.say(rng.choice(("send 10 89", "send -", "take", "open 2048 1 15 138 50 1000 10 5 1000 0 5",
                                 "open 768 1 15 138 50 1000 10 5 1000 0 18446744073709551616", *self.SECOND)))
        elif way == "junk":
            self.junk()
        elif way == "close":
            self.say("close")
        elif way == "A8":
            self.control(0xA8)
        elif way == "other kind":
            self.control(*rng.choice(((0x00, 0x00, 0x01, 0x55), (0xB0,), (0x90,), (0xA3,), (0xA4,),
                                      (0xA0, 15, 0x8A, 0xFF, 0x32, 0xFF), (0x10, 1))))
        elif way == "silence":
            phase = self.c.phase
            for _ in range(rng.choice((3, 12, 300))):
                if self.c.phase != phase:
                    break
                self.due()
                if self.c.phase == phase and self.c.timer:
                    self.wait(self.c.timer)
        elif way == "odd line":
            self.odd_line()
        elif self.c.timer:
            self.wait(rng.choice(HUGE))

    def closed_step(self):
        way = self.rng.choice(("junk", "telegram", "close", "take", "send", "time", "due", "due", "open", "odd line",
                               "room", "D0"))
        if self.c.left is not None and way in ("due", "open", "odd line", "room", "D0"):
            way = self.rng.choice(("due", "open"))
        if way == "junk":
            self.junk()
        elif way == "telegram":
            self.control(*self.rng.choice(((0xA8,), (0xA3,), (0xA4,), (0xB0,), (0x10, 0, 1, 1),
                                           (0xA1, 15, 0x8A, 0xFF, 0x32, 0xFF))))
        elif way == "close":
            self.say("close")
        elif way == "take":
            self.say("take")
        elif way == "send":
            self.odd_send()
        elif way == "time":
            self.time()
        elif way == "due":
            self.say("due")
        elif way == "open":
            self.choose()
            self.settle(self.odd_settings())
        elif way == "odd line":
            self.odd_line()
        elif way == "room":
            self.room()
        else:
            self.frame(0x201, (0x00, 0xD0, 0x00, 0x03, 0x40, 0x07, 0x01))

    # Traffic

    def over(self, car):
        return self.c.phase == "closed" and self.c.left is None

    def restart(self, car, settings):
        self.row = car.row.NAME if car.row else None
        self.open(settings)

    def something_due(self):
        c = self.c
        if c.phase == "closed":
            return c.left is not None
        if c.phase != "open":
            return c.asking
        return c.answering or c.test_due() or c.receiver.ack is not None or c.sender.due()


# What may go wrong while opening, and how often.
MISHAPS = {"time": 8, "due": 4, "reply": 6, "bad reply": 8, "refusal": 1, "other ID": 3, "call": 2, "junk": 3,
           "close": 0.5, "A8": 0.8, "other kind": 5, "silence": 1, "odd line": 2, "long time": 1}


# Going through all values

def limits(play):
    """Each setting at each limit, on both sides, and at each width."""
    for at in range(len(model.RANGES)):
        for value in values_at(at):
            chosen = list(Settings())
            chosen[at] = value
            if play.open(chosen) == "0":
                play.due()
                play.say("close")


def every_reply(play):
    """Every opcode, every length, and every value of every byte of a D0, before and after the request."""
    def fresh():
        if play.c.phase != "setup":
            play.say("close")
            play.open(Settings(rx=0x7A5))
            play.due()
    play.open(Settings(rx=0x7A5))
    good = bytes(play.d0(0x740))
    for opcode in (0xD0, 0xD5, 0xD6, 0xD7, 0xD8, 0xD9):
        play.heard(0x00, opcode, *good[2:])
        play.heard(0x01, opcode, *good[2:])
    play.due()
    for opcode in range(256):
        fresh()
        play.heard(0x00, opcode, *good[2:])
    for opcode in (0xD0, 0xD6, 0xD7, 0xD8):
        for length in range(13):
            fresh()
            play.heard(*(bytes([0x00, opcode]) + good[2:] + bytes(5))[:length])
        for first in (0x01, 0x80):
            fresh()
            play.heard(first, opcode, *good[2:])
        for at in range(2, 7):
            fresh()
            play.heard(0x00, opcode, *good[2:at], 0xFF, *good[at + 1:])
    for at in range(7):
        for value in range(256):
            fresh()
            play.heard(*good[:at], value, *good[at + 1:])


def every_first_byte(play, phase):
    """Every first byte at every length."""
    for length in range(13):
        for first in range(256 if length else 1):
            if play.c.phase != phase:
                play.say("close")
                play.open(Settings(rx=0x123, block=7))
                play.due()
                play.heard(*play.d0(0x7FF))
                play.due()
                if phase == "open":
                    play.a1(15, 0)
                    play.send((208,))
                    play.due()
            play.heard(*(bytes([first]) + play.bytes(12))[:length])
            if first % 32 == 31:
                play.say("take")
                play.due()


def every_default(play):
    """The bare open with every block size that a unit can name."""
    for block in range(1, 16):
        play.say("close")
        play.open_default()
        play.due()
        play.heard(*play.d0(0x740))
        play.due()
        play.a1(block, 0)
        whole(play, 208)


# What a telegram can meet.
STATES = ("closed", "A8 due", "C0 due", "D0 awaited", "A0 due", "A1 awaited", "A0 due again", *OPEN_STATES)


def brought(play, state, block=3):
    """A new record in this state. Tests go after 200 without a frame."""
    play.say("new")
    if state == "closed":
        return
    play.open(Settings(block=block, repeats=1, twait=300, interval=200))
    if state == "C0 due":
        return
    play.due()
    if state == "D0 awaited":
        return
    play.heard(*play.d0(0x740))
    if state == "A8 due":
        play.say("close")
    if state in ("A8 due", "A0 due"):
        return
    play.due()
    if state == "A0 due again":
        play.wait(1000)
    if state in ("A1 awaited", "A0 due again"):
        return
    play.a1(15, 0)
    brought_open(play, state)


def every_padding(play):
    """Every kind at every length up to one too long, in every state, on the ID listened on and on another."""
    for state in STATES:
        for which in range(len(telegrams(play))):
            for shift in (0, 1):
                brought(play, state)
                for length in range(1, 10):
                    start = bytes(telegrams(play)[which])
                    before = picture(play.console)
                    ident = 0x300 if play.c.phase == "closed" else play.c.listens_on()
                    play.frame(ident + shift, (start + play.filling(8))[:length])
                    if picture(play.console) != before:
                        after_control(play)
                        brought(play, state)
                after_control(play)


def every_padded_a1(play):
    """Block sizes on both sides of the limits, with others in the padding and without any, wherever an A1 can come: the frames that follow
    show which was taken, and their gap, 30 if it was, that T3 is byte 4."""
    for block in (0, 1, 2, 8, 15, 16, 255):
        for behind in ((), (0, 0), (1, 1), (3, 15), (15, 3), (16, 255), play.bytes(2)):
            for state in ("A0 due", "A1 awaited", "A0 due again", "fresh", "test out", "test due again"):
                brought(play, state, 15)
                play.heard(0xA1, block, 0x41, play.rng.randrange(256), 0x43, play.rng.randrange(256), *behind)
                if play.c.phase != "open":
                    after_control(play)
                    continue
                play.send((208,))
                play.due()
                while not play.c.sender.wait:
                    for span in (29, 1):
                        play.wait(span)
                        play.due()


def sending_order(play):
    """Our A1, a test, an Ack and data are due at once, as far as the protocol has them; then an Ack that comes after its wait, bare and
    padded."""
    for behind in (b"", play.filling(7)):
        brought(play, "A1 awaited")
        play.a1(15, 0)
        play.send((1,))
        play.heard(0xA3, *behind)
        play.first(0x00, 12, 0)
        play.wait(200)
        for _ in range(5):
            play.due()
        play.wait(1000)
        play.heard(0xB1, *behind)


def by(row, sweep):
    """What is swept by TP 2.0, by a row of TP 1.6."""
    def swept(play):
        play.row = row
        sweep(play)
    return swept


SWEEPS = (limits, every_reply, lambda play: every_first_byte(play, "parameters"),
          lambda play: every_first_byte(play, "open"), every_ack, every_first_frame, every_later_frame, every_flags,
          every_length, every_block, every_default, every_time_code, every_padding, every_padded_a1, sending_order, *SWEEPS16,
          by("drive", lambda play: every_first_byte(play, "parameters")), by("low", lambda play: every_first_byte(play, "open")),
          by("comfort", every_ack), by("high", every_first_frame), by("low", every_later_frame), by("drive", every_flags),
          by("comfort", every_length), by("high", every_block), by("low", every_default), by("drive", every_time_code),
          by("comfort", every_padding), by("high", every_padded_a1), by("low", sending_order))


# At random

def talking(play, rng, steps, lengths, loss=0.0, clean=False):
    """Both ends talk; unless clean, frames are also repeated and change places, and the car refuses and leaves."""
    pick = rng.choice
    habits = {"speak": 0.5, "hold": pick((0, 0.05, 0.3)), "test": pick((0, 0.02)), "flag": pick((0, 0.3)),
              "pad": pick((0, 0.5, 0.9))}
    if not clean:
        habits.update({"break": pick((0, 0.01, 0.05)), "refuse": 0.1, "refuse_data": 0.3, "bye": pick((0, 0.002))})
    own = play.settings(t1=0x8A, interval=pick((0, 3000, 10000)), repeats=255 if clean else pick((5, 20)), tests=5,
                        mntc=10, twait=pick((100, 1000)))
    play.choose()
    if play.row:
        low, high = LIMITS[play.row]["tx"]
        car = model.OldCar(rng, model.ROWS[play.row], pick((low, high, rng.randrange(low, high + 1))), rng.randrange(1, 16),
                           pick((0, 0, 0x32, 0x4A)), habits)
    else:
        car = model.Car(rng, pick((0x740, 0x740, rng.randrange(0x800))), rng.randrange(1, 16), pick((0, 0, 0x32, 0x01)),
                        habits)
    play.traffic(2 * steps, car, lengths, loss=loss, twice=0 if clean else pick((0, 0.1)),
                 swap=0 if clean else pick((0, 0.05)), late=pick((0, 0.2, 0.9)), settings=own, clean=clean)


def clean_talk(play, rng, steps):
    talking(play, rng, steps, rng.choice((SHORT, LENGTHS)), clean=True)


def lossy_talk(play, rng, steps):
    talking(play, rng, steps, rng.choice((SHORT, LENGTHS)), loss=rng.choice((0, 0.02, 0.1, 0.3)))


def long_talk(play, rng, steps):
    talking(play, rng, 750, LONG, loss=rng.choice((0, 0.002, 0.01, 0.03)))


KINDS = {openings: 10, sending: 12, receiving: 12, short_buffers: 4, testing: 8, anything: 8, malformed_lines: 6,
         settings: 3, full_blocks: 3, clean_talk: 10, lossy_talk: 10, long_talk: 2}


def scenario(play, index):
    """The first few go through all values of something; the rest are random."""
    if index < len(SWEEPS):
        SWEEPS[index](play)
    else:
        play.mixed = True
        kind = play.rng.choices(list(KINDS), list(KINDS.values()))[0]
        kind(play, play.rng, play.rng.randrange(40, 200))
    play.finish()
