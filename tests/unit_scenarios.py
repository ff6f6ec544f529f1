"""Scenarios for the unit's console, the control unit's side."""

import model
import unit_reached
from model import Settings
from play import (HUGE, LENGTHS, LONG, MALFORMED, OPEN_STATES, SHORT, WIDE, Play, after_control, anything, brought_open,
                  every_ack, every_block, every_first_frame, every_flags, every_later_frame, every_length, every_time_code,
                  full_blocks, malformed_lines, openings, receiving, sending, settings, short_buffers, telegrams, testing,
                  values_at, whole)
from reached import outcome, picture

REPLIES = 0xD0, 0xD6, 0xD7, 0xD8
GOOD = "1856 1 8 138 50 1000 10 5 1000 10000 5"


class UnitPlay(Play):
    CONSOLE = model.UnitConsole
    PLACES = unit_reached
    SECOND = "set", "set %s 208" % GOOD, "set %s 209" % GOOD, "set %s 18446744073709551824" % GOOD
    MALFORMED = (*MALFORMED, "open", "open 768 1 15 138 50 1000 10 5 1000 0 5", "SET", "set-", "sets", "set 1", "set -",
                 "set " + GOOD, "set %s 208 208" % GOOD, "set %s x" % GOOD, "set %s D0" % GOOD, "set %s -208" % GOOD,
                 "set %s 0xD0" % GOOD, "set x" + GOOD[4:] + " 208", "set\r", "set 208\r\r",
                 "open16 drive", "open16 low 1680 48 8 138 74 1000 20 5 500 10000 5", "set16 drive")
    ENDS = "unit", "tester"

    def __init__(self, rng, start, tally, check):
        self.course = unit_reached.Course()
        super().__init__(rng, start, tally, check)

    def say(self, line):
        bare = model.without_return(line.encode() if type(line) is str else line)
        call = bool(bare.strip(b" ")) and bare[:1] != b"#"
        was = unit_reached.standing(self.c, bare) if call else None
        answer = super().say(line)
        if answer is None or answer.startswith("error"):
            return answer
        if bare.strip(b" ") == b"new":
            self.course = unit_reached.Course()
        elif was.row:
            said = unit_reached.handed(was.column, answer) if was.row == "due" else outcome(answer)
            self.tally["%s, %s: %s" % (was.row, was.column, said)] += 1
            assert said in unit_reached.TABLE[was.row, was.column], (line, was, answer)
            self.tally.update(self.course.after(self.c, was, answer))
        return answer

    def own_id(self):
        return self.c.settings.rx

    # Settings and opening

    def settle(self, numbers):
        """Settings, and with them a reply or D0."""
        numbers = tuple(numbers)
        return self.say("set " + " ".join(map(str, numbers if len(numbers) == 12 else (*numbers, 0xD0))))

    def settings(self, **fixed):
        chosen = super().settings(**fixed)
        return chosen._replace(rx=0x1FF) if chosen.rx == model.SETUP_ID else chosen

    def odd_settings(self):
        """One setting or the reply at a limit or beyond it."""
        chosen = [*(Settings() if self.rng.random() < 0.5 else self.settings()), self.rng.choice(REPLIES)]
        at = self.rng.randrange(13)
        if at == 11:
            chosen[at] = self.rng.choice((0, 207, 209, 213, 217, 255, 256, 464, 2**64 + 208, self.rng.randrange(301)))
        elif at == 12:
            chosen[0] = self.rng.choice((0x1FF, 0x200, 0x200, 0x201))
        else:
            chosen[at] = self.odd_value(at)
        return chosen

    def c0(self, tx, unit=None):
        unit = self.c.settings.unit if unit is None else unit
        return self.frame(0x200, (unit, 0xC0, 0x00, 0x10, tx & 0xFF, tx >> 8, 0x01))

    def bad_c0(self):
        """A C0 with one thing wrong, or for another unit."""
        c0 = [self.c.settings.unit, 0xC0, 0x00, 0x10, self.rng.randrange(256), self.rng.randrange(8), 0x01]
        way = self.rng.randrange(5)
        if way == 0:
            c0[self.rng.randrange(7)] ^= 1 << self.rng.randrange(8)
        elif way == 1:
            c0 = c0[:self.rng.randrange(7)]
        elif way == 2:
            c0 += self.bytes(self.rng.randrange(1, 6))
        elif way == 3:
            c0[5] |= 1 << self.rng.randrange(3, 8)
        else:
            c0[0] = self.rng.choice((c0[0] ^ 1, 0xF0, 0xFF, self.rng.randrange(256)))
        return self.frame(0x200, c0)

    def a0(self, block, t3):
        return self.heard(0xA0, block, self.rng.randrange(256), self.rng.randrange(256), t3, self.rng.randrange(256))

    def opening(self, settings=None, tx=0x300, block=15, t3=0, mess=0.0, reply=0xD0):
        """A tester opens; with mess it goes wrong on the way, and may end closed."""
        if settings is None and self.rng.random() < 0.03:
            self.say("set")
        else:
            self.settle((*(settings or self.settings()), reply))
        asked = False
        for _ in range(300):
            phase = self.c.phase
            if phase == "open" or phase == "closed" and asked:
                break
            if self.rng.random() < mess:
                self.opening_mishap(tx, block, t3)
            elif phase == "closed":
                self.c0(tx)
                asked = True
            elif phase == "D0 out":
                self.a0(block, t3)
            else:
                self.due()
        return self.c.phase == "open"

    def opening_mishap(self, tx, block, t3):
        rng = self.rng
        way = rng.choices(list(MISHAPS), list(MISHAPS.values()))[0]
        if way == "time":
            self.wait(rng.choice((0, 1, 1000, *HUGE)))
        elif way == "due":
            self.say("due" if rng.random() < 0.7 else "due " + self.typed(self.bytes(3)))
        elif way == "C0":
            self.c0(rng.choice((tx, rng.randrange(0x800))))
        elif way == "bad C0":
            self.bad_c0()
        elif way == "A0":
            self.a0(rng.choice((block, rng.randrange(1, 16))), rng.choice((t3, 0, rng.randrange(256))))
        elif way == "bad A0":
            self.a0(rng.choice((0, 16, 0, 16, 255, rng.randrange(256))), t3)
        elif way == "A8":
            self.control(0xA8)
        elif way == "other kind":
            self.control(*rng.choice(((0x00, 0x00, 0x01, 0x55), (0xB0,), (0x90,), (0xA3,), (0xA4,),
                                      (0xA1, 15, 0x8A, 0xFF, 0x32, 0xFF), (0xA0, 15, 0x8A, 0xFF, 0x32, 0xFF), (0x10, 1))))
        elif way == "other ID":
            self.frame(rng.choice((self.c.settings.rx ^ 1, 0x201, tx, 0x7FF, 0xFFFF, rng.randrange(0x10000))),
                       rng.choice(((0xA0, 15, 0x8A, 0xFF, 0x32, 0xFF), (0xA8,), (0xB0,), (0xA8, *self.bytes(7)))))
        elif way == "call":
            self.say(rng.choice(("send 10 89", "send -", "take", *self.SECOND)))
        elif way == "junk":
            self.junk()
        elif way == "close":
            self.say("close")
        else:
            self.odd_line()

    def closed_step(self):
        way = self.rng.choice(("junk", "telegram", "C0", "C0", "bad C0", "close", "take", "send", "time", "due", "due", "set",
                               "set", "far_id", "odd line", "room"))
        if way == "telegram":
            self.control(*self.rng.choice(((0xA8,), (0xA3,), (0xA4,), (0xB0,), (0x10, 0, 1, 1),
                                           (0xA0, 15, 0x8A, 0xFF, 0x32, 0xFF), (0xA0, 0, 0x8A, 0xFF, 0x32, 0xFF),
                                           (0xA1, 15, 0x8A, 0xFF, 0x32, 0xFF))))
        elif way == "C0":
            self.c0(self.rng.randrange(0x800))
        elif way == "bad C0":
            self.bad_c0()
        elif way == "send":
            self.odd_send()
        elif way == "time":
            self.wait(self.rng.choice((0, 1, 1000, *HUGE)))
        elif way == "set":
            self.settle(self.odd_settings() if self.rng.random() < 0.5 else (*self.settings(), self.rng.choice(REPLIES)))
        elif way == "odd line":
            self.odd_line()
        elif way in ("close", "take", "due"):
            self.say(way)
        else:
            getattr(self, way)()

    def far_id(self):
        tx = self.c.left[0] if self.c.phase == "closed" and self.c.left else getattr(self.c, "tx", 0x300)
        ident = self.rng.choice((tx, 0x200, 0x200 + self.c.settings.unit, self.c.settings.rx ^ 1, self.c.settings.rx | 0x800,
                                 0xFFFF, self.rng.randrange(0x10000)))
        first = self.rng.choice((b"", b"\xB0", b"\xA3", b"\xA8", b"\xA0\x0F\x8A\xFF\x32\xFF", b"\xA1\x0F\x8A\xFF\x32\xFF"))
        self.frame(ident, first + self.filling(8 - len(first)) if first else self.bytes(self.rng.randrange(13)))

    def step(self, weights):
        """As at either side, but that a C0 or an A0 may come at any time, as often as `anew` weighs."""
        if self.c.phase == "open" and self.rng.random() < weights.get("anew", 0.02):
            return self.anew()
        super().step(weights)

    def anew(self):
        way = self.rng.randrange(5)
        if way < 2:
            self.a0(self.rng.randrange(1, 16), self.rng.choice((0, 0, 0x32, 0x43, self.rng.randrange(256))))
        elif way == 2:
            self.c0(self.rng.choice((self.c.tx, self.rng.randrange(0x800))))
        elif way == 3:
            self.bad_c0()
        else:
            self.a0(self.rng.choice((0, 16, self.rng.randrange(256))), self.rng.randrange(256))

    # Traffic

    def over(self, tester):
        return tester.end.phase == "closed" and tester.end.left is None

    def restart(self, tester, settings):
        if self.c.phase == "closed" or self.rng.random() < 0.2:
            self.settle((*settings, self.rng.choice((0xD0, *REPLIES)) if not tester.patient else 0xD0))
        tester.open(self.c.settings.unit)

    def something_due(self):
        c = self.c
        if c.phase != "open":
            return c.left is not None
        return c.answering or c.test_due() or c.receiver.ack is not None or c.sender.due()


# What may happen before the connection is open, and how often.
MISHAPS = {"time": 3, "due": 6, "C0": 4, "bad C0": 4, "A0": 6, "bad A0": 4, "A8": 0.8, "other kind": 6, "other ID": 2,
           "call": 4, "junk": 3, "close": 0.7, "odd line": 2}


# Going through all values

def limits(play):
    """Each setting at each limit, on both sides, and at each width, and the receive ID around 0x200."""
    for at in range(len(model.RANGES)):
        for value in (*values_at(at), *((0x1FF, 0x200, 0x201, 0x740) if at == 0 else ())):
            chosen = list(Settings())
            chosen[at] = value
            if play.settle(chosen) == "0":
                play.c0(0x300)
                play.due()
                play.say("close")


def every_reply(play):
    """Every reply up to 300 and beyond, closed with nothing, an A8 or a reply due, and while not closed."""
    for value in (*range(301), 464, 65744, *WIDE, *(2**64 + reply for reply in REPLIES)):
        for state in ("closed", "A8 due", "reply due", "D0 due"):
            brought(play, state)
            if play.settle((*Settings(rx=0x456), value)) == "0":
                play.due()
                play.c0(0x321)
            play.due()
            play.due()


def every_unit(play):
    """Every unit, asked by its own number and by those beside it."""
    for unit in range(0xF0):
        play.settle(Settings(unit=unit))
        for asked in (unit - 1, unit + 1, unit ^ 0x80, unit):
            play.c0(0x300, asked & 0xFF)
        play.due()
        play.say("close")


def every_c0(play):
    """Every value of every byte of a C0, and every length; with one bit altered, in every state."""
    good = bytes([0x23, 0xC0, 0x00, 0x10, 0x21, 0x03, 0x01])
    play.settle(Settings(unit=0x23, rx=0x7A5))
    for at in range(7):
        for value in range(256):
            if play.frame(0x200, (*good[:at], value, *good[at + 1:])) == "0":
                play.due()
    for length in range(13):
        play.frame(0x200, (good + bytes(5))[:length])
    for state in STATES:
        brought(play, state)
        for at in range(7):
            for bit in range(8):
                before = picture(play.console)
                c0 = bytearray((play.c.settings.unit, *good[1:]))
                c0[at] ^= 1 << bit
                play.frame(0x200, c0)
                if picture(play.console) != before:
                    after_telegram(play)
                    brought(play, state)


def every_a0(play):
    """Every block size that an A0 can name, in every state; where it is taken, the frames sent show it."""
    for state in STATES:
        brought(play, state)
        for block in range(256):
            before = picture(play.console)
            play.a0(block, 0)
            if picture(play.console) == before:
                continue
            play.due()
            play.send((110,))
            while play.c.phase == "open" and play.c.sender.due():
                play.due()
            brought(play, state)


def every_newer_a0(play):
    """An A0 behind another, before the A1 is handed over: each pair of block sizes, and T3 with them."""
    for older in range(1, 16):
        for newer in range(1, 16):
            play.say("new")
            play.settle(Settings(block=12, interval=0))
            play.c0(0x300)
            play.due()
            play.a0(older, older)
            play.a0(newer, newer)
            play.due()
            play.send((110,))
            play.due()
            for span in (min(older, newer) - 1, 1, abs(older - newer), 20):
                play.wait(span)
                play.due()
            while not play.c.sender.wait:
                play.wait(newer)
                play.due()


def every_first_byte(play):
    """Every first byte at every length, in each phase."""
    for state in ("D0 due", "D0 out", "A1 due", "sending"):
        brought(play, state)
        phase = play.c.phase
        for length in range(13):
            for first in range(256 if length else 1):
                play.heard(*(bytes([first]) + play.bytes(12))[:length])
                if first % 32 == 31:
                    play.say("take")
                if play.c.phase != phase:
                    play.due()
                    brought(play, state)


# What a telegram can meet.
STATES = ("closed", "A8 due", "reply due", "D0 due", "D0 due again", "D0 out", "A1 due", "A1 due again", *OPEN_STATES,
          "sending", "all due")


def brought(play, state, block=3):
    """A new record in this state. Tests go after 200 without a frame."""
    play.say("new")
    if state == "closed":
        return
    play.settle((*Settings(block=block, repeats=1, twait=300, interval=200), play.rng.choice(REPLIES[1:])
                 if state == "reply due" else 0xD0))
    play.c0(0x345)
    if state == "A8 due":
        play.say("close")
    if state in ("A8 due", "reply due", "D0 due"):
        return
    play.due()
    if state == "D0 out":
        return
    play.a0(15, 0)
    if state == "A1 due":
        return
    play.due()
    if state == "A1 due again":
        play.first(0x10, 5, play.flags())
        play.a0(2, 0x43)
    elif state == "D0 due again":
        play.first(0x10, 5, play.flags())
        play.c0(0x432)
    elif state == "sending":
        play.send((26,))
    elif state == "all due":
        play.send((26,))
        play.first(0x10, 5, play.flags())
        play.heard(0xA3)
        play.wait(200)
    else:
        brought_open(play, state)


def after_telegram(play):
    """What shows how the telegrams before were taken: what is due, then the opening to its end, then data."""
    after_control(play)
    if play.c.phase == "D0 out":
        play.a0(2, 0)
        play.due()
    if play.c.phase == "open":
        play.heard(0x10, 0x00, 0x01, 0x77)
        play.send((13,))
        play.due()
        play.due()


def every_telegram(play):
    """Every kind at every length up to one too long, in every state, on its receive ID, on 0x200, on the ID it sends on and
    on that beside its own."""
    for state in STATES:
        for which in range(len(telegrams(play))):
            for ident in (None, 0x200, 0x345, 0x301):
                brought(play, state)
                for length in range(1, 10):
                    start = bytes(telegrams(play)[which])
                    before = picture(play.console)
                    play.frame(play.own_id() if ident is None else ident, (start + play.filling(8))[:length])
                    if picture(play.console) != before:
                        after_telegram(play)
                        brought(play, state)
                if ident in (None, 0x200):
                    after_telegram(play)


def every_call(play):
    """Every call in every state."""
    calls = ("set", "set %s 208" % GOOD, "set %s 209" % GOOD, "set 512 1 8 138 50 1000 10 5 1000 10000 5 208",
             "set %s 18446744073709551824" % GOOD, "send 01", "send -", "take", "close", "time 0", "time 1", "time 200",
             "time 1000", "time 18446744073709551615", "due", "due 01", "due -", "open", "buffer", "room 4", "new")
    for state in STATES:
        for call in calls:
            brought(play, state)
            play.say(call)
            play.say("room 1024")
            after_telegram(play)


def every_default(play):
    """The bare set with every block size that an A0 can name."""
    for block in range(1, 16):
        play.say("close")
        play.say("set")
        play.c0(0x300)
        play.due()
        play.a0(block, 0)
        play.due()
        whole(play, 208)


def every_padded_a1(play):
    """An A1 with block sizes on both sides of the limits and others in the padding, before and after the opening."""
    for block in (0, 1, 2, 8, 15, 16, 255):
        for behind in ((), (0, 0), (1, 1), (3, 15), (15, 3), (16, 255), play.bytes(2)):
            for state in ("D0 due", "D0 out", "A1 due", "fresh", "test out", "test due again", "all due"):
                brought(play, state)
                play.heard(0xA1, block, 0x41, play.rng.randrange(256), 0x43, play.rng.randrange(256), *behind)
                after_telegram(play)


SWEEPS = (limits, every_reply, every_unit, every_c0, every_a0, every_newer_a0, every_first_byte, every_telegram, every_call,
          every_default, every_padded_a1, every_ack, every_first_frame, every_later_frame, every_flags, every_length,
          every_block, every_time_code)


# At random

def begun_anew(play, rng, steps):
    """C0 and A0 again and again, in the midst of data both ways."""
    play.wander(steps, {"anew": 0.12, "due": 20, "run": 20, "ack": 15, "data": 25, "send": 12, "take": 6, "test": 3, "A1": 2},
                interval=(0, 50, 10000), repeats=(5, 1, 255), mntc=(10,))


def refusing(play, rng, steps):
    """Replies of every kind."""
    for _ in range(steps // 8):
        play.opening(play.settings(), tx=rng.randrange(0x800), mess=rng.choice((0, 0.3, 0.6)), reply=rng.choice(REPLIES))
        for _ in range(rng.randrange(8)):
            play.step({"anew": 0.3})
        if rng.random() < 0.5:
            play.say("close")


def talking(play, rng, steps, lengths, loss=0.0, clean=False):
    """Both ends talk; unless clean, frames are also repeated and change places, and the tester calls again and leaves."""
    pick = rng.choice
    habits = {"speak": 0.5, "late": pick((0, 0.2, 0.8)), "flag": pick((0, 0.3)), "pad": pick((0, 0.5, 0.9))}
    if not clean:
        habits.update({"break": pick((0, 0.01, 0.05)), "again": pick((0, 0.005, 0.03)), "bye": pick((0, 0.005))})
    own = play.settings(t1=0x8A, interval=pick((0, 3000, 10000)), repeats=255 if clean else pick((5, 20)), tests=5,
                        twait=pick((100, 1000)))
    far = play.settings(t1=0x8A, t3=pick((0, 0, 0x32, 0x01)), interval=pick((0, 3000, 10000)), tests=5, mntc=10,
                        repeats=255 if clean else pick((5, 20)), twait=pick((100, 1000)))
    play.traffic(2 * steps, model.Tester(rng, far, habits, clean), lengths, loss=loss, twice=0 if clean else pick((0, 0.1)),
                 swap=0 if clean else pick((0, 0.05)), late=pick((0, 0.2, 0.9)), settings=own, clean=clean)


def clean_talk(play, rng, steps):
    talking(play, rng, steps, rng.choice((SHORT, LENGTHS)), clean=True)


def lossy_talk(play, rng, steps):
    talking(play, rng, steps, rng.choice((SHORT, LENGTHS)), loss=rng.choice((0, 0.02, 0.1, 0.3)))


def long_talk(play, rng, steps):
    talking(play, rng, 750, LONG, loss=rng.choice((0, 0.002, 0.01, 0.03)))


KINDS = {openings: 10, refusing: 5, begun_anew: 14, sending: 8, receiving: 8, short_buffers: 3, testing: 8, anything: 8,
         malformed_lines: 5, settings: 3, full_blocks: 2, clean_talk: 10, lossy_talk: 12, long_talk: 2}


def scenario(play, index):
    """The first few go through all values of something; the rest are random."""
    if index < len(SWEEPS):
        SWEEPS[index](play)
    else:
        kind = play.rng.choices(list(KINDS), list(KINDS.values()))[0]
        kind(play, play.rng, play.rng.randrange(40, 200))
    play.finish()
