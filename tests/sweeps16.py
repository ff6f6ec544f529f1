"""What is gone through for TP 1.6: its settings, its setup and replies, and what has no telegram there. What both protocols share is
swept by the rows too; scenarios.py has that."""

import model
from model import Settings, tenths
from play import HUGE, values_at, whole
from reached import LIMITS


def defaults(row):
    """By 02: IDs are the lowest of the row."""
    limits = LIMITS[row]
    return Settings(limits["rx"][0], limits["unit"][0], 8, 0x8A, 0x4A, 1000, 20, 5, 500, 10000, 5)


def values16(row, at):
    """A setting of TP 1.6, named by its place, at each limit, on both sides, and at each width; those of the other rows too."""
    name = Settings._fields[at]
    values = set(values_at(at))
    if name in LIMITS[row]:
        for limits in LIMITS.values():
            low, high = limits[name]
            values |= {low - 1, low, low + 1, high - 1, high, high + 1, 2**16 + low, 2**32 + low, 2**64 + low}
        values |= {LIMITS[row]["rx"][0] & 0xFF, *LIMITS[row]["tx"], 0x100 + LIMITS[row]["unit"][0]}
    elif name == "t3":
        values |= {0x3F, 0x40, 0x49, 0x4A, 0x4B, 0x7F, 0x80, 0x81, 0x82, 0x89, 0x8A, 0xC0, 0xC1, 0x149, 0x14A}
    elif name == "t1":
        values |= {0x3F, 0x49, 0x4A, 0x4B, 0x71, 0x72, 0x73, 0x7F, 0x84, 0x85, 0x86, 0x89, 0xC1, 0x18A}
    elif name == "twait":
        values |= {99, 100, 101, 102, 499, 500, 501, 998, 999, 1000, 1001, 65536 + 500}
    return sorted(values - {-1})


def tried(play, row, settings):
    """An opening with these settings as they are. One that is taken shows its C0 and is closed again; its protocol goes with it."""
    play.row = row
    if play.settle(settings) == "0":
        play.due()
        play.say("close")


def fresh(play, row, **fixed):
    """A record of the row whose C0 is out."""
    play.row = row
    if play.c.phase != "setup" or not play.c.asked or play.c.asking:
        if play.c.phase != "closed":
            play.say("close")
        assert play.settle(defaults(row)._replace(**fixed)) == "0"
        play.due()


def through(play, row, **fixed):
    """An open connection of the row."""
    play.say("close")
    fresh(play, row, **fixed)
    play.heard(*play.d0(LIMITS[row]["tx"][0]))
    play.due()
    play.a1(15, 0)
    assert play.c.phase == "open"


def every_row(play):
    """Without numbers and with the same ones, through a whole exchange. C0, reply ID and A0 are held to the IDs that 001 prints. Each
    phase goes out 21 times at most; no call of the opening is good twice."""
    for row, limits in LIMITS.items():
        source, unit, own = (0x200 if row == "drive" else 0x2D0), limits["unit"][0], limits["rx"][0]
        for words in ("", " " + " ".join(map(str, defaults(row)))):
            assert play.say("open16 " + row + words) == "0"
            for sends in range(21):
                assert play.due() == (source, bytes([unit, 0xC0, own & 0xFF]))
                play.due()
                for part in (999, 1):
                    play.wait(part)
            assert play.c.phase == "closed"
            play.say("open16 " + row + words)
            play.due()
            assert play.c.listens_on() == limits["from"][0]
            for second in (*play.SECOND, *("open16 " + other for other in LIMITS)):
                play.say(second)
            play.heard(0x00, 0xD0, limits["tx"][1] & 0xFF)
            for second in (*play.SECOND, *("open16 " + other for other in LIMITS)):
                play.say(second)
            assert play.due() == (limits["tx"][1], bytes([0xA0, 8, 0x8A, 0xFF, 0x4A, 0xFF]))
            for sends in range(20):
                play.wait(1000)
                play.due()
            assert play.c.listens_on() == own
            play.a1(8, 0)
            for second in (*play.SECOND, *("open16 " + other for other in LIMITS)):
                play.say(second)
            whole(play, 208)
            play.send((5,))
            play.due()
            play.heard(0x90 | play.c.sender.number)         # not ready, once; then the wait runs out until repeats are used up
            for part in (499, 1):
                play.wait(part)
                play.due()
            for tries in range(5):
                for part in (999, 1):
                    play.wait(part)
                    play.due()
            assert play.c.phase == "closed"
        # A reply before its request, and while the repeat is due.
        for opcode in (0xD0, 0xD6, 0xD8):
            for last in limits["tx"][0], limits["tx"][1] + 1:
                play.say("open16 " + row)
                play.heard(0x00, opcode, last & 0xFF)
                play.due()
                play.wait(1000)
                play.heard(0x00, opcode, last & 0xFF)
                play.due()
                play.say("close")
    for row in LIMITS:
        for phase in ("setup", "parameters", "open"):       # beside TP 2.0
            play.say("open")
            if phase != "setup":
                play.due()
                play.heard(*play.d0(0x740))
            if phase == "open":
                play.due()
                play.a1(15, 0)
            play.say("open16 " + row)
            play.say("open16 %s %s" % (row, " ".join(map(str, defaults(row)))))
            play.say("close")


def every_setting(play):
    """Each setting at each limit of its row and of the others, on both sides, and at each width."""
    for row in LIMITS:
        for at in range(len(model.RANGES)):
            for value in values16(row, at):
                chosen = list(defaults(row))
                chosen[at] = value
                tried(play, row, chosen)
        for unit in range(256):
            tried(play, row, defaults(row)._replace(unit=unit))
        for rx in range(*LIMITS[row]["rx"], 5):
            tried(play, row, defaults(row)._replace(rx=rx))


def every_bound(play):
    """T_WAIT beside T3 and beside T1, for every code of either; where only T3 can be too small, it is between them."""
    for code in range(256):
        row = tuple(LIMITS)[code % 4]
        span = tenths(code)
        own = defaults(row)._replace(t1=0xFF, t3=code)
        for twait in (span - 1, span, span + 1, 62998, 62999, 63000, 63001):
            if 0 <= twait <= 65536:
                tried(play, row, own._replace(twait=twait))
        own = defaults(row)._replace(t1=code)
        for twait in (99, 100, 101, span - 1, span, span + 1):
            tried(play, row, own._replace(twait=max(0, twait)))
    for row in LIMITS:
        for t3, t1 in ((0x49, 0x8A), (0x4A, 0x4A), (0x4A, 0x4B), (0x4B, 0x4C), (0x81, 0x82), (0x4A, 0x81), (0xC1, 0x8A), (0xC1, 0xC2),
                       (0x3F, 0x41)):
            for twait in range(max(0, tenths(t3) - 2), tenths(t3) + 13):
                tried(play, row, defaults(row)._replace(t1=t1, t3=t3, twait=twait))
        for twait in (65535, 65536, 0):
            tried(play, row, defaults(row)._replace(t1=0xFF, twait=twait))


def every_unit(play):
    """Each unit of each row: its D0 on the ID of each setup, on the next ones and on that of the C0."""
    for row, limits in LIMITS.items():
        for unit in range(limits["unit"][0], limits["unit"][1] + 1):
            play.say("close")
            fresh(play, row, unit=unit)
            own = limits["from"][0] + unit - limits["unit"][0]
            reply = play.d0(limits["tx"][0] + unit % 16)
            for ident in (0x200, 0x2D0, 0x200 + unit, 0x2D0 + unit, 0x2E0 + unit, 0x4A0 + unit, own - 1, own + 1, own | 0x800,
                          limits["rx"][0], limits["tx"][0]):
                if ident != own:
                    play.frame(ident, reply)
            play.frame(own, reply)
            assert play.c.phase == "parameters"
            play.due()


def every_reply16(play):
    """Every byte 2, every opcode, every byte 0 and every length of a reply, in each row."""
    for row, limits in LIMITS.items():
        good = limits["tx"][0] & 0xFF
        for last in range(256):
            for opcode in (0xD0, 0xD8) if last % 16 in (0, 15) else (0xD0,):
                fresh(play, row)
                play.heard(0x00, opcode, last)
                if play.c.phase == "parameters":
                    play.due()
        fresh(play, row, rx=limits["rx"][1])
        play.heard(0x00, 0xD0, limits["rx"][1] & 0xFF)      # our own ID
        for opcode in range(256):
            fresh(play, row)
            play.heard(0x00, opcode, good)
        for first in range(1, 256):
            for opcode in (0xD0, 0xD8) if first in (1, 2, 4, 8, 0x10, 0x1F, 0x20, 0x40, 0x80, 0xFF) else (0xD0,):
                fresh(play, row)
                play.heard(first, opcode, good)
        for opcode in (0xD0, 0xD6, 0xD7, 0xD8):
            for length in range(13):
                fresh(play, row)
                play.heard(*(bytes([0x00, opcode, good]) + bytes(10))[:length])
            own = play.c.settings.rx if play.c.phase != "closed" else limits["rx"][0]
            fresh(play, row)
            play.heard(0x00, opcode, own & 0xFF, own >> 8, good, limits["tx"][0] >> 8, 0x01)
        # A record that was closed takes TP 2.0's form again, and not this one.
        for opcode in (0xD0, 0xD6, 0xD7, 0xD8):
            play.say("close")
            play.say("open")
            play.due()
            play.heard(0x00, opcode, good)
            play.heard(0x00, opcode, 0x00, 0x03, 0x40, 0x07, 0x01)
            play.due()
            play.say("close")


def no_test(play):
    """However long it is, whatever the unused settings are, and whatever goes on: no test goes out and none is answered."""
    for row in LIMITS:
        for interval, tests in ((10000, 5), (1, 0), (65535, 255), (0, 0)):
            through(play, row, interval=interval, tests=tests)
            for span in (max(0, interval - 1), 1, 1, interval, 10 * interval, 65535, *HUGE):
                play.wait(span)
                assert play.due() is None
            for first in (0xA3, 0xA4):
                for behind in (b"", bytes(7), play.bytes(7), play.bytes(3)):
                    play.heard(first, *behind)
                    assert play.due() is None
            for block in (0, 1, 15, 16):
                for behind in (b"", b"\x01\x01"):
                    play.heard(0xA1, block, 0x8A, 0xFF, 0x4A, 0xFF, *behind)
            whole(play, 26)
            play.first(0x20, 12, 0)                     # a break does not bring the first frame back
            play.heard(0xA4)
            play.wait(interval)
            play.later(0x10, 7)
            play.due()
            play.say("take")
            play.send((5,))
            for _ in range(12):                         # the repeats are used up, not the tests
                play.wait(max(1, interval))
                play.due()
                play.wait(1000)
            assert play.c.phase == "closed"
        through(play, row, repeats=0)
        play.send((5,))
        play.due()
        play.wait(model.TIME)
        # T_WAIT is a hold as in TP 2.0, at each limit.
        for twait in (101, 500, 999):
            through(play, row, twait=twait)
            play.send((6,))
            play.due()
            play.due()
            play.heard(0x90)
            for part in (twait - 1, 1):
                play.wait(part)
                play.due()
            play.due()
            play.heard(0x92)
            play.say("close")


SWEEPS16 = every_row, every_setting, every_bound, every_unit, every_reply16, no_test
