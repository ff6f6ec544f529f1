"""Logs as candump writes them, by seed: openings that go well and badly, both sides' messages with all that can befall them,
every form and near-form of a line, and damage.

The forms of lines stand in tables, each with what is to be said of such a line, written by hand. The traffic is led by the
model's two sides, so that most frames are at the edge of a rule; what they are read as is not decided here.
"""

import captures
from captures import BREAKS, FRAME, LONGEST, PASSED, WIDEST

DIGITS = b"0123456789abcdefABCDEF"
NO_LF = bytes(byte for byte in range(256) if byte != 0x0A)
NO_BLANK = bytes(byte for byte in NO_LF if byte != 0x20)


# Forms of lines. Each maker in the tables takes a random generator r, an ID i of three digits and data d in digits.

def stamp(rng):
    return b"(%d.%06d)" % (1436509052 + rng.randrange(1000), rng.randrange(1000000))


def head(rng):
    return stamp(rng) + b" can0 "


def plain(rng, ident, data):
    return head(rng) + ident + b"#" + data


def some(rng, alphabet, low, high):
    return bytes(rng.choice(alphabet) for _ in range(rng.randrange(low, high + 1)))


def miscounted(rng):
    """Digits, as many as make no ID."""
    count = rng.choice((1, 2, 4, 5, 6, 7, 9, 10))
    return some(rng, b"01234567", count, count)


def mixed(rng, digits):
    return bytes(rng.choice((byte, byte ^ 0x20)) if byte >= 0x40 else byte for byte in digits)


def filled(rng, text, length, at=None):
    """A line made so long: by its interface, or by its time on either side of the dot."""
    lack = length - len(text)
    way = rng.randrange(3) if at is None else at
    if way == 0:
        return text.replace(b" can0", b" can0" + some(rng, NO_BLANK, lack, lack), 1)
    if way == 1:
        return text.replace(b".", b"." + some(rng, b"0123456789", lack, lack), 1)
    return text.replace(b"(", b"(" + some(rng, b"0123456789", lack, lack), 1)


def behind(rng, text, length):
    """A line made so long by what follows."""
    return text + some(rng, NO_LF, length - len(text), length - len(text))


GOOD = {
    "upper case": lambda r, i, d: head(r) + i.upper() + b"#" + d.upper(),
    "lower case": lambda r, i, d: head(r) + i.lower() + b"#" + d.lower(),
    "either case": lambda r, i, d: head(r) + mixed(r, i) + b"#" + mixed(r, d),
    "short time": lambda r, i, d: b"(%d.%d) can0 " % (r.randrange(10), r.randrange(10)) + i + b"#" + d,
    "long time": lambda r, i, d: b"(%s.%s) can0 " % (some(r, b"0123456789", 1, 60), some(r, b"0123456789", 1, 60))
                 + i + b"#" + d,
    "interface of one": lambda r, i, d: stamp(r) + b" " + some(r, NO_BLANK, 1, 1) + b" " + i + b"#" + d,
    "interface of any": lambda r, i, d: stamp(r) + b" " + some(r, NO_BLANK, 1, 30) + b" " + i + b"#" + d,
    "interface of marks": lambda r, i, d: stamp(r) + b" " + some(r, b"\t#()R.\0\r\xff0", 1, 12) + b" " + i + b"#" + d,
    "interface like a frame": lambda r, i, d: stamp(r) + b" 300#1000025089 " + i + b"#" + d,
    "interface like 8 digits": lambda r, i, d: stamp(r) + b" 12345678# " + i + b"#" + d,
    "199 characters": lambda r, i, d: filled(r, plain(r, i, d), WIDEST - 1),
    "200 characters": lambda r, i, d: filled(r, plain(r, i, d), WIDEST),
}

OVER = {
    "8 digits": lambda r, i, d: head(r) + some(r, DIGITS, 8, 8) + b"#" + d,
    "8 digits, nothing behind": lambda r, i, d: head(r) + b"00000" + i + b"#",
    "8 digits, anything behind": lambda r, i, d: head(r) + b"FFFFF" + i + b"#" + some(r, NO_LF, 0, 40),
    "8 digits, R": lambda r, i, d: head(r) + some(r, DIGITS, 8, 8) + b"#R",
    "8 digits, FD": lambda r, i, d: head(r) + some(r, DIGITS, 8, 8) + b"##1" + d,
    "8 digits, 200 characters": lambda r, i, d: behind(r, head(r) + b"12345678#", WIDEST),
    "8 digits, odd interface": lambda r, i, d: stamp(r) + b" " + some(r, b"\t#()R.\0\r\xff0", 1, 12) + b" 12345678#" + d,
    "remote": lambda r, i, d: head(r) + i + b"#R",
    "remote with a length": lambda r, i, d: head(r) + i + b"#R8",
    "remote, anything behind": lambda r, i, d: head(r) + i + b"#R" + some(r, NO_LF, 0, 40),
    "remote, 200 characters": lambda r, i, d: behind(r, head(r) + i + b"#R", WIDEST),
    "FD": lambda r, i, d: head(r) + i + b"##1" + d,
    "FD, nothing behind": lambda r, i, d: head(r) + i + b"##",
    "FD of 64 bytes": lambda r, i, d: head(r) + i + b"##0" + some(r, DIGITS, 128, 128),
    "FD, anything behind": lambda r, i, d: head(r) + i + b"##" + some(r, NO_LF, 0, 40),
    "FD, 200 characters": lambda r, i, d: behind(r, head(r) + i + b"##", WIDEST),
    "CR behind": lambda r, i, d: head(r) + r.choice((i + b"##", i + b"#R", b"12345678#")) + b"\r" * r.randrange(1, 4),
}

BAD = {
    "empty": lambda r, i, d: b"",
    "a CR": lambda r, i, d: b"\r",
    "a blank": lambda r, i, d: b" ",
    "words": lambda r, i, d: b"can0  " + i + b"   [8]  " + d,
    "anything": lambda r, i, d: b"\0" + some(r, NO_LF, 0, 60),
    "no bracket": lambda r, i, d: head(r)[1:] + i + b"#" + d,
    "another bracket": lambda r, i, d: b"[" + head(r)[1:] + i + b"#" + d,
    "blank first": lambda r, i, d: b" " + plain(r, i, d),
    "no closing bracket": lambda r, i, d: head(r).replace(b")", b"") + i + b"#" + d,
    "no dot": lambda r, i, d: b"(1436509052) can0 " + i + b"#" + d,
    "two dots": lambda r, i, d: b"(1.2.3) can0 " + i + b"#" + d,
    "nothing before the dot": lambda r, i, d: b"(.249713) can0 " + i + b"#" + d,
    "nothing behind the dot": lambda r, i, d: b"(1436509052.) can0 " + i + b"#" + d,
    "a letter before the dot": lambda r, i, d: b"(14365a9052.249713) can0 " + i + b"#" + d,
    "a letter behind the dot": lambda r, i, d: b"(1436509052.24F713) can0 " + i + b"#" + d,
    "a sign": lambda r, i, d: b"(-1.249713) can0 " + i + b"#" + d,
    "a blank in the time": lambda r, i, d: b"(1436509052. 249713) can0 " + i + b"#" + d,
    "a comma": lambda r, i, d: b"(1436509052,249713) can0 " + i + b"#" + d,
    "no blank behind the time": lambda r, i, d: stamp(r) + b"can0 " + i + b"#" + d,
    "two blanks behind the time": lambda r, i, d: stamp(r) + b"  can0 " + i + b"#" + d,
    "a tab behind the time": lambda r, i, d: stamp(r) + b"\tcan0 " + i + b"#" + d,
    "no interface": lambda r, i, d: stamp(r) + b" " + i + b"#" + d,
    "no interface, two blanks": lambda r, i, d: stamp(r) + b"  " + i + b"#" + d,
    "two blanks behind the interface": lambda r, i, d: head(r) + b" " + i + b"#" + d,
    "a tab behind the interface": lambda r, i, d: stamp(r) + b" can0\t" + i + b"#" + d,
    "time alone": lambda r, i, d: stamp(r),
    "time and a blank": lambda r, i, d: stamp(r) + b" ",
    "no frame": lambda r, i, d: stamp(r) + b" can0",
    "no frame but a blank": lambda r, i, d: head(r),
    "no #": lambda r, i, d: head(r) + i + d,
    "ID alone": lambda r, i, d: head(r) + i,
    "no ID": lambda r, i, d: head(r) + b"#" + d,
    "another count of ID digits": lambda r, i, d: plain(r, miscounted(r), d),
    "another count of ID digits, R": lambda r, i, d: plain(r, miscounted(r), b"R"),
    "an ID with no digit": lambda r, i, d: plain(r, r.choice((b"3G0", b"g00", b"30:", b"3`0", b"-10", b"30/", b"@00")), d),
    "an ID with no digit, FD": lambda r, i, d: plain(r, r.choice((b"3G0", b"g00", b"30:", b"3`0")), b"#" + d),
    "800": lambda r, i, d: head(r) + r.choice((b"800", b"FFF", b"a00", b"8ff", b"900")) + b"#" + d,
    "800 R": lambda r, i, d: head(r) + r.choice((b"800", b"FFF", b"a00")) + b"#R",
    "800 FD": lambda r, i, d: head(r) + r.choice((b"800", b"FFF", b"a00")) + b"##1" + d,
    "8 digits and no #": lambda r, i, d: head(r) + b"12345678",
    "8 digits and another mark": lambda r, i, d: head(r) + b"12345678" + r.choice((b":", b" #", b"R", b"\r#")) + d,
    "8 digits, one is none": lambda r, i, d: head(r) + r.choice((b"1234567g#", b"G2345678#", b"1234 678#", b"123456 8#")) + d,
    "R of lower case": lambda r, i, d: head(r) + i + b"#r",
    "R behind data": lambda r, i, d: head(r) + i + b"#00R",
    "# behind data": lambda r, i, d: head(r) + i + b"#00#",
    "blank before #": lambda r, i, d: head(r) + i + b" #" + d,
    "odd digits": lambda r, i, d: head(r) + i + b"#" + (d[:-1] or b"5"),
    "one digit more": lambda r, i, d: plain(r, i, d) + b"0",
    "9 bytes": lambda r, i, d: head(r) + i + b"#" + some(r, DIGITS, 18, 18),
    "many bytes": lambda r, i, d: head(r) + i + b"#" + some(r, DIGITS, 18, 140),
    "8 bytes and a half": lambda r, i, d: head(r) + i + b"#" + some(r, DIGITS, 17, 17),
    "no digit in the data": lambda r, i, d: plain(r, i, d[2:]) + r.choice((b"0G", b"g0", b"0:", b"/0", b"0@", b"`0", b"0 ",
                                                                           b"\xb20", b"0\0")),
    "bytes apart": lambda r, i, d: head(r) + i + b"#10 00 02",
    "bytes with dots": lambda r, i, d: head(r) + i + b"#10.00.02",
    "0x": lambda r, i, d: head(r) + i + b"#0x10",
    "blank behind": lambda r, i, d: plain(r, i, d) + b" ",
    "direction behind": lambda r, i, d: plain(r, i, d) + r.choice((b" T", b" R", b" r")),
    "CR behind": lambda r, i, d: plain(r, i, d) + b"\r" * r.randrange(1, 3),
    "tab behind": lambda r, i, d: plain(r, i, d) + b"\t",
    "NUL behind": lambda r, i, d: plain(r, i, d) + b"\0",
    "torn at its end": lambda r, i, d: (head(r) + i + b"#")[:r.randrange(1, 28)],
    "torn at its head": lambda r, i, d: plain(r, i, d)[r.randrange(1, 25):],
    "two in one": lambda r, i, d: plain(r, i, d) + plain(r, i, d),
    "201 characters": lambda r, i, d: filled(r, plain(r, i, d), WIDEST + 1),
    "202 characters": lambda r, i, d: filled(r, plain(r, i, d), WIDEST + 2),
    "203 characters": lambda r, i, d: filled(r, plain(r, i, d), WIDEST + 3),
    "300 characters": lambda r, i, d: filled(r, plain(r, i, d), 300),
    "8 digits, 201 characters": lambda r, i, d: behind(r, head(r) + b"12345678#", WIDEST + 1),
    "8 digits, 202 characters": lambda r, i, d: behind(r, head(r) + b"12345678#", WIDEST + 2),
    "8 digits, 203 characters": lambda r, i, d: behind(r, head(r) + b"12345678#", WIDEST + 3),
    "8 digits, 500 characters": lambda r, i, d: behind(r, head(r) + b"12345678#", 500),
    "remote, 201 characters": lambda r, i, d: behind(r, head(r) + i + b"#R", WIDEST + 1),
    "FD, 201 characters": lambda r, i, d: behind(r, head(r) + i + b"##", WIDEST + 1),
    "8 digits, 200 characters and a CR": lambda r, i, d: behind(r, head(r) + b"12345678#", WIDEST) + b"\r",
    "200 characters and a CR": lambda r, i, d: filled(r, plain(r, i, d), WIDEST) + b"\r",
    "200 characters, a blank last": lambda r, i, d: filled(r, plain(r, i, d) + b" ", WIDEST),
}

HUGE = {
    "70,000 characters": lambda r, i, d: filled(r, plain(r, i, d), 70000, 1),
    "8 digits, 70,000 characters": lambda r, i, d: head(r) + b"12345678#" + b"0" * 70000,
}

TABLES = ((FRAME, GOOD), (PASSED, OVER), (BREAKS, BAD), (BREAKS, HUGE))


def form_name(verdict, name):
    return "%s: %s" % (verdict, name)


FORMS = [form_name(verdict, name) for verdict, table in TABLES for name in table]


# The text of a log

class Log:
    """A log in writing: its lines, and which forms they have."""

    def __init__(self, rng):
        self.rng = rng
        self.lines = []                                 # with their ends
        self.forms = []                                 # of the lines, with what is to be said of each: (verdict, name, text)
        self.usual = rng.choice(("upper case", "upper case", "upper case", "lower case", "either case"))
        self.odd = rng.choice((0, 0.03, 0.3))           # lines of an odd form
        self.passed = rng.choice((0, 0.02, 0.1))        # lines between that are passed over
        self.bad = rng.choice((0, 0, 0.03, 0.2))        # lines between that break the form
        self.others = rng.choice((0, 0.1, 0.5))         # lines between of other IDs
        self.returns = rng.choice((0, 0, 0, 0.5, 1))    # lines that end in CR LF
        self.ids = [0x300, 0x740]                       # that lines between are about

    def put(self, verdict, table, name, ident, data):
        text = table[name](self.rng, b"%03X" % ident, data.hex().upper().encode())
        self.forms.append((verdict, name, text))
        self.lines.append(text + (b"\r\n" if self.rng.random() < self.returns else b"\n"))

    def frame(self, ident, data):
        """A frame, with what stands between it and the one before."""
        self.between(ident, data)
        if self.rng.random() < self.odd:
            self.put(FRAME, GOOD, self.rng.choice(list(GOOD)), ident, data)
        else:
            self.put(FRAME, GOOD, self.usual, ident, data)

    def between(self, ident, data):
        """Lines that hold no frame of the channel; some look as if they held this one."""
        rng = self.rng
        while rng.random() < self.passed:
            self.put(PASSED, OVER, rng.choice(list(OVER)), ident, data)
        while rng.random() < self.bad:
            table = HUGE if rng.random() < 0.003 else BAD
            self.put(BREAKS, table, rng.choice(list(table)), ident, data)
        while rng.random() < self.others:
            other = rng.randrange(0x800)
            if other not in self.ids:
                self.put(FRAME, GOOD, self.usual, other, rng.randbytes(rng.randrange(9)))

    def text(self):
        """The log; its last line may lack its end, or have half of it."""
        lines, chance = list(self.lines), self.rng.random()
        if lines and chance < 0.4:
            last = lines.pop()
            last = last[:-2] if last.endswith(b"\r\n") else last[:-1]
            lines.append(last + (b"\r" if chance < 0.15 else b""))
        return b"".join(lines)


# Openings

def c0(unit, rx):
    return bytes([unit, 0xC0, 0x00, 0x10, rx & 0xFF, rx >> 8, 0x01])


def d0(rx, tx, opcode=0xD0):
    return bytes([0x00, opcode, rx & 0xFF, rx >> 8, tx & 0xFF, tx >> 8, 0x01])


def parameters(opcode, block=15):
    return bytes([opcode, block, 0x8A, 0xFF, 0x32, 0xFF])


def altered(rng, data):
    """A telegram that is badly formed by one byte, or by its length."""
    way = rng.randrange(4)
    if way == 0:
        return data[:-1]
    if way == 1:
        return (data + rng.randbytes(1))[:8]
    at = rng.randrange(len(data))
    return data[:at] + bytes([data[at] ^ 1 << rng.randrange(8)]) + data[at + 1:]


class Traffic:
    """A log's traffic: the channel's two IDs, and the model's two sides to lead it."""

    def __init__(self, log):
        self.log, self.rng = log, log.rng
        rng = self.rng
        self.unit = rng.choice((0x01, 0x01, 0x01, 0x00, 0x17, 0xEF, 0xF0, 0xFF, rng.randrange(256)))
        self.rx, self.tx = 0x300, 0x740
        if rng.random() < 0.4:
            odd = (0x000, 0x7FF, 0x200, 0x200 + self.unit, 0x201, 0x300, 0x740, rng.randrange(0x800), rng.randrange(0x800))
            self.rx = rng.choice(odd)
            self.tx = rng.choice([ident for ident in odd if ident != self.rx] or [0x740])
        log.ids = [self.rx, self.tx]
        self.led = {ident: captures.Side(ident == self.tx, LONGEST, lambda name: None) for ident in (self.rx, self.tx)}
        self.past = {ident: [] for ident in (self.rx, self.tx)}        # data frames written, for repeats
        self.flags = rng.choice((0, 0.1, 0.5))
        self.trouble = rng.choice((0, 0.03, 0.1, 0.3))
        self.pads = rng.choice((0, 0, 0.3))
        self.block = rng.choice((1, 2, 3, 4, 8, 15))

    # The opening

    def mishap(self, stage):
        """A frame that neither opens nor goes on, or one that starts over."""
        rng, unit, rx, tx = self.rng, self.unit, self.rx, self.tx
        say = self.log.frame
        other = rng.choice([ident for ident in (0x301, 0x741, 0x310, rng.randrange(0x800)) if ident not in (rx, tx)] or [0x123])
        way = rng.randrange(16)
        if way == 0:
            say(0x200, altered(rng, c0(unit, rx)))
        elif way == 1:
            say(rng.choice((0x201, 0x1FF, 0x300, 0x600)), c0(unit, rx))
        elif way == 2:
            say(0x200 + unit, d0(rx, tx, rng.choice((0xD6, 0xD7, 0xD8, 0xD1, 0xDF))))
        elif way == 3:
            say(0x200 + unit, d0(rx, rx))
        elif way == 4:
            say(0x200 + unit, d0(other, tx))
        elif way == 5:
            say(0x200 + (unit + 1) % 256, d0(rx, tx))
        elif way == 6:
            say(0x200 + unit, rng.choice((altered(rng, d0(rx, tx)), d0(rx, tx | 0x1000), d0(rx | 0x1000, tx),
                                          d0(rx, tx | 0x800))))
        elif way == 7:
            say(rng.choice((tx, rx, other)), rng.choice((altered(rng, parameters(0xA0)), parameters(0xA0) + b"\0\0")))
        elif way == 8:
            say(rng.choice((rx, rx, tx, other)),
                parameters(0xA1, rng.choice((0, 16, 17, 255, 15, 1))) + rng.choice((b"", b"", b"\0\0", b"\0")))
        elif way == 9:
            say(rng.choice((rx, tx)), self.padded(b"\xA8"))
        elif way == 10:
            say(rng.choice((rx, tx)), b"\x10\x00\x02\x10\x89")
        elif way == 11:
            say(rng.choice((rx, tx)), b"")
        elif way == 12:
            say(rng.choice((rx, rx, other)), parameters(0xA0))
        elif way == 13:
            say(rx, parameters(0xA1, 0))
            say(rx, parameters(0xA1, rng.choice((16, 255))) + b"\x55\x55")
        elif way == 14 and stage > 1:
            say(0x200 + unit, d0(rx, other))
        elif way == 15:
            self.start_over(stage)

    def start_over(self, stage):
        """Another C0, which is then not answered, or the same one again with all that follows it so far."""
        rng = self.rng
        if rng.random() < 0.5:
            self.log.frame(0x200, rng.choice((c0((self.unit + 1) % 256, self.rx), c0(self.unit, self.rx ^ 1))))
        steps = self.steps()[:stage] if rng.random() < 0.8 else self.steps()[:1]
        for ident, data in steps:
            self.log.frame(ident, data)

    def steps(self):
        return [(0x200, c0(self.unit, self.rx)), (0x200 + self.unit, d0(self.rx, self.tx)),
                (self.tx, parameters(0xA0, self.rng.choice((15, 8, 0, 255))))]

    def open(self):
        """An opening with what befalls it; most of them open in the end."""
        rng, rate = self.rng, self.rng.choice((0, 0, 0.3, 0.7))
        for stage, (ident, data) in enumerate(self.steps()):
            while rng.random() < rate:
                self.mishap(stage)
            self.log.frame(ident, data)
            if rng.random() < 0.1:
                self.log.frame(ident, data)
        while rng.random() < rate:
            self.mishap(3)
        if rng.random() < 0.06:
            return
        last = parameters(0xA1, rng.choice((1, 15, 15, 8, rng.randrange(1, 16))))
        # Whatever went wrong before, the whole of it once more opens.
        if rng.random() < 0.85:
            for ident, data in self.steps():
                self.log.frame(ident, data)
        self.log.frame(self.rx, self.padded(last))

    def padded(self, data):
        if self.rng.random() < self.pads:
            return data + self.rng.randbytes(8 - len(data))
        return data

    # Telegrams

    def other(self, ident):
        return self.tx if ident == self.rx else self.rx

    def data(self, ident, data):
        self.log.frame(ident, data)
        self.past[ident].append(data)
        del self.past[ident][:-40]
        self.led[ident].data(1, data)

    def brk(self, ident):
        self.log.frame(ident, self.padded(b"\xA4"))
        self.led[ident].back()

    def ack(self, ident):
        """An Ack for what was sent on this ID."""
        ready = 0xB0 if self.rng.random() < 0.9 else 0x90
        self.log.frame(self.other(ident), self.padded(bytes([ready | self.led[ident].expected])))

    def control(self):
        """A control telegram that changes nothing here, or one that is badly formed."""
        rng, say = self.rng, self.log.frame
        ident = rng.choice((self.rx, self.tx))
        way = rng.randrange(9)
        if way == 0:
            say(ident, self.padded(b"\xA3"))
            say(self.other(ident), self.padded(parameters(0xA1, rng.choice((15, 15, 8, 0, 16)))))
        elif way == 1:
            say(ident, parameters(0xA0))
        elif way == 2:
            self.ack(ident)
        elif way == 3:
            say(ident, rng.choice((b"", bytes([rng.randrange(0x40)]))))
        elif way == 4:
            say(ident, bytes([rng.choice((0xA3, 0xA4, 0xA8, 0xA8, 0xA4, 0xB0, 0x95))]) + rng.randbytes(rng.randrange(1, 7)))
        elif way == 5:
            say(ident, parameters(rng.choice((0xA0, 0xA1)))[:rng.randrange(1, 6)])
        elif way == 6:
            say(ident, rng.choice((parameters(0xA0) + b"\0\0", parameters(0xA1) + b"\0")))
        elif way == 7:
            first = rng.choice((0x40, 0x7F, 0x80, 0x8F, 0xA2, 0xA5, 0xA7, 0xA9, 0xC0, 0xD0, 0xFF))
            say(ident, bytes([first]) + rng.randbytes(rng.choice((0, 7, rng.randrange(8)))))
        else:
            say(0x200, c0(self.unit, self.rx))

    # Messages in order, with what befalls them

    def cut(self, message, flags, start):
        """The frames of a message as lists: [AR asked, EOM, number, bytes]."""
        stream = (flags << 12 | len(message)).to_bytes(2, "big") + message
        pieces = [stream[at:at + 7] for at in range(0, len(stream), 7)]
        last = len(pieces) - 1
        return [[place == last or (place + 1) % self.block == 0, place == last, (start + place) % 16, piece]
                for place, piece in enumerate(pieces)]

    @staticmethod
    def bytes_of(frame):
        asks, last, number, piece = frame
        return bytes([(0x00 if asks else 0x20) | (0x10 if last else 0x00) | number]) + piece

    def spoil(self, frames):
        """Breaks a message in one of the ways that 01 lists, mostly."""
        rng, way = self.rng, self.rng.randrange(10)
        first, last = frames[0], frames[-1]
        if way == 0:
            first[3] = first[3][:1]
        elif way == 1:
            first[3] = bytes([first[3][0] & 0xF0, 0]) + first[3][2:]
        elif way == 2:
            first[3] = ((first[3][0] & 0xF0) << 8 | rng.choice((1025, 1026, 2048, 4095))).to_bytes(2, "big") + first[3][2:]
        elif way == 3:
            frame = rng.choice(frames)
            frame[3] = (frame[3] + rng.randbytes(7))[:7]
        elif way == 4:
            last[1] = False
        elif way == 5:
            rng.choice(frames)[1] = True
        elif way == 6:
            last[3] = last[3][:-1] or b"\0"
        elif way == 7:
            declared = int.from_bytes(first[3][:2], "big")
            first[3] = max(0, declared + rng.choice((-7, -1, 1, 7))).to_bytes(2, "big") + first[3][2:]
        elif way == 8:
            rng.choice(frames)[2] ^= 1 << rng.randrange(4)
        else:
            frame = rng.choice(frames)
            frame[rng.randrange(2)] ^= True

    def length(self):
        rng = self.rng
        return rng.choice((1, 2, 4, 5, 6, 12, 13, 26, 27, rng.randrange(1, 40), rng.randrange(1, 40), rng.randrange(40, 130),
                           130 if rng.random() < 0.85 else rng.choice((1023, 1024, 1024, 1025, rng.randrange(200, 1100)))))

    def send(self, ident):
        """A message, block by block: frames are lost, come twice, come again from far, are broken off and repeated."""
        rng, side = self.rng, self.led[ident]
        flags = rng.randrange(16) if rng.random() < self.flags else 0
        frames = self.cut(rng.randbytes(self.length()), flags, side.expected)
        if rng.random() < self.trouble:
            self.spoil(frames)
        at = start = 0              # of this run, and of the block
        tries = 0
        while at < len(frames):
            frame = frames[at]
            chance = rng.random() if rng.random() < self.trouble else 1
            if chance < 0.15:
                at += 1             # lost
            elif chance < 0.3:
                self.data(ident, self.bytes_of(frame))
                self.data(ident, self.bytes_of(frame))
                at += 1
            elif chance < 0.4 and self.past[ident]:
                self.data(ident, rng.choice(self.past[ident]))
                continue
            elif chance < 0.55 and tries < 4:
                # Broken off: this frame goes out wrong, or not at all, then the block comes again.
                tries += 1
                if rng.random() < 0.5:
                    wrong = [[*each] for each in frames[at:]]
                    self.spoil(wrong)
                    for each in wrong[:rng.randrange(1, 4)]:
                        self.data(ident, self.bytes_of(each))
                self.brk(ident)
                at = start
                continue
            elif chance < 0.7:
                self.control()
                continue
            elif chance < 0.75:
                self.send_other(ident)
                continue
            elif chance < 0.8:
                return
            else:
                self.data(ident, self.bytes_of(frame))
                at += 1
            if frame[0]:
                if rng.random() < 0.7:
                    self.ack(ident)
                if rng.random() < self.trouble and tries < 4:
                    tries += 1      # the Ack is lost, or a frame was
                    at = start
                else:
                    start = at

    def send_other(self, ident):
        """The other side sends meanwhile."""
        data = self.rng.randbytes(self.rng.randrange(1, 6))
        for frame in self.cut(data, 0, self.led[self.other(ident)].expected):
            self.data(self.other(ident), self.bytes_of(frame))

    # Frames at random

    def step(self):
        """A frame that is led by where its side stands: it goes on with the message, breaks it, or is out of place."""
        rng = self.rng
        ident = rng.choice((self.rx, self.tx))
        side = self.led[ident]
        chance = rng.random()
        if chance < 0.08:
            return self.brk(ident)
        if chance < 0.16:
            return self.control()
        number = side.expected
        if chance < 0.3:
            number = (number + rng.choice((1, 2, 15, 14, 13, 8, rng.randrange(16)))) % 16
        asks = rng.random() < 0.3
        begun = side.begun
        if type(begun) is captures.Begun:
            left = begun.length - begun.fill
            if left <= 7 and rng.random() < 0.7:
                size, last = left, rng.random() < 0.85
            else:
                size, last = rng.choice((7, 7, 7, rng.randrange(1, 8))), rng.random() < 0.05
            piece = rng.randbytes(max(1, size))
        elif begun is captures.THROWN:
            piece, last = rng.randbytes(rng.randrange(1, 8)), rng.random() < 0.4
        else:
            length = rng.choice((1, 3, 5, 6, 8, 12, 19, 30, rng.randrange(1, 60), 0, 1024, 1025, rng.randrange(4096)))
            body = rng.randbytes(rng.choice((min(length, 5), min(length, 5), rng.randrange(6), 0)))
            flags = rng.randrange(16) if rng.random() < self.flags else 0
            piece = (flags << 12 | length).to_bytes(2, "big") + body
            last = rng.random() < 0.9 if len(body) == length else rng.random() < 0.05
            if rng.random() < 0.04:
                piece = piece[:1]
        self.data(ident, bytes([(0x00 if asks else 0x20) | (0x10 if last else 0x00) | number]) + piece)

    # A whole log

    def play(self):
        rng = self.rng
        if rng.random() < 0.2:
            for _ in range(rng.randrange(1, 6)):
                ident = rng.choice((0x200, 0x201, self.rx, self.tx, rng.randrange(0x800)))
                self.log.frame(ident, rng.randbytes(rng.randrange(9)))
        self.open()
        if rng.random() < 0.5:
            for _ in range(rng.randrange(8)):
                self.send(rng.choice((self.tx, self.rx)))
                if rng.random() < 0.1:
                    self.control()
        else:
            for _ in range(rng.randrange(60)):
                self.step()
        if rng.random() < 0.5:
            self.log.frame(rng.choice((self.tx, self.rx)), self.padded(b"\xA8"))
            if rng.random() < 0.5:
                for _ in range(rng.randrange(6)):
                    self.step()
            if rng.random() < 0.3:
                self.open()
                for _ in range(rng.randrange(6)):
                    self.step()


def log(rng):
    """A log, and the forms of its lines."""
    made = Log(rng)
    if rng.random() < 0.02:
        for verdict, table in TABLES[:3]:
            for name in table:
                made.put(verdict, table, name, 0x300, b"\x10\x00\x02\x10\x89")
        rng.shuffle(made.lines)
    Traffic(made).play()
    made.between(0x300, b"\xA8")
    return made.text(), made.forms


# Damage

def damaged(rng):
    """A log with bytes altered, cut out, doubled and put in; one of twenty is no log at all."""
    if rng.random() < 0.05:
        alphabet = rng.choice((bytes(range(256)), b"()0123456789. can#R\r\n", b"\n", b"\r", b"\r\n", b"\0", b"(", b"0"))
        return some(rng, alphabet, 0, rng.choice((0, 1, 2, 199, 200, 201, 202, 203, 3000)))
    data = bytearray(log(rng)[0])
    for _ in range(rng.choice((1, 1, 2, 5, 20))):
        if not data:
            break
        at = rng.randrange(len(data))
        upto = min(len(data), at + rng.choice((1, 2, rng.randrange(1, 60), rng.randrange(1, 300))))
        way = rng.randrange(8)
        if way == 0:
            data[at] ^= 1 << rng.randrange(8)
        elif way == 1:
            data[at] = rng.choice(b"\r\n #()0R\0\xff")
        elif way == 2:
            del data[at:upto]
        elif way == 3:
            data[at:at] = data[at:upto]
        elif way == 4:
            data[at:at] = rng.randbytes(rng.randrange(1, 20))
        elif way == 5:
            data[at:at] = rng.choice((b"\n", b"\r", b"\r\n", b"\r\r\n", b"\n\n", b" ", b"#"))
        elif way == 6:
            line = data.find(b"\n", at)
            if line >= 0:
                del data[line]
        elif rng.random() < 0.3:
            del data[at:]
    return bytes(data)
