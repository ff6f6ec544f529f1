"""Logs that go through all values of something, each with its name: the opening's telegrams altered in every bit, telegrams of
every first byte and length, messages at the limits, and lines with every character replaced by every other."""

import captures
from captures import LONGEST
from logs import c0, d0, parameters

RX, TX = 0x300, 0x740
OPENING = [(0x200, c0(0x01, RX)), (0x201, d0(RX, TX)), (TX, parameters(0xA0)), (RX, parameters(0xA1))]
NAMES = "C0", "D0", "A0", "A1"
BOTH = [(TX, b"\x10\x00\x02\x10\x89"), (RX, b"\x10\x80\x03\x7F\x10\x78")]      # a message each way


def text(frames):
    return b"".join(b"(%d.%06d) can0 %03X#%s\n" % (at // 1000, at % 1000 * 1000, ident, data.hex().upper().encode())
                    for at, (ident, data) in enumerate(frames))


def altered(ident, data):
    """Every bit of the ID and of the bytes, and every length."""
    for bit in range(11):
        yield ident ^ 1 << bit, data
    for at in range(len(data)):
        for bit in range(8):
            yield ident, data[:at] + bytes([data[at] ^ 1 << bit]) + data[at + 1:]
    for length in range(9):
        yield ident, (data + b"\x55\x00\x01")[:length]


def openings():
    """Each telegram of the opening altered: in its place, before it, behind it, and behind the A1."""
    for at, (name, frame) in enumerate(zip(NAMES, OPENING)):
        for other in altered(*frame):
            for way, frames in (("instead", [*OPENING[:at], other, *OPENING[at + 1:]]),
                                ("before it", [*OPENING[:at], other, *OPENING[at:]]),
                                ("behind it", [*OPENING[:at + 1], other, *OPENING[at + 1:]])):
                yield "%s altered, %s" % (name, way), text(frames + BOTH)
            # A C0 and its D0 altered alike.
            if name == "C0":
                ident, data = other
                unit, rx = (data[0], data[4:6]) if len(data) >= 6 else (1, b"\x00\x03")
                reply = 0x200 + unit, b"\x00\xD0" + rx + d0(RX, TX)[4:]
                yield "C0 and D0 altered", text([other, reply, *OPENING[2:], *BOTH])
    for opcode in range(256):
        yield "D0, another opcode", text([OPENING[0], (0x201, d0(RX, TX, opcode)), *OPENING[2:], *BOTH])
    for block in range(256):
        for data in parameters(0xA1, block), parameters(0xA1, block) + b"\x55\x55":
            yield "A1, every block size", text([*OPENING[:3], (RX, data), *BOTH])
    for first in range(5):
        for second in range(first + 1, 5):
            frames = [*OPENING, BOTH[0]]
            frames[first], frames[second] = frames[second], frames[first]
            yield "opening in another order", text(frames + BOTH)
    for missing in range(4):
        yield "opening, one missing", text(OPENING[:missing] + OPENING[missing + 1:] + BOTH)


def channels():
    """Every unit, every bit of either ID, IDs alike and odd."""
    def channel(unit, rx, tx):
        frames = [(0x200, c0(unit, rx)), (0x200 + unit, d0(rx, tx)), (tx, parameters(0xA0)), (rx, parameters(0xA1))]
        there, back = BOTH[0][1], BOTH[1][1]
        return text([*frames, (tx, there), (rx, back), (rx ^ 1, back), (tx ^ 1, there), (tx, b"\xA8"), *frames, *BOTH])

    for unit in range(256):
        yield "every unit", channel(unit, RX + unit, TX - unit)
    ids = [0, 0x7FF, 0x200, 0x201, *(1 << bit for bit in range(11)), *(0x7FF ^ 1 << bit for bit in range(11))]
    for one in ids:
        for other in 0x200, 0x201, 0x400, one, one ^ 1, one ^ 0x400:
            yield "either ID", channel(1, one, other)


def telegrams():
    """Every first byte at every length on either ID, within a message of each side."""
    for first in range(256):
        numbers = {TX: 0, RX: 0}

        def data(ident, bits, rest):
            number = numbers[ident]
            numbers[ident] = (number + 1) % 16
            return ident, bytes([bits | number]) + rest

        lengths = [[length] for length in range(9)] if first == 0xA8 else [list(range(9))]
        for some in lengths:
            frames = list(OPENING)
            numbers.update({TX: 0, RX: 0})
            for length in some:
                for ident in TX, RX:
                    frames += [data(each, 0x20, b"\x00\x06\x01\x02\x03\x04\x05") for each in (TX, RX)]
                    frames.append((ident, (bytes([first]) + b"\x00\x01\x2A\x2B\x2C\x2D\x2E")[:length]))
                    frames += [data(each, 0x10, b"\x06") for each in (TX, RX)]
            yield "every first byte", text(frames)


def cut(ident, message, flags, block):
    """The frames of a first message."""
    stream = (flags << 12 | len(message)).to_bytes(2, "big") + message
    pieces = [stream[at:at + 7] for at in range(0, len(stream), 7)]
    for place, piece in enumerate(pieces, 1):
        last = place == len(pieces)
        asks = last or place % block == 0
        yield ident, bytes([(0x00 if asks else 0x20) | (0x10 if last else 0x00) | (place - 1) % 16]) + piece


def lengths():
    """Messages at the limits; behind each a short one. The lengths are rooms to read them with, one more and one less too."""
    for length in (*range(1, 30), 255, 256, 257, LONGEST - 1, LONGEST, LONGEST + 1, 2048, 4094, 4095):
        for ident, flags, block in (TX, 0, 15), (RX, 8, 8), (RX, 15, 1):
            frames = list(cut(ident, bytes(at % 251 for at in range(length)), flags, block))
            yield length, text(OPENING + frames + [(ident, bytes([0x10 | len(frames) % 16]) + b"\x00\x01\x2A")])


BASES = (b"(1436509052.249713) can0 300#%s", b"(1.2) c 300#%s", b"(12.34) can0 12345678#%s", b"(12.34) can0 300#R%s",
         b"(12.34) vcan0 300##0%s")


def lines(base):
    """A log of one-frame messages in which each line has one character replaced, doubled or left out. The frame's number is the
    one that is expected there, so that each line whose frame still counts shows a message."""
    reader, log = captures.Reader(), []

    def put(line):
        log.append(line + b"\n")
        reader.feed(log[-1])

    def good():
        return base % (b"1%X00022AbC" % reader.channel.sides[RX].expected)

    for line in text(OPENING).splitlines():
        put(line)
    for at in range(len(good())):
        for byte in range(256):
            line = good()
            put(line[:at] + bytes([byte]) + line[at + 1:])
        for line in good()[:at], good()[at:], good()[:at] + good()[at + 1:], good()[:at] + good()[at:at + 1] + good()[at:]:
            put(line)
    return b"".join(log)


def digits():
    """Every pair of digits of either case, in data and in IDs of other channels."""
    alphabet, frames, number = "0123456789abcdefABCDEF", [], 0
    for one in alphabet:
        for other in alphabet:
            frames.append(b"(0.0) can0 300#1%X0001%s\n" % (number, (one + other).encode()))
            number = (number + 1) % 16
            frames.append(b"(0.0) can0 %s#1%X000155\n" % (("7" + one + other).encode(), number))
    return text(OPENING) + b"".join(frames)


def sweeps():
    """Every log with its name and the rooms to read it with."""
    for part in openings, channels, telegrams:
        for name, log in part():
            yield name, log, (None,)
    for length, log in lengths():
        yield "length %d" % length, log, (None, *(room for room in (length - 1, length, length + 1, 4095) if room <= 4095))
    for base in BASES:
        yield "every character", lines(base), (None,)
    yield "every pair of digits", digits(), (None,)
