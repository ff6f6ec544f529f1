"""Runs of the programs that read logs, for the tests that compare them with the model: a program with some words and a log, from a
file, standard input or a pipe; the fewest lines that still tell two outputs apart; words and errors; and dialogues."""

import fcntl
import os
import pty
import random
import select
import shutil
import signal
import subprocess
import sys
import tempfile
import termios
import time
import tty

import captures
import log_sweeps
from captures import LONGEST, MOST_CHUNK, MOST_ROOM

HERE = os.path.dirname(os.path.abspath(__file__))
BENCH = os.path.join(HERE, "..", "bench")
SAMPLE = os.path.join(HERE, "..", "captures", "source-004.log")
WALK = os.path.join(HERE, "capture-walk.log")
PATIENCE = 30           # seconds that a run, or what is awaited in it, may take
PIPES = {"stdout": subprocess.PIPE, "stderr": subprocess.PIPE}
SOURCES = "a file", "standard input, a file", "standard input, a pipe"


class Difference(Exception):
    """What is to be printed."""


class Said:
    """What a run has said."""

    def __init__(self, status, out, err):
        self.status, self.out, self.err = status, out, err

    def __str__(self):
        return "status %s, standard error %s, standard output:\n%s" % (self.status, shown(self.err), shown(self.out))


def shown(data):
    text = data.decode("latin-1")
    return repr(text) if len(text) <= 100 else text if len(text) <= 3000 else text[:1500] + "\n ...\n" + text[-1500:]


def contents(name):
    with open(name, "rb") as file:
        return file.read()


# The program

class Program:
    """The program under test: which one it is, a command, and a directory for its files."""

    def __init__(self, tool, command, room):
        self.tool, self.command, self.room = tool, command, room
        self.log, self.out, self.err = (os.path.join(room, name) for name in ("log", "out", "err"))

    def run(self, words, given=None, place=None):
        """One run, with this file open as its standard input, or none, and in this directory."""
        with open(given or os.devnull, "rb") as log:
            return self.started(words, log, place=place)

    def piped(self, words, pieces):
        """One run, with these pieces written to its standard input one after the other."""
        return self.started(words, subprocess.PIPE, pieces)

    def started(self, words, given, pieces=(), place=None):
        """Runs out of patience by an alarm: to wait for a while only would mean to ask again and again."""
        with open(self.out, "wb") as out, open(self.err, "wb") as err:
            process = subprocess.Popen(self.command + words, stdin=given, stdout=out, stderr=err, cwd=place, bufsize=0)
            signal.signal(signal.SIGALRM, lambda *_: process.kill())
            signal.alarm(PATIENCE)
            try:
                for piece in pieces:
                    process.stdin.write(piece)
            except BrokenPipeError:
                pass
            if process.stdin:
                process.stdin.close()
            status = process.wait()
            signal.alarm(0)
        return Said(status, contents(self.out), contents(self.err))


class Way:
    """How a log is read: with which options, such as room=7, and from where. An option that is None is not given."""

    def __init__(self, program, source="a file", seed=0, shuffled=False, **options):
        self.program, self.source, self.seed = program, source, seed
        self.options = {name: number for name, number in options.items() if number is not None}
        words = [["--" + name, str(number)] for name, number in self.options.items()]
        if shuffled:
            random.Random(seed).shuffle(words)
        self.words = sum(words, [])

    def __str__(self):
        return "%s, from %s" % (" ".join(self.words) or "no options", self.source)

    def wanted(self, log):
        return wanted(self.program, log, self.options)

    def read(self, log):
        program = self.program
        if self.source == "standard input, a pipe":
            rng, pieces, at = random.Random(self.seed), [], 0
            while at < len(log):
                pieces.append(log[at:at + rng.choice((1, 10, 100, 1000, 100000))])
                at += len(pieces[-1])
            return program.piped(self.words, pieces)
        with open(program.log, "wb") as file:
            file.write(log)
        if self.source == "a file":
            return program.run(self.words + [program.log])
        return program.run(self.words, program.log)

    def differs(self, log, wanted=None):
        """What it said, where that is not what it should."""
        said = self.read(log)
        good = said.status == 0 and not said.err and said.out == (self.wanted(log) if wanted is None else wanted)
        return None if good else said


def wanted(program, log, options):
    """What the model says; how long the chunks are must not matter."""
    return program.tool.printed(log, **{name: number for name, number in options.items() if name != "chunk"})


def hold(way, log, what, wanted=None):
    if way.differs(log, wanted) is None:
        return
    log = shrunk(way, log)
    said = way.differs(log)
    kept = tempfile.NamedTemporaryFile(prefix="%s-" % way.program.tool.name, suffix=".log", delete=False)
    with kept:
        kept.write(log)
    raise Difference("difference at %s, with %s; fewest lines in %s\nexpected:\n%s\ngot: %s" % (
        what, way, kept.name, shown(way.wanted(log)), said if said else "the same as expected, when asked again"))


def shrunk(way, log, seconds=20):
    """Drops lines while a difference stays."""
    until, lines = time.monotonic() + seconds, log.splitlines(keepends=True)
    piece = len(lines)
    while piece and time.monotonic() < until:
        at, before = 0, len(lines)
        while at < len(lines) and time.monotonic() < until:
            fewer = lines[:at] + lines[at + piece:]
            if way.differs(b"".join(fewer)) is not None:
                lines = fewer
            else:
                at += piece
        if piece > 1 or len(lines) == before:
            piece //= 2
    return b"".join(lines)


def by_hand(program, log, expected, words=()):
    """A log written by hand, with what is to be printed."""
    given, _ = captures.read_words(words, program.tool.options)
    expected, words = contents(expected), list(words)
    for said in (Said(0, wanted(program, contents(log), given), b""), program.run([*words, log]),
                 program.run([*words, "--chunk", "1"], log)):
        if (said.status, said.out, said.err) != (0, expected, b""):
            raise Difference("difference at %s\nexpected:\n%s\ngot: %s" % (log, shown(expected), said))


def long_log(program, seed):
    """The log of the benchmark, shorter, and what is printed of it."""
    log = subprocess.run([os.path.join(BENCH, "capture-log"), "30000", str(seed)], stdout=subprocess.PIPE, check=True).stdout
    expected = wanted(program, log, {})
    for way in (Way(program), Way(program, chunk=4093), Way(program, "standard input, a pipe"),
                Way(program, "standard input, a file", chunk=11)):
        hold(way, log, "the benchmark's log, 30000 lines of seed %s" % seed, expected)
    return log, expected


def swept(program, every=1):
    """Every so many-th of the sweeps."""
    count = 0
    for number, (name, log, rooms) in enumerate(log_sweeps.sweeps()):
        if number % every and len(log) < 100000:
            continue
        for room in rooms:
            chunks = (None, 1, 3, 200) if len(log) > 100000 else (None, 7)[number % 2:][:1]
            for chunk in chunks:
                hold(Way(program, SOURCES[number % 2], room=room, chunk=chunk), log, "the sweep %r, number %d" % (name, number))
                count += 1
    return "%d runs over logs that go through all values" % count


# What to read a log with, at random

def chunk_for(rng, tally):
    chunk = rng.choice((1, 2, 3, 7, rng.randrange(1, 300), rng.randrange(1, 3000), MOST_CHUNK))
    tally["--chunk %s" % (chunk if chunk in (1, 2, 3, 7, MOST_CHUNK) else "another")] += 1
    return chunk


def room_for(rng, lengths, tally):
    """A room at the edge of a message that is shown, by their lengths, or of a limit."""
    choices = {"0": 0, "the limit": LONGEST, "4095": MOST_ROOM,
               "another": rng.choice((1, 2, 5, LONGEST - 1, rng.randrange(MOST_ROOM + 1)))}
    if lengths and rng.random() < 0.8:
        length = rng.choice(lengths)
        choices = {"the length shown": length, "one less": length - 1, "one more": length + 1, "another": rng.randrange(1, 40)}
    name = rng.choice(list(choices))
    tally["--room " + name] += 1
    return choices[name]


# Words and errors

WRONG = (
    ["--rooms", "5"], ["-room", "5"], ["--Room", "5"], ["-"], ["--"], ["-x"], ["-h"], ["--help"], ["--room=5"], ["--roo"],
    ["--room "], ["--room"], ["--chunk"], ["--room", ""], ["--chunk", ""], ["--chunk", "0"], ["--chunk", "65537"],
    ["--room", "4096"], ["--room", "40950"], ["--chunk", "00"], ["--room", "-1"], ["--room", "+1"], ["--room", "1 "], ["--room", " 1"],
    ["--room", "1.0"], ["--room", "0x10"], ["--room", "1e3"], ["--room", "five"], ["--room", "1_0"], ["--room", "--chunk"],
    ["--room", "--chunk", "5"], ["--room", "4294967296"], ["--room", "18446744073709551616"], ["--chunk", "4294967297"],
    ["--chunk", "18446744073709551617"], ["--room", "9" * 400], ["--room", "5", "--room", "5"], ["--chunk", "5", "--chunk", "6"],
    ["--room", "1", "--chunk", "1", "--room", "1"], ["--room", "5", "--"], ["--chunk", "5", "-"], ["--room", "5", "--chunk"],
    ["-\n"], ["--room", "5\n"], ["--room", "\t\x7f"], ["--größe"],
)

# With a file: words before it and behind it.
WRONG_AROUND = (
    (["--room"], []), (["--chunk", "0"], []), (["-"], []), (["--"], []), ([], ["--room", "5"]), ([], ["--chunk", "5"]),
    ([], ["-"]), ([], [""]), ([], ["another"]), (["--room", "5"], ["--chunk", "5"]), (["--room", "5"], ["another"]),
    ([], ["another", "-"]),
)

RIGHT = (
    [], ["--room", "0"], ["--room", "4095"], ["--room", "1024"], ["--chunk", "1"], ["--chunk", "65536"], ["--room", "00"],
    ["--room", "26", "--chunk", "7"], ["--chunk", "7", "--room", "26"], ["--room", "025"], ["--room", "2", "--chunk", "200"],
    ["--chunk", "0000000000000000000000000000000000000001"],
)


def one_line(err):
    return err.endswith(b"\n") and err.count(b"\n") == 1 and len(err) > 1


def complaint(program, text):
    return ("%s: %s\n" % (program.tool.name, text)).encode("utf-8", "surrogateescape")


def refusal(program, words):
    """What standard error says of words that are wrong, or of a file that cannot be opened."""
    try:
        captures.opened(captures.read_words(words, program.tool.options)[1])
    except captures.Wrong as wrong:
        return complaint(program, wrong)
    raise Difference("the model takes the words %r" % words)


def words_and_errors(program, wrong=WRONG, around=WRONG_AROUND, right=RIGHT):
    """The options' grammar, files that cannot be opened or read, names of files, and output that cannot be written."""
    log = contents(SAMPLE)
    for words in right:
        expected = wanted(program, log, dict(zip((word[2:] for word in words[::2]), map(int, words[1::2]))))
        for said in program.run(words + [SAMPLE]), program.run(words, SAMPLE):
            if (said.status, said.out, said.err) != (0, expected, b""):
                raise Difference("the words %r are right\nexpected:\n%s\ngot: %s" % (words, shown(expected), said))
    lacking = [os.path.join(program.room, name) for name in ("missing", "missing/log", "log/within", "x\ny")] + [""]
    if os.geteuid() != 0:
        closed = os.path.join(program.room, "closed")
        os.close(os.open(closed, os.O_CREAT, 0))
        lacking.append(closed)
    for words in (*wrong, *([*before, SAMPLE, *behind] for before, behind in around),
                  *(words for name in lacking for words in ([name], ["--room", "5", name]))):
        said, expected = program.run(words, SAMPLE), refusal(program, words)
        if (said.status, said.out, said.err) != (0, b"", expected):
            raise Difference("the words %r are wrong, or the file cannot be opened: %s on standard error, and nothing else; got:"
                             " %s" % (words, shown(expected), said))
    # A directory opens, and cannot be read.
    expected = complaint(program, "cannot read the log: Is a directory")
    for words in [program.room], ["--chunk", "1", program.room]:
        said = program.run(words, SAMPLE)
        if (said.status, said.out, said.err) != (0, wanted(program, b"", {}), expected):
            raise Difference("a directory cannot be read: what is told of an empty log, and %s on standard error; got: %s" % (
                shown(expected), said))
    both = subprocess.run([*program.command, program.room], stdin=subprocess.DEVNULL, stdout=subprocess.PIPE,
                          stderr=subprocess.STDOUT, timeout=PATIENCE).stdout
    if both != wanted(program, b"", {}) + expected:
        raise Difference("the read error does not come behind what was told:\n%s" % shown(both))
    with open("/dev/full", "wb") as full:
        said = subprocess.run([*program.command, SAMPLE], stdin=subprocess.DEVNULL, stdout=full, stderr=subprocess.PIPE,
                              timeout=PATIENCE)
    if said.returncode != 0 or not one_line(said.stderr):
        raise Difference("what cannot be written ends it with one line on standard error; got status %s and %s" % (
            said.returncode, shown(said.stderr)))
    for name in "a log with blanks", "log#1", "größe.log", "./-log", "./-", "x" * 200:
        shutil.copy(SAMPLE, os.path.join(program.room, name))
        said = program.run([name], place=program.room)
        if (said.status, said.out, said.err) != (0, wanted(program, log, {}), b""):
            raise Difference("the file %r is not read: %s" % (name, said))
    for name in "-log", "-":
        said = program.run([name], place=program.room)
        if (said.status, said.out, said.err) != (0, b"", complaint(program, "no such option: " + name)):
            raise Difference("the word %r is an option, though there is such a file: %s" % (name, said))
    return "%d words that are wrong, %d that are right" % (len(wrong) + len(around), len(right))


# Dialogues

OPENED = b"".join(b"(0.0) can0 %s\n" % frame for frame in (b"200#01C00010000301", b"201#00D00003400701", b"740#A00F8AFF32FF",
                                                           b"300#A10F8AFF4AFF"))


def awaited(pipe, count):
    """So many characters, or those that came while there was patience."""
    said, until = b"", time.monotonic() + PATIENCE
    while len(said) < count:
        ready, _, _ = select.select([pipe], [], [], max(0, until - time.monotonic()))
        more = os.read(pipe.fileno(), 65536) if ready else b""
        if not more:
            break
        said += more
    return said


def emptied(process, pipe):
    """Waits until the program has taken what was written."""
    until = time.monotonic() + PATIENCE
    while process.poll() is None and time.monotonic() < until:
        if not int.from_bytes(fcntl.ioctl(pipe, termios.FIONREAD, bytes(4)), sys.byteorder):
            break
        time.sleep(0.001)


def dialogue(process, pipe, steps, what):
    """Writes piece after piece; each has to be taken, and answered, before the next is written."""
    for piece, answer in steps:
        try:
            os.write(pipe, piece)
            emptied(process, pipe)
        except OSError:
            pass            # it has ended
        said = awaited(process.stdout, len(answer))
        if said != answer:
            process.kill()
            process.wait()
            raise Difference("%s: behind %s, before more was written\nexpected:\n%s\ngot:\n%s" % (
                what, shown(piece), shown(answer), shown(said)))


def ended(process, out, err, what):
    """The input has ended: what is still said."""
    try:
        said = process.communicate(timeout=PATIENCE)
    except subprocess.TimeoutExpired:
        process.kill()
        said = process.communicate()
    if (process.returncode, *said) != (0, out, err):
        raise Difference("%s: at the end of its input, standard error %s, standard output:\n%s\ngot: %s" % (
            what, shown(err), shown(out), Said(process.returncode, *said)))


def dialogues(program, steps, last, hung, some_words):
    """A pipe, a named pipe and a terminal: the pieces with what answers each, what is said at the end, and what where the terminal
    hangs up."""
    path = os.path.join(program.room, "pipe")
    for words in some_words:
        what = "a pipe, %r" % words
        process = subprocess.Popen(program.command + words, stdin=subprocess.PIPE, bufsize=0, **PIPES)
        dialogue(process, process.stdin.fileno(), steps, what)
        ended(process, last, b"", what)

        os.mkfifo(path)
        process = subprocess.Popen([*program.command, *words, path], stdin=subprocess.DEVNULL, bufsize=0, **PIPES)
        pipe = os.open(path, os.O_RDWR)         # does not wait for a reader
        dialogue(process, pipe, steps, "a named " + what)
        os.close(pipe)
        ended(process, last, b"", "a named " + what)
        os.remove(path)

        # The far end of a terminal that hangs up gives a read error behind all that was written there. The line begun is not
        # judged.
        here, there = pty.openpty()
        tty.setraw(there, termios.TCSANOW)
        process = subprocess.Popen(program.command + words, stdin=here, bufsize=0, **PIPES)
        os.close(here)
        dialogue(process, there, steps, "a terminal, %r" % words)
        os.close(there)
        ended(process, hung, complaint(program, "cannot read the log: Input/output error"), "a terminal that hangs up, %r" % words)
    return "%d dialogues" % (3 * len(some_words))
