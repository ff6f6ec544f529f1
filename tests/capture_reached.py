"""The places of the rules that the logs of tests/read-captures and tests/index-captures must have reached, by what captures.py
notes, and the words that the program must have been given."""

from captures import BREAKS, CAUSES, CLASSES, FRAME, OTHER, PASSED
from logs import FORMS

LINES = ["%s, %s" % (verdict, end) for verdict in (FRAME, PASSED, BREAKS) for end in ("LF", "CR LF", "the log's end")]

OPENING = [
    "before the C0", "C0 after none", "C0 after the C0", "C0 after the D0", "C0 after the A0",
    "C0 of another unit or ID after the C0", "C0 of another unit or ID after the D0", "C0 of another unit or ID after the A0",
    "D6", "D7", "D8", "D0 badly formed", "D0 from another unit", "D0 with another receive ID", "D0 with equal IDs",
    "D0, IDs plain", "D0, IDs odd", "D0, unit 00", "D0, unit F0", "D0, unit FF",
    "D0 while the A0 is awaited", "D0 while the A1 is awaited", "data while the A0 is awaited", "data while the A1 is awaited",
    *("%s on %s while the %s is awaited" % (kind, where, awaited)
      for kind in ("A0", "A1", "A8") for where in ("rx", "tx") for awaited in ("A0", "A1")),
    "A0", "A1", "A1 padded", "A1, block size 0", "A1, block size 1", "A1, block size 15", "A1, block size over 15",
]

OPEN = [
    "open, other ID", "open, a C0 on another ID", "open, A0", "A8 of the tester", "A8 of the unit", "A8 inside a message",
    "after the A8, a C0", "after the A8, on its IDs",
    "badly formed, no bytes", "badly formed, one byte of data", "badly formed, no kind",
    *("open, %s%s" % (kind, padded) for kind in ("A1", "A8", "Ack", "break", "test") for padded in ("", " padded")),
    *("badly formed, %s of another length" % kind for kind in ("A0", "A1", "A8", "Ack", "break", "test")),
]

# A cause that an EOM or a first frame rules out is left out.
BROKEN = [
    *("%s, first frame, %s" % (cause, end) for cause in (*CAUSES[:4], "7") for end in ("EOM", "no EOM")),
    *("%s, later frame, %s" % (CAUSES[3], end) for end in ("EOM", "no EOM")),
    *("%s, %s frame, no EOM" % (CAUSES[4], which) for which in ("first", "later")),
    *("%s, %s frame, EOM" % (CAUSES[5], which) for which in ("first", "later")),
]

UNDONE = ["a break that undoes " + what
          for what in ("nothing", "a first frame", "later frames", "throwing away", "the breaking of a message")]

RECEIVING = [
    "used, first", "used, later", "used, a first frame of 3 bytes", "thrown away", "thrown away, its EOM",
    "out of place, ahead", "out of place, behind", "out of place, and a break's place moves", *BROKEN,
    *(what.replace("a break that", "break") for what in UNDONE), *("shown, after " + what for what in UNDONE),
    "shown, after a break's place was moved out of place", "shown, with a frame out of place inside", "shown, over number 15",
    "shown, of the tester", "shown, of the unit", "shown, one frame", "shown, more than one frame",
    "shown, last frame without AR", "shown, length 1", "shown, length the limit", "shown, length the room",
    *("shown, flags %X" % flags for flags in range(16)),
]

PLACES = LINES + OPENING + OPEN + RECEIVING + FORMS

WORDS = ["--room 0", "--room the length shown", "--room one less", "--room the limit", "--room 4095",
         "--chunk 1", "--chunk 2", "--chunk 3", "--chunk 7", "--chunk 65536", "--chunk another",
         "a file", "standard input, a file", "standard input, a pipe"]


# Of index, beside the above: each class on either ID, what is near another class, and how many messages are shown beside the list's
# places. The A1 that opens, the A8 of either side and a first line that a break moved are among the above.
INDEX = [
    *("%s, of the %s" % (kind, sender) for kind in CLASSES if kind != OTHER for sender in ("tester", "unit")),
    "thrown away after a 7", "thrown away after a broken one", "out of place, while others are thrown away",
    "open, A1, block size 0 or over 15",
    *("list: no places, %s shown" % shown for shown in ("none", "one more", "some more")),
    *("list: some places, %s shown" % shown for shown in ("none", "fewer", "as many", "one more", "some more")),
]

INDEX_WORDS = ["--places %s" % places
               for places in ("0", "1", "2", "3", "4096", "the number shown", "one less", "one more")]


def missing(tally, names=tuple(PLACES + WORDS)):
    return [name for name in names if not tally[name]]
