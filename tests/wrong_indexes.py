"""Indexes that are wrong, each in one way that a program might be. tests/index-captures --self asks that its logs tell each from
the model."""

import captures
from captures import BROKEN, CAUSES, CONTROL, OTHER, OUT_OF_PLACE, REFUSED, THROWN, USED


class Watched(captures.Index):
    """An index that knows what was noted of the frame."""

    def __init__(self, *given, **named):
        super().__init__(*given, **named)
        self.noted = set()
        self.channel.note = self.noted.add

    def heard(self, kind, message):
        super().heard(self.classed(kind), message)
        self.noted.clear()
        return []

    def classed(self, kind):
        return kind


def every(kind, *names):
    """Every frame of which one of these was noted is of this class."""
    class Classed(Watched):
        def classed(self, own):
            return own if self.noted.isdisjoint(names) else kind

    return Classed


def both_ends(cause):
    return ["%s, %s frame, %s" % (cause, which, end) for which in ("first", "later") for end in ("EOM", "no EOM")]


class CountsTakenBack(Watched):
    """A break takes back the class of the frame before it."""

    def classed(self, kind):
        if self.noted & {"break undoes a first frame", "break undoes later frames"}:
            self.frames[USED] -= 1
        return kind


class FromTheFirst(captures.Side):
    """A message's first line is that of its first frame, whatever breaks took back."""
    line = None

    def in_order(self, line, payload, last):
        self.line = self.line or line
        kind, begun, message = super().in_order(line, payload, last)
        message = message and message._replace(first=self.line)
        self.line = None if last else self.line
        return kind, begun, message


class FirstTakenBack(captures.Index):
    """Such first lines are listed."""

    def heard(self, kind, message):
        for side in (self.channel.sides or {}).values():
            side.__class__ = FromTheFirst
        return super().heard(kind, message)


class LastFirst(captures.Index):
    """The first line is the last one."""

    def heard(self, kind, message):
        return super().heard(kind, message and message._replace(first=message.last))


class LinesOfFrames(captures.Index):
    """Lines are counted in entries without those that hold no frame."""

    def heard(self, kind, message):
        less = self.count - sum(self.frames.values()) - 1
        return super().heard(kind, message and message._replace(first=message.first - less, last=message.last - less))


class OtherSender(captures.Index):
    def heard(self, kind, message):
        return super().heard(kind, message and message._replace(tester=not message.tester))


class FlagsInLength(captures.Index):
    def heard(self, kind, message):
        return super().heard(kind, message and message._replace(data=bytes(message.flags << 12) + message.data))


class LastPlaceEmpty(captures.Index):
    """A full list has its last place empty."""

    def told(self):
        if len(self.entries) == self.places:
            self.entries = self.entries[:-1]
        return super().told()


class LastOverwritten(captures.Index):
    """What finds no place goes to the last one."""

    def heard(self, kind, message):
        if message and 0 < len(self.entries) == self.places:
            self.entries.pop()
        return super().heard(kind, message)


class FullSaid(captures.Index):
    """A list that is just full says that there are more."""

    def told(self):
        said = super().told()
        if self.shown == self.places:
            said.insert(len(self.entries), "0 more messages, not listed")
        return said


class AllMore(captures.Index):
    """What is said to be more is all that was shown."""

    def told(self):
        return [line.replace("%d more" % (self.shown - self.places), "%d more" % self.shown) for line in super().told()]


class PassedCounted(captures.Index):
    """Lines passed over are frames of other IDs."""

    def line(self, text, end):
        self.frames[OTHER] += captures.judge(text)[0] == captures.PASSED
        return super().line(text, end)


class ReportsCounted(captures.Index):
    """Lines that break the form are refused frames."""

    def report(self):
        self.frames[REFUSED] += 1
        return super().report()


class NoLastLine(captures.Index):
    """A last line without its end is not read."""

    def end(self):
        self.rest = b""
        return super().end()


class ReadOn(captures.Index):
    """A channel that is opened after the A8 is followed too."""

    def heard(self, kind, message):
        if self.channel.over:
            self.channel = captures.Channel(self.channel.room, self.note)
        return super().heard(kind, message)


WRONG = {
    "the A1 that opens is control": every(CONTROL, "A1", "A1 padded"),
    "the A8 is of other IDs": every(OTHER, "open, A8", "open, A8 padded"),
    "the unit's A8 is of other IDs": every(OTHER, "A8 of the unit"),
    "what follows the A8 on its IDs is control": every(CONTROL, "after the A8, on its IDs"),
    "data before the A1 is refused": every(REFUSED, "data while the A1 is awaited", "data while the A0 is awaited"),
    "an A0 is refused": every(REFUSED, "open, A0"),
    "an A1 is refused": every(REFUSED, "open, A1", "open, A1 padded"),
    "an A1 of a bad block size is refused": every(REFUSED, "open, A1, block size 0 or over 15"),
    "a padded telegram is refused": every(REFUSED, *("open, %s padded" % kind for kind in ("Ack", "break", "test", "A1"))),
    "a C0 on an open channel is control": every(CONTROL, "open, a C0 on another ID"),
    "a telegram without bytes is of other IDs": every(OTHER, "badly formed, no bytes"),
    "one byte of data is broken": every(BROKEN, "badly formed, one byte of data"),
    "one byte of data is control": every(CONTROL, "badly formed, one byte of data"),
    "a telegram of no kind is control": every(CONTROL, "badly formed, no kind"),
    "a break of another length is control": every(CONTROL, "badly formed, break of another length"),
    "a 7 is broken": every(BROKEN, *both_ends("7")),
    "a 7 is thrown away": every(THROWN, *both_ends("7")),
    "the breaking frame is thrown away": every(THROWN, *(name for cause in CAUSES for name in both_ends(cause))),
    "a length over the limit is refused": every(REFUSED, *both_ends(CAUSES[2])),
    "what is thrown away is broken": every(BROKEN, "thrown away", "thrown away, its EOM"),
    "what is thrown away after a 7 is refused": every(REFUSED, "thrown away after a 7"),
    "the EOM of what is thrown away is used": every(USED, "thrown away, its EOM"),
    "out of place is thrown away, while others are": every(THROWN, "out of place, while others are thrown away"),
    "what is thrown away is out of place": every(OUT_OF_PLACE, "thrown away", "thrown away, its EOM"),
    "a break takes classes back": CountsTakenBack,
    "the first line is of a frame taken back": FirstTakenBack,
    "the first line is the last": LastFirst,
    "an entry's lines are those with frames": LinesOfFrames,
    "the sender is the other one": OtherSender,
    "the length has the flags in it": FlagsInLength,
    "the last place is left empty": LastPlaceEmpty,
    "the last place is used again": LastOverwritten,
    "a list just full says that there are more": FullSaid,
    "more are all that were shown": AllMore,
    "lines passed over are counted": PassedCounted,
    "lines that break the form are counted": ReportsCounted,
    "a last line without its end is not read": NoLastLine,
    "a second opening is followed": ReadOn,
}
