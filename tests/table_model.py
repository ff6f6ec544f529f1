#!/usr/bin/env python3
"""The table of eight connections as a plain executable model, over the record of model.py, and the line protocol of its
console. Run as a program, it answers standard input line by line as the table's console does.

In use: open or opening. A closed place uses nothing, whether an A8 is due there or not.
"""

import sys

sys.dont_write_bytecode = True
import model
from model import SETUP_ID, Connection, Malformed, Settings, at_most, decimal, identifier, no_more, octets, one

PLACES = 8
NAMED = 255                                         # the largest number that names a place, be it there or not
REPLIES = range(SETUP_ID, SETUP_ID + 0xEF + 1)      # units answer the opening from here; no receive ID lies in it


class Table:
    """Eight records, and what an opening and a frame ask of all of them. Every other call is one record's own."""

    def __init__(self):
        self.records = [Connection() for _ in range(PLACES)]

    def open(self, settings):
        """The number, and with 0 the place."""
        closed = [place for place, record in enumerate(self.records) if record.phase == "closed"]
        if not closed:
            return 13, None
        used = [record.settings for record in self.records if record.phase != "closed"]
        if settings.rx in REPLIES or any(settings.unit == other.unit or settings.rx == other.rx for other in used):
            return 10, None
        number, _ = self.records[closed[0]].open(settings)
        return (0, closed[0]) if number == 0 else (number, None)

    def owner(self, ident):
        """The place that listens on an ID, or None."""
        for place, record in enumerate(self.records):
            if record.phase != "closed" and record.listens_on() == ident:
                return place
        return None


# The calls that name their place.
CALLS = b"time", b"send", b"due", b"take", b"close", b"room", b"buffer"


class TableConsole(model.Console):
    """The lines over a table. What a place has of its own, its record, its buffer and the message last accepted, is what a
    lone record's console has."""

    def new(self):
        self.places = [model.Console() for _ in range(PLACES)]
        self.table = Table()
        for place, record in zip(self.places, self.table.records):
            place.connection = record

    def call(self, name, words):
        if name.isdigit():
            return self.call_at(at_most(NAMED, decimal(name)), words)
        if name == b"open":
            return self.open(words)
        if name == b"frame":
            return self.frame(words)
        if name == b"owner":
            owner = self.table.owner(identifier(one(words)))
            return "-" if owner is None else "%d" % owner
        if name == b"time":
            return " ".join([place.call(name, words) for place in self.places])
        if name == b"new":
            no_more(words)
            self.new()
            return "0"
        raise Malformed

    def call_at(self, place, words):
        if not words or words[0] not in CALLS:
            raise Malformed
        if place < PLACES:
            return self.places[place].call(words[0], words[1:])
        model.Console().call(words[0], words[1:])       # what is badly written is so at any place
        return "4"

    def open(self, words):
        if len(words) not in (0, len(model.RANGES)):
            raise Malformed
        number, place = self.table.open(Settings(*map(decimal, words)))
        return "%d at %d" % (number, place) if number == 0 else "%d" % number

    def frame(self, words):
        if not words:
            raise Malformed
        ident, _ = identifier(words[0]), octets(words[1:])
        place = self.table.owner(ident)
        return "3" if place is None else "%s at %d" % (self.places[place].call(b"frame", words), place)


if __name__ == "__main__":
    model.serve(TableConsole())
