#!/usr/bin/env python3
"""What a replay prints, written from the scope document's section "Replays, with one given whole"; reads the replay on standard input.

Settled beside that section: free= counts free descriptors (N less num_used), in indirect mode too; ids, lengths and tokens have 32 bits; a list
of no entries is written `none` or left empty.
"""
import re
import sys

from queue import Queue
from record import WRAP

LONGEST = 32768
MOST_ENTRIES = 65
DECIMAL = rb"(0|[1-9][0-9]{0,19})"  # 2^64 has 20 digits, so that a longer number is above every width


class Wrong(Exception):
    """The line in hand is wrong or missing."""


class Lines:
    """The lines of a text, taken one by one; `number` is the last one asked for."""

    def __init__(self, text):
        *self.whole, self.rest = text.split(b"\n")
        self.number = 0

    def ended(self):
        return self.number == len(self.whole) and self.rest == b""

    def value(self, key):
        """What follows the key on the next line, which must end in a newline."""
        self.number += 1
        if self.number > len(self.whole) or not self.whole[self.number - 1].startswith(key + b"="):
            raise Wrong
        return self.whole[self.number - 1][len(key) + 1:]

    def field(self, key, bits):
        found = re.fullmatch(DECIMAL, self.value(key))
        return within(found and found[1], bits)

    def side(self, key, output):
        """A list of buffers of one side."""
        value = self.value(key)
        entries = value.split(b",") if value not in (b"", b"none") else []
        if len(entries) > MOST_ENTRIES:
            raise Wrong
        found = [re.fullmatch(DECIMAL + b":" + DECIMAL, entry) for entry in entries]
        return [(within(e and e[1], 64), within(e and e[2], 32), output) for e in found]

    def sides(self):
        return self.side(b"in", False) + self.side(b"out", True)


def within(digits, bits):
    if digits is None or int(digits) >> bits:
        raise Wrong
    return int(digits)


class Replay:
    """A replay under way: what is left to read, the queue, and what was printed."""

    def __init__(self, text):
        self.lines = Lines(text)
        self.queue = Queue(pool_base=0)
        self.said = []

    def say(self, key, value):
        self.said.append(f"{key}={value}\n")

    def header(self):
        size = self.lines.field(b"size", 16)
        if not self.made(size, 0, 0):
            raise Wrong
        self.say("size", size)
        indirect = self.lines.field(b"indirect", 1)
        self.say("indirect", indirect)
        event = self.lines.field(b"event", 1)
        self.say("event", event)
        self.made(size, indirect, event)

    def made(self, size, indirect, event):
        """Whether new takes the size, with all the memory that the flexible layout needs."""
        for region in self.queue.regions:
            region.lent = len(region.bytes)
        return self.queue.new(size, indirect == 1, event == 1, False)[0] == 0

    def block(self):
        op = self.lines.value(b"op")
        if op == b"add":
            self.report("add", self.queue.open_add(self.lines.sides()))
        elif op == b"used":
            self.complete(self.lines.field(b"id", 32), self.lines.field(b"len", 32))
        elif op == b"pop":
            token = self.lines.field(b"token", 32)
            self.report("pop", self.queue.open_pop(token, self.lines.sides()))
        else:
            raise Wrong

    def report(self, op, opened):
        """The five lines of a call, made whole."""
        answer, value, steps = self.queue.whole(opened)
        self.say("op", op)
        self.say("answer", answer)
        self.say("value", value)
        self.say("steps", steps)
        self.say("free", self.queue.rec.n - self.queue.rec.num_used)

    def complete(self, id_, length):
        """The device stores the element at its idx, and then idx + 1."""
        used = self.queue.two
        idx = used.load(2, 2)
        at = 4 + 8 * (idx % self.queue.rec.n)
        used.store(at, 4, id_)
        used.store(at + 4, 4, length)
        used.store(2, 2, (idx + 1) % WRAP)

    def printed(self):
        try:
            self.header()
            while not self.lines.ended():
                self.block()
        except Wrong:
            self.say("bad", self.lines.number)
        return "".join(self.said).encode()


def printed(text):
    """All that is printed for a text."""
    return Replay(text).printed() if len(text) <= LONGEST else b"bad=0\n"


if __name__ == "__main__":
    sys.stdout.buffer.write(printed(sys.stdin.buffer.read()))
