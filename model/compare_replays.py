#!/usr/bin/env python3
"""Compares the replay program with model/replay.py over random replays: python3 model/compare_replays.py [--seed X] [--count Y] [PROGRAM]

Each turn makes a replay that follows what the queue answers, and a damaged copy of it, and runs both. A difference is shrunk and printed.
"""
import argparse
import os
import random
import re
import shutil
import subprocess
import sys

from record import SIZES
from replay import Replay, printed

PROGRAM = os.path.join(os.path.dirname(os.path.abspath(__file__)), "..", "target", "bin", "replay_main")
TOP32, TOP64 = 2 ** 32 - 1, 2 ** 64 - 1
ODD_BYTES = b"\n\n\0\0\t\r\r  00159::,,=-+n\x7f\xff"  # those that a reader could take for something else


class Maker:
    """Makes a replay, beside a queue that tells which tokens are out."""

    def __init__(self, rng):
        self.rng = rng
        self.size = rng.choice(SIZES)
        self.lawful = self.likely(80)  # a device that is not so soon stops the pops for good
        self.lines = [f"size={self.size}", f"indirect={rng.randrange(2)}", f"event={rng.randrange(2)}"]
        self.play = Replay(self.text())
        self.play.header()
        self.out, self.told = {}, []  # lists by token that the device has yet to give back; elements that are yet to be popped

    def text(self):
        return "".join(line + "\n" for line in self.lines).encode()

    def likely(self, percent):
        return self.rng.randrange(100) < percent

    def number(self, top):
        return self.rng.choice((1, self.rng.randrange(top + 1), self.rng.randrange(1, 5000), top, 4096 * self.rng.randrange(99)))

    def buffer(self):
        return self.number(TOP64), 0 if self.likely(1) else max(1, self.number(TOP32))

    def buffers(self):
        """Two sides, most often few and sometimes more than there is room for."""
        rng, n = self.rng, self.size
        total = rng.choice((rng.randrange(1, 4), rng.randrange(1, 4), rng.randrange(n + 2), n)) if self.likely(95) else rng.randrange(131)
        ins = rng.randint(max(0, total - 65), min(total, 65))
        return [self.buffer() for _ in range(ins)], [self.buffer() for _ in range(total - ins)]

    def put(self, *lines):
        """A block, which the queue runs too; its printed answer and value."""
        self.lines += lines
        self.play.lines.whole += [line.encode() for line in lines]
        self.play.block()
        return [int(line.split("=")[1]) for line in self.play.said[-4:-2]]

    def put_lists(self, op, sides):
        empty = self.rng.choice(("", "none"))
        ins, outs = (",".join(f"{a}:{b}" for a, b in side) or empty for side in sides)
        return self.put(*op, "in=" + ins, "out=" + outs)

    def add(self):
        sides = self.buffers()
        answer, token = self.put_lists(["op=add"], sides)
        if answer == 0:
            self.out[token] = sides

    def used(self):
        """A lawful device gives back any chain that it has, another one now and then whatever it likes."""
        if self.out and (self.lawful or self.likely(90)):
            token = self.rng.choice(list(self.out))
            self.told.append((token, self.out.pop(token)))
            told = token + 65536 * self.rng.choice((0, 0, 1, 65535))
        elif not self.lawful and self.likely(30):
            told = self.rng.choice((self.rng.randrange(self.size), self.number(TOP32)))
            self.told.append((told % 65536, self.buffers()))
        else:
            return
        self.put("op=used", f"id={told}", f"len={self.number(TOP32)}")

    def pop(self):
        """The chain next in line, or another one's token, or a list that is not quite the one added."""
        token, sides = self.told[0] if self.told else (self.rng.randrange(self.size), self.buffers())
        if self.likely(8):
            sides = self.other(*sides)
        if self.likely(5):
            token = self.rng.choice((self.rng.randrange(self.size), token + 65536, TOP32))
        answer, _ = self.put_lists(["op=pop", f"token={token}"], sides)
        if answer == 0:
            self.told.pop(0)

    def other(self, ins, outs):
        """The lists with one thing changed: a buffer more, one less, one on the other side, a number, the order."""
        ins, outs = list(ins), list(outs)
        side = self.rng.choice([s for s in (ins, outs) if s] or [ins])
        kind = self.rng.randrange(5)
        if kind == 0 or not side:
            if len(side) < 65:
                side.insert(self.rng.randint(0, len(side)), self.buffer())
        elif kind == 1:
            side.pop(self.rng.randrange(len(side)))
        elif kind == 2 and len(outs) < 65 and ins:
            outs.insert(0, ins.pop())
        elif kind == 3:
            self.rng.shuffle(side)
        else:
            address, length = side[0]
            side[0] = self.rng.choice(((address ^ 1 << self.rng.randrange(64), length), (address, length ^ 1 << self.rng.randrange(32))))
        return ins, outs

    def make(self):
        """Weights that change now and then, so that the queue runs full and empty."""
        length = self.rng.choice((60, 400, 2000, 6000)) if self.likely(98) else 32000
        weights = (3, 2, 2)
        while len(self.text()) < length:
            if self.likely(10):
                weights = self.rng.choice(((5, 1, 1), (1, 3, 3), (2, 2, 2), (1, 4, 1)))
            self.rng.choices((self.add, self.used, self.pop), weights)[0]()
        return self.text()


def damage(rng, text):
    """One byte changed, dropped, doubled or put in; two lines swapped, one dropped or doubled; the text cut."""
    at = rng.randrange(len(text)) if rng.randrange(2) else min(len(text) - 1, rng.randrange(120))
    lines = text.split(b"\n")
    i = text.count(b"\n", 0, at)
    j = min(i + 1, len(lines) - 1) if rng.randrange(2) else rng.randrange(len(lines))
    byte = bytes([rng.choice(ODD_BYTES)]) if rng.randrange(4) else bytes([rng.randrange(256)])
    swapped = list(lines)
    swapped[i], swapped[j] = lines[j], lines[i]
    before, here, behind = text[:at], text[at:at + 1], text[at + 1:]
    return rng.choice((
        before + byte + behind, before + behind, before + here + here + behind, before + byte + here + behind,
        b"\n".join(swapped), b"\n".join(lines[:i] + lines[i + 1:]), b"\n".join(lines[:i + 1] + lines[i:]), before,
    ))


def run(program, text):
    done = subprocess.run([program], input=text, capture_output=True)
    return done.stdout if done.returncode == 0 and not done.stderr else b"exit code %d, standard error: " % done.returncode + done.stderr


def shrink(text, differs):
    """Leaves out blocks, then lines, then bytes, in shorter and shorter pieces, as long as the difference stays."""
    for cut in (rb"(?=op=)", rb"(?<=\n)", rb""):
        pieces = [piece for piece in re.split(cut, text) if piece]
        step = len(pieces)
        while step:
            at = 0
            while at < len(pieces):
                fewer = pieces[:at] + pieces[at + step:]
                if differs(b"".join(fewer)):
                    pieces = fewer
                else:
                    at += step
            step //= 2
        text = b"".join(pieces)
    return text


def main():
    parser = argparse.ArgumentParser()
    parser.add_argument("program", nargs="?", default=PROGRAM)
    parser.add_argument("--seed", default="1")
    parser.add_argument("--count", type=int, default=800)
    args = parser.parse_args()
    if not shutil.which(args.program):
        print(f"compare_replays: there is no program {args.program}; ./replay builds it, or name another", file=sys.stderr)
        sys.exit(2)
    for turn in range(args.count):
        rng = random.Random(f"{args.seed} {turn}")
        text = Maker(rng).make()
        for case in (text, damage(rng, text)):
            if run(args.program, case) != printed(case):
                small = shrink(case, lambda t: run(args.program, t) != printed(t))
                print(f"seed {args.seed}, turn {turn}: the replay", small, "prints", run(args.program, small), "expected", printed(small), sep="\n")
                sys.exit(1)
    print(f"compare_replays: {2 * args.count} replays the same")


if __name__ == "__main__":
    main()
