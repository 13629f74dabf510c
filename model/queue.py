#!/usr/bin/env python3
"""The queue's calls over bytes and a record, written from the scope document, and an interpreter of the scripts that docs/SCRIPTS.md describes.

It reads a script on standard input and prints its lines. Where the scope document is silent, docs/DECISIONS.md is followed: 4 (where a private list
lies and ends), 5 (an indirect chain notes length 1), 9 and 10 (what an open pop keeps), 11 to 14 (steps, values, tokens), 15 (what new clears), 36
(what the caller's three lists say).
"""
import re
import sys

from owning import Owning
from record import IDLE, INDIRECT, NEXT, ROOM, SIZES, WRAP, WRITE, Record, Region, has_empty, out_of_order, placed

BASES = (4096, 65536, 131072)
TOP = 1 << 32


class Queue:
    """A record and the three regions; a call gives its answer, value and steps."""

    def __init__(self, pool_base=BASES[2]):
        self.pool_base = pool_base
        self.addresses = 0, 0, 0
        self.rec = Record()
        self.regions = [Region(65536), Region(65536), Region(65536)]
        self.one, self.two, self.pool = self.regions

    def new(self, n, indirect, event, legacy, in_use=False, most=ROOM, bases=None):
        """Clears the three parts and links the table; a refused one leaves the all-zero record. `addresses` are those of the parts."""
        bases = bases or (*BASES[:2], self.pool_base)
        self.addresses = 0, 0, 0
        self.rec = rec = Record()
        rec.n, rec.indirect, rec.event, rec.legacy = n, indirect, event, legacy
        rec.base = bases[2] if indirect else 0
        no = self.new_refusal(in_use, most, bases)
        if no:
            self.rec = Record()
            return no, 0, 0
        self.addresses = bases[0], bases[0] + 16 * n, bases[0 if legacy else 1] + rec.used_at()
        self.one.bytes[:18 * n + 6] = bytes(18 * n + 6)
        self.used_ring().bytes[rec.used_at():rec.used_at() + 6 + 8 * n] = bytes(6 + 8 * n)
        for i in range(n - 1):
            rec.shadow[i][3] = i + 1
            self.one.store(16 * i + 14, 2, i + 1)
        return 0, 0, 0

    def new_refusal(self, in_use, most, bases):
        if self.rec.n not in SIZES:
            return 5
        if in_use:
            return 6
        if most < self.rec.n:
            return 1
        based = all(need == 0 or placed(base, need) for base, need in zip(bases, self.rec.needs()))
        return 0 if based and self.fits() else 13

    def used_ring(self):
        return self.one if self.rec.legacy else self.two

    def load_used(self, at, width):
        return self.used_ring().load(self.rec.used_at() + at, width)

    def element(self):
        return 4 + 8 * (self.rec.last_used_idx % self.rec.n)

    def moved(self):
        return self.load_used(2, 2) != self.rec.last_used_idx

    # What every call but new asks first: 12, 13 and, save for a step, 11.
    def fits(self):
        return all(region.lent >= need for region, need in zip(self.regions, self.rec.needs()))

    def step_refusal(self):
        return 12 if not self.rec.well_formed() else 13 if not self.fits() else 0

    def refusal(self):
        return self.step_refusal() or (11 if self.rec.call != IDLE else 0)

    # The openings.
    def add_refusal(self, buffers):
        rec, k, no = self.rec, len(buffers), self.refusal()
        if no:
            return no
        if k == 0 or out_of_order(buffers):
            return 1
        if rec.num_used == rec.n or k > rec.n or (not rec.indirect and rec.num_used + k > rec.n):
            return 2
        return 7 if has_empty(buffers) else 0

    def open_add(self, buffers):
        no = self.add_refusal(buffers)
        if no == 0:
            head = self.rec.free_head
            if self.rec.indirect and len(buffers) >= 2:
                self.take_one(head, buffers)
            else:
                self.take_all(head, buffers)
            self.rec.call = ("add", head, 0)
        return no, 0, 0

    def take_one(self, head, buffers):
        """One descriptor that names the list in its pool slot, and the private copy of the list."""
        rec, k = self.rec, len(buffers)
        rec.free_head = rec.shadow[head][3]
        rec.shadow[head][:3] = [rec.base + 16 * rec.n * head, 16 * k, INDIRECT]
        rec.kept[rec.n * head:rec.n * head + k] = [list(b) for b in buffers]
        rec.num_used += 1
        rec.noted[head] = 1

    def take_all(self, head, buffers):
        """A descriptor for each buffer, along the free list, whose next fields stay."""
        rec, k = self.rec, len(buffers)
        for i, (address, length, output) in enumerate(buffers):
            desc = rec.shadow[rec.free_head]
            rec.free_head = desc[3]
            desc[:3] = [address, length, WRITE * output + NEXT * (i + 1 < k)]
        rec.num_used += k
        rec.noted[head] = k

    def open_pop(self, token, buffers):
        """That the list is the one added is noted at once: the record cannot change while the pop is open."""
        no = self.refusal()
        if no == 0:
            self.rec.call = ("pop idx", token, token in self.rec.heads() and self.rec.buffers(token) == buffers)
        return no, 0, 0

    def open_peek(self):
        no = self.refusal()
        if no == 0:
            self.rec.call = ("peek idx",)
        return no, 0, 0

    # A step: one load or store, then the answer and value that the call ends with, or 0 and 0.
    def one_step(self):
        kind = self.rec.call[0]
        if kind == "add":
            return self.add_step(*self.rec.call[1:])
        if kind == "store":
            return self.store_step(*self.rec.call[1:])
        if kind == "pop len":
            return self.length_step(*self.rec.call[1:])
        if kind == "peek id":
            return self.ends(0, self.load_used(self.element(), 4) % WRAP)
        if kind == "pop id":
            self.rec.call = ("pop len", *self.rec.call[1:], self.load_used(self.element(), 4))
            return 0, 0
        if not self.moved():
            return self.ends(3, 0)
        self.rec.call = ("pop id", *self.rec.call[1:]) if kind == "pop idx" else ("peek id",)
        return 0, 0

    def ends(self, answer, value):
        self.rec.call = IDLE
        return answer, value

    def add_step(self, head, step):
        rec, k = self.rec, len(self.rec.buffers(head))
        self.rec.call = ("add", head, step + 1)
        if step < k and rec.listed(head):
            address, length, output = rec.buffers(head)[step]
            flags = WRITE * output + NEXT * (step + 1 < k)
            self.pool.store_desc(16 * (rec.n * head + step), (address, length, flags, step + 1))
        elif step <= k:
            at = rec.chain(head)[min(step, k - 1)] if not rec.listed(head) else head
            address, length, flags, following = rec.shadow[at]
            self.one.store_desc(16 * at, (address, length, flags | NEXT if step < k else flags, following))
        elif step == k + 1:
            self.one.store(16 * rec.n + 4 + 2 * (rec.avail_idx % rec.n), 2, head)
        else:
            rec.avail_idx = (rec.avail_idx + 1) % WRAP
            self.one.store(16 * rec.n + 2, 2, rec.avail_idx)
            return self.ends(0, head)
        return 0, 0

    def length_step(self, token, matched, id_):
        """The third load: all checks of a pop and its private update."""
        length = self.load_used(self.element() + 4, 4)
        if id_ % WRAP != token:
            return self.ends(4, 0)
        if token not in self.rec.heads():
            return self.ends(8, 0)
        if not matched:
            return self.ends(9, 0)
        count = self.give_back(token)
        if count + self.rec.event == 0:
            return self.ends(0, length)
        self.rec.call = ("store", count, 0, length)
        return 0, 0

    def give_back(self, token):
        """Frees the chain in the record, and says how many descriptors are to be stored."""
        rec, listed = self.rec, self.rec.listed(token)
        chain = [token] if listed else rec.chain(token)
        if listed:
            for i in range(rec.shadow[token][1] // 16):
                rec.kept[rec.n * token + i] = [0, 0, False]
        for i in chain:
            rec.shadow[i][:2] = [0, 0]
        rec.shadow[chain[-1]][3] = rec.free_head
        rec.free_head = token
        rec.num_used -= len(chain)
        rec.noted[token] = 0
        rec.last_used_idx = (rec.last_used_idx + 1) % WRAP
        return 0 if listed else len(chain)

    def store_step(self, count, step, length):
        """The freed descriptors stand first in the free list; used_event comes last."""
        rec = self.rec
        if step < count:
            at = rec.free_head
            for _ in range(step):
                at = rec.shadow[at][3]
            self.one.store_desc(16 * at, rec.shadow[at])
        else:
            self.one.store(16 * rec.n + 4 + 2 * rec.n, 2, rec.last_used_idx)
        rec.call = ("store", count, step + 1, length)
        return (0, 0) if step + 1 < count + rec.event else self.ends(0, length)

    def run(self, budget):
        no = self.step_refusal()
        if no:
            return no, 0, 0
        steps, answer, value = 0, 0, 0
        while steps < budget and self.rec.call != IDLE:
            answer, value = self.one_step()
            steps += 1
        return answer, value, steps

    def whole(self, opened):
        return opened if opened[0] else self.run(TOP)

    # The calls of a single step.
    def can_pop(self):
        no = self.refusal()
        return (no, 0, 0) if no else (0, int(self.moved()), 1)

    def should_notify(self):
        no = self.refusal()
        if no:
            return no, 0, 0
        if self.rec.event:
            avail_event = self.load_used(4 + 8 * self.rec.n, 2)
            return 0, int(self.rec.avail_idx >= (avail_event + 1) % WRAP), 1
        return 0, 1 - self.load_used(0, 2) % 2, 1

    def set_dev_notify(self, wanted):
        no = self.refusal()
        if no or self.rec.event:
            return no, 0, 0
        self.one.store(16 * self.rec.n, 2, 0 if wanted else 1)
        return 0, 0, 1

    def available_desc(self):
        """Needs no region, so its refusals are 12 and 11."""
        rec = self.rec
        if not rec.well_formed():
            return 12, 0
        if rec.call != IDLE:
            return 11, 0
        if rec.indirect:
            return 0, 0 if rec.num_used == rec.n else rec.n
        return 0, rec.n - rec.num_used


def mix(total, numbers):
    for x in numbers:
        total = (total * 1000003 + x % 4294967291) % 4294967291
    return total


class Script:
    """Runs a script: an operation's number and what it asks for, again and again."""

    def __init__(self, text):
        self.numbers = [int(x) for x in re.findall("[0-9]+", text)]
        self.at = 0
        self.queue = Queue()
        self.owning = Owning(self.queue)
        self.show = 0

    def take(self):
        self.at += 1
        return self.numbers[self.at - 1] if self.at <= len(self.numbers) else 0

    def take_list(self):
        """Three lists as one: as many buffers as addresses, what is missing counts as 0, and any side but 0 is an output."""
        counts = [min(self.take(), 80) for _ in range(3)]
        addresses, sizes, sides = ([self.take() for _ in range(count)] for count in counts)
        k = len(addresses)
        sizes, sides = (sizes + [0] * k)[:k], (sides + [0] * k)[:k]
        return [(a, s % TOP, o % 256 != 0) for a, s, o in zip(addresses, sizes, sides)]

    def lend(self):
        for region in self.queue.regions:
            region.lent = min(self.take(), len(region.bytes))
        self.show = self.take()

    def go(self):
        while self.at < len(self.numbers):
            op = self.take()
            if op in (1, 25):
                self.line(op, self.new(op), self.queue.addresses if op == 25 else ())
            elif 2 <= op <= 12:
                self.line(op, self.call(op))
            elif op == 13:
                regions, which = [*self.queue.regions, self.owning.store], self.take()
                regions[which if which <= 3 else 2].poke(self.take(), self.take(), self.take())
            elif 14 <= op <= 16:
                self.forge(op, self.take(), self.take(), self.take(), self.take())
            elif op == 17:
                self.lend()
            elif 18 <= op <= 23:
                self.own(op)
            elif op == 24:
                base, size, token, length = self.take(), self.take() % TOP, self.take(), self.take() % TOP
                self.owning.become(base, size, ((token - 1) % WRAP, length) if token else None)

    def new(self, op):
        """Operation 25 says all that new asks for; nothing is owned afterwards."""
        n, modes, rest = self.take() % TOP, self.take(), ()
        if op == 25:
            rest = self.take() != 0, self.take() % TOP, (self.take(), self.take(), self.take())
        self.lend()
        for region in self.queue.regions:
            region.set_lent(165)
        self.owning.lend(0)
        self.owning.become(0, 0, None)
        return self.queue.new(n, *(modes >> i & 1 == 1 for i in range(3)), *rest)

    def own(self, op):
        """An owning call's line has at its end what is shown and held; operation 21 is a poll, a release and should_notify, and its last number."""
        own, x = self.owning, self.take()
        if op == 18:
            size = self.take() % TOP
            own.lend(self.take())
            own.store.set_lent(165)
            said = own.new(x, size)
        elif op == 20:
            said = own.release()
        elif op == 22:
            said = own.should_notify()
        elif op == 23:
            said = own.set_dev_notify(x % TOP != 0)
        else:
            said = own.poll()
        tail, notify = [*(own.view or (0, 0)), mix(0, own.shown())], 0
        if op == 21 and own.view:
            own.release()
            notify = own.should_notify()[1]
        token, length = own.held or (-1, 0)
        self.line(op, (*said, 0), [*tail, token + 1, length, *([notify] if op == 21 else [])])

    def call(self, op):
        queue, x = self.queue, self.take() % TOP
        if op <= 5:
            buffers = self.take_list()
            opened = queue.open_add(buffers) if op <= 3 else queue.open_pop(x, buffers)
            return opened if op % 2 else queue.whole(opened)
        if op <= 7:
            opened = queue.open_peek()
            return opened if op % 2 else queue.whole(opened)
        if op <= 9:
            return queue.run(1 if op == 8 else x)
        return queue.can_pop() if op == 10 else queue.should_notify() if op == 11 else queue.set_dev_notify(x != 0)

    def forge(self, op, what, a, b, c):
        rec = self.queue.rec
        if op == 14 and what < 5:
            setattr(rec, ("n", "num_used", "free_head", "avail_idx", "last_used_idx")[what], a % WRAP)
        elif op == 14 and what == 5:
            rec.base, rec.indirect, rec.event, rec.legacy = a, b & 1 == 1, b & 2 == 2, b & 4 == 4
        elif op == 15:
            self.forge_table(what, a, b)
        elif op == 16:
            token, half, matched = a % TOP, b % WRAP, b % 2 == 1
            calls = (
                IDLE, ("add", a % WRAP, half), ("pop idx", token, matched), ("pop id", token, matched),
                ("pop len", token, matched, c % TOP), ("store", a % WRAP, half, c % TOP), ("peek idx",), ("peek id",),
            )
            rec.call = calls[what]

    def forge_table(self, array, place, x):
        """Words and lens hold the shadow's and then the private lists'; halves the nexts, the flags and the noted lengths, 64 of each."""
        rec = self.queue.rec
        if array <= 1:
            entry = rec.shadow[place] if place < ROOM else rec.kept[place - ROOM]
            entry[array] = x if array == 0 else x % TOP
        elif array == 2 and place < 2 * ROOM:
            rec.shadow[place % ROOM][3 if place < ROOM else 2] = x % WRAP
        elif array == 2:
            rec.noted[place - 2 * ROOM] = x % WRAP
        else:
            rec.kept[place][2] = x % 2 == 1

    def line(self, op, said, tail=()):
        rec, (one, two, pool) = self.queue.rec, self.queue.regions
        told, free = self.queue.available_desc()
        memory = mix(0, one.bytes[:one.lent] + two.bytes[:two.lent])
        shadow = mix(0, (x for d in rec.shadow[:rec.n] for x in d))
        counts = [op, said[0], said[1], rec.free_head, rec.num_used, rec.avail_idx, rec.last_used_idx, free]
        words = counts + [memory, shadow, mix(0, self.live_bytes())]
        if self.show == 0:
            entries = rec.kept[:rec.n ** 2] if rec.n <= ROOM else []
            kept = mix(mix(0, rec.noted[:rec.n]), (x for b in entries for x in b))
            words += [said[2], told, mix(0, pool.bytes[:pool.lent]), kept]
        print(*words, *tail)
        if self.show == 2:
            for region in self.queue.regions:
                print(region.bytes[:region.lent].hex())

    def live_bytes(self):
        """The pool's bytes that outstanding indirect heads name; a forged N above the room has no slots, and counts as slot 0."""
        rec, found = self.queue.rec, bytearray()
        for h in range(min(rec.n, ROOM)):
            if rec.noted[h] and rec.shadow[h][2] == INDIRECT:
                slot = 16 * rec.n * h if rec.n <= ROOM else 0
                found += self.queue.pool.bytes[slot:slot + rec.shadow[h][1]]
        return found


if __name__ == "__main__":
    Script(sys.stdin.read()).go()
