"""The owning queue's calls, written from the scope document: a queue all of whose buffers lie in one lent store, buffer i under token i.

Where the scope document is silent, docs/DECISIONS.md is followed: 13 (values), 17 (new asks for the store that its size needs, good or bad),
18 (what the calls that pass through ask), 19 (the free order).
"""
from record import IDLE, WRAP, Region, placed

LARGEST = 1024  # bytes of a buffer


class Owning:
    """Base, size and what is held (token and length, or None) beside a queue. A call gives its answer and value, and `view` is what it shows
    (offset and count, or None)."""

    def __init__(self, queue):
        self.queue = queue
        self.store = Region(65536)
        self.lend(0)
        self.become(0, 0, None)

    def lend(self, count):
        self.store.lent = min(count, len(self.store.bytes))

    def become(self, base, size, held):
        self.base, self.size, self.held, self.view = base, size, held, None

    def buffer(self, token):
        return self.base + token * self.size, self.size, True

    # What is asked first.
    def well_formed(self):
        rec = self.queue.rec
        if not rec.well_formed() or rec.call != IDLE:
            return False
        if not placed(self.base, rec.n * self.size) or not 1 <= self.size <= LARGEST:
            return False
        if any(rec.buffers(head) != [self.buffer(head)] for head in rec.heads()):
            return False
        if self.held is None:
            return rec.heads() == [*range(rec.n)]
        token, length = self.held
        return token < rec.n and rec.heads() == [h for h in range(rec.n) if h != token] and length <= self.size

    def stored(self, size):
        return self.queue.fits() and self.store.lent >= self.queue.rec.n * size

    def refusal(self):
        return 12 if not self.well_formed() else 13 if not self.stored(self.size) else 0

    def new_refusal(self, base, size):
        rec = self.queue.rec
        if not rec.well_formed():
            return 12
        if not self.stored(size) or not placed(base, rec.n * size):
            return 13
        if rec.call != IDLE:
            return 11
        return 0 if 1 <= size <= LARGEST and rec.free_list() == [*range(rec.n)] else 1

    # The calls.
    def new(self, base, size):
        """A refused one leaves all zero but its queue."""
        self.become(0, 0, None)
        no = self.new_refusal(base, size)
        if no == 0:
            self.become(base, size, None)
            count = self.queue.rec.n
            self.store.bytes[:count * size] = bytes(count * size)
            for token in range(count):
                self.give(token)
        return no, 0

    def give(self, token):
        queue = self.queue
        assert queue.whole(queue.open_add([self.buffer(token)]))[:2] == (0, token)

    def poll(self):
        queue, self.view = self.queue, None
        no = self.refusal() or (0 if self.held is None else 11)
        if no or not queue.moved():
            return no, 0
        token = queue.load_used(queue.element(), 4) % WRAP
        if token >= queue.rec.n:
            return 4, 0
        no, length, _ = queue.whole(queue.open_pop(token, [self.buffer(token)]))
        assert no == 0
        if length > self.size:
            self.give(token)
            return 10, 0
        self.held, self.view = (token, length), (token * self.size, length)
        return 0, token

    def release(self):
        self.view = None
        no = self.refusal() or (8 if self.held is None else 0)
        if no:
            return no, 0
        (token, _), self.held = self.held, None
        self.give(token)
        return 0, token

    def passed(self, call, *given):
        self.view = None
        return call(*given)[:2] if self.well_formed() else (12, 0)

    def should_notify(self):
        return self.passed(self.queue.should_notify)

    def set_dev_notify(self, wanted):
        return self.passed(self.queue.set_dev_notify, wanted)

    def shown(self):
        """The bytes that the last call shows."""
        start, count = self.view or (0, 0)
        return self.store.bytes[start:start + count]
