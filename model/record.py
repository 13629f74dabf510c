"""The lent regions, and the queue's record: its layout, what is outstanding in it, and when it is well formed."""

NEXT, WRITE, INDIRECT = 1, 2, 4
SIZES = (1, 2, 4, 8, 16, 32, 64)
ROOM = 64  # the arrays of the record have room for this size
WRAP = 65536  # indices, ids and heads count modulo this
IDLE = ("idle",)


def page_up(x):
    return (x + 4095) // 4096 * 4096


def placed(base, need):
    """Whether memory of this need may lie at this base: on a page, and not past 2^64."""
    return base % 4096 == 0 and base + need <= 1 << 64


class Region:
    """Bytes of which the first `lent` are lent to the calls."""

    def __init__(self, size):
        self.bytes = bytearray(size)
        self.lent = 0

    def set_lent(self, number):
        self.bytes[:self.lent] = bytes([number]) * self.lent

    def load(self, at, width):
        assert at + width <= self.lent
        return int.from_bytes(self.bytes[at:at + width], "little")

    def store(self, at, width, number):
        assert at + width <= self.lent
        self.bytes[at:at + width] = number.to_bytes(width, "little")

    def store_desc(self, at, desc):
        for offset, width, number in zip((0, 8, 12, 14), (8, 4, 2, 2), desc):
            self.store(at + offset, width, number)

    def poke(self, at, width, number):
        """A device may store anywhere, as far as there are bytes."""
        for i in range(min(width, 8, max(0, len(self.bytes) - at))):
            self.bytes[at + i] = number >> 8 * i & 255


class Record:
    """All that is private; a descriptor is [address, length, flags, next], a kept buffer [address, length, is it an output]."""

    def __init__(self):
        self.n = self.base = self.num_used = self.free_head = self.avail_idx = self.last_used_idx = 0
        self.indirect = self.event = self.legacy = False
        self.shadow = [[0, 0, 0, 0] for _ in range(ROOM)]
        self.noted = [0] * ROOM
        self.kept = [[0, 0, False] for _ in range(ROOM * ROOM)]
        self.call = IDLE

    # The layout: where the parts lie, and what the three regions need.
    def used_at(self):
        return page_up(18 * self.n + 6) if self.legacy else 0

    def needs(self):
        used = 6 + 8 * self.n
        one = self.used_at() + page_up(used) if self.legacy else 18 * self.n + 6
        return one, 0 if self.legacy else used, 16 * self.n * self.n if self.indirect else 0

    # What is outstanding.
    def heads(self):
        return [h for h in range(self.n) if self.noted[h]]

    def free_list(self):
        names, at = [], self.free_head
        for _ in range(self.n - self.num_used):
            names.append(at)
            at = self.shadow[at][3]
        return names

    def chain(self, head):
        """From the head along next up to the first descriptor without NEXT; none if it comes to one a second time."""
        seen = [head]
        while self.shadow[seen[-1]][2] & NEXT:
            if self.shadow[seen[-1]][3] in seen:
                return None
            seen.append(self.shadow[seen[-1]][3])
        return seen

    def listed(self, head):
        return bool(self.shadow[head][2] & INDIRECT)

    def buffers(self, head):
        if self.listed(head):
            first = self.n * head
            return [tuple(b) for b in self.kept[first:first + self.shadow[head][1] // 16]]
        return [(self.shadow[i][0], self.shadow[i][1], bool(self.shadow[i][2] & WRITE)) for i in self.chain(head)]

    def well_formed(self):
        """The clauses of "well formed": each may rely on those before it."""
        clauses = (self.fields_right, self.partition_right, self.lists_right, self.buffers_right, self.indices_right, self.call_right)
        return all(clause() for clause in clauses)

    def fields_right(self):
        base = placed(self.base, 16 * self.n * self.n) if self.indirect else self.base == 0
        below = self.free_head < self.n and all(d[3] < self.n for d in self.shadow[:self.n])
        return self.n in SIZES and base and self.num_used <= self.n and below

    def partition_right(self):
        """Each chain ends as noted, and the free descriptors and the chains name each one once."""
        if any(self.chain(h) is None or len(self.chain(h)) != self.noted[h] for h in self.heads()):
            return False
        names = self.free_list()
        for h in self.heads():
            names += self.chain(h)
        return sorted(names) == list(range(self.n))

    def lists_right(self):
        """A head with INDIRECT: only in indirect mode, flags 4, its slot's address, 2 to N buffers, 16 times that as length."""
        for h in self.heads():
            address, length, flags, _ = self.shadow[h]
            if flags & INDIRECT:
                slot = self.base + 16 * self.n * h
                if not self.indirect or flags != INDIRECT or address != slot or length not in [16 * k for k in range(2, self.n + 1)]:
                    return False
        return True

    def buffers_right(self):
        lists = [self.buffers(h) for h in self.heads()]
        return not any(has_empty(b) or out_of_order(b) for b in lists)

    def indices_right(self):
        opened = 1 if self.call[0] == "add" else 0
        return (self.avail_idx - self.last_used_idx) % WRAP == len(self.heads()) - opened

    def call_right(self):
        if self.call[0] == "add":
            _, head, step = self.call
            return head in self.heads() and step < len(self.buffers(head)) + 3
        if self.call[0] == "store":
            _, count, step, _ = self.call
            return count <= self.n - self.num_used and step < count + self.event
        return True


def has_empty(buffers):
    return any(b[1] == 0 for b in buffers)


def out_of_order(buffers):
    """An input after an output."""
    return any(a[2] and not b[2] for a, b in zip(buffers, buffers[1:]))
