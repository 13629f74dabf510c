"""Scripts in the language of docs/SCRIPTS.md, as a caller and a device that keep the rules would run a queue."""
import random
from collections import deque

SIZES = (1, 2, 4, 8, 16, 32, 64)
INDIRECT, EVENT, LEGACY = 1, 2, 4
LONGEST = (1 << 32) - 1
LETTERS = "12onpkcs"
WISHES = "1opsdwfg"
BUFFERS = [(4096, 10, 0), (8192, 20, 1), (12288, 30, 1)]


def needs(size, modes):
    """The bytes of region one, region two and the pool that a queue needs, and where its used ring starts."""
    first, used = 18 * size + 6, 6 + 8 * size
    pool = 16 * size * size if modes & INDIRECT else 0
    if modes & LEGACY:
        at = -(-first // 4096) * 4096
        return [at + -(-used // 4096) * 4096, 0, pool], at
    return [first, used, pool], 0


def listed(buffers):
    """A list of (address, length, side) as a script has it."""
    columns = list(zip(*buffers)) or [(), (), ()]
    return " ".join(map(str, [len(buffers)] * 3 + [x for column in columns for x in column]))


class Script:
    """The operations so far, and what the caller and the device know: it foretells the tokens, and no answer else."""

    def __init__(self, size, modes, more=(0, 0, 0)):
        need, self.used_at = needs(size, modes)
        self.size, self.modes = size, modes
        self.lent = [a + b for a, b in zip(need, more)]
        self.region = 0 if modes & LEGACY else 1
        self.free = list(range(size))
        self.pending, self.done = [], deque()
        self.count = self.told = self.adds = 0
        self.ops = [f"1 {size} {modes} {self.lending()} 1"]

    def lending(self):
        return " ".join(map(str, self.lent))

    def say(self, text):
        self.ops.append(text)

    def add(self, buffers):
        """An add that may be refused; the chain taken is known from the free order."""
        self.say(f"2 0 {listed(buffers)}")
        k, room = len(buffers), len(self.free)
        indirect = self.modes & INDIRECT
        if k == 0 or k > self.size or room == 0 or (not indirect and k > room):
            return
        taken = 1 if indirect else k
        chain, self.free = self.free[:taken], self.free[taken:]
        self.pending.append((chain, buffers))
        self.adds += 1

    def complete(self, which, length, high=0):
        """The device stores a used element for an outstanding chain; its idx comes with publish."""
        chain, buffers = self.pending.pop(which)
        slot = self.used_at + 4 + 8 * (self.count % self.size)
        self.say(f"13 {self.region} {slot} 8 {chain[0] + 65536 * high + (length << 32)}")
        self.count = (self.count + 1) % 65536
        self.done.append((chain, buffers))

    def store_idx(self, value):
        self.say(f"13 {self.region} {self.used_at + 2} 2 {value}")

    def publish(self):
        self.store_idx(self.count)
        self.told = len(self.done)

    def want(self, flags, event):
        """The device's wishes about notifications, in both forms."""
        self.say(f"13 {self.region} {self.used_at} 2 {flags}")
        self.say(f"13 {self.region} {self.used_at + 4 + 8 * self.size} 2 {event % 65536}")

    def pop(self):
        """Pops what the device completed first, with its own list; with nothing told it is refused as not ready."""
        if not self.told:
            return self.say("4 0 " + listed([(4096, 10, 0)]))
        chain, buffers = self.done.popleft()
        self.told -= 1
        self.say(f"4 {chain[0]} {listed(buffers)}")
        self.free = chain + self.free

    def text(self):
        return "\n".join(self.ops) + "\n"


def letter(script, c):
    """One letter of a short script; False where it says nothing new."""
    if c in "123":
        script.add(BUFFERS[:int(c)])
    elif c in "on":
        if len(script.pending) < (1 if c == "o" else 2):
            return False
        script.complete(0 if c == "o" else -1, 7)
        script.publish()
    elif c == "p":
        script.pop()
    elif c in "fg":
        # Flags and event index wish the opposite, so that a load of the wrong one shows.
        script.want(*(1, script.adds - 1) if c == "f" else (0, script.adds))
    else:
        script.say({"k": "6 0", "c": "10 0", "s": "11 0", "d": "12 0", "w": "12 1"}[c])
    return True


def short(size, modes, word, make=Script):
    """The script of a word of letters, or nothing where another word's script is the same."""
    script = make(size, modes)
    return script if all(letter(script, c) for c in word) else None


def words(size, modes, letters, length):
    """All words of a length whose every letter says something; the shorter ones are their beginnings."""
    if length == 0:
        yield ""
        return
    for word in words(size, modes, letters, length - 1):
        for c in letters:
            if short(size, modes, word + c):
                yield word + c


def every_short(size, modes, letters, length):
    """The scripts of these words."""
    for word in words(size, modes, letters, length - 1):
        yield from filter(None, (short(size, modes, word + c) for c in letters))


def some_list(rng, most):
    """Up to `most` buffers, inputs first, none empty; mostly few and small."""
    k = rng.randint(1, min(most, 4)) if rng.random() < 0.8 else rng.randint(1, most)
    inputs = rng.randint(0, k)
    wide = rng.random() < 0.2
    address = lambda: rng.getrandbits(64) if wide else 4096 * rng.randint(0, 99)
    length = lambda: rng.choice([rng.randint(1, LONGEST), LONGEST]) if rng.random() < 0.05 else rng.randint(1, 5000)
    return [(address(), length(), int(i >= inputs)) for i in range(k)]


def wrong_pop(script, rng):
    """A token that is not the one told next; the list is then looked at by nobody."""
    if not script.told:
        return script.pop()
    right = script.done[0][0][0]
    token = (right + rng.randint(1, 65535)) % 65536 if rng.random() < 0.5 else right ^ 1
    script.say(f"4 {token} {listed(some_list(rng, 3))}")


def scribble(script, rng):
    """A device that stores where nobody may trust it: table, available ring and pool."""
    part = rng.choice([0, 0, 2])
    size = script.lent[2] if part == 2 else 18 * script.size + 6
    width = rng.randint(1, 8)
    if size > width:
        script.say(f"13 {part} {rng.randint(0, size - width)} {width} {rng.getrandbits(64)}")


def lie(script, rng):
    """An idx that is not true, looked at without a pop, and the true one again."""
    script.store_idx(rng.getrandbits(16))
    script.say(rng.choice(["6 0", "10 0"]))
    script.publish()


def notices(script, rng):
    """The device's wishes about notifications, near the indices or anywhere; and the driver's."""
    near = (script.adds + rng.randint(-3, 3)) % 65536
    event = rng.choice([near, rng.getrandbits(16), 0, 65535])
    script.say(f"13 {script.region} {script.used_at + 4 + 8 * script.size} 2 {event}")
    script.say(f"13 {script.region} {script.used_at} 2 {rng.choice([0, 1, rng.getrandbits(16)])}")
    script.say(f"12 {rng.randint(0, 1)}")


def some_completion(script, rng):
    length = rng.choice([0, rng.randint(0, 5000), rng.getrandbits(32)])
    high = rng.getrandbits(16) if rng.random() < 0.1 else 0
    script.complete(rng.randrange(len(script.pending)), length, high)
    if rng.random() < 0.8:
        script.publish()


def empty_a_bit(script, rng):
    """Pops what is told or completes what is outstanding; now and then it pops in vain."""
    if script.told and rng.random() < 0.5 or rng.random() < 0.02:
        script.pop()
    elif script.pending:
        some_completion(script, rng)


def wander(script, rng, count):
    """As many random operations, in phases in which the queue rather fills or rather empties."""
    filling = 0.5
    for _ in range(count):
        if rng.random() < 0.1:
            filling = rng.choice([0.2, 0.5, 0.8])
        dice = rng.random()
        if dice < 0.55 * filling:
            script.add(some_list(rng, script.size + 1) if rng.random() < 0.97 else [])
        elif dice < 0.55:
            empty_a_bit(script, rng)
        elif dice < 0.62:
            wrong_pop(script, rng)
        elif dice < 0.70:
            notices(script, rng)
        elif dice < 0.74:
            scribble(script, rng)
        elif dice < 0.77:
            lie(script, rng)
        else:
            script.say(rng.choice(["6 0", "10 0", "11 0"]))


def some_script(seed, index):
    """The random script of a seed and an index, the same in every run."""
    rng = random.Random(f"{seed} {index}")
    size, modes = rng.choice(SIZES), rng.randrange(8)
    if rng.random() < 0.02:
        return refused_new(rng)
    more = [rng.randint(0, 99) for _ in range(3)] if rng.random() < 0.2 else (0, 0, 0)
    script = Script(size, modes, more)
    if rng.random() < 0.2:
        bases = " ".join(str(4096 * rng.getrandbits(51)) for _ in range(3))
        script.ops = [f"25 {size} {modes} 0 {size} {bases} {script.lending()} 1"]
    wander(script, rng, rng.randint(10, 60) if rng.random() < 0.98 else 500)
    return script


def refused_new(rng):
    """A size that no queue can have, which leaves a record that nothing can be asked of."""
    script = Script(1, rng.randrange(8))
    size = rng.choice([0, 3, 5, 6, 7, 63, 65, 128, 256, 65536, 1 << 31, rng.randint(65, 4294967295)])
    script.ops = [f"1 {size} {script.modes} {script.lending()} 1"]
    return script
