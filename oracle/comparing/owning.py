"""Scripts of owning queues. Whatever id below the queue size a device names is outstanding, so it may name any, again and again."""
import random

import scripts

SIZES = (1, 3, 16, 64, 1024)
LETTERS = "abcpsdfw"
BASE = 1 << 20
TOP = 1 << 64


class Owning(scripts.Script):
    """A queue, used a few times before or not, and an owning queue over it."""

    def __init__(self, size, modes, buffer, base=BASE, more=0, rounds=()):
        super().__init__(size, modes)
        for buffers in rounds:
            self.add(buffers)
            self.complete(0, 1)
            self.publish()
            self.pop()
        self.buffer, self.bytes = buffer, size * buffer
        self.adds += size
        self.say(f"18 {base} {buffer} {self.bytes + more}")

    def give_back(self, token, length, high=0):
        """The device stores a used element; its idx comes with publish."""
        self.pending.append(([token], None))
        self.complete(-1, length, high)
        self.adds += 1

    def write(self, offset, width, number):
        self.say(f"13 3 {offset} {width} {number}")


def letter(script, c):
    """One letter of a short script: three ways of giving a buffer back, poll, the two questions, wishes, and bytes in the store."""
    if c in "abc":
        token, length, high = {"a": (0, script.buffer, 0), "b": (script.size - 1, 1, 1), "c": (0, 0, 0)}[c]
        script.give_back(token, length, high)
        script.publish()
    elif c == "f":
        script.want(1, script.adds)
    elif c == "w":
        script.write(0, script.bytes, 0x0807060504030201)
    else:
        script.say({"p": "21 0", "s": "22 0", "d": "23 0"}[c])


def short(size, modes, buffer, word):
    script = Owning(size, modes, buffer)
    for c in word:
        letter(script, c)
    return script


def some_give_back(script, rng):
    length = rng.choice([0, 1, script.buffer, rng.randint(0, script.buffer)])
    high = rng.getrandbits(16) if rng.random() < 0.2 else 0
    script.give_back(rng.randrange(script.size), length, high)
    if rng.random() < 0.8:
        script.publish()


def some_turn(script, rng):
    dice = rng.random()
    if dice < 0.3:
        some_give_back(script, rng)
    elif dice < 0.45:
        script.write(rng.randrange(script.bytes), rng.randint(1, 8), rng.getrandbits(64))
    elif dice < 0.8:
        script.say("21 0")
    elif dice < 0.88:
        near = (script.adds + rng.randint(-script.size - 2, 2)) % 65536
        script.want(rng.getrandbits(rng.choice([1, 16])), rng.choice([near, rng.getrandbits(16), 0, 65535]))
    elif dice < 0.91:
        scripts.scribble(script, rng)
    elif dice < 0.93:
        script.store_idx(rng.getrandbits(16))
    else:
        script.say(rng.choice(["22 0", f"23 {rng.randint(0, 1)}"]))


def some_script(seed, index):
    """The random script of a seed and an index, the same in every run; every size and mode has its turn."""
    rng = random.Random(f"{seed} owning {index}")
    size, modes = scripts.SIZES[index % 7], index // 7 % 8
    buffer = SIZES[index // 56 % 5]
    need = size * buffer
    base = rng.choice([0, BASE, 4096 * rng.getrandbits(40), (TOP - need) // 4096 * 4096])
    rounds = [scripts.some_list(rng, size) for _ in range(rng.choice([0, 0, 1, 5]))]
    script = Owning(size, modes, buffer, base, rng.choice([0, 1, 99]) if need < 65_000 else 0, rounds)
    for _ in range(rng.randint(10, 60)):
        some_turn(script, rng)
    return script
