"""Writes the operations of a script: calls, what a device stores, and forged records. docs/SCRIPTS.md describes them."""

IND, EVENT, LEGACY = 1, 2, 4
TOP = 1 << 32
N, USED, FREE, AVAIL, LAST = range(5)
WORDS, LENS, HALVES, SIDES = range(4)
NEXTS, FLAGS, NOTED = 0, 64, 128


class Now:
    """The size and modes of the queue at hand, the device's idx, the size of owned buffers, and which calls come next on forged records."""
    n = modes = idx = size = turn = 0


def page_up(x):
    return (x + 4095) // 4096 * 4096


def need(n, modes):
    """What the layout needs of region one, region two and the pool."""
    used_size, pool = 6 + 8 * n, 16 * n * n if modes & IND else 0
    if modes & LEGACY:
        return [page_up(18 * n + 6) + page_up(used_size), 0, pool]
    return [18 * n + 6, used_size, pool]


def new(n, modes, lent=None, show=0):
    Now.n, Now.modes, Now.idx = n, modes, 0
    print("1 new", n, modes, "lent", *(lent or need(n, modes)), show)


def ask(n, modes, in_use=0, most=64, bases=(4096, 65536, 131072), lent=None, show=0):
    """New with all that it asks for."""
    Now.n, Now.modes, Now.idx = n, modes, 0
    print("25 asked", n, modes, in_use, most, *bases, "lent", *(lent or need(n, modes)), show)


def lend(lent=None, show=0):
    print("17 lent", *(lent or need(Now.n, Now.modes)), show)


def bufs(k, inputs=1, seed=1):
    """A list of k buffers (address, length, side), the first `inputs` of them inputs."""
    return [(4096 * (seed + i), 10 * (i + 1), int(i >= inputs)) for i in range(k)]


def parts(buffers):
    return [[b[i] for b in buffers] for i in range(3)]


def listed(op, x, three):
    """An operation with a list, whose three parts may have unequal lengths."""
    print(op, x, "list", *(len(p) for p in three), *(x for p in three for x in p))


def add(b):
    listed(2, 0, parts(b))


def open_add(b):
    listed(3, 0, parts(b))


def pop(token, b):
    listed(4, token, parts(b))


def open_pop(token, b):
    listed(5, token, parts(b))


def plain(op, x=0):
    return lambda: print(op, x)


peek, open_peek, step, can_pop, should_notify, unwanted, wanted = plain(6), plain(7), plain(8), plain(10), plain(11), plain(12), plain(12, 1)


def run(budget):
    print(9, budget)


# Every call but the steps, and the steps.
CALLS = (
    lambda: open_add(bufs(1)), lambda: add(bufs(1)), lambda: open_pop(0, bufs(1)), lambda: pop(0, bufs(1)),
    open_peek, peek, can_pop, should_notify, unwanted, wanted,
)
STEPS = (step, plain(9, 0), plain(9, 9))


def calls(of=CALLS + STEPS):
    for c in of:
        c()


def some_calls(count):
    """A few calls on a record that all refuse: they go round, so that each call meets many records."""
    every = CALLS + STEPS
    for _ in range(count):
        every[Now.turn % len(every)]()
        Now.turn += 1


def poke(region, at, width, x):
    print("13 poke", region, at, width, x)


def used(at, width, x):
    """A device stores to the used ring."""
    if Now.modes & LEGACY:
        poke(0, page_up(18 * Now.n + 6) + at, width, x)
    else:
        poke(1, at, width, x)


def complete(idx, token, length):
    """A device whose idx stood at the one given completes a chain."""
    at = 4 + 8 * (idx % Now.n)
    used(at, 8, token + length * TOP)
    used(2, 2, (idx + 1) % 65536)


def field(which, x):
    print("14 field", which, x, 0, 0)


def indices(x):
    """Nothing outstanding, and all indices at x."""
    field(AVAIL, x)
    field(LAST, x)
    used(2, 2, x)


def base(x, modes):
    print("14 base", 5, x, modes, 0)


def table(array, place, x):
    print("15 table", array, place, x, 0)


def half(section, i, x):
    table(HALVES, section + i, x)


def call(kind, a=0, b=0, c=0):
    print("16 call", kind, a, b, c)


# The owning queue.
STORE = 262144


def own(size=4, at=STORE, more=0):
    """An owning queue over the queue at hand, with so many bytes more of the store than it needs."""
    Now.size = size
    print("18 own", at, size, max(0, Now.n * (size % TOP) + more))


poll, release, turn, own_notify, own_unwanted, own_wanted = plain(19), plain(20), plain(21), plain(22), plain(23), plain(23, 1)


def be_own(token=-1, length=0, size=None, at=STORE):
    """The owning record forged; token -1 is none held."""
    print("24 owning", at, Now.size if size is None else size, token + 1, length)


def give(token, length):
    """A device completes a chain after those that it completed before."""
    complete(Now.idx, token, length)
    Now.idx = (Now.idx + 1) % 65536


def wrote(token, number):
    """A device stores to the start of a token's buffer."""
    poke(3, token * Now.size, min(Now.size, 8), number)


OWN_CALLS = (poll, release, turn, own_notify, own_unwanted, own_wanted)
