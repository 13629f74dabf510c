"""Cases of the owning queue, and of new with all that it asks for."""
from ops import (
    AVAIL, EVENT, FLAGS, IND, LAST, LEGACY, LENS, NEXTS, NOTED, OWN_CALLS, STORE, TOP, USED, WORDS, Now, add, ask, base, be_own, bufs, call, calls,
    complete, field, give, half, indices, lend, need, new, open_peek, own, own_notify, own_unwanted, own_wanted, poke, poll, pop, release, run,
    should_notify, table, turn, used, wrote,
)

END = 1 << 64


def asks():
    """In use, the device's maximum, and bases: the order 5, 6, 1, 13, each of which is put right after the other; region two and pool not needed."""
    short = [x - 1 for x in need(4, IND)]
    for n, in_use, most, lent in ((3, 1, 2, short), (4, 1, 2, short), (4, 0, 2, short), (4, 0, 4, short), (4, 0, 4, None)):
        ask(n, IND, in_use, most, lent=lent)
    for most in (0, 7, 8, 9, 65535, TOP - 1, TOP):
        ask(8, 0, 0, most)
    for modes in (0, IND, LEGACY, LEGACY + IND + EVENT):
        for off in (1, 2048, 4095):
            for i in range(3):
                ask(2, modes, bases=[4096 * (j + 5) + off * (i == j) for j in range(3)])
        ask(2, modes, bases=(0, 0, 0))
        add(bufs(2))
        ask(64, modes, bases=(8192, 4096, 1 << 40), show=1)
    for n, modes, i, page in ((1, LEGACY, 0, 2), (1, LEGACY, 0, 1), (64, 0, 0, 1), (64, 0, 1, 1), (32, IND, 2, 4), (32, IND, 2, 3), (16, IND, 2, 1)):
        ask(n, modes, bases=[END - 4096 * page if i == j else 4096 for j in range(3)])


def owned_news():
    """Sizes of the queue and of the buffers, over every mode; a store that is one byte short; a second new over the same queue."""
    for modes in range(8):
        for n in (1, 2, 4):
            new(n, modes, [x + 3 for x in need(n, modes)])
            own(7, more=-1)
            own(7, more=3 * n % 5)
            own(7)
            poll()
    for n in (8, 16, 32, 64):
        new(n, 0, show=1)
        own(1024, more=n // 64 - 1)
        own(1024)
        give(n - 1, 1024)
        turn()
    for size in (0, 1, 3, 1024, 1025, 65535, TOP - 1, TOP, TOP + 3):
        new(4, EVENT)
        own(size)
        calls(OWN_CALLS[:2])
    new(2, 0, show=2)
    own(3)
    give(1, 2)
    turn()


def edges():
    """Bases of the store: off a page, and at 2^64."""
    for n, size, at in (
        (4, 4, 0), (4, 4, 1), (4, 4, 2048), (4, 4, STORE + 4095), (4, 4, END - 1), (4, 4, END - 4096), (4, 1024, END - 4096), (8, 512, END - 4096),
        (8, 1024, END - 4096), (8, 513, END - 4096), (8, 1024, END - 8192), (4, 0, 1), (4, 0, 0), (4, 1025, END - 4096), (4, 1025, STORE),
    ):
        new(n, 0)
        own(size, at)
        give(n - 1, size)
        turn()
        be_own(size=size, at=at)
        own_notify()


def owned_orders():
    """Buffers that come back in other orders, with bytes in the store, over more turns than the ring has places; and nothing ready."""
    for n, modes in ((1, 0), (1, EVENT), (2, IND), (4, 0), (4, IND + EVENT), (4, LEGACY), (4, LEGACY + IND + EVENT), (64, EVENT)):
        new(n, modes, show=n // 64)
        own(16 if n < 64 else 1024)
        poll()
        order = [*range(n)][::-1] + [*range(0, n, 2)] + [*range(1, n, 2)]
        for i, token in enumerate(order[:9] if n == 64 else order):
            wrote(token, 0x0123456789ABCDEF * (i + 1) % END)
            give(token, 5 + i % 12)
            if i % 2:
                turn()
            else:
                poll()
                release()
        poll()
        turn()
        for token in range(n % 64):
            give(token, token)
        for _ in range(n % 64 + 1):
            turn()


def owned_lengths():
    """Lengths within the size and above it, and ids at their edges, of which only those below N modulo 65,536 are tokens."""
    for n, modes in ((1, 0), (4, IND + EVENT), (2, LEGACY + EVENT)):
        new(n, modes)
        own(6)
        wrote(0, END - 2)
        for length in (0, 1, 5, 6, 7, 65536, TOP - 1):
            give(0, length)
            poll()
            release()
            give(n - 1, length)
            turn()
        for told in (n, n + 1, 65535, 65536 + n, TOP - 1, n - 1, 65536, 65536 + n - 1, TOP - 65536):
            complete(Now.idx, told, 3)
            poll()
            turn()
            if told % 65536 < n:
                release()
                Now.idx += 1
        used(2, 2, Now.idx + 2)
        for _ in range(4):
            turn()


def owned_busy():
    """Polls and releases out of turn; and the queue's own calls beneath an owning queue, after which its record is not well formed."""
    new(4, 0)
    own()
    give(2, 4)
    give(0, 3)
    for c in (release, poll, poll, turn, release, release, poll, own_notify, own_unwanted, own_wanted, release, release, turn):
        c()
    give(1, 2)
    poll()
    give(1, 4)
    for c in (poll, turn, release, turn):
        c()
    give(1, 2)
    poll()
    be_own()
    calls(OWN_CALLS)
    be_own(1, 2)
    add(bufs(1))
    calls(OWN_CALLS)
    new(4, 0)
    own()
    add(bufs(1))
    give(3, 1)
    pop(3, [(STORE + 12, 4, 1)])
    calls(OWN_CALLS)
    be_own(3, 1)
    calls(OWN_CALLS)
    give(0, 1)
    poll()
    for fresh in (new, ask):
        fresh(4, 0)
        own_notify()
        be_own(2, 3)
    own()
    own_wanted()
    own(more=4)
    own_wanted()


def owned_wraps():
    """Both indices across the wrap, from a forged record."""
    for n, modes in ((1, EVENT), (2, 0), (4, IND + EVENT)):
        new(n, modes)
        own()
        field(AVAIL, (65534 + n) % 65536)
        field(LAST, 65534)
        used(2, 2, 65534)
        used(4 + 8 * n, 2, 65535)
        Now.idx = 65534
        for i in range(5):
            give(i % n, i)
            turn()
    new(2, 0)
    indices(65535)
    own()
    Now.idx = 65535
    give(1, 1)
    turn()


def owned_notifying():
    """should_notify and set_dev_notify of an owning queue, which need no store, and the last number of a turn."""
    for modes, at, marks in ((0, 0, (0, 1, 2, 65535)), (EVENT, 20, (0, 2, 3, 65534, 65535)), (LEGACY + IND, 0, (1, 2))):
        new(2, modes)
        own()
        for mark in marks:
            used(at, 2, mark)
            own_notify()
            give(1, 3)
            turn()
            give(0, 5)
            turn()
            should_notify()
        own_unwanted()
        own(more=-1)
        be_own()
        calls(OWN_CALLS)


def owned_refusals():
    """Several things wrong at once, put right one after the other; and memory or store one byte short."""
    new(4, IND)
    add(bufs(1))
    open_peek()
    field(USED, 5)
    lend([x - 1 for x in need(4, IND)])
    for right in (lambda: None, lambda: field(USED, 1), lend, lambda: None, lambda: run(9), lambda: None):
        right()
        own(1025, more=-1)
        own(1025)
    own()
    complete(0, 0, 1)
    pop(0, bufs(1))
    own()
    give(3, 4)
    turn()
    new(4, 0)
    for token in (0, 1):
        add(bufs(1))
        complete(token, token, 1)
    for token in (0, 1):
        pop(token, bufs(1))
        own()
    for modes in (0, IND, LEGACY + IND):
        for i in range(4):
            lent = need(4, modes)
            if i < 3 and lent[i] == 0:
                continue
            new(4, modes)
            own()
            give(2, 4)
            poll()
            give(TOP - 1, 9)
            if i < 3:
                lent[i] -= 1
                lend(lent)
            else:
                own(more=-1)
                be_own(2, 4)
            calls(OWN_CALLS)
            lend([x + 1 for x in need(4, modes)])
            own(at=STORE + 1)
            be_own(2, 4)
            calls(OWN_CALLS)


def owned(n, held, size=4):
    """A fresh owning queue, and a buffer held where a token is told."""
    new(n, 0)
    own(size)
    if held >= 0:
        give(held, 3)
        poll()


def bad_owned():
    """What is held, base and size forged, with none held and with one."""
    for held in (-1, 1):
        for token, length in ((0, 0), (1, 0), (1, 4), (1, 5), (2, 1), (4, 1), (65535, 1), (65537, 1), (1, TOP - 1), (-1, 0), (1, TOP + 4)):
            owned(4, held)
            be_own(token, length)
            calls(OWN_CALLS[:2])
        owned(4, held)
        for size, at in ((0, STORE), (3, STORE), (5, STORE), (1025, STORE), (4, 0), (4, STORE + 1), (4, STORE + 4096), (4, END - 4096)):
            be_own(held, 0, size, at)
            calls(OWN_CALLS[held + 1:held + 3])
    owned(1, 0)
    for size, at in ((0, STORE), (1025, STORE), (4, STORE + 1), (4, END - 1), (1024, END - 4096), (4, END - 4096)):
        be_own(0, 0, size, at)
        own_notify()
        release()
    for n, size, at in ((2, 4, STORE + 1), (8, 513, END - 4096), (8, 512, END - 4096)):
        owned(n, -1, size)
        for i in range(n):
            table(WORDS, i, at + i * size)
        be_own(at=at)
        own_notify()
        poll()


def bad_queues():
    """The queue beneath, forged: not well formed, a call open, a buffer that is not its token's own, a chain of two."""
    for held in (-1, 1):
        for forge, *what in (
            (field, AVAIL, 5), (half, NEXTS, 3, 4), (table, WORDS, 2, STORE + 4), (table, LENS, 3, 3), (half, FLAGS, 0, 0), (half, FLAGS, 0, 3),
            (half, NOTED, 2, 0), (call, 6), (call, 2, 0, 1),
        ):
            owned(4, held)
            forge(*what)
            calls(OWN_CALLS[:4])
    owned(2, 1)
    half(FLAGS, 0, 3)
    half(NOTED, 0, 2)
    table(LENS, 1, 4)
    field(USED, 2)
    calls(OWN_CALLS[:4])


def good_owned():
    """Owning records that no call makes and that are well formed all the same."""
    new(1, 0)
    own(4, more=8)
    table(LENS, 0, 8)
    be_own(size=8)
    give(0, 8)
    turn()
    poke(3, 6, 4, 0x44332211)
    give(0, 7)
    poll()
    be_own(0, 8, 8)
    release()
    table(WORDS, 0, 8192)
    be_own(size=8, at=8192)
    give(0, 8)
    turn()
    new(2, 0)
    own()
    half(FLAGS, 1, 65530)
    base(131072, IND)
    lend(need(2, IND))
    for token in (1, 0):
        give(token, 4)
        turn()
    new(2, 0)
    for i in range(2):
        add([(STORE + 4 * i, 4, 1)])
    Now.size = 4
    be_own()
    calls(OWN_CALLS)
