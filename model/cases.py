#!/usr/bin/env python3
"""Writes the script of cases for crates/calls_runs, or the groups of it that are named as arguments."""
import sys
from itertools import permutations

from forged import bad_direct, bad_indirect, forged_adds, forged_pops, forged_stores, good
from ops import (
    CALLS, EVENT, IND, LEGACY, STEPS, TOP, USED, Now, add, bufs, calls, can_pop, complete, field, indices, lend, listed, need, new, open_add,
    open_peek, open_pop, parts, peek, poke, pop, run, should_notify, step, used,
)
from owned import (
    asks, bad_owned, bad_queues, edges, good_owned, owned_busy, owned_lengths, owned_news, owned_notifying, owned_orders, owned_refusals, owned_wraps,
)


def worked():
    """The worked replay and its bytes, and those of an indirect add and pop."""
    for modes in (0, IND + EVENT):
        new(4, modes, show=2)
        b = [(4096, 10, 0), (8192, 20, 1)]
        add(b)
        complete(0, 0, 20)
        pop(0, b)


def also():
    """The cases that the scope document lists; those of notification and of sizes have their own groups."""
    new(4, 0)
    add([])
    for i in range(5):
        add(bufs(1, seed=i))
    for idx, told, token in ((0, 2, 2), (1, 65539, 3)):
        complete(idx, told, 7)
        pop(token, bufs(1, seed=token))
    new(4, IND)
    add(bufs(4))
    add(bufs(5))
    new(4, 0)
    indices(65535)
    add(bufs(1))
    new(4, 0)
    used(2, 2, 1)
    pop(0, bufs(1))


def notifying():
    """should_notify over avail_idx and avail_event, and over the used flags; set_dev_notify."""
    events = (0, 1, 2, 32767, 65533, 65534, 65535)
    for modes, marks in ((EVENT, (0, 2, 65534, 65535)), (LEGACY + IND + EVENT, (2,))):
        new(2, modes)
        for idx in marks:
            indices(idx)
            for event in events:
                used(4 + 8 * Now.n, 2, event)
                should_notify()
        calls(CALLS[-2:])
    for modes in (0, IND):
        new(2, modes)
        for flags in (0, 1, 2, 3, 255, 256, 65534, 65535):
            used(0, 2, flags)
            should_notify()
        calls(CALLS[-2:])


def news():
    """Sizes; regions and pool that are longer than needed and one byte short; 5 before 13."""
    for n in (0, 3, 5, 63, 65, 128, 65535, 65536, 65540, TOP - 1):
        new(n, 0, [64, 64, 64])
    new(3, 0, [0, 0, 0])
    for modes in range(8):
        for n in (1, 2, 4):
            new(n, modes, [x + 3 for x in need(n, modes)])
        for i in range(3):
            short = need(4, modes)
            if short[i]:
                short[i] -= 1
                new(4, modes, short)
    for n in (8, 16, 32, 64):
        new(n, 0)
    new(64, LEGACY + IND, show=1)


def fill(n, modes, k, turned, show=0):
    """Chains of k until one is refused, completed in another order, popped, popped once more, and added to again."""
    new(n, modes, show=show)
    tokens = range(n) if modes & IND else range(0, n - k + 1, k)
    for i in range(len(tokens) + 1):
        add(bufs(k, seed=i))
    order = list(enumerate(tokens))
    order = order[::-1] if turned else order[1:] + order[:1]
    for i, (_, token) in enumerate(order):
        complete(i, token, 100 + i)
    can_pop()
    peek()
    for i, token in order:
        pop(token, bufs(k, seed=i))
    pop(0, bufs(k))
    add(bufs(k))


def fills():
    for n in (1, 2, 4):
        for k in range(1, n + 1):
            for modes in range(4):
                fill(n, modes, k, k % 2)
    fill(1, LEGACY + EVENT, 1, 1)
    fill(2, LEGACY + IND, 2, 1)
    fill(64, EVENT, 8, 0, show=1)
    fill(64, 0, 64, 0)
    fill(64, IND, 2, 1, show=1)


def fulls():
    """Each way of being full: a list of empty buffers gets 2 or else 7, and changes nothing."""
    for modes in (0, IND):
        for n in (1, 2, 4, 64):
            new(n, modes, show=n // 64)
            for taken in range(n % 64 + 1):
                if taken:
                    add(bufs(1, seed=taken))
                for k in [*range(1, n % 64 + 2)] + [64, 65, 80] * (taken in (0, n)):
                    add([(1, 0, 0)] * k)


def orders():
    """Four chains completed in every order, over the free lists that this leaves."""
    new(4, 0)
    free, idx = [0, 1, 2, 3], 0
    for order in permutations(range(4)):
        tokens, free = free, []
        for i in range(4):
            add(bufs(1, seed=i))
        for i in order:
            complete(idx, tokens[i], i)
            idx += 1
        for i in order:
            pop(tokens[i], bufs(1, seed=i))
            free.insert(0, tokens[i])


def wraps():
    """Both indices across the wrap."""
    for n, modes in ((1, 0), (2, EVENT), (4, IND + EVENT), (64, 0), (2, LEGACY + EVENT)):
        new(n, modes, show=n // 64)
        k = min(n, 2)
        indices(65534)
        used(4 + 8 * n, 2, 65534)
        can_pop()
        add(bufs(k))
        for i in range(4):
            should_notify()
            complete((65534 + i) % 65536, 0, i)
            pop(0, bufs(k))
            add(bufs(k))


def ids():
    """Ids and tokens at their edges, each with each."""
    for n, modes in ((1, 0), (4, IND + EVENT)):
        new(n, modes)
        for _ in range(n):
            add(bufs(1))
        edges, idx = sorted({0, n - 1, n, 65535, 65536, 65536 + n - 1, TOP - 1}), 0
        for told in edges:
            complete(idx, told, TOP - 1)
            peek()
            for token in edges:
                pop(token, bufs(1))
                if told % 65536 == token < n:
                    add(bufs(1))
                    idx += 1
                    complete(idx, told, 0)


def shapes():
    """Lists that an add takes or refuses: empty buffers, sides, unequal lengths, the largest numbers."""
    good, far = bufs(3), [((1 << 64) - 1, TOP - 1, 0), (0, 1, 1)]
    a, s, o = parts(good)
    for modes in (0, IND):
        new(4, modes)
        for i in range(3):
            add([b if j != i else (b[0], 0, b[2]) for j, b in enumerate(good)])
        for sides in ((1, 0), (1, 0, 1), (0, 1, 0), (1, 1, 0)):
            add([(9, 9, side) for side in sides])
        for three in ((a, s[:2], o), (a, [], o), ([], s, o), (a, s, o[:2])):
            listed(2, 0, three)
        for three in ((a[:2], s, o), (a, s, []), (a, s, [0] * 80), (a, s, [0, 2, 255]), (a, s, [255, 1, 2]), (a, s, [256, 0, 257]), parts(far)):
            new(4, modes)
            listed(2, 0, three)
            complete(0, 0, TOP - 1)
            listed(4, 0, three)


def mismatches():
    """Pops with another list than was added, and at last with the same list in other words."""
    for modes in (0, IND + EVENT):
        for k in (1, 3):
            good = bufs(k, 2)
            new(4, modes)
            add(good)
            complete(0, 0, 99)
            for other in ([], good[:-1], good + good[:1], good * 2, (good * 65)[:65], (good * 80)[:80]):
                pop(0, other)
            for i, (a, s, o) in enumerate(good):
                for b in ((a + 1, s, o), (a, s + 1, o), (a, s, 1 - o), (a, 0, o)):
                    pop(0, good[:i] + [b] + good[i + 1:])
            a, s, o = parts(good)
            listed(4, 0, (a, s[:-1], o))
            listed(4, 0, (a, s, o[:-1]))
            listed(4, 0, (a, s + [7], [2 * x for x in o] + [1]))
            complete(1, 0, 99)
            pop(0, good)


def adding(k):
    return lambda: open_add(bufs(k))


def after_add(k, opening, told=0):
    """Opens after an add of k, of which a device has told an id, or nothing."""
    def both():
        add(bufs(k))
        if told is not None:
            complete(0, told, 77)
        opening()
    return both


def popping(k, token=0, told=0, given=None):
    return after_add(k, lambda: open_pop(token, bufs(k) if given is None else given), told)


# What is opened: size, modes, the steps that it has, and how.
OPENED = (
    (4, EVENT, 5, adding(2)), (4, IND, 5, adding(2)), (2, 0, 4, popping(1)), (4, EVENT, 6, popping(2)), (4, IND + EVENT, 4, popping(3)),
    (2, 0, 2, after_add(1, open_peek)), (4, 0, 6, adding(3)), (4, 0, 6, popping(3)), (4, IND, 3, popping(2)),
    (2, 0, 1, popping(1, told=None)), (2, 0, 3, popping(1, token=1)), (2, 0, 3, popping(1, token=1, told=1)), (2, EVENT, 3, popping(1, given=[])),
    (2, EVENT, 1, after_add(1, open_peek, None)), (1, LEGACY + EVENT, 5, popping(1)),
)


def budgets():
    """Every budget from 0 to one past the end, and then the rest: the last step, where only it is left, or a run."""
    for n, modes, steps, opening in OPENED:
        for budget in range(steps + 2):
            new(n, modes)
            opening()
            run(budget)
            if budget == steps - 1:
                step()
            else:
                run(TOP - 1)


def busy():
    """Every call at every point of every kind of open call, and steps with none open."""
    for n, modes, steps, opening in OPENED[:6]:
        new(n, modes)
        opening()
        for _ in range(steps):
            calls(CALLS)
            step()
        calls(STEPS)


def refusals():
    """Several things wrong at once, put right one after the other."""
    worst = [(1, 1, 1), (1, 0, 0)] + [(1, 0, 1)] * 3
    new(4, IND)
    open_peek()
    field(USED, 5)
    lend([x - 1 for x in need(4, IND)])
    for right in (lambda: None, lambda: field(USED, 0), lend, lambda: run(9)):
        right()
        open_add(worst)
        add(worst)
        pop(4, worst)
        calls(CALLS[5:])
    for b in (worst, sorted(worst, key=lambda b: b[2]), [(1, 0, 0)] * 4, bufs(4)):
        add(b)
    pop(1, [])
    for told, token in ((2, 1), (2, 2), (0, 0)):
        complete(0, told, 5)
        pop(token, [])


def short():
    """Regions and pool one byte short, with none open and with a pop open, and then one longer than needed."""
    for modes in (0, IND, LEGACY + IND):
        for i in range(3):
            lent = need(4, modes)
            if lent[i] == 0:
                continue
            new(4, modes)
            add(bufs(2))
            complete(0, 0, 77)
            lent[i] -= 1
            lend(lent)
            calls()
            lend()
            open_pop(0, bufs(2))
            lend(lent)
            calls(STEPS + CALLS[6:7])
            lend([x + 1 for x in need(4, modes)])
            run(9)


def garbage():
    """A device that writes everywhere and moves idx too far."""
    for modes in (0, IND, IND + EVENT):
        new(4, modes)
        add(bufs(2))
        add(bufs(1, seed=5))
        for region, size in enumerate(need(4, modes)):
            for at in range(0, size, 8):
                poke(region, at, 8, 0x0123456789ABCDEF * (at + region + 1) % (1 << 64))
        for token in (0, 1, 2, 0xCDEF):
            pop(token, bufs(2))
        complete(0, 0, 77)
        used(2, 2, 7)
        pop(0, [(0x0123, 10, 0), (8192, 20, 1)])
        open_pop(0, bufs(2))
        for _ in range(3):
            step()
            used(2, 2, 65535)
        run(9)
        for at, token in ((12, 0), (12, 2 - modes % 2), (20, 0)):
            used(at, 8, token + 5 * TOP)
            pop(token, bufs(1, seed=5))
        peek()
        should_notify()
        add(bufs(3))


def between():
    """A device that changes its mind between the loads of a pop."""
    new(2, 0)
    open_pop(0, bufs(1))
    run(0)
    complete(0, 0, 5)
    run(9)
    add(bufs(1))
    open_pop(0, bufs(1))
    for at, width, x in ((2, 2, 0), (4, 4, 1), (8, 4, 6), (8, 4, 7)):
        step()
        used(at, width, x)


GROUPS = (
    worked, also, notifying, news, fills, fulls, orders, wraps, ids, shapes, mismatches, budgets, busy, refusals, short, garbage, between,
    bad_direct, bad_indirect, good, forged_adds, forged_stores, forged_pops,
    asks, owned_news, edges, owned_orders, owned_lengths, owned_busy, owned_wraps, owned_notifying, owned_refusals, bad_owned, bad_queues,
    good_owned,
)

if __name__ == "__main__":
    names = [group.__name__ for group in GROUPS]
    unknown = [name for name in sys.argv[1:] if name not in names]
    if unknown:
        print("cases: there is no group", *unknown, "among", *names, file=sys.stderr)
        sys.exit(2)
    for group in GROUPS:
        if len(sys.argv) == 1 or group.__name__ in sys.argv:
            print(group.__name__.replace("_", " "))
            group()
