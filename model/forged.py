"""Cases over forged records: not well formed, one for each clause, and well formed though no call makes them; and open calls forged."""
from ops import (
    AVAIL, EVENT, FLAGS, FREE, IND, LAST, LEGACY, LENS, N, NEXTS, NOTED, SIDES, TOP, USED, WORDS, add, base, bufs, call, can_pop, complete,
    field, half, lend, new, pop, run, some_calls, step, table, used,
)


def two_chains(modes):
    """Direct: chain 0, 1 and chain 2, with 3 free. Indirect: the list of three at head 0, and descriptor 1, with 2 and 3 free."""
    new(4, modes)
    add(bufs(2 + modes % 2))
    add(bufs(1, seed=9))
    complete(0, 0, 77)


def bad(forge, *wrong):
    """What is forged, its right value, and wrong ones: each is tried by some calls, and the right one put back."""
    for what, right, values in wrong:
        for x in values:
            forge(*what, x)
            some_calls(2)
        forge(*what, right)


def bad_bases(*pairs):
    for x, modes in pairs:
        base(x, modes)
        some_calls(2)


def bad_direct():
    """A record for each clause that is broken, direct."""
    two_chains(0)
    bad(field, ((N,), 4, (0, 1, 2, 3, 8, 64, 65, 65535)), ((USED,), 3, (0, 2, 4, 5, 65535)), ((FREE,), 3, (0, 1, 2, 4, 65535)))
    bad(field, ((AVAIL,), 2, (0, 1, 3, 65535)), ((LAST,), 0, (1, 2, 4, 65535)))
    bad(half, ((NEXTS, 0), 1, (0, 2, 3, 4, 65535)), ((NEXTS, 1), 2, (4,)), ((NEXTS, 2), 3, (4,)), ((NEXTS, 3), 0, (4, 65535)))
    bad(half, ((FLAGS, 0), 1, (0, 2, 4, 5)), ((FLAGS, 1), 2, (1, 3)), ((FLAGS, 2), 0, (1, 4)))
    bad(half, ((NOTED, 0), 2, (0, 1, 3, 4, 65535)), ((NOTED, 1), 0, (1, 2)), ((NOTED, 2), 1, (0, 2)), ((NOTED, 3), 0, (1, 65535)))
    bad(table, ((LENS, 0), 10, (0,)), ((LENS, 1), 20, (0,)), ((LENS, 2), 10, (0,)))
    bad_bases((1, 0), (4096, 0), (131072, 0), (131073, IND), (4095, IND), ((1 << 64) - 1, IND), (4096, EVENT))
    base(0, 0)
    half(FLAGS, 0, 3)
    bad(half, ((FLAGS, 1), 2, (0,)))
    half(FLAGS, 0, 1)
    field(USED, 4)
    field(AVAIL, 3)
    bad(half, ((NOTED, 3), 0, (1,)))
    table(LENS, 3, 5)
    half(NOTED, 3, 1)
    bad(field, ((USED,), 4, (3, 5, 65535)))
    for free, nexts in ((2, (1, 2, 0, 0)), (0, (0, 1, 2, 3)), (3, (1, 2, 3, 1)), (1, (1, 2, 3, 2))):
        new(4, 0)
        field(FREE, free)
        for i, x in enumerate(nexts):
            half(NEXTS, i, x)
        some_calls(2)


def bad_indirect():
    """The same for the clauses of lists and of the pool's base, with bases that are just right and just wrong."""
    two_chains(IND)
    slots, lengths = (0, 131071, 131073, 131136, 4096), (0, 16, 33, 47, 49, 64, 80, 1 << 31)
    bad(table, ((WORDS, 0), 131072, slots), ((LENS, 0), 48, lengths), ((LENS, 64), 10, (0,)), ((LENS, 66), 30, (0,)), ((SIDES, 2), 1, (0,)))
    bad(half, ((FLAGS, 0), 4, (5, 6, 12, 65535)), ((FLAGS, 1), 0, (4,)), ((NOTED, 0), 1, (0, 2)))
    for place in (3, 4):
        table(LENS, 64 + place, 5)
        table(SIDES, place, 1)
    bad(table, ((LENS, 0), 48, (80,)))
    bad_bases((0, 0), (0, EVENT), (131072, 0), (131073, IND), (4096, IND), ((1 << 64) - 256, IND), (0, IND))
    table(WORDS, 0, 0)
    bad_bases((0, 0), (0, EVENT))
    for n, page in ((4, 1), (16, 1), (32, 4), (32, 3), (64, 16), (64, 15)):
        new(n, IND, show=1)
        base((1 << 64) - 4096 * page, IND)
        can_pop()
        add(bufs(2))


# Records that no call makes and that are well formed all the same, over the two chains: modes, and what is forged.
GOOD = (
    (0, lambda: (field(AVAIL, 1), field(LAST, 65535))), (0, lambda: half(NEXTS, 3, 1)), (0, lambda: (half(NEXTS, 1, 0), half(NEXTS, 2, 2))),
    (0, lambda: half(FLAGS, 0, 3)), (0, lambda: half(FLAGS, 1, 6)), (0, lambda: half(FLAGS, 0, 65529)), (0, lambda: half(FLAGS, 2, 65528)),
    (0, lambda: half(FLAGS, 3, 65535)), (0, lambda: (table(WORDS, 3, 9), table(LENS, 3, 9))), (0, lambda: table(WORDS, 0, 4097)),
    (0, lambda: table(LENS, 1, TOP - 1)), (0, lambda: (half(NEXTS, 4, 9), half(FLAGS, 4, 9), half(NOTED, 4, 9))),
    (0, lambda: (table(WORDS, 64, 9), table(LENS, 64, 9), table(SIDES, 0, 1))), (0, lambda: base(0, EVENT)), (0, lambda: base(0, LEGACY)),
    (0, lambda: base(131072, IND)), (0, lambda: (field(USED, 4), field(AVAIL, 3), half(NOTED, 3, 1), table(LENS, 3, 5))),
    (0, lambda: (half(FLAGS, 1, 1), half(FLAGS, 2, 2), half(NOTED, 0, 3), half(NOTED, 2, 0), field(AVAIL, 1))),
    (IND, lambda: table(LENS, 0, 32)), (IND, lambda: (table(LENS, 0, 64), table(LENS, 67, 5), table(SIDES, 3, 1))), (IND, lambda: table(SIDES, 0, 1)),
    (IND, lambda: table(SIDES, 1, 0)), (IND, lambda: half(FLAGS, 0, 0)), (IND, lambda: table(LENS, 67, 5)), (IND, lambda: base(131072, IND + EVENT)),
    (IND, lambda: half(FLAGS, 1, 8)),
)


def good():
    for modes, forge in GOOD:
        two_chains(modes)
        forge()
        lend([100, 50, 260])
        can_pop()
        pop(0, bufs(2 + modes))
        add(bufs(2, seed=20))
        complete(1, 2 - modes, 5)
        pop(2 - modes, bufs(1, seed=9))


def forged_adds():
    """An add forged open at each step, and at steps and heads that it has not."""
    for modes, heads in ((0, (0, 1, 2, 3, 4, 65535)), (IND, (0, 1, 2)), (EVENT, (0,))):
        two_chains(modes)
        call(1, 0, 0)
        some_calls(2)
        for head in heads:
            for at in (0, 1, 2, 3, 4, 5, 6, 65535):
                field(AVAIL, 1)
                call(1, head, at)
                run(9)
    two_chains(0)
    half(FLAGS, 2, 65528)
    field(AVAIL, 1)
    call(1, 2, 0)
    step()
    step()
    new(4, 0)
    field(LAST, 1)
    call(1, 0, 0)
    some_calls(2)


def forged_stores():
    """A storing pop forged open, at steps that it has and has not."""
    for modes in range(4):
        two_chains(modes)
        for count in (0, 1, 2, 3, 65535):
            for at in (0, 1, 2, 3, 65535):
                call(5, count, at, 9)
                run(9)


def forged_pops():
    """Pops and peeks forged open before each load."""
    for modes in (0, IND + EVENT):
        two_chains(modes)
        for kind in (6, 7):
            call(kind)
            step()
            run(9)
        for kind in (2, 3, 4):
            for token, matched in ((1, 0), (3, 1), (4, 1), (0, 0), (65536, 1), (TOP - 1, 1)):
                call(kind, token, matched, token)
                run(9)
        call(4, 65535, 1, TOP - 1)
        run(9)
        call(4, 0, 1, 65536)
        run(9)
        used(2, 2, 1)
        for kind in (2, 3, 4, 6, 7):
            call(kind, 2, 1, 2)
            run(1)
            run(9)
