"""Scripts in which both indices pass 65,535. The crate's cannot be forged, so 65,536 adds and pops are made.

Our program reads at most 1 MiB, so that it runs such a script in pieces. A piece ends with nothing outstanding and shows its bytes;
the next one starts from a record forged to hold what ours itself printed there. The oracle runs the whole script at once."""
import random

from owning import Owning, some_turn
from programs import MOST, ORACLE, differing, first_difference, run
from scripts import Script, some_list, wander

CASES = ((1, 2), (4, 4), (8, 3), (64, 2))
OWNING_CASES = ((1, 0, 16), (4, 3, 3))


def empty_out(script):
    """Everything outstanding is completed and popped, the newest first, which leaves the free order as it was before the adds."""
    while script.pending:
        script.complete(-1, 1)
    script.publish()
    while script.told:
        script.pop()


def settle(script):
    """Every descriptor serves a single buffer once: the table then says what the private one says."""
    empty_out(script)
    for i in range(script.size):
        script.add([(4096 * i, 1, 1)])
    empty_out(script)
    script.say(f"17 {script.lending()} 2")
    script.say("10 0")
    script.say(f"17 {script.lending()} 1")


def rounds(script, rng, until):
    """Adds of one or two buffers, one at a time outstanding, up to a number of adds or a piece's size."""
    size = 0
    while script.adds < until and size < MOST - 200_000:
        script.add(some_list(rng, min(script.size, 2)))
        script.complete(0, rng.getrandbits(8))
        script.publish()
        script.pop()
        size += sum(map(len, script.ops[-4:])) + 4


def pieces(seed, size, modes, before=65_300, after=65_700):
    """The operations of each piece; the last one wanders over the wrap, between these numbers of adds."""
    rng = random.Random(f"{seed} wrap {size} {modes}")
    script = Script(size, modes)
    while script.adds < before:
        rounds(script, rng, before)
        settle(script)
        yield script.ops
        script.ops = []
    while script.adds < after:
        wander(script, rng, 50)
    yield script.ops


def joined(pieces):
    return "".join("\n".join(ops) + "\n" for ops in pieces)


def stores(region, digits):
    """Operations that store a region's bytes as a line of hexadecimal has them."""
    data = bytes.fromhex(digits)
    for at in range(0, len(data), 8):
        part = data[at:at + 8]
        yield f"13 {region} {at} {len(part)} {int.from_bytes(part, 'little')}"


def carried(new, lines):
    """A new queue forged to be the one that the last four lines show: numbers, and the bytes of three regions."""
    size = int(new.split()[1])
    numbers, *regions = lines[-4:]
    ops = [new]
    for region, digits in enumerate(regions):
        ops += stores(region, digits)
    table = bytes.fromhex(regions[0])
    for i in range(size):
        address, length, flags, following = (
            int.from_bytes(table[16 * i + a:16 * i + b], "little") for a, b in ((0, 8), (8, 12), (12, 14), (14, 16)))
        ops += [f"15 0 {i} {address} 0", f"15 1 {i} {length} 0", f"15 2 {i} {following} 0", f"15 2 {64 + i} {flags} 0"]
    for field, place in ((2, 3), (1, 4), (3, 5), (4, 6)):
        ops.append(f"14 {field} {numbers.split()[place]} 0 0")
    return ops


def compare_wrap(ours, seed, size, modes):
    """Like compare, for one script in pieces."""
    done = list(pieces(seed, size, modes))
    theirs = run(ORACLE, joined(done))
    lines, start = [], []
    for ops in done:
        lines += run(ours, joined([start + ops]))[1 if start else 0:]
        start = carried(done[0][0], lines) if ops is not done[-1] else []
    at = first_difference(lines, theirs)
    if at is None:
        return 1, len(lines), None
    print(f"the wrap of size {size}, modes {modes}, line {at + 1}", flush=True)
    return 0, 0, (None, differing(lines, theirs, at))


def owning_turns(seed, size, modes, buffer, numbers):
    """The operations of an owning queue over a queue with these numbers."""
    script, rng = Owning(size, modes, buffer), random.Random(f"{seed} owning wrap {size} {modes}")
    script.adds, script.count = size + int(numbers[5]), int(numbers[6])
    for _ in range(500):
        some_turn(script, rng)
    return script.ops[1:]


def compare_owning_wrap(ours, seed, size, modes, buffer):
    """The same for an owning queue over a queue short of the wrap: the crate made all adds, ours is forged to be what the crate showed then."""
    *done, _ = pieces(seed, size, modes, 65_450, 65_450)
    before = run(ORACLE, joined(done))
    ops = owning_turns(seed, size, modes, buffer, before[-4].split())
    theirs = run(ORACLE, joined([*done, ops]))[len(before):]
    lines = run(ours, joined([carried(done[0][0], before) + ops]))[1:]
    at = first_difference(lines, theirs)
    if at is None:
        return 1, len(lines), None
    print(f"the owning wrap of size {size}, modes {modes}, line {at + 1}", flush=True)
    return 0, 0, (None, differing(lines, theirs, at))
