"""Scripts of new with all that it asks for: every size and layout, queues in use, maxima around the size, and several bases."""
import itertools

import scripts

TOP = 1 << 64
SIZES = (*scripts.SIZES, 0, 3, 5, 65, 128)


def top(need):
    """The highest page at which a region of so many bytes ends at 2^64 or below."""
    return (TOP - need) // 4096 * 4096


def bases(size, modes):
    """Three bases each: low, the same for all, at the top; and off a page, which is looked at only where nothing refuses before."""
    needs = scripts.needs(size, modes)[0]
    yield 4096, 65536, 131072
    yield 0, 0, 0
    yield tuple(top(max(need, 1)) for need in needs)
    yield 3, TOP - 1, 5


def script(size, modes, in_use, most, told):
    """A new, and what a queue that is made does with its bases: the addresses of table and list go into descriptors."""
    made = scripts.Script(size, modes)
    made.ops = [f"25 {size} {modes} {in_use} {most} {' '.join(map(str, told))} {made.lending()} 1"]
    if size in scripts.SIZES and not in_use and most >= size:
        made.add(scripts.BUFFERS[:2])
        made.say("10 0")
    return made


def every():
    for size, modes, in_use in itertools.product(SIZES, range(8), (0, 1)):
        for most in sorted({0, max(size - 1, 0), size, size + 1, (1 << 32) - 1}):
            refused = size not in scripts.SIZES or in_use or most < size
            for told in bases(size, modes):
                if refused or told[0] % 4096 == 0:
                    yield script(size, modes, in_use, most, told)
