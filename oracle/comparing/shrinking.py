"""A script made smaller while it still shows the same: fewer operations, fewer buffers, a smaller queue, simpler numbers."""
import time
from collections import Counter

import scripts

SECONDS = 30


def fewer(ops, same):
    """Drops operations, many at a time and then one by one."""
    step = len(ops) // 2
    while step:
        at = 1
        while at < len(ops):
            less = ops[:at] + ops[at + step:]
            if same(less):
                ops = less
            else:
                at += step
        step //= 2
    return ops


def lower(number):
    """Simpler numbers to try in its place."""
    return sorted(x for x in {0, 1, number // 2, number - 1} if 0 <= x < number)


def fewer_buffers(numbers):
    """An add or a pop with one buffer less in its list."""
    op, token, count, _, _, *rest = numbers
    for gone in range(count):
        yield [op, token, *[count - 1] * 3, *(x for i, x in enumerate(rest) if i % count != gone)]


def smaller_new(numbers):
    """A smaller queue or one with fewer modes, lent what it needs."""
    _, size, modes, *_, show = numbers
    for other in [(size // 2, modes), *((size, modes & ~bit) for bit in (1, 2, 4) if modes & bit)]:
        if other[0]:
            yield [1, *other, *scripts.needs(*other)[0], show]


def smaller(text):
    """An operation with one thing less."""
    numbers = list(map(int, text.split()))
    if numbers[0] == 1:
        yield from smaller_new(numbers)
        return
    listed = numbers[0] in (2, 4)
    if listed:
        yield from fewer_buffers(numbers)
    for i in range(1, len(numbers)):
        if not (listed and 2 <= i < 5):
            yield from (numbers[:i] + [x] + numbers[i + 1:] for x in lower(numbers[i]))


def list_of(text):
    """The list of an add or a pop as the script has it, or None."""
    op, _, *rest = text.split(" ", 2)
    return rest[0] if op in ("2", "4") else None


def smaller_together(ops):
    """Scripts in which a list that several operations have, as an add and its pop do, is made smaller in all of them."""
    lists = Counter(filter(None, map(list_of, ops)))
    for listed in (listed for listed, times in lists.items() if times > 1):
        for _, _, *less in smaller(f"2 0 {listed}"):
            other = " ".join(map(str, less))
            yield [text.removesuffix(listed) + other if list_of(text) == listed else text for text in ops]


def simpler(ops):
    """Scripts with one operation less, or with one made smaller, or with a list made smaller wherever it stands."""
    yield from (ops[:i] + ops[i + 1:] for i in range(1, len(ops)))
    yield from smaller_together(ops)
    for i, text in enumerate(ops):
        yield from (ops[:i] + [" ".join(map(str, numbers))] + ops[i + 1:] for numbers in smaller(text))


def shrunk(ops, kind):
    """The smallest script found, in the time there is, of the same kind; one of no kind stays as it is."""
    wanted, until = kind(ops), time.monotonic() + SECONDS
    if wanted is None:
        return ops
    same = lambda some: time.monotonic() < until and kind(some) == wanted
    found = fewer(ops, same)
    while found:
        ops, found = found, next(filter(same, simpler(found)), None)
    return ops
