"""The loads and stores of shared memory, call by call: the crate's, seen by closed pages, and ours, seen by single steps and by closed pages.

What each call of ours loads and stores is written here from the scope document's "Step by step". Our program confirms the number by the
steps it reports, and each store by its bytes before and after the step. Adds and pops of our archive, as a program links them, are watched by
closed pages as the crate's are, and show the order of their loads too."""
import functools
import itertools
import random
from collections import Counter

import programs
import scripts
from scripts import EVENT, INDIRECT, LEGACY

LETTERS, COUNT = "123opkcsd", 300
LENGTH, LEGACY_LENGTH = 4, 3
OPENING = {2: 3, 4: 5, 6: 7}
CALLS = (2, 4, 6, 10, 11, 12)
TWICE = "adds store a list's last entry with NEXT and then without"
BACK = "pops load a list's entries back"
LEFT_OUT = "refused pops of the optimised crate leave out the length"
SEEN = "adds and pops of our archive in the order foretold"
SCRIPTS = "scripts"


class Watched(scripts.Script):
    """A script that foretells for each call: its text, its accesses, the head of its list, and how many buffers a list has."""

    def __init__(self, *told):
        super().__init__(*told)
        self.idx = self.last = 0
        self.calls = []

    def say(self, text):
        super().say(text)
        op = int(text.split()[0])
        if op in CALLS:
            self.calls.append([len(self.ops) - 1, self.foretold(op), 0, 0])

    def foretold(self, op):
        """What a call does if it is an add that is refused, or a pop that frees nothing."""
        slot, event = self.last % self.size, self.modes & EVENT
        if op in (4, 6) and self.idx != self.last:
            return ["load used.idx", f"load used.id{slot}", f"load used.len{slot}"][:3 if op == 4 else 2]
        if op == 12:
            return [] if event else ["store avail.flags"]
        return [] if op == 2 else ["load " + ("used.idx" if op < 11 else "avail_event" if event else "used.flags")]

    def has_list(self, buffers):
        return self.modes & INDIRECT and len(buffers) > 1

    def note(self, chain, buffers, accesses):
        listed = len(buffers) if self.has_list(buffers) else 0
        self.calls[-1][1:] = self.calls[-1][1] + accesses, chain[0], listed

    def add(self, buffers):
        slot, before = self.adds % self.size, self.adds
        super().add(buffers)
        if self.adds == before:
            return
        chain = self.pending[-1][0]
        stores = [f"list{i}" for i in range(len(buffers))] + [f"desc{chain[0]}"]
        if not self.has_list(buffers):
            stores = [f"desc{d}" for d in chain + chain[-1:]]
        self.note(chain, buffers, ["store " + field for field in [*stores, f"avail.ring{slot}", "avail.idx"]])

    def pop(self):
        front = self.done[0] if self.told else None
        super().pop()
        if front:
            chain, buffers = front
            freed = [] if self.has_list(buffers) else [f"store desc{d}" for d in chain]
            self.note(chain, buffers, freed + ["store used_event"] * bool(self.modes & EVENT))
            self.last = (self.last + 1) % 65536

    def store_idx(self, value):
        super().store_idx(value)
        self.idx = value


@functools.cache
def fields(size, modes):
    """Region, offset and length of each field; a list's entries count from its own start."""
    region, used = (0, scripts.needs(size, modes)[1]) if modes & LEGACY else (1, 0)
    avail, end = 16 * size, used + 4 + 8 * size
    made = {"avail.flags": (0, avail, 2), "avail.idx": (0, avail + 2, 2), "used_event": (0, avail + 4 + 2 * size, 2),
            "used.flags": (region, used, 2), "used.idx": (region, used + 2, 2), "avail_event": (region, end, 2)}
    for i in range(size):
        made |= {f"desc{i}": (0, 16 * i, 16), f"avail.ring{i}": (0, avail + 4 + 2 * i, 2), f"list{i}": (2, 16 * i, 16),
                 f"used.id{i}": (region, used + 4 + 8 * i, 4), f"used.len{i}": (region, used + 8 + 8 * i, 4)}
    return made


@functools.cache
def names(size, modes):
    return {(part, at + i): name for name, (part, at, length) in fields(size, modes).items() for i in range(length)}


def seen(script, words):
    """The accesses noted: instructions that touch other bytes of the same field, one after the other, are one access of it."""
    made, known, touched = [], names(script.size, script.modes), set()
    for word in words:
        kind, part, at, digits = word.split(":")
        place = int(at) % (16 * script.size) if part == "2" else int(at)
        name = known.get((int(part), place), f"outside {part}:{at}")
        access = f"{kind} {name}"
        if not (made and made[-1][0] == access) or at in touched:
            made.append([access, ""])
            touched = set()
        touched.add(at)
        if kind == "store" and not name.startswith("outside"):
            _, start, length = fields(script.size, script.modes)[name]
            made[-1][1] = digits[2 * (start % 16):][:2 * length]
    return [" ".join(access).strip() for access in made]


def stepwise(script, steps, calls):
    """Our script with these calls made by single steps, with the bytes before and after each; all others whole, with no bytes."""
    counts = {call[0]: count for call, count in list(zip(script.calls, steps))[calls]}
    for place, text in enumerate(script.ops):
        op, _, rest = text.partition(" ")
        if place not in counts:
            yield text
            continue
        yield from [f"17 {script.lending()} 2", "10 0"]
        yield from [f"{OPENING[int(op)]} {rest}", *["8 0"] * counts[place]] if int(op) in OPENING else [text]
        yield f"17 {script.lending()} 1"


def dumps(script, steps, calls, lines):
    """The three regions' bytes before and after each step of each of these calls, taken from our program's lines."""
    chosen = range(len(script.calls))[calls]
    next(lines)
    for place, (call, count) in enumerate(zip(script.calls, steps)):
        opened = int(script.ops[call[0]].split()[0]) in OPENING
        shown = [list(itertools.islice(lines, 4))[1:] for _ in range(2 + opened * count)] if place in chosen else next(lines)
        if place in chosen:
            yield shown


def stored(before, after, field):
    """The bytes of a field after a step that may have changed this field and nothing else; None where it changed more."""
    part, at, length = field
    from_, to = 2 * at, 2 * (at + length)
    for i in range(3):
        a, b = before[i], after[i]
        if a != b and (i != part or a[:from_] + b[from_:to] + a[to:] != b):
            return None
    return after[part][from_:to]


def confirmed(script, call, steps, shown):
    """Our accesses with the bytes that were stored, or what our program does otherwise than was foretold."""
    _, wanted, head, _ = call
    opened = int(script.ops[call[0]].split()[0]) in OPENING
    if len(wanted) != steps:
        return [f"{steps} steps for", *wanted]
    if (opened or not wanted) and shown[0] != shown[1]:
        return ["bytes changed with no step"]
    made = []
    for access, before, after in zip(wanted, shown[opened:], shown[opened + 1:]):
        kind, name = access.split(" ")
        part, at, length = fields(script.size, script.modes)[name]
        left = stored(before, after, (part, at + (part == 2) * 16 * script.size * head, length))
        if left is None or kind == "load" and before != after:
            return [f"other bytes changed at {access} of", *wanted]
        made.append(access if kind == "load" else f"{access} {left}")
    return made


def with_next(store):
    """The same store of an entry, with NEXT."""
    return store[:-8] + f"{int(store[-8:-6], 16) | 1:02x}" + store[-6:]


def told_differences(call, ours, optimised):
    """The crate's accesses where they are known to be others; the optimised crate loads and stores a list's flags by one instruction."""
    said, accesses, count = ours[:1], ours[1:], call[3]
    if count and accesses[0].startswith("store"):
        first, last, rest = accesses[:count - 1], accesses[count - 1], accesses[count:]
        load = [] if optimised else [f"load list{count - 1}"]
        yield TWICE, [*said, *first, with_next(last), *load, last, *rest]
    elif count:
        yield BACK, [*said, *accesses[:3], *(f"load list{i}" for i in range(count)), *accesses[3:]]
    elif optimised and said == ["answer 4 4 0"]:
        yield LEFT_OUT, [*said, *accesses[:2]]


def sort(call, ours, theirs, optimised):
    """Which sort of call this is: the same, a difference that is told of, or None."""
    if ours == theirs:
        return "the same"
    return next((name for name, form in told_differences(call, ours, optimised) if form == theirs), None)


def line_groups(made, lines):
    """The lines of each script's calls, behind that of its new."""
    lines = iter(lines)
    return [list(itertools.islice(lines, 1 + len(script.calls)))[1:] for script in made]


def answer(line):
    return "answer " + " ".join(line.split()[:3])


def watched(script, calls):
    """The script, with these calls and those behind them watched."""
    first = script.calls[calls][0][0] if script.calls else len(script.ops)
    return "\n".join([*script.ops[:first], f"17 {script.lending()} 2", *script.ops[first:], ""])


def noted(program, made, calls):
    """Answer and accesses of these calls of each script, as closed pages show them; None for a call that the program has not."""
    lines = programs.run(program, "".join(watched(script, calls) for script in made), "--accesses") if program else []
    for script, some in zip(made, line_groups(made, lines)):
        for line in some[calls]:
            yield None if line.endswith(" none") else [answer(line), *seen(script, line.split()[3:])]


def our_side(ours, made, calls):
    """The same of ours, each with its script and what was foretold: whole calls tell answers and steps, single steps the bytes."""
    whole = programs.run(ours, "".join(script.text().replace(" 1\n", " 0\n", 1) for script in made))
    groups = line_groups(made, whole)
    steps = [[int(line.split()[11]) for line in some] for some in groups]
    text = [op for script, counts in zip(made, steps) for op in stepwise(script, counts, calls)]
    lines = iter(programs.run(ours, "\n".join(text) + "\n"))
    for script, counts, some in zip(made, steps, groups):
        chosen = list(zip(script.calls, counts, some))[calls]
        for (call, count, line), shown in zip(chosen, list(dumps(script, counts, calls, lines))):
            yield script, call, [answer(line), *confirmed(script, call, count, shown)]


def compare_some(ours, traced, made, calls):
    """Counts the sorts of these calls of some scripts; the first of no sort comes with its script and both sides."""
    count = Counter({SCRIPTS: len(made)})
    crate = [noted(oracle, made, calls) for oracle in (programs.PLAIN, programs.ORACLE)]
    linked = noted(traced, made, calls)
    for script, call, our in our_side(ours, made, calls):
        ops, archived = script.ops[:call[0] + 1], next(linked, None)
        if archived and archived != our:
            return count, (ops, ["foretold:", *our], ["no crate, but ours by closed pages:", *archived])
        count[SEEN] += bool(archived)
        for optimised, side in enumerate(crate):
            their = next(side, ["no line"])
            name = sort(call, our, their, optimised)
            if name is None:
                return count, (ops, our, their)
            count[name] += 1
    return count, None


def wanted_word(word, modes):
    """Only words that end in a call; bytes of the legacy layout are many, so there what changes no state stands at the end only."""
    return word[-1] != "o" and not (modes & LEGACY and set(word[:-1]) & set("kcs"))


def short_job(ours, traced, size, modes, length):
    """All short scripts; only the last call is looked at, since shorter scripts look at those before it."""
    words = (word for word in scripts.words(size, modes, LETTERS, length) if wanted_word(word, modes))
    total = Counter()
    while some := list(itertools.islice(words, 300)):
        made = [scripts.short(size, modes, word, Watched) for word in some]
        count, difference = compare_some(ours, traced, made, slice(-1, None))
        total += count
        if difference:
            return total, difference
    return total, None


def random_job(ours, traced, seed, index):
    rng = random.Random(f"{seed} accesses {index}")
    script = Watched(rng.choice(scripts.SIZES), rng.randrange(8))
    scripts.wander(script, rng, 40)
    return compare_some(ours, traced, [script], slice(None))


def short_jobs(ours, traced):
    """The shortest first, so that a first difference is a smallest one; fewer in the legacy layout, whose bytes take our program long to print."""
    for length in range(1, LENGTH + 1):
        layouts = range(8 if length <= LEGACY_LENGTH else LEGACY)
        yield from ((short_job, ours, traced, size, modes, length) for size in (1, 2, 4) for modes in layouts)


def jobs(ours, traced, seed, count):
    """Short ones first; a seed or a count asks for random ones only."""
    if seed is None and count is None:
        yield from short_jobs(ours, traced)
    yield from ((random_job, ours, traced, seed or 0, index) for index in range(COUNT if count is None else count))
