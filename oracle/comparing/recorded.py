"""Scripts kept with the oracle's lines, for a comparison with no Rust at hand."""
import itertools
import os

import news
import outside
import owning
import programs
import scripts
import wraps

WRAPS = ((1, 2), (4, 3), (8, 0))


def some_short():
    """A few short scripts of each size and mode, spread over all of them."""
    for size in (1, 2, 4):
        for modes in range(4):
            for word in list(scripts.words(size, modes, scripts.LETTERS, 5))[97::997]:
                yield scripts.short(size, modes, word)


def over_the_wrap(size, modes):
    """A queue forged as the oracle had it short of the wrap, what follows, and the oracle's lines for that."""
    pieces = list(wraps.pieces(1, size, modes, 65_515, 65_550))
    before = programs.run(programs.ORACLE, wraps.joined(pieces[:-1]))
    lines = programs.run(programs.ORACLE, wraps.joined(pieces))
    return wraps.carried(pieces[0][0], before) + pieces[-1], lines[:1] + lines[len(before):]


def kinds():
    """The scripts of each file, but for the wraps."""
    return {"short": some_short(), "random": (scripts.some_script(0, index) for index in range(60)),
            "owning": (owning.some_script(0, index) for index in range(0, 280, 5)),
            "new": itertools.islice(news.every(), 7, None, 29)}


def names():
    return sorted([*kinds(), *(f"wrap{size}" for size, _ in WRAPS)])


def write(name, ops, lines):
    for ending, told in (("script", ops), ("lines", lines)):
        with open(os.path.join(programs.RECORDED, f"{name}.{ending}"), "w") as file:
            file.write("\n".join(told) + "\n")


def record(ours):
    """Makes the recorded files anew with the oracle; only what ours does outside the rules is its own."""
    os.makedirs(programs.RECORDED, exist_ok=True)
    if not (programs.at_hand() and outside.record(ours)):
        return 2
    for name, made in kinds().items():
        ops = [op for script in made for op in script.ops]
        write(name, ops, programs.run(programs.ORACLE, "\n".join(ops) + "\n"))
    for size, modes in WRAPS:
        write(f"wrap{size}", *over_the_wrap(size, modes))
    return 0


def replay(ours):
    """Runs ours over the recorded scripts, and says the first line that differs."""
    count = total = 0
    for name in names():
        script, wanted = (programs.kept(f"{name}.{ending}") for ending in ("script", "lines"))
        if script is None or wanted is None:
            return 1
        lines, theirs = programs.run(ours, script), wanted.splitlines()
        at = programs.first_difference(lines, theirs)
        if at is not None:
            print(f"differs: recorded/{name}, line {at + 1}:", *programs.differing(lines, theirs, at), sep="\n  ")
            return 1
        count += programs.news(theirs)
        total += len(theirs)
    print(f"oracle: {count} recorded scripts, {total} lines, all the same")
    return 0
