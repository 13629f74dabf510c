"""Uses outside the rules: outside.script by the crate, built for debug and for release, and by ours, compared with what was seen before."""
import functools
import os

import programs
import shrinking

SCRIPT = os.path.join(programs.HERE, "outside.script")


def blocks():
    """The title and the operations of each use."""
    with open(SCRIPT) as file:
        for block in file.read().strip().split("\n\n"):
            title, *ops = block.split("\n")
            yield title, ops


def seen(program):
    """What a program prints for each use, under its title."""
    for title, ops in blocks():
        yield from [title, *programs.run(program, "\n".join(ops) + "\n"), ""]


def sides(ours):
    """The programs at hand; the crate's are built first."""
    if programs.missing():
        return {"ours": ours}
    if not (programs.build() and programs.build("--profile", "dev")):
        return None
    return {"ours": ours, "debug": programs.PLAIN, "release": programs.ORACLE}


def record(ours):
    """Whether the crate's programs could be built and all three were recorded."""
    at_hand = sides(ours) or {}
    for side, program in at_hand.items():
        with open(os.path.join(programs.RECORDED, f"outside.{side}"), "w") as file:
            file.write("\n".join(seen(program)))
    return len(at_hand) == 3


def compare(ours):
    """Exit code 0 where each program at hand prints what is kept of it."""
    programs_at_hand = sides(ours)
    if programs_at_hand is None:
        return 2
    for side, program in programs_at_hand.items():
        told = programs.kept(f"outside.{side}")
        if told is None:
            return 1
        lines, wanted = list(seen(program)), told.split("\n")
        at = programs.first_difference(lines, wanted)
        if at is not None:
            print(f"differs: recorded/outside.{side}, line {at + 1}:", *programs.differing(lines, wanted, at), sep="\n  ")
            return 1
    print(f"oracle: {len(list(blocks()))} uses outside the rules, as recorded, by", ", ".join(programs_at_hand))
    return 0


def words(line):
    """What sort of line it is: the operation, and a panic's place or the answer."""
    told = line.split()
    return told[:3] if told[1:2] == ["panic"] else told[:2]


def kind(ours, ops):
    """The first difference between ours and either build, by its sort on each side."""
    lines, debug, release = (programs.run(program, "\n".join(ops) + "\n") for program in (ours, programs.PLAIN, programs.ORACLE))
    places = [programs.first_difference(lines, theirs) for theirs in (debug, release)]
    at = min((place for place in places if place is not None), default=None)
    if at is None:
        return None
    return [words(some[at]) if at < len(some) else None for some in (lines, debug, release)]


def shrink(ours):
    """Prints each use as small as it can be made; what follows the first difference is dropped."""
    if not programs.at_hand() or sides(ours) is None:
        return 2
    for title, ops in blocks():
        print(title, *shrinking.shrunk(ops, functools.partial(kind, ours)), "", sep="\n")
    return 0
