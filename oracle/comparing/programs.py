"""The programs, and runs of two of them over many scripts up to the first difference."""
import os
import shutil
import subprocess

HERE = os.path.dirname(os.path.dirname(os.path.abspath(__file__)))
ROOT = os.path.dirname(HERE)
OURS = os.path.join(ROOT, "target", "bin", "calls_runs")
BENCH = os.path.join(HERE, "bench")
ORACLE = os.path.join(HERE, "target", "release", "oracle")
PLAIN = os.path.join(HERE, "target", "debug", "oracle")
TRACED = os.path.join(BENCH, "target", "release", "traced")
RECORDED = os.path.join(HERE, "recorded")
FILES = ("queue.rs", "queue/owning.rs")
MOST = 1 << 20


def source():
    """Where the crate's own files are looked for, as oracle/queue/build.rs does."""
    return os.path.join(ROOT, os.environ.get("VIRTIO_DRIVERS_SRC", "../shared/docs/src"))


def missing():
    """What a comparison with the crate itself would need and does not find."""
    if not all(os.path.isfile(os.path.join(source(), name)) for name in FILES):
        return "the crate's source is"
    return None if shutil.which("cargo") else "cargo is"


def at_hand(quiet=False):
    """Whether the crate can be run; one line says what is missing."""
    if missing() and not quiet:
        print(f"oracle: {missing()} not at hand, nothing is compared with the crate (oracle/README.md says where it is looked for)")
    return not missing()


def cargo(folder, *words):
    """Builds where this module looks for the programs, whatever place or target the environment names; cargo says what is wrong where it fails."""
    told = {name: value for name, value in os.environ.items() if name != "CARGO_BUILD_TARGET"}
    command = ["cargo", "build", "--offline", "--quiet", "--target-dir", os.path.join(folder, "target"), *words]
    return subprocess.run(command, cwd=folder, env=told).returncode == 0


def build(*words):
    """Builds the oracle, optimised unless other words are given."""
    return cargo(HERE, *(words or ["--release"]))


def archive():
    """Our archive, proved and made anew; where that fails, the end of what the kit said is printed."""
    if not shutil.which("rt"):
        print("oracle: the Rattle kit's command rt, which makes our archive, is not on the PATH")
        return False
    told = subprocess.run([os.path.join(ROOT, "tools", "staticlib")], stdout=subprocess.PIPE, stderr=subprocess.STDOUT, text=True)
    if told.returncode != 0:
        print("oracle: tools/staticlib failed; its last lines:", *told.stdout.splitlines()[-10:], sep="\n  ")
    return told.returncode == 0


def traced():
    """The program that runs our archive's calls over closed pages, built anew; None where it cannot be."""
    return TRACED if archive() and cargo(BENCH, "--release", "--bin", "traced") else None


def run(program, text, *words):
    """The lines that a program prints for a script; one that fails adds a line that says so."""
    told = subprocess.run([program, *words], input=text.encode(), stdout=subprocess.PIPE, stderr=subprocess.DEVNULL)
    lines = told.stdout.decode().splitlines()
    if told.returncode != 0:
        lines.append(f"exit {told.returncode}")
    return lines


def kept(name):
    """The text of a recorded file; None where there is none, which is said."""
    try:
        with open(os.path.join(RECORDED, name)) as file:
            return file.read()
    except OSError as error:
        print(f"oracle: recorded/{name} cannot be read ({error.strerror}); --record makes it")
        return None


def both(ours, text):
    """Ours first, as everywhere here."""
    return run(ours, text), run(ORACLE, text)


def news(lines):
    """How many scripts have begun in these lines."""
    return sum(line.startswith(("1 ", "25 ")) for line in lines)


def first_difference(lines, theirs):
    """The place of the first line that differs, or None."""
    for at, (a, b) in enumerate(zip(lines, theirs)):
        if a != b:
            return at
    return None if len(lines) == len(theirs) else min(len(lines), len(theirs))


def differing(lines, theirs, at):
    """The two lines there."""
    return [some[at] if at < len(some) else "(no line)" for some in (lines, theirs)]


def kind(ours, ops):
    """What sort of difference a script shows: the operation and the two answers, or None."""
    lines, theirs = both(ours, "\n".join(ops) + "\n")
    at = first_difference(lines, theirs)
    return None if at is None else [line.split()[:2] for line in differing(lines, theirs, at)]


def batches(scripts):
    """Scripts together, as many as one run's input holds."""
    some, size = [], 0
    for script in scripts:
        more = sum(map(len, script.ops)) + len(script.ops)
        if size + more > MOST:
            yield some
            some, size = [], 0
        some.append(script)
        size += more
    if some:
        yield some


def compare(ours, scripts):
    """How many scripts and lines were the same, and the first script that was not, with its two lines."""
    count = total = 0
    for some in batches(scripts):
        lines, theirs = both(ours, "".join(script.text() for script in some))
        at = first_difference(lines, theirs)
        if at is not None:
            place = max(news(theirs[:at + 1]), 1)
            return count, total, (some[place - 1].ops, differing(lines, theirs, at))
        count += len(some)
        total += len(lines)
    return count, total, None
