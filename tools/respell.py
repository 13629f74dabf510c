#!/usr/bin/env python3
"""Respells the repository's own definitions and lemmas as today's Rattle spells names: words in snake case, types in camel case.

Run once, at the top, right after port.py; a repository with docs/PORT.md has been respelled, and is left as it is. A name that specs/ or proofs/ declares and that has a dash or an inner capital is respelled wherever it stands in
.antt, .rt, .edit and .md files; names that Rattle makes of a function's goals keep their dashes. With --list it only prints the pairs."""
import glob, os, re, sys

WORD = re.compile(r"[A-Za-z0-9_'\-₀-₉α-κμ-ω]+")
MODIFIERS = re.compile(r"^(?:(?:pub|abbrev|unfoldable|opaque|data|record|ruleset) )*")
NO_NAMES = ("use", "mod", "unfolding", "where", "let", "in", "elim")
# English words of comments and pages that are also names of lemmas.
ENGLISH = {"well-formed", "single-step", "by-value", "must-fail"}
# Names whose plain respelling would be another definition's name.
CHOSEN = {
    "ListedSame": "listed_same",
    "field_own": "own_at",
    "Ready-on": "ready_on",
    "head-desc": "head_desc_lem",
    "in-turn": "in_turn_lem",
    "list-of": "list_of_lem",
    "tables-of": "tables_of_lem",
    "all-below": "all_below_lem",
    "made-of": "made_of_lem",
    "goesOn": "will_go_on",
    "slotAddr": "slot_address",
    "takeHead": "take_head_work",
    "take-idx": "take_idx",
    "takeIdx": "take_idx_work",
    "complete-idx": "complete_idx",
    "completeIdx": "complete_idx_work",
    "used-id": "used_id",
    "usedId": "used_id_of",
    "used-len": "used_len",
    "usedLen": "used_len_of",
    "used-idx": "used_idx",
    "usedIdx": "used_idx_of",
    "available-desc": "available_desc_call",
    "can-pop": "can_pop_call",
    "peek-used": "peek_used_call",
    "pop-used": "pop_used_call",
    "set-dev-notify": "set_dev_notify_call",
    "should-notify": "should_notify_call",
}
# The same in one file alone.
CHOSEN_IN = {"crates/mixing/specs/Takes.antt": {"in_table": "doing_table", "inList": "doing_list"}}


def snake(name):
    """The name in snake case; a type keeps its capital and loses its dashes."""
    if name[0].isupper():
        return "".join(part[:1].upper() + part[1:] for part in name.split("-"))
    name = name.replace("-", "_")
    return re.sub(r"(?<=[a-z0-9])([A-Z]+)", lambda m: "_" + m.group(1).lower(), name)


def antt_files():
    return sorted(glob.glob("crates/*/specs/**/*.antt", recursive=True) + glob.glob("crates/*/proofs/**/*.antt", recursive=True))


def code_of(line):
    return re.sub(r"(^|\s)--(\s.*|-*)$", "", line)


def declared(path):
    """The names that a file declares: at the margin, or as fields and constructors of a data or record."""
    names = set()
    lines = [code_of(line.rstrip("\n")) for line in open(path)]
    for line, then in zip(lines, lines[1:] + [""]):
        if not line:
            continue
        if not line[0].isspace():
            rest = MODIFIERS.sub("", line)
            m = WORD.match(rest)
            if m and m.group(0) not in NO_NAMES and not re.match(r"(pub )?(use|mod) ", line):
                names.add(m.group(0))
        else:  # a field, a constructor, or a declaration of a module with parameters
            m = re.match(r"\s+(?:pub )?([^\s:(){}]+(?: [^\s:(){}]+)*)\s*:", line)
            if not m and re.match(r"\s+:\s", then):
                m = re.match(r"\s+(?:pub )?([^\s:(){}]+(?: [^\s:(){}]+)*)\s*$", line)
            if m:
                words = m.group(1).split()
                if not set(words) & {"let", "in", "elim", "λ", "rw"}:
                    names.update(w for w in words if WORD.fullmatch(w))
    return names


def goals(path):
    """The names of a proof file that are goals which Rattle names: 'NAME : tie.Need-..', 'NAME : goal.NAME'."""
    return set(re.findall(r"^(?:abbrev |pub )*(\S+) :\s+(?:tie|goal)\.", open(path).read(), re.M))


def aliases():
    names = set()
    for path in antt_files() + glob.glob("crates/*/src/*.rt"):
        for line in open(path):
            if re.match(r"(pub )?(ghost )?use ", line):
                names.update(re.findall(r" as ([A-Za-z0-9_'\-]+)", line))
    return names


def pairs():
    own, made = aliases(), set()
    for path in antt_files():
        made |= goals(path)
        own |= declared(path) - goals(path)
    found = {n: CHOSEN.get(n, snake(n)) for n in own if ("-" in n or re.match(r"[a-z].*[A-Z]", n))}
    capital = {snake(n) for n in own if re.match(r"[a-z].*[A-Z]", n)}
    for n in found:
        if "-" in n and n not in CHOSEN and found[n] in capital:
            found[n] += "_lem"
    # Names that port.py mistook for words of the library.
    found.update({n: CHOSEN[n] for n in ("ListedSame", "Ready-on", "field_own") if n in own})
    return {a: b for a, b in found.items() if a != b}, own, made


def respell(text, names, skip=()):
    return WORD.sub(lambda m: names.get(m.group(0), m.group(0)) if m.group(0) not in skip else m.group(0), text)


def split_comment(line, mark):
    m = re.search(r"(^|\s)" + re.escape(mark) + r"(?=\s|$)", line)
    return (line[: m.start()], line[m.start():]) if m else (line, "")


def main():
    names, own, made = pairs()
    if "--list" in sys.argv:
        for a, b in sorted(names.items()):
            print(a, b)
        return
    if os.path.exists("docs/PORT.md"):
        sys.exit("respell: docs/PORT.md is there, so that the names are respelled already")
    for path in antt_files() + sorted(glob.glob("crates/*/src/*.rt") + glob.glob("crates/*/must-fail/*.edit")):
        local = {**names, **CHOSEN_IN.get(path, {})}
        if path.endswith(("Proof.antt", "Answers.antt", "Invariants.antt")):
            for n in goals(path):
                local.pop(n, None)
        mark = "--" if path.endswith(".antt") else "//" if path.endswith(".rt") else "#"
        out = []
        for line in open(path).read().split("\n"):
            code, note = split_comment(line, mark)
            out.append(respell(code, local) + respell(note, local, ENGLISH))
        open(path, "w").write("\n".join(out))
    for path in ["README.md"] + glob.glob("docs/*.md"):
        text = open(path).read()
        text = re.sub(r"`[^`\n]*`", lambda m: respell(m.group(0), names, ENGLISH), text)
        open(path, "w").write(text)


if __name__ == "__main__":
    main()
