#!/usr/bin/env python3
"""Writes the stored cases, tests/replays/NAME.replay and NAME.expected, anew: python3 tests/cases.py

What is expected comes from model/replay.py. For a text with a wrong line the line's number stands here too, and the two must agree.
"""
import os
import sys

HERE = os.path.dirname(os.path.abspath(__file__))
sys.path.insert(0, os.path.join(HERE, "..", "model"))
from replay import printed  # noqa: E402

FOLDER = os.path.join(HERE, "replays")
TOP32, TOP64 = 2 ** 32, 2 ** 64
WORKED = b"size=4 indirect=0 event=0 op=add in=4096:10 out=8192:20 op=used id=0 len=20 op=pop token=0 in=4096:10 out=8192:20".split()
cases = {}


def text(lines):
    return b"".join(line + b"\n" for line in lines)


def good(name, whole):
    """A text without a wrong line."""
    assert name not in cases, name
    cases[name] = whole, printed(whole)
    assert b"bad=" not in cases[name][1], name


def wrong(name, line, whole):
    """A text whose first wrong or missing line has this number."""
    assert name not in cases, name
    cases[name] = whole, printed(whole)
    assert cases[name][1].endswith(b"bad=%d\n" % line), name


def instead(line, value):
    """The worked example with another value on this line."""
    key = WORKED[line - 1].split(b"=")[0]
    return text(WORKED[:line - 1] + [key + b"=" + value] + WORKED[line:])


# Texts of calls, for the cases of the queue itself.
def header(size, indirect=0, event=0):
    return [b"size=%d" % size, b"indirect=%d" % indirect, b"event=%d" % event]


def entries(count, first=1):
    return b",".join(b"%d:%d" % (4096 * i, 10 + i) for i in range(first, first + count)) or b"none"


def lists(ins, outs=b"none"):
    return [b"in=" + ins, b"out=" + outs]


def add(ins, outs=b"none"):
    return [b"op=add"] + lists(ins, outs)


def used(id_, length=7):
    return [b"op=used", b"id=%d" % id_, b"len=%d" % length]


def pop(token, ins, outs=b"none"):
    return [b"op=pop", b"token=%d" % token] + lists(ins, outs)


def calls(name, *parts):
    good(name, text(sum(parts, [])))


def listed_cases():
    """The worked example, and those listed after it that a replay can tell."""
    good("worked", text(WORKED))
    calls("also_no_buffers", header(4), add(b"none"))
    singles = [add(entries(1, i)) for i in range(5)]
    calls("also_four_adds_a_fifth_and_pop_2", header(4), *singles, used(2), pop(2, entries(1, 2)), singles[4], singles[4])
    calls("also_indirect_4_and_5", header(4, indirect=1), add(entries(4)), add(entries(5)))
    calls("also_id_65539", header(4), *singles[:4], used(65539), pop(3, entries(1, 3)))
    calls("also_nothing_outstanding", header(4), used(0), pop(0, b"1:1"))
    for size in (0, 3, 128):
        wrong(f"also_size_{size}", 1, instead(1, b"%d" % size))


def refusals():
    """Each number that a replay can meet, and which of two comes first."""
    empty = b"4096:0"
    calls("add_order_1_before_2", header(1), add(b"5:1"), add(b"none"))
    calls("add_order_2_before_7", header(2), add(entries(2) + b"," + empty), add(b"1:1"), add(entries(1) + b"," + empty))
    calls("add_empty_buffers", header(4), add(empty), add(b"1:1", empty), add(b"1:1," + empty + b",2:2"), add(b"1:1"))
    calls("add_indirect_full", header(2, indirect=1), add(entries(2)), add(entries(2)), add(entries(1)))
    calls("add_direct_full_by_a_chain", header(4), add(entries(3)), add(entries(2)), add(entries(1)), add(entries(1)))
    calls("pop_not_ready", header(4), pop(0, b"1:1"), add(b"1:1"), pop(0, b"1:1"))
    calls("pop_order_4_before_8", header(4), used(1), pop(0, b"1:1"), pop(1, b"1:1"))
    calls("pop_order_8_before_9", header(4), add(b"1:1,2:2"), used(1), pop(1, b"2:2"), pop(0, b"1:1,2:2"))
    calls("pop_token_above_65535", header(4), add(b"1:1"), used(65536), pop(65536, b"1:1"), pop(0, b"1:1"))
    calls("pop_id_at_the_top", header(4), used(TOP32 - 1), pop(65535, b"1:1"), pop(TOP32 - 1, b"1:1"))
    for indirect in (0, 1):
        pops = [pop(0, ins, b"3:3") for ins in (b"1:1", b"1:1,2:2,4:4", b"1:1,9:2", b"1:1,2:9", b"2:2,1:1")]
        pops += [pop(0, b"1:1", b"2:2,3:3"), pop(0, b"1:1,2:2,3:3"), pop(0, b"none")]
        calls(f"pop_mismatch_{indirect}", header(4, indirect), add(b"1:1,2:2", b"3:3"), used(0), *pops, pop(0, b"1:1,2:2", b"3:3"))


def histories():
    """Steps in each mode, the order of tokens, and a device that does as it likes."""
    three = b"1:1", b"2:2,3:3"
    for indirect in (0, 1):
        for event in (0, 1):
            one = [add(b"1:1"), used(1, 5), pop(1, b"1:1")] if indirect else [add(b"1:1"), used(3, 5), pop(3, b"1:1")]
            name = f"modes_indirect_{indirect}_event_{event}"
            calls(name, header(8, indirect, event), add(*three), *one, used(0, TOP32 - 1), pop(0, *three), add(*three))
    turns = [part for i in range(6) for part in (add(b"%d:1" % i), used(0, i), pop(0, b"%d:1" % i))]
    calls("size_1_many_turns", header(1), *turns)
    mixed = [add(entries(1, i)) for i in range(4)] + [used(i, i) for i in (3, 1, 0, 2)] + [pop(i, entries(1, i)) for i in (3, 1, 0, 2)]
    calls("any_order", header(4, event=1), *mixed, add(entries(3)), add(b"1:1"), used(2), pop(2, entries(3)))
    calls("used_more_than_there_are", header(2), add(b"1:1"), used(1), used(1), used(0, 9), pop(0, b"1:1"), pop(0, b"1:1"), pop(1, b"1:1"))
    calls("used_before_the_add", header(2), used(0, 9), add(b"1:1"), pop(0, b"1:1"))
    calls("chain_of_64", header(64), add(entries(64)), add(b"1:1"), used(0), pop(0, entries(64)), add(entries(30), entries(34)))
    calls("chain_of_64_indirect", header(64, 1, 1), add(entries(64)), add(entries(65)), used(0), pop(0, entries(64)))


def used_often():
    """Used blocks that count far past the queue's size and past a byte, each with a length of its own; and an element with all bits set."""
    one = b"1:1"
    turns = [part for _ in range(70) for part in (add(one), pop(0, one))]
    calls("used_300_times_and_70_turns", header(64), *(used(0, 1000 + i) for i in range(300)), *turns)
    for count in (255, 256, 257):
        calls(f"used_{count}_times", header(4, event=1), add(one), *(used(0, i) for i in range(count)), pop(0, one), pop(0, one))
    calls("used_1500_times_on_size_1", header(1), *(used(0, i) for i in range(1500)), *turns[:6])
    calls("used_at_the_top", header(4), add(one), used(TOP32 - 1, TOP32 - 1), pop(0, one), pop(65535, one), pop(TOP32 - 1, one))
    calls("used_at_the_top_for_token_0", header(4), add(one), used(TOP32 - 65536, TOP32 - 1), pop(0, one))


def widths():
    """Just within the width of each field, and just above."""
    for size in (1, 2, 4, 8, 16, 32, 64):
        calls(f"size_{size}", header(size), add(b"1:1"))
    for size in (5, 63, 65, 65535, 65536, 65540, TOP32 + 4, TOP64 + 4):
        wrong(f"size_{size}", 1, instead(1, b"%d" % size))
    for line, name in ((2, "indirect"), (3, "event")):
        good(f"{name}_1", instead(line, b"1"))
        for value in (2, TOP64 + 1):
            wrong(f"{name}_{value}", line, instead(line, b"%d" % value))
    for line, name in ((8, "id"), (9, "len"), (11, "token")):
        good(f"{name}_within", instead(line, b"%d" % (TOP32 - 1)))
        for value in (TOP32, TOP64):
            wrong(f"{name}_above_{value}", line, instead(line, b"%d" % value))
    for line, name in ((5, "add_in"), (6, "add_out"), (12, "pop_in"), (13, "pop_out")):
        good(f"{name}_within", instead(line, b"%d:%d" % (TOP64 - 1, TOP32 - 1)))
        wrong(f"{name}_address_above", line, instead(line, b"%d:1" % TOP64))
        wrong(f"{name}_length_above", line, instead(line, b"1:%d" % TOP32))
    good("zeros", instead(5, b"0:10"))
    wrong("digits_100", 8, instead(8, b"1" * 100))
    wrong("digits_5000", 5, instead(5, b"1:" + b"9" * 5000))


NUMBER_KINDS = {
    "empty": b"", "letters": b"four", "digit_letter": b"4x", "hex": b"0x4", "plus": b"+4", "minus": b"-4", "minus_zero": b"-0",
    "space_before": b" 4", "space_after": b"4 ", "space_only": b" ", "tab_before": b"\t4", "tab_after": b"4\t", "return": b"4\r", "nul": b"4\0",
    "nul_only": b"\0", "control_1": b"4\x01", "vertical_tab": b"4\x0b", "form_feed": b"4\x0c", "escape": b"4\x1b", "delete": b"4\x7f",
    "high_bit": b"4\x80", "byte_255": b"\xff4", "wide_digit": "\uff14".encode(), "below_0": b"/", "above_9": b":", "leading_zero": b"04",
    "two_zeros": b"00", "point": b"4.0", "exponent": b"1e1", "underscore": b"1_0", "comma": b"4,", "two_values": b"4 4", "second_equals": b"=4",
    "none": b"none", "quotes": b'"4"',
}
FEW_KINDS = ("empty", "letters", "minus", "space_after", "return", "nul", "leading_zero", "two_zeros")
LIST_KINDS = {
    "no_colon": b"4096", "no_length": b"4096:", "no_address": b":10", "colon_only": b":", "double_colon": b"4096::10",
    "three_parts": b"4096:10:1", "comma_last": b"4096:10,", "comma_first": b",4096:10", "comma_only": b",", "double_comma": b"1:1,,2:2",
    "semicolon": b"1:1;2:2", "space_for_comma": b"1:1 2:2", "space_after_comma": b"1:1, 2:2", "space_before": b" 1:1", "space_after": b"1:1 ",
    "space_at_colon": b"1: 1", "tab": b"1:1\t", "return": b"1:1\r", "nul": b"1:1\0", "letters": b"a:1", "length_letters": b"1:b", "plus": b"+1:1",
    "minus": b"1:-1", "zero_before_address": b"01:1", "zero_before_length": b"1:01", "two_zeros": b"00:1", "second_entry": b"1:1,2:02",
    "none_none": b"none,none", "none_entry": b"none,1:1", "entry_none": b"1:1,none", "none_capital": b"None", "none_space": b"none ",
    "none_return": b"none\r", "none_more": b"nonee", "none_short": b"non", "zero": b"0", "66_entries": entries(66), "66_commas": b"," * 66,
    "66_th_empty": entries(65) + b",",
}
KEY_KINDS = {
    "space_before": b" id=0", "space_after": b"id =0", "capital": b"Id=0", "colon": b"id:0", "no_equals": b"id0", "nul": b"\0id=0", "alone": b"id",
    "left_out": b"0", "short": b"i=0", "return": b"\rid=0", "byte_order_mark": b"\xef\xbb\xbfid=0", "comment": b"# id=0", "blank": b"",
}
FEW_LISTS = ("no_length", "comma_last", "space_after", "nul", "zero_before_length", "none_space", "66_entries")


def values():
    """Every kind of wrong value in one number and one list, and a few kinds in each other one."""
    for line, name in ((1, "size"), (8, "id"), (2, "indirect"), (3, "event"), (9, "len"), (11, "token")):
        for kind in NUMBER_KINDS if name == "id" else FEW_KINDS:
            wrong(f"{name}_{kind}", line, instead(line, NUMBER_KINDS[kind]))
    for line, name in ((5, "add_in"), (6, "add_out"), (12, "pop_in"), (13, "pop_out")):
        for kind in LIST_KINDS if name == "add_in" else FEW_LISTS:
            wrong(f"{name}_{kind}", line, instead(line, LIST_KINDS[kind]))
    for line, op in ((4, b"add"), (7, b"used"), (10, b"pop")):
        for kind, value in (("empty", b""), ("unknown", b"peek"), ("capital", op.upper()), ("space", op + b" "), ("more", op + b"s")):
            wrong(f"op_{op.decode()}_{kind}", line, instead(line, value))


def keys():
    """Each line with another key, with what may stand about a key, and gone; a block's lines in another order; lines that are no line's."""
    for i, line in enumerate(WORKED):
        wrong(f"line_{i + 1:02}_key_wrong", i + 1, text(WORKED[:i] + [b"x=" + line.split(b"=")[1]] + WORKED[i + 1:]))
        wrong(f"line_{i + 1:02}_missing", i + 1, text(WORKED[:i] + WORKED[i + 1:]))
    for kind, line in KEY_KINDS.items():
        wrong(f"key_{kind}", 8, text(WORKED[:7] + [line] + WORKED[8:]))
    for name, at in (("size_indirect", 1), ("indirect_event", 2), ("in_out", 5), ("id_len", 8), ("token_in", 11), ("pop_in_out", 12)):
        wrong(f"order_{name}", at, text(WORKED[:at - 1] + [WORKED[at], WORKED[at - 1]] + WORKED[at + 1:]))
    wrong("two_on_a_line", 1, text([b"size=4 indirect=0"] + WORKED[2:]))
    wrong("header_twice", 4, text(WORKED[:3] + WORKED))
    wrong("line_twice", 6, text(WORKED[:5] + WORKED[4:]))
    wrong("returns_everywhere", 1, text(line + b"\r" for line in WORKED))
    wrong("returns_for_newlines", 1, b"\r".join(WORKED) + b"\r")
    wrong("first_of_two_wrong", 8, text(WORKED[:7] + [b"id=x", b"len=y"] + WORKED[9:]))


def endings():
    """A text cut after each line, inside each line, and before a line's newline; what may follow the last line."""
    for i, line in enumerate(WORKED):
        whole = text(WORKED[:i])
        end = good if i + 1 in (3, 6, 9, 13) else wrong
        end(f"cut_after_{i + 1:02}", *([] if end is good else [i + 2]), text(WORKED[:i + 1]))
        wrong(f"cut_inside_{i + 1:02}", i + 1, whole + line[:len(line) - 1])
        wrong(f"cut_newline_{i + 1:02}", i + 1, whole + line)
    wrong("input_empty", 1, b"")
    wrong("input_newline", 1, b"\n")
    wrong("input_nul", 1, b"\0")
    after = {"newline": b"\n", "two_newlines": b"\n\n", "space": b" ", "nul": b"\0", "end_of_file_mark": b"\x1a", "letter": b"o"}
    for kind, more in after.items():
        wrong(f"after_block_{kind}", 14, text(WORKED) + more)
    wrong("after_header_newline", 4, text(WORKED[:3]) + b"\n")
    wrong("newline_first", 1, b"\n" + text(WORKED))


def lists_of_entries():
    """Lists of none written both ways, and as many entries as a side may have."""
    for ins in (b"none", b""):
        for outs in (b"none", b""):
            name = f"none_{len(ins)}_{len(outs)}"
            calls(name, header(4), add(ins, outs), add(ins, b"1:1"), add(b"1:1", outs), used(0), pop(0, ins, b"1:1"), pop(0, ins, outs), used(1))
    for name, sides in (("in_65", (entries(65), b"none")), ("out_65", (b"none", entries(65))), ("both_65", (entries(65), entries(65, 66)))):
        calls(f"entries_{name}", header(64), add(*sides), add(b"1:1"), pop(0, *sides), used(0), pop(0, *sides), pop(0, b"1:1"))
    wrong("entries_both_66", 5, text(header(64) + add(entries(66), entries(66))))
    calls("entries_none_then_65", header(64, 1), add(b"", entries(64)), used(0), pop(0, b"none", entries(65)), pop(0, b"none", entries(64)))


def main():
    for group in (listed_cases, refusals, histories, used_often, widths, values, keys, endings, lists_of_entries):
        group()
    os.makedirs(FOLDER, exist_ok=True)
    for old in os.listdir(FOLDER):
        os.remove(os.path.join(FOLDER, old))
    for name, pair in cases.items():
        for ending, content in zip(("replay", "expected"), pair):
            with open(os.path.join(FOLDER, f"{name}.{ending}"), "wb") as file:
                file.write(content)
    print(len(cases), "cases")


if __name__ == "__main__":
    main()
