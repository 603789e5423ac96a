#!/usr/bin/env python3
"""states.py            write the stored jobs of state_bench
states.py --check    say whether the files are what would be written

Writes the jobs of the program state_bench, stdin of that crate, each kind of it
some times over, behind one turn, kinds 1, 5 and 6 behind none, 32 and 64 equal
edits, and kind 9 behind none, one and 32, to boxes that are accepted and refused,
with both sides and with one left blank; and what it must print, its stdout: what
the book of reference.py answers to the last of the same calls, how many edits then
stand, and the sum of what is listed. The times themselves are taken by tools/bench.
"""

import struct
import sys

sys.dont_write_bytecode = True

import calls
import reference
import stored

# All 39 points of the D600.
LOAD = (None, None, reference.MODEL, reference.build_block((reference.RECORD, 7, 30, b"0100\0\0\3\1\xff\xff\xff\xff\x7f".ljust(30, b"\0"))))
NAMES = [b"n" * 15 + bytes([place]) for place in range(8)]
TURN, LIST = calls.orient(6), calls.show(calls.ENOUGH)
# The edits that stand before. The cut is of the whole frame: it can be made again, and every point stays.
EQUAL = {
    "orientation 6": TURN,
    "orientation 2": calls.orient(2),
    "a cut of the whole frame": calls.cut(0, 0, *reference.WHOLE_FRAME),
}

# For a frame of 6016 by 4016: a quarter of each side; off by 1600 where 6016 is the most; and off by 6400, which is refused.
# Then with a blank side: worked out as the first, as 1200 by 801, and, refused, as 4294967295 by 4294967295; and without sides.
BOXES = ((1504, 1004), (300, 200), (1200, 800), (0, 1004), (1200, 0), (0, reference.MAX_U32), (0, 0))
# The kinds, and those that write into a buffer.
KINDS, LISTS = range(1, 10), (5, 6, 9)


def boxes_behind(standing, edit):
    """The boxes, on their side where the frame is."""
    return [box[::-1] if edit == TURN and standing % 2 else box for box in BOXES]


def once(kind, edit, box):
    """What a kind does once. Kinds 1 and 2, 5 and 6, 7 and 8 are of a sheet and of a workspace."""
    return {
        1: [edit, calls.BACK],
        2: [TURN, calls.BACK],
        3: [calls.keep(NAMES[7]), calls.return_to(NAMES[7])],
        4: [calls.keep(NAMES[7])],
        5: [LIST],
        6: [LIST],
        7: [calls.orient(0)],
        8: [calls.orient(0)],
        9: [calls.fit(*box, calls.ENOUGH)],
    }[kind]


def job(kind, count, standing, edit, box=(0, 0)):
    """A job's bytes: its kind, how many times, how many of an edit stand before, and the box behind the longest edit."""
    return struct.pack(">BIB17s2I", kind, count, standing, edit, *box).ljust(stored.RECORD, b"\0")


def printed(kind, count, standing, edit, box=(0, 0)):
    """The line for a job."""
    book = reference.Book()
    for call in [calls.load(*LOAD), *[edit] * standing, *map(calls.keep, NAMES)]:
        calls.answer(book, call)
    last, total = "none", 0
    for call in once(kind, edit, box) * count:
        last, _, buffer = calls.answer(book, call).partition(" |")
    if last.startswith("frame"):
        points = int(last.split()[4])
        last, total = "ok", sum(map(int, buffer.split()[: 6 * points]))
    ending = ", sum %d" % (total % 2**32) if kind in LISTS else ""
    return "kind %d, times %d: %s, standing %d%s\n" % (kind, count, last, len(book.row), ending)


def files():
    """The files, as (path, bytes)."""
    jobs = [(kind, count, 1, TURN, boxes_behind(1, TURN)[0]) for kind in KINDS for count in (0, 1, 65)]
    jobs += [(kind, 2, standing, edit) for kind in (1, 5, 6) for edit in EQUAL.values() for standing in (0, 32, 64)]
    jobs += [(9, 2, standing, edit, box)
             for edit in EQUAL.values() for standing in (0, 1, 32) for box in boxes_behind(standing, edit)]
    records = [calls.load(*LOAD).ljust(stored.RECORD, b"\0"), *(job(*each) for each in jobs), job(0, 1, 0, b"")]
    yield "crates/state_bench/stdin", b"".join(records)
    yield "crates/state_bench/stdout", ("".join(printed(*each) for each in jobs) + "kind 0, times 1: no such kind\n").encode()


if __name__ == "__main__":
    sys.exit(stored.run(__doc__, files))
