#!/usr/bin/env python3
"""calls.py [SEED COUNT]            write the stored calls of workspace_test
calls.py --check [SEED COUNT]    say whether the files are what would be written
calls.py --answers < CALLS       print what workspace_test must print for these calls

Writes a list of calls for the program workspace_test, stdin of that crate, and
what it must print, its stdout: the answers and buffers of the book of
reference.py, which is fed the calls alone. The front of the list has every
answer among its own, every orientation, boxes whose shape is just the frame's and
just not, boxes with a side left blank, and names that are easily taken for each
other, each with what is kept under it; behind it come COUNT calls by chance. The
loads are those that are stored for placing_test, and those of orientations.py,
boxes.py and photographs.py. What is stored is of seed 1 and count 900, which are
taken if none are given.
"""

import collections
import functools
import itertools
import os
import random
import struct
import sys

sys.dont_write_bytecode = True

import boxes
import lines
import orientations
import photographs
import reference
import stored

SEED, COUNT = 1, 900
ENOUGH = 240


# --------------------------------------------------- calls and their answers


def load(raw, picture, model, block):
    flags = (raw is not None) + 2 * (picture is not None)
    return bytes([1]) + struct.pack(">B4IBH", flags, *(raw or (0, 0)), *(picture or (0, 0)),
                                    len(model), len(block)) + model + block


def cut(*numbers):
    return struct.pack(">B4I", 2, *numbers)


def show(places):
    """A list into a buffer of so many places."""
    return bytes([6, places])


def fit(width, height, places):
    return struct.pack(">B2IB", 7, width, height, places)


def orient(number):
    return bytes([9, number])


def keep(name):
    return bytes([10, len(name)]) + name


def return_to(name):
    return bytes([11, len(name)]) + name


BACK = bytes([5])


def answer(book, call):
    """The line that workspace_test prints for a call."""
    code, rest = call[0], call[1:]
    if code == 1:
        raw, picture, model, block = stored.load_of(rest)
        return answer_line(book.load(block, raw, picture, model))
    if code == 2:
        return answer_line(book.cut(*struct.unpack(">4I", rest[:16])))
    if code == 5:
        return answer_line(book.back())
    if code == 6:
        buffer = places(rest[0])
        return answer_line(book.list(buffer), buffer)
    if code == 7:
        width, height, count = struct.unpack(">2IB", rest[:9])
        buffer = places(count)
        return answer_line(book.fit(width, height, buffer), buffer)
    if code == 9:
        return answer_line(book.orient(rest[0]))
    if code in (10, 11):
        name = rest[1 : 1 + rest[0]]
        return answer_line(book.keep(name) if code == 10 else book.return_to(name))
    sys.exit("no call has the code %d" % code)


def places(count):
    """A buffer as it is before a call."""
    return list(range(1, count + 1))


def answer_line(answer, buffer=None):
    text = "no %d" % answer[1] if reference.refused(answer) else "ok" if answer == "ok" else reference.head_line(answer)
    return text if buffer is None else text + " |" + "".join(" %d" % n for n in buffer)


# ------------------------------------------------------------------ the loads


@functools.lru_cache(maxsize=None)
def loads():
    """The loads that fit a call, whose code is one byte of it, by answer: refused with a number, or accepted."""
    found = collections.defaultdict(list)
    for given in stored.loads():
        if len(given[2]) + len(given[3]) <= 491:
            placed = stored.answer(given)
            found["no %d" % placed[1] if reference.refused(placed) else "ok"].append((given, placed))
    return found


@functools.lru_cache(maxsize=None)
def any_load():
    """Loads to draw from: refused ones, accepted ones, and again those with many points and in frames of extreme sides."""
    refused = [given for name, some in loads().items() if name != "ok" for given, _ in some]
    accepted = [given for given, _ in loads()["ok"]]
    many = [given for given, placed in loads()["ok"] if len(placed.points) > 4]
    return refused + accepted + many * (len(refused) // len(many) + 1) + photographs.EXTREME * (len(refused) // 20)


# -------------------------------------------------------------- lists of calls


def every_answer():
    """Each answer that a call can have, often where higher numbers apply too, and each orientation."""
    yield from (cut(0, 0, 0, 0), orient(6), orient(0), orient(255), BACK, show(0), fit(0, 0, 0))  # 7
    yield from (call(name) for call in (keep, return_to) for name in NAMES[:1] + BAD_NAMES)  # 7 before 16
    for number in range(1, 7):
        yield load(*loads()["no %d" % number][0][0])
    for given in orientations.PHOTOGRAPHS:
        yield load(*given)
        yield from (BACK, cut(0, 0, 0, 1), cut(0, 0, 4294967295, 1), cut(0, 0, 1, 1), orient(0), orient(9), orient(255))
        yield from (fit(0, 0, 0), fit(1, 9, 0), show(0), fit(1, 1, 0), fit(0, 1, 0), fit(1, 0, 5))  # 12, 19 before 13
        for number in orientations.EIGHT:
            yield from (orient(number), show(30), fit(300, 200, 30), fit(200, 300, 30), fit(300, 0, 30), fit(0, 300, 30), BACK)
        yield BACK
    # All points of the table behind as many edits as may stand: 8 before 9 and 15, and 15 after a back.
    yield load(*max(loads()["ok"], key=lambda load: len(load[1].points))[0])
    for i in range(reference.MAX_EDITS):
        yield orient((i * i + i // 3) % 8 + 1)
    yield from (show(ENOUGH), orient(1), orient(0), orient(9), cut(0, 0, 0, 0), BACK, orient(0), show(ENOUGH), orient(8), orient(9))
    yield from (fit(300, 200, ENOUGH), fit(200, 300, ENOUGH))
    for _ in range(reference.MAX_EDITS + 1):
        yield BACK
    yield show(ENOUGH)


def shapes():
    """Fits to the boxes of boxes.py: into a buffer just long enough, one too short, and with the photograph and the boxes on their
    side; there the frame as it was has another shape, and its sides alone work out as other boxes."""
    for given, some_cut, *some in boxes.FITS:
        asked = [box for box, _, _ in boxes.each_box(*some)]
        yield load(*given)
        if some_cut:
            yield cut(*some_cut)
        for box in asked:
            yield from (fit(*box, 6), fit(*box, 5))
        yield orient(6)
        for box in asked:
            yield fit(*box[::-1], 6)
        width, height = frame = some_cut[2:] if some_cut else stored.answer(given).frame
        yield from (fit(*frame, 6), fit(*frame, 5), fit(0, 0, 6), fit(*frame[::-1], 5), show(6))
        yield from (fit(width, 0, 6), fit(0, height, 6), fit(height, 0, 6), fit(0, width, 5))
        yield from (BACK, fit(*frame, 7), fit(width, 0, 7))


# Eight names: some that others begin with, two that a zero byte makes unlike, two that agree in 15 of 16 bytes.
NAMES = [b"A", b"A\0", b"AB", b"page one", b"page one, insid", b"page one, inside", b"page one, insidE", b"\0"]
# Eight others that are as near to these.
OTHERS = [b"page", b"B", b"a", b"A\0\0", b"page one,", b"page one, insid\0", b"\0\0", b"\xff" * 16]
# And eight that would be some of these if spaces were trimmed, bytes put in order or cut to 7 bits, or some in the middle left out.
TWINS = [b"A ", b" A", b"BA", b"\xc1", b"page two, inside", b"page one, insixe", b"page one ", b" page one"]


def one_off(name, place, bit):
    """A name that differs in one bit of one byte."""
    return name[:place] + bytes([name[place] ^ 1 << bit]) + name[place + 1 :]


# One of 16 bytes, off by one bit in each of its bytes.
ONE_OFF = [one_off(NAMES[5], place, place % 8) for place in range(16)]
# Of 0, 17 and 255 bytes.
BAD_NAMES = [b"", b"page one, inside!", b"page one, inside\0", b"A".ljust(255, b"\0")]


# To draw from: more than can be kept.
SOME_NAMES = NAMES + OTHERS[:2] + TWINS[:1] + TWINS[2:5]


def shown(names):
    """A return to each name, and a list after it."""
    for name in names:
        yield from (return_to(name), show(30))


def eight_names(names, others):
    """On a sheet of orientations.NAMED without names: eight are kept, each in an orientation of its own, beside names that are not
    there; then each once more, with a cut behind its orientation."""
    yield from map(return_to, names + BAD_NAMES)
    for number, name in zip(orientations.EIGHT, names):
        yield from (orient(number), keep(name), BACK, return_to(others[number - 1]))
    yield BACK  # a keep is no edit
    yield from map(keep, others + BAD_NAMES)  # 17, and 16 before it
    yield from map(return_to, others + BAD_NAMES)  # 18, and 16 before it
    yield from shown(names + names[::-1])
    for number in (3, 8, 1, 6, 2, 7, 4, 5):
        name = names[number - 1]
        yield from (return_to(name), cut(number, 2 * number, 4000, 4000), keep(name), BACK, show(30), keep(others[number - 1]))
        yield from shown(names)
    for name in names:
        yield from (return_to(name), BACK, show(30), BACK, BACK)


def around_loads():
    """Refused loads keep the names; an accepted one clears them, and there is room for eight others."""
    yield load(*orientations.NAMED)
    yield from eight_names(NAMES, OTHERS)
    yield from map(return_to, ONE_OFF)
    for number in range(1, 7):
        yield load(*loads()["no %d" % number][0][0])
        yield from shown(NAMES[number : number + 1])
    yield from (load(*orientations.NAMED), show(30), BACK)
    yield from eight_names(OTHERS, NAMES)
    yield from (load(*orientations.NAMED), *map(return_to, OTHERS))
    yield from eight_names(NAMES, TWINS)
    yield from (load(*orientations.NAMED), keep(NAMES[5]), load(*photographs.CORNER), return_to(NAMES[5]))


def kept_edits():
    """What is kept under a name: the edits of the latest accepted keep, whatever is done after it."""
    some, other = NAMES[:2]
    yield from (load(*orientations.NAMED), keep(some), orient(6), orient(2), keep(other), BACK, BACK, orient(3), orient(5))
    yield from (return_to(other), show(30), BACK, show(30), orient(8), show(30), *shown([other, some, other, other]))
    yield from (orient(7), keep(some), *shown([some, other]), keep(some), *shown([some]), orient(4), *shown([some]))
    # A refused call changes nothing.
    yield from (orient(4), keep(b""), return_to(b""), return_to(OTHERS[0]), show(30), *shown([some, other]))
    # No edits, kept over some.
    yield from (BACK, BACK, BACK, keep(some), orient(5), return_to(some), show(30), BACK)
    # A cut is judged by the frame that is come back to: within it or not, with the primary or not.
    inside, whole, corner = cut(3000, 2300, 500, 400), cut(0, 0, 6016, 4016), cut(0, 0, 400, 400)
    yield from (inside, keep(other), return_to(some), corner, inside, return_to(some), whole, BACK)
    yield from (return_to(other), whole, cut(0, 0, 501, 400), cut(0, 0, 500, 401), corner, show(30))
    yield from (return_to(other), orient(6), whole, cut(0, 0, 400, 500), show(30))
    # So is a box.
    for name in (some, other):
        yield from (return_to(name), fit(300, 200, 30), fit(250, 200, 30), orient(8), fit(200, 300, 30), fit(200, 250, 30))


def behind_the_most():
    """Keeps and returns where as many edits stand as may; they are no edits themselves."""
    one, most = NAMES[4:6]
    yield from (load(*orientations.NAMED), orient(6), keep(one), keep(one))
    for i in range(reference.MAX_EDITS - 1):
        yield orient((i * i + i // 5) % 8 + 1)
    yield from (orient(1), keep(most), show(30), keep(b""), return_to(b""), return_to(b"B"), return_to(most), show(30), orient(1))
    yield from (return_to(one), show(30), orient(2), return_to(most), show(30), orient(1), cut(0, 0, 1, 1), return_to(most))
    yield from (BACK, orient(8), show(30), return_to(most), return_to(one), BACK, BACK, return_to(most))
    for _ in range(reference.MAX_EDITS + 1):
        yield BACK
    yield from shown([most, one])


class Run:
    """Calls one after the other, what they are answered, and the book that knows the workspace."""

    def __init__(self, seed):
        self.chance = random.Random(seed)
        self.book = reference.Book()
        self.calls, self.lines = [], []

    def add(self, data):
        call = data.ljust(stored.RECORD, b"\0")
        self.calls.append(call)
        self.lines.append(answer(self.book, call))

    def by_chance(self, count):
        end = len(self.calls) + count
        while len(self.calls) < end:
            self.one_call()
        del self.calls[end:], self.lines[end:]

    def one_call(self):
        chance, book = self.chance, self.book
        kind = chance.choices(["load", "cut", "orient", "back", "list", "fit", "keep", "return", "names", "full"],
                              [6, 22, 28, 14, 20, 12, 12, 14, 0.6, 0.2])[0]
        if kind == "load":
            self.add(load(*chance.choice(any_load())))
        elif kind == "cut":
            self.add(cut(*stored.a_cut(chance, book)))
        elif kind == "orient":
            self.add(orient(stored.an_orientation(chance)))
        elif kind == "back":
            self.add(BACK)
        elif kind == "list":
            self.add(show(self.some_places()))
        elif kind == "fit":
            self.add(fit(*stored.a_box(chance, book), self.some_places()))
        elif kind == "keep":
            self.add(keep(self.a_name()))
        elif kind == "return":
            self.back_to(self.a_name())
        elif kind == "names":  # keeps, each behind another edit, until no other name may be kept; then returns to some of them
            for name in chance.sample(SOME_NAMES, len(SOME_NAMES)):
                self.add(orient(stored.an_orientation(chance)))
                self.add(keep(name))
            for name in chance.sample(SOME_NAMES, 4):
                self.back_to(name)
        else:  # orientations until no more may stand, and a keep behind them
            for _ in range(reference.MAX_EDITS - len(book.row)):
                self.add(orient(chance.randrange(1, 9)))
            self.add(keep(self.a_name()))

    def back_to(self, name):
        """A return, and often a list after it."""
        self.add(return_to(name))
        if self.chance.random() < 0.6:
            self.add(show(self.some_places()))

    def a_name(self):
        """A name out of some, or one that is kept, or one that is nearly one of these, or of any bytes and length."""
        chance, kept = self.chance, list(self.book.names)
        name = chance.choice(kept if kept and chance.random() < 0.3 else SOME_NAMES)
        kind = chance.choices(["as it is", "one off", "longer", "shorter", "any", "bad"], [60, 8, 6, 6, 10, 10])[0]
        if kind == "one off":
            return one_off(name, chance.randrange(len(name)), chance.randrange(8))
        if kind == "longer":
            return name + bytes([chance.choice(b"\0 AB\xff")])
        if kind == "shorter":
            return name[:-1]
        if kind == "any":
            return bytes(chance.choice(b"AB") for _ in range(chance.randrange(19)))
        return name if kind == "as it is" else chance.choice(BAD_NAMES)

    def some_places(self):
        """How many places: often just enough, or one too few."""
        needed = 0 if self.book.held is None else 6 * len(self.book.listed())
        return self.chance.choice([needed, needed, min(255, needed + 3), ENOUGH, max(0, needed - 1), 0])


def tally(answers):
    """How often each answer comes: 'no N', ok, frame."""
    return collections.Counter(line.split(" |")[0] if line.startswith("no") else line.split(" ")[0] for line in answers)


def files(seed, count):
    """The files, as (path, bytes)."""
    run = Run(seed)
    for data in itertools.chain(every_answer(), shapes(), around_loads(), kept_edits(), behind_the_most()):
        run.add(data)
    front = tally(run.lines)
    missing = [name for name in ["ok", "frame"] + ["no %d" % n for n in range(1, 20) if n != 14] if not front[name]]
    if missing:
        sys.exit("no call of the front is answered %s" % ", ".join(missing))
    run.by_chance(count)
    crate = os.path.join("crates", "workspace_test")
    yield os.path.join(crate, "stdin"), b"".join(run.calls)
    yield os.path.join(crate, "stdout"), "".join(line + "\n" for line in run.lines).encode()
    print("%d calls: %s" % (len(run.calls), lines.tally_text(tally(run.lines))))


def main():
    if sys.argv[1:] != ["--answers"]:
        return stored.run(__doc__, files, SEED, COUNT)
    book = reference.Book()
    for call in stored.records(sys.stdin.buffer.read()):
        print(answer(book, call))
    return 0


if __name__ == "__main__":
    sys.exit(main())
