#!/usr/bin/env python3
"""lines.py SEED COUNT [--loads FILE]            write a script by chance
lines.py --tally SEED COUNT [--loads FILE]    only say what it is answered with

Writes COUNT call lines of all kinds for `focusdesk` to standard output: loads,
good and bad, cuts and orientations up to 64 and past them, listings, fits,
contents, and malformed lines. The same seed gives the same lines. Most calls
meet a loaded sheet; at the front there is a stretch that leaves it empty. The
last feed is missing now and then. The loads are those that are stored for
placing_test, or those of a FILE of load lines (as tools/oracle's `loads` prints
them), the extreme ones of photographs.py and the blocks of readers.py; as they
are and changed: other sizes, models, named points and positions, damaged entries,
entries in another order.
Contents lines have these blocks too; more than half have a directory by chance,
of the four tags and others in any order, repeated, damaged and of types that
are passed over. --tally counts the answers of reference.py.
"""

import collections
import functools
import random
import struct
import sys

sys.dont_write_bytecode = True

import photographs
import readers
import reference
import script
import stored

MAX_U32 = reference.MAX_U32
SIZES = [None, None, (0, 0), (0, 7), (5, 0), reference.MEDIUM_PICTURE, reference.DX_FRAME, reference.WHOLE_FRAME,
         (3008, 2008), (4512, 3007), (3935, 2624), (MAX_U32, MAX_U32), (MAX_U32 - 1, MAX_U32), (MAX_U32, 2),
         (1, MAX_U32), (1, 1)]
MODELS = [b"", b"NIKON D60", b"NIKON D6000", b"NIKON D600 ", b" NIKON D600", b"NIKON D600\0", b"NIKON D610",
          b"nikon d600", b"NIKON D601", b"N" * 255]
EDGES = [block for _, block in readers.cases() if len(block) <= 2000]
OTHER_TAGS = [0, 0, 0, 1, 6, 8, 0x46, 0xB8, 0x0700, 0x1B00, 0x4500, 0xB700, 0x0107, 0x01B7, 65535]
PASSED_OVER = [0, 0, 14, 14, 15, 255, 256, 0x0107, 0x0700, 65535]


# -------------------------------------------------------------------- loads


@functools.lru_cache(maxsize=None)
def pools(path):
    """The loads to draw from, by answer: origin 1 or 2, many points, extreme frames, no 1 to 6."""
    if path is None:
        loads = list(stored.loads())
    else:
        with open(path) as file:
            loads = [load_of(line.rstrip("\n")) for line in file]
    loads += [(readers.RAW, None, reference.MODEL, block) for _, block in readers.cases()]
    found = collections.defaultdict(list)
    for given in loads:
        if len(given[2]) > 255 or len(given[2]) + len(given[3]) > 2000:
            continue
        answer = stored.answer(given)
        if reference.refused(answer):
            found["no %d" % answer[1]].append(given)
        else:
            found["origin %d" % answer.origin].append(given)
            if len(answer.points) > 4:
                found["many"].append(given)
    found["extreme"] = photographs.EXTREME
    return {name: found[name] for name in sorted(found)}


def load_of(line):
    raw, picture, model, block = line.split(" ")
    return (reference.parse_size(raw), reference.parse_size(picture), reference.parse_hex(model), reference.parse_hex(block))


def place_of_record(block, order):
    """Where the record lies, if it is whole and of type 7: start and length."""
    entry = reference.first_kept_entry(block, order, reference.RECORD)
    if entry is None or entry[1] != 7 or entry[2] <= 4 or reference.value_of(block, order, entry) is None:
        return None
    return reference.number_at(block, entry[3], 4, order), entry[2]


def other_names(chance, block, order):
    """Other bytes 4 to 14 of the record: mode, layout, primary, mask."""
    where = place_of_record(block, order)
    if where is None or where[1] < 30:
        return block
    mask = chance.choice([0, chance.getrandbits(56), chance.getrandbits(56) & chance.getrandbits(56), (1 << 56) - 1,
                          1 << chance.randrange(56)])
    names = bytes([chance.choice([0, 0, 0, 1, 2, 3, 255]), chance.choice([0, 5, 8, 9, 193, 197, 207, 1]),
                   chance.choice([3] * 14 + [0, 2, 4, 255]), chance.choice([chance.randrange(1, 40)] * 9 + [0, 40, 255])])
    data = bytearray(block)
    data[where[0] + 4 : where[0] + 15] = names + mask.to_bytes(7, "little")
    return bytes(data)


def other_position(chance, block, order):
    """One number of the record's frame, centre or area, by one or by chance."""
    where = place_of_record(block, order)
    layout = where and reference.LAYOUTS.get(block[where[0] : where[0] + 4])
    if not layout or where[1] < layout[0]:
        return block
    place = where[0] + layout[1] + 2 * chance.randrange(6)
    number = reference.number_at(block, place, 2, order)
    number = chance.choice([number + 1, number - 1, 0, 1, 65535, number // 2, chance.randrange(65536)]) % 65536
    return block[:place] + number.to_bytes(2, order) + block[place + 2 :]


def other_entry(chance, block, order):
    """An entry of another tag, type, count or field, twice or the first again."""
    start = reference.number_at(block, 4, 4, order)
    count = reference.number_at(block, start, 2, order)
    if count == 0:
        return block
    at = start + 2 + 12 * chance.randrange(count)
    data = bytearray(block)
    field = {
        "tag": (at, 2, chance.choice([0x07, 0x1B, 0x45, 0xB7, 0, 1, 65535])),
        "type": (at + 2, 2, chance.choice([0, 1, 2, 3, 4, 7, 13, 14, 65535])),
        "count": (at + 4, 4, chance.choice([0, 1, 4, 5, 6, 7, 8, 29, 30, 31, 300, 1 << 30, 1 << 31, MAX_U32])),
        "field": (at + 8, 4, chance.choice([0, 1, 8, len(block) - 30, len(block) - 1, len(block), 1 << 31, MAX_U32])),
    }[chance.choice(["tag", "type", "count", "field"])]
    data[field[0] : field[0] + field[1]] = max(0, field[2]).to_bytes(field[1], order)
    if chance.random() < 0.2:
        other = start + 2 + 12 * chance.randrange(count)
        data[other : other + 12] = data[at : at + 12]
    return bytes(data)


def reordered(chance, block, order):
    """The directory's entries in any order."""
    first = reference.number_at(block, 4, 4, order) + 2
    end = first + 12 * reference.number_at(block, first - 2, 2, order)
    entries = [block[at : at + 12] for at in range(first, end, 12)]
    chance.shuffle(entries)
    return block[:first] + b"".join(entries) + block[end:]


def spoiled(chance, block, order):
    """A block that most often cannot be read."""
    way = chance.randrange(6)
    if way == 0:
        at = chance.randrange(4)
        return block[:at] + bytes([block[at] ^ 1 << chance.randrange(8)]) + block[at + 1 :]
    if way == 1:
        return block[: chance.randrange(9)]
    if way == 2:
        return block[: chance.randrange(len(block))]
    if way == 3:
        past = chance.choice([len(block) - 2, len(block) - 1, len(block), MAX_U32 - 1, MAX_U32])
        return block[:4] + past.to_bytes(4, order) + block[8:]
    start = reference.number_at(block, 4, 4, order)
    count = reference.number_at(block, start, 2, order)
    if way == 4:
        return block[: start + 2 + 12 * count - chance.choice([0, 1, 2, 12])]
    return block[:start] + chance.choice([0, count + 1, 65535]).to_bytes(2, order) + block[start + 2 :]


def changed(chance, given):
    """A load with something of it changed."""
    raw, picture, model, block = given
    order = reference.readable(block)
    way = chance.choice(["raw", "picture", "model", "names", "names", "position", "entry", "entry", "order", "spoiled", "byte"])
    if way == "raw":
        raw = chance.choice(SIZES)
    elif way == "picture":
        picture = chance.choice(SIZES)
    elif way == "model":
        model = chance.choice(MODELS)
    elif order is not None:
        if way == "byte":
            at = chance.randrange(len(block))
            block = block[:at] + bytes([chance.randrange(256)]) + block[at + 1 :]
        else:
            block = {"names": other_names, "position": other_position, "entry": other_entry, "order": reordered,
                     "spoiled": spoiled}[way](chance, block, order)
    return raw, picture, model, block


def a_load(chance, path, wanted):
    """A load's arguments with a wanted answer: accepted, or `no` and a number."""
    found = pools(path)
    accepted = [name for name in ("origin 1", "origin 1", "origin 2", "many", "extreme") if name in found]
    while True:
        of_its_own = wanted in found and chance.random() < 0.6
        given = chance.choice(found[wanted if of_its_own else chance.choice(accepted)])
        for _ in range(chance.choice([0, 0, 1, 1, 2])):
            given = changed(chance, given)
        answer = stored.answer(given)
        if wanted == ("no %d" % answer[1] if reference.refused(answer) else "accepted"):
            return given


def load_line(chance, given, most=reference.MAX_LINE):
    """The line of a load, now and then filled up to the longest."""
    raw, picture, model, block = given
    if chance.random() < 0.01:
        room = most // 2 - 20 - len(model)
        block = block + chance.randbytes(max(0, room - len(block)))
    return script.load(block, raw, picture, model)


# -------------------------------------------------------- the other calls


def a_cut(chance, book):
    if book.held is None or chance.random() < 0.2:
        return stored.a_cut(chance, book)
    width, height = book.frame()
    listed = book.listed()
    primary = next(point for i, point in listed if i == book.held.primary)
    _, other = chance.choice(listed)
    way = chance.choice(["whole", "past", "zero", "tight", "tight", "both", "both", "both", "other", "wrap"])
    if way == "whole":
        return [0, 0, width, height]
    if way == "past":
        cut = [chance.randrange(width + 1), chance.randrange(height + 1)]
        cut += [width - cut[0], height - cut[1]]
        cut[chance.randrange(4)] += 1
        return cut
    if way == "zero":
        return chance.choice([[0, 0, 0, height], [0, 0, width, 0], [width, 0, 0, height], [0, height, width, 0]])
    if way == "wrap":
        cut = [0, 0, width, height]
        cut[chance.randrange(4)] = chance.choice([MAX_U32, MAX_U32 - width, MAX_U32 - height + 1, 1 << 31])
        return cut
    kept = {"tight": [primary], "both": [primary, other], "other": [other]}[way]
    return around(chance, kept, (width, height))


def around(chance, points, frame):
    """The smallest cut that these points fit, or almost: a pixel less or more,
    or some, on each side that there is."""
    edges = []
    for axis in (0, 1):
        halves = [(point[3 + axis] + 1) // 2 for point in points]
        low = min(point[1 + axis] - half for point, half in zip(points, halves))
        high = max(point[1 + axis] + half for point, half in zip(points, halves))
        low -= chance.choice([0, 0, 0, -1, 1, 2, chance.randrange(300), chance.randrange(3000)])
        high += chance.choice([0, 0, 0, -1, 1, 2, chance.randrange(300), chance.randrange(3000)])
        low, high = max(0, low), min(frame[axis], high)
        edges.append((low, max(0, high - low)))
    return [edges[0][0], edges[1][0], edges[0][1], edges[1][1]]


def some_entries(chance, count):
    """Entries of the four tags and others: intact, damaged, passed over."""
    for _ in range(count):
        tag = chance.choice(reference.FOUR_TAGS if chance.random() < 0.7 else OTHER_TAGS)
        kind = chance.randrange(1, 14)
        values = chance.choice([0, 1, 1, 2, 4])
        value = chance.randbytes(values * reference.SIZE_OF_TYPE[kind])
        yield chance.choices([(tag, kind, values, value), (tag, kind, chance.choice([5, 30, MAX_U32]), b"", MAX_U32),
                              (tag, chance.choice(PASSED_OVER), values, value)], [5, 2, 3])[0]


def a_directory(chance):
    """A block of such entries; now and then behind another directory, or with
    its last value, if not the directory, cut off."""
    order = chance.choice(["big", "little"])
    entries = list(some_entries(chance, chance.choice([1, 2, 3, 4, 5, 6, 8, 12, 40])))
    if chance.random() < 0.1:
        return readers.elsewhere(entries, list(some_entries(chance, 3)), order)
    block = readers.block_of(entries, order)
    return block if chance.random() < 0.9 else block[:-1]


def a_contents(chance, path):
    if chance.random() < 0.6:
        return a_directory(chance)
    found = pools(path)
    block = chance.choice(found[chance.choice(list(found))])[3] if chance.random() < 0.7 else chance.choice(EDGES)
    order = reference.readable(block)
    if order is not None and chance.random() < 0.7:
        block = chance.choice([other_entry, other_entry, reordered, reordered, spoiled])(chance, block, order)
    return block if chance.random() < 0.98 else block.ljust(2046, b"\0")


# ---------------------------------------------------------- malformed lines


def check(data):
    """These bytes and a right check, in hexadecimal."""
    return reference.call_line(data)


def wrong_length(chance, given):
    code = chance.choice([1, 2, 5, 6, 7, 9, 9])
    if code == 1:
        body = script.load_body(*given)
        return script.line(1, body[: chance.choice([0, 1, 16, 17, chance.randrange(18), 17 + len(given[2])])
                                   if given[2] else chance.randrange(18)])
    right = {2: 16, 7: 8, 9: 1}.get(code, 0)
    lengths = [right - 1, right + 1, right + 4, right - 4, 0, 2 * right, chance.randrange(1, 40)]
    return script.line(code, chance.randbytes(chance.choice([n for n in lengths if n >= 0 and n != right])))


def wrong_flags(chance, given):
    """Flags that are right for the sizes, and others above them."""
    body = script.load_body(*given)
    return script.line(1, bytes([body[0] + chance.choice([4, 4, 8, 128, 252, 4 * chance.randrange(1, 64)])]), body[1:])


def missing_with_a_side(chance, given):
    """One of the sizes, or both, missing although a side is given."""
    sides = [chance.choice([0, 1, 256, 65536, 1 << 24, 6016, MAX_U32]) for _ in range(4)]
    flags = chance.choice([0, 1, 2])
    at = chance.choice([i for i in range(4) if not flags >> i // 2 & 1])
    sides[at] = chance.choice([1, 256, 65536, 1 << 24, 6016, MAX_U32])
    return script.line(1, struct.pack(">B4I", flags, *sides), script.load_body(*given)[17:])


def longest(chance, good):
    """A load or contents line of 4,096 characters."""
    body = bytes.fromhex(good.decode())[:-1]
    if body[0] not in (1, 8):
        body = b"\x08"
    return script.line(body[0], body[1:] + chance.randbytes(max(0, 2046 - len(body[1:]))))


def overlong(chance, good):
    full = longest(chance, good)
    way = chance.randrange(7)
    if way == 0:
        return full + b"0"
    if way == 1:
        return full + chance.choice([b"00", script.orient(6), b"\r", b" ", full])
    if way < 4:
        return check(bytes.fromhex(full.decode())[:-1] + chance.randbytes(chance.choice([1, 1, 1, 2, 500])))
    if way == 4:
        return good + b" " * (4097 - len(good))
    length = chance.choice([4097, 4097, 4098, 4099, 4100, 5000, 8191, 8192, 8193, 12288])
    if chance.random() < 0.02:
        length = chance.choice([65535, 65536, 65537, 200000])
    return (chance.choice([b"0", b"F", b"06FA", b"x", b"\0", script.orient(6)]) * length)[:length]


def malformed(chance, good, given):
    """A malformed line of any kind, made from a good line or a load."""
    way = chance.choices(
        ["empty", "odd", "character", "return", "check", "code", "length", "flags", "missing", "one", "overlong", "longest"],
        [8, 10, 14, 6, 12, 8, 14, 10, 10, 5, 7, 4])[0]
    if way == "empty":
        return b""
    if way == "odd":
        at = chance.randrange(len(good))
        return chance.choice([good[:-1], good[1:], good + b"0", good[:at] + good[at + 1 :], good[: chance.randrange(len(good) // 2) * 2 + 1]])
    if way == "character":
        at = chance.choice([0, 1, len(good) - 1, len(good) - 2, chance.randrange(len(good))])
        other = chance.choice(b"/:@G`g \t\0\x0b\x0c\x7f\x80\xff+-.,_xXoO")
        return chance.choice([good[:at] + bytes([other]) + good[at + 1 :], good[:at] + bytes([other]) + good[at:],
                              b"0x" + good, b"  " + good, good + b"  "])
    if way == "return":
        return chance.choice([good + b"\r", good[:-1] + b"\r", b"\r", good + b"\r\r"])
    if way == "check":
        data = bytearray.fromhex(good.decode())
        at = chance.choice([-1, -1, 0, chance.randrange(len(data))])
        data[at] = (data[at] + chance.choice([1, 255, 128, 1 << chance.randrange(8), chance.randrange(1, 256)])) % 256
        return data.hex().encode()
    if way == "code":
        return script.line(chance.choice([0, 3, 3, 4, 4, 10, 11, 0x30, 0x83, 0x89, 255, chance.randrange(10, 256)]),
                           chance.randbytes(chance.choice([0, 0, 1, 8, 16, 40])))
    if way == "one":
        return b"%02x" % chance.choice([0, 0, 6, 9, 255])
    if way == "length":
        return wrong_length(chance, given)
    if way == "flags":
        return wrong_flags(chance, given)
    if way == "missing":
        return missing_with_a_side(chance, given)
    if way == "overlong":
        return overlong(chance, good)
    full = longest(chance, good)
    return chance.choice([full[:-1], full[:-1] + b"g", b"g" + full[1:], full[:-2] + b"%02x" % ((int(full[-2:], 16) + 1) % 256),
                          check(b"\x0a" + bytes(2046)), check(b"\x09" + bytes(2046)), b"0" * 4096, full[:-1] + b"\r"])


# --------------------------------------------------------------- the script


def in_case(chance, line):
    way = chance.randrange(4)
    if way < 2:
        return line.lower() if way else line.upper()
    if way == 2 or len(line) > 600:
        half = chance.randrange(len(line) + 1)
        return line[:half].lower() + line[half:].upper()
    return bytes(c | 0x20 if c >= 0x41 and chance.random() < 0.5 else c for c in line.upper())


class Script:
    """Lines one after the other, with a book to know the sheet."""

    def __init__(self, seed, path=None):
        self.chance = random.Random(seed)
        self.path = path
        self.book = reference.Book()
        self.lines = []

    def add(self, line, well_formed=True):
        if well_formed:
            line = in_case(self.chance, line)
        self.lines.append(line)
        reference.answer_text(self.book, line)

    def call(self, kind):
        chance, book = self.chance, self.book
        if kind == "accepted":
            self.add(load_line(chance, a_load(chance, self.path, "accepted")))
        elif kind == "refused":
            self.add(load_line(chance, a_load(chance, self.path, "no %d" % chance.randrange(1, 7))))
        elif kind == "cut":
            self.add(script.cut(*(min(n, MAX_U32) for n in a_cut(chance, book))))
        elif kind == "orient":
            self.add(script.orient(stored.an_orientation(chance)))
        elif kind == "fit":
            self.add(script.fit(*stored.a_box(chance, book)))
        elif kind == "contents":
            self.add(script.contents(a_contents(chance, self.path)))
        elif kind == "malformed":
            given = a_load(chance, self.path, "accepted")
            good = chance.choice([script.orient(chance.randrange(1, 9)), script.BACK, script.LIST, script.cut(0, 0, 400, 400),
                                  script.fit(3, 2), script.load(given[3], *given[:3]), script.contents(given[3])])
            self.add(malformed(chance, good, given), well_formed=False)
        else:
            self.add({"back": script.BACK, "list": script.LIST}[kind])

    def calls(self, count, weights):
        kinds = list(weights)
        for kind in self.chance.choices(kinds, [weights[kind] for kind in kinds], k=count):
            self.call(kind)

    def empty(self, count):
        """On an empty sheet: 7, and loads that are refused."""
        self.calls(count, {"refused": 3, "cut": 1, "orient": 2, "back": 1, "list": 1, "fit": 1,
                           "contents": 2, "malformed": 3})

    def episode(self):
        """An accepted load and calls on it."""
        chance = self.chance
        self.call("accepted")
        usual = {"refused": 14, "cut": 24, "orient": 14, "back": 13, "list": 16, "fit": 12,
                 "contents": 10, "malformed": 14}
        way = chance.randrange(16)
        if way < 13:
            self.calls(chance.choice([2, 5, 10, 20]), usual)
        elif way < 15:  # mostly backs: 11
            self.calls(chance.choice([3, 8]), usual)
            self.calls(chance.choice([5, 20]), {**usual, "back": 80})
        else:  # up to 64 edits and past them, then some way back
            edits = {"cut": chance.choice([0, 5, 20]), "orient": 15, "list": 3, "fit": 1, "malformed": 1}
            most = chance.choice([30, 62, 64, 64, 64])
            while len(self.book.row) < most:
                self.calls(1, edits)
            self.calls(chance.choice([3, 10]), {**usual, "orient": 40, "back": 2})
            self.calls(chance.choice([0, 5, 70]), {**usual, "back": chance.choice([10, 200])})


def make(seed, count, path=None):
    """The lines of a script, and whether it ends with a feed."""
    made = Script(seed, path)
    made.empty(min(count, count // 50 + made.chance.randrange(count // 50 + 6)))
    while len(made.lines) < count:
        made.episode()
    return made.lines[:count], made.chance.random() < 0.5


def tally(printed):
    """How often each answer is printed: 'no N', ok, tags, frame."""
    found = collections.Counter()
    for text in printed.splitlines():
        word = text.split(" ")[0]
        if word in ("no", "ok", "tags", "frame"):
            found[text if word == "no" else word] += 1
    return found


def tally_text(found):
    def place(name):
        return (name.startswith("no"), int(name[3:]) if name.startswith("no") else 0, name)
    return ", ".join("%s: %d" % (name, found[name]) for name in sorted(found, key=place))


def loads_option(arguments):
    """Takes --loads FILE out of the arguments; the file, or None."""
    if "--loads" not in arguments[:-1]:
        return None
    at = arguments.index("--loads")
    path = arguments[at + 1]
    del arguments[at : at + 2]
    return path


def main(arguments):
    path = loads_option(arguments)
    only_tally = arguments[:1] == ["--tally"]
    numbers = arguments[1:] if only_tally else arguments
    if len(numbers) != 2 or not numbers[1].isdigit():
        print(__doc__.strip(), file=sys.stderr)
        return 2
    lines, last_feed = make(numbers[0], int(numbers[1]), path)
    data = script.text(lines, last_feed)
    if only_tally:
        print("%d lines, %d bytes: %s" % (len(lines), len(data), tally_text(tally(reference.run_script(data)))))
    else:
        sys.stdout.buffer.write(data)
    return 0


if __name__ == "__main__":
    sys.exit(main(sys.argv[1:]))
