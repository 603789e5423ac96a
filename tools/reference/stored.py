"""What is stored: the loads of the program placing_test, as material for other
calls, with cuts, orientations and boxes by chance; and files that are written or
compared."""

import math
import os
import struct
import sys

import reference

ROOT = os.path.join(os.path.dirname(os.path.abspath(__file__)), "..", "..")
CRATES = os.path.join(ROOT, "crates")
RECORD = 512
MAX_U32 = reference.MAX_U32
HUGE = [0, 1, MAX_U32]
SIDES = [1, 2, 3, 37, 100, 400, 424, 640, 1000, 4016, 6016, 65535, 65536, MAX_U32 - 1, MAX_U32]


def records(data):
    """The records of 512 bytes that the test programs read; what is left behind them is none."""
    return [data[end - RECORD : end] for end in range(RECORD, len(data) + 1, RECORD)]


def load_of(record):
    """The load that a record of placing_test spells, as (raw, picture, model, block)."""
    flags, *sides, model_length, block_length = struct.unpack(">B4IBH", record[:20])
    model = record[20 : 20 + model_length]
    block = record[20 + model_length : 20 + model_length + block_length]
    return (tuple(sides[:2]) if flags & 1 else None, tuple(sides[2:]) if flags & 2 else None, model, block)


def loads():
    """The loads of placing_test."""
    with open(os.path.join(CRATES, "placing_test", "stdin"), "rb") as file:
        yield from map(load_of, records(file.read()))


def answer(given):
    """What the reference says of such a load."""
    raw, picture, model, block = given
    return reference.load(block, raw, picture, model)


def a_cut(chance, book):
    """Mostly a cut inside the present frame, around some listed point."""
    if book.held is None or chance.random() < 0.1:
        return [chance.choice(HUGE + [chance.randrange(7000)]) for _ in range(4)]
    width, height = book.frame()
    _, point = chance.choice(book.listed())
    sides = []
    for centre, side in ((point[1], width), (point[2], height)):
        before = chance.randrange(centre + 1) if chance.random() < 0.7 else max(0, centre - chance.randrange(200))
        length = chance.randrange(side - before + 2) if chance.random() < 0.3 else side - before
        sides.append((before, length))
    return [sides[0][0], sides[1][0], sides[0][1], sides[1][1]]


def an_orientation(chance):
    """Mostly one of the eight numbers."""
    return chance.randrange(1, 9) if chance.random() < 0.9 else chance.choice([0, 9, 255, chance.randrange(9, 256)])


def a_box(chance, book):
    """A box for fitting: of the present frame's shape or nearly, where that just ends, or of another; or with blank sides."""
    any_box = [chance.choice(SIDES + [chance.randrange(1, 9000)]) for _ in range(2)]
    if book.held is None:
        return chance.choice([any_box, [0, any_box[1]], [any_box[0], 0], [0, 0]])
    frame, held = book.frame(), book.held.frame
    longest = max(frame)
    way = chance.choices(["none", "blank", "times", "scaled", "edge", "exchanged", "any"], [3, 60, 18, 30, 26, 8, 10])[0]
    if way == "none":
        return [0, 0]
    if way == "blank":
        return box_with_a_blank(chance, frame)
    if way == "edge":
        return box_at_the_edge(chance, frame)
    if way == "exchanged":
        return chance.choice([frame[::-1], held, held[::-1]])
    if way == "any":
        return any_box
    if way == "times":
        most = MAX_U32 // longest
        times = min(most, chance.choice([1, 1, 2, 3, 10, most, chance.randrange(1, most + 1)]))
        box = [side * times for side in frame]
    else:
        small = chance.randrange(3, 40)
        to = chance.choice([1, 2, small, small, chance.choice(SIDES), chance.randrange(1, longest + 1)])
        box = [max(1, reference.scale(side, longest, to)) for side in frame]
    if chance.random() < 0.5:
        box[chance.randrange(2)] += chance.choice([-1, 1])
    return [min(side, MAX_U32) for side in box]


def box_with_a_blank(chance, frame):
    """A box with a blank side: a column or a row of a page, of any side, or where the worked side is just 0 or just not, is just
    over the largest number or just not, or the worked box is just refused or just not; or between these last two."""
    is_thin = max(frame) > 2 * min(frame)  # a worked side can be 0
    way = chance.choices(["page", "any", "nothing", "capped", "refused", "between"], [10, 4, 14 * is_thin, 4, 8, 3])[0]
    axis = chance.randrange(2)  # that of the given side
    if way == "nothing":
        axis = frame.index(max(frame))
    elif way in ("capped", "refused", "between"):
        axis = frame.index(min(frame))
    given, other = frame[axis], frame[1 - axis]
    first_capped = (given * MAX_U32 + (given + 1) // 2 - 1) // other + 1
    first_refused = (given + 1) * MAX_U32 // other + 1
    side = {
        "page": chance.randrange(1, 5001),
        "any": chance.choice(SIDES + list(frame) + [chance.randrange(1, MAX_U32 + 1)]),
        "nothing": (given - 1) // (2 * other) + 1 + chance.choice([-2, -1, -1, 0, 0, 1]),
        "capped": first_capped + chance.choice([-2, -1, 0, 1]),
        "refused": first_refused + chance.choice([-2, -1, 0, 1]),
        "between": chance.randrange(first_capped, max(first_capped, first_refused) + 1),
    }[way]
    side = min(max(side, 1), MAX_U32)
    return [side, 0] if axis == 0 else [0, side]


def box_at_the_edge(chance, frame):
    """A box whose shape differs from the frame's by the longest side, or by the next less or more that there is; the frame if
    none is found."""
    long, short = max(frame), min(frame)
    for _ in range(9):
        # For the box's sides x and y, |long * y - short * x| is to be the longest side: long * y = factor * x + rest.
        sign, off = chance.choice([-1, 1]), chance.choice([-1, 0, 1])
        if chance.random() < 0.5:  # that is the frame's
            factor, rest, low, high = short, sign * long, 1, long
        else:  # that is x
            factor, rest, low, high = short + sign, 0, long, MAX_U32
        shared = math.gcd(factor, long)
        rest += sign * off * shared
        step = long // shared
        one = -rest // shared * pow(factor // shared, -1, step)
        every = range(low + (one - low) % step, high + 1, step)
        if every:
            x = chance.choice([every[0], chance.choice(every)])
            y = (factor * x + rest) // long
            if 0 < y <= MAX_U32:
                return (x, y) if frame[0] == long else (y, x)
    return frame


def read(path):
    """A file below the repository's root; None if it is not there."""
    full = os.path.join(ROOT, path)
    if not os.path.exists(full):
        return None
    with open(full, "rb") as file:
        return file.read()


def write(path, data):
    """Makes a file hold these bytes."""
    full = os.path.join(ROOT, path)
    os.makedirs(os.path.dirname(full), exist_ok=True)
    with open(full, "wb") as file:
        file.write(data)
    return True


def is_stored(path, data):
    """Whether a file holds these bytes; says from where on it does not."""
    found = read(path)
    if found is None:
        print("%s: not there" % path)
    elif found != data:
        same = os.path.commonprefix([found, data])
        print("%s: from byte %d, in line %d, on not what would be written" % (path, len(same), same.count(b"\n") + 1))
    return found == data


def run(doc, files, *numbers):
    """A tool's command line, [--check] [NUMBER ..]: writes the (path, bytes)
    that `files` gives for the numbers, when all are made; with --check,
    compares. Without numbers they are those of the stored files. Gives the
    exit status."""
    arguments = sys.argv[1:]
    check = arguments[:1] == ["--check"]
    given = arguments[check:]
    if len(given) not in (0, len(numbers)) or not all(number.isdecimal() for number in given):
        print(doc.strip(), file=sys.stderr)
        return 2
    keep = is_stored if check else write
    status = 0
    for path, data in list(files(*(map(int, given) if given else numbers))):
        if keep(path, data):
            print("%s: %d bytes" % (path, len(data)))
        else:
            status = 1
    return status
