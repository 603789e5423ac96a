#!/usr/bin/env python3
"""The written rules of the picture sheet, read once more in plain Python.

This file was written from the text of the specification and of the changes
requested later alone, so that it can disagree with the Rust library and with
the proved program. It favours being read over being fast. Only the table of 39
points is copied from the source.

  reference.py < SCRIPT          print what `focusdesk` prints for a script
  reference.py --loads < LOADS   print one answer a load line (RAW PICTURE
                                 MODELHEX BLOCKHEX), as tools/oracle does,
                                 but with `no N` for a refusal
  reference.py --self-test       the specification's own examples, and others
                                 worked out by hand

Sizes are pairs (width, height); a missing size is None. A point is the six
numbers that `list` writes: number, x, y, width, height, in-focus.
"""

import sys
from collections import namedtuple

Point = namedtuple("Point", "number x y width height in_focus")
Placed = namedtuple("Placed", "frame points primary mode origin")
Crop = namedtuple("Crop", "mode original cropped left top")
Record = namedtuple("Record", "frame centre area in_focus mode names")
Names = namedtuple("Names", "layout primary mask")
Listing = namedtuple("Listing", "frame count primary mode origin")

MAX_BLOCK = 1_048_576
MAX_U32 = 4_294_967_295
MAX_EDITS = 64
MAX_LINE = 4_096
MAX_NAME = 16
MAX_NAMES = 8


def no(number):
    """A refusal."""
    return ("no", number)


def refused(answer):
    return isinstance(answer, tuple) and len(answer) == 2 and answer[0] == "no"


# ---------------------------------------------------------------- the block

SIZE_OF_TYPE = dict(enumerate((1, 1, 2, 4, 8, 1, 1, 2, 4, 8, 4, 8, 4), start=1))

FOCUS_MODE, CROP_HI_SPEED, CROP_AREA, RECORD = 0x0007, 0x001B, 0x0045, 0x00B7
FOUR_TAGS = (FOCUS_MODE, CROP_HI_SPEED, CROP_AREA, RECORD)


def number_at(data, place, length, order):
    return int.from_bytes(data[place : place + length], order)


def readable(block):
    """The byte order of a block whose header and directory can be read."""
    if not 8 <= len(block) <= MAX_BLOCK:
        return None
    if block[:4] == b"II*\0":
        order = "little"
    elif block[:4] == b"MM\0*":
        order = "big"
    else:
        return None
    start = number_at(block, 4, 4, order)
    if start + 2 > len(block):
        return None
    if start + 2 + 12 * number_at(block, start, 2, order) > len(block):
        return None
    return order


def kept_entries(block, order):
    """Each kept entry: tag, type, count, and where its field stands."""
    start = number_at(block, 4, 4, order)
    for i in range(number_at(block, start, 2, order)):
        entry = start + 2 + 12 * i
        kind = number_at(block, entry + 2, 2, order)
        if kind in SIZE_OF_TYPE:
            tag = number_at(block, entry, 2, order)
            yield tag, kind, number_at(block, entry + 4, 4, order), entry + 8


def first_kept_entry(block, order, tag):
    for entry in kept_entries(block, order):
        if entry[0] == tag:
            return entry
    return None


def value_of(block, order, entry):
    """The entry's bytes, or None for a damaged value."""
    _, kind, count, field = entry
    length = count * SIZE_OF_TYPE[kind]
    start = field if length <= 4 else number_at(block, field, 4, order)
    if start + length > len(block):
        return None
    return block[start : start + length]


def numbers_in(value, order, size):
    return [number_at(value, i, size, order) for i in range(0, len(value), size)]


# ---------------------------------------------------------- the four values


def is_manual(block, order):
    entry = first_kept_entry(block, order, FOCUS_MODE)
    if entry is None or entry[1] != 2:
        return False
    value = value_of(block, order, entry)
    if value is None:
        return False
    text = value.split(b"\0", 1)[0]
    return len(text) <= 255 and text.strip(b" ") == b"MANUAL"


def crop_of(block, order):
    """The seven numbers of CropHiSpeed, or None for no crop."""
    entry = first_kept_entry(block, order, CROP_HI_SPEED)
    if entry is None or entry[1] != 3 or entry[2] != 7:
        return None
    value = value_of(block, order, entry)
    if value is None:
        return None
    mode, ow, oh, cw, ch, left, top = numbers_in(value, order, 2)
    return Crop(mode, (ow, oh), (cw, ch), left, top)


def window_of(block, order, raw):
    """CropArea: 'absent', 'unusable', or the window's size."""
    entry = first_kept_entry(block, order, CROP_AREA)
    if entry is None:
        return "absent"
    if entry[1] not in (3, 4) or entry[2] != 4 or raw is None:
        return "unusable"
    value = value_of(block, order, entry)
    if value is None:
        return "unusable"
    left, top, width, height = numbers_in(value, order, SIZE_OF_TYPE[entry[1]])
    if width == 0 or height == 0:
        return "unusable"
    if left + width > raw[0] or top + height > raw[1]:
        return "unusable"
    return (width, height)


# --------------------------------------------------------------- the record

# Version: minimum length, places of frame, centre, area and in-focus byte.
LAYOUTS = {
    b"0100": (30, 16, 20, 24, 28),
    b"0101": (84, 70, 74, 78, 82),
    b"0300": (60, 42, 46, 50, None),
    b"0301": (60, 42, 46, 50, None),
    b"0400": (80, 62, 66, 70, 74),
    b"0401": (80, 62, 66, 70, 74),
    b"0402": (80, 62, 66, 70, 74),
}


def area_mode(a, b):
    if (a, b) == (0, 0) or b == 193:
        return 1  # single
    if (a, b) == (0, 5):
        return 2  # dynamic
    if (a, b) == (0, 8) or b == 197:
        return 3  # auto
    if (a, b) in ((0, 9), (1, 207), (2, 207)):
        return 4  # tracking
    return 0


def record_of(value, order):
    """The record's parts, or None for an unknown version or a short value."""
    layout = LAYOUTS.get(bytes(value[:4]))
    if layout is None or len(value) < layout[0]:
        return None
    _, frame, centre, area, in_focus = layout

    def pair(place):
        part = value[place:]
        return (number_at(part, 0, 2, order), number_at(part, 2, 2, order))

    byte = None if in_focus is None else value[in_focus]
    names = None
    if value[:4] == b"0100":
        marked = {8 * i + bit + 1 for i in range(7) for bit in range(8)
                  if value[8 + i] >> bit & 1}
        names = Names(value[6], value[7], marked)
    return Record(pair(frame), pair(centre), pair(area), {0: 1, 1: 2}.get(byte, 0),
                  area_mode(value[4], value[5]), names)


# ------------------------------------------------------------ fit and scale


def lies_on(x, y, frame):
    return 0 not in frame and 0 <= x <= frame[0] and 0 <= y <= frame[1]


def axis_fits(side, centre, frame_side):
    half = (side + 1) // 2
    return half <= centre and centre + half <= frame_side


def area_fits(width, height, x, y, frame):
    return (width > 0 and height > 0
            and axis_fits(width, x, frame[0]) and axis_fits(height, y, frame[1]))


def has_area(point):
    return (point.width, point.height) != (0, 0)


def fits(point, frame):
    return lies_on(point.x, point.y, frame) and (
        not has_area(point) or area_fits(point.width, point.height, point.x, point.y, frame))


def scale(v, old, new):
    return min((v * new + old // 2) // old, MAX_U32)


def scale_axis(centre, side, old, new):
    """A scaled centre and side; the side is 0 where nothing is left of it."""
    centre = scale(centre, old, new)
    side = max(scale(side, old, new), 1)
    return centre, min(side, 2 * min(centre, new - centre))


def scale_point(point, old, new):
    x, width = scale_axis(point.x, point.width, old[0], new[0])
    y, height = scale_axis(point.y, point.height, old[1], new[1])
    if not has_area(point) or width == 0 or height == 0:
        width = height = 0
    return point._replace(x=x, y=y, width=width, height=height)


def worked_box(frame, box):
    """'A box with one zero side is now answered: the missing side is scale(that
    frame side, the given frame side, the given side).' Any other box is as given."""
    width, height = box
    if width == 0 and height != 0:
        return (scale(frame[0], frame[1], height), height)
    if height == 0 and width != 0:
        return (width, scale(frame[1], frame[0], width))
    return (width, height)


def shape_difference(frame, box):
    """'|frame width × box height − frame height × box width|'."""
    return abs(frame[0] * box[1] - frame[1] * box[0])


def same_shape(frame, box):
    """'A box is now accepted only if' that difference 'is at most the longest of
    the four sides'."""
    return shape_difference(frame, box) <= max(*frame, *box)


# -------------------------------------------------------- recorded position


def place_recorded(record, crop, window, picture):
    """Frame and point, or None where the position cannot be placed."""
    frame = record.frame
    point = Point(0, *record.centre, *record.area, record.in_focus)
    if not fits(point, frame):
        return None
    if crop is None or crop.cropped == crop.original:
        return frame, point
    if window == "unusable":
        return None
    if window == "absent" and picture is None:
        return frame, point
    target = picture if window == "absent" else window
    less = [c < o for c, o in zip(crop.cropped, crop.original)]
    same = [c == o for c, o in zip(crop.cropped, crop.original)]

    if all(less):
        if 0 in target:
            return None
        return target, scale_point(point, frame, target)

    for cut, uncut in ((0, 1), (1, 0)):
        if less[cut] and same[uncut]:
            shape = list(target)
            if window == "absent":
                if 0 in picture:
                    return None
                shape[uncut] = frame[uncut]
                shape[cut] = scale(frame[uncut], picture[uncut], picture[cut])
            if shape[uncut] != frame[uncut] or shape[cut] > frame[cut]:
                return None
            moved = point._replace(x=point.x - (frame[0] - shape[0]) // 2,
                                   y=point.y - (frame[1] - shape[1]) // 2)
            return (tuple(shape), moved) if fits(moved, shape) else None
    return None


# ------------------------------------------------------------- named points

MODEL, WHOLE_FRAME, LAYOUT_CODE, BOX = b"NIKON D600", (6016, 4016), 3, 164
DX_MODE, DX_ORIGIN, DX_FRAME = 2, (1040, 696), (3936, 2624)
MEDIUM_PICTURE, MEDIUM_ORIGIN, MEDIUM_FRAME = (4512, 3008), (3, 5), (6010, 4006)

# The 39 centres; point number n is the nth.
CENTRES = (
    (3008, 2007), (3008, 1755), (3008, 1503), (3008, 2258), (3008, 2510),
    (3247, 2007), (3247, 1755), (3247, 1503), (3247, 2258), (3247, 2510),
    (2768, 2007), (2768, 1755), (2768, 1503), (2768, 2258), (2768, 2510),
    (3486, 2007), (3486, 1705), (3486, 2308), (3724, 2007), (3724, 1705),
    (3724, 2308), (3963, 2007), (3963, 1705), (3963, 2308), (4203, 2007),
    (4203, 1705), (4203, 2308), (2529, 2007), (2529, 1705), (2529, 2308),
    (2289, 2007), (2289, 1705), (2289, 2308), (2050, 2007), (2050, 1705),
    (2050, 2308), (1812, 2007), (1812, 1705), (1812, 2308),
)


def place_named(names, crop, picture, model):
    """Frame, points and the primary's index, or None."""
    if names is None or model != MODEL or names.layout != LAYOUT_CODE:
        return None
    if crop is not None and crop.cropped != crop.original:
        if crop.mode != DX_MODE or (crop.left, crop.top) != DX_ORIGIN:
            return None
        if picture not in (None, DX_FRAME):
            return None
        frame, origin = DX_FRAME, DX_ORIGIN
    elif picture == MEDIUM_PICTURE:
        frame, origin = MEDIUM_FRAME, MEDIUM_ORIGIN
    else:
        frame, origin = WHOLE_FRAME, (0, 0)
    points = []
    for number, (x, y) in enumerate(CENTRES, start=1):
        point = Point(number, x - origin[0], y - origin[1], BOX, BOX, 0)
        if (number in names.mask or number == names.primary) and fits(point, frame):
            points.append(point)
    listed = [point.number for point in points]
    if names.primary not in listed:
        return None
    return frame, tuple(points), listed.index(names.primary)


# ----------------------------------------------------------------- one load


def load(block, raw, picture, model):
    """What one load gives: a refusal 1 to 6, or what is placed."""
    order = readable(block)
    if order is None:
        return no(1)
    entry = first_kept_entry(block, order, RECORD)
    if entry is None or entry[1] != 7:
        return no(2)
    if is_manual(block, order):
        return no(3)
    value = value_of(block, order, entry)
    record = None if value is None else record_of(value, order)
    if record is None:
        return no(4)
    crop = crop_of(block, order)
    if 0 not in record.frame and 0 not in record.area:
        placed = place_recorded(record, crop, window_of(block, order, raw), picture)
        if placed is None:
            return no(5)
        return Placed(placed[0], (placed[1],), 0, record.mode, 1)
    placed = place_named(record.names, crop, picture, model)
    if placed is None:
        return no(6)
    return Placed(*placed, record.mode, 2)


def contents(block):
    """Those of the four tags that have a kept entry, in the order of their
    first kept entries in the directory; or refusal 1."""
    order = readable(block)
    if order is None:
        return no(1)
    met = []
    for tag, _, _, _ in kept_entries(block, order):
        if tag in FOUR_TAGS and tag not in met:
            met.append(tag)
    return met


# ----------------------------------------------------------------- the book


MIRROR, TURN = ("mirror",), ("turn",)

# The steps of each orientation, one after the other.
ORIENTATIONS = {
    1: [],
    2: [MIRROR],
    3: [TURN, TURN],
    4: [MIRROR, TURN, TURN],
    5: [MIRROR, TURN, TURN, TURN],
    6: [TURN],
    7: [MIRROR, TURN],
    8: [TURN, TURN, TURN],
}


def steps(row):
    """The steps of a row of edits, in order: an orientation has its own, a cut is one."""
    for edit in row:
        yield from ORIENTATIONS[edit[1]] if edit[0] == "orientation" else [edit]


def frame_after(frame, step):
    if step[0] == "cut":
        return (step[3], step[4])
    return (frame[1], frame[0]) if step == TURN else frame


def frame_through(frame, row):
    for step in steps(row):
        frame = frame_after(frame, step)
    return frame


def carry(point, frame, row):
    """One point, alone, through a row of edits; None once it is unlisted."""
    for step in steps(row):
        point = move(point, frame, step)
        if point is None:
            return None
        frame = frame_after(frame, step)
    return point


def move(point, frame, step):
    number, x, y, width, height, in_focus = point
    if step == TURN:
        return Point(number, frame[1] - y, x, height, width, in_focus)
    if step == MIRROR:
        return Point(number, frame[0] - x, y, width, height, in_focus)
    _, left, top, *frame = step
    moved = Point(number, x - left, y - top, width, height, in_focus)
    return moved if fits(moved, frame) else None


class Book:
    """What a list of calls amounts to: empty, or a load, standing edits and
    names, each with the edits that are kept under it.

    Calls answer ('no', n), 'ok', a Listing, or the tags of `contents`. A
    refused call leaves the book, and the buffer, as they are."""

    def __init__(self):
        self.held = None
        self.row = []
        self.names = {}

    def frame(self):
        return frame_through(self.held.frame, self.row)

    def listed(self, row=None):
        """Pairs of an index in the load and the point as it now lies."""
        row = self.row if row is None else row
        carried = [carry(point, self.held.frame, row) for point in self.held.points]
        return [(i, point) for i, point in enumerate(carried) if point is not None]

    def load(self, block, raw, picture, model):
        answer = load(block, raw, picture, model)
        if refused(answer):
            return answer
        self.held, self.row, self.names = answer, [], {}
        return "ok"

    def cut(self, left, top, width, height):
        if self.held is None:
            return no(7)
        if len(self.row) >= MAX_EDITS:
            return no(8)
        frame = self.frame()
        if width == 0 or height == 0 or left + width > frame[0] or top + height > frame[1]:
            return no(9)
        row = self.row + [("cut", left, top, width, height)]
        if self.held.primary not in [i for i, _ in self.listed(row)]:
            return no(10)
        self.row = row
        return "ok"

    def orient(self, number):
        if self.held is None:
            return no(7)
        if len(self.row) >= MAX_EDITS:
            return no(8)
        if number not in ORIENTATIONS:
            return no(15)
        self.row = self.row + [("orientation", number)]
        return "ok"

    def back(self):
        if self.held is None:
            return no(7)
        if not self.row:
            return no(11)
        self.row = self.row[:-1]
        return "ok"

    def keep(self, name):
        """Keeps the standing edits under a name, in place of those that it had."""
        if self.held is None:
            return no(7)
        if not 1 <= len(name) <= MAX_NAME:
            return no(16)
        if name not in self.names and len(self.names) >= MAX_NAMES:
            return no(17)
        self.names[name] = list(self.row)
        return "ok"

    def return_to(self, name):
        """Makes the edits that are kept under a name the standing ones."""
        if self.held is None:
            return no(7)
        if not 1 <= len(name) <= MAX_NAME:
            return no(16)
        if name not in self.names:
            return no(18)
        self.row = list(self.names[name])
        return "ok"

    def list(self, buffer):
        """Writes six numbers a listed point to the front of the buffer."""
        if self.held is None:
            return no(7)
        return self._write(buffer, self.frame(), self.listed())

    def fit(self, width, height, buffer):
        """'Both zero, or a worked side of 0, still give 12; the worked box is then
        put to the shape test like any other.'"""
        if self.held is None:
            return no(7)
        frame = self.frame()
        box = worked_box(frame, (width, height))
        if 0 in box:
            return no(12)
        if not same_shape(frame, box):
            return no(19)
        scaled = [(i, scale_point(point, frame, box)) for i, point in self.listed()]
        return self._write(buffer, box, scaled)

    def _write(self, buffer, frame, listed):
        if len(buffer) < 6 * len(listed):
            return no(13)
        for place, (_, point) in enumerate(listed):
            buffer[6 * place : 6 * place + 6] = point
        primary = [i for i, _ in listed].index(self.held.primary)
        return Listing(frame, len(listed), primary, self.held.mode, self.held.origin)

    def contents(self, block):
        return contents(block)


# --------------------------------------------------------- call lines, text

BUFFER_WORDS = 39 * 6


def decode(line):
    """A call as (name, arguments...), or None for a malformed line."""
    if not line or len(line) > MAX_LINE or len(line) % 2:
        return None
    if line.translate(None, delete=b"0123456789abcdefABCDEF"):
        return None
    data = bytes.fromhex(line.decode("ascii"))
    if sum(data) % 256:
        return None
    body = data[:-1]
    if not body:
        return None
    code, rest = body[0], body[1:]
    words = [number_at(rest, 4 * i, 4, "big") for i in range(len(rest) // 4)]
    if code == 1:
        return decode_load(rest)
    if code == 2:
        return ("cut", *words) if len(rest) == 16 else None
    if code in (5, 6):
        return ("back" if code == 5 else "list",) if not rest else None
    if code == 7:
        return ("fit", *words) if len(rest) == 8 else None
    if code == 8:
        return ("contents", rest)
    if code == 9:
        return ("orient", rest[0]) if len(rest) == 1 else None
    return None


def decode_load(rest):
    if len(rest) < 18:
        return None
    flags = rest[0]
    sides = [number_at(rest, 1 + 4 * i, 4, "big") for i in range(4)]
    model_length = rest[17]
    if flags > 3 or len(rest) < 18 + model_length:
        return None
    sizes = []
    for flag, size in ((1, tuple(sides[:2])), (2, tuple(sides[2:]))):
        if flags & flag:
            sizes.append(size)
        elif size != (0, 0):
            return None
        else:
            sizes.append(None)
    return ("load", rest[18 + model_length :], *sizes, rest[18 : 18 + model_length])


def answer_text(book, line):
    """The text for one call line, feeds included."""
    call = decode(line)
    if call is None:
        return "no 14\n"
    name, arguments = call[0], call[1:]
    buffer = [0] * BUFFER_WORDS
    if name in ("list", "fit"):
        arguments = (*arguments, buffer)
    answer = getattr(book, name)(*arguments)
    if refused(answer):
        return "no %d\n" % answer[1]
    if answer == "ok":
        return "ok\n"
    if name == "contents":
        return " ".join(["tags", str(len(answer))] + [str(tag) for tag in answer]) + "\n"
    text = head_line(answer) + "\n"
    for i in range(answer.count):
        text += " ".join(str(number) for number in buffer[6 * i : 6 * i + 6]) + "\n"
    return text


def head_line(listing):
    return "frame %d %d points %d primary %d mode %d origin %d" % (
        *listing.frame, listing.count, listing.primary, listing.mode, listing.origin)


def placed_lines(placed):
    """The lines of a listing of what is placed."""
    head = Listing(placed.frame, len(placed.points), placed.primary, placed.mode, placed.origin)
    return [head_line(head)] + [" ".join(map(str, point)) for point in placed.points]


def run_script(script):
    """What focusdesk prints for the bytes of a script."""
    lines = script.split(b"\n")
    if lines[-1] == b"":
        lines.pop()
    book = Book()
    return "".join(answer_text(book, line) for line in lines)


# ------------------------------------------------ load lines, as the oracle


def parse_size(text):
    if text == "-":
        return None
    width, height = text.split("x")
    return (int(width), int(height))


def parse_hex(text):
    return b"" if text == "-" else bytes.fromhex(text)


def load_line_answer(line):
    raw, picture, model, block = line.split(" ")
    answer = load(parse_hex(block), parse_size(raw), parse_size(picture), parse_hex(model))
    return "no %d" % answer[1] if refused(answer) else " | ".join(placed_lines(answer))


# ---------------------------------------------------------------- self-test

WHOLE_CASE = (
    b"0100000000000000000000000000000000000A4E494B4F4E20443630304D4D002A000000080001"
    b"00B700070000001E00000016303130300000030101800000000000000000000000000000000000"
    b"00000077\n0906F1\n020000076C00000B5400000190000001900A\n06FA\n"
)
WHOLE_CASE_PRINTS = (
    "ok\nok\nok\nframe 400 400 points 1 primary 0 mode 1 origin 2\n1 109 108 164 164 0\n"
)


def build_block(*entries):
    """A big-endian block from (tag, type, count, bytes)."""
    data = b"MM\0*\0\0\0\x08" + len(entries).to_bytes(2, "big")
    end = len(data) + 12 * len(entries)
    far = b""
    for tag, kind, count, value in entries:
        data += tag.to_bytes(2, "big") + kind.to_bytes(2, "big") + count.to_bytes(4, "big")
        if len(value) <= 4:
            data += value.ljust(4, b"\0")
        else:
            data += (end + len(far)).to_bytes(4, "big")
            far += value
    return data + far


def shorts(*numbers):
    return b"".join(number.to_bytes(2, "big") for number in numbers)


# The field of a value of more than four bytes: an offset past the end of every block.
DAMAGED = b"\xff" * 4


def named_block(primary, length=30, crop=None):
    value = (b"0100\0\0\x03" + bytes([primary])).ljust(length, b"\0")[:length]
    entries = [(RECORD, 7, length, value)]
    if crop:
        entries.insert(0, (CROP_HI_SPEED, 3, 7, shorts(*crop)))
    return build_block(*entries)


def call_line(*data):
    body = b"".join(data)
    return (body + bytes([-sum(body) % 256])).hex().encode()


def after(*calls):
    """What a loaded book answers to these calls, each a method's name and its
    arguments; then the numbers of the orientations that stand."""
    book = Book()
    book.load(named_block(1), None, None, MODEL)
    answers = [getattr(book, name)(*arguments) for name, *arguments in calls]
    return answers + [number for _, number in book.row]


def keep(name):
    return ("keep", name)


def return_to(name):
    return ("return_to", name)


TURN_CALL, MIRROR_CALL, BACK_CALL = ("orient", 6), ("orient", 2), ("back",)


def name_checks():
    """Names judged, as (what it is, got, wanted)."""
    letters = [bytes([letter]) for letter in b"ABCDEFGHI"]
    eight = [keep(letter) for letter in letters[:8]]
    lengths = [bytes(length) for length in (0, 17, 255)]
    accepted, unreadable = ("load", named_block(1), None, None, MODEL), ("load", b"", None, None, MODEL)
    empty = Book()
    return [
        ("7 before 16", [call(name) for call in (empty.keep, empty.return_to) for name in lengths + [b"A"]], [no(7)] * 8),
        ("names of 0, 17 and 255 bytes", after(*map(keep, lengths), *map(return_to, lengths)), [no(16)] * 6),
        ("names of 1 and 16 bytes", after(keep(bytes(1)), keep(bytes(16)), return_to(bytes(16))), ["ok"] * 3),
        ("a ninth name", after(*eight, keep(b"I")), ["ok"] * 8 + [no(17)]),
        ("16 before 17 and 18", after(*eight, keep(b""), return_to(b"")), ["ok"] * 8 + [no(16)] * 2),
        ("a name kept again is no ninth",
         after(*eight, TURN_CALL, keep(b"C"), MIRROR_CALL, return_to(b"C"), keep(b"I")), ["ok"] * 12 + [no(17), 6]),
        ("a refused keep or return changes nothing",
         after(*eight, TURN_CALL, keep(b"I"), keep(b""), return_to(b"I"), return_to(b"H"), TURN_CALL, return_to(b"")),
         ["ok"] * 9 + [no(17), no(16), no(18), "ok", "ok", no(16), 6]),
        ("no such name", after(return_to(b"A"), TURN_CALL, keep(b"B"), return_to(b"A")), [no(18), "ok", "ok", no(18), 6]),
        ("an accepted load clears the names", after(keep(b"A"), accepted, return_to(b"A")), ["ok", "ok", no(18)]),
        ("eight new names after it", after(*eight, accepted, *map(keep, letters[1:])), ["ok"] * 17),
        ("a refused load keeps the names",
         after(TURN_CALL, keep(b"A"), unreadable, MIRROR_CALL, return_to(b"A")), ["ok", "ok", no(1), "ok", "ok", 6]),
        ("a name that is another's beginning",
         after(TURN_CALL, keep(b"AB"), MIRROR_CALL, keep(b"ABC"), return_to(b"AB"), return_to(b"A")), ["ok"] * 5 + [no(18), 6]),
        ("names that agree in 15 of 16 bytes",
         after(TURN_CALL, keep(b"page one, inside"), MIRROR_CALL, keep(b"page one, insidE"), return_to(b"page one, inside")),
         ["ok"] * 5 + [6]),
        ("spaces, and a byte in the middle",
         after(*[keep(name) for name in (b" A", b"A ", b"page one, inside")], *map(return_to, (b"A", b"page two, inside"))),
         ["ok"] * 3 + [no(18)] * 2),
        ("a zero byte at a name's end",
         after(TURN_CALL, keep(b"A"), return_to(b"A\0"), MIRROR_CALL, keep(b"A\0"), return_to(b"A")),
         ["ok", "ok", no(18), "ok", "ok", "ok", 6]),
    ]


def kept_checks():
    """Edits that are kept and returned to, as (what it is, got, wanted)."""
    there, back = [TURN_CALL, keep(b"A")], return_to(b"A")
    return [
        ("the latest keep under a name", after(*there, MIRROR_CALL, keep(b"A"), MIRROR_CALL, back), ["ok"] * 6 + [6, 2]),
        ("edits change nothing that is kept", after(*there, MIRROR_CALL, back, MIRROR_CALL, back), ["ok"] * 6 + [6]),
        ("nor do backs", after(*there, BACK_CALL, MIRROR_CALL, back, BACK_CALL, back), ["ok"] * 7 + [6]),
        ("back after a return", after(TURN_CALL, *there, BACK_CALL, BACK_CALL, back, BACK_CALL), ["ok"] * 7 + [6]),
        ("no edits kept", after(keep(b"A"), TURN_CALL, back, BACK_CALL), ["ok"] * 3 + [no(11)]),
        ("a return where 64 edits stand", after(*there, *[MIRROR_CALL] * 64, back), ["ok"] * 65 + [no(8), "ok", 6]),
        ("a return to 64 edits",
         after(*[MIRROR_CALL] * 64, keep(b"A"), BACK_CALL, back, TURN_CALL), ["ok"] * 67 + [no(8)] + [2] * 64),
    ]


def book_of(*calls):
    """Point 1, at (3008, 2007) in 6016 by 4016, and these calls."""
    book = Book()
    for name, *arguments in [("load", named_block(1), None, None, MODEL), *calls]:
        getattr(book, name)(*arguments)
    return book


def fitted(book, *boxes, places=6):
    """What fits answer if they refuse and keep the buffer; else the answer's frame, and what is in the buffer."""
    answers = []
    for box in boxes:
        buffer = [9] * places
        answer = book.fit(*box, buffer)
        if refused(answer):
            answers.append(answer if buffer == [9] * places else (answer, buffer))
        else:
            answers.append([*answer.frame, *buffer])
    return answers


SMALL_CUT = ("cut", 2900, 1900, 400, 300)


def shape_checks():
    """Boxes judged by their shape, as (what it is, got, wanted)."""
    most = MAX_U32

    def judged(frame, *boxes):
        """The answers of `same_shape`, then those with the sides of frame and box exchanged."""
        return [same_shape(frame[::way], box[::way]) for way in (1, -1) for box in boxes]

    whole, on_its_side = book_of(), book_of(TURN_CALL)
    cut, square = book_of(SMALL_CUT), book_of(("cut", 2900, 1900, 400, 400), TURN_CALL)
    return [
        # For a frame of 7 by 5 it is 7 * height - 5 * width; the longest side is the frame's 7, then that of the box.
        ("one below: 6, -6; -11, 12", judged((7, 5), (3, 3), (4, 2), (12, 7), (13, 11)), [True] * 8),
        ("the longest side: 7, -7; -14, 14", judged((7, 5), (7, 6), (7, 4), (14, 8), (14, 12)), [True] * 8),
        ("one above: 8, -8; -10, 9, 16", judged((7, 5), (4, 4), (3, 1), (9, 5), (8, 7), (15, 13)), [False] * 10),
        ("multiples of the frame", judged((7, 5), (7, 5), (14, 10), (7 * 613566756, 5 * 613566756)), [True] * 6),
        ("the largest sides, one below, at and above",
         judged((most, most - 1), (most - 1, most - 1), (most, most), (1, 2)), [True, True, False] * 2),
        ("a difference of 2 to the 32nd", judged((65536, 65536), (65536, 131072)), [False] * 2),
        ("a box that is off by a little", fitted(whole, (300, 200)), [[300, 200, 1, 150, 100, 8, 8, 0]]),  # 1600 <= 6016
        # 6016 * 252 - 4016 * 376 = 6016; with 250, -6016.
        ("a box that is off by the most", fitted(whole, (376, 252), (376, 250)),
         [[376, 252, 1, 188, 126, 10, 10, 0], [376, 250, 1, 188, 125, 10, 10, 0]]),
        ("boxes of another shape", fitted(whole, (376, 253), (376, 249), (1200, 800), (4016, 6016)), [no(19)] * 4),
        ("the load's frame on its side", fitted(on_its_side, (6016, 4016), (300, 200)), [no(19)] * 2),
        ("the present one", fitted(on_its_side, (4016, 6016), (200, 300)),
         [[4016, 6016, 1, 2009, 3008, 164, 164, 0], [200, 300, 1, 100, 150, 8, 8, 0]]),
        ("the frame of a cut", fitted(cut, (6016, 4016), (300, 200), (40, 30)), [no(19), no(19), [40, 30, 1, 11, 11, 16, 16, 0]]),
        ("a square on its side", fitted(square, (400, 400), (40, 41), (40, 42)),
         [[400, 400, 1, 293, 108, 164, 164, 0], [40, 41, 1, 29, 11, 16, 17, 0], no(19)]),
        ("12 before 13", fitted(whole, (0, 0), places=0), [no(12)]),
        ("19 before 13", fitted(whole, (6016, 6016), (376, 253), places=5), [no(19)] * 2),
        ("13 after it", fitted(whole, (6016, 4016), (376, 252), places=5), [no(13)] * 2),
        ("7 before them", fitted(Book(), (0, 0), (1, 9), (300, 200), places=0), [no(7)] * 3),
    ]


def blank_checks():
    """Boxes with a side left blank, as (what it is, got, wanted). The quotients are worked out before half a pixel is added."""
    most = MAX_U32

    def in_frame(*frame):
        """A load with one point, without an area, in the lower right corner of this frame."""
        book = Book()
        book.held = Placed(frame, (Point(0, *frame, 0, 0, 0),), 0, 1, 1)
        return book

    def worked(frame, *boxes):
        """The worked boxes, or the refusals; then those with the sides of frame and boxes exchanged, exchanged back."""
        answers = []
        for way in (1, -1):
            for answer in fitted(in_frame(*frame[::way]), *(box[::way] for box in boxes)):
                answers.append(answer if refused(answer) else tuple(answer[:2][::way]))
        return answers

    whole, on_its_side, cut = book_of(), book_of(TURN_CALL), book_of(SMALL_CUT)
    return [
        # 4016 * 376 / 6016 = 251, 4016 * 300 / 6016 = 200.27.
        ("a blank height", fitted(whole, (376, 0), (300, 0)),
         [[376, 251, 1, 188, 125, 10, 10, 0], [300, 200, 1, 150, 100, 8, 8, 0]]),
        # 6016 * 251 / 4016 = 376, 6016 * 200 / 4016 = 299.60.
        ("a blank width", fitted(whole, (0, 251), (0, 200)),
         [[376, 251, 1, 188, 125, 10, 10, 0], [300, 200, 1, 150, 100, 8, 8, 0]]),
        # In 4016 by 6016: 6016 * 300 / 4016 = 449.40, 4016 * 300 / 6016 = 200.27. The load's frame gives 300 by 200, 449 by 300.
        ("on its side", fitted(on_its_side, (300, 0), (0, 300)),
         [[300, 449, 1, 150, 225, 12, 12, 0], [200, 300, 1, 100, 150, 8, 8, 0]]),
        # In 400 by 300: 30 and 40. The load's frame gives 27 (26.70) and 45 (44.94).
        ("behind a cut", fitted(cut, (40, 0), (0, 30)), [[40, 30, 1, 11, 11, 16, 16, 0]] * 2),
        # 4016 * 1200 / 6016 = 801.06, 4016 * most / 6016 = 2867119124.88.
        ("as the box with both sides", fitted(whole, (1200, 0), (0, 4016), (most, 0)),
         fitted(whole, (1200, 801), (6016, 4016), (most, 2867119125))),
        # 2 * 1 / 3 = 0.67, 2 * 2 / 3 = 1.33, 2 * 4 / 3 = 2.67; 3 * 1 / 2 = 1.5, 3 * 2 / 2 = 3, 3 * 3 / 2 = 4.5.
        ("the nearest pixel", worked((3, 2), (1, 0), (2, 0), (4, 0)), [(1, 1), (2, 1), (4, 3)] * 2),
        ("a half goes up", worked((3, 2), (0, 1), (0, 2), (0, 3)), [(2, 1), (3, 2), (5, 3)] * 2),
        # 3 / 7 and 4 / 7; 3 / 8 and 4 / 8, which is a half.
        ("a worked side of 0, and just not", worked((7, 1), (3, 0), (4, 0)), [no(12), (4, 1)] * 2),
        ("the same where a half is met", worked((8, 1), (3, 0), (4, 0)), [no(12), (4, 1)] * 2),
        # 1 * 2147483647 / most is less than a half, and 2147483648 / most is more.
        ("the same in the flattest frame",
         worked((most, 1), (1, 0), (2147483647, 0), (2147483648, 0), (most, 0)),
         [no(12), no(12), (2147483648, 1), (most, 1)] * 2),
        ("both blank", worked((7, 5), (0, 0)) + worked((most, 1), (0, 0)) + fitted(cut, (0, 0)), [no(12)] * 5),
        # most * g / 1 is most, twice and three times that; the box is off by (g - 1) * most, and may be off by most.
        ("capped and accepted, capped and refused", worked((1, most), (1, 0), (2, 0), (3, 0), (most, 0)),
         [(1, most), (2, most), no(19), no(19)] * 2),
        # 3 * g / 1 is most for 1431655765; the box is off by 3 * g - most: by 3, by most, by most + 3.
        ("the first that is capped, the last that is accepted, the next",
         worked((3, 1), (0, 1431655765), (0, 1431655766), (0, 2863311530), (0, 2863311531)),
         [(most, 1431655765), (most, 1431655766), (most, 2863311530), no(19)] * 2),
        # most * most / (most - 1) = most + 1.00, capped: off by most * most - (most - 1) * most = most.
        ("the largest sides", worked((most, most - 1), (0, most - 1), (0, most), (most, 0)),
         [(most, most - 1), (most, most), (most, most - 1)] * 2),
        ("12 for a worked side before 13", fitted(in_frame(7, 1), (3, 0), places=0), [no(12)]),
        ("19 before 13", fitted(in_frame(1, most), (3, 0), places=5), [no(19)]),
        ("13 after them", fitted(whole, (376, 0), (0, 251), places=5) + fitted(in_frame(1, most), (2, 0), places=5),
         [no(13)] * 3),
        ("7 before them all", fitted(Book(), (0, 0), (5, 0), (0, 5), (most, 0), places=0), [no(7)] * 4),
    ]


def self_test():
    dx = (2, 6016, 4016, 3936, 2624, 1040, 696)

    def only_point(primary, picture=None, crop=None):
        placed = load(named_block(primary, crop=crop), None, picture, MODEL)
        return (placed.points[0].x, placed.points[0].y)

    def contents_line(*entries):
        return run_script(call_line(b"\x08", build_block(*entries)))

    def oriented(*numbers):
        """The frame of 60 by 40, and a point's centre and area in it, after these orientations."""
        row = [("orientation", number) for number in numbers]
        return frame_through((60, 40), row), carry(Point(1, 10, 7, 4, 2, 0), (60, 40), row)[1:5]

    eight = range(1, 9)
    book = Book()
    book.load(named_block(1), None, None, MODEL)
    checks = [
        ("the whole case", run_script(WHOLE_CASE), WHOLE_CASE_PRINTS),
        ("the whole case, last feed missing", run_script(WHOLE_CASE[:-1]), WHOLE_CASE_PRINTS),
        ("scale(1,2,1)", scale(1, 2, 1), 1),
        ("scale(1,3,1)", scale(1, 3, 1), 0),
        ("scale(2,3,1)", scale(2, 3, 1), 1),
        ("side 3 at centre 2, frame 4", axis_fits(3, 2, 4), True),
        ("side 3 at centre 2, frame 3", axis_fits(3, 2, 3), False),
        ("centre 20, frame 100 to 1",
         scale_point(Point(0, 20, 20, 10, 10, 0), (100, 100), (1, 1)), Point(0, 0, 0, 0, 0, 0)),
        ("point 27 in the DX window", only_point(27, crop=dx), (3163, 1612)),
        ("point 38 in the DX window", only_point(38, crop=dx), (772, 1009)),
        ("point 1 in 4512 by 3008", only_point(1, picture=(4512, 3008)), (3005, 2002)),
        ("version 0100 of 29 bytes", load(named_block(1, 29), None, None, MODEL), no(4)),
        ("version 0100 of 30 bytes", only_point(1), (3008, 2007)),
        ("primary 0", load(named_block(0), None, None, MODEL), no(6)),
        ("no input, no line", run_script(b""), ""),
        ("an empty line", run_script(b"\n"), "no 14\n"),
        ("an empty book", run_script(b"0906F1\n0900F7\n05FB\n06fa\n"), "no 7\n" * 4),
        ("either case", run_script(b"06fA\n06Fa\n"), "no 7\nno 7\n"),
        ("nothing but a check", run_script(b"00\n"), "no 14\n"),
        ("a wrong check", run_script(b"06FB\n"), "no 14\n"),
        ("an odd count of digits", run_script(b"06FA0\n"), "no 14\n"),
        ("another character", run_script(b"06FA\r\n"), "no 14\n"),
        ("an unknown code", run_script(call_line(b"\x0a")), "no 14\n"),
        ("no codes for keep and return",
         run_script(call_line(b"\x0a\x01A") + b"\n" + call_line(b"\x0b\x01A")), "no 14\n" * 2),
        ("the codes of turn and mirror", run_script(b"03FD\n04FC\n"), "no 14\n" * 2),
        ("a wrong length", run_script(call_line(b"\x06\x00")), "no 14\n"),
        ("no number, and two", run_script(call_line(b"\x09") + b"\n" + call_line(b"\x09\x06\x06")), "no 14\n" * 2),
        ("a flag byte of 4", run_script(call_line(b"\x01\x04", bytes(17))), "no 14\n"),
        ("a missing size of 1", run_script(call_line(b"\x01\x02\x01", bytes(16))), "no 14\n"),
        ("a model cut short", run_script(call_line(b"\x01", bytes(17), b"\x01")), "no 14\n"),
        ("4,096 characters", run_script(call_line(b"\x08", bytes(2046))), "no 1\n"),
        ("4,098 characters", run_script(call_line(b"\x08", bytes(2047))), "no 14\n"),
        ("an empty block", run_script(call_line(b"\x01", bytes(18))), "no 1\n"),
        ("contents", run_script(call_line(b"\x08", named_block(1, crop=dx))), "tags 2 27 183\n"),
        ("contents of no entries", run_script(call_line(b"\x08", build_block())), "tags 0\n"),
        ("contents, the tags falling",
         contents_line((RECORD, 7, 1, b"A"), (CROP_AREA, 4, 1, b"ABCD"), (CROP_HI_SPEED, 3, 1, b"AB"),
                       (FOCUS_MODE, 2, 1, b"A")), "tags 4 183 69 27 7\n"),
        ("contents, neither rising nor falling, other tags between",
         contents_line((CROP_AREA, 3, 1, b"AB"), (0, 1, 1, b"A"), (RECORD, 7, 1, b"A"), (0x0700, 2, 1, b"A"),
                       (FOCUS_MODE, 2, 1, b"A")), "tags 3 69 183 7\n"),
        ("contents, tags repeated: the first entry places them",
         contents_line((CROP_AREA, 3, 1, b"AB"), (FOCUS_MODE, 2, 1, b"A"), (CROP_AREA, 3, 1, b"AB"),
                       (RECORD, 7, 1, b"A"), (FOCUS_MODE, 2, 1, b"A")), "tags 3 69 7 183\n"),
        ("contents, a damaged entry is kept and places its tag",
         contents_line((RECORD, 7, 30, DAMAGED), (FOCUS_MODE, 2, 7, DAMAGED), (CROP_HI_SPEED, 3, 1, b"AB"),
                       (FOCUS_MODE, 2, 1, b"A")), "tags 3 183 7 27\n"),
        ("contents, an entry that is passed over places nothing",
         contents_line((CROP_AREA, 14, 1, b"A"), (RECORD, 0, 1, b"A"), (CROP_HI_SPEED, 3, 1, b"AB"),
                       (CROP_AREA, 3, 1, b"AB")), "tags 2 27 69\n"),
        ("contents, all passed over",
         contents_line((RECORD, 65535, 1, b"A"), (FOCUS_MODE, 0, 1, b"A"), (CROP_AREA, 14, 1, b"A")), "tags 0\n"),
        ("each orientation", [oriented(number) for number in eight], [
            ((60, 40), (10, 7, 4, 2)), ((60, 40), (50, 7, 4, 2)), ((60, 40), (50, 33, 4, 2)), ((60, 40), (10, 33, 4, 2)),
            ((40, 60), (7, 10, 2, 4)), ((40, 60), (33, 10, 2, 4)), ((40, 60), (33, 50, 2, 4)), ((40, 60), (7, 50, 2, 4))]),
        ("two orientations are as a single one",
         [[oriented(one, other) == oriented(single) for single in eight].count(True) for one in eight for other in eight],
         [1] * 64),
        ("numbers outside 1 to 8", [book.orient(number) for number in (0, 9, 255)], [no(15)] * 3),
        ("64 edits stand", [book.orient(1) for _ in range(65)], ["ok"] * 64 + [no(8)]),
        ("8 before 15", book.orient(0), no(8)),
        ("back after them", [book.back() for _ in range(65)], ["ok"] * 64 + [no(11)]),
        ("a short buffer", book.list([9] * 5), no(13)),
        ("cut past the frame", book.cut(1, 0, 6016, 1), no(9)),
        ("cut that drops the primary", book.cut(0, 0, 100, 100), no(10)),
        ("fit to no sides", book.fit(0, 0, []), no(12)),
    ] + name_checks() + kept_checks() + shape_checks() + blank_checks()
    failed = [(name, got, wanted) for name, got, wanted in checks if got != wanted]
    for name, got, wanted in failed:
        print("%s: got %r, wanted %r" % (name, got, wanted))
    print("self-test: %d of %d right" % (len(checks) - len(failed), len(checks)))
    return 1 if failed else 0


def main(arguments):
    if arguments == ["--self-test"]:
        return self_test()
    if arguments == ["--loads"]:
        for line in sys.stdin:
            print(load_line_answer(line.rstrip("\n")))
        return 0
    if arguments:
        print(__doc__.strip(), file=sys.stderr)
        return 2
    sys.stdout.write(run_script(sys.stdin.buffer.read()))
    return 0


if __name__ == "__main__":
    sys.exit(main(sys.argv[1:]))
