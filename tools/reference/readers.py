#!/usr/bin/env python3
"""What the readers answer for a block, by the reference's reading of the rules.

  readers.py --blocks            print the blocks: the crate reading_test's stdin
  readers.py < BLOCKS            print the expected lines: its stdout
  readers.py --check             say whether the crate's files are these two

A line of BLOCKS is a block in hexadecimal; one that starts with '#' is printed
as it is. One that starts with '+' is the front of two blocks, with zeros behind
it: one as long as a block may be, and one a byte longer. A block that can be
read is answered by its byte order; each of the four tags with its first kept
entry's type, count and value; manual focus; the crop; the crop area in raw data
of 6016 by 4016 and without a raw size; the record or its number; and the
contents, with all four places. For directories in which the order of contents
hangs on one rule, that order is also said here by hand, and nothing is printed
if the reference says otherwise.
"""

import itertools
import os
import sys

sys.dont_write_bytecode = True

import reference as ref
import stored

RAW = (6016, 4016)
LONGEST = 1_048_576


# ------------------------------------------------------- the expected lines


def entry_text(block, order, tag):
    entry = ref.first_kept_entry(block, order, tag)
    if entry is None:
        return "%d absent" % tag
    value = ref.value_of(block, order, entry)
    if value is None:
        return "%d type %d damaged" % (tag, entry[1])
    text = "%d type %d count %d bytes %d %s" % (tag, entry[1], entry[2], len(value), value.hex())
    return text.rstrip()


def crop_text(block, order):
    crop = ref.crop_of(block, order)
    if crop is None:
        return "no crop"
    return "crop %d %d %d %d %d %d %d" % (
        crop.mode, *crop.original, *crop.cropped, crop.left, crop.top)


def area_text(window):
    return window if isinstance(window, str) else "window %d %d" % window


def record_text(block, order):
    entry = ref.first_kept_entry(block, order, ref.RECORD)
    if entry is None or entry[1] != 7:
        return "no 2"
    value = ref.value_of(block, order, entry)
    record = None if value is None else ref.record_of(value, order)
    if record is None:
        return "no 4"
    text = "frame %d %d center %d %d area %d %d focus %d mode %d" % (
        *record.frame, *record.centre, *record.area, record.in_focus, record.mode)
    if record.names is None:
        return text + " no names"
    mask = sum(1 << (number - 1) for number in record.names.mask)
    return text + " names %d %d %d" % (record.names.layout, record.names.primary, mask)


def contents_text(block):
    tags = ref.contents(block)
    word = "tags"
    if ref.refused(tags):
        word, tags = "no %d" % tags[1], []
    places = tags + [0] * (4 - len(tags))
    return " ".join([word, str(len(tags))] + [str(tag) for tag in places])


def answer(block):
    order = ref.readable(block)
    if order is None:
        return "no 1 | " + contents_text(block)
    parts = [order]
    parts += [entry_text(block, order, tag) for tag in ref.FOUR_TAGS]
    parts.append("manual" if ref.is_manual(block, order) else "not manual")
    parts.append(crop_text(block, order))
    parts.append("area %s without raw %s" % (
        area_text(ref.window_of(block, order, RAW)), area_text(ref.window_of(block, order, None))))
    parts.append(record_text(block, order))
    parts.append(contents_text(block))
    return " | ".join(parts)


# --------------------------------------------------------------- the blocks


def number(n, size, order):
    return n.to_bytes(size, order)


def numbers(order, size, *ns):
    return b"".join(number(n, size, order) for n in ns)


def entry(tag, kind, count, field, order="big"):
    return number(tag, 2, order) + number(kind, 2, order) + number(count, 4, order) + field


def block_of(entries, order="big", after=b""):
    """Header, directory at 8, far values behind it. An entry is (tag, type,
    count, value), or (tag, type, count, value, offset) to point elsewhere."""
    mark = b"MM\0*" if order == "big" else b"II*\0"
    data = mark + number(8, 4, order) + number(len(entries), 2, order)
    end, far = len(data) + 12 * len(entries), b""
    for tag, kind, count, value, *offset in entries:
        if offset:
            field = number(offset[0], 4, order)
        elif len(value) <= 4:
            field = value.ljust(4, b"\xee")
        else:
            field = number(end + len(far), 4, order)
            far += value
        data += entry(tag, kind, count, field, order)
    return data + far + after


def record(version, length, order="big", mode=(0, 0), in_focus=1):
    """A record of a length, with 6016 by 4016, (1000, 500), 300 by 200."""
    value = bytearray(max(length, 90))
    value[0:4] = version
    value[4:6] = bytes(mode)
    value[6:15] = bytes([3, 1, 0x81, 0x02, 0, 0, 0, 0, 0x40])
    _, frame, centre, area, byte = ref.LAYOUTS.get(version, (0, 16, 20, 24, 28))
    value[frame : frame + 4] = numbers(order, 2, 6016, 4016)
    value[centre : centre + 4] = numbers(order, 2, 1000, 500)
    value[area : area + 4] = numbers(order, 2, 300, 200)
    if byte is not None:
        value[byte] = in_focus
    return bytes(value[:length])


def recorded(version, length, order="big", **more):
    return block_of([(0xB7, 7, length, record(version, length, order, **more))], order)


def text_block(text, kind=2):
    return block_of([(7, kind, len(text), text)])


DX = (2, 6016, 4016, 3936, 2624, 1040, 696)
AREA = (16, 8, 6000, 4000)


def four_values(order):
    return block_of([
        (0x0007, 2, 8, b" MANUAL\0"),
        (0x001B, 3, 7, numbers(order, 2, *DX)),
        (0x0045, 4, 4, numbers(order, 4, 16, 8, 6000, 4000)),
        (0x00B7, 7, 30, record(b"0100", 30, order)),
    ], order)


def area(kind, *sides, count=4):
    return block_of([(0x45, kind, count, numbers("big", 2 if kind == 3 else 4, *sides))])


def intact(tag, kind=7):
    return (tag, kind, 1, bytes(range(1, 1 + ref.SIZE_OF_TYPE[kind])))


def damaged(tag, kind=7):
    """Kept, with a value of eight bytes or more past the block's end."""
    return (tag, kind, 8, b"", 4_294_967_295)


def passed_over(tag, kind=14):
    return (tag, kind, 1, b"A")


def elsewhere(wanted, other, order):
    """A block whose directory lies behind another one, which stands at 8."""
    data = bytearray(block_of(other, order))
    behind = block_of(wanted, order)[8:]
    data[4:8] = number(len(data), 4, order)
    return bytes(data) + behind


def directories(order):
    """Blocks in which the order of contents hangs on one rule: what a wrong
    program has, the contents by hand, and the block. A tag comes where its first
    kept entry stands; damaged entries are kept."""
    def of(wrong, tags, *entries):
        return wrong, tags, block_of(entries, order)

    kinds = dict(zip(ref.FOUR_TAGS, (2, 3, 4, 7)))
    for tags in itertools.permutations(ref.FOUR_TAGS):
        yield of("an order other than the directory's", list(tags), *(intact(tag, kinds[tag]) for tag in tags))

    # repeated
    yield of("a tag placed by its last entry", [0x07, 0x45], intact(0x07), intact(0x45), intact(0x07))
    yield of("a tag placed by its last entry, the tags falling", [0xB7, 0x1B], intact(0xB7), intact(0x1B), intact(0xB7))
    yield of("a tag placed by an entry in between", [0x45, 0x07, 0x1B],
             intact(0x45), intact(0x07), intact(0x45), intact(0x1B), intact(0x45))
    yield of("a tag listed twice", [0xB7], intact(0xB7), intact(0xB7))
    yield of("a tag listed once for each entry, five places", [0x1B], *[intact(0x1B)] * 5)
    yield of("a tag listed again behind others", [0x45, 0xB7, 0x07],
             intact(0x45), intact(0xB7), intact(0x07), intact(0x45), intact(0xB7))
    yield of("an end after four kept entries", [0x45, 0xB7, 0x07, 0x1B],
             *(intact(tag) for tag in (0x45, 0xB7, 0x45, 0x07, 0xB7, 0x1B, 0x07, 0x1B, 0x45)))
    yield of("an end at the first repeated tag", [0x07, 0x1B], intact(0x07), intact(0x07), intact(0x1B))
    yield of("a tag placed by its first entry of the right type", [0x45, 0x07], intact(0x45, 2), intact(0x07, 2), intact(0x45, 4))
    yield of("an entry of a wrong type that is not kept", [0xB7, 0x07], intact(0xB7, 1), intact(0x07, 3))

    # damaged
    yield of("a damaged entry that is not kept", [0xB7, 0x1B], damaged(0xB7), intact(0x1B))
    yield of("a damaged entry that does not place its tag", [0x45, 0x07], damaged(0x45, 4), intact(0x07), intact(0x45, 4))
    yield of("a damaged entry that places its tag anew", [0x07, 0x45], intact(0x07), intact(0x45), damaged(0x07, 2))
    yield of("damaged entries behind the whole ones", [0xB7, 0x45, 0x1B, 0x07],
             damaged(0xB7), intact(0x45), damaged(0x1B, 3), intact(0x07))
    yield of("damaged entries in the order of the tags' numbers", [0xB7, 0x45, 0x1B, 0x07],
             damaged(0xB7), damaged(0x45, 4), damaged(0x1B, 3), damaged(0x07, 2))
    yield of("a damaged tag listed twice", [0x1B, 0x07], damaged(0x1B, 3), damaged(0x1B, 3), intact(0x07))

    # passed over
    for kind in (0, 14, 15, 0x0107, 0x0700, 65_535):
        yield of("type %d that counts" % kind, [0x07], passed_over(0xB7, kind), intact(0x07), passed_over(0x45, kind))
        yield of("type %d that sets a place" % kind, [0x1B, 0x07, 0x45],
                 passed_over(0x45, kind), passed_over(0x07, kind), intact(0x1B), intact(0x07), intact(0x45))
    yield of("a passed-over entry that takes a tag away", [0x07, 0x45],
             intact(0x07), intact(0x45), passed_over(0x07), passed_over(0x45, 0))
    yield of("an end at the first entry that is passed over", [0xB7, 0x45, 0x07],
             intact(0xB7), passed_over(0x1B), intact(0x45), passed_over(0x200), intact(0x07))
    yield of("a damaged value of a passed-over type that counts", [0x07],
             (0xB7, 14, 100, b"", 4_294_967_295), intact(0x07), (0x45, 0, 100, b"", 4_294_967_295))
    yield of("types 1 and 13 that don't count, or 0 and 14 that do", [0xB7, 0x07, 0x45],
             passed_over(0x07, 0), intact(0xB7, 13), passed_over(0x1B, 14), intact(0x07, 1), intact(0x45, 13), passed_over(0xB7, 0))
    yield of("any of these in one directory", [0xB7, 0x45, 0x07],
             intact(0xB7), damaged(0x45, 4), passed_over(0x1B), intact(0x07), intact(0x45), passed_over(0x07), damaged(0xB7))

    # no value, other tags, tag 0
    yield of("an entry of no values that is not kept", [0x45, 0x07], (0x45, 7, 0, b""), intact(0x07), intact(0x45))
    yield of("tag 0 that is listed", [0xB7, 0x07], intact(0), intact(0xB7), intact(0), damaged(0), intact(0x07), passed_over(0))
    yield of("tag 0 alone that is counted", [], intact(0), intact(0), damaged(0), intact(0, 2))
    yield of("tag 0 that takes places from the four", [0x1B, 0xB7, 0x45, 0x07],
             *[intact(0)] * 5, intact(0x1B), intact(0xB7), intact(0x45), intact(0x07))
    yield of("other tags that are taken for one of the four", [0x45, 0x1B],
             *(intact(tag) for tag in (0x0700, 0x1B00, 0x4500, 0xB700, 0x0107, 0x071B, 0x45, 0xFFB7, 0x06, 0x1B, 0x08, 0xB8)))
    yield of("an order by the values' places", [0xB7, 0x07], (0xB7, 7, 8, b"far away"), (0x07, 2, 8, b"", 8))

    # the directory's place and end
    yield of("an end before the last entry", [0x1B, 0x07], intact(0x200), intact(0x1B), intact(0x07))
    yield "an end behind the last entry", [0x45, 0x07], block_of(
        [intact(0x45), intact(0x07)], order, after=block_of([intact(0x1B)], order)[10:])
    yield "a directory that is always read at 8", [0x45, 0xB7], elsewhere(
        [intact(0x45), intact(0xB7)], [intact(0xB7), intact(0x07), intact(0x45)], order)


def every_directory():
    """These in both byte orders, and a long one."""
    for order in ("big", "little"):
        for case in directories(order):
            yield order, *case
    entries = [intact(0x300 + i) for i in range(258)]
    entries[1], entries[256], entries[257] = intact(0xB7), intact(0x45), intact(0x07)
    yield "little", "the last byte of a place for the place", [0xB7, 0x45, 0x07], block_of(entries, "little")


def cases():
    line = ref.WHOLE_CASE.split(b"\n")[0].decode()
    whole = bytes.fromhex(line)[29:-1]
    yield "the whole case of the specification", whole
    yield "the same, little-endian", block_of([(0xB7, 7, 30, whole[-30:])], "little")
    yield "all four values, big-endian", four_values("big")
    yield "all four values, little-endian", four_values("little")
    yield "an empty directory, no link after it", block_of([])
    yield "an empty directory, little-endian", block_of([], "little")

    for length in range(10):
        yield "%d bytes" % length, b"MM\0*\0\0\0\x08\0\0"[:length]
    yield "7 bytes that would hold a directory", b"II*\0\x05\0\0"
    yield "8 bytes, an empty directory in the header", b"II*\0\x06\0\0\0"
    yield "a mark in the other order", b"MM*\0\0\0\0\x08\0\0"
    yield "a mixed mark", b"IM*\0\x08\0\0\0\0\0"
    yield "offset 4,294,967,295", b"MM\0*\xff\xff\xff\xff\0\0"
    yield "offset 4,294,967,294", b"II*\0\xfe\xff\xff\xff\0\0"
    yield "a directory at the block's last two bytes", b"MM\0*\0\0\0\x0a\0\0\0\0"
    yield "a directory one byte too late", b"MM\0*\0\0\0\x0b\0\0\0\0"
    full = block_of([(7, 2, 1, b"A")])
    yield "a directory that ends with the block", full
    yield "a directory that passes the end by a byte", full[:-1]
    yield "65,535 entries", b"MM\0*\0\0\0\x08\xff\xff" + bytes(24)

    # first kept entries
    yield "a tag twice, the first counts", block_of([(7, 2, 2, b"A\0"), (7, 2, 7, b"MANUAL\0")])
    yield "the first of the wrong type counts", block_of([(7, 7, 7, b"MANUAL\0"), (7, 2, 7, b"MANUAL\0")])
    yield "the first damaged counts", block_of([(7, 2, 7, b"", 4_294_967_295), (7, 2, 7, b"MANUAL\0")])
    for tag, right, count, value, others in (
        (0x1B, 3, 7, numbers("big", 2, *DX), {4: numbers("big", 4, *DX), 8: numbers("big", 2, *DX)}),
        (0x45, 3, 4, numbers("big", 2, *AREA), {1: b"\0\0\1\1", 8: numbers("big", 2, *AREA), 9: numbers("big", 4, *AREA)}),
        (0xB7, 7, 30, record(b"0100", 30), {1: record(b"0100", 30), 2: record(b"0100", 30)}),
    ):
        good = (tag, right, count, value)
        for kind, wrong in others.items():
            yield "tag %04X, the first of type %d counts" % (tag, kind), block_of([(tag, kind, count, wrong), good])
        yield "tag %04X, the first counts, of the right type" % tag, block_of([good, (tag, kind, count, wrong)])
        yield "tag %04X, the first damaged counts" % tag, block_of([(tag, right, count, b"", 4_294_967_295), good])
    yield "types 0, 14 and 65,535 are passed over", block_of(
        [(7, 0, 7, b"NOTHING"), (7, 14, 7, b"NOTHING"), (7, 65_535, 7, b"NOTHING"), (7, 2, 7, b"MANUAL\0")])
    yield "only passed-over types", block_of([(7, 14, 1, b"A"), (0xB7, 0, 1, b"A")])
    yield "tags in falling order", block_of([(0xB7, 7, 1, b"A"), (0x45, 1, 1, b"B"), (7, 6, 1, b"C")])
    yield "other tags only", block_of([(0x700, 2, 1, b"A"), (0x1B00, 3, 1, b"AB"), (1, 4, 1, b"ABCD")])
    for first in (1, 5, 9):
        kinds = range(first, min(first + 4, 14))
        yield "one value of each of the types %s" % ", ".join(map(str, kinds)), block_of(
            [(tag, kind, 1, bytes(range(1, 1 + ref.SIZE_OF_TYPE[kind])))
             for tag, kind in zip(ref.FOUR_TAGS, kinds)])
    yield "one value of type 13", block_of([(7, 13, 1, b"\1\2\3\4")])

    # values
    yield "0, 3, 4 and 5 bytes", block_of(
        [(7, 7, 0, b""), (0x1B, 7, 3, b"abc"), (0x45, 7, 4, b"abcd"), (0xB7, 7, 5, b"abcde")])
    yield "a value that ends with the block, and one a byte further", block_of(
        [(7, 7, 6, b"", 34), (0x1B, 7, 6, b"", 35)], after=b"abcdef")
    yield "values in the header and in the directory", block_of(
        [(7, 7, 8, b"", 0), (0x1B, 3, 7, b"", 0), (0x45, 3, 4, b"", 8)])
    yield "offsets of 4,294,967,295", block_of(
        [(tag, kind, 7, b"", 4_294_967_295) for tag, kind in zip(ref.FOUR_TAGS, (2, 3, 4, 7))])
    yield "counts whose length passes 32 bits", block_of(
        [(7, 2, 4_294_967_295, b"", 0), (0x1B, 3, 2_147_483_655, b"", 0),
         (0x45, 4, 1_073_741_828, b"", 0), (0xB7, 12, 536_870_912, b"", 0)])

    # FocusMode
    yield "MANUAL with nothing after it", text_block(b"MANUAL")
    yield "spaces at both ends", text_block(b"   MANUAL  \0")
    yield "a zero byte, then more", text_block(b"MANUAL\0AUTO")
    yield "a space before the zero byte", text_block(b"MANUAL \0")
    yield "a zero byte in front", text_block(b"\0MANUAL")
    yield "lower case", text_block(b"Manual\0")
    yield "a space inside", text_block(b"MAN UAL\0")
    yield "a tab at the end", text_block(b"MANUAL\t\0")
    yield "only spaces", text_block(b"     \0")
    yield "MANUAL of type 7", text_block(b"MANUAL\0", 7)
    yield "255 bytes before the zero byte", text_block(b"MANUAL".ljust(255) + b"\0")
    yield "256 bytes before the zero byte", text_block(b"MANUAL".ljust(256) + b"\0")
    yield "300 bytes, a zero byte after the sixth", text_block(b"MANUAL".ljust(300, b"\0"))
    yield "300 bytes, spaces in front", text_block(b"MANUAL\0".rjust(300))

    # CropHiSpeed
    shorts = numbers("big", 2, *DX, 9)
    yield "six numbers", block_of([(0x1B, 3, 6, shorts[:12])])
    yield "eight numbers", block_of([(0x1B, 3, 8, shorts)])
    yield "seven numbers of 32 bits", block_of([(0x1B, 4, 7, numbers("big", 4, *DX))])
    yield "seven signed numbers", block_of([(0x1B, 8, 7, shorts[:14])])

    # CropArea
    yield "16 bits", area(3, 16, 8, 6000, 4000)
    yield "32 bits", area(4, 0, 0, 6016, 4016)
    yield "a column too many", area(3, 17, 8, 6000, 4000)
    yield "a row too many", area(3, 16, 17, 6000, 4000)
    yield "a zero width", area(3, 16, 8, 0, 4000)
    yield "a zero height", area(3, 16, 8, 6000, 0)
    yield "a sum that passes 32 bits", area(4, 4_294_967_295, 0, 2, 4016)
    yield "five numbers", area(3, 16, 8, 6000, 4000, 1, count=5)
    yield "bytes", block_of([(0x45, 1, 4, b"\0\0\1\1")])
    for kind, after in ((3, 7), (4, 15)):
        yield "damaged, by a byte, type %d" % kind, block_of([(0x45, kind, 4, b"", 22)], after=bytes(after))

    # records
    for version, layout in sorted(ref.LAYOUTS.items()):
        for length in (layout[0], layout[0] - 1):
            yield "version %s of %d bytes" % (version.decode(), length), recorded(version, length)
    yield "version 0101, little-endian", recorded(b"0101", 84, "little")
    yield "version 0300, little-endian", recorded(b"0300", 61, "little")
    yield "version 0402, little-endian", recorded(b"0402", 80, "little")
    for version in (b"0102", b"0302", b"0403", b"0000", b"1000"):
        yield "version %s" % version.decode(), recorded(version, 90)
    yield "a record of three bytes", block_of([(0xB7, 7, 3, b"010")])
    yield "a record of type 1", block_of([(0xB7, 1, 30, record(b"0100", 30))])
    yield "a damaged record", block_of([(0xB7, 7, 30, b"", 100)], after=record(b"0100", 30))
    for byte in (0, 1, 2, 255):
        yield "in-focus byte %d" % byte, recorded(b"0100", 30, in_focus=byte)
    for mode in ((0, 0), (1, 0), (7, 193), (0, 5), (1, 5), (0, 8), (2, 8), (255, 197),
                 (0, 9), (3, 9), (0, 207), (1, 207), (2, 207), (3, 207), (193, 0)):
        yield "area mode (%d,%d)" % mode, recorded(b"0100", 30, mode=mode)


    # contents
    for order, wrong, tags, block in every_directory():
        if ref.contents(block) != tags:
            sys.exit("%s: by hand %s, the reference %s" % (wrong, tags, ref.contents(block)))
        yield "contents %s, %s-endian; wrong: %s" % (" ".join(map(str, tags)) or "none", order, wrong), block


def long_fronts():
    """Fronts of blocks that are as long as a block may be, or a byte longer."""
    end = LONGEST
    for order in ("big", "little"):
        # The first value ends with the shorter block, the second would end with the longer one.
        yield "the longest block, and a byte more, %s-endian" % order, block_of(
            [(7, 7, 6, b"", end - 6), (0x1B, 3, 7, b"", end - 13),
             (0xB7, 7, 30, record(b"0100", 30, order))], order)
    yield "a directory of no entries that ends with the longest block", b"MM\0*" + number(end - 2, 4, "big")
    yield "one that would end with the block a byte longer", b"MM\0*" + number(end - 1, 4, "big")


def blocks():
    for name, block in cases():
        yield "# %s\n" % name
        yield block.hex() + "\n"
    for name, front in long_fronts():
        yield "# %s\n" % name
        yield "+" + front.hex() + "\n"


def expected(lines):
    for line in lines:
        line = line.rstrip("\n")
        if line.startswith("#"):
            yield line + "\n"
        elif line.startswith("+"):
            for length in (LONGEST, LONGEST + 1):
                yield answer(bytes.fromhex(line[1:]).ljust(length, b"\0")) + "\n"
        else:
            yield answer(bytes.fromhex(line)) + "\n"


def files():
    """The files, as (path, bytes)."""
    crate = os.path.join("crates", "reading_test")
    yield os.path.join(crate, "stdin"), "".join(blocks()).encode()
    yield os.path.join(crate, "stdout"), "".join(expected(blocks())).encode()


def main(arguments):
    if arguments == ["--check"]:
        return stored.run(__doc__, files)
    if arguments not in ([], ["--blocks"]):
        print(__doc__.strip(), file=sys.stderr)
        return 2
    sys.stdout.writelines(blocks() if arguments else expected(sys.stdin))
    return 0


if __name__ == "__main__":
    sys.exit(main(sys.argv[1:]))
