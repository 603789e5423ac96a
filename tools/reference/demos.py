#!/usr/bin/env python3
"""demos.py            write the demonstrations
demos.py --check    say whether the files are what would be written

The demonstrations are demo/NAME.txt, a script of call lines, and demo/NAME.out,
what `focusdesk` prints for it; the whole case is also what the program's own
crate is held to, crates/focusdesk/stdin and stdout, there without its last
feed, so that a program which forgets the last line fails. README.md shows them:
there the indented block after `$ ./focusdesk < demo/NAME.txt`, and the number
of its lines if that is said, are written too. What is printed comes from
reference.py. Beside each line stands its answer as worked out by hand from
the specification, with how it comes about, and nothing is written if the
reference says otherwise.
"""

import os
import re
import sys

sys.dont_write_bytecode = True

import readers
import reference
import script
import stored


def at(length, places):
    """A value of this length: bytes at some places, zeros elsewhere."""
    data = bytearray(length)
    for place, given in places.items():
        data[place : place + len(given)] = given
    return bytes(data)


def whole_case():
    # The primary is 1; the mask, 01 80, marks 1 and 16. Orientation 6 is one turn: in the frame of 6016 by 4016, (x, y) goes to
    # (4016 - y, x), 1 to (2009, 3008) and 16 to (2009, 3486). The cut is 400 by 400 from (1900, 2900): 1 is at (109, 108), and
    # 16, at (109, 586), is unlisted.
    yield from zip(
        ["0100000000000000000000000000000000000A4E494B4F4E20443630304D4D002A00000008000100B700070000001E0000001630313030"
         "000003010180000000000000000000000000000000000000000077",
         "0906F1", "020000076C00000B5400000190000001900A", "06FA"],
        ["ok", "ok", "ok", "frame 400 400 points 1 primary 0 mode 1 origin 2\n1 109 108 164 164 0"])


def named_block(order, primary, mask, mode=(0, 0), crop=None, focus_mode=None):
    """Version 0100 without a recorded position: layout 3, a primary, a mask."""
    record = at(30, {0: b"0100", 4: bytes([*mode, 3, primary]), 8: mask.to_bytes(7, "little")})
    entries = [(0xB7, 7, 30, record)]
    if crop:
        entries.insert(0, (0x1B, 3, 7, readers.numbers(order, 2, *crop)))
    if focus_mode:
        entries.insert(0, (0x07, 2, len(focus_mode), focus_mode))
    return readers.block_of(entries, order)


def dx_crop():
    # CropHiSpeed mode 2 at (1040, 696). The mask marks 1 and 38; the primary, 27, is not marked and is listed all the same.
    # Bytes 4 and 5 are (0, 8): Auto, 3.
    block = named_block("big", 27, 1 << 0 | 1 << 37, (0, 8), (2, 6080, 4028, 3968, 2636, 1040, 696))
    yield script.contents(block), "tags 2 27 183"
    yield script.load(block, None, (3936, 2624)), "ok"
    # Each centre less (1040, 696), in the frame 3936 by 2624, in the table's order; 27 is the second, so its index is 1.
    #   1: (3008 - 1040, 2007 - 696) = (1968, 1311)
    #  27: (4203 - 1040, 2308 - 696) = (3163, 1612)
    #  38: (1812 - 1040, 1705 - 696) = ( 772, 1009)
    shown = ("frame 3936 2624 points 3 primary 1 mode 3 origin 2\n"
             "1 1968 1311 164 164 0\n27 3163 1612 164 164 0\n38 772 1009 164 164 0")
    yield script.LIST, shown
    # Orientation 6, a turn: (x, y) goes to (2624 - y, x), in the frame 2624 by 3936.
    yield script.orient(6), "ok"
    yield script.LIST, ("frame 2624 3936 points 3 primary 1 mode 3 origin 2\n"
                        "1 1313 1968 164 164 0\n27 1012 3163 164 164 0\n38 1615 772 164 164 0")
    # Orientation 2, a mirror: (2624 - x, y). Turned and mirrored, every (x, y) of the load is at (y, x).
    yield script.orient(2), "ok"
    yield script.LIST, ("frame 2624 3936 points 3 primary 1 mode 3 origin 2\n"
                        "1 1311 1968 164 164 0\n27 1612 3163 164 164 0\n38 1009 772 164 164 0")
    # A cut from (1200, 1800): 1 at (111, 168) and 27 at (412, 1363) fit 700 by 1500, as 82 <= 111, 82 <= 168, 412 + 82 <= 700
    # and 1363 + 82 <= 1500. 38 lies to the left of it and is unlisted.
    yield script.cut(1200, 1800, 700, 1500), "ok"
    yield script.LIST, "frame 700 1500 points 2 primary 1 mode 3 origin 2\n1 111 168 164 164 0\n27 412 1363 164 164 0"
    # Three backs take off the cut, the mirror and the turn.
    for _ in range(3):
        yield script.BACK, "ok"
    yield script.LIST, shown
    # The same crop with a picture of another size cannot be placed, and the sheet is kept; without a size it can.
    yield script.load(block, None, (4512, 3008)), "no 6"
    yield script.LIST, shown
    yield script.load(block), "ok"
    yield script.LIST, shown


def contents():
    # 00B7, 0007 whose value lies past the block's end, 001B of type 14, 0045, and 0007 again. Types 1 to 13 are kept, damaged
    # values too, so all but 001B; and 0007 stands where its first entry does, before 0045.
    entries = [(0xB7, 7, 4, b"0100"), (0x07, 2, 5, b"", 4294967295), (0x1B, 14, 1, b""), (0x45, 3, 1, b"\0\1"),
               (0x07, 2, 3, b"AF\0")]
    yield script.contents(readers.block_of(entries)), "tags 3 183 7 69"
    # The same directory in a little-endian block.
    yield script.contents(readers.block_of(entries, "little")), "tags 3 183 7 69"
    # The other way round: 0007, 0045, 001B of type 14, 0007 with the damaged value, and 00B7.
    yield script.contents(readers.block_of(entries[::-1])), "tags 3 7 69 183"
    # 001B of type 14, 0045, 001B of type 3: the first that is kept stands behind 0045.
    yield script.contents(readers.block_of([(0x1B, 14, 1, b""), (0x45, 3, 1, b"\0\1"), (0x1B, 3, 1, b"\0\2")])), "tags 2 69 27"
    # None of the four.
    yield script.contents(readers.block_of([(0x01, 7, 4, b"0211"), (0x02, 3, 2, readers.numbers("big", 2, 0, 100))])), "tags 0"


def recorded_block(version, order, position, in_focus, mode, entries):
    """A record with frame, centre and area at their places, behind other entries."""
    length, frame, centre, area, byte = reference.LAYOUTS[version]
    pairs = (readers.numbers(order, 2, *pair) for pair in position)
    places = dict(zip((frame, centre, area), pairs))
    record = at(length, {0: version, 4: bytes(mode), byte: bytes([in_focus]), **places})
    return readers.block_of([*entries, (0xB7, 7, length, record)], order)


def recorded():
    # Version 0101, little-endian. CropHiSpeed cuts both sides, and CropArea gives a window of 4000 by 3000 in raw data of 4016
    # by 3012: the position, recorded in 6000 by 4000, is scaled to 4000 by 3000. Bytes 4 and 5 are (1, 207): Tracking, 4.
    # In-focus is 1, yes: 2.
    block = recorded_block(b"0101", "little", ((6000, 4000), (1503, 2001), (401, 300)), 1, (1, 207), [
        (0x1B, 3, 7, readers.numbers("little", 2, 9, 6016, 4016, 4016, 3012, 1000, 502)),
        (0x45, 4, 4, readers.numbers("little", 4, 8, 6, 4000, 3000))])
    yield script.contents(block), "tags 3 27 69 183"
    yield script.load(block, (4016, 3012), None, b"NIKON D4"), "ok"
    # x      floor((1503 * 4000 + 3000) / 6000) = floor(1002.5)  = 1002
    # y      floor((2001 * 3000 + 2000) / 4000) = floor(1501.25) = 1501
    # width  floor(( 401 * 4000 + 3000) / 6000) = floor(267.83)  =  267
    # height floor(( 300 * 3000 + 2000) / 4000) = floor(225.5)   =  225
    shown = "frame 4000 3000 points 1 primary 0 mode 4 origin 1\n0 1002 1501 267 225 2"
    yield script.LIST, shown
    # A cut from (700, 1200): (302, 301). ceil(267 / 2) = 134 and ceil(225 / 2) = 113 are left of and above it, and
    # 302 + 134 <= 800, 301 + 113 <= 600.
    yield script.cut(700, 1200, 800, 600), "ok"
    cut = "frame 800 600 points 1 primary 0 mode 4 origin 1\n0 302 301 267 225 2"
    yield script.LIST, cut
    # Fitted to a box of 200 by 150, from the present frame of 800 by 600:
    # x      floor((302 * 200 + 400) / 800) = floor(76)    = 76
    # y      floor((301 * 150 + 300) / 600) = floor(75.75) = 75
    # width  floor((267 * 200 + 400) / 800) = floor(67.25) = 67
    # height floor((225 * 150 + 300) / 600) = floor(56.75) = 56
    yield script.fit(200, 150), "frame 200 150 points 1 primary 0 mode 4 origin 1\n0 76 75 67 56 2"
    # A box may be off by the longest of the four sides, here 800, and one of 200 by 151 is: 800 * 151 - 600 * 200 = 800.
    # y      floor((301 * 151 + 300) / 600) = floor(76.25) = 76
    # height floor((225 * 151 + 300) / 600) = floor(57.125) = 57
    yield script.fit(200, 151), "frame 200 151 points 1 primary 0 mode 4 origin 1\n0 76 76 67 57 2"
    # 200 by 152 has another shape: 800 * 152 - 600 * 200 = 1600.
    yield script.fit(200, 152), "no 19"
    # To a single pixel, off by 800 - 600 = 200: x = floor((302 + 400) / 800) = 0, y = floor((301 + 300) / 600) = 1. Both sides come
    # out as 0 and are raised to 1; the nearer of centre and frame - centre is 0 on both axes, so nothing is left of the area.
    yield script.fit(1, 1), "frame 1 1 points 1 primary 0 mode 4 origin 1\n0 0 1 0 0 2"
    # Fit leaves the sheet alone; back takes the cut off it.
    yield script.LIST, cut
    yield script.BACK, "ok"
    yield script.LIST, shown
    # Version 0402, big-endian. CropHiSpeed cuts the height alone, and only a picture size says how much: the window's height
    # is floor((6048 * 3024 + 2688) / 5376) = floor(3402.5) = 3402, so a centre loses floor((4032 - 3402) / 2) = 315 in y.
    # Bytes 4 and 5 are (0, 5): Dynamic, 2. In-focus is 0, no: 1.
    block = recorded_block(b"0402", "big", ((6048, 4032), (3024, 1000), (320, 240)), 0, (0, 5), [
        (0x1B, 3, 7, readers.numbers("big", 2, 12, 6048, 4032, 6048, 3402, 0, 315))])
    yield script.load(block, None, (5376, 3024), b"NIKON Z 8"), "ok"
    yield script.LIST, "frame 6048 3402 points 1 primary 0 mode 2 origin 1\n0 3024 685 320 240 1"


def orientations():
    # A position recorded in 6000 by 4000, at (1000, 700), with an area of 400 by 200. In a frame of w by h a mirror takes (x, y)
    # to (w - x, y), and a turn takes it to (h - y, x) and swaps the sides of frame and area. Step by step:
    position = ((6000, 4000), (1000, 700), (400, 200))
    yield script.load(recorded_block(b"0101", "big", position, 1, (0, 0), []), None, None, b"NIKON D4"), "ok"
    upright = "frame 6000 4000 points 1 primary 0 mode 1 origin 1\n0 %d %d 400 200 2"
    on_its_side = "frame 4000 6000 points 1 primary 0 mode 1 origin 1\n0 %d %d 200 400 2"
    for number, shown in (
        (1, upright % (1000, 700)),
        (2, upright % (5000, 700)),  # mirror: (6000 - 1000, 700)
        (3, upright % (5000, 3300)),  # turn: (4000 - 700, 1000) = (3300, 1000); turn: (6000 - 1000, 3300)
        # mirror: (5000, 700); turn: (4000 - 700, 5000) = (3300, 5000); turn: (6000 - 5000, 3300)
        (4, upright % (1000, 3300)),
        (5, on_its_side % (700, 1000)),  # the same, and a turn: (4000 - 3300, 1000)
        (6, on_its_side % (3300, 1000)),  # turn: (4000 - 700, 1000)
        (7, on_its_side % (3300, 5000)),  # mirror: (5000, 700); turn: (4000 - 700, 5000)
        (8, on_its_side % (700, 5000)),  # as 3: (5000, 3300); turn: (4000 - 3300, 5000)
    ):
        yield script.orient(number), "ok"
        yield script.LIST, shown
        yield script.BACK, "ok"
    yield script.LIST, upright % (1000, 700)
    # 6 and then 2: (3300, 1000) in 4000 by 6000; mirror: (4000 - 3300, 1000). That is where 5 alone puts it.
    yield script.orient(6), "ok"
    yield script.orient(2), "ok"
    yield script.LIST, on_its_side % (700, 1000)


def columns():
    # A position recorded in 6000 by 4000, at (2400, 1500), with an area of 400 by 300. A cut of 3600 by 2100 from (1200, 600):
    # (1200, 900). Half of the area is 200 by 150, so that it fits.
    position = ((6000, 4000), (2400, 1500), (400, 300))
    yield script.load(recorded_block(b"0101", "big", position, 1, (0, 0), []), None, None, b"NIKON D4"), "ok"
    yield script.cut(1200, 600, 3600, 2100), "ok"
    cut = "frame 3600 2100 points 1 primary 0 mode 1 origin 1\n0 1200 900 400 300 2"
    yield script.LIST, cut
    # A page of columns of 276, 16 apart: two are 568 wide, three are 860. The box's blank height is scale(2100, 3600, width).
    # box    floor((2100 * 276 + 1800) / 3600) = floor(161.5) = 161
    # x      floor((1200 * 276 + 1800) / 3600) = floor(92.5)  =  92
    # y      floor(( 900 * 161 + 1050) / 2100) = floor(69.5)  =  69
    # width  floor(( 400 * 276 + 1800) / 3600) = floor(31.17) =  31
    # height floor(( 300 * 161 + 1050) / 2100) = floor(23.5)  =  23
    yield script.fit(276, 0), "frame 276 161 points 1 primary 0 mode 1 origin 1\n0 92 69 31 23 2"
    # box    floor((2100 * 568 + 1800) / 3600) = floor(331.83) = 331
    # x      floor((1200 * 568 + 1800) / 3600) = floor(189.83) = 189
    # y      floor(( 900 * 331 + 1050) / 2100) = floor(142.36) = 142
    # width  floor(( 400 * 568 + 1800) / 3600) = floor(63.61)  =  63
    # height floor(( 300 * 331 + 1050) / 2100) = floor(47.79)  =  47
    yield script.fit(568, 0), "frame 568 331 points 1 primary 0 mode 1 origin 1\n0 189 142 63 47 2"
    # box    floor((2100 * 860 + 1800) / 3600) = floor(502.17) = 502
    # x      floor((1200 * 860 + 1800) / 3600) = floor(287.17) = 287
    # y      floor(( 900 * 502 + 1050) / 2100) = floor(215.64) = 215
    # width  floor(( 400 * 860 + 1800) / 3600) = floor(96.06)  =  96
    # height floor(( 300 * 502 + 1050) / 2100) = floor(72.21)  =  72
    three = "frame 860 502 points 1 primary 0 mode 1 origin 1\n0 287 215 96 72 2"
    yield script.fit(860, 0), three
    # The same box with both its sides.
    yield script.fit(860, 502), three
    # A row of 250, its width blank: scale(3600, 2100, 250).
    # box    floor((3600 * 250 + 1050) / 2100) = floor(429.07) = 429
    # x      floor((1200 * 429 + 1800) / 3600) = floor(143.5)  = 143
    # y      floor(( 900 * 250 + 1050) / 2100) = floor(107.64) = 107
    # width  floor(( 400 * 429 + 1800) / 3600) = floor(48.17)  =  48
    # height floor(( 300 * 250 + 1050) / 2100) = floor(36.21)  =  36
    yield script.fit(0, 250), "frame 429 250 points 1 primary 0 mode 1 origin 1\n0 143 107 48 36 2"
    # A half goes up: 2100 * 30 / 3600 = 17.5.
    # box    floor((2100 * 30 + 1800) / 3600) = floor(18)   = 18
    # x      floor((1200 * 30 + 1800) / 3600) = floor(10.5) = 10
    # y      floor(( 900 * 18 + 1050) / 2100) = floor(8.21) =  8
    # width  floor(( 400 * 30 + 1800) / 3600) = floor(3.83) =  3
    # height floor(( 300 * 18 + 1050) / 2100) = floor(3.07) =  3
    yield script.fit(30, 0), "frame 30 18 points 1 primary 0 mode 1 origin 1\n0 10 8 3 3 2"
    # Nothing is given.
    yield script.fit(0, 0), "no 12"
    # The sheet is as it was.
    yield script.LIST, cut
    # On its side, in 2100 by 3600, at (2100 - 900, 1200): scale(3600, 2100, 276).
    # box    floor((3600 * 276 + 1050) / 2100) = floor(473.64) = 473
    # x      floor((1200 * 276 + 1050) / 2100) = floor(158.21) = 158
    # y      floor((1200 * 473 + 1800) / 3600) = floor(158.17) = 158
    # width  floor(( 300 * 276 + 1050) / 2100) = floor(39.93)  =  39
    # height floor(( 400 * 473 + 1800) / 3600) = floor(53.06)  =  53
    yield script.orient(6), "ok"
    yield script.fit(276, 0), "frame 276 473 points 1 primary 0 mode 1 origin 1\n0 158 158 39 53 2"
    yield script.BACK, "ok"
    # A flat cut, of 3600 by 300 from (0, 750): (1200, 150). A column of 5, and one of 6:
    # box    floor(( 300 * 5 + 1800) / 3600) = floor(0.92) = 0
    # box    floor(( 300 * 6 + 1800) / 3600) = floor(1)    = 1
    # x      floor((1200 * 6 + 1800) / 3600) = floor(2.5)  = 2
    # y      floor(( 150 * 1 + 150) / 300)   = floor(1)    = 1
    # width  floor(( 400 * 6 + 1800) / 3600) = floor(1.17) = 1
    # height floor(( 300 * 1 + 150) / 300)   = floor(1.5)  = 1
    # From y = 1 to the lower edge nothing is left, and so nothing of the area.
    yield script.cut(0, 750, 3600, 300), "ok"
    yield script.fit(5, 0), "no 12"
    yield script.fit(6, 0), "frame 6 1 points 1 primary 0 mode 1 origin 1\n0 2 1 0 0 2"


def refusals():
    plain = named_block("big", 1, 1)
    yield script.load(plain[:7]), "no 1"  # a block of seven bytes
    yield script.load(readers.block_of([(0x07, 2, 5, b"AF-S\0")])), "no 2"  # no record
    yield script.load(named_block("big", 1, 1, focus_mode=b" MANUAL \0")), "no 3"
    yield script.load(readers.block_of([(0xB7, 7, 29, at(29, {0: b"0100", 6: b"\3\1"}))])), "no 4"  # a byte short
    outside = ((6016, 4016), (100, 2000), (201, 200))  # half of 201 is 101, rounded up, and 101 > 100
    yield script.load(recorded_block(b"0101", "big", outside, 1, (0, 0), [])), "no 5"
    yield script.load(named_block("big", 0, 1)), "no 6"  # primary 0
    yield script.LIST, "no 7"
    yield script.orient(0), "no 7"  # 15 applies as well, and the lowest number is returned
    # Point 1 of the table, as it is; 64 turns are sixteen times around.
    yield script.load(plain), "ok"
    shown = "frame 6016 4016 points 1 primary 0 mode 1 origin 2\n1 3008 2007 164 164 0"
    for _ in range(64):
        yield script.orient(6), "ok"
    yield script.orient(1), "no 8"
    yield script.orient(9), "no 8"  # and not 15
    yield script.cut(0, 0, 0, 0), "no 8"  # and not 9
    yield script.LIST, shown
    # 63 turns: once counterclockwise, (x, y) at (y, 6016 - x) in a frame of 4016 by 6016.
    yield script.BACK, "ok"
    yield script.cut(0, 0, 4016, 6017), "no 9"
    yield script.cut(0, 0, 400, 0), "no 9"  # a zero side
    yield script.cut(0, 0, 400, 400), "no 10"  # the primary is elsewhere
    yield script.LIST, "frame 4016 6016 points 1 primary 0 mode 1 origin 2\n1 2007 3008 164 164 0"
    yield script.load(plain), "ok"
    yield script.BACK, "no 11"  # the load has replaced the edits
    yield script.fit(0, 0), "no 12"  # no sides
    # A cut of 6016 by 164, which point 1 just fits: a column of 18 is floor((164 * 18 + 3008) / 6016) = floor(0.99) = 0 high.
    yield script.cut(0, 1925, 6016, 164), "ok"
    yield script.fit(18, 0), "no 12"
    yield script.BACK, "ok"
    yield script.fit(1200, 800), "no 19"  # 4016 * 1200 - 6016 * 800 = 6400, and the longest side is 6016
    yield script.fit(4016, 6016), "no 19"  # the frame on its side, as it was listed above
    body = script.load_body(None, None, reference.MODEL, plain)
    for malformed in (
        b"",  # an empty line
        b"06F",  # an odd count of digits
        b"0X06FA",  # another character
        b"06FB",  # a wrong check
        b"03FD",  # an unknown code: 03 was a turn
        b"04FC",  # likewise: 04 was a mirror
        script.line(9),  # a wrong length: an orientation without its number
        script.line(9, b"\6\6"),  # and one with two
        script.line(1, b"\4", body[1:]),  # a flag byte of 4
        script.line(1, b"\0\0\0\0\1", body[5:]),  # a missing size with a side of 1
        script.contents(bytes(2047)),  # 4,098 characters
    ):
        yield malformed, "no 14"
    yield script.orient(0), "no 15"
    yield script.orient(9), "no 15"
    yield script.LIST, shown


def worked(pairs):
    """A script whose answers are worked out by hand."""
    lines, answers = zip(*((line.encode() if isinstance(line, str) else line, answer) for line, answer in pairs))
    given = script.text(lines)
    printed = reference.run_script(given)
    by_hand = "".join(answer + "\n" for answer in answers)
    if printed != by_hand:
        for line, answer, own in zip(lines, by_hand.splitlines(), printed.splitlines()):
            if answer != own:
                sys.exit("by hand: %s\nthe reference: %s" % (answer, own))
        sys.exit("the reference prints another number of lines than by hand")
    return given, printed.encode()


# A block that README.md shows: behind its command, or behind a summary that ends with the number of its lines.
SHOWN = re.compile(r"""(\$ \./focusdesk < demo/([\w-]+)\.txt)(</code>: )?(?(3)\d+( lines</summary>\n))\n(?:    .*\n)*""")


def readme(text, printed):
    """README.md with what is printed, by name, in the blocks that show it."""
    def block(match):
        command, name, before, after = match.groups()
        if name not in printed:
            sys.exit("README.md shows demo/%s.txt, which is not written here" % name)
        lines = printed[name].decode().splitlines()
        said = before + str(len(lines)) + after if before else ""
        return command + said + "\n" + "".join("    " + line + "\n" for line in lines)

    return SHOWN.sub(block, text.decode()).encode()


def files():
    """The files, as (path, bytes)."""
    shown = {}
    for name, pairs in (
        ("whole-case", whole_case()), ("dx-crop", dx_crop()), ("recorded", recorded()), ("columns", columns()),
        ("orientations", orientations()), ("contents", contents()), ("refusals", refusals()),
    ):
        given, printed = worked(pairs)
        shown[name] = printed
        yield os.path.join("demo", name + ".txt"), given
        yield os.path.join("demo", name + ".out"), printed
        if name == "whole-case":
            yield os.path.join("crates", "focusdesk", "stdin"), given[:-1]
            yield os.path.join("crates", "focusdesk", "stdout"), printed
    # 13 is of shorter buffers, 16 to 18 are of keeps and returns.
    missing = ["no %d" % n for n in (*range(1, 13), 14, 15, 19) if b"no %d" % n not in shown["refusals"].splitlines()]
    if missing:
        sys.exit("demo/refusals.txt does not show %s" % ", ".join(missing))
    text = stored.read("README.md")
    yield "README.md", readme(text, shown)
    there = [match[2] for match in SHOWN.finditer(text.decode())]
    if sorted(there) != sorted(shown):
        sys.exit("README.md is to show each of %s once, and shows %s" % (", ".join(shown), ", ".join(there)))
    print("README.md shows: %s" % ", ".join(there))


if __name__ == "__main__":
    sys.exit(stored.run(__doc__, files))
