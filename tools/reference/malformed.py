#!/usr/bin/env python3
"""malformed.py            write the stored lines of script_test
malformed.py --check    say whether the files are what would be written

Writes crates/script_test/stdin: lines that are malformed in every way, and
the well-formed ones beside them, on an empty sheet and on one with a standing
edit, the contents lines of demos.py, loads that runs against the Rust leave
out, each with a list line after it, and the lines of orientations.py and
boxes.py; and crates/script_test/stdout, what `focusdesk` must print. Which lines
are malformed, and what the loads are answered, is said here, line by line;
nothing is written if reference.py says otherwise. The last feed is missing.
"""

import os
import sys

sys.dont_write_bytecode = True

import boxes
import demos
import orientations
import readers
import reference
import script
import stored

BLOCK = demos.named_block("big", 27, 1 << 0, (0, 8))
OTHER = demos.named_block("little", 2, 1 << 1)
BODY = script.load_body(None, None, reference.MODEL, BLOCK)
TURN, MIRROR = script.orient(6), script.orient(2)
# What script_test has room for: its script, and its answers.
ROOM = (327_680, 131_072)


def filled(line, length):
    """A load or contents line of a whole length, filled up behind its block."""
    body = bytes.fromhex(line.decode())[:-1]
    return script.line(body[0], body[1:].ljust(length // 2 - 2, b"\xa5"))


def with_size(flags, *sides):
    """A load of these flags and sides, whether or not they go together."""
    return script.line(1, bytes([flags]), b"".join(side.to_bytes(4, "big") for side in sides), BODY[17:])


def malformed():
    """Every kind of malformed line."""
    load, cut = script.load(OTHER), script.cut(0, 0, 4016, 6016)
    longest = filled(load, 4096)
    yield from (b"", b" ", b"\r", b"\0")

    # Too long: by a character, by two, with a right check, and where the first 4,096 characters are a whole call.
    yield longest + b"0"
    yield longest + b"00"
    yield longest + TURN
    yield filled(load, 4098)
    yield filled(script.contents(OTHER), 4098)
    yield b"0" * 4097
    yield b" " * 4097
    yield TURN.ljust(4097)
    yield TURN * 1400
    # As long as a line may be, and malformed otherwise.
    yield longest[:-2] + b"00"
    yield longest[:-1] + b"g"
    yield b"g" + longest[1:]
    yield longest[:-1] + b"\r"
    yield longest[:-1]
    yield script.line(10, bytes(2046))
    yield script.line(1, b"\4", bytes(2045))
    yield b"0" * 4096

    # An odd count of digits.
    yield from (b"0", b"9", TURN[:-1], TURN + b"0", b"0" + TURN, load[:-1], cut + b"0", b"000")
    # Another character: beside the digits and letters, a sign, a space, a prefix, bytes above 127.
    for other in b"/:@G`g \t\r\0\x7f\x80\xff+-.,_xX":
        yield TURN[:-1] + bytes([other])
        yield bytes([other]) + TURN[1:]
    yield from (b"09 06F1", b"0906 F1", TURN + b" ", b" " + TURN, b"  " + TURN, b"0x" + TURN, TURN + b"h ", TURN + b"\0\0",
                "٠٩06F1".encode())
    # A carriage return before the feed.
    yield from (TURN + b"\r", TURN + b"\r\r", load + b"\r", cut + b"\r")
    # A wrong check.
    yield from (b"0906F2", b"0906F0", b"09060F", b"090600", b"0906FF", b"0907F1", b"0806F1", b"0900F1", b"0909F1",
                load[:-2] + b"00", cut[:-1] + b"0", b"F10609")
    # One byte, with a check that is right or wrong.
    yield from (b"00", b"01", b"06", b"09", b"FF")
    # An unknown code: 03 and 04 too, which turn and mirror had, and those that workspace_test has for keep and return, 0A and 0B.
    for code in (0, 3, 4, 10, 11, 16, 0x30, 0x83, 0x89, 254, 255):
        yield script.line(code)
        yield script.line(code, b"\6")
        yield script.line(code, b"\4page")
        yield script.line(code, bytes(16))
    # A wrong length for each code.
    yield from (script.line(1), script.line(1, bytes(17)), script.line(1, BODY[:17]))
    for missing in (1, 2, 10):  # the model's length passes the end
        yield script.line(1, BODY[: 28 - missing])
    yield script.line(1, bytes(17), b"\xff", bytes(254))
    for length in (0, 4, 12, 15, 17, 20):
        yield script.line(2, bytes(length))
    for code in (5, 6):
        for length in (1, 4, 2000):
            yield script.line(code, bytes(length))
    for length in (0, 4, 7, 9, 16):
        yield script.line(7, bytes(length))
    yield from (script.line(9), script.line(9, bytes(2000)))
    for more in (b"\0", b"\6", b"\0\0", b"\0\0\0", bytes(15)):  # in front of the number, and behind it
        yield script.line(9, b"\6", more)
        yield script.line(9, more, b"\6")
    yield TURN + TURN
    # A flag byte above 3.
    for flags in (4, 5, 7, 8, 0x80, 0xFF):
        yield with_size(flags, 0, 0, 0, 0)
        yield with_size(flags, 6016, 4016, 6016, 4016)
    # A missing size whose sides aren't 0.
    for flags, sides in (
        (0, (1, 0, 0, 0)), (0, (0, 1, 0, 0)), (0, (0, 0, 1, 0)), (0, (0, 0, 0, 1)), (0, (6016, 4016, 6016, 4016)),
        (1, (6016, 4016, 1, 0)), (1, (6016, 4016, 0, 1)), (1, (0, 0, 6016, 4016)), (1, (0, 0, 0, 0x1000000)),
        (2, (1, 0, 6016, 4016)), (2, (0, 1, 6016, 4016)), (2, (6016, 4016, 0, 0)), (2, (0x1000000, 0, 0, 0)),
    ):
        yield with_size(flags, *sides)


def mixed(line):
    return b"".join(bytes([c]).lower() if i % 3 else bytes([c]).upper() for i, c in enumerate(line))


def first_load():
    yield script.load(BLOCK), "ok"
    yield TURN, "ok"


def well_formed():
    """Lines that come near to being malformed, with their answers."""
    # Points 1 and 27 after a turn, and in any case of letters.
    for way in (bytes.lower, bytes.upper, mixed):
        yield way(script.load(BLOCK)), "ok"
        yield way(TURN), "ok"
        yield way(script.cut(1000, 100, 3016, 5900)), "ok"
        yield way(MIRROR), "ok"
        yield way(script.BACK), "ok"
        yield way(script.BACK), "ok"
    # As long as a line may be: contents, and a load that is accepted, in any case.
    yield filled(script.contents(BLOCK), 4096), "tags 1 183"
    yield filled(script.contents(b""), 4096), "no 1"
    for way in (bytes.lower, bytes.upper, mixed):
        yield way(filled(script.load(BLOCK), 4096)), "ok"
        yield TURN, "ok"
    yield filled(script.load(BLOCK), 4094), "ok"
    yield TURN, "ok"
    # As short as it may be.
    yield script.contents(b""), "no 1"
    yield script.line(1, bytes(18)), "no 1"
    yield script.line(1, bytes(17), b"\xff", bytes(255)), "no 1"
    # Contents of directories in any order, which leave the sheet as it is.
    yield from demos.contents()
    # Each flag, with sides of any size; sides of zero may be given.
    for flags, sides in (
        (0, (0, 0, 0, 0)), (1, (6016, 4016, 0, 0)), (1, (0, 0, 0, 0)), (2, (0, 0, 6016, 4016)), (2, (0, 0, 0, 0)),
        (3, (0, 0, 0, 0)), (3, (4294967295, 1, 1, 4294967295)),
    ):
        yield with_size(flags, *sides), "ok"
        yield TURN, "ok"


FRAME, CENTRE, AREA = (6000, 4000), (3000, 2000), (300, 200)
BOTH, WIDTH, HEIGHT = (3000, 2000), (3000, 4000), (6000, 2000)


def position(*entries):
    """Version 0101 with a position, behind these entries."""
    return demos.recorded_block(b"0101", "big", (FRAME, CENTRE, AREA), 1, (0, 0), entries)


def crop(cropped):
    return (0x1B, 3, 7, readers.numbers("big", 2, 9, *FRAME, *cropped, 0, 0))


def area(kind=3, *offset):
    """A window of 1500 by 1000 in its raw size."""
    return (0x45, kind, 4, readers.numbers("big", 2 if kind in (3, 8) else 4, 8, 6, 1500, 1000), *offset)


def edges():
    """Loads whose answer hangs on one rule: the number that refuses them, or
    what is listed then."""
    raw, as_recorded = (1508, 1006), "frame 6000 4000 points 1 primary 0 mode 1 origin 1\n0 3000 2000 300 200 2"
    halved = "frame 3000 2000 points 1 primary 0 mode 1 origin 1\n0 1500 1000 150 100 2"
    in_window = "frame 1500 1000 points 1 primary 0 mode 1 origin 1\n0 750 500 75 50 2"

    # A picture of 0 by 0 is given, and no missing one: 5 wherever the crop asks for its sides.
    for cropped in (BOTH, WIDTH, HEIGHT):
        block = position(crop(cropped))
        yield script.load(block, None, None), as_recorded
        for picture in ((0, 0), (0, 2000), (3000, 0)):
            yield script.load(block, None, picture), 5
    yield script.load(position(crop(BOTH)), None, BOTH), halved
    # Nothing asks for them without a crop, or with a window.
    yield script.load(position(), None, (0, 0)), as_recorded
    yield script.load(position(crop(FRAME)), None, (0, 0)), as_recorded
    yield script.load(position(crop(BOTH), area()), raw, (0, 0)), in_window

    # A damaged CropArea is unusable: not absent, which would be as recorded or halved, and no window.
    for kind in (3, 4):
        damaged = area(kind, 4294967295)
        for picture in (None, BOTH):
            yield script.load(position(crop(BOTH), damaged), raw, picture), 5
            yield script.load(position(crop(BOTH), damaged, area(kind)), raw, picture), 5
        yield script.load(position(damaged), raw, None), as_recorded  # it is not asked for
        yield script.load(position(crop(BOTH), area(kind)), raw, None), in_window

    # The first entry of a tag counts, even if its type is wrong and that of the second is right.
    for kind in (8, 9):
        for picture in (None, BOTH):
            yield script.load(position(crop(BOTH), area(kind), area()), raw, picture), 5
            yield script.load(position(crop(BOTH), area(), area(kind)), raw, picture), in_window
    for wrong in ((0x1B, 8, 7, crop(BOTH)[3]), (0x1B, 4, 7, readers.numbers("big", 4, 9, *FRAME, *BOTH, 0, 0))):
        yield script.load(position(wrong, crop(BOTH)), None, BOTH), as_recorded
        yield script.load(position(crop(BOTH), wrong), None, BOTH), halved
    for wrong in (1, 2):
        record = position()[-84:]
        both = [(0xB7, wrong, 84, record), (0xB7, 7, 84, record)]
        yield script.load(readers.block_of(both)), 2
        yield script.load(readers.block_of(both[::-1])), as_recorded
    for wrong in (1, 7):
        both = [(0x07, wrong, 7, b"MANUAL\0"), (0x07, 2, 7, b"MANUAL\0")]
        yield script.load(position(*both)), as_recorded
        yield script.load(position(*both[::-1])), 3
    # Or if it is damaged.
    yield script.load(position((*crop(BOTH), 4294967295), crop(BOTH)), None, BOTH), as_recorded
    yield script.load(position((0x07, 2, 7, b"", 4294967295), (0x07, 2, 7, b"MANUAL\0"))), as_recorded
    yield script.load(position((0xB7, 7, 84, b"", 4294967295))), 4
    yield script.load(position((0xB7, 1, 84, b"", 4294967295))), 2


# The points of the load, and where a turn puts them: (x, y) at (4016 - y, x).
LISTED = "frame 6016 4016 points 2 primary 1 mode 3 origin 2\n1 3008 2007 164 164 0\n27 4203 2308 164 164 0"
TURNED = "frame 4016 6016 points 2 primary 1 mode 3 origin 2\n1 2009 3008 164 164 0\n27 1708 4203 164 164 0"


# The whole case's points as they are loaded.
WHOLE_LISTED = "frame 6016 4016 points 2 primary 0 mode 1 origin 2\n1 3008 2007 164 164 0\n16 3486 2007 164 164 0"


def pairs():
    """Each line with its answer, or None where it is only the reference's."""
    for line in malformed():
        yield line, "no 14"
        yield script.LIST, "no 7"
    yield script.BACK, "no 7"
    for number in (*range(10), 16, 128, 255):  # 7 before 15
        yield script.orient(number), "no 7"
    yield from first_load()
    yield script.LIST, TURNED
    for line in malformed():
        yield line, "no 14"
        yield script.LIST, TURNED
    # One edit stands, as before.
    yield script.BACK, "ok"
    yield script.LIST, LISTED
    yield script.BACK, "no 11"
    for line, answer in well_formed():
        yield line, answer
        yield script.LIST, None
    yield script.LIST, TURNED
    shown = TURNED
    for line, answer in edges():
        yield line, "no %d" % answer if isinstance(answer, int) else "ok"
        shown = shown if isinstance(answer, int) else answer
        yield script.LIST, shown
    # The whole case with its old turn, which is malformed: in the frame as it was loaded, the cut would drop the primary.
    load, _, cut, listing = reference.WHOLE_CASE.splitlines()
    yield from ((load, "ok"), (b"03FD", "no 14"), (cut, "no 10"), (listing, WHOLE_LISTED))
    yield from orientations.pairs()
    yield from boxes.pairs()
    yield from first_load()
    # Feeds alone, and a last line without one.
    for _ in range(5):
        yield b"", "no 14"
    yield script.LIST.lower(), TURNED


def files():
    """The files, as (path, bytes)."""
    lines, answers = zip(*pairs())
    book = reference.Book()
    for line, answer in zip(lines, answers):
        own = reference.answer_text(book, line)
        if answer is not None and own != answer + "\n":
            sys.exit("%r...: here %s, the reference %s" % (line[:60], answer, own))
    given = script.text(lines, last_feed=False)
    printed = reference.run_script(given).encode()
    if len(given) > ROOM[0] or len(printed) > ROOM[1]:
        sys.exit("%d bytes, answered with %d: script_test has room for %d and %d" % (len(given), len(printed), *ROOM))
    crate = os.path.join("crates", "script_test")
    yield os.path.join(crate, "stdin"), given
    yield os.path.join(crate, "stdout"), printed
    print("%d lines, of which malformed: %d" % (len(lines), answers.count("no 14")))


if __name__ == "__main__":
    sys.exit(stored.run(__doc__, files))
