"""Orientations for the stored files: photographs whose points show where they
are put, and lines on them with their answers. Where a number puts a point is
said here outright, as worked out by hand from its steps; reference.py takes the
steps one after the other, and nothing is written where the two differ."""

import demos
import lines
import photographs
import reference
import script
import stored

EIGHT = range(1, 9)

# Where (x, y) in a frame of w by h goes. From 5 on, frame and areas swap sides.
GOES = {
    1: lambda x, y, w, h: (x, y),
    2: lambda x, y, w, h: (w - x, y),
    3: lambda x, y, w, h: (w - x, h - y),
    4: lambda x, y, w, h: (x, h - y),
    5: lambda x, y, w, h: (y, x),
    6: lambda x, y, w, h: (h - y, x),
    7: lambda x, y, w, h: (h - y, w - x),
    8: lambda x, y, w, h: (y, w - x),
}


# ----------------------------------------------------------- the photographs


# Of the D600's points those next to the bottom (10, the primary), the top (13), the right edge (27) and the left one (38).
NAMED = (None, None, reference.MODEL, demos.named_block("little", 10, 1 << 13 - 1 | 1 << 27 - 1 | 1 << 38 - 1))
# Areas that touch the left edge and the bottom, the right edge and the top; half of 301 is 151, rounded up.
LEFT_BOTTOM = photographs.recorded((151, 3900), (301, 200))
RIGHT_TOP = photographs.recorded((5850, 51), (300, 101))
PHOTOGRAPHS = (NAMED, LEFT_BOTTOM, RIGHT_TOP, photographs.CORNER)


def oriented(placed, *numbers):
    """What a load places, after these orientations."""
    for number in numbers:
        frame, swap = placed.frame, -1 if number > 4 else 1
        points = []
        for point in placed.points:
            x, y = GOES[number](point.x, point.y, *frame)
            points.append(reference.Point(point.number, x, y, *(point.width, point.height)[::swap], point.in_focus))
        placed = placed._replace(frame=frame[::swap], points=points)
    return placed


def single(placed, numbers):
    """The one orientation that places as the list does."""
    found, = [number for number in EIGHT if oriented(placed, number) == oriented(placed, *numbers)]
    return found


def smallest_cut(placed):
    """The smallest cut that all points fit, and what it leaves."""
    edges = []
    for axis in (0, 1):
        spans = [(point[1 + axis], (point[3 + axis] + 1) // 2) for point in placed.points]
        low = min(centre - half for centre, half in spans)
        edges.append((low, max(centre + half for centre, half in spans) - low))
    (left, width), (top, height) = edges
    points = [point._replace(x=point.x - left, y=point.y - top) for point in placed.points]
    return (left, top, width, height), placed._replace(frame=(width, height), points=points)


def shown(placed):
    return "\n".join(reference.placed_lines(placed))


# ----------------------------------------- lines, each with its answer or None


def each():
    """Each photograph in each orientation, listed and fitted, with a back in between: 3 by 2 is its shape, near enough, up to 4."""
    for given in PHOTOGRAPHS:
        placed = stored.answer(given)
        yield photographs.load_line(given), "ok"
        for number in EIGHT:
            yield script.orient(number), "ok"
            yield script.LIST, shown(oriented(placed, number))
            box = (300, 200) if number <= 4 else (200, 300)
            yield script.fit(*box), None
            yield script.fit(*box[::-1]), "no 19"
            yield script.BACK, "ok"
        yield script.LIST, shown(placed)


def cuts():
    """Cuts after each orientation, a pixel too wide, a pixel too high, and the smallest; behind it another orientation."""
    placed = stored.answer(NAMED)
    yield photographs.load_line(NAMED), "ok"
    for number in EIGHT:
        before = oriented(placed, number)
        width, height = before.frame
        cut, after = smallest_cut(before)
        yield script.orient(number), "ok"
        yield script.cut(0, 0, width + 1, height), "no 9"
        yield script.cut(0, 0, width, height + 1), "no 9"
        yield script.cut(*cut), "ok"
        yield script.LIST, shown(after)
        yield script.orient(9 - number), "ok"
        yield script.LIST, shown(oriented(after, 9 - number))
        for _ in range(3):
            yield script.BACK, "ok"


def singles():
    """Every two orientations, and longer lists; then, these taken back, the single one that places as they do."""
    placed = stored.answer(LEFT_BOTTOM)
    yield photographs.load_line(LEFT_BOTTOM), "ok"
    lists = [(one, other) for one in EIGHT for other in EIGHT]
    for numbers in lists + [(7, 5, 8), (8, 7, 5, 4, 3, 2) * 3, (2, 5, 8, 3, 6, 7, 4) * 9 + (1,)]:
        listing = shown(oriented(placed, *numbers))
        for number in numbers:
            yield script.orient(number), "ok"
        yield script.LIST, listing
        for _ in numbers:
            yield script.BACK, "ok"
        yield script.orient(single(placed, numbers)), "ok"
        yield script.LIST, listing
        yield script.BACK, "ok"
    yield script.BACK, "no 11"


def refusals():
    """15, and 8 before it. Orientation 1 counts to the 64, and a number that is refused does not."""
    listing = shown(stored.answer(RIGHT_TOP))
    outside = (0, 9, 16, 128, 255)
    yield photographs.load_line(RIGHT_TOP), "ok"
    for number in outside:
        yield script.orient(number), "no 15"
    yield script.BACK, "no 11"
    for _ in range(64):
        yield script.orient(1), "ok"
    for number in (*EIGHT, *outside):
        yield script.orient(number), "no 8"
    yield script.LIST, listing
    yield script.BACK, "ok"
    yield script.orient(0), "no 15"
    yield script.orient(1), "ok"
    yield script.orient(9), "no 8"
    for _ in range(64):
        yield script.BACK, "ok"
    yield script.BACK, "no 11"
    yield script.LIST, listing


def by_chance(seed, times):
    """Each photograph so many times, with orientations, cuts and backs on it."""
    made = lines.Script(seed)
    for given in PHOTOGRAPHS * times:
        made.add(photographs.load_line(given))
        made.calls(15, {"orient": 12, "cut": 6, "back": 3, "list": 6, "fit": 1})
    return ((line, None) for line in made.lines)


def pairs():
    """All of these."""
    yield from each()
    yield from cuts()
    yield from singles()
    yield from refusals()
    yield from by_chance(1, 3)
