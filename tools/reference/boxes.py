"""Boxes for the stored files, with their lines: of a frame's shape, just so and
just not, and with a side left blank. How far off a box is, |frame width * box
height - frame height * box width|, is said here outright, and so is the worked
side; both a worked side and a fitted point are worked out in fractions, too, and
nothing is written where reference.py says otherwise."""

import fractions
import math
import sys

import demos
import orientations
import photographs
import reference
import script
import stored

MOST = reference.MAX_U32

# Point 10 of the D600, at (3247, 2510) in 6016 by 4016.
NAMED = (None, None, reference.MODEL, demos.named_block("big", 10, 0))

# A photograph, and a cut of it or none. Boxes: width, height, how far off, which may be as much as the longest of the four sides.
# Boxes with a blank side, 0: width, height, the worked side, how far off the worked box is.
FITS = (
    # 6016 by 4016: itself, a part, its largest multiple; off by the most, by less, by too much; the sides exchanged.
    (NAMED, None, (
        (6016, 4016, 0), (376, 251, 0), (4294966784, 2867118784, 0), (376, 252, 6016), (376, 250, 6016), (300, 200, 1600),
        (1, 1, 2000), (4294967295, 2867119125, 720), (376, 253, 12032), (376, 249, 12032), (3, 1, 6032), (1200, 800, 6400),
        (4016, 6016, 20064000)),
     # A half (125.5) goes up; the widest. Rows: 4294967295.18 and so not capped, the first and the last that are, refused ones.
     ((6016, 0, 4016, 0), (376, 0, 251, 0), (300, 0, 200, 1600), (1200, 0, 801, 384), (1, 0, 1, 2000), (188, 0, 126, 3008),
      (5000, 0, 3338, 1408), (MOST, 0, 2867119125, 720), (0, 4016, 6016, 0), (0, 251, 376, 0), (0, 200, 300, 1600),
      (0, 1, 1, 2000), (0, 5000, 7490, 160), (0, 2867119125, MOST, 720), (0, 2867119126, MOST, 5296),
      (0, 2867833049, MOST, 4294966064), (0, 2867833050, MOST, 4294972080), (0, MOST, MOST, 2000 * MOST))),
    # 503 by 400: one below, at and above the frame's 503, twice each; then the box's width.
    (NAMED, (3000, 2300, 503, 400), (
        (210, 166, 502), (293, 234, 502), (503, 399, 503), (503, 401, 503), (293, 232, 504), (210, 168, 504),
        (740, 587, 739), (646, 515, 645), (1006, 798, 1006), (1006, 802, 1006), (769, 610, 770), (863, 688, 864)),
     # 199.60 and 200.40; halves, 251.5 and 754.5, go up; 4294967294.62, and 4294967295.88, which is capped.
     ((1, 0, 1, 103), (100, 0, 80, 240), (251, 0, 200, 200), (252, 0, 200, 200), (5000, 0, 3976, 72), (MOST, 0, 3415480950, 150),
      (0, 1, 1, 103), (0, 200, 252, 200), (0, 600, 755, 200), (0, 3415480950, MOST, 150), (0, 3415480951, MOST, 353),
      (0, 3424019652, MOST, 4294966956), (0, 3424019653, MOST, 4294967459))),
    # 3 by 2, 3 by 1 and 1 by 2.
    (photographs.CORNER, None, (
        (1, 1, 1), (3, 1, 3), (3, 3, 3), (4, 4, 4), (1, 2, 4), (2, 3, 5), (5, 2, 4), (5, 5, 5), (5, 6, 8)),
     # 0.67, 1.33, 2.67; 1.5 and 4.5; 4294967295, and 4294967296.5, which is capped; the highest is off by as much as may be.
     ((1, 0, 1, 1), (2, 0, 1, 1), (3, 0, 2, 0), (4, 0, 3, 1), (MOST, 0, 2863311530, 0), (0, 1, 2, 1), (0, 2, 3, 0), (0, 3, 5, 1),
      (0, 2863311530, MOST, 0), (0, 2863311531, MOST, 3), (0, MOST, MOST, MOST))),
    (photographs.CORNER, (0, 1, 3, 1), ((1, 1, 2), (3, 2, 3), (2, 2, 4), (7, 1, 4), (7, 5, 8), (8, 5, 7)),
     # 0.33, which is 0, and 0.67; three times a row, up to the largest; capped, off by 3, the most but 3, the most, and more.
     ((1, 0, 0, None), (2, 0, 1, 1), (4, 0, 1, 1), (5, 0, 2, 1), (MOST, 0, 1431655765, 0), (0, 1, 3, 0), (0, 1431655765, MOST, 0),
      (0, 1431655766, MOST, 3), (0, 2863311529, MOST, MOST - 3), (0, 2863311530, MOST, MOST), (0, 2863311531, MOST, MOST + 3))),
    (photographs.CORNER, (0, 0, 1, 2), (
        (1, 1, 1), (2, 1, 3), (1, MOST, MOST - 2), (2, MOST, MOST - 4), (MOST, MOST, MOST)),
     # Twice a column, up to the largest but one, and capped; half a row, which goes up.
     ((1, 0, 2, 0), (2147483647, 0, MOST - 1, 0), (2147483648, 0, MOST, 1), (MOST, 0, MOST, MOST), (0, 1, 1, 1), (0, 2, 1, 0),
      (0, 3, 2, 1), (0, MOST, 2147483648, 1))),
    # 4294967295 by 2, and by 1.
    (photographs.WIDE, None, (
        (1, 1, MOST - 2), (MOST, 1, MOST), (MOST, 3, MOST), (MOST - 1, 3, MOST + 2), (MOST, MOST, MOST * MOST - 2 * MOST)),
     # Less than half a pixel, and more; 2147483647.5; capped from half as much again, and, refused, from twice as much.
     ((1, 0, 0, None), (1073741823, 0, 0, None), (1073741824, 0, 1, 2147483647), (MOST, 0, 2, 0), (0, 1, 2147483648, 1),
      (0, 2, MOST, 0), (0, 3, MOST, MOST), (0, 4, MOST, 2 * MOST), (0, MOST, MOST, MOST * MOST - 2 * MOST))),
    (photographs.WIDE, (0, 1, MOST, 1), ((1, 1, MOST - 1), (MOST, 2, MOST), (MOST - 1, 2, MOST + 1), (2, MOST, MOST * MOST - 2)),
     ((1, 0, 0, None), (2147483647, 0, 0, None), (2147483648, 0, 1, 2147483647), (MOST, 0, 1, 0), (0, 1, MOST, 0),
      (0, 2, MOST, MOST), (0, 3, MOST, 2 * MOST))),
    # 1 by 4294967295.
    (photographs.TALL, None, ((1, 1, MOST - 1), (2, MOST, MOST), (2, MOST - 1, MOST + 1)),
     ((1, 0, MOST, 0), (2, 0, MOST, MOST), (3, 0, MOST, 2 * MOST), (MOST, 0, MOST, MOST * MOST - MOST), (0, 1, 0, None),
      (0, 5000, 0, None), (0, 2147483647, 0, None), (0, 2147483648, 1, 2147483647), (0, MOST, 1, 0))),
    # 4294967295 by 4294967294; the last box's products lie on either side of 2 to the 63rd.
    (photographs.LARGEST, None, (
        (MOST - 1, MOST - 1, MOST - 1), (MOST, MOST, MOST), (1, 2, MOST + 1), (2, 1, MOST - 2), (MOST, MOST - 3, 2 * MOST),
        (2147483649, 2147483649, 2147483649)),
     # A column of g is g - g / 4294967295 high, a row of g is g + g / 4294967294 wide: less than half a pixel from g, and more.
     ((1, 0, 1, 1), (2147483647, 0, 2147483647, 2147483647), (2147483648, 0, 2147483647, 2147483647), (MOST, 0, MOST - 1, 0),
      (0, 1, 1, 1), (0, 2147483646, 2147483646, 2147483646), (0, 2147483647, 2147483648, 2147483647), (0, MOST - 1, MOST, 0),
      (0, MOST, MOST, MOST))),
)


def each_box(boxes, blanks):
    """Each box as it is given, as it is worked out, and how far off it then is."""
    for *box, off in boxes:
        yield box, box, off
    for width, height, side, off in blanks:
        yield [width, height], [width or side, height or side], off


# ------------------------------------------------------- lines and their answers


def nearest(v, old, new):
    """v scaled, in the nearest pixel; a half goes up."""
    return math.floor(fractions.Fraction(v * new, old) + fractions.Fraction(1, 2))


def worked(frame, box):
    """The box with its blank side, if one is blank, in the frame's proportion, as far as a number reaches."""
    if box.count(0) != 1:
        return box
    blank = box.index(0)
    side = min(nearest(frame[blank], frame[1 - blank], box[1 - blank]), MOST)
    return [side if axis == blank else box[axis] for axis in (0, 1)]


def fitted(placed, box):
    """What is placed, in a box: no area reaches over its edges, nor is narrower than a pixel if any of it is left."""
    points = []
    for point in placed.points:
        centre = [nearest(v, old, new) for v, old, new in zip(point[1:3], placed.frame, box)]
        area = [min(max(1, nearest(v, old, new)), 2 * at, 2 * (new - at))
                for v, old, new, at in zip(point[3:5], placed.frame, box, centre)]
        if 0 in area or 0 in point[3:5]:
            area = [0, 0]
        points.append(reference.Point(point.number, *centre, *area, point.in_focus))
    return placed._replace(frame=tuple(box), points=points)


def cut_of(placed, left, top, *frame):
    """What is placed, cut; every point is on the cut."""
    points = [point._replace(x=point.x - left, y=point.y - top) for point in placed.points]
    return placed._replace(frame=tuple(frame), points=points)


def answer(placed, given, box, off):
    """The answer to a box as it is given, which is worked out as `box` and is then so far off."""
    frame = placed.frame
    if worked(frame, given) != box:
        sys.exit("%s in %s: here worked out as %s, by fractions as %s" % (given, frame, box, worked(frame, given)))
    if 0 in box:
        return "no 12"
    own = reference.shape_difference(frame, box)
    if own != off:
        sys.exit("%s in %s: here %d off, the reference %d" % (box, frame, off, own))
    return orientations.shown(fitted(placed, box)) if off <= max(*frame, *box) else "no 19"


def pairs():
    """Each photograph as it is and, its boxes too, on its side, where a box of the frame as it was is refused."""
    for given, cut, *some in FITS:
        placed = stored.answer(given)
        yield photographs.load_line(given), "ok"
        if cut:
            placed = cut_of(placed, *cut)
            yield script.cut(*cut), "ok"
        for number, way in ((1, 1), (6, -1)):
            yield script.orient(number), "ok"
            now = orientations.oriented(placed, number)
            for asked, box, off in each_box(*some):
                yield script.fit(*asked[::way]), answer(now, asked[::way], box[::way], off)
        yield script.fit(*placed.frame), "no 19"
        yield script.fit(0, 0), "no 12"
        yield script.LIST, orientations.shown(now)
