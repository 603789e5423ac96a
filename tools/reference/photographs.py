"""Photographs with a recorded position, for the stored files and the
comparisons: as recorded, and scaled to a frame of any sides. As arguments of a
load, (raw, picture, model, block)."""

import demos
import readers
import reference
import script

MOST = reference.MAX_U32


def recorded(centre, area, *entries, picture=None):
    """A position in a frame of 6000 by 4000, behind these entries."""
    block = demos.recorded_block(b"0101", "big", ((6000, 4000), centre, area), 1, (0, 0), entries)
    return None, picture, b"", block


def scaled_to(*picture):
    """A position that is scaled to a picture of these sides, which is the frame; near its lower left corner."""
    crop = (0x1B, 3, 7, readers.numbers("big", 2, 9, 6000, 4000, 3000, 2000, 0, 0))
    return recorded((500, 3800), (300, 200), crop, picture=picture)


# Without an area, at (0, 2) of 3 by 2: x is floor((500 * 3 + 3000) / 6000), y is floor((3800 * 2 + 2000) / 4000).
CORNER = scaled_to(3, 2)
# In frames of the longest sides: on an edge and without an area, and with one.
WIDE, TALL, LARGEST = scaled_to(MOST, 2), scaled_to(1, MOST), scaled_to(MOST, MOST - 1)
# These and others that are hardly a frame; in one of them a thousand columns have a worked side that is capped, and are accepted.
OTHERS = ((1, 1), (MOST, 1), (2500, MOST), (3, MOST // 1000), (MOST, MOST))
EXTREME = [CORNER, WIDE, TALL, LARGEST, *(scaled_to(*frame) for frame in OTHERS)]


def load_line(given):
    raw, picture, model, block = given
    return script.load(block, raw, picture, model)
