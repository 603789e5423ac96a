"""Call lines, as a caller of `focusdesk` writes them: the code, the arguments
and the check byte in hexadecimal, without the line feed. Sizes are pairs
(width, height) or None, and the numbers are written big-endian."""

import struct

import reference


def line(code, *parts):
    """A line of any code, with a check that is right."""
    return reference.call_line(bytes([code]), *parts).upper()


def load_body(raw, picture, model, block):
    """What stands between a load's code and its check."""
    flags = (raw is not None) + 2 * (picture is not None)
    return struct.pack(">B4IB", flags, *(raw or (0, 0)), *(picture or (0, 0)), len(model)) + model + block


def load(block, raw=None, picture=None, model=reference.MODEL):
    return line(1, load_body(raw, picture, model, block))


def cut(left, top, width, height):
    return line(2, struct.pack(">4I", left, top, width, height))


def fit(width, height):
    return line(7, struct.pack(">2I", width, height))


def contents(block):
    return line(8, block)


def orient(number):
    """A line of an orientation; the number may be any that a byte holds."""
    return line(9, bytes([number]))


BACK, LIST = line(5), line(6)


def text(lines, last_feed=True):
    """The bytes of a script."""
    return b"\n".join(lines) + (b"\n" if lines and last_feed else b"")
