#!/usr/bin/env python3
"""notes.py [SEED COUNT]

Holds tools/make-line to its word: a note that it cuts down is answered as the
whole note is, contents too, and its line fits and spells that load. Notes are
the blocks that are stored for reading_test and placing_test; each of these also
grown to some thousand bytes, and changed by chance: entries doubled, moved and
spoilt, values longer, directories elsewhere. Prints how often each answer came;
fails if one differs. Without numbers, they are 1 and 3000.
"""

import collections
import importlib.machinery
import importlib.util
import os
import random
import sys

sys.dont_write_bytecode = True

import readers
import reference
import stored

LOADER = importlib.machinery.SourceFileLoader("make_line", os.path.join(stored.ROOT, "tools", "make-line"))
make_line = importlib.util.module_from_spec(importlib.util.spec_from_loader("make_line", LOADER))
LOADER.exec_module(make_line)


def grown(chance, block):
    """The block's entries among others, in a block of some thousand bytes or more."""
    order = reference.readable(block)
    if order is None:
        return block + bytes(chance.randrange(3000))
    entries = []
    for tag, kind, count, field in reference.kept_entries(block, order):
        value = reference.value_of(block, order, (tag, kind, count, field))
        if value is not None and chance.random() < 0.2:  # longer than anything asks for
            more = chance.randrange(4000) // reference.SIZE_OF_TYPE[kind]
            value, count = value + chance.randbytes(more * reference.SIZE_OF_TYPE[kind]), count + more
        entries.append([tag, kind, count, value])
    entries += [[chance.randrange(65536), chance.randrange(16), 1, chance.randbytes(4)] for _ in range(chance.randrange(60))]
    for _ in range(chance.choice([0, 0, 0, 1, 1, 2])):
        entry = chance.choice(entries) if entries else [0xB7, 7, 0, b""]
        change = chance.randrange(5)
        if change == 0:
            entries.insert(chance.randrange(len(entries) + 1), list(entry))
        elif change == 1:
            entry[1] = chance.randrange(16)
        elif change == 2:
            entry[2] = chance.choice([0, 1, 2, 4, 5, 7, 8, 30, 84, 255, 256, 257, 4294967295])
        elif change == 3:
            entry[3] = None
        else:
            entry[0] = chance.choice(reference.FOUR_TAGS)
    if chance.random() < 0.3:
        chance.shuffle(entries)
    start = chance.randrange(8, 3000)
    data = bytearray(block[:4] + start.to_bytes(4, order) + chance.randbytes(start - 8) + len(entries).to_bytes(2, order))
    far = bytearray(chance.randbytes(chance.randrange(30000)))
    behind = len(data) + 12 * len(entries)
    for tag, kind, count, value in entries:
        data += tag.to_bytes(2, order) + kind.to_bytes(2, order) + count.to_bytes(4, order)
        if value is None:
            data += chance.choice([0, 0xFFFFFFFF, behind + len(far) - 3]).to_bytes(4, order)
        elif len(value) <= 4:
            data += value.ljust(4, b"\0")
        else:
            data += (behind + len(far)).to_bytes(4, order)
            far += value
    return bytes(data + far)


def notes(seed, count):
    """Loads, as (raw, picture, model, block)."""
    chance = random.Random(seed)
    loads = list(stored.loads())
    loads += [(readers.RAW, None, reference.MODEL, block) for _, block in readers.cases()]
    yield from loads
    for _ in range(count):
        raw, picture, model, block = chance.choice(loads)
        yield raw, picture, model, grown(chance, block)


def main(arguments):
    if len(arguments) not in (0, 2) or not all(word.isdecimal() for word in arguments):
        print(__doc__.strip(), file=sys.stderr)
        return 2
    tally, longest, shortest_cut, longest_cut, unread = collections.Counter(), 0, 1_000_000, 0, 0
    for raw, picture, model, block in notes(*(map(int, arguments) if arguments else (1, 3000))):
        answer = reference.load(block, raw, picture, model)
        cut = make_line.cut_down(block)
        if (cut is None) != (answer == reference.no(1)):
            sys.exit("%s: cut down %s, answered %s" % (block.hex(), cut, answer))
        if cut is None:
            unread += 1
            continue
        line = make_line.load_line(cut, model, raw, picture)
        if (len(line) > reference.MAX_LINE or reference.decode(line.encode()) != ("load", cut, raw, picture, model)
                or reference.load(cut, raw, picture, model) != answer
                or reference.contents(cut) != reference.contents(block)):
            sys.exit("%s: answered %s, contents %s; cut down, %s: %s, contents %s" % (
                block.hex(), answer, reference.contents(block),
                cut.hex(), reference.load(cut, raw, picture, model), reference.contents(cut)))
        tally["no %d" % answer[1] if reference.refused(answer) else "placed"] += 1
        longest, shortest_cut, longest_cut = max(longest, len(block)), min(shortest_cut, len(cut)), max(longest_cut, len(cut))
    print("%d notes of up to %d bytes, cut down to %d to %d: the same answers (%s); %d that cannot be read" % (
        sum(tally.values()), longest, shortest_cut, longest_cut,
        ", ".join("%s: %d" % item for item in sorted(tally.items())), unread))
    return 0


if __name__ == "__main__":
    sys.exit(main(sys.argv[1:]))
