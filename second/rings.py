#!/usr/bin/env python3
"""Writes crates/rings/stdout, or checks it: walks through Spidergons by the rule by which switches send packets
on, shortest routes by a search, and the verdicts of docs/RULES.md."""

import sys
from pathlib import Path

sys.dont_write_bytecode = True
from verdicts import spidergon, write_or_check

STDOUT = Path(__file__).resolve().parent.parent / "crates" / "rings" / "stdout"

SIZES = range(1, 65)

# Up to which size the verdict and the longest routes are computed here. Of those beyond, the text has what the rule says.
LARGEST_CHECKED = 12

OCTAGON_PLACES = [1, 2, 6, 3]


def octagon_step(ahead):
    """How far a packet goes at a switch of the Octagon, which has eight, by how far its place lies ahead."""
    return {0: 0, 1: 1, 2: 1, 6: -1, 7: -1}.get(ahead, 4)


def step(size, ahead):
    """The same for 4 × size switches."""
    if ahead == 0:
        return 0
    return 1 if ahead <= size else -1 if ahead >= 3 * size else 2 * size


def walk(size, start, end):
    """The switches at which a packet comes by."""
    switches = [start]
    while gone := step(size, (end - switches[-1]) % (4 * size)):
        switches.append((switches[-1] + gone) % (4 * size))
    assert switches[-1] == end
    return switches


def distances(size):
    """By switch, how many links a shortest route from switch 0 has."""
    found, border = {0: 0}, [0]
    for switch in border:
        for gone in 1, -1, 2 * size:
            beside = (switch + gone) % (4 * size)
            if beside not in found:
                found[beside] = found[switch] + 1
                border.append(beside)
    return found


def size_line(size):
    """All switches being alike, the walks from switch 0 stand for those from any other."""
    count = 4 * size
    moves = [len(walk(size, 0, end)) - 1 for end in range(count)]
    shortest = distances(size)
    assert moves == [shortest[end] for end in range(count)] and max(moves) == size
    held = 0 if size == 1 else 4 * count
    if size <= LARGEST_CHECKED:
        net = spidergon(size)
        # The first pairs are those of the local channel of switch 0.
        assert net.numbers.count(None) == held and moves == net.pair_numbers[:count]
    return (f"spidergon {size}: {count * count} walks by the rule, of {max(moves)} moves at most, {count * sum(moves)} in all; "
            f"{'blocked' if held else 'free'}, {held} held")


def octagon_lines():
    assert all(step(2, ahead) == octagon_step(ahead) for ahead in range(8))
    assert spidergon(2).load[:4] == OCTAGON_PLACES
    for start in range(8):
        yield f"octagon, from {start}: " + " ".join(str(walk(2, start, end)) for end in range(8))


def lines():
    """The lines of the text."""
    yield from octagon_lines()
    yield from map(size_line, SIZES)


if __name__ == "__main__":
    write_or_check(__doc__, STDOUT, list(lines()), "walks through Spidergons")
