#!/usr/bin/env python3
"""Writes crates/verdicts/stdout, or checks it: verdicts and longest routes by docs/RULES.md alone."""

import argparse
import sys
from collections import defaultdict
from functools import cached_property
from itertools import product
from pathlib import Path

sys.dont_write_bytecode = True
from netcheck import allowed_pairs

STDOUT = Path(__file__).resolve().parent.parent / "crates" / "verdicts" / "stdout"

# What the program's buffers hold before a call.
BYTE, NUMBER, PLACE = 7, 7777, 777

# How many items more a buffer has that is longer than it need be.
MORE = 2

# The number of a held channel.
HELD = 4294967295

# The channels of a large table, and one in the midst of them.
LARGE, MIDDLE = 1024, 500


def numbering(needs):
    """The numbers of the items of a release system that are not held. By item, `needs` has a list of needs, each a list of ways.

    An item gets the number of the round in which the last of its needs has a way with a number."""
    met_by = defaultdict(list)
    for item in needs:
        for need, ways in enumerate(needs[item]):
            for way in ways:
                met_by[way].append((item, need))
    unmet = {item: set(range(len(needs[item]))) for item in needs}
    number, current, rounds = {}, [item for item in needs if not unmet[item]], 0
    while current:
        number.update((item, rounds) for item in current)
        following = []
        for way in current:
            for item, need in met_by[way]:
                if need in unmet[item]:
                    unmet[item].remove(need)
                    if not unmet[item]:
                        following.append(item)
        current, rounds = following, rounds + 1
    check_numbering(needs, number)
    return number


def check_numbering(needs, number):
    """No other numbers meet the definition: those with a number have the one that it gives them, and the others are a held set."""
    for item in needs:
        if item in number:
            assert number[item] == max(
                (1 + min(number[way] for way in ways if way in number) for ways in needs[item]), default=0)
        else:
            assert any(all(way not in number for way in ways) for ways in needs[item])


class Network:
    """What check and routes find: by channel and by pair the numbers, None for a held one, and the places of the blocked load.

    The needs of a channel are its lists of ways by place."""

    def __init__(self, name, channels, places, entries, homes, ways):
        self.name, self.channels, self.places = name, channels, places
        self.pairs = list(product(range(channels), range(places)))
        self.entries, self.homes = set(entries), set(homes)
        self.ways = {pair: [] for pair in self.pairs}
        for channel, place, next_channel in ways:
            self.ways[channel, place].append(next_channel)
        self.allowed = allowed_pairs(self.entries, self.homes, self.ways)
        self.moving = self.allowed - self.homes

    @cached_property
    def needs(self):
        """Those of Escape, whose items are the channels."""
        return [{place: self.ways[channel, place] for place in range(self.places) if (channel, place) in self.moving}
                for channel in range(self.channels)]

    @cached_property
    def numbers(self):
        number = numbering({channel: list(needs.values()) for channel, needs in enumerate(self.needs)})
        return [number.get(channel) for channel in range(self.channels)]

    @cached_property
    def load(self):
        return [None if number is not None else
                min(place for place, ways in needs.items() if all(self.numbers[way] is None for way in ways))
                for number, needs in zip(self.numbers, self.needs)]

    @cached_property
    def pair_numbers(self):
        """By Route, whose items are the pairs: a pair needs each of its ways."""
        needs = {pair: [] for pair in self.pairs}
        for channel, place in self.moving:
            needs[channel, place] = [[(way, place)] for way in self.ways[channel, place]] or [[]]
        number = numbering(needs)
        return [number.get(pair) for pair in self.pairs]

    def check_answer(self):
        held = self.numbers.count(None)
        return f"{'blocked' if held else 'free'}, greatest number {given(self.numbers)[0]}, {held} held"

    def routes_answer(self):
        held = self.pair_numbers.count(None)
        return f"{'not arriving' if held else 'arriving'}, {held} held"


def given(numbers):
    """The greatest and the sum of the numbers of what is not held."""
    known = [number for number in numbers if number is not None]
    return max(known, default=0), sum(known)


def spidergon(size):
    """The Spidergon of a size."""
    switches = 4 * size

    def leads(channel):
        return (channel // 4 + (0, 1, -1, 2 * size)[channel % 4]) % switches

    def way(switch, place):
        ahead = (place - switch) % switches
        return 4 * switch + (1 if ahead <= size else 3 if ahead < 3 * size else 2)

    pairs = list(product(range(4 * switches), range(switches)))
    return Network(
        f"spidergon {size}", 4 * switches, switches,
        [(channel, place) for channel, place in pairs if channel % 4 == 0],
        [(channel, place) for channel, place in pairs if leads(channel) == place],
        [(channel, place, way(leads(channel), place)) for channel, place in pairs if leads(channel) != place])


CROSSING = [(0, 1), (1, 0)], [(0, 0), (1, 1)], [(0, 1, 1), (1, 0, 0)]
EXIT = Network("crossing with an exit", 3, 2, CROSSING[0], CROSSING[1] + [(2, 1)], CROSSING[2] + [(0, 1, 2)])
LOOP = Network("loop with a way out", 3, 1, [(0, 0)], [(2, 0)], [(0, 0, 1), (0, 0, 2), (1, 0, 0)])
IN_PART = Network("held in part", 3, 2, [(0, 0), (0, 1)], [(1, 0), (2, 1)], [(0, 0, 1), (0, 1, 1), (0, 1, 2)])

SMALL = [
    Network("crossing", 2, 2, *CROSSING),
    EXIT,
    Network("dead end", 1, 1, [(0, 0)], [], []),
    Network("dead end without entry", 1, 1, [], [], []),
    Network("way back to its own channel", 1, 1, [(0, 0)], [], [(0, 0, 0)]),
    Network("way back to its own channel, home", 1, 1, [(0, 0)], [(0, 0)], [(0, 0, 0)]),
    LOOP,
    IN_PART,
]


def chain(place, last):
    """The ways of a chain from channel 0 to the last one of it."""
    return [(channel, place, channel + 1) for channel in range(last)]


def large_tables():
    last = LARGE - 1
    yield Network("large chain", LARGE, 1, [(0, 0)], [(last, 0)], chain(0, last))
    yield Network("large chain for three places", LARGE, 3, [(0, place) for place in range(3)],
                  [(last, place) for place in range(3)], [way for place in range(3) for way in chain(place, last)])
    yield Network("large chain and dead end", LARGE, 2, [(0, 0), (0, 1)], [(last, 0)], chain(0, last) + chain(1, MIDDLE))
    yield Network("large ring", LARGE, 1, [(0, 0)], [], chain(0, last) + [(last, 0, 0)])
    yield Network("large ring with a way out", LARGE, 1, [(0, 0)], [(last, 0)], chain(0, last) + [(last - 1, 0, 0)])


def answer_lines(net):
    """What check and routes answer."""
    for call, answer, numbers in (("check", net.check_answer(), net.numbers), ("routes", net.routes_answer(), net.pair_numbers)):
        greatest, total = given(numbers)
        yield f"{net.name}, {call}: {answer}; numbers up to {greatest}, {total} in all"


def marks(net, what, numbers):
    """A list, with a dash for what is held or empty."""
    return f"{net.name}, {what}: " + " ".join("-" if number is None else str(number) for number in numbers)


def channel_lines(net):
    yield marks(net, "numbers of the channels", net.numbers)
    yield marks(net, "places of the blocked load", net.load)


def short_field(needed, lengths):
    """The lowest field of the buffers that are too short, or None. The fields are those of table, numbers, load and work."""
    return next((field for field, (need, length) in enumerate(zip(needed, lengths), start=1) if length < need), None)


def buffer_lines(net, call, lengths_of):
    """What a call answers when each of the buffers it is lent has one of two lengths."""
    pairs, channels = len(net.pairs), net.channels
    if call == "check":
        needed, answer = (pairs, channels, channels, pairs), net.check_answer()
    else:
        needed, answer = (pairs, pairs, 0, pairs), net.routes_answer()
    # Routes are lent no load.
    choices = [lengths_of(need) if need else [0] for need in needed]
    for lengths in product(*choices):
        field = short_field(needed, lengths)
        outcome = (f"fault study 20, line 0, field {field}; all as it was" if field
                   else f"{answer}; what lies beyond as it was")
        bytes_, numbers, records, words = lengths
        yield (f"{net.name}, {call}, {bytes_} bytes, {numbers} numbers, {records} records, {words} words: "
               f"{outcome}, the work 0")


def left_lines(net):
    """What a check leaves in buffers that are longer than they need be."""
    table = [int(pair in net.allowed) for pair in net.pairs] + [BYTE] * MORE
    numbers = [HELD if number is None else number for number in net.numbers] + [NUMBER] * MORE
    places = ["None" if place is None else f"Some({place})" for place in net.load + [PLACE] * MORE]
    yield f"{net.name}, the table and two bytes beyond: {table}"
    yield f"{net.name}, the numbers and two beyond: {numbers}"
    yield f"{net.name}, the places of the load and two beyond: [{', '.join(places)}]"


def lines():
    """The lines of the text."""
    rings = {size: spidergon(size) for size in (1, 2, 3, 5, 64)}
    for size, ring in rings.items():
        yield from answer_lines(ring)
        if size <= 5:
            yield from channel_lines(ring)
    for net in SMALL:
        yield from answer_lines(net)
        yield from channel_lines(net)
        yield marks(net, "numbers of the pairs", net.pair_numbers)
    for net in large_tables():
        yield from answer_lines(net)
    for net in (rings[3], LOOP, IN_PART):
        for lengths_of in (lambda need: [need, need - 1]), (lambda need: [need + MORE, 0]):
            for call in "check", "routes":
                yield from buffer_lines(net, call, lengths_of)
    yield from left_lines(IN_PART)


def write_or_check(description, path, wanted, subject):
    """Writes the lines, or checks with --check that they are what the file has."""
    parser = argparse.ArgumentParser(description=description)
    parser.add_argument("--check", action="store_true", help="write nothing, exit 1 if the file is not up to date")
    check = parser.parse_args().check
    text = "".join(line + "\n" for line in wanted)
    if not check:
        path.write_text(text, encoding="ascii")
    elif not path.is_file() or path.read_text(encoding="ascii") != text:
        sys.exit(f"{path}: not up to date")
    print(f"{len(wanted)} lines on {subject}, as they should be")


if __name__ == "__main__":
    write_or_check(__doc__, STDOUT, list(lines()), "verdicts and routes")
