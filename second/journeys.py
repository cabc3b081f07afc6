#!/usr/bin/env python3
"""Writes crates/journeys/stdout, or checks it: calls on loads, drains and judgements, by docs/RULES.md alone."""

import sys
from collections import Counter, namedtuple
from pathlib import Path

sys.dont_write_bytecode = True
from drains import drain
from judges import loose_packet, unmet_need
from loads import MoveOn, Put, Take, make
from verdicts import BYTE, EXIT, HELD, IN_PART, LOOP, NUMBER, SMALL, Network, short_field, spidergon, write_or_check

STDOUT = Path(__file__).resolve().parent.parent / "crates" / "journeys" / "stdout"

CROSSING = SMALL[0]
OWN_WAY = Network("way to the own channel", 2, 2, [(0, 0), (0, 1)], [(1, 0)], [(0, 0, 0), (0, 0, 1), (1, 0, 0)])

# First ways that lead to greater numbers, to the same and to smaller ones that are not the smallest; a home pair with a way, and
# a pair that is not allowed.
STAIRS = Network(
    "stairs", 6, 2, [(4, 0), (5, 0), (5, 1)], [(0, 0), (1, 1)],
    [(1, 0, 0), (2, 0, 1), (3, 0, 2), (4, 0, 3), (5, 0, 2),
     (1, 1, 0), (2, 1, 1), (3, 1, 4), (3, 1, 2), (4, 1, 5), (4, 1, 1), (5, 1, 4), (5, 1, 3), (5, 1, 1)])

RING = spidergon(1)
NETWORKS = [EXIT, LOOP, IN_PART, OWN_WAY, STAIRS, RING, spidergon(2)]

# The greatest channel and place, and the greatest position.
FAR, FAR_ON = 65535, 18446744073709551615


def shown(items):
    return "".join(" -" if item is None else f" {item}" for item in items)


# Calls that are told one by one.

JOURNEYS = [
    # The example of RULES.md.
    (EXIT, (None, None, None), [
        Put(0, 1), Put(0, 1), Put(0, 0), Put(1, 0), MoveOn(0, 0), MoveOn(0, 1), MoveOn(1, 1), Take(1), MoveOn(1, 0),
        MoveOn(2, 0), Take(2), Take(0), Take(0)]),
    # Channels, places and positions that there are not; and packets beyond the channels, which are not counted when one is put.
    (EXIT, (None, None, None, 1, 0), [
        Put(3, 1), Put(FAR, FAR), Put(0, 2), Put(2, FAR), Put(2, 1), Put(0, 1), MoveOn(3, 0), MoveOn(0, 2), MoveOn(0, FAR_ON),
        MoveOn(FAR, FAR_ON), Take(3), Take(FAR), Take(1), Put(1, 0)]),
    # A full load, with a record beyond the channels; and one that is full but for the last channel.
    (EXIT, (1, 0, 1, None), [
        Put(0, 1), Put(0, 0), Put(2, 1), MoveOn(0, 0), MoveOn(0, 1), MoveOn(2, 0), MoveOn(2, FAR_ON), Take(0), Take(2), Put(1, 0),
        MoveOn(0, 1)]),
    # Fewer records than channels.
    (EXIT, (1, 0), [Put(0, 1), Put(FAR, FAR), MoveOn(0, 1), MoveOn(FAR, 0), Take(0), Take(2)]),
    # Places that there are not.
    (EXIT, (2, FAR, None), [MoveOn(0, 0), Take(0), MoveOn(1, 0), Take(1), Put(0, 1)]),
    (OWN_WAY, (None, None), [
        Put(0, 0), MoveOn(0, 0), MoveOn(0, 1), MoveOn(1, 0), Put(0, 0), MoveOn(0, 1), Take(1), MoveOn(0, 1), Take(1), Put(0, 1),
        MoveOn(0, 0), Take(0)]),
    # A packet that goes to and fro before it comes home.
    (LOOP, (None, None, None), [Put(0, 0), MoveOn(0, 0), MoveOn(1, 0), MoveOn(0, 1), Take(2)]),
    # The packets of a blocked load stand.
    (IN_PART, (0, 1, None), [
        Put(0, 0), Put(0, 1), MoveOn(0, 0), MoveOn(0, 1), MoveOn(1, 0), Take(0), Take(1)]),
    (RING, (None,) * RING.channels, [Put(0, 2), Put(4, 1), Take(0), MoveOn(0, 0), Take(3), Take(4)]),
]


def journey_lines(net, load, calls):
    """Each call with its answer and the load that it leaves."""
    yield f"{net.name}:{shown(load)}"
    for call in calls:
        answer, load = make(net, load, call)
        yield f"{net.name}, {call}: {answer};{shown(load)}"


# Drains and judgements that are told one by one.

# How a call is told; whether it needs numbers and a load; and the function of its answer and of the numbers and the load that it leaves.
Study = namedtuple("Study", "what numbers load outcome")

# A call and what it is lent: how many bytes, which numbers and load, and how many words.
Case = namedtuple("Case", "study net bytes numbers load words")


def refused(number, field):
    return f"fault study {number}, line 0, field {field}"


def words_of(numbers):
    """The numbers as they are written."""
    return [HELD if number is None else number for number in numbers]


def drained(net, numbers, load):
    number, calls, left = drain(net, load)
    answer = f"{len(calls)} moves and takes" if number is None else refused(number, 0)
    return answer, words_of(net.numbers) + numbers[net.channels:], left


def offends(pair):
    return f"channel {pair[0]} offends, place {pair[1]}"


def numbers_judged(net, numbers, load):
    pair = unmet_need(net.needs, numbers)
    return offends(pair) if pair else "sound", numbers, load


def load_judged(net, numbers, load):
    pair = loose_packet(net.needs, load)
    found = "blocked" if any(place is not None for place in load[:net.channels]) else "no packet"
    return offends(pair) if pair else found, numbers, load


DRAIN = Study("drain", True, True, drained)
JUDGE_NUMBERS = Study("judge numbers", True, False, numbers_judged)
JUDGE_LOAD = Study("judge load", False, True, load_judged)

CASES = [
    # The example of RULES.md, an empty load, and a full one in longer buffers.
    Case(DRAIN, EXIT, 6, [NUMBER] * 3, (1, 0, None), 6),
    Case(DRAIN, EXIT, 6, [NUMBER] * 3, (None, None, None), 6),
    Case(DRAIN, EXIT, 8, [NUMBER] * 5, (1, 0, 1, None, 1), 9),
    # Each buffer too short, and then several.
    Case(DRAIN, EXIT, 5, [NUMBER] * 3, (1, 0, None), 6),
    Case(DRAIN, EXIT, 6, [NUMBER] * 2, (1, 0, None), 6),
    Case(DRAIN, EXIT, 6, [NUMBER] * 3, (1, 0), 6),
    Case(DRAIN, EXIT, 6, [NUMBER] * 3, (1, 0, None), 5),
    Case(DRAIN, EXIT, 5, [NUMBER] * 2, (1, 0), 5),
    Case(DRAIN, EXIT, 6, [NUMBER] * 2, (1, 0), 5),
    Case(DRAIN, EXIT, 9, [NUMBER] * 9, (1, 0), 5),
    Case(DRAIN, EXIT, 0, [], (), 0),
    # Packets that are not allowed, for places that there are not among them; and beyond the channels, where they do not count.
    Case(DRAIN, EXIT, 6, [NUMBER] * 3, (1, None, 0), 6),
    Case(DRAIN, EXIT, 6, [NUMBER] * 3, (2, None, None), 6),
    Case(DRAIN, EXIT, 7, [NUMBER] * 4, (1, FAR, None, None), 7),
    Case(DRAIN, EXIT, 6, [NUMBER] * 3, (1, 0, None, 2), 6),
    # Numbers that are judged: the examples of RULES.md.
    Case(JUDGE_NUMBERS, EXIT, 6, [1, 2, 0], (), 6),
    Case(JUDGE_NUMBERS, EXIT, 6, [5, 9, 3], (), 6),
    Case(JUDGE_NUMBERS, EXIT, 6, [2, 1, 0], (), 6),
    Case(JUDGE_NUMBERS, EXIT, 6, [0, 0, 0], (), 6),
    # The greatest number is one like any other; and numbers beyond the channels.
    Case(JUDGE_NUMBERS, EXIT, 6, [HELD - 1, HELD, 0], (), 6),
    Case(JUDGE_NUMBERS, EXIT, 6, [HELD, HELD, 0], (), 6),
    Case(JUDGE_NUMBERS, EXIT, 7, [HELD, HELD, HELD, 0], (), 7),
    Case(JUDGE_NUMBERS, EXIT, 8, [1, 2, 0, 0, 0], (), 8),
    # Each buffer too short, and then several.
    Case(JUDGE_NUMBERS, EXIT, 5, [1, 2, 0], (), 6),
    Case(JUDGE_NUMBERS, EXIT, 6, [1, 2], (), 6),
    Case(JUDGE_NUMBERS, EXIT, 6, [1, 2, 0], (), 5),
    Case(JUDGE_NUMBERS, EXIT, 5, [1, 2], (), 5),
    Case(JUDGE_NUMBERS, EXIT, 6, [], (), 0),
    # Loads that are judged: the examples of RULES.md.
    Case(JUDGE_LOAD, CROSSING, 4, [], (1, 0), 4),
    Case(JUDGE_LOAD, CROSSING, 4, [], (1, None), 4),
    Case(JUDGE_LOAD, CROSSING, 4, [], (0, 0), 4),
    Case(JUDGE_LOAD, CROSSING, 4, [], (2, 0), 4),
    Case(JUDGE_LOAD, CROSSING, 4, [], (None, None), 4),
    # Packets beyond the channels, and for a place far off.
    Case(JUDGE_LOAD, CROSSING, 6, [], (1, 0, 0, None), 6),
    Case(JUDGE_LOAD, CROSSING, 5, [], (None, None, 1), 5),
    Case(JUDGE_LOAD, CROSSING, 5, [], (1, None, 0), 5),
    Case(JUDGE_LOAD, CROSSING, 4, [], (1, FAR), 4),
    # Each buffer too short, and then several.
    Case(JUDGE_LOAD, CROSSING, 3, [], (1, 0), 4),
    Case(JUDGE_LOAD, CROSSING, 4, [], (1,), 4),
    Case(JUDGE_LOAD, CROSSING, 4, [], (1, 0), 3),
    Case(JUDGE_LOAD, CROSSING, 3, [], (1,), 3),
    Case(JUDGE_LOAD, CROSSING, 4, [], (), 0),
    # Drains of other networks.
    Case(DRAIN, LOOP, 3, [NUMBER] * 3, (0, 0, 0), 3),
    Case(DRAIN, STAIRS, 12, [NUMBER] * 6, (0, 0, 0, 0, 0, 0), 12),
    Case(DRAIN, STAIRS, 12, [NUMBER] * 6, (None, 1, 1, 1, 1, 1), 12),
    Case(DRAIN, STAIRS, 12, [NUMBER] * 6, (1, 1, 1, 1, 1, 1), 12),
    # Blocked networks: with a blocked load, an empty one, one that is not allowed, and a buffer too short.
    Case(DRAIN, IN_PART, 6, [NUMBER] * 3, (0, 1, None), 6),
    Case(DRAIN, IN_PART, 8, [NUMBER] * 5, (None, None, None, 0), 7),
    Case(DRAIN, IN_PART, 6, [NUMBER] * 3, (0, 2, 0), 6),
    Case(DRAIN, IN_PART, 6, [NUMBER] * 3, (0, 1, None), 5),
    Case(DRAIN, OWN_WAY, 4, [NUMBER] * 2, (0, 0), 4),
    Case(DRAIN, RING, 64, [NUMBER] * 16, (2, 1, 3, 2, 1, 2, None, 3, 0, None, None, 0, 3, None, 2, None), 64),
    Case(DRAIN, RING, 64, [NUMBER] * 16, (2, 1, 3, 2, 1, 2, None, 3, 0, None, None, 1, 3, None, 2, None), 64),
]


def case_line(study, net, bytes_, numbers, load, words):
    """A call with its answer, and what it leaves in the buffers. The work area is 0 at the end."""
    field = short_field((len(net.pairs), study.numbers * net.channels, study.load * net.channels, len(net.pairs)),
                        (bytes_, len(numbers), len(load), words))
    if field:
        written, answer, left, left_load = [], refused(20, field), numbers, load
    else:
        written = [int(pair in net.allowed) for pair in net.pairs]
        answer, left, left_load = study.outcome(net, numbers, load)
    table = written + [BYTE] * (bytes_ - len(written))
    return (f"{net.name}, {study.what}{shown(load)}: {answer}; "
            f"table {table}, numbers {left}, load{shown(left_load)}, words {[0] * words}")


# Seeded calls and drains, which are counted by their refusals.

SEED = 2024
RUNS = 60
CALLS = 100

# How many records there are beyond the channels, and how many numbers there are with those beyond.
BEYOND, NUMBERS = 2, 32

# In a sparse load one record of eight has a packet, in a dense one every other.
SPARSE, DENSE = 7, 1


class Draws:
    """Numbers of a linear congruential generator, and what is made of them."""

    def __init__(self, seed):
        self.state = seed

    def up_to(self, most):
        self.state = (self.state * 1664525 + 1013904223) % 2**32
        return (self.state >> 16) % (most + 1)

    def record(self, net, empty):
        """A packet, for the place past the last one too, or nothing, which is so many times as frequent."""
        return self.up_to(net.places) if self.up_to(empty) == 0 else None

    def load(self, net, empty):
        """A load with records beyond the channels."""
        return tuple(self.record(net, empty) for _ in range(net.channels + BEYOND))

    def call(self, net):
        """A call, for the channel and the place past the last ones too. Moves come twice as often as the others."""
        kind, channel = self.up_to(3), self.up_to(net.channels)
        if kind == 0:
            return Put(channel, self.up_to(net.places))
        if kind == 1:
            return Take(channel)
        return MoveOn(channel, self.up_to(2))


class Checksum:
    def __init__(self):
        self.sum = 0

    def add(self, *values):
        for value in values:
            self.sum = (self.sum * 31 + value) % 2**32

    def add_load(self, load):
        self.add(*(0 if place is None else place + 1 for place in load))


def weight(answer):
    """What an answer adds to a checksum."""
    if answer.number is not None:
        return answer.number
    return 0 if answer.place is None else 100 + answer.place


def counts_line(net, what, counts, refusals, checksum):
    numbers = ", ".join(f"{number}: {counts[number]}" for number in refusals)
    return f"{net.name}, {what}: accepted: {counts[None]}, {numbers}, checksum {checksum.sum}"


def calls_line(net):
    """How many of the seeded calls had which answer, and a checksum of all answers and of the loads that the runs leave."""
    draws, counts, checksum = Draws(SEED), Counter(), Checksum()
    for _ in range(RUNS):
        load = draws.load(net, SPARSE)
        for _ in range(CALLS):
            answer, load = make(net, load, draws.call(net))
            counts[answer.number] += 1
            checksum.add(weight(answer))
        checksum.add_load(load)
    return counts_line(net, f"{RUNS} runs of {CALLS} calls", counts, range(30, 39), checksum)


def without_strays(net, load):
    """The load without the packets that are not allowed. Beyond the channels there may be any."""
    return tuple(place if channel >= net.channels or (channel, place) in net.allowed else None
                 for channel, place in enumerate(load))


def drains_line(net):
    """How many of the seeded drains had which answer, and a checksum of the answers and of the loads and numbers that they leave."""
    draws, counts, checksum = Draws(SEED), Counter(), Checksum()
    for run in range(RUNS):
        load = without_strays(net, draws.load(net, DENSE)) if run % 2 else draws.load(net, SPARSE)
        number, calls, load = drain(net, load)
        counts[number] += 1
        checksum.add(len(calls) if number is None else number)
        checksum.add_load(load)
        checksum.add(*words_of(net.numbers), *[NUMBER] * (NUMBERS - net.channels))
    return counts_line(net, f"{RUNS} drains", counts, (40, 41), checksum)


def lines():
    """The lines of the text."""
    for journey in JOURNEYS:
        yield from journey_lines(*journey)
    for case in CASES:
        yield case_line(*case)
    for net in NETWORKS:
        yield calls_line(net)
        yield drains_line(net)


if __name__ == "__main__":
    write_or_check(__doc__, STDOUT, list(lines()), "calls on loads, drains and judgements")
