#!/usr/bin/env python3
"""Writes crates/trials/stdout, or checks it: the Spidergon against tables of its records, limits, and tracing with buffers of several
lengths, by docs/RULES.md alone."""

import sys
from pathlib import Path

sys.dont_write_bytecode = True
from files import entry, file_of, home, size, way
from netcheck import judge
from verdicts import BYTE, MORE, Network, short_field, spidergon, write_or_check

STDOUT = Path(__file__).resolve().parent.parent / "crates" / "trials" / "stdout"

# The largest Spidergon whose records a table takes, a small one, the largest of all, and the channels that leave the first and the
# last switch of the small one.
LARGEST_TABLE, SMALL, LARGEST = 28, 2, 64
ENDS = [0, 1, 2, 3, 28, 29, 30, 31]

# The limits of tables: channels, places and records.
CHANNELS, PLACES, MOST_RECORDS = 1024, 256, 65535

# A size for trials of records, the ways of a pair, and a record that the size rules out.
SMALL_SIZE = 9, 2
PAIR, WAYS = (4, 1), [8, 0, 3, 3, 1, 7, 0, 2]
OUTSIDE = home(8, 2)

NAMES = {b"e": "Entry", b"h": "Home", b"w": "Way"}


def option(number):
    return "None" if number is None else f"Some({number})"


def ways_line(net, channel):
    """The first way for each place."""
    ways = [(net.ways[channel, place] or [None])[0] for place in range(net.places)]
    return f"{net.name}: ways of channel {channel} by place [{', '.join(map(option, ways))}]"


def records_of(net):
    """The records of a network."""
    return ([entry(*pair) for pair in net.entries] + [home(*pair) for pair in net.homes]
            + [way(*pair, onto) for pair, ways in net.ways.items() for onto in ways])


def lacking_line(net):
    """Tables that lack one record of a network: all are unlike it, as it has each record once."""
    records = records_of(net)
    unlike = len(set(records))
    return f"{net.name}: {unlike} of {len(records)} tables that lack one of its records give other answers"


def outcome(counts, records):
    """What comes of a table."""
    found = judge(file_of([size(*counts)] + records), MOST_RECORDS)
    if found:
        layer, number, line, field = found
        return f"fault {layer.decode()} {number}, line {line}, field {field}"
    return taken(*counts)


def taken(channels, places):
    return f"taken, {channels} channels by {places} places"


def told(record):
    """A record as Rust tells it."""
    letter, *numbers = record.split(b"\t")
    fields = zip(("channel", "place", "next"), numbers)
    return NAMES[letter] + " { " + ", ".join(f"{name}: {number.decode()}" for name, number in fields) + " }"


def size_lines():
    for number in 1, LARGEST, LARGEST + 1, 0:
        made = taken(16 * number, 4 * number) if 1 <= number <= LARGEST else "fault study 21, line 0, field 0"
        yield f"spidergon of size {number}: {made}"
    for counts in [(1, 1), (CHANNELS, PLACES), (CHANNELS + 1, PLACES), (CHANNELS, PLACES + 1), (CHANNELS + 1, PLACES + 1),
                   (0, PLACES), (CHANNELS, 0), (0, 0)]:
        yield f"table of {counts[0]} channels by {counts[1]} places: {outcome(counts, [])}"


def range_lines():
    """Numbers that are the last within the small size, or equal to a count, on the second record's line."""
    channels, places = SMALL_SIZE
    last_channel, last_place = channels - 1, places - 1
    first = entry(last_channel, last_place)
    for pair in (last_channel, last_place), (channels, last_place), (last_channel, places), (channels, places):
        for record in entry(*pair), home(*pair), way(*pair, last_channel), way(*pair, channels):
            yield f"{told(record)} on line 3: {outcome(SMALL_SIZE, [first, record])}"


def count_lines():
    """Ways of a pair, and records, as many as there may be and more."""
    eight, others = [way(*PAIR, onto) for onto in WAYS], [entry(8, 1), home(0, 0)]
    assert outcome(SMALL_SIZE, eight) == taken(*SMALL_SIZE)
    yield f"eight ways of a pair: taken, {WAYS}"
    for onto in 0, SMALL_SIZE[0]:
        yield f"a ninth way to {onto} on line 12: {outcome(SMALL_SIZE, eight + others + [way(*PAIR, onto)])}"
    for count in MOST_RECORDS, MOST_RECORDS + 1, MOST_RECORDS + 2:
        yield f"{count} records: {outcome(SMALL_SIZE, [entry(8, 1)] * count)}"
    count = MOST_RECORDS + 2
    for position in 0, MOST_RECORDS - 1, MOST_RECORDS, MOST_RECORDS + 1:
        records = [OUTSIDE if at == position else entry(8, 1) for at in range(count)]
        yield f"{count} records, {told(OUTSIDE)} on line {position + 2}: {outcome(SMALL_SIZE, records)}"
    yield f"{count} ways of a pair: {outcome(SMALL_SIZE, [way(*PAIR, 0)] * count)}"


def traced_lines(pairs, allowed):
    """Tracing into so many bytes with so many words, of a network with so many pairs."""
    short, more = pairs - 1, pairs + MORE
    for bytes_, words in [(pairs, pairs), (more, more), (short, pairs), (pairs, short), (short, short), (more, short),
                          (short, more), (0, 0)]:
        field = short_field((pairs, 0, 0, pairs), (bytes_, 0, 0, words))
        answer = (f"fault study 20, line 0, field {field}, the table as it was" if field
                  else f"{allowed} allowed pairs, the bytes beyond as they were")
        yield f"{pairs} pairs, {bytes_} bytes, {words} words: {answer}, the work 0"


TABLE = Network("table", 4, 2, [(0, 0), (2, 1)], [(3, 0), (2, 1)], [(0, 0, 1), (0, 0, 3), (1, 0, 0), (3, 0, 2)])


def lines():
    """The lines of the text."""
    small = spidergon(SMALL)
    yield from (ways_line(small, channel) for channel in ENDS)
    for number in range(1, LARGEST_TABLE + 1):
        net = spidergon(number)
        assert len(records_of(net)) <= MOST_RECORDS
        yield (f"{net.name}: {len(records_of(net))} records, a table of them gives the same answers, "
               f"{len(net.allowed)} allowed pairs")
    yield lacking_line(small)
    yield from size_lines()
    yield from range_lines()
    yield from count_lines()
    for net in spidergon(3), spidergon(LARGEST), TABLE:
        yield from traced_lines(len(net.pairs), len(net.allowed))
    table = [int(pair in TABLE.allowed) for pair in TABLE.pairs] + [BYTE] * MORE
    yield f"the traced table and two bytes beyond: {table}"


if __name__ == "__main__":
    write_or_check(__doc__, STDOUT, list(lines()), "sources, limits and tracing")
