#!/usr/bin/env python3
"""Seeded network files, in order and damaged. `files.py SEED` writes the file of a seed to standard output."""

import argparse
import os
import random
import re
from collections import Counter

LIMIT = 32768
LIST_LENGTH = 2048
CHANNEL_COUNTS = [127, 128, 129, 1023, 1024]
PLACE_COUNTS = [31, 32, 33, 255, 256]
BAD_CHANNEL_COUNTS = [0, 0, 1025, 1025, 1026, 9999]
BAD_PLACE_COUNTS = [0, 0, 257, 257, 258, 9999]
SIZE_LINE = re.compile(rb"n\t([0-9]{1,4})\t([0-9]{1,4})\n")
BOUNDARIES = [b"0", b"9", b"10", b"99", b"100", b"999", b"1000", b"9999"]
BAD_NUMBERS = [
    b"", b"00", b"07", b"010", b"0000", b"0999", b"00000", b"10000", b"12345", b"99999", b"65536", b"4294967296",
    b"18446744073709551617", b"+7", b"-1", b"-0", b"+0", b"+", b"-", b"x", b"1x", b"x1", b"e", b"0x1", b"1e3", b"1.0",
    b"1_0", b"1,000", b" ", b" 7", b"7 ", b"1 2", b"\r", b"7\r", b"\r7", b"7\x0b", b"7\x0c", b"7\x1c", b"7\x85", b"\0",
    b"1\0", b"\x001", b"/", b":", b"1/", b"1:", b"/1", b":1", b"\xb2", b"\xb1", b"1\xff", b"\x80",
    b"\xd9\xa1", b"\xef\xbc\x91",
]
STRANGE = b"/:/:+-. x\r\0\x0b\xb2\xff"
BAD_LETTERS = [
    b"", b"x", b"a", b"d", b"f", b"g", b"i", b"m", b"o", b"v", b"N", b"E", b"H", b"W", b"nn", b"ee", b"hh", b"ww", b"ne",
    b"en", b"we", b"n1", b"e0", b"0", b"#", b" ", b" n", b"n ", b" e", b"e ", b"n\r", b"e\r", b"\r", b"\0", b"n\0", b"w\0",
    b"\xef\xbb\xbfn", b"\xef\xbb\xbfe", b"\xee", b"\xe5", b"\xff",
]
MARKS = [b"\xef\xbb\xbf", b"\xff\xfe", b" ", b"  ", b"\t", b"\t\t", b"\n", b"\n\n", b"\r", b"\0"]
ALPHABET = b"\t\nnehw019x"


# Files whose text is in order, with any numbers.


def number(rng):
    if rng.random() < 0.4:
        return rng.choice(BOUNDARIES)
    return b"%d" % rng.randrange(10 ** rng.randint(1, 4))


def size_line(rng):
    return b"n\t%s\t%s\n" % (number(rng), number(rng))


def record(rng):
    letter = rng.choice(b"ehw")
    if letter == ord("w"):
        return b"w\t%s\t%s\t%s\n" % (number(rng), number(rng), number(rng))
    return b"%c\t%s\t%s\n" % (letter, number(rng), number(rng))


def record_of_length(rng, length):
    """An entry or home of 6 to 12 bytes."""
    digits = length - 4
    first = rng.randint(max(1, digits - 4), min(4, digits - 1))
    return b"%c\t%s\t%s\n" % (rng.choice(b"eh"), b"9" * first, b"1" * (digits - first))


def valid(rng, records):
    pool = [record(rng) for _ in range(min(records, 40))]
    if records > len(pool):
        pool = rng.choices(pool, k=records)
    return size_line(rng) + b"".join(pool)


def valid_of_length(rng, length):
    """A valid file of exactly so many bytes, 40 or more."""
    data = valid(rng, length // 6)
    data = data[: data.rindex(b"\n", 0, length - 11) + 1]
    while length - len(data) > 12:
        data += record_of_length(rng, rng.randint(6, min(12, length - len(data) - 6)))
    return data + record_of_length(rng, length - len(data))


def some_valid(rng):
    """A valid file of any length that netcheck reads or just does not."""
    kind = rng.random()
    if kind < 0.45:
        return valid(rng, rng.randint(0, 4))
    if kind < 0.80:
        return valid(rng, rng.randint(5, 30))
    if kind < 0.92:
        return valid(rng, rng.randint(31, 300))
    if kind < 0.97:
        return valid_of_length(rng, rng.randint(4000, LIMIT))
    if kind < 0.995:
        return valid_of_length(rng, LIMIT + rng.randint(-2, 2))
    return valid_of_length(rng, LIMIT + rng.randint(3, 70000))


def position(rng, count):
    """A number below count, with preference for the first and the last."""
    return rng.choice([0, count - 1, rng.randrange(count), rng.randrange(count)])


# Networks. Lines are without their ends here. A shape is a number of channels, one of places, and records.


def size(channels, places):
    return b"n\t%d\t%d" % (channels, places)


def entry(channel, place):
    return b"e\t%d\t%d" % (channel, place)


def home(channel, place):
    return b"h\t%d\t%d" % (channel, place)


def way(channel, place, next_channel):
    return b"w\t%d\t%d\t%d" % (channel, place, next_channel)


def file_of(lines):
    return b"".join(line + b"\n" for line in lines)


def record_within(rng, channels, places):
    """A record of a network of this size, its last channel and place being frequent."""
    channel, place, next_channel = position(rng, channels), position(rng, places), position(rng, channels)
    return rng.choice([entry(channel, place), home(channel, place), way(channel, place, next_channel)])


def ring(rng):
    """A ring of channels for each place, which goes on past its home."""
    channels, places = rng.randint(1, 10), rng.randint(1, 3)
    records = []
    for place in range(places):
        records += [way(channel, place, (channel + 1) % channels) for channel in range(channels)]
        records += [entry(rng.randrange(channels), place) for _ in range(rng.randint(0, 2))]
        records += [home(rng.randrange(channels), place) for _ in range(rng.randint(0, 1))]
    return channels, places, records


def crossings(rng):
    """Pairs of channels whose packets have to move to each other's channel. Some may leave by one more channel."""
    channels = 2 * rng.randint(1, 6)
    records = []
    for one in range(0, channels, 2):
        other = one + 1
        records += [entry(one, other), entry(other, one), home(one, one), home(other, other)]
        records += [way(one, other, other), way(other, one, one)]
        if rng.random() < 0.3:
            records += [way(one, other, channels), home(channels, other)]
    return channels + 1, channels, records


def chains(rng):
    """A line of channels for each place, its ways listed from its end."""
    channels, places = rng.choice([rng.randint(2, 12), rng.randint(13, 128)]), rng.choice([1, 2, 3, rng.randint(4, 15)])
    records = []
    for place in range(places):
        records += [way(channel, place, channel + 1) for channel in reversed(range(channels - 1))]
        records += [entry(position(rng, channels), place), home(position(rng, channels), place)]
    return channels, places, records


def walks(rng):
    """Random walks from entries, with more ways on the side. Some end at home, some pass through it."""
    channels, places = rng.randint(1, 30), rng.randint(1, 6)
    records = []
    for place in range(places):
        channel = rng.randrange(channels)
        records.append(entry(channel, place))
        for _ in range(rng.randint(0, 12)):
            before, channel = channel, rng.randrange(channels)
            records.append(way(before, place, channel))
            records += [way(before, place, rng.randrange(channels)) for _ in range(rng.choice([0, 0, 1, 2]))]
            if rng.random() < 0.1:
                records.append(home(channel, place))
        records += [home(channel, place)] * rng.randint(0, 1)
    return channels, places, records


def scattered(rng):
    """Any records of a small or large network."""
    channels, places = rng.choice([1, 2, 5, 128, rng.randint(1, 128)]), rng.choice([1, 2, 3, 32, rng.randint(1, 32)])
    return channels, places, [record_within(rng, channels, places) for _ in range(rng.randint(0, 80))]


def dense(rng):
    """About as many ways as netcheck's list holds, of some places."""
    channels, places = rng.randint(20, 128), rng.randint(2, 8)
    records = [entry(rng.randrange(channels), place) for place in range(places)]
    records += [home(rng.randrange(channels), rng.randrange(places)) for _ in range(rng.randint(0, 60))]
    pairs = [(rng.randrange(channels), rng.randrange(places)) for _ in range(rng.randint(200, 1980))]
    return channels, places, records + [way(*pair, rng.randrange(channels)) for pair in pairs]


def homes_with_ways(rng):
    """Home pairs with ways, reached or not."""
    channels, places = rng.randint(1, 8), rng.randint(1, 2)
    records = []
    for _ in range(rng.randint(1, 8)):
        channel, place = rng.randrange(channels), rng.randrange(places)
        records += [home(channel, place), way(channel, place, rng.randrange(channels))]
        records.append(rng.choice([entry, home])(channel, place))
        records.append(way(rng.randrange(channels), place, channel))
    return channels, places, records


def self_loops(rng):
    """Ways that lead to their own channels, alone or among others."""
    channels, places = rng.randint(1, 8), rng.randint(1, 2)
    records = []
    for _ in range(rng.randint(1, 8)):
        channel, place = rng.randrange(channels), rng.randrange(places)
        records.append(way(channel, place, channel))
        records += [way(channel, place, rng.randrange(channels))] * rng.randint(0, 1)
        records += [entry(channel, place)] * rng.randint(0, 1)
    return channels, places, records


def eight_ways(rng):
    """Pairs with exactly eight ways, different ones or all the same."""
    channels, places = rng.randint(1, 20), rng.randint(1, 3)
    records = []
    for channel in rng.sample(range(channels), rng.randint(1, min(channels, 4))):
        place = rng.randrange(places)
        nexts = rng.choice([range(channels), [rng.randrange(channels)]])
        records += [way(channel, place, rng.choice(nexts)) for _ in range(8)]
        records += [entry(channel, place)] * rng.randint(0, 1)
        records += [home(channel, place)] * rng.choice([0, 0, 1])
    return channels, places, records


def descents(rng):
    """Each pair has a way to a lower channel, among others that may lead anywhere. Here and there that way is missing."""
    channels, places = rng.randint(2, 40), rng.randint(1, 6)
    reach, missing = rng.choice([1, 3, channels]), rng.choice([0, 0, 0.02, 0.1])
    records = []
    for place in range(places):
        records += [entry(position(rng, channels), place) for _ in range(rng.randint(1, 4))]
        records += [home(0, place)] + [home(rng.randrange(channels), place)] * rng.randint(0, 1)
        for channel in range(1, channels):
            nexts = [channel - rng.randint(1, min(channel, reach))] * (rng.random() >= missing)
            nexts += [rng.randrange(channels) for _ in range(rng.choice([0, 0, 1, 2]))]
            rng.shuffle(nexts)
            records += [way(channel, place, next_channel) for next_channel in nexts]
    return channels, places, records


def double_rings(rng):
    """A ring of switches whose links have two channels: the second is for packets that have passed switch 0, or for none."""
    switches, second = rng.randint(1, 8), rng.random() < 0.6
    records = []
    for place in range(switches):
        for switch in range(switches):
            local, first, other = switch, switches + switch, 2 * switches + switch
            after = (switch + 1) % switches
            records += [entry(local, place), way(local, place, first) if switch != place else home(local, place)]
            if after == place:
                records += [home(first, place), home(other, place)]
            else:
                passed = second and after == 0
                records += [way(first, place, (2 if passed else 1) * switches + after), way(other, place, 2 * switches + after)]
    return 3 * switches, switches, records


def mesh(rng):
    """A mesh of switches with a channel for each link and direction: shortest routes by one rule, or by several ways."""
    width, height = rng.randint(1, 4), rng.randint(1, 4)
    switches = [(x, y) for x in range(width) for y in range(height)]
    links = [((x, y), end) for x, y in switches for end in [(x + 1, y), (x - 1, y), (x, y + 1), (x, y - 1)] if end in switches]
    channels = [(switch, switch) for switch in switches] + links
    rule = rng.choice(["x first", "west first", "any", "one of them"])
    records = []
    for place, (to_x, to_y) in enumerate(switches):
        records += [entry(local, place) for local in range(len(switches))]
        for channel, (_, (x, y)) in enumerate(channels):
            ends = [(x + (to_x > x) - (to_x < x), y)] * (to_x != x) + [(x, y + (to_y > y) - (to_y < y))] * (to_y != y)
            if rule == "x first" or rule == "west first" and to_x < x:
                ends = ends[:1]
            elif rule == "one of them" and ends:
                ends = [rng.choice(ends)]
            records += [way(channel, place, channels.index(((x, y), end))) for end in ends] or [home(channel, place)]
    return len(channels), len(switches), records


SHAPES = [
    ring, crossings, chains, walks, walks, scattered, scattered, dense, homes_with_ways, self_loops, eight_ways, eight_ways,
    descents, descents, descents, double_rings, mesh, mesh,
]


def without_ninth_ways(records):
    """The records without those that give a pair a ninth way."""
    kept, ways = [], Counter()
    for line in records:
        letter, channel, place = line.split(b"\t")[:3]
        ways[channel, place] += letter == b"w"
        if letter != b"w" or ways[channel, place] <= 8:
            kept.append(line)
    return kept


def network(rng):
    """A network in order, with some of its records doubled or all of them shuffled."""
    channels, places, records = rng.choice(SHAPES)(rng)
    if records and rng.random() < 0.3:
        records += rng.choices(records, k=rng.randint(1, 20))
    if rng.random() < 0.5:
        rng.shuffle(records)
    return file_of([size(channels, places)] + without_ninth_ways(records))


def network_of_length(rng, length):
    """A network of exactly so many bytes, 40 or more: entries and homes, and one way at the end."""
    data = size(128, 32) + b"\n"
    while length - len(data) > 13:
        line = b"%c\t%s\t%s\n" % (rng.choice(b"eh"), rng.choice([b"1", b"11", b"111"]), rng.choice([b"1", b"11"]))
        if length - len(data) - len(line) >= 8:
            data += line
    digits = length - len(data) - 5
    first = min(3, digits - 2)
    second = min(2, digits - first - 1)
    return data + b"w\t%s\t%s\t%s\n" % (b"1" * first, b"1" * second, b"1" * (digits - first - second))


def some_network(rng):
    """A network in order, within netcheck's limits or just not."""
    kind = rng.random()
    if kind < 0.02:
        return network_of_length(rng, LIMIT + rng.randint(-2, 2))
    if kind < 0.10:
        return many_records(rng, network(rng))
    if kind < 0.20:
        return size_near_limits(rng, network(rng))
    return network(rng)


def random_byte(rng):
    return bytes([rng.choice([rng.choice(ALPHABET), rng.choice(b"\t\n"), rng.choice(b"0123456789"), rng.randrange(256)])])


def not_a_number(rng):
    """One of the list, or a number with a strange byte in it."""
    if rng.random() < 0.7:
        return rng.choice(BAD_NUMBERS)
    digits = number(rng)
    at = rng.randrange(len(digits) + 1)
    return digits[:at] + bytes([rng.choice(STRANGE)]) + digits[at + rng.randrange(2) :]


# Damages of the fields of one line. Each returns the new line without its end.


def bad_number(rng, fields):
    if len(fields) > 1:
        fields[rng.randrange(1, len(fields))] = not_a_number(rng)
    return b"\t".join(fields)


def bad_numbers(rng, fields):
    return b"\t".join(fields[:1] + [rng.choice([field, not_a_number(rng)]) for field in fields[1:]])


def bad_letter(rng, fields):
    return b"\t".join([rng.choice(BAD_LETTERS)] + fields[1:])


def other_letter(rng, fields):
    return b"\t".join([rng.choice([b"n", b"e", b"h", b"w"])] + fields[1:])


def empty_field(rng, fields):
    fields[rng.randrange(len(fields))] = b""
    return b"\t".join(fields)


def fewer_fields(rng, fields):
    return b"\t".join(fields[: rng.randint(1, max(1, len(fields) - 1))])


def more_fields(rng, fields):
    more = rng.choice([1, 1, 1, 2, 3, 255, 256])
    return b"\t".join(fields + [rng.choice([number(rng), number(rng), b""]) for _ in range(more)])


def trailing_tab(rng, fields):
    return b"\t".join(fields) + b"\t" * rng.choice([1, 1, 2])


def mark_before(rng, fields):
    return rng.choice(MARKS) + b"\t".join(fields)


def carriage_return(rng, fields):
    return b"\t".join(fields) + b"\r"


def fewer_fields_and_bad_number(rng, fields):
    return bad_number(rng, fewer_fields(rng, fields).split(b"\t"))


def more_fields_and_bad_number(rng, fields):
    return bad_number(rng, more_fields(rng, fields).split(b"\t"))


LINE_DAMAGES = [
    bad_number, bad_number, bad_number, bad_number, bad_number, bad_number, bad_number, bad_number, bad_numbers, bad_numbers,
    bad_letter, bad_letter, other_letter, empty_field, fewer_fields, more_fields, trailing_tab, mark_before, carriage_return,
    fewer_fields_and_bad_number, more_fields_and_bad_number,
]


def damaged_line(rng, line):
    return rng.choice(LINE_DAMAGES)(rng, line.split(b"\t"))


# Damages of a whole file. Each returns the new file.


def with_one_line(rng, data, change):
    """The file with one of its lines changed."""
    lines = data.split(b"\n")
    at = position(rng, max(1, len(lines) - 1))
    lines[at] = change(rng, lines[at])
    return b"\n".join(lines)


def change_line(rng, data):
    return with_one_line(rng, data, damaged_line)


def insert_line(rng, data):
    """Inserts an empty line, another n line, a good record or a damaged one."""
    lines = data.split(b"\n")
    line = rng.choice([b"", size_line(rng)[:-1], damaged_line(rng, size_line(rng)[:-1]), record(rng)[:-1],
                       damaged_line(rng, record(rng)[:-1])])
    lines.insert(position(rng, len(lines)), line)
    return b"\n".join(lines)


def drop_line(rng, data):
    lines = data.split(b"\n")
    del lines[position(rng, len(lines))]
    return b"\n".join(lines)


def unfinished_line(rng, data):
    line = rng.choice([size_line, record, record])(rng)[:-1]
    return data + rng.choice([line, damaged_line(rng, line), line[: rng.randint(1, len(line))], random_byte(rng)])


def unfinished_last(rng, data):
    """Drops the final byte 10, or changes the last line as well."""
    rest, _, last = data[:-1].rpartition(b"\n")
    return data[:-1] if rng.random() < 0.6 or not rest else rest + b"\n" + damaged_line(rng, last)


def truncate(rng, data):
    return data[: rng.randrange(len(data) + 1)]


def carriage_returns(rng, data):
    return data.replace(b"\n", b"\r\n")


def mark_first(rng, data):
    return rng.choice(MARKS) + data


def mark_last(rng, data):
    return data + rng.choice(MARKS)


def without_size_line(rng, data):
    return data.partition(b"\n")[2]


def file_again(rng, data):
    return data + data[:LIMIT]


def spaces_for_tabs(rng, data):
    return data.replace(b"\t", b" ")


def drop_byte(rng, data):
    at = rng.randrange(len(data) + 1)
    return data[:at] + data[at + 1 :]


def repeat_byte(rng, data):
    at = rng.randrange(len(data) + 1)
    return data[: at + 1] + data[at:]


def insert_byte(rng, data):
    at = rng.randrange(len(data) + 1)
    return data[:at] + random_byte(rng) + data[at:]


def replace_byte(rng, data):
    at = rng.randrange(len(data) + 1)
    return data[:at] + random_byte(rng) + data[at + 1 :]


# Damages of the size and the records, by which a file goes beyond a limit or up to it.


def size_of(data):
    """The counts that a file begins with, each made 1 at least, or 1 and 1 if it begins otherwise."""
    found = SIZE_LINE.match(data)
    return (max(1, int(found[1])), max(1, int(found[2]))) if found else (1, 1)


def with_size(data, channels, places):
    return size(channels, places) + b"\n" + data.partition(b"\n")[2]


def size_out_of_range(rng, data):
    channels, places = size_of(data)
    bad_channels, bad_places = rng.choice(BAD_CHANNEL_COUNTS), rng.choice(BAD_PLACE_COUNTS)
    return with_size(data, *rng.choice([(bad_channels, places), (channels, bad_places), (bad_channels, bad_places)]))


def size_near_limits(rng, data):
    """Raises one count or both to a limit or next to it."""
    channels, places = size_of(data)
    more_channels, more_places = max(channels, rng.choice(CHANNEL_COUNTS)), max(places, rng.choice(PLACE_COUNTS))
    return with_size(data, *rng.choice([(more_channels, places), (channels, more_places), (more_channels, more_places)]))


def smaller_size(rng, data):
    """Lowers one count, often by 1 only."""
    channels, places = size_of(data)
    fewer_channels = rng.choice([max(1, channels - 1), rng.randint(1, channels)])
    fewer_places = rng.choice([max(1, places - 1), rng.randint(1, places)])
    return with_size(data, *rng.choice([(fewer_channels, places), (channels, fewer_places)]))


def insert_records(rng, data, records):
    """Inserts records behind the first line and in their order, together or apart."""
    lines = data.split(b"\n")
    spots = max(1, len(lines) - 1)
    if rng.random() < 0.5:
        at = 1 + position(rng, spots)
        return b"\n".join(lines[:at] + records + lines[at:])
    ats = sorted(1 + rng.randrange(spots) for _ in records)
    for at, line in reversed(list(zip(ats, records))):
        lines.insert(at, line)
    return b"\n".join(lines)


def too_large(rng, count):
    return min(9999, rng.choice([count, count, count + 1, count + 256, count + rng.randrange(9999), 9999]))


def record_out_of_range(rng, channels, places):
    """A record with its count or a larger number in one field or more."""
    letter, *numbers = record_within(rng, channels, places).split(b"\t")
    counts = [channels, places, channels][: len(numbers)]
    for field in rng.sample(range(len(counts)), rng.choice([1, 1, 1, 2, len(counts)])):
        numbers[field] = b"%d" % too_large(rng, counts[field])
    return b"\t".join([letter] + numbers)


def out_of_range(rng, data):
    return insert_records(rng, data, [record_out_of_range(rng, *size_of(data))])


def ways_of_one_pair(rng, channels, places, count):
    """So many ways of a pair, different ones or all the same."""
    channel, place = position(rng, channels), position(rng, places)
    nexts = rng.choice([range(channels), [position(rng, channels)]])
    return channel, place, [way(channel, place, rng.choice(nexts)) for _ in range(count)]


def ninth_way(rng, data):
    """Gives a pair, which may be home, nine ways or more. The ninth may lead out of range."""
    channels, places = size_of(data)
    channel, place, records = ways_of_one_pair(rng, channels, places, rng.choice([9, 9, 10, 20]))
    if rng.random() < 0.2:
        records[8] = way(channel, place, too_large(rng, channels))
    if rng.random() < 0.3:
        records.insert(rng.choice([0, len(records)]), home(channel, place))
    return insert_records(rng, data, records)


def ninth_way_last(rng, data):
    """Gives a pair eight ways anywhere and the ninth on the last line."""
    *records, last = ways_of_one_pair(rng, *size_of(data), 9)[2]
    return insert_records(rng, data, records) + last + b"\n"


def ninth_way_and_another_fault(rng, data):
    """Gives a pair a ninth way, and a line before or behind it a fault of its own."""
    damage = rng.choice([change_line, insert_line, unfinished_line, unfinished_last, out_of_range, ninth_way])
    return damage(rng, ninth_way(rng, data))


def many_records(rng, data):
    """Adds entries and homes, up to the length of netcheck's list or beyond it."""
    channels, places = size_of(data)
    wanted = LIST_LENGTH + rng.choice([-1, 0, 0, 0, 1, 1, 1, 2, rng.randint(3, 300)])
    pool = [rng.choice([entry, home])(position(rng, channels), position(rng, places)) for _ in range(20)]
    return insert_records(rng, data, rng.choices(pool, k=max(0, wanted + 1 - data.count(b"\n"))))


def fault_last(rng, data):
    """Adds a last line with a fault: unfinished, damaged, out of range or a ninth way."""
    line = record_within(rng, *size_of(data))
    kind = rng.randrange(4)
    if kind == 0:
        return data + line
    if kind == 1:
        return data + damaged_line(rng, line) + b"\n"
    if kind == 2:
        return data + record_out_of_range(rng, *size_of(data)) + b"\n"
    return ninth_way_last(rng, data)


def many_records_and_another_fault(rng, data):
    damage = rng.choice([fault_last, fault_last, fault_last, fault_last, change_line, out_of_range, ninth_way])
    return damage(rng, many_records(rng, data))


DAMAGES = [
    change_line, change_line, change_line, change_line, change_line, change_line, change_line, change_line, insert_line,
    insert_line, insert_line, insert_line, drop_line, unfinished_line, unfinished_line, unfinished_last, unfinished_last,
    truncate, truncate, carriage_returns, mark_first, mark_last, without_size_line, file_again, spaces_for_tabs, drop_byte,
    drop_byte, repeat_byte, repeat_byte, insert_byte, insert_byte, replace_byte, replace_byte,
    size_out_of_range, size_out_of_range, size_out_of_range, size_near_limits, size_near_limits, size_near_limits,
    smaller_size, smaller_size, out_of_range, out_of_range, out_of_range, out_of_range, out_of_range, out_of_range,
    ninth_way, ninth_way, ninth_way_last, ninth_way_and_another_fault, ninth_way_and_another_fault, many_records,
    many_records, many_records_and_another_fault, many_records_and_another_fault, many_records_and_another_fault,
]


def some_file(rng):
    """A file whose text is in order: a network, or one with any numbers."""
    return some_network(rng) if rng.random() < 0.85 else some_valid(rng)


def damaged(rng, damages):
    data = some_file(rng)
    for _ in range(damages):
        data = rng.choice(DAMAGES)(rng, data)
    return data


def random_text(rng):
    """Bytes of the files' own alphabet, alone or behind valid lines."""
    text = bytes(rng.choices(ALPHABET, k=rng.randint(1, 60)))
    return rng.choice([b"", size_line(rng), valid(rng, rng.randint(1, 5)), network(rng)]) + text


def random_bytes(rng):
    return rng.choice([b"", size_line(rng)]) + rng.randbytes(rng.choice([2, 10, 100, 1000]))


def generate(seed: int) -> bytes:
    rng = random.Random(seed)
    kind = rng.random()
    if kind < 0.005:
        return b""
    if kind < 0.02:
        return random_byte(rng)
    if kind < 0.04:
        return random_bytes(rng)
    if kind < 0.10:
        return random_text(rng)
    if kind < 0.30:
        return some_file(rng)
    if kind < 0.75:
        return damaged(rng, 1)
    return damaged(rng, rng.randint(2, 4))


def main():
    parser = argparse.ArgumentParser(description=__doc__)
    parser.add_argument("seed", type=int, metavar="SEED")
    data = generate(parser.parse_args().seed)
    while data:
        data = data[os.write(1, data) :]


if __name__ == "__main__":
    main()
