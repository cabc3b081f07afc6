#!/usr/bin/env python3
"""Reads a network file from standard input and prints netcheck's answer.

See docs/FORMAT.md, docs/REFUSALS.md and docs/RULES.md."""

import argparse
import os
import re
import sys
from collections import Counter, defaultdict

# The limits of network files.
MOST_CHANNELS = 1024
MOST_PLACES = 256
MOST_WAYS = 8

# The limits of netcheck.
LIMIT = 32768
LIST_LENGTH = 2048
CHANNEL_LIMIT = 128
PLACE_LIMIT = 32

FIELD_COUNT = {b"n": 3, b"e": 3, b"h": 3, b"w": 4}
NUMBER = re.compile(rb"0|[1-9][0-9]{0,3}")


def lines_of(data):
    """The lines of a file, each as its fields and whether it is finished."""
    *finished, rest = data.split(b"\n")
    lines = [(line.split(b"\t"), True) for line in finished]
    if rest:
        lines.append((rest.split(b"\t"), False))
    return lines


def numbers_of(fields):
    """The numbers behind the letter of a line."""
    return tuple(int(field) for field in fields[1:])


def text_fault(line, fields, finished):
    """The number and the field of a line's fault of layer text, or None."""
    letter = fields[0]
    if line == 1 and letter != b"n":
        return 10, 1
    if letter not in FIELD_COUNT:
        return 11, 1
    if line > 1 and letter == b"n":
        return 14, 1
    if len(fields) != FIELD_COUNT[letter] or not finished:
        return 12, 0
    for field in range(2, len(fields) + 1):
        if not NUMBER.fullmatch(fields[field - 1]):
            return 13, field
    return None


def size_fault(channels, places):
    """The number and the field of a size's fault, or None."""
    if not 1 <= channels <= MOST_CHANNELS:
        return 15, 2
    if not 1 <= places <= MOST_PLACES:
        return 15, 3
    return None


def record_fault(channels, places, numbers, ways):
    """The number and the field of a record's fault, or None. `ways` counts those of its pair up to it if it is a way."""
    for field, (number, count) in enumerate(zip(numbers, (channels, places, channels)), start=2):
        if number >= count:
            return 16, field
    if ways > MOST_WAYS:
        return 17, 0
    return None


def text_in_order(data: bytes) -> bool:
    """Whether a file of any length has no fault of layer text."""
    lines = lines_of(data)
    return bool(lines) and not any(text_fault(line, *parts) for line, parts in enumerate(lines, start=1))


def judge(data: bytes, room=LIST_LENGTH):
    """The layer, number, line and field of the fault of a file of any length, by 10 to 18, or None. More records than `room` are
    too many."""
    lines = lines_of(data)
    if not lines:
        return b"text", 10, 1, 1
    ways = Counter()
    for line, (fields, finished) in enumerate(lines, start=1):
        found = text_fault(line, fields, finished)
        if found:
            number, field = found
            return b"text", number, line, field
        letter, numbers = fields[0], numbers_of(fields)
        if letter == b"n":
            channels, places = numbers
            found = size_fault(channels, places)
        elif letter == b"w":
            pair = numbers[:2]
            ways[pair] += 1
            found = record_fault(channels, places, numbers, ways[pair])
        else:
            found = record_fault(channels, places, numbers, 0)
        if found:
            number, field = found
            return b"table", number, line, field
    if len(lines) - 1 > room:
        return b"table", 18, room + 2, 0
    return None


def allowed_pairs(entries, homes, ways):
    """The allowed pairs, each a channel and a place."""
    allowed = set(entries)
    while True:
        reached = {(way, place) for channel, place in allowed - homes for way in ways[channel, place]}
        if reached <= allowed:
            return allowed
        allowed |= reached


def parts_of(records):
    """The entries, the home pairs, and by pair its ways."""
    entries = {numbers for letter, numbers in records if letter == b"e"}
    homes = {numbers for letter, numbers in records if letter == b"h"}
    ways = defaultdict(set)
    for letter, numbers in records:
        if letter == b"w":
            channel, place, next_channel = numbers
            ways[channel, place].add(next_channel)
    return entries, homes, ways


def needs_of(channels, records):
    """For each channel its needs: by place, the ways of each allowed pair that is not home."""
    entries, homes, ways = parts_of(records)
    needs = [{} for _ in range(channels)]
    for channel, place in allowed_pairs(entries, homes, ways) - homes:
        needs[channel][place] = ways[channel, place]
    return needs


def held_channels(needs):
    """The greatest held set: all channels, less those that have no need whose ways all lie in what is left."""
    held = set(range(len(needs)))
    while True:
        kept = {channel for channel in held if any(ways <= held for ways in needs[channel].values())}
        if kept == held:
            return held
        held = kept


def numbers_by(needs, number):
    """What the equation makes of numbers of the channels that are not held."""
    return {channel: max((1 + min(number[way] for way in ways if way in number) for ways in needs[channel].values()), default=0)
            for channel in number}


def channel_numbers(needs, held):
    """The numbers of the channels that are not held: 0 for each, raised until the equation holds of all."""
    number = {channel: 0 for channel in range(len(needs)) if channel not in held}
    while number != (raised := numbers_by(needs, number)):
        number = raised
    return number


def fault(layer, number, line, field):
    return b"fault\t%s\t%d\t%d\t%d\n" % (layer, number, line, field)


def mark(number):
    return b"-" if number is None else b"%d" % number


def channels_found(needs):
    """By channel, its number and the place of its packet in the blocked load. One of the two is None."""
    held = held_channels(needs)
    number = channel_numbers(needs, held)
    return [(None, min(place for place, ways in needs[channel].items() if ways <= held)) if channel in held
            else (number[channel], None) for channel in range(len(needs))]


def verdict(channels):
    """The lines for an accepted file, by the number and the place of each channel."""
    held = sum(number is None for number, _ in channels)
    greatest = max((number for number, _ in channels if number is not None), default=0)
    lines = [b"verdict\t%s\t%d\t%d\n" % (b"blocked" if held else b"free", greatest, held)]
    lines += [b"c\t%d\t%s\t%s\n" % (channel, *map(mark, found)) for channel, found in enumerate(channels)]
    return b"".join(lines)


def size_and_records(data):
    """The counts of an accepted file, and its records, each a letter and numbers."""
    size, *records = [(fields[0], numbers_of(fields)) for fields, _ in lines_of(data)]
    return size[1], records


def refusal(data):
    """The layer, number, line and field of the fault of an input, or None."""
    if len(data) > LIMIT:
        return b"study", 20, 0, 5
    found = judge(data)
    if found:
        return found
    channels, places = size_and_records(data)[0]
    if channels > CHANNEL_LIMIT or places > PLACE_LIMIT:
        return b"study", 20, 0, 5
    return None


def allowed_in(data):
    """The allowed pairs of an accepted file."""
    _, records = size_and_records(data)
    return allowed_pairs(*parts_of(records))


def needs_in(data):
    """The needs of the channels of an accepted file."""
    (channels, _), records = size_and_records(data)
    return needs_of(channels, records)


def answer(data: bytes) -> bytes:
    """What netcheck prints."""
    found = refusal(data)
    return fault(*found) if found else verdict(channels_found(needs_in(data)))


def main():
    argparse.ArgumentParser(description=__doc__).parse_args()
    os.write(1, answer(sys.stdin.buffer.read(LIMIT + 1)))


if __name__ == "__main__":
    main()
