#!/usr/bin/env python3
"""Seeded pairs of a network file and a result file, in order and damaged. `results.py SEED FILE` writes the network file of a seed
to standard output and its result file to FILE."""

import argparse
import os
import random
import sys

sys.dont_write_bytecode = True
from files import (
    LIMIT, carriage_return, carriage_returns, drop_byte, empty_field, fewer_fields, file_again, generate, insert_byte,
    mark_first, mark_last, more_fields, network, not_a_number, number, position, random_byte, repeat_byte, replace_byte,
    some_network, spaces_for_tabs, trailing_tab, truncate, with_one_line)
from netcheck import channels_found, needs_in, refusal, verdict

# The greatest number that a result file can have.
MOST = 9999


# Results, which are a number or a place for each channel, the other of the two being None. Each function takes those of netcheck.


def own(rng, needs, found):
    return found


def with_numbers(found, change):
    """The results with other numbers, up to the greatest that there can be."""
    return [(None, place) if number is None else (min(max(change(number), 0), MOST), None) for number, place in found]


def wider(rng, needs, found):
    """Numbers in the same order, with other differences."""
    heights = [rng.randint(0, 5)]
    for _ in found:
        heights.append(heights[-1] + rng.choice([1, 1, 2, rng.randint(1, 70)]))
    return with_numbers(found, lambda number: heights[number])


def greatest_numbers(rng, needs, found):
    """Numbers in the same order, the greatest being 9999."""
    greatest = max((number for number, _ in found if number is not None), default=0)
    return with_numbers(found, lambda number: MOST - greatest + number)


def scattered_numbers(rng, needs, found):
    """The numbers, each with a little more or less. Most often that is nothing."""
    times, often = rng.choice([1, 2, 3]), rng.choice([0.05, 0.3])
    return with_numbers(found, lambda number: times * number + (rng.randint(-3, 3) if rng.random() < often else 0))


def any_numbers(rng, needs, found):
    """Numbers for all channels, held ones too."""
    most = rng.choice([0, 1, len(found), MOST])
    return [(rng.randint(0, most), None) for _ in found]


def exchanged(rng, needs, found):
    """The results with two channels exchanged."""
    one, other = position(rng, len(found)), position(rng, len(found))
    found = list(found)
    found[one], found[other] = found[other], found[one]
    return found


def other_channel(rng, needs, found):
    """One channel is held, for any place, or is not held any more."""
    channel = position(rng, len(found))
    changed = (None, some_place(rng, needs[channel])) if rng.random() < 0.7 else (rng.randint(0, len(found)), None)
    return found[:channel] + [changed] + found[channel + 1:]


def some_place(rng, by_place):
    """A place of a channel's needs, or any."""
    return rng.choice([*by_place, rng.randrange(33)] if rng.random() < 0.9 else [32, 255, 256, MOST])


def held_places(rng, needs, found):
    """Other places in the held channels, most of which have only ways to such channels."""
    held = {channel for channel, (_, place) in enumerate(found) if place is not None}
    return [result if channel not in held else
            (None, rng.choice([place for place, ways in needs[channel].items() if ways <= held]))
            for channel, result in enumerate(found)]


def fewer_held(rng, needs, found):
    """Only those channels are held that the packets of one lead to, from channel to channel."""
    held = [channel for channel, (_, place) in enumerate(found) if place is not None]
    kept, ahead = set(), rng.sample(held, min(1, len(held)))
    while ahead:
        channel = ahead.pop()
        if channel not in kept:
            kept.add(channel)
            ahead += needs[channel][found[channel][1]]
    return [(rng.randint(0, 3), None) if number is None and channel not in kept else (number, place)
            for channel, (number, place) in enumerate(found)]


def all_held(rng, needs, found):
    """A packet in each channel with needs, or in most of them."""
    often = rng.choice([1, 0.9])
    return [(None, rng.choice(list(by_place))) if by_place and rng.random() < often else (0, None) for by_place in needs]


RESULTS = [
    own, own, wider, wider, greatest_numbers, scattered_numbers, scattered_numbers, any_numbers, exchanged, other_channel,
    other_channel, held_places, fewer_held, fewer_held, all_held,
]


# Damages of a result file. Each returns the new file.


def other_first_line(rng, data):
    """The first line with another verdict or another number."""
    first, end, rest = data.partition(b"\n")
    fields = first.split(b"\t")
    at = min(rng.randint(1, 3), len(fields) - 1)
    fields[at] = rng.choice([b"free", b"blocked"]) if at == 1 else rng.choice([b"0", b"1", number(rng)])
    return b"\t".join(fields) + end + rest


def marks_exchanged(line):
    """A line with its last two fields exchanged."""
    fields = line.split(b"\t")
    return b"\t".join(fields[:-2] + fields[:-3:-1])


def both_or_neither(rng, line):
    """A line with a number and a place, or with neither."""
    mark = rng.choice([b"-", number(rng)])
    return b"\t".join(line.split(b"\t")[:-2] + [mark, mark])


def other_number(rng, line):
    """A line with another number in one field, with what is no number, or with too many digits."""
    fields = line.split(b"\t")
    at = rng.randrange(len(fields))
    fields[at] = rng.choice([number(rng), not_a_number(rng), b"-", b"0" + fields[at], fields[at] + b"0000"])
    return b"\t".join(fields)


def damaged_line(rng, line):
    kind = rng.randrange(4)
    if kind == 0:
        return marks_exchanged(line)
    if kind == 1:
        return both_or_neither(rng, line)
    if kind == 2:
        return other_number(rng, line)
    return rng.choice([carriage_return, empty_field, fewer_fields, more_fields, trailing_tab])(rng, line.split(b"\t"))


def change_line(rng, data):
    return with_one_line(rng, data, damaged_line)


def drop_line(rng, data):
    lines = data.split(b"\n")
    del lines[position(rng, max(1, len(lines) - 1))]
    return b"\n".join(lines)


def repeat_line(rng, data):
    lines = data.split(b"\n")
    at = position(rng, max(1, len(lines) - 1))
    return b"\n".join(lines[:at + 1] + lines[at:])


def exchange_lines(rng, data):
    lines = data.split(b"\n")
    one, other = position(rng, max(1, len(lines) - 1)), position(rng, max(1, len(lines) - 1))
    lines[one], lines[other] = lines[other], lines[one]
    return b"\n".join(lines)


def one_more_line(rng, data):
    """One more channel, or something else at the end."""
    line = rng.choice([b"c\t%d\t0\t-" % (data.count(b"\n") - 1), b"c\t0\t0\t-", b"", random_byte(rng)])
    return data + line + rng.choice([b"\n", b""])


def unfinished(rng, data):
    return data[:-1]


def near_limit(rng, data):
    """More lines, up to about as many bytes as are taken."""
    return (data + b"c\t0\t0\t-\n" * LIMIT)[:LIMIT + rng.randint(-1, 2)]


DAMAGES = [
    other_first_line, other_first_line, other_first_line, other_first_line, change_line, change_line, change_line, change_line,
    drop_line, repeat_line, exchange_lines, one_more_line, one_more_line, unfinished, near_limit, truncate, carriage_returns,
    mark_first, mark_last, spaces_for_tabs, file_again, drop_byte, repeat_byte, insert_byte, replace_byte,
]


def some_result(rng, data):
    """A result file for an accepted network file, in order or with a first line that is not of it."""
    needs = needs_in(data)
    results = rng.choice(RESULTS)(rng, needs, channels_found(needs))
    return verdict(results)


def generate_pair(seed: int):
    """A network file and a result file."""
    rng = random.Random(seed)
    data = rng.choice([network, some_network])(rng) if rng.random() < 0.95 else generate(seed)
    accepted = data if refusal(data) is None and rng.random() < 0.98 else network(rng)
    result = some_result(rng, accepted)
    for _ in range(rng.choice([0, 0, 0, 1, 1, 2])):
        result = rng.choice(DAMAGES)(rng, result)
    return data, b"" if rng.random() < 0.005 else result


def main():
    parser = argparse.ArgumentParser(description=__doc__)
    parser.add_argument("seed", type=int, metavar="SEED")
    parser.add_argument("file", metavar="FILE")
    args = parser.parse_args()
    data, result = generate_pair(args.seed)
    with open(args.file, "wb") as file:
        file.write(result)
    while data:
        data = data[os.write(1, data):]


if __name__ == "__main__":
    main()
