#!/usr/bin/env python3
"""Compares the editor's entry with this program on seeded cases: files in order, damaged and empty, buffers that suffice, are longer or are too
short, and no memory. The driver is what editor/trials.c makes. With --example nothing is compared, and what the examples of editor/ print for the
same words is printed.

See docs/EDITOR.md."""

import argparse
import random
import struct
import subprocess
import sys
from array import array
from collections import Counter

sys.dont_write_bytecode = True
from files import generate, some_network
from netcheck import allowed_in, channels_found, judge, needs_in, size_and_records

MOST_RECORDS = 65535
FULL_RUN = 4000
NONE = 2**32 - 1

# What the driver's buffers hold before the call.
BYTE, NUMBER, PLACE, FAULT = 7, 7777777, 7777, 999


def refusal(data, lengths, has_memory):
    """The number, line and field of the refusal, or None."""
    found = judge(data, MOST_RECORDS)
    if not has_memory and asks_for_memory(data):
        return 19, 0, 0
    if found:
        return found[1:]
    (channels, places), _ = size_and_records(data)
    pairs = channels * places
    for field, (length, needed) in enumerate(zip(lengths, (pairs, channels, channels, pairs)), start=1):
        if length < needed:
            return 20, 0, field
    return None


def asks_for_memory(data):
    """Whether the first line is in order, behind which the cells of the pairs are asked for."""
    found = judge(data, MOST_RECORDS)
    return not found or found[2] > 1


def expected(data, lengths, has_memory):
    """The answer, and the buffers allowed, numbers, places and fault."""
    allowed_length, numbers_length, places_length, _, fault_length = lengths
    allowed = bytearray([BYTE] * allowed_length)
    numbers = array("I", [NUMBER] * numbers_length)
    places = array("I", [PLACE] * places_length)
    fault = array("I", [FAULT] * fault_length)
    found = refusal(data, lengths, has_memory)
    if found:
        number, *where = found
        fault[:2] = array("I", where[:fault_length])
        return number, allowed, numbers, places, fault
    (channels, place_count), _ = size_and_records(data)
    reached = allowed_in(data)
    for channel in range(channels):
        for place in range(place_count):
            allowed[channel * place_count + place] = (channel, place) in reached
    blocked = 0
    for channel, (number, place) in enumerate(channels_found(needs_in(data))):
        numbers[channel] = NONE if number is None else number
        places[channel] = NONE if place is None else place
        blocked |= number is None
    return blocked, allowed, numbers, places, fault


def near(rng, needed):
    """A length that is needed, or is longer or shorter."""
    return max(0, rng.choice([needed, needed, needed, needed + 1, needed + rng.randint(2, 40), needed - 1, rng.randint(0, needed), 0]))


def lengths_for(rng, data):
    """How many items the buffers have."""
    fields = data.split(b"\n")[0].split(b"\t")
    channels, places = (int(field) if field.isdigit() and len(field) < 4 else 3 for field in (fields + [b"", b""])[1:3])
    channels, places = min(channels, 200), min(places, 40)
    pairs = channels * places
    needed = [pairs, channels, channels, pairs]
    if rng.random() < 0.7:
        lengths = [length + rng.choice([0, 0, 1, 5]) for length in needed]
        if rng.random() < 0.3:
            lengths[rng.randrange(4)] = 0
    else:
        lengths = [near(rng, length) for length in needed]
    return lengths + [rng.choice([2, 2, 2, 3, 1, 0])]


def case(seed):
    """The file, the lengths of the buffers, and whether there is memory."""
    rng = random.Random(f"entry {seed}")
    kind = rng.random()
    if kind < 0.001:
        data = b"n\t1\t1\n" + (MOST_RECORDS + rng.choice([0, 1, 1, 2])) * b"e\t0\t0\n"
    elif kind < 0.01:
        data = rng.choice([b"", b"\n", b"n\t1\t1\n"])
    elif kind < 0.6:
        data = some_network(rng)
    else:
        data = generate(seed)
    return data, lengths_for(rng, data), rng.random() > 0.03


class Driver:
    def __init__(self, command):
        self.run = subprocess.Popen(command, stdin=subprocess.PIPE, stdout=subprocess.PIPE)

    def read(self, count):
        data = self.run.stdout.read(count)
        if len(data) != count:
            sys.exit(f"the driver ended with status {self.run.wait()}")
        return data

    def ask(self, data, lengths, has_memory):
        """The five words of an outcome, and the buffers."""
        self.run.stdin.write(struct.pack("=7I", len(data), *lengths, has_memory) + data)
        self.run.stdin.flush()
        outcome = struct.unpack("=5I", self.read(20))
        allowed_length, numbers_length, places_length, _, fault_length = lengths
        buffers = [bytearray(self.read(allowed_length))]
        buffers += [array("I", self.read(4 * length)) for length in (numbers_length, places_length, fault_length)]
        return outcome, buffers

    def end(self):
        self.run.stdin.close()
        if self.run.wait() != 0:
            sys.exit(f"the driver ended with status {self.run.returncode}")


def compare(driver, name, data, lengths, has_memory):
    """The answer of both. Ends with status 1 if they differ."""
    number, *buffers = expected(data, lengths, has_memory)
    outcome, given = driver.ask(data, lengths, has_memory)
    if outcome != (number, 1, 1, 0, 0) or given != buffers:
        print(f"difference at {name}: {data!r}")
        print(f"lengths {lengths}, memory {has_memory}")
        print(f"expected: {(number, 1, 1, 0, 0)} {buffers}")
        print(f"the entry: {outcome} {given}")
        sys.exit(1)
    return number


def word_of(number):
    return "-" if number == NONE else str(number)


def print_example(words):
    """What the examples print."""
    channels, places = 1024, 256
    if words[0] == "-s":
        channels, places, words = int(words[1]), int(words[2]), words[3:]
    lengths = [channels * places, channels, channels, channels * places, 2]
    for name in words:
        with open(name, "rb") as file:
            data = file.read()
        number, _, numbers, blocked, fault = expected(data, lengths, True)
        if number > 1:
            print(name, "refused", number, *fault, sep="\t")
            continue
        print(name, ("free", "blocked")[number], sep="\t")
        (count, _), _ = size_and_records(data)
        for channel in range(count):
            print("c", channel, word_of(numbers[channel]), word_of(blocked[channel]), sep="\t")


def main():
    parser = argparse.ArgumentParser(description=__doc__)
    parser.add_argument("--from", dest="first", type=int, default=0, metavar="SEED", help="first seed (default 0)")
    parser.add_argument("--count", type=int, default=FULL_RUN, metavar="N", help=f"number of cases (default {FULL_RUN})")
    parser.add_argument("--example", action="store_true", help="print what the examples print for the words that follow")
    parser.add_argument("words", nargs=argparse.REMAINDER, help="the driver and the words before it that run it, or those of an example")
    if sys.argv[1:2] == ["--example"]:
        return print_example(sys.argv[2:])
    args = parser.parse_args()
    if args.count < 1:
        parser.error("N has to be at least 1")
    if not args.words:
        parser.error("no driver")
    driver = Driver(args.words)
    seen = Counter(compare(driver, f"seed {seed}", *case(seed)) for seed in range(args.first, args.first + args.count))
    driver.end()
    print(f"{args.count} cases compared, seeds {args.first} to {args.first + args.count - 1}, no difference")
    print(", ".join(f"{number}: {seen[number]}" for number in sorted(seen)))
    missing = [number for number in (0, 1, *range(10, 21)) if not seen[number]]
    if args.count >= FULL_RUN and missing:
        sys.exit(f"never seen: {missing}")


if __name__ == "__main__":
    main()
