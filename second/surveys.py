#!/usr/bin/env python3
"""Writes crates/surveys/data, args and stdout, or checks them: the networks of second/networks.py, and what comes of each by
docs/RULES.md alone: verdict, numbers, blocked load, longest routes, drains and judgements."""

import argparse
import sys
from pathlib import Path

sys.dont_write_bytecode = True
from journeys import drained, load_judged, numbers_judged, shown, words_of
from netcheck import judge, size_and_records
from networks import LIST_LENGTH, networks
from verdicts import HELD, Network

SURVEYS = Path(__file__).resolve().parent.parent / "crates" / "surveys"


def network_of(data):
    """The network of a file that is accepted."""
    (channels, places), records = size_and_records(data)
    entries, homes, ways = ([numbers for letter, numbers in records if letter == wanted] for wanted in (b"e", b"h", b"w"))
    return Network("network", channels, places, entries, homes, ways)


# Numbers that are judged, by what they are.


def lowered(numbers):
    """The numbers with the first greatest one lowered, unless that is 0."""
    greatest = max((number for number in numbers if number != HELD), default=None)
    if not greatest:
        return numbers
    at = numbers.index(greatest)
    return numbers[:at] + [greatest - 1] + numbers[at + 1:]


def numberings(net):
    own = words_of(net.numbers)
    yield "own", own
    yield "own, the first greatest lowered", lowered(own)
    yield "rising", list(range(net.channels))
    yield "falling", list(reversed(range(net.channels)))


# Loads that are judged and drained, by what they are.


def without_first(load):
    """The load without the packet of the lowest channel that has one."""
    at = next((channel for channel, place in enumerate(load) if place is not None), None)
    return tuple(None if channel == at else place for channel, place in enumerate(load))


def load_by(net, pick):
    """In each channel a packet for the place that is picked of those that are allowed there."""
    places = [[place for place in range(net.places) if (channel, place) in net.allowed] for channel in range(net.channels)]
    return tuple(pick(allowed, default=None) for allowed in places)


def loads(net):
    own, lowest = tuple(net.load), load_by(net, min)
    yield "own", own
    yield "own less its first packet", without_first(own)
    yield "lowest places", lowest
    yield "highest places", load_by(net, max)
    yield "lowest places in every second channel", tuple(None if channel % 2 else place for channel, place in enumerate(lowest))
    yield "place 0 in each channel", (0,) * net.channels


def network_lines(net):
    """The lines on a network."""
    yield f"check: {net.check_answer()}"
    yield f"numbers:{shown(net.numbers)}"
    yield f"blocked load:{shown(net.load)}"
    for what, numbers in numberings(net):
        yield f"numbers, {what}: {numbers_judged(net, numbers, ())[0]}"
    for what, load in loads(net):
        yield f"load, {what}: {load_judged(net, [], load)[0]}; drain: {drained(net, [], load)[0]}"
    yield f"routes: {net.routes_answer()}"
    yield f"numbers of the pairs:{shown(net.pair_numbers)}"


def file_lines(name, data):
    """The lines on a file."""
    found = judge(data, LIST_LENGTH)
    if found:
        layer, number, line, field = found
        yield f"{name}: fault {layer.decode()} {number}, line {line}, field {field}"
    else:
        (channels, places), records = size_and_records(data)
        yield f"{name}: {channels} channels, {places} places, {len(records)} records"
        yield from network_lines(network_of(data))


def wanted_files():
    """What each file of the crate has to have, by its path."""
    named = dict(sorted(networks().items()))
    text = "".join(line + "\n" for name, data in named.items() for line in file_lines(name, data))
    return {SURVEYS / "data" / name: data for name, data in named.items()} | {
        SURVEYS / "args": "".join(name + "\n" for name in named).encode("ascii"),
        SURVEYS / "stdout": text.encode("ascii"),
    }


def main():
    parser = argparse.ArgumentParser(description=__doc__)
    parser.add_argument("--check", action="store_true", help="write nothing, exit 1 if anything is not up to date")
    check = parser.parse_args().check

    wanted = wanted_files()
    others = set((SURVEYS / "data").glob("*")) - wanted.keys()
    problems = sorted(others | {path for path in wanted if not path.is_file() or path.read_bytes() != wanted[path]})
    if check:
        for path in problems:
            print(f"{path}: not up to date")
        print(f"{len(wanted) - 2} networks surveyed, {len(problems)} problems")
        sys.exit(1 if problems else 0)
    for path in others:
        path.unlink()
    (SURVEYS / "data").mkdir(exist_ok=True)
    for path, content in wanted.items():
        path.write_bytes(content)
    print(f"{len(wanted) - 2} networks surveyed")


if __name__ == "__main__":
    main()
