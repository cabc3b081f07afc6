#!/usr/bin/env python3
"""Judges a result file about the network file on standard input, and prints what netcheck --judge prints.

See docs/FORMAT.md, docs/REFUSALS.md and docs/RULES.md."""

import argparse
import os
import re
import sys

sys.dont_write_bytecode = True
from netcheck import LIMIT, NUMBER, channels_found, fault, mark, needs_in, refusal, verdict

FIRST = re.compile(rb"verdict\t(?:free|blocked)\t(?:%s)\t(?:%s)" % (NUMBER.pattern, NUMBER.pattern))
CHANNEL = re.compile(rb"c\t(%s)\t(?:(%s)\t-|-\t(%s))" % ((NUMBER.pattern,) * 3))


def unmet_need(needs, numbers):
    """The lowest channel with a need without a way to a smaller number, and the lowest place of such needs of it; or None."""
    for channel, by_place in enumerate(needs):
        for place in sorted(by_place):
            if not any(numbers[way] < numbers[channel] for way in by_place[place]):
                return channel, place
    return None


def loose_packet(needs, load):
    """The lowest channel with a packet that is not allowed, is home, or has a way to a channel without a packet, and the place of
    that packet; or None. The channel of a packet that is allowed and not home has a need for it."""
    for channel, by_place in enumerate(needs):
        place = load[channel]
        if place is not None and (place not in by_place or any(load[way] is None for way in by_place[place])):
            return channel, place
    return None


def line_found(number, text):
    """The number and the place that a channel's line has in a result file, one of them None; or None if that is not its line."""
    found = CHANNEL.fullmatch(text)
    if not found or int(found[1]) != number:
        return None
    return tuple(None if field is None else int(field) for field in found.groups()[1:])


def result_of(data, channels):
    """By channel the number and the place in a result file, and no fault; or else its fault as layer, number, line and field."""
    *lines, rest = data.split(b"\n")
    if not lines or not FIRST.fullmatch(lines[0]):
        return None, (b"result", 70, 1, 0)
    results = [line_found(channel, text) for channel, text in zip(range(channels), lines[1:])]
    if None in results:
        return None, (b"result", 70, results.index(None) + 2, 0)
    if len(results) < channels:
        return None, (b"result", 70, len(results) + 2, 0)
    if rest or len(lines) > channels + 1:
        return None, (b"result", 70, channels + 2, 0)
    # The first line agrees with the others if the same results have just this text.
    if data != verdict(results):
        return None, (b"result", 71, 1, 0)
    return results, None


def judgement(needs, results):
    """The line for the judgement."""
    numbers, load = zip(*results)
    if load == (None,) * len(needs):
        words, offends = (b"sound", b"unsound"), unmet_need(needs, numbers)
    else:
        words, offends = (b"blocked", b"unblocked"), loose_packet(needs, load)
    return b"judge\t%s\t%s\t%s\n" % (words[offends is not None], *map(mark, offends or (None, None)))


def judge_answer(network: bytes, result: bytes) -> bytes:
    """What netcheck --judge prints about a network file and a result file."""
    found = refusal(network)
    if found:
        return fault(*found)
    if len(result) > LIMIT:
        return fault(b"study", 20, 0, 5)
    needs = needs_in(network)
    results, found = result_of(result, len(needs))
    if found:
        return fault(*found)
    lines = [b"c\t%d\t%s\t%s\t%s\t%s\n" % (channel, *map(mark, ours + theirs))
             for channel, (ours, theirs) in enumerate(zip(channels_found(needs), results))]
    return judgement(needs, results) + b"".join(lines)


def main():
    parser = argparse.ArgumentParser(description=__doc__)
    parser.add_argument("result", metavar="RESULT", help="path of a result file")
    with open(parser.parse_args().result, "rb") as file:
        result = file.read(LIMIT + 1)
    os.write(1, judge_answer(sys.stdin.buffer.read(LIMIT + 1), result))


if __name__ == "__main__":
    main()
