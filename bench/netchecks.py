#!/usr/bin/env python3
"""Compares two builds of netcheck, or the plain program and netcheck: the same files to both in turns, the same answers, and how long
each takes from start to end."""

import argparse
import random
import statistics
import subprocess
import sys
import time

CHANNELS, PLACES, RECORDS = 128, 32, 2048


def text(records):
    return f"n\t{CHANNELS}\t{PLACES}\n".encode() + "".join(record + "\n" for record in records).encode()


def chains():
    """Each channel leads to the next, for as many places as the records suffice for."""
    places = RECORDS // (CHANNELS + 1)
    records = []
    for place in range(places):
        records += [f"e\t0\t{place}", f"h\t{CHANNELS - 1}\t{place}"]
        records += [f"w\t{channel}\t{place}\t{channel + 1}" for channel in range(CHANNELS - 1)]
    return text(records)


def scattered():
    """An entry and a home pair for each place, and ways at random."""
    draw = random.Random(1).randrange
    records = []
    for place in range(PLACES):
        records += [f"e\t{draw(CHANNELS)}\t{place}", f"h\t{draw(CHANNELS)}\t{place}"]
    while len(records) < RECORDS:
        records.append(f"w\t{draw(CHANNELS)}\t{draw(PLACES)}\t{draw(CHANNELS)}")
    return text(records)


def seconds(program, data):
    """The time and the answer of one run."""
    start = time.perf_counter()
    answer = subprocess.run([program], input=data, stdout=subprocess.PIPE, check=True).stdout
    return time.perf_counter() - start, answer


def main():
    parser = argparse.ArgumentParser(description=__doc__)
    parser.add_argument("first")
    parser.add_argument("second")
    parser.add_argument("--runs", type=int, default=201)
    options = parser.parse_args()
    for name, data in ("chains", chains()), ("scattered", scattered()):
        times = {options.first: [], options.second: []}
        for run in range(options.runs):
            order = list(times) if run % 2 == 0 else list(times)[::-1]
            answers = set()
            for program in order:
                took, answer = seconds(program, data)
                times[program].append(took)
                answers.add(answer)
            if len(answers) != 1:
                sys.exit(f"{name}: the answers differ")
        first, second = times.values()
        ratios = [b / a for a, b in zip(first, second)]
        print(
            f"{name}: {answer.split(chr(10).encode())[0].decode()!r}, {1000 * statistics.median(first):.2f} ms and "
            f"{1000 * statistics.median(second):.2f} ms, ratio {statistics.median(ratios):.2f}, of the least {min(second) / min(first):.2f}"
        )


if __name__ == "__main__":
    main()
