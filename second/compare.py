#!/usr/bin/env python3
"""Compares a program's answers with those of second/netcheck.py on seeded files of second/files.py, or with --judge with those of
second/judges.py on seeded pairs of files of second/results.py."""

import argparse
import os
import signal
import subprocess
import sys
import tempfile
from collections import Counter

sys.dont_write_bytecode = True
from files import generate
from judges import judge_answer
from netcheck import answer
from results import generate_pair

KINDS = ["verdict free", "verdict blocked"] + [f"fault {number}" for number in (10, 11, 12, 13, 14, 15, 16, 17, 18, 20)]
JUDGE_KINDS = [f"judge {word}" for word in ("sound", "unsound", "blocked", "unblocked")] + [
    f"fault {number}" for number in (10, 12, 13, 16, 18, 20, 70, 71)]
FULL_RUN = 2000
FULL_JUDGE_RUN = 600
SECONDS = 60


def kind_of(text):
    """The verdict or the judgement of an answer, or its fault number."""
    first, second, third = text.split()[:3]
    return b" ".join([first, third if first == b"fault" else second]).decode()


def too_slow(*_):
    raise TimeoutError(f"no answer within {SECONDS} seconds")


def run_with(command, data):
    """What a command does with an input."""
    signal.alarm(SECONDS)
    return subprocess.run(command, input=data, stdout=subprocess.PIPE)


def with_file(program, seed, _):
    """The input of a seed, what is expected, and what the program does."""
    data = generate(seed)
    return data, answer(data), run_with([program], data)


def is_bounded(text):
    """Whether after `sound` our numbers are no greater than the others, and after `blocked` our load has a packet in each channel
    that the other has one in."""
    (_, word, *_), *rows = [line.split(b"\t") for line in text.splitlines()]
    if word == b"sound":
        return all(ours != b"-" and int(ours) <= int(theirs) for _, _, ours, _, theirs, _ in rows)
    return word != b"blocked" or all(ours != b"-" or theirs == b"-" for _, _, _, ours, _, theirs in rows)


def with_pair(program, seed, result_file):
    """The inputs of a seed, what is expected, and what the program does."""
    data, result = generate_pair(seed)
    with open(result_file, "wb") as file:
        file.write(result)
    expected = judge_answer(data, result)
    assert is_bounded(expected), f"seed {seed}: {expected!r}"
    return (data, result), expected, run_with([program, "--judge", result_file], data)


def compare(seeds, case, program):
    """How many answers there are of each kind. Ends with status 1 at the first difference."""
    seen = Counter()
    with tempfile.TemporaryDirectory() as folder:
        for seed in seeds:
            try:
                data, expected, run = case(program, seed, os.path.join(folder, "result"))
            except OSError as error:
                sys.exit(f"seed {seed}: {error}")
            if run.returncode != 0 or run.stdout != expected:
                print(f"difference at seed {seed}")
                print(f"input: {data!r}")
                print(f"expected: {expected!r}, exit status 0")
                print(f"{program}: {run.stdout!r}, exit status {run.returncode}")
                sys.exit(1)
            seen[kind_of(expected)] += 1
    return seen


def main():
    parser = argparse.ArgumentParser(description=__doc__)
    parser.add_argument("program", metavar="PROGRAM", help="path of an executable that reads standard input")
    parser.add_argument("--judge", action="store_true", help="compare judgements of result files")
    parser.add_argument("--from", dest="first", type=int, default=0, metavar="SEED", help="first seed (default 0)")
    parser.add_argument("--count", type=int, metavar="N",
                        help=f"number of files or pairs (default {FULL_RUN}, with --judge {FULL_JUDGE_RUN})")
    args = parser.parse_args()
    case, kinds, full_run = (with_pair, JUDGE_KINDS, FULL_JUDGE_RUN) if args.judge else (with_file, KINDS, FULL_RUN)
    count = full_run if args.count is None else args.count
    if count < 1:
        parser.error("N has to be at least 1")

    signal.signal(signal.SIGALRM, too_slow)
    seen = compare(range(args.first, args.first + count), case, os.path.abspath(args.program))
    what = "pairs of files" if args.judge else "files"
    print(f"{count} {what} compared, seeds {args.first} to {args.first + count - 1}, no difference")
    for kind in kinds:
        print(f"{kind}: {seen[kind]}")
    missing = [kind for kind in kinds if not seen[kind]]
    if count >= full_run and missing:
        sys.exit("never seen: " + ", ".join(missing))


if __name__ == "__main__":
    main()
