#!/usr/bin/env python3
"""Writes crates/samples/args and crates/samples/stdout from the files of crates/samples/data, or checks them.

Either way, the answers of second/netcheck.py have to equal those of the table in second/expected.py."""

import argparse
import sys
from pathlib import Path

sys.dont_write_bytecode = True
from expected import EXPECTED
from netcheck import answer, judge, text_in_order

SAMPLES = Path(__file__).resolve().parent.parent / "crates" / "samples"


def table_problems(answers):
    """Where the answers and the table of expected ones differ."""
    for name in sorted(answers.keys() | EXPECTED.keys()):
        if name not in answers:
            yield f"{name}: expected, but not in data"
        elif name not in EXPECTED:
            yield f"{name}: in data, but not expected"
        elif answers[name] != EXPECTED[name]:
            yield f"{name}: expected {EXPECTED[name]!r}, but the answer is {answers[name]!r}"


def main():
    parser = argparse.ArgumentParser(description=__doc__)
    parser.add_argument("--check", action="store_true", help="write nothing, exit 1 if anything is not up to date")
    check = parser.parse_args().check

    files = sorted((SAMPLES / "data").iterdir(), key=lambda file: file.name)
    answers = {file.name: answer(file.read_bytes()) for file in files}
    # The sample program writes anew every text that is in order, be its numbers in range or not, and every accepted network.
    texts = sum(text_in_order(file.read_bytes()) for file in files)
    networks = sum(judge(file.read_bytes()) is None for file in files)
    outputs = {
        "args": b"".join(name.encode("ascii") + b"\n" for name in answers),
        "stdout": b"".join(name.encode("ascii") + b": " + text for name, text in answers.items())
        + b"".join(b"%d %s written anew: %d the same, %d refused for want of a byte\n" % (count, what, count, count)
                   for count, what in ((texts, b"texts"), (networks, b"networks"))),
    }

    problems = list(table_problems(answers))
    for name, content in outputs.items():
        file = SAMPLES / name
        if not check:
            file.write_bytes(content)
        elif not file.is_file() or file.read_bytes() != content:
            problems.append(f"{file}: not up to date")
    for problem in problems:
        print(problem)
    print(f"{len(answers)} samples, {len(problems)} problems")
    sys.exit(1 if problems else 0)


if __name__ == "__main__":
    main()
