#!/usr/bin/env python3
"""Checks second/netcheck.py's verdicts on small random networks by trying all sets, numberings and loads there are; what the
verdicts promise of packets at work by trying all calls on these loads; and drains and judgements of all loads and numberings."""

import argparse
import random
import sys
from collections import Counter
from itertools import product

sys.dont_write_bytecode = True
from drains import drain
from files import entry, file_of, home, size, way
from judges import judge_answer, loose_packet, unmet_need
from loads import MoveOn, Put, Take, make
from netcheck import answer, needs_in
from verdicts import Network

# The number of a held channel.
HELD = 4294967295

# How many positions of ways a pair has at most here, and how many calls a random run has.
POSITIONS = 3
CALLS = 60


def random_network(rng):
    """A size of at most four channels and two places, entries, homes, and a list of ways for each pair."""
    channels, places = rng.randint(1, 4), rng.randint(1, 2)
    pairs = list(product(range(channels), range(places)))
    entries = {pair for pair in pairs if rng.random() < 0.4}
    homes = {pair for pair in pairs if rng.random() < 0.3}
    ways = {pair: rng.choices(range(channels), k=rng.choice([0, 1, 1, 2, 2, POSITIONS])) for pair in pairs}
    return channels, places, entries, homes, ways


def file_with(channels, places, entries, homes, ways):
    """The network's file."""
    return file_of([size(channels, places)] + [entry(*pair) for pair in entries] + [home(*pair) for pair in homes]
                   + [way(*pair, next_channel) for pair in ways for next_channel in ways[pair]])


def subsets(things):
    """All sets of some of the things."""
    for picked in product([False, True], repeat=len(things)):
        yield {thing for thing, taken in zip(things, picked) if taken}


def reached(entries, homes, ways):
    """The allowed pairs, which are those that lie in every set that has the entries and is kept by moves."""
    return set.intersection(*(
        pairs for pairs in subsets(list(ways)) if entries <= pairs
        and all((h, d) in pairs for c, d in pairs - homes for h in ways[c, d])))


def is_blocked(load, allowed, homes, ways):
    """Whether a load, which has a place or None for each channel, is allowed and blocked."""
    packets = [(c, d) for c, d in enumerate(load) if d is not None]
    return bool(packets) and all(
        pair in allowed and pair not in homes and all(load[h] is not None for h in ways[pair]) for pair in packets)


def expected(channels, places, entries, homes, ways):
    """The answer, from the definitions alone."""
    allowed = reached(entries, homes, ways)
    needs = [{d: ways[c, d] for d in range(places) if (c, d) in allowed - homes} for c in range(channels)]

    def is_held(items):
        return all(any(items.issuperset(need) for need in needs[c].values()) for c in items)

    held = set.union(*filter(is_held, subsets(range(channels))))
    free = [c for c in range(channels) if c not in held]

    def meets(number):
        return all(number[c] == max((1 + min(number[h] for h in need) for need in needs[c].values()), default=0) for c in free)

    numberings = list(filter(meets, product(*([HELD] if c in held else range(channels) for c in range(channels)))))
    assert len(numberings) == 1, "there is not one numbering"
    load = [min(d for d, need in needs[c].items() if held.issuperset(need)) if c in held else None for c in range(channels)]
    assert is_blocked(load, allowed, homes, ways) == bool(held), "the load does not fit the verdict"
    others = product([None, *range(places)], repeat=channels)
    assert any(is_blocked(other, allowed, homes, ways) for other in others) == bool(held), "another load does not fit it"

    lines = ["verdict %s %d %d" % ("blocked" if held else "free", max((numberings[0][c] for c in free), default=0), len(held))]
    lines += ["c %d %s %s" % ((c, "-", load[c]) if c in held else (c, numberings[0][c], "-")) for c in range(channels)]
    return "".join(line.replace(" ", "\t") + "\n" for line in lines).encode("ascii")


def network_of(channels, places, entries, homes, ways):
    """The network as second/verdicts.py has it."""
    return Network("small network", channels, places, entries, homes, [(*pair, h) for pair in ways for h in ways[pair]])


def lines_of(net):
    """The answer that second/verdicts.py leads to."""
    held = net.numbers.count(None)
    greatest = max((number for number in net.numbers if number is not None), default=0)
    lines = ["verdict\t%s\t%d\t%d\n" % ("blocked" if held else "free", greatest, held)]
    lines += ["c\t%d\t%s\t%s\n" % (c, "-" if number is None else number, "-" if net.load[c] is None else net.load[c])
              for c, number in enumerate(net.numbers)]
    return "".join(lines).encode("ascii")


def progress_calls(net):
    """All moves and takes but those that are refused whatever the load."""
    return [MoveOn(c, k) for c in range(net.channels) for k in range(POSITIONS)] + [Take(c) for c in range(net.channels)]


def put_calls(net):
    return [Put(c, d) for c, d in net.pairs]


def allowed_loads(net):
    records = [[None] + [d for d in range(net.places) if (c, d) in net.allowed] for c in range(net.channels)]
    return list(product(*records))


def any_packet(load):
    return any(place is not None for place in load)


def loads_after(net, load, calls):
    """The loads that those of the calls leave that are accepted."""
    return {left for answer, left in (make(net, load, call) for call in calls) if answer.number is None}


def emptied_from(after):
    """The loads from which some list of calls leads to the empty one, by the loads after a call on each."""
    found = {load for load in after if not any_packet(load)}
    while more := {load for load in after if load not in found and after[load] & found}:
        found |= more
    return found


def try_emptying(net, loads, is_free, is_arriving):
    """The verdict is free exactly if all allowed loads can be emptied. Of each that is not empty some packet can go on, in a free
    network that is arriving."""
    after = {load: loads_after(net, load, progress_calls(net)) for load in loads}
    for load in loads:
        left = after[load] | loads_after(net, load, put_calls(net))
        assert left <= after.keys(), f"after {load} a load is not allowed"
    all_can_be = emptied_from(after) == after.keys()
    assert is_free == all_can_be, f"that all loads can be emptied is {all_can_be}, that the verdict is free {is_free}"
    if is_free and is_arriving:
        assert all(after[load] for load in loads if any_packet(load)), "no packet of a load can go on"


def try_standing(net):
    """The packets of the blocked load stand after any call, on each load that has them, whatever else it has."""
    records = [[place] if place is not None else [None, *range(net.places + 1)] for place in net.load]
    for load in product(*records):
        for left in loads_after(net, load, progress_calls(net) + put_calls(net)):
            assert all(place in (None, now) for place, now in zip(net.load, left)), f"a packet of the blocked load left {load}"


def try_others(net, loads, is_free):
    """No sound numbering has smaller numbers, and no blocked load has packets in other channels."""
    def is_sound(number):
        return all(any(number[h] < number[c] for h in net.ways[c, d]) for c, d in net.moving)

    sound = list(filter(is_sound, product(range(net.channels), repeat=net.channels)))
    assert is_free == bool(sound), f"there are {len(sound)} sound numberings, that the verdict is free is {is_free}"
    for number in sound:
        assert all(ours <= other for ours, other in zip(net.numbers, number)), f"the numbers {number} are smaller"
    for load in loads:
        if is_blocked(load, net.allowed, net.homes, net.ways):
            assert all(place is None or net.load[c] is not None for c, place in enumerate(load)), f"{load} is blocked elsewhere"


def try_run(rng, net, loads):
    """A random run in a free network that is arriving: no more moves and takes are accepted than its packets cost together."""
    cost = {pair: number + 1 for pair, number in zip(net.pairs, net.pair_numbers)}
    load = rng.choice(loads)
    most, made = sum(cost[c, d] for c, d in enumerate(load) if d is not None), 0
    puts, others = put_calls(net), progress_calls(net)
    for _ in range(CALLS):
        call = rng.choice(puts) if rng.random() < 0.2 else rng.choice(others)
        answer, load = make(net, load, call)
        if answer.number is None and isinstance(call, Put):
            most += cost[call.channel, call.place]
        elif answer.number is None:
            made += 1
        assert made <= most, f"{made} moves and takes were accepted, where {most} are the most"


def next_call(net, load):
    """The call that comes next in a drain. Of the channels with packets it is about the first by number and then by channel."""
    channel = min((c for c, d in enumerate(load) if d is not None), key=lambda c: (net.numbers[c], c))
    if (channel, load[channel]) in net.homes:
        return Take(channel)
    smaller = [net.numbers[h] < net.numbers[channel] for h in net.ways[channel, load[channel]]]
    return MoveOn(channel, smaller.index(True))


def own_calls(net, channel, place):
    """How many moves by first ways to smaller numbers bring a packet home, and one for taking it."""
    if (channel, place) in net.homes:
        return 1
    return 1 + own_calls(net, next(h for h in net.ways[channel, place] if net.numbers[h] < net.numbers[channel]), place)


def try_drain(net, load):
    """A drain of an allowed load in a free network: it is the calls that come next, until the load is empty, and as many as the
    packets need by themselves."""
    number, calls, left = drain(net, load)
    assert number is None, f"the drain of {load} is refused by {number}"
    packets = [(c, d) for c, d in enumerate(load) if d is not None]
    now = load
    for call in calls:
        assert str(call) == str(next_call(net, now)), f"on {now} of {load} the drain makes the call {call}"
        answer, now = make(net, now, call)
        assert answer.number is None, f"on {now} of {load}, {call}: {answer}"
    assert now == left and not any_packet(left), f"the drain of {load} leaves {left}"
    assert len(calls) == sum(own_calls(net, c, d) for c, d in packets), f"the drain of {load} has {len(calls)} calls"
    assert len(calls) <= sum(net.numbers[c] + 1 for c, _ in packets), f"the drain of {load} has {len(calls)} calls"


def try_drains(net, loads, others, is_free):
    """A drain of each load there is, or its refusal."""
    allowed = set(loads)
    for load in others:
        if is_free and load in allowed:
            try_drain(net, load)
        else:
            assert drain(net, load) == (41 if is_free else 40, [], load), f"the drain of {load} is not refused as it should be"


def try_judges(net, needs, others):
    """Of each numbering up to the count of channels, and of each load, the lowest pair that offends is told, if any does."""
    for number in product(range(net.channels + 1), repeat=net.channels):
        offends = [(c, d) for c, d in net.moving if not any(number[h] < number[c] for h in net.ways[c, d])]
        assert unmet_need(needs, number) == min(offends, default=None), f"in the numbers {number} the pairs {offends} offend"
    for load in others:
        offends = [(c, d) for c, d in enumerate(load) if d is not None
                   and ((c, d) not in net.moving or None in [load[h] for h in net.ways[c, d]])]
        judged = loose_packet(needs, load)
        assert judged == min(offends, default=None), f"in the load {load} the pairs {offends} offend"
        blocked = is_blocked(load, net.allowed, net.homes, net.ways)
        assert blocked == (judged is None and any_packet(load)), f"that {load} is blocked is {blocked}"


def try_calls(rng, network, wanted):
    """Tries what the verdict promises of calls, and answers what kind of network it is."""
    net = network_of(*network)
    assert lines_of(net) == wanted, f"expected {wanted!r}, but second/verdicts.py leads to {lines_of(net)!r}"
    is_free, is_arriving = None not in net.numbers, None not in net.pair_numbers
    loads = allowed_loads(net)
    try_emptying(net, loads, is_free, is_arriving)
    try_others(net, loads, is_free)
    if not is_free:
        try_standing(net)
    if is_free and is_arriving:
        try_run(rng, net, loads)
    others = list(product([None, *range(net.places + 1)], repeat=net.channels))
    try_drains(net, loads, others, is_free)
    file = file_with(*network)
    try_judges(net, needs_in(file), others)
    assert judge_answer(file, wanted).startswith(b"judge\t%s\t-\t-\n" % (b"sound" if is_free else b"blocked"))
    return f"{'free' if is_free else 'blocked'} and {'' if is_arriving else 'not '}arriving"


def main():
    parser = argparse.ArgumentParser(description=__doc__)
    parser.add_argument("--count", type=int, default=1000, metavar="N", help="number of networks (default 1000)")
    count = parser.parse_args().count
    kinds = Counter()
    for seed in range(count):
        rng = random.Random(seed)
        network = random_network(rng)
        wanted, got = expected(*network), answer(file_with(*network))
        if wanted != got:
            sys.exit(f"seed {seed}: {network}: expected {wanted!r}, but the answer is {got!r}")
        try:
            kinds[try_calls(rng, network, wanted)] += 1
        except AssertionError as error:
            sys.exit(f"seed {seed}: {network}: {error}")
    print(f"{count} small networks, each with the one answer that the definitions leave, with what it promises of packets, and with "
          "drains and judgements by the rules")
    print(", ".join(f"{kinds[kind]} {kind}" for kind in sorted(kinds)))


if __name__ == "__main__":
    main()
