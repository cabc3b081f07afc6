#!/usr/bin/env python3
"""Network files by name: rings, meshes, tori, hypercubes, trees, graphs, chains, networks of no plan, and damaged files.
`networks.py NAME` writes the file of a name to standard output."""

import argparse
import os
import random
import sys
from itertools import combinations, product
from math import inf

sys.dont_write_bytecode = True
import files
from files import entry, file_of, home, size, way, without_ninth_ways
from netcheck import MOST_CHANNELS, MOST_PLACES, MOST_WAYS, allowed_pairs, judge

# How many records a file has at most, and how many bytes a damaged file.
LIST_LENGTH = 4096
DAMAGED_LENGTH = 1200

# How many channels and places a network of no plan has at most.
CHANNELS, PLACES = 40, 16


# Networks of switches. A place stands at each switch, and a packet comes home in each channel that leads there. A channel is its
# two switches and its turn; the local one of a switch leads from it to itself. Packets are put into local channels.


def local(switch):
    return switch, switch, 0


def switch_network(switches, links, onward):
    """The file of a network whose channels are the local ones and the links. `onward` has the channels to which a packet may move
    from a channel, for a switch. Pairs that no packet reaches have no records."""
    channels = [local(switch) for switch in switches] + links
    number = {channel: position for position, channel in enumerate(channels)}
    pairs = list(product(range(len(channels)), range(len(switches))))
    homes = {(channel, place) for channel, place in pairs if channels[channel][1] == switches[place]}
    entries = list(product(range(len(switches)), repeat=2))
    ways = {(channel, place): [number[onto] for onto in onward(channels[channel], switches[place])]
            for channel, place in pairs if (channel, place) not in homes}
    allowed = allowed_pairs(entries, homes, ways)
    records = [entry(*pair) for pair in entries] + [home(*pair) for pair in sorted(homes & allowed)]
    records += [way(*pair, onto) for pair in ways if pair in allowed for onto in ways[pair]]
    return file_of([size(len(channels), len(switches))] + records)


# Rings, meshes and tori. A switch is a tuple of coordinates.


def shifted(switch, axis, step, lengths):
    """The switch that lies a step along an axis, round the torus."""
    return tuple((x + step) % length if along == axis else x for along, (x, length) in enumerate(zip(switch, lengths)))


def steps_round(switch, target, axis, lengths):
    """The steps along an axis, 1 and -1, that lie on a shortest way round to the target's coordinate."""
    ahead = (target[axis] - switch[axis]) % lengths[axis]
    return [step for step, far in ((1, ahead), (-1, lengths[axis] - ahead)) if ahead and 2 * far <= lengths[axis]]


def steps_straight(switch, target, axis):
    """The step along an axis to the target's coordinate, without going round."""
    return [1 if target[axis] > switch[axis] else -1] if target[axis] != switch[axis] else []


def crosses(start, end, axis, step):
    """Whether a step along an axis leads round from the one end of the coordinates to the other."""
    return start[axis] != end[axis] and (end[axis] - start[axis]) * step < 0


def torus(lengths, rule, turns):
    """A torus, of one axis a ring. With two turns, packets that have crossed the end of an axis go on in channels of the second."""
    switches = list(product(*map(range, lengths)))
    axes = range(len(lengths))
    steps = {(switch, shifted(switch, axis, step, lengths)): (axis, step)
             for axis in axes for switch in switches for step in ((1,) if rule == "one way" else (1, -1))}
    links = [(*ends, turn) for turn in range(turns) for ends in steps]

    def onward(channel, target):
        start, end, turn = channel
        choices = [(axis, step) for axis in axes for step in steps_round(end, target, axis, lengths)]
        if rule == "one way":
            choices = [(0, 1)]
        elif rule == "row first":
            choices = choices[:1]
        for axis, step in choices:
            same = start != end and steps[start, end] == (axis, step)
            second = turns > 1 and same and (turn or crosses(start, end, axis, step))
            yield end, shifted(end, axis, step, lengths), int(second)

    return switch_network(switches, links, onward)


# Which of the shortest steps a packet may take in a mesh, each an axis and 1 or -1. The row is axis 0, west is -1 along it, and
# north 1 along the column.
MESH_RULES = {
    "row-first": lambda steps: steps[:1],
    "column-first": lambda steps: steps[-1:],
    "west-first": lambda steps: [(0, -1)] if (0, -1) in steps else steps,
    "north-last": lambda steps: [step for step in steps if step != (1, 1)] or steps,
    "negative-first": lambda steps: [step for step in steps if step[1] < 0] or steps,
    "adaptive": lambda steps: steps,
}


def straight_steps(end, target):
    return [(axis, step) for axis in range(len(end)) for step in steps_straight(end, target, axis)]


def beside(switch, axis, step):
    return tuple(x + step * (along == axis) for along, x in enumerate(switch))


def mesh_links(switches, turns):
    steps = list(product(range(len(switches[0])), (1, -1)))
    return [(switch, beside(switch, *step), turn) for turn in range(turns) for switch in switches for step in steps
            if beside(switch, *step) in switches]


def mesh(lengths, rule):
    """A mesh, or with two switches along each axis a hypercube, with shortest routes by a rule."""
    switches = list(product(*map(range, lengths)))

    def onward(channel, target):
        end = channel[1]
        return [(end, beside(end, *step), 0) for step in MESH_RULES[rule](straight_steps(end, target))]

    return switch_network(switches, mesh_links(switches, 1), onward)


def mesh_with_escape(lengths, back):
    """A mesh with two channels for each link and direction. Packets move in the first by any shortest step, and may go over to the
    second, where they move row first; with a way back, they may also move from the second to the first."""
    switches = list(product(*map(range, lengths)))

    def onward(channel, target):
        _, end, turn = channel
        steps = straight_steps(end, target)
        first = [(end, beside(end, *step), 0) for step in steps if back or not turn]
        return first + [(end, beside(end, *steps[0]), 1)]

    return switch_network(switches, mesh_links(switches, 2), onward)


def roaming_mesh(lengths):
    """A mesh in which packets may take any link but the one back."""
    switches = list(product(*map(range, lengths)))
    links = mesh_links(switches, 1)

    def onward(channel, _):
        return [link for link in links if link[0] == channel[1] and (link[1] != channel[0] or channel[0] == channel[1])]

    return switch_network(switches, links, onward)


# Graphs. An edge is two switches, the lower first, and a link leads each way.


def links_of(edges):
    return [(a, b, 0) for a, b in edges] + [(b, a, 0) for a, b in edges]


def distances(links, target, may_follow=lambda before, link: True):
    """By link, how many links a shortest route has from it to the target, itself included. Of two links in a row the second has to
    be one that may follow."""
    far = {link: 1 if link[1] == target else inf for link in links}
    while True:
        nearer = {link: min([far[link]] + [1 + far[onto] for onto in links if onto[0] == link[1] and may_follow(link, onto)])
                  for link in links}
        if nearer == far:
            return far
        far = nearer


def graph(switches, edges, may_follow=lambda before, link: True):
    """A graph in which packets take all shortest routes."""
    links = links_of(edges)
    far = {target: distances(links, target, may_follow) for target in switches}

    def onward(channel, target):
        is_local = channel[0] == channel[1]
        choices = [link for link in links if link[0] == channel[1] and (is_local or may_follow(channel, link))]
        least = min((far[target][link] for link in choices), default=inf)
        return [link for link in choices if far[target][link] == least < inf]

    return switch_network(switches, links, onward)


def up_then_down(before, link):
    """Whether a link does not go up, to a lower switch, behind one that went down."""
    return before[0] > before[1] or link[0] < link[1]


def random_edges(rng, count):
    """A tree of so many switches, each hung below a lower one, and some more edges."""
    edges = {(rng.randrange(switch), switch) for switch in range(1, count)}
    spare = [edge for edge in combinations(range(count), 2) if edge not in edges]
    return sorted(edges | set(rng.sample(spare, min(len(spare), rng.randint(1, count)))))


def tree(count):
    """A tree in which switch s hangs below (s - 1) / 2."""
    return graph(range(count), [((switch - 1) // 2, switch) for switch in range(1, count)])


def star(count):
    return graph(range(count + 1), [(0, switch) for switch in range(1, count + 1)])


def all_linked(count):
    return graph(range(count), list(combinations(range(count), 2)))


# Chains and circles of channels, of one place or more. A chain is a list of channels.


def along(channels, place):
    """The ways from each channel of a list to the next."""
    return [way(channel, place, onto) for channel, onto in zip(channels, channels[1:])]


def round_trip(channels, place):
    return along([*channels, channels[0]], place)


def chain(count, places):
    """A chain for each place, at the end of which packets are home."""
    records = []
    for place in range(places):
        records += [entry(0, place), home(count - 1, place)] + along(range(count), place)
    return file_of([size(count, places)] + records)


def chain_with_homes(count):
    """A chain with a place at each channel."""
    records = []
    for place in range(count):
        records += [entry(0, place), home(place, place)] + along(range(count), place)
    return file_of([size(count, count)] + records)


def chain_and_circle(length, count, links, homes):
    """A chain, and a circle behind it, both entered at their first channels. A link from the one to the other is a way."""
    first, second = range(length), range(length, length + count)
    records = [entry(0, 0), entry(length, 0)] + [home(channel, 0) for channel in homes]
    records += along(first, 0) + round_trip(second, 0) + [way(channel, 0, onto) for channel, onto in links]
    return file_of([size(length + count, 1)] + records)


def beside_each_other(length, count):
    return chain_and_circle(length, count, [], [length - 1])


def chain_into_circle(length, count):
    return chain_and_circle(length, count, [(length - 1, length)], [])


def circle_into_chain(length, count):
    return chain_and_circle(length, count, [(length + count - 1, 0)], [length - 1])


def circles_in_a_row(count, number):
    """Circles, each with a way from its last channel to the first of the next one; packets are home at the end of the last."""
    records = [entry(0, 0), home(count * number - 1, 0)]
    for first in range(0, count * number, count):
        records += round_trip(range(first, first + count), 0)
        if first:
            records.append(way(first - 1, 0, first))
    return file_of([size(count * number, 1)] + records)


# Networks of no plan.


def scatter(rng, most_ways):
    """Of each pair whether it is an entry and whether it is home, and up to so many ways anywhere."""
    channels, places = rng.randint(2, 20), rng.randint(1, 5)
    entries, homes = rng.choice([0.05, 0.2, 0.5]), rng.choice([0, 0.05, 0.2, 0.4])
    records = []
    for pair in product(range(channels), range(places)):
        records += [entry(*pair)] * (rng.random() < entries) + [home(*pair)] * (rng.random() < homes)
        records += [way(*pair, rng.randrange(channels)) for _ in range(rng.randint(0, most_ways))]
    return channels, places, records


def sparse(rng):
    """Pairs with two ways at most, some of which are dead ends."""
    return scatter(rng, 2)


def crowded(rng):
    """Pairs with eight ways at most."""
    return scatter(rng, 8)


def mostly_home(rng):
    """Packets that find their place at every other channel, and ways to any."""
    channels, places = rng.randint(4, 30), rng.randint(1, 4)
    records = [entry(channel, place) for channel, place in product(range(channels), range(places)) if rng.random() < 0.3]
    for channel, place in product(range(channels), range(places)):
        records += [home(channel, place)] if rng.random() < 0.5 else [
            way(channel, place, rng.randrange(channels)) for _ in range(rng.randint(1, 4))]
    return channels, places, records


SHAPES = {
    "sparse": (sparse, 30),
    "crowded": (crowded, 20),
    "mostly-home": (mostly_home, 15),
    "walks": (files.walks, 15),
    "descents": (files.descents, 25),
    "homes-with-ways": (files.homes_with_ways, 8),
    "ways-to-themselves": (files.self_loops, 8),
    "eight-ways": (files.eight_ways, 8),
    "crossings": (files.crossings, 6),
}


def drawn(draw, rng):
    """A network of moderate size."""
    while True:
        channels, places, records = draw(rng)
        if channels <= CHANNELS and places <= PLACES:
            return file_of([size(channels, places)] + without_ninth_ways(records))


# Damaged files: so many with each number of a fault.
DAMAGED = {10: 5, 11: 5, 12: 5, 13: 5, 14: 3, 15: 5, 16: 7, 17: 5}


def damaged(rng, number):
    """A damaged file that has the fault of a number and is not long."""
    while True:
        data = files.damaged(rng, rng.randint(1, 2))
        found = judge(data)
        if len(data) <= DAMAGED_LENGTH and found and found[1] == number:
            return data


RING_TURNS = {1: "", 2: "-two-turns"}


def rings():
    for (turns, words), count in product(RING_TURNS.items(), range(3, 10)):
        yield f"ring-of-{count}-one-way{words}", torus((count,), "one way", turns)
        yield f"ring-of-{count}-both-ways{words}", torus((count,), "adaptive", turns)


def tori():
    for lengths in (3, 3), (4, 3), (3, 4), (4, 4), (5, 3):
        name = f"torus-{lengths[0]}-by-{lengths[1]}"
        yield f"{name}-adaptive", torus(lengths, "adaptive", 1)
        for turns, words in RING_TURNS.items():
            yield f"{name}-row-first{words}", torus(lengths, "row first", turns)


def meshes():
    for lengths in (1, 5), (2, 2), (2, 3), (3, 2), (3, 3), (2, 4), (3, 4):
        for rule in MESH_RULES:
            yield f"mesh-{lengths[0]}-by-{lengths[1]}-{rule}", mesh(lengths, rule)
    for lengths in (2, 2), (2, 3), (3, 3):
        name = f"mesh-{lengths[0]}-by-{lengths[1]}"
        yield f"{name}-adaptive-with-escape", mesh_with_escape(lengths, False)
        yield f"{name}-adaptive-with-escape-and-back", mesh_with_escape(lengths, True)
        yield f"{name}-roaming", roaming_mesh(lengths)
    for axes in 3, 4:
        yield f"hypercube-of-{axes}-axis-by-axis", mesh((2,) * axes, "row-first")
        for rule in "negative-first", "adaptive":
            yield f"hypercube-of-{axes}-{rule}", mesh((2,) * axes, rule)
    yield "hypercube-of-3-adaptive-with-escape", mesh_with_escape((2, 2, 2), False)


def graphs():
    for count in 3, 7, 10:
        yield f"tree-of-{count}", tree(count)
    for count in 4, 8:
        yield f"star-of-{count}", star(count)
    for count in 3, 5:
        yield f"all-linked-{count}", all_linked(count)
    for number in range(10):
        rng = random.Random(f"graph {number}")
        count = rng.randint(4, 8)
        edges = random_edges(rng, count)
        yield f"graph-{number:02}-of-{count}-shortest", graph(range(count), edges)
        yield f"graph-{number:02}-of-{count}-up-then-down", graph(range(count), edges, up_then_down)


def chains():
    for count, places in (2, 1), (8, 1), (8, 3), (20, 2), (40, 1):
        yield f"chain-of-{count}-for-{places}", chain(count, places)
    for count in 3, 12:
        yield f"chain-of-{count}-with-homes", chain_with_homes(count)
    for length, count in (2, 1), (5, 4), (12, 7):
        yield f"chain-of-{length}-beside-circle-of-{count}", beside_each_other(length, count)
        yield f"chain-of-{length}-into-circle-of-{count}", chain_into_circle(length, count)
        yield f"circle-of-{count}-into-chain-of-{length}", circle_into_chain(length, count)
    for count, number in (2, 3), (4, 5):
        yield f"circles-of-{count}-in-a-row-of-{number}", circles_in_a_row(count, number)


def large_ones():
    """Larger than netcheck takes, in channels or places."""
    yield "chain-of-200", chain(200, 1)
    yield "chain-of-3-for-250", chain(3, 250)
    yield "circles-of-10-in-a-row-of-30", circles_in_a_row(10, 30)
    yield "ring-of-36-one-way-two-turns", torus((36,), "one way", 2)
    yield "mesh-6-by-6-row-first", mesh((6, 6), "row-first")
    yield "mesh-5-by-6-west-first", mesh((5, 6), "west-first")


def short_chain(channels, places):
    """A network of this size with a chain of its last five channels, for its last place."""
    last = range(channels - 5, channels)
    return file_of([size(channels, places), entry(last[0], places - 1), home(last[-1], places - 1)] + along(last, places - 1))


def ways_of_a_pair(count):
    """A pair with so many ways, to channels that are home."""
    channels = range(1, count + 1)
    records = [home(channel, 0) for channel in channels] + [way(0, 0, channel) for channel in channels]
    return file_of([size(count + 1, 1), entry(0, 0)] + records)


def repeated_records(count):
    return file_of([size(1, 1)] + [entry(0, 0)] * count)


def limits():
    """What is just within a limit of files, or of the list of records, and what is just beyond."""
    for channels in MOST_CHANNELS, MOST_CHANNELS + 1:
        yield f"channels-{channels}", short_chain(channels, 1)
    for places in MOST_PLACES, MOST_PLACES + 1:
        yield f"places-{places}", short_chain(5, places)
    for count in MOST_WAYS, MOST_WAYS + 1:
        yield f"ways-{count}", ways_of_a_pair(count)
    for count in LIST_LENGTH, LIST_LENGTH + 1:
        yield f"records-{count}", repeated_records(count)


def without_plan():
    for name, (draw, count) in SHAPES.items():
        for number in range(count):
            yield f"{name}-{number:02}", drawn(draw, random.Random(f"{name} {number}"))


def damaged_ones():
    for number, count in DAMAGED.items():
        for position in range(count):
            yield f"damaged-{number}-{position}", damaged(random.Random(f"damaged {number} {position}"), number)


def networks():
    """The files by name."""
    families = rings, meshes, tori, graphs, chains, large_ones, limits, without_plan, damaged_ones
    return {f"{name}.net": data for family in families for name, data in family()}


def main():
    parser = argparse.ArgumentParser(description=__doc__)
    parser.add_argument("name", metavar="NAME")
    name, named = parser.parse_args().name, networks()
    if name not in named:
        sys.exit(f"no network has the name {name}")
    data = named[name]
    while data:
        data = data[os.write(1, data) :]


if __name__ == "__main__":
    main()
