"""The drain of a load, by docs/RULES.md alone."""

from loads import MoveOn, Take, make, packet


def calls_home(net, load, channel):
    """The calls by which the packet of a channel is brought home and taken, and the load that they leave."""
    calls, place = [], load[channel]
    while (channel, place) not in net.homes:
        ways = net.ways[channel, place]
        position = next(position for position, way in enumerate(ways) if net.numbers[way] < net.numbers[channel])
        calls.append(MoveOn(channel, position))
        channel = ways[position]
    calls.append(Take(channel))
    for call in calls:
        answer, load = make(net, load, call)
        assert answer.number is None, f"{net.name}, {call}: {answer}"
    return calls, load


def drain(net, load):
    """The number of the refusal or None, the calls of the drain, and the load that they leave."""
    if None in net.numbers:
        return 40, [], load
    packets = [(channel, packet(net, load, channel)) for channel in range(net.channels)]
    if any(place is not None and (channel, place) not in net.allowed for channel, place in packets):
        return 41, [], load
    calls = []
    for channel in sorted(range(net.channels), key=lambda channel: (net.numbers[channel], channel)):
        if load[channel] is not None:
            more, load = calls_home(net, load, channel)
            calls += more
    return None, calls, load
