"""The calls on a load, by docs/RULES.md alone."""

from collections import namedtuple


def packet(net, load, channel):
    """The place of the packet in a channel, or None, also where there is no such channel or no such record."""
    return load[channel] if channel < min(net.channels, len(load)) else None


def with_record(load, channel, record):
    """The load with another record for one channel."""
    return load[:channel] + (record,) + load[channel + 1:]


class Answer(namedtuple("Answer", "number place")):
    """The number of the refusal, or None if the call is accepted, and the place of the packet that is taken, or None."""

    def __str__(self):
        if self.number is not None:
            return f"fault study {self.number}, line 0, field {3 if self.number == 20 else 0}"
        return "accepted" if self.place is None else f"accepted, place {self.place}"


class Put:
    """A packet for a place is put into a channel."""

    def __init__(self, channel, place):
        self.channel, self.place = channel, place

    def __str__(self):
        return f"put {self.place} into {self.channel}"

    def against(self, net, load):
        """Whatever is against the call: each number, and whether it applies."""
        return {
            20: len(load) < net.channels,
            30: self.channel >= net.channels,
            31: self.place >= net.places,
            32: (self.channel, self.place) not in net.entries,
            33: packet(net, load, self.channel) is not None,
        }

    def after(self, net, load):
        """The load that the accepted call leaves."""
        return with_record(load, self.channel, self.place)


class MoveOn:
    """The packet of a channel moves on, by the way at a position."""

    def __init__(self, channel, position):
        self.channel, self.position = channel, position

    def __str__(self):
        return f"move on {self.channel} by {self.position}"

    def way(self, net, load):
        """The channel to which the way leads, or None."""
        ways = net.ways.get((self.channel, packet(net, load, self.channel)), [])
        return ways[self.position] if self.position < len(ways) else None

    def against(self, net, load):
        way = self.way(net, load)
        return {
            20: len(load) < net.channels,
            30: self.channel >= net.channels,
            34: packet(net, load, self.channel) is None,
            35: (self.channel, packet(net, load, self.channel)) in net.homes,
            37: way is None,
            38: way is not None and packet(net, load, way) is not None,
        }

    def after(self, net, load):
        moved = with_record(load, self.way(net, load), load[self.channel])
        return with_record(moved, self.channel, None)


class Take:
    """The packet of a channel is taken."""

    def __init__(self, channel):
        self.channel = channel

    def __str__(self):
        return f"take {self.channel}"

    def against(self, net, load):
        return {
            20: len(load) < net.channels,
            30: self.channel >= net.channels,
            34: packet(net, load, self.channel) is None,
            36: (self.channel, packet(net, load, self.channel)) not in net.homes,
        }

    def after(self, net, load):
        return with_record(load, self.channel, None)


def make(net, load, call):
    """The answer of a call, and the load that it leaves. A load is a tuple of places, None for each record that is empty."""
    numbers = [number for number, applies in call.against(net, load).items() if applies]
    if numbers:
        return Answer(min(numbers), None), load
    return Answer(None, load[call.channel] if isinstance(call, Take) else None), call.after(net, load)
