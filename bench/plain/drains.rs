//! The packets of a load, brought home.

use super::checks::check_rooms;
use super::faults::Fault;
use super::loads::{move_on, take};
use super::networks::Network;
use super::numbering::number_channels;
use super::tracing::mark_allowed;

// Brings the packet of a channel home, by its first ways to smaller numbers. Answers how many calls that takes.
fn bring_home<N: Network>(net: &N, numbers: &[u32], load: &mut [Option<u16>], mut channel: u16, place: u16) -> Result<usize, Fault> {
    let mut calls = 1;
    while !net.home(channel, place) {
        let own = numbers[usize::from(channel)];
        let ways = net.ways(channel, place).enumerate();
        let (position, way) = { ways }.find(|(_, way)| numbers[usize::from(*way)] < own).expect("a way to a smaller number");
        move_on(net, load, channel, position)?;
        channel = way;
        calls += 1;
    }
    take(net, load, channel)?;
    Ok(calls)
}

fn empty<N: Network>(net: &N, numbers: &[u32], load: &mut [Option<u16>]) -> Result<usize, Fault> {
    let packets = (0..net.channels()).filter_map(|channel| Some((numbers[usize::from(channel)], channel, load[usize::from(channel)]?)));
    let mut packets: Vec<_> = packets.collect();
    packets.sort_unstable();
    let mut calls = 0;
    for (_, channel, place) in packets {
        calls += bring_home(net, numbers, load, channel, place)?;
    }
    Ok(calls)
}

// Whether the load is allowed.
fn is_allowed<N: Network>(net: &N, allowed: &[u8], load: &[Option<u16>]) -> bool {
    let may_stand = |(channel, place): (u16, u16)| place < net.places() && allowed[net.position(channel, place)] == 1;
    let mut packets = (0..net.channels()).filter_map(|channel| Some((channel, load[usize::from(channel)]?)));
    packets.all(may_stand)
}

fn drain_with<N: Network>(
    net: &N,
    allowed: &mut [u8],
    numbers: &mut [u32],
    load: &mut [Option<u16>],
    work: &mut [u32],
) -> Result<usize, Fault> {
    check_rooms(net, allowed, numbers, load, work)?;
    mark_allowed(net, allowed, work);
    if number_channels(net, allowed, numbers).held > 0 {
        return Err(Fault::study(40));
    }
    if !is_allowed(net, allowed, load) {
        return Err(Fault::study(41));
    }
    empty(net, numbers, load)
}

/// Empties an allowed load of a free network. Answers how many calls that takes.
pub fn drain<N: Network>(
    net: &N,
    allowed: &mut [u8],
    numbers: &mut [u32],
    load: &mut [Option<u16>],
    work: &mut [u32],
) -> Result<usize, Fault> {
    let drained = drain_with(net, allowed, numbers, load, work);
    work.fill(0);
    drained
}
