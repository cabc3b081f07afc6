//! Whether packets can block each other, and how far they can go.

use super::faults::{Buffer, Fault};
use super::networks::Network;
use super::numbering::{Count, HELD, must_move, number_channels, number_pairs};
use super::tracing::mark_allowed;

fn is_shut<N: Network>(net: &N, allowed: &[u8], numbers: &[u32], channel: u16, place: u16) -> bool {
    must_move(net, allowed, channel, place) && net.ways(channel, place).all(|way| numbers[usize::from(way)] == HELD)
}

fn write_load<N: Network>(net: &N, allowed: &[u8], numbers: &[u32], load: &mut [Option<u16>]) {
    for channel in 0..net.channels() {
        load[usize::from(channel)] = match numbers[usize::from(channel)] {
            HELD => (0..net.places()).find(|place| is_shut(net, allowed, numbers, channel, *place)),
            _ => None,
        };
    }
}

/// What check and drain need.
pub fn check_rooms<N: Network>(net: &N, allowed: &[u8], numbers: &[u32], load: &[Option<u16>], work: &[u32]) -> Result<(), Fault> {
    Buffer::Allowed.check(net.pairs(), allowed.len())?;
    Buffer::Numbers.check(usize::from(net.channels()), numbers.len())?;
    Buffer::Load.check(usize::from(net.channels()), load.len())?;
    Buffer::Work.check(net.pairs(), work.len())
}

/// Whether packets can block each other: no channel may be held. Fills the table and the numbers of the channels, and writes a load that
/// is blocked where there is one.
pub fn check<N: Network>(
    net: &N,
    allowed: &mut [u8],
    numbers: &mut [u32],
    load: &mut [Option<u16>],
    work: &mut [u32],
) -> Result<Count, Fault> {
    let checked = check_rooms(net, allowed, numbers, load, work).map(|()| {
        mark_allowed(net, allowed, work);
        let count = number_channels(net, allowed, numbers);
        write_load(net, allowed, numbers, load);
        count
    });
    work.fill(0);
    checked
}

fn route_rooms<N: Network>(net: &N, allowed: &[u8], numbers: &[u32], work: &[u32]) -> Result<(), Fault> {
    Buffer::Allowed.check(net.pairs(), allowed.len())?;
    Buffer::Numbers.check(net.pairs(), numbers.len())?;
    Buffer::Work.check(net.pairs(), work.len())
}

/// How far packets can go: for each pair the moves of its longest route. Packets arrive if no pair is held.
pub fn routes<N: Network>(net: &N, allowed: &mut [u8], numbers: &mut [u32], work: &mut [u32]) -> Result<Count, Fault> {
    let routed = route_rooms(net, allowed, numbers, work).map(|()| {
        mark_allowed(net, allowed, work);
        number_pairs(net, allowed, numbers)
    });
    work.fill(0);
    routed
}
