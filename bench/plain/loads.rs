//! The calls on a load.

use super::faults::{Buffer, Fault};
use super::networks::Network;

fn check_channel<N: Network>(net: &N, load: &[Option<u16>], channel: u16) -> Result<(), Fault> {
    Buffer::Load.check(usize::from(net.channels()), load.len())?;
    if channel >= net.channels() {
        return Err(Fault::study(30));
    }
    Ok(())
}

fn packet_of<N: Network>(net: &N, load: &[Option<u16>], channel: u16) -> Result<u16, Fault> {
    check_channel(net, load, channel)?;
    load[usize::from(channel)].ok_or(Fault::study(34))
}

// Whether every channel holds a packet, by their count.
fn is_full<N: Network>(net: &N, load: &[Option<u16>]) -> bool {
    let channels = usize::from(net.channels());
    load[..channels].iter().flatten().count() == channels
}

/// Puts a packet for the place into the channel. As the rules have it, a full load is told by the count of its packets.
pub fn put<N: Network>(net: &N, load: &mut [Option<u16>], channel: u16, place: u16) -> Result<(), Fault> {
    check_channel(net, load, channel)?;
    if place >= net.places() {
        return Err(Fault::study(31));
    }
    if !net.entry(channel, place) {
        return Err(Fault::study(32));
    }
    if is_full(net, load) || load[usize::from(channel)].is_some() {
        return Err(Fault::study(33));
    }
    load[usize::from(channel)] = Some(place);
    Ok(())
}

/// Moves the packet of the channel on, by the way at a position.
pub fn move_on<N: Network>(net: &N, load: &mut [Option<u16>], channel: u16, position: usize) -> Result<(), Fault> {
    let place = packet_of(net, load, channel)?;
    if net.home(channel, place) {
        return Err(Fault::study(35));
    }
    let way = net.ways(channel, place).nth(position).ok_or(Fault::study(37))?;
    if load[usize::from(way)].is_some() {
        return Err(Fault::study(38));
    }
    load[usize::from(way)] = Some(place);
    load[usize::from(channel)] = None;
    Ok(())
}

/// Takes the packet of the channel, and answers its place.
pub fn take<N: Network>(net: &N, load: &mut [Option<u16>], channel: u16) -> Result<u16, Fault> {
    let place = packet_of(net, load, channel)?;
    if !net.home(channel, place) {
        return Err(Fault::study(36));
    }
    load[usize::from(channel)] = None;
    Ok(place)
}
