//! What others have found, judged.

use super::faults::{Buffer, Fault};
use super::networks::Network;
use super::numbering::must_move;
use super::tracing::mark_allowed;

#[derive(Clone, Copy, PartialEq, Eq, Debug)]
pub enum NumbersJudged {
    Sound,
    Offends { channel: u16, place: u16 },
}

#[derive(Clone, Copy, PartialEq, Eq, Debug)]
pub enum LoadJudged {
    Blocked,
    Offends { channel: u16, place: u16 },
    NoPacket,
}

fn lowest_need<N: Network>(net: &N, allowed: &[u8], numbers: &[u32]) -> NumbersJudged {
    for channel in 0..net.channels() {
        let own = numbers[usize::from(channel)];
        for place in 0..net.places() {
            if must_move(net, allowed, channel, place) && net.ways(channel, place).all(|way| numbers[usize::from(way)] >= own) {
                return NumbersJudged::Offends { channel, place };
            }
        }
    }
    NumbersJudged::Sound
}

/// Judges whether the numbers of all channels are sound.
pub fn judge_numbers<N: Network>(net: &N, allowed: &mut [u8], numbers: &[u32], work: &mut [u32]) -> Result<NumbersJudged, Fault> {
    let rooms = Buffer::Allowed.check(net.pairs(), allowed.len());
    let rooms = rooms.and(Buffer::Numbers.check(usize::from(net.channels()), numbers.len()));
    let rooms = rooms.and(Buffer::Work.check(net.pairs(), work.len()));
    let judged = rooms.map(|()| {
        mark_allowed(net, allowed, work);
        lowest_need(net, allowed, numbers)
    });
    work.fill(0);
    judged
}

fn is_loose<N: Network>(net: &N, allowed: &[u8], load: &[Option<u16>], channel: u16, place: u16) -> bool {
    place >= net.places()
        || !must_move(net, allowed, channel, place)
        || net.ways(channel, place).any(|way| load[usize::from(way)].is_none())
}

fn lowest_loose<N: Network>(net: &N, allowed: &[u8], load: &[Option<u16>]) -> LoadJudged {
    let mut judged = LoadJudged::NoPacket;
    for channel in 0..net.channels() {
        if let Some(place) = load[usize::from(channel)] {
            if is_loose(net, allowed, load, channel, place) {
                return LoadJudged::Offends { channel, place };
            }
            judged = LoadJudged::Blocked;
        }
    }
    judged
}

/// Judges whether the load is blocked.
pub fn judge_load<N: Network>(net: &N, allowed: &mut [u8], load: &[Option<u16>], work: &mut [u32]) -> Result<LoadJudged, Fault> {
    let rooms = Buffer::Allowed.check(net.pairs(), allowed.len());
    let rooms = rooms.and(Buffer::Load.check(usize::from(net.channels()), load.len()));
    let rooms = rooms.and(Buffer::Work.check(net.pairs(), work.len()));
    let judged = rooms.map(|()| {
        mark_allowed(net, allowed, work);
        lowest_loose(net, allowed, load)
    });
    work.fill(0);
    judged
}
