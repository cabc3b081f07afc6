//! Which pairs packets can reach.

use super::faults::{Buffer, Fault};
use super::networks::Network;

/// Marks the allowed pairs in the table, by a queue of those whose ways are still to be followed. Answers how many there are.
pub fn mark_allowed<N: Network>(net: &N, allowed: &mut [u8], queue: &mut [u32]) -> usize {
    let places = usize::from(net.places());
    let pairs = net.pairs();
    let allowed = &mut allowed[..pairs];
    let queue = &mut queue[..pairs];
    allowed.fill(0);
    let mut end = 0;
    for channel in 0..net.channels() {
        for place in 0..net.places() {
            if net.entry(channel, place) {
                let position = net.position(channel, place);
                allowed[position] = 1;
                queue[end] = position as u32;
                end += 1;
            }
        }
    }
    let mut head = 0;
    while head < end {
        let position = queue[head] as usize;
        head += 1;
        let (channel, place) = ((position / places) as u16, (position % places) as u16);
        if net.home(channel, place) {
            continue;
        }
        for next in net.ways(channel, place) {
            let position = net.position(next, place);
            if allowed[position] == 0 {
                allowed[position] = 1;
                queue[end] = position as u32;
                end += 1;
            }
        }
    }
    end
}

/// Fills the table of allowed pairs. Answers how many there are. The work area is all 0 at the end, here and wherever one is lent.
pub fn trace<N: Network>(net: &N, allowed: &mut [u8], work: &mut [u32]) -> Result<usize, Fault> {
    let traced = rooms(net, allowed, work).map(|()| mark_allowed(net, allowed, work));
    work.fill(0);
    traced
}

fn rooms<N: Network>(net: &N, allowed: &[u8], work: &[u32]) -> Result<(), Fault> {
    Buffer::Allowed.check(net.pairs(), allowed.len())?;
    Buffer::Work.check(net.pairs(), work.len())
}
