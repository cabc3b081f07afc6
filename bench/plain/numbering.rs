//! Release systems, and the numbers of their items.

use super::networks::Network;

/// The number of a held item.
pub const HELD: u32 = u32::MAX;

// The words of items that a walk has not come to, and of those through which it is going.
const FRESH: u32 = HELD - 1;
const ENTERED: u32 = HELD - 2;

/// What waits for what: items, their needs, and the ways of a need.
trait ReleaseSystem {
    type Item: Copy;

    fn items(&self) -> impl Iterator<Item = Self::Item>;
    // where the item stands among all
    fn position(&self, item: Self::Item) -> usize;
    // the item's needs from a slot on, each with its slot
    fn needs(&self, allowed: &[u8], item: Self::Item, from: u16) -> impl Iterator<Item = (u16, impl ExactSizeIterator<Item = Self::Item>)>;
}

/// Whether packets can come to be in the channel and then have to move on.
pub fn must_move<N: Network>(net: &N, allowed: &[u8], channel: u16, place: u16) -> bool {
    allowed[net.position(channel, place)] == 1 && !net.home(channel, place)
}

struct Escape<'a, N: Network>(&'a N);

impl<N: Network> ReleaseSystem for Escape<'_, N> {
    type Item = u16;

    fn items(&self) -> impl Iterator<Item = u16> {
        0..self.0.channels()
    }

    fn position(&self, channel: u16) -> usize {
        usize::from(channel)
    }

    fn needs(&self, allowed: &[u8], channel: u16, from: u16) -> impl Iterator<Item = (u16, impl ExactSizeIterator<Item = u16>)> {
        let places = (from..self.0.places()).filter(move |place| must_move(self.0, allowed, channel, *place));
        places.map(move |place| (place, self.0.ways(channel, place)))
    }
}

struct Route<'a, N: Network>(&'a N);

impl<N: Network> ReleaseSystem for Route<'_, N> {
    type Item = (u16, u16);

    fn items(&self) -> impl Iterator<Item = (u16, u16)> {
        (0..self.0.channels()).flat_map(|channel| (0..self.0.places()).map(move |place| (channel, place)))
    }

    fn position(&self, (channel, place): (u16, u16)) -> usize {
        self.0.position(channel, place)
    }

    // each way is a need of its own, and a pair without ways has one need, which cannot be met
    fn needs(&self, allowed: &[u8], (channel, place): (u16, u16), from: u16) -> impl Iterator<Item = (u16, impl ExactSizeIterator<Item = (u16, u16)>)> {
        let ways = must_move(self.0, allowed, channel, place).then(|| self.0.ways(channel, place));
        let stuck = ways.as_ref().is_some_and(|ways| ways.len() == 0);
        let needs = ways.into_iter().flatten().map(Some).chain(stuck.then_some(None));
        let needs = (0..).zip(needs).skip(usize::from(from));
        needs.map(move |(slot, way)| (slot, way.map(|next| (next, place)).into_iter()))
    }
}

// What a walk from an item came to.
enum Walk {
    // the item has its number, or is held
    Done,
    // the item is held: it waits for the one at this position, through which the walk is still going, by needs with one way each
    Circles(usize),
    // a cycle goes through a need with several ways
    Tangled,
}

struct Numbering<'a, S: ReleaseSystem> {
    system: &'a S,
    allowed: &'a [u8],
    numbers: &'a mut [u32],
}

impl<S: ReleaseSystem> Numbering<'_, S> {
    // What the walk came to for an item that is held with the one at the position.
    fn hold(&mut self, own: usize, first: usize) -> Walk {
        self.numbers[own] = HELD;
        if first == own { Walk::Done } else { Walk::Circles(first) }
    }

    // Walks along the needs, depth first, and gives the item and all that it waits for their words. A path passes no channel twice, so
    // that it is short.
    fn walk(&mut self, item: S::Item) -> Walk {
        let own = self.system.position(item);
        self.numbers[own] = ENTERED;
        let mut number = 0;
        for (_, need) in self.system.needs(self.allowed, item, 0) {
            let single = need.len() == 1;
            let mut least = HELD;
            for way in need {
                let position = self.system.position(way);
                let came = match self.numbers[position] {
                    FRESH => self.walk(way),
                    ENTERED => Walk::Circles(position),
                    _ => Walk::Done,
                };
                match came {
                    Walk::Done => least = least.min(self.numbers[position]),
                    Walk::Circles(first) if single => return self.hold(own, first),
                    _ => return Walk::Tangled,
                }
            }
            if least == HELD {
                self.numbers[own] = HELD;
                return Walk::Done;
            }
            number = number.max(least + 1);
        }
        self.numbers[own] = number;
        Walk::Done
    }

    // Walks from all items. Answers whether they have their words.
    fn walk_all(&mut self) -> bool {
        self.numbers.fill(FRESH);
        for item in self.system.items() {
            if self.numbers[self.system.position(item)] == FRESH && matches!(self.walk(item), Walk::Tangled) {
                return false;
            }
        }
        true
    }

    // The first slot of the item, from one on, whose need has no way that was numbered before the round.
    fn first_unmet(&self, item: S::Item, from: u16, round: u32) -> Option<u16> {
        let mut needs = self.system.needs(self.allowed, item, from);
        needs.find_map(|(slot, mut need)| {
            let met = need.any(|way| self.numbers[self.system.position(way)] < round);
            (!met).then_some(slot)
        })
    }

    // Numbers the items by rounds over those that are open. An open item's word is as far below HELD as it has slots that were met.
    fn run_rounds(&mut self) {
        self.numbers.fill(HELD);
        let mut open: Vec<S::Item> = self.system.items().collect();
        for round in 0.. {
            let before = open.len();
            open.retain(|item| {
                let own = self.system.position(*item);
                let passed = (HELD - self.numbers[own]) as u16;
                let unmet = self.first_unmet(*item, passed, round);
                self.numbers[own] = unmet.map_or(round, |slot| HELD - u32::from(slot));
                unmet.is_some()
            });
            if open.len() == before {
                break;
            }
        }
        for item in open {
            self.numbers[self.system.position(item)] = HELD;
        }
    }
}

/// The greatest number given, and how many items are held.
#[derive(Clone, Copy, PartialEq, Eq, Debug)]
pub struct Count {
    pub greatest: u32,
    pub held: usize,
}

fn number<S: ReleaseSystem>(system: &S, allowed: &[u8], numbers: &mut [u32]) -> Count {
    let mut numbering = Numbering { system, allowed, numbers };
    if !numbering.walk_all() {
        numbering.run_rounds();
    }
    let mut count = Count { greatest: 0, held: 0 };
    for number in numbers {
        match *number {
            HELD => count.held += 1,
            number => count.greatest = count.greatest.max(number),
        }
    }
    count
}

/// Gives the channels their numbers.
pub fn number_channels<N: Network>(net: &N, allowed: &[u8], numbers: &mut [u32]) -> Count {
    number(&Escape(net), allowed, &mut numbers[..usize::from(net.channels())])
}

/// Gives the pairs their numbers: for each the moves of its longest route, or HELD.
pub fn number_pairs<N: Network>(net: &N, allowed: &[u8], numbers: &mut [u32]) -> Count {
    number(&Route(net), allowed, &mut numbers[..net.pairs()])
}
