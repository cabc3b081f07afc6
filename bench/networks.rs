//! The networks that both sides are asked about.

use crate::plain::networks::Record;

/// Where a network comes from.
pub enum Source {
    Spidergon(u16),
    Table(Drawing),
}

/// A size and records, in the three lists in which they cross: entries, homes, ways.
pub struct Drawing {
    pub channels: u16,
    pub places: u16,
    pub entries: Vec<PairWords>,
    pub homes: Vec<PairWords>,
    pub ways: Vec<WayWords>,
}

#[repr(C)]
#[derive(Clone, Copy)]
pub struct PairWords {
    pub channel: u16,
    pub place: u16,
}

#[repr(C)]
#[derive(Clone, Copy)]
pub struct WayWords {
    pub channel: u16,
    pub place: u16,
    pub next: u16,
}

pub struct Case {
    pub name: &'static str,
    pub channels: u16,
    pub places: u16,
    pub source: Source,
}

impl Case {
    pub fn pairs(&self) -> usize {
        usize::from(self.channels) * usize::from(self.places)
    }
}

const MAX_RECORDS: usize = 65_535;

const MAX_WAYS: u8 = 8;

impl Drawing {
    fn new(channels: u16, places: u16) -> Drawing {
        Drawing {
            channels,
            places,
            entries: Vec::new(),
            homes: Vec::new(),
            ways: Vec::new(),
        }
    }

    fn entry(&mut self, channel: u16, place: u16) {
        self.entries.push(PairWords { channel, place });
    }

    fn home(&mut self, channel: u16, place: u16) {
        self.homes.push(PairWords { channel, place });
    }

    fn way(&mut self, channel: u16, place: u16, next: u16) {
        self.ways.push(WayWords { channel, place, next });
    }

    fn len(&self) -> usize {
        self.entries.len() + self.homes.len() + self.ways.len()
    }

    /// The bytes of the network file that says it.
    pub fn file(&self) -> Vec<u8> {
        let mut text = format!("n\t{}\t{}\n", self.channels, self.places);
        for pair in &self.entries {
            text += &format!("e\t{}\t{}\n", pair.channel, pair.place);
        }
        for pair in &self.homes {
            text += &format!("h\t{}\t{}\n", pair.channel, pair.place);
        }
        for way in &self.ways {
            text += &format!("w\t{}\t{}\t{}\n", way.channel, way.place, way.next);
        }
        text.into_bytes()
    }

    pub fn records(&self) -> Vec<Record> {
        let mut records = Vec::new();
        for pair in &self.entries {
            records.push(Record::Entry { channel: pair.channel, place: pair.place });
        }
        for pair in &self.homes {
            records.push(Record::Home { channel: pair.channel, place: pair.place });
        }
        for way in &self.ways {
            records.push(Record::Way { channel: way.channel, place: way.place, next: way.next });
        }
        records
    }

    // Adds ways until there are so many records. `next` answers a pair and where a way of it leads.
    fn fill(&mut self, records: usize, mut next: impl FnMut() -> (u16, u16, u16)) {
        let mut counts = vec![0u8; usize::from(self.channels) * usize::from(self.places)];
        let position = |channel: u16, place: u16| usize::from(channel) * usize::from(self.places) + usize::from(place);
        for way in &self.ways {
            counts[position(way.channel, way.place)] += 1;
        }
        let missing = records - self.len();
        let mut more = Vec::new();
        while more.len() < missing {
            let (channel, place, next) = next();
            let count = &mut counts[position(channel, place)];
            if *count < MAX_WAYS {
                *count += 1;
                more.push(WayWords { channel, place, next });
            }
        }
        self.ways.extend(more);
    }
}

/// Random numbers from a seed (splitmix64).
struct Random(u64);

impl Random {
    fn next(&mut self) -> u64 {
        self.0 = self.0.wrapping_add(0x9e37_79b9_7f4a_7c15);
        let mut x = self.0;
        x = (x ^ (x >> 30)).wrapping_mul(0xbf58_476d_1ce4_e5b9);
        x = (x ^ (x >> 27)).wrapping_mul(0x94d0_49bb_1331_11eb);
        x ^ (x >> 31)
    }

    fn below(&mut self, end: u16) -> u16 {
        (self.next() % u64::from(end)) as u16
    }

    fn between(&mut self, from: u16, end: u16) -> u16 {
        from + self.below(end - from)
    }
}

/// Channels in a row: packets enter the first and are home in the last.
fn chain(channels: u16, places: u16) -> Drawing {
    let mut net = Drawing::new(channels, places);
    for place in 0..places {
        net.entry(0, place);
        net.home(channels - 1, place);
    }
    for channel in 0..channels - 1 {
        for place in 0..places {
            net.way(channel, place, channel + 1);
        }
    }
    net
}

/// Chains for the first places. For the others, as many as there are, the channels are a circle in which packets never arrive.
fn chains_and_circles(channels: u16, chains: u16, circles: u16) -> Drawing {
    let mut net = chain(channels, chains);
    net.places = chains + circles;
    for place in chains..chains + circles {
        net.entry(0, place);
        for channel in 0..channels {
            net.way(channel, place, (channel + 1) % channels);
        }
    }
    net
}

/// Chains in which packets may also go back: each need has two ways, and cycles go through them.
fn chain_and_back(channels: u16, places: u16) -> Drawing {
    let mut net = chain(channels, places);
    for channel in 1..channels - 1 {
        for place in 0..places {
            net.way(channel, place, channel - 1);
        }
    }
    net
}

/// A ring in one direction: node s has the local channel 2s and the channel 2s + 1 to node s + 1. Any two packets can meet.
fn ring(nodes: u16) -> Drawing {
    let mut net = Drawing::new(2 * nodes, nodes);
    for channel in 0..2 * nodes {
        let node = (channel / 2 + channel % 2) % nodes;
        for place in 0..nodes {
            if channel % 2 == 0 {
                net.entry(channel, place);
            }
            if node == place {
                net.home(channel, place);
            } else {
                net.way(channel, place, 2 * node + 1);
            }
        }
    }
    net
}

/// A mesh of nodes side by side, in which a packet goes along its row first and then along its column. Channel 5s + k leaves
/// node s: k = 0 is the local one, and 1 to 4 go to the four neighbours.
fn mesh(side: u16) -> Drawing {
    let nodes = side * side;
    let mut net = Drawing::new(5 * nodes, nodes);
    for channel in 0..5 * nodes {
        let (mut x, mut y) = (channel / 5 % side, channel / 5 / side);
        match channel % 5 {
            1 if x + 1 < side => x += 1,
            2 if x > 0 => x -= 1,
            3 if y + 1 < side => y += 1,
            4 if y > 0 => y -= 1,
            0 => {}
            // no channel leaves the mesh: this one is not used
            _ => continue,
        }
        for place in 0..nodes {
            let (to_x, to_y) = (place % side, place / side);
            let port = if x < to_x {
                1
            } else if x > to_x {
                2
            } else if y < to_y {
                3
            } else if y > to_y {
                4
            } else {
                0
            };
            if channel % 5 == 0 {
                net.entry(channel, place);
            }
            match port {
                0 => net.home(channel, place),
                _ => net.way(channel, place, 5 * (y * side + x) + port),
            }
        }
    }
    net
}

/// So many records at random: an eighth are entries, and every 32nd is home.
fn scattered(channels: u16, places: u16, records: usize, seed: u64) -> Drawing {
    let mut random = Random(seed);
    let mut net = Drawing::new(channels, places);
    for at in 0..records / 8 {
        net.entry(random.below(channels), random.below(places));
        if at % 4 == 0 {
            net.home(random.below(channels), random.below(places));
        }
    }
    net.fill(records, || (random.below(channels), random.below(places), random.below(channels)));
    net
}

/// As many records as a table takes, at random, with ways to higher channels only and packets home in the last channel.
fn rising(channels: u16, places: u16, seed: u64) -> Drawing {
    let mut random = Random(seed);
    let mut net = Drawing::new(channels, places);
    for _ in 0..1_024 {
        net.entry(random.below(channels), random.below(places));
    }
    for place in 0..places {
        net.home(channels - 1, place);
    }
    for channel in 0..channels - 1 {
        for place in 0..places {
            net.way(channel, place, random.between(channel + 1, channels));
        }
    }
    net.fill(MAX_RECORDS, || {
        let channel = random.below(channels - 1);
        (channel, random.below(places), random.between(channel + 1, channels))
    });
    net
}

/// Each pair is an entry, is home in the last channel, and else has so many ways to higher channels, at random.
fn even(channels: u16, places: u16, ways: u16, seed: u64) -> Drawing {
    let mut random = Random(seed);
    let mut net = Drawing::new(channels, places);
    for channel in 0..channels {
        for place in 0..places {
            net.entry(channel, place);
            if channel == channels - 1 {
                net.home(channel, place);
                continue;
            }
            for _ in 0..ways {
                net.way(channel, place, random.between(channel + 1, channels));
            }
        }
    }
    net
}

fn table(name: &'static str, net: Drawing) -> Case {
    Case {
        name,
        channels: net.channels,
        places: net.places,
        source: Source::Table(net),
    }
}

fn spidergon(name: &'static str, size: u16) -> Case {
    Case {
        name,
        channels: 16 * size,
        places: 4 * size,
        source: Source::Spidergon(size),
    }
}

pub fn cases() -> Vec<Case> {
    vec![
        spidergon("Spidergon, size 1", 1),
        spidergon("Spidergon, size 2", 2),
        spidergon("Spidergon, size 4", 4),
        spidergon("Spidergon, size 8", 8),
        spidergon("Spidergon, size 16", 16),
        spidergon("Spidergon, size 32", 32),
        spidergon("Spidergon, size 64", 64),
        table("scattered, 1 KB", scattered(16, 4, 94, 1)),
        table("scattered, 10 KB", scattered(64, 16, 860, 2)),
        table("scattered, 100 KB", scattered(256, 64, 7_500, 3)),
        table("scattered, 1 MB", scattered(1_024, 256, MAX_RECORDS, 4)),
        table("scattered, dense", scattered(1_024, 16, MAX_RECORDS, 5)),
        table("rising", rising(1_024, 16, 6)),
        table("1 way a pair", even(1_024, 7, 1, 7)),
        table("2 ways a pair", even(1_024, 7, 2, 7)),
        table("4 ways a pair", even(1_024, 7, 4, 7)),
        table("8 ways a pair", even(1_024, 7, 8, 7)),
        table("chain", chain(1_024, 1)),
        table("63 chains", chain(1_024, 63)),
        table("31 chains, 32 circles", chains_and_circles(1_024, 31, 32)),
        table("chain and back", chain_and_back(1_024, 1)),
        table("32 chains and back", chain_and_back(1_024, 32)),
        table("ring of 128", ring(128)),
        table("mesh 10 by 10", mesh(10)),
    ]
}
