//! Networks: what every source answers, tables and Spidergons.

use super::faults::Fault;
use std::hint::black_box;

/// A packet network: the questions that every source answers.
pub trait Network {
    fn channels(&self) -> u16;
    fn places(&self) -> u16;
    fn entry(&self, channel: u16, place: u16) -> bool;
    fn home(&self, channel: u16, place: u16) -> bool;
    fn ways(&self, channel: u16, place: u16) -> impl ExactSizeIterator<Item = u16>;

    fn pairs(&self) -> usize {
        usize::from(self.channels()) * usize::from(self.places())
    }

    fn position(&self, channel: u16, place: u16) -> usize {
        usize::from(channel) * usize::from(self.places()) + usize::from(place)
    }
}

#[derive(Clone, Copy, PartialEq, Eq, Debug)]
pub enum Record {
    Entry { channel: u16, place: u16 },
    Home { channel: u16, place: u16 },
    Way { channel: u16, place: u16, next: u16 },
}

pub const MAX_CHANNELS: u16 = 1_024;

pub const MAX_PLACES: u16 = 256;

pub const MAX_RECORDS: usize = 65_535;

const MAX_WAYS: usize = 8;

// The line of a file on which its first record stands.
const FIRST_LINE: usize = 2;

#[derive(Clone, Copy)]
struct Cell {
    entry: bool,
    home: bool,
    count: u8,
    ways: [u16; MAX_WAYS],
}

const BLANK: Cell = Cell { entry: false, home: false, count: 0, ways: [0; MAX_WAYS] };

/// A network that cells hold, one for each pair. Its cells are cleared when it ends.
pub struct Table {
    channels: u16,
    places: u16,
    cells: Vec<Cell>,
}

impl Drop for Table {
    fn drop(&mut self) {
        self.cells.fill(BLANK);
        // else the compiler would leave out what is written to memory that is given back
        black_box(&mut self.cells);
    }
}

/// Refuses more records than a list has room for, or than a table takes.
pub fn check_count(count: usize, room: usize) -> Result<(), Fault> {
    let most = room.min(MAX_RECORDS);
    if count > most {
        return Err(Fault::table(18, most + FIRST_LINE, 0));
    }
    Ok(())
}

impl Table {
    /// A table without records.
    pub fn blank(channels: u16, places: u16) -> Result<Table, Fault> {
        if !(1..=MAX_CHANNELS).contains(&channels) {
            return Err(Fault::table(15, 1, 2));
        }
        if !(1..=MAX_PLACES).contains(&places) {
            return Err(Fault::table(15, 1, 3));
        }
        let pairs = usize::from(channels) * usize::from(places);
        Ok(Table { channels, places, cells: vec![BLANK; pairs] })
    }

    /// The table of a size and records, if they make one.
    pub fn new(channels: u16, places: u16, records: &[Record]) -> Result<Table, Fault> {
        let mut table = Table::blank(channels, places)?;
        for (line, record) in (FIRST_LINE..).zip(records) {
            table.add(line, *record)?;
        }
        check_count(records.len(), MAX_RECORDS)?;
        Ok(table)
    }

    /// Adds a record, which stands on the line.
    pub fn add(&mut self, line: usize, record: Record) -> Result<(), Fault> {
        let (Record::Entry { channel, place } | Record::Home { channel, place } | Record::Way { channel, place, .. }) = record;
        if channel >= self.channels {
            return Err(Fault::table(16, line, 2));
        }
        if place >= self.places {
            return Err(Fault::table(16, line, 3));
        }
        let at = self.position(channel, place);
        let cell = &mut self.cells[at];
        match record {
            Record::Entry { .. } => cell.entry = true,
            Record::Home { .. } => cell.home = true,
            Record::Way { next, .. } => {
                if next >= self.channels {
                    return Err(Fault::table(16, line, 4));
                }
                let room = cell.ways.get_mut(usize::from(cell.count)).ok_or(Fault::table(17, line, 0))?;
                *room = next;
                cell.count += 1;
            }
        }
        Ok(())
    }

    fn cell(&self, channel: u16, place: u16) -> Option<&Cell> {
        if channel >= self.channels || place >= self.places {
            return None;
        }
        self.cells.get(self.position(channel, place))
    }
}

impl Network for Table {
    fn channels(&self) -> u16 {
        self.channels
    }

    fn places(&self) -> u16 {
        self.places
    }

    fn entry(&self, channel: u16, place: u16) -> bool {
        self.cell(channel, place).is_some_and(|cell| cell.entry)
    }

    fn home(&self, channel: u16, place: u16) -> bool {
        self.cell(channel, place).is_some_and(|cell| cell.home)
    }

    fn ways(&self, channel: u16, place: u16) -> impl ExactSizeIterator<Item = u16> {
        let ways = self.cell(channel, place).map_or(&[][..], |cell| &cell.ways[..usize::from(cell.count)]);
        ways.iter().copied()
    }
}

/// The network of that name, by its formulas.
#[derive(Clone, Copy)]
pub struct Spidergon {
    size: u16,
}

impl Spidergon {
    pub fn new(size: u16) -> Result<Spidergon, Fault> {
        if !(1..=64).contains(&size) {
            return Err(Fault::study(21));
        }
        Ok(Spidergon { size })
    }

    fn inside(self, channel: u16, place: u16) -> bool {
        channel < 16 * self.size && place < 4 * self.size
    }

    // the switch to which a channel leads
    fn leads(self, channel: u16) -> u16 {
        let switches = 4 * self.size;
        let switch = channel / 4;
        match channel % 4 {
            0 => switch,
            1 => (switch + 1) % switches,
            2 => (switch + switches - 1) % switches,
            _ => (switch + 2 * self.size) % switches,
        }
    }

    // a pair has one way, or none if it is home
    fn way(self, channel: u16, place: u16) -> Option<u16> {
        if !self.inside(channel, place) {
            return None;
        }
        let switches = 4 * self.size;
        let switch = self.leads(channel);
        match (place + switches - switch) % switches {
            0 => None,
            r if r <= self.size => Some(4 * switch + 1),
            r if r >= 3 * self.size => Some(4 * switch + 2),
            _ => Some(4 * switch + 3),
        }
    }
}

impl Network for Spidergon {
    fn channels(&self) -> u16 {
        16 * self.size
    }

    fn places(&self) -> u16 {
        4 * self.size
    }

    fn entry(&self, channel: u16, place: u16) -> bool {
        self.inside(channel, place) && channel % 4 == 0
    }

    fn home(&self, channel: u16, place: u16) -> bool {
        self.inside(channel, place) && self.leads(channel) == place
    }

    fn ways(&self, channel: u16, place: u16) -> impl ExactSizeIterator<Item = u16> {
        self.way(channel, place).into_iter()
    }
}
