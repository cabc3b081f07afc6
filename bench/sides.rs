//! What both sides are asked, and the plain side.

use crate::networks::{Drawing, PairWords};
use crate::plain::faults::Fault;
use crate::plain::files::read_table;
use crate::plain::judges::{LoadJudged, NumbersJudged, judge_load, judge_numbers};
use crate::plain::networks::{MAX_CHANNELS, MAX_RECORDS, Network, Spidergon, Table};
use crate::plain::numbering::Count;
use crate::plain::{checks, drains, loads, tracing};
use std::hint::black_box;

#[derive(Clone, Copy, PartialEq, Eq, Debug)]
pub enum Answer {
    Made,
    Trace { ones: usize },
    Check { blocked: bool, greatest: u32, held: usize },
    Routes { arriving: bool, held: usize },
    Drained { calls: usize },
    Holds,
    Offends { channel: u16, place: u16 },
    NoPacket,
    Puts { accepted: usize },
    // of a file: its network is free or blocked
    Judged { blocked: bool },
    Refused { number: u16, line: usize, field: usize },
}

/// What a side is lent.
#[derive(Clone, PartialEq, Eq)]
pub struct Buffers {
    pub allowed: Vec<u8>,
    pub numbers: Vec<u32>,
    pub load: Vec<Option<u16>>,
    pub places: Vec<u32>,
    pub work: Vec<u32>,
}

impl Buffers {
    /// Buffers for a network of so many channels and pairs, and so many items of each beyond. What they hold is of no network.
    pub fn new(channels: usize, pairs: usize, beyond: usize) -> Buffers {
        Buffers {
            allowed: vec![7; pairs + beyond],
            numbers: vec![7; pairs + beyond],
            load: vec![Some(7); channels + beyond],
            places: vec![7; channels + beyond],
            work: vec![7; pairs + beyond],
        }
    }
}

/// A program that answers. A question with `again` is asked so many times more than once. Of a table all calls make it first, once;
/// `table_make` makes it `again` times more than once.
pub trait Side {
    fn spidergon_trace(&self, size: u16, again: u32, b: &mut Buffers) -> Answer;
    fn spidergon_check(&self, size: u16, again: u32, b: &mut Buffers) -> Answer;
    fn spidergon_routes(&self, size: u16, again: u32, b: &mut Buffers) -> Answer;
    fn table_make(&self, net: &Drawing, again: u32) -> Answer;
    fn table_trace(&self, net: &Drawing, again: u32, b: &mut Buffers) -> Answer;
    fn table_check(&self, net: &Drawing, again: u32, b: &mut Buffers) -> Answer;
    fn table_routes(&self, net: &Drawing, again: u32, b: &mut Buffers) -> Answer;
    /// Drains the load of the buffers.
    fn table_drain(&self, net: &Drawing, b: &mut Buffers) -> Answer;
    /// Judges the numbers of the buffers.
    fn table_judge_numbers(&self, net: &Drawing, b: &mut Buffers) -> Answer;
    /// Judges the load of the buffers.
    fn table_judge_load(&self, net: &Drawing, b: &mut Buffers) -> Answer;
    /// Puts a packet for each pair into the load of the buffers.
    fn table_put(&self, net: &Drawing, pairs: &[PairWords], b: &mut Buffers) -> Answer;
    /// Judges the bytes of a network file.
    fn judge_file(&self, file: &[u8], b: &mut Buffers) -> Answer;
}

pub struct Plain;

fn trace<N: Network>(net: &N, again: u32, b: &mut Buffers) -> Answer {
    for _ in 0..again {
        let _ = black_box(tracing::trace(net, &mut b.allowed, &mut b.work));
    }
    let ones = tracing::trace(net, &mut b.allowed, &mut b.work).expect("buffers that suffice");
    Answer::Trace { ones }
}

fn check<N: Network>(net: &N, again: u32, b: &mut Buffers) -> Answer {
    for _ in 0..again {
        let _ = black_box(checks::check(net, &mut b.allowed, &mut b.numbers, &mut b.load, &mut b.work));
    }
    let given = checks::check(net, &mut b.allowed, &mut b.numbers, &mut b.load, &mut b.work).expect("buffers that suffice");
    Answer::Check { blocked: given.held > 0, greatest: given.greatest, held: given.held }
}

fn routes<N: Network>(net: &N, again: u32, b: &mut Buffers) -> Answer {
    for _ in 0..again {
        let _ = black_box(checks::routes(net, &mut b.allowed, &mut b.numbers, &mut b.work));
    }
    let given = checks::routes(net, &mut b.allowed, &mut b.numbers, &mut b.work).expect("buffers that suffice");
    Answer::Routes { arriving: given.held == 0, held: given.held }
}

fn refused(fault: Fault) -> Answer {
    Answer::Refused { number: fault.number, line: fault.line, field: fault.field }
}

fn spidergon(size: u16) -> Spidergon {
    Spidergon::new(size).expect("a size from 1 to 64")
}

fn table(net: &Drawing) -> Table {
    Table::new(net.channels, net.places, &net.records()).expect("records that make a table")
}

// Reads a file, checks its network and tells the blocked load in words.
fn study(file: &[u8], b: &mut Buffers) -> Result<Count, Fault> {
    let (table, _) = read_table(file, MAX_RECORDS)?;
    let mut load = [None; MAX_CHANNELS as usize];
    let count = checks::check(&table, &mut b.allowed, &mut b.numbers, &mut load, &mut b.work)?;
    let channels = usize::from(table.channels());
    for (word, packet) in b.places.iter_mut().zip(load).take(channels) {
        *word = packet.map_or(u32::MAX, u32::from);
    }
    Ok(count)
}

impl Side for Plain {
    fn spidergon_trace(&self, size: u16, again: u32, b: &mut Buffers) -> Answer {
        trace(&spidergon(size), again, b)
    }

    fn spidergon_check(&self, size: u16, again: u32, b: &mut Buffers) -> Answer {
        check(&spidergon(size), again, b)
    }

    fn spidergon_routes(&self, size: u16, again: u32, b: &mut Buffers) -> Answer {
        routes(&spidergon(size), again, b)
    }

    fn table_make(&self, net: &Drawing, again: u32) -> Answer {
        let records = net.records();
        for _ in 0..=again {
            black_box(Table::new(net.channels, net.places, &records).expect("records that make a table"));
        }
        Answer::Made
    }

    fn table_trace(&self, net: &Drawing, again: u32, b: &mut Buffers) -> Answer {
        trace(&table(net), again, b)
    }

    fn table_check(&self, net: &Drawing, again: u32, b: &mut Buffers) -> Answer {
        check(&table(net), again, b)
    }

    fn table_routes(&self, net: &Drawing, again: u32, b: &mut Buffers) -> Answer {
        routes(&table(net), again, b)
    }

    fn table_drain(&self, net: &Drawing, b: &mut Buffers) -> Answer {
        match drains::drain(&table(net), &mut b.allowed, &mut b.numbers, &mut b.load, &mut b.work) {
            Ok(calls) => Answer::Drained { calls },
            Err(fault) => refused(fault),
        }
    }

    fn table_judge_numbers(&self, net: &Drawing, b: &mut Buffers) -> Answer {
        match judge_numbers(&table(net), &mut b.allowed, &b.numbers, &mut b.work) {
            Ok(NumbersJudged::Sound) => Answer::Holds,
            Ok(NumbersJudged::Offends { channel, place }) => Answer::Offends { channel, place },
            Err(fault) => refused(fault),
        }
    }

    fn table_judge_load(&self, net: &Drawing, b: &mut Buffers) -> Answer {
        match judge_load(&table(net), &mut b.allowed, &b.load, &mut b.work) {
            Ok(LoadJudged::Blocked) => Answer::Holds,
            Ok(LoadJudged::Offends { channel, place }) => Answer::Offends { channel, place },
            Ok(LoadJudged::NoPacket) => Answer::NoPacket,
            Err(fault) => refused(fault),
        }
    }

    fn table_put(&self, net: &Drawing, pairs: &[PairWords], b: &mut Buffers) -> Answer {
        let table = table(net);
        let puts = pairs.iter().filter(|pair| loads::put(&table, &mut b.load, pair.channel, pair.place).is_ok());
        Answer::Puts { accepted: puts.count() }
    }

    fn judge_file(&self, file: &[u8], b: &mut Buffers) -> Answer {
        match study(file, b) {
            Ok(count) => Answer::Judged { blocked: count.held > 0 },
            Err(fault) => {
                // a refused call leaves the work area all 0, however early
                b.work.fill(0);
                refused(fault)
            }
        }
    }
}
