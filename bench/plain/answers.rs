//! What netcheck prints for a network file.

use super::checks::check;
use super::faults::{Buffer, Fault, Layer};
use super::files::read_table;
use super::networks::Network;
use super::numbering::{Count, HELD};
use std::fmt::{self, Write};

pub const LIMIT: usize = 32_768;

const MAX_RECORDS: usize = 2_048;

const MAX_CHANNELS: usize = 128;

const MAX_PLACES: usize = 32;

const MAX_PAIRS: usize = MAX_CHANNELS * MAX_PLACES;

impl fmt::Display for Fault {
    fn fmt(&self, f: &mut fmt::Formatter) -> fmt::Result {
        let layer = match self.layer {
            Layer::Text => "text",
            Layer::Table => "table",
            Layer::Study => "study",
        };
        write!(f, "fault\t{layer}\t{}\t{}\t{}", self.number, self.line, self.field)
    }
}

struct Findings {
    channels: usize,
    count: Count,
    numbers: [u32; MAX_CHANNELS],
    load: [Option<u16>; MAX_CHANNELS],
}

fn study(input: &[u8]) -> Result<Findings, Fault> {
    Buffer::File.check(input.len(), LIMIT)?;
    let (table, _) = read_table(input, MAX_RECORDS)?;
    let (channels, places) = (usize::from(table.channels()), usize::from(table.places()));
    if channels > MAX_CHANNELS || places > MAX_PLACES {
        return Err(Fault { field: Buffer::File as usize, ..Fault::study(20) });
    }
    let mut allowed = [0; MAX_PAIRS];
    let mut numbers = [0; MAX_CHANNELS];
    let mut load = [None; MAX_CHANNELS];
    let mut work = [0; MAX_PAIRS];
    let count = check(&table, &mut allowed, &mut numbers, &mut load, &mut work)?;
    Ok(Findings { channels, count, numbers, load })
}

impl fmt::Display for Findings {
    fn fmt(&self, f: &mut fmt::Formatter) -> fmt::Result {
        let verdict = if self.count.held == 0 { "free" } else { "blocked" };
        writeln!(f, "verdict\t{verdict}\t{}\t{}", self.count.greatest, self.count.held)?;
        for (channel, (number, packet)) in self.numbers.iter().zip(&self.load).enumerate().take(self.channels) {
            match (number, packet) {
                (&HELD, Some(place)) => writeln!(f, "c\t{channel}\t-\t{place}")?,
                _ => writeln!(f, "c\t{channel}\t{number}\t-")?,
            }
        }
        Ok(())
    }
}

/// The text that netcheck prints for an input.
pub fn answer(input: &[u8]) -> String {
    let mut text = String::new();
    match study(input) {
        Ok(findings) => write!(text, "{findings}"),
        Err(fault) => writeln!(text, "{fault}"),
    }
    .expect("text can be written into memory");
    text
}
