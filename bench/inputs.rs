//! What is asked of a network beside the network itself. The plain program makes it.

use crate::networks::{Case, Source};
use crate::sides::{Answer, Buffers, Plain, Side};

/// The file of a network and what its channels have.
#[derive(Clone)]
pub struct Inputs {
    /// None of a Spidergon.
    pub file: Vec<u8>,
    /// Whether the verdict is blocked.
    pub blocked: bool,
    /// The numbers of the channels.
    pub numbers: Vec<u32>,
    /// The blocked load, if there is one, and else an allowed one: in each channel a packet for the lowest place that is allowed.
    pub load: Vec<Option<u16>>,
}

impl Inputs {
    pub fn of(case: &Case) -> Inputs {
        let mut b = Buffers::new(case.channels.into(), case.pairs(), 0);
        let (answer, file) = match &case.source {
            Source::Spidergon(size) => (Plain.spidergon_check(*size, 0, &mut b), Vec::new()),
            Source::Table(net) => (Plain.table_check(net, 0, &mut b), net.file()),
        };
        let blocked = matches!(answer, Answer::Check { blocked: true, .. });
        let channels = usize::from(case.channels);
        let load = if blocked { b.load[..channels].to_vec() } else { lowest_allowed(case, &b.allowed) };
        Inputs { file, blocked, numbers: b.numbers[..channels].to_vec(), load }
    }

    /// The same with files that are damaged: cut off in the middle, and with another byte after two thirds.
    pub fn damaged(&self) -> [Inputs; 2] {
        let mut short = self.clone();
        short.file.truncate(self.file.len() / 2);
        let mut other = self.clone();
        other.file[self.file.len() * 2 / 3] = b' ';
        [short, other]
    }
}

fn lowest_allowed(case: &Case, allowed: &[u8]) -> Vec<Option<u16>> {
    let rows = allowed.chunks(usize::from(case.places));
    rows.map(|row| row.iter().position(|byte| *byte == 1).map(|place| place as u16)).collect()
}
