//! Why a call is refused.

/// A buffer that a call is lent.
#[derive(Clone, Copy, PartialEq, Eq, Debug)]
pub enum Buffer {
    Allowed = 1,
    Numbers = 2,
    Load = 3,
    Work = 4,
    File = 5,
}

/// The layer that a fault comes from.
#[derive(Clone, Copy, PartialEq, Eq, Debug)]
pub enum Layer {
    Text,
    Table,
    Study,
}

#[derive(Clone, Copy, PartialEq, Eq, Debug)]
pub struct Fault {
    pub layer: Layer,
    pub number: u16,
    pub line: usize,
    pub field: usize,
}

impl Fault {
    pub fn text(number: u16, line: usize, field: usize) -> Fault {
        Fault { layer: Layer::Text, number, line, field }
    }

    pub fn table(number: u16, line: usize, field: usize) -> Fault {
        Fault { layer: Layer::Table, number, line, field }
    }

    pub fn study(number: u16) -> Fault {
        Fault { layer: Layer::Study, number, line: 0, field: 0 }
    }
}

impl Buffer {
    /// Refuses a buffer that is shorter than it has to be.
    pub fn check(self, needed: usize, given: usize) -> Result<(), Fault> {
        if given < needed {
            return Err(Fault { field: self as usize, ..Fault::study(20) });
        }
        Ok(())
    }
}
