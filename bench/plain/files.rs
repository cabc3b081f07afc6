//! Network files.

use super::faults::Fault;
use super::networks::{Record, Table, check_count};

// What is left of a file.
#[derive(Clone, Copy)]
struct Text<'a> {
    rest: &'a [u8],
}

impl Text<'_> {
    // A number behind a tab, if one stands next.
    fn number(&mut self) -> Option<u16> {
        let [b'\t', rest @ ..] = self.rest else {
            return None;
        };
        let mut value = 0;
        let mut len = 0;
        while let Some(digit @ b'0'..=b'9') = rest.get(len) {
            if len == 4 || (len == 1 && value == 0) {
                return None;
            }
            value = 10 * value + u16::from(digit - b'0');
            len += 1;
        }
        self.rest = &rest[len..];
        (len > 0).then_some(value)
    }

    // The numbers of a line behind its letter, if these and the line's end stand next.
    fn numbers<const COUNT: usize>(&mut self) -> Option<[u16; COUNT]> {
        self.rest = self.rest.get(1..)?;
        let mut numbers = [0; COUNT];
        for number in &mut numbers {
            *number = self.number()?;
        }
        self.rest = self.rest.strip_prefix(b"\n")?;
        Some(numbers)
    }

    // The size, if its line stands next.
    fn size(&mut self) -> Option<[u16; 2]> {
        match self.rest.first()? {
            b'n' => self.numbers::<2>(),
            _ => None,
        }
    }

    // A record, if the line of one stands next.
    fn record(&mut self) -> Option<Record> {
        match self.rest.first()? {
            b'e' => self.numbers().map(|[channel, place]| Record::Entry { channel, place }),
            b'h' => self.numbers().map(|[channel, place]| Record::Home { channel, place }),
            b'w' => self.numbers().map(|[channel, place, next]| Record::Way { channel, place, next }),
            _ => None,
        }
    }

    // Why no line of the file stands next. It would be the one of that number.
    fn fault(&self, line: usize) -> Fault {
        let (bytes, finished) = match self.rest.iter().position(|byte| *byte == b'\n') {
            Some(end) => (&self.rest[..end], true),
            None => (self.rest, false),
        };
        let mut fields = bytes.split(|byte| *byte == b'\t');
        let count = match (fields.next(), line) {
            (Some(b"n"), 1) => 2,
            (_, 1) => return Fault::text(10, 1, 1),
            (Some(b"e" | b"h"), _) => 2,
            (Some(b"w"), _) => 3,
            (Some(b"n"), _) => return Fault::text(14, line, 1),
            _ => return Fault::text(11, line, 1),
        };
        if !finished || fields.clone().count() != count {
            return Fault::text(12, line, 0);
        }
        let at = fields.position(|field| !is_number(field)).expect("a field that is no number");
        Fault::text(13, line, at + 2)
    }
}

fn is_number(field: &[u8]) -> bool {
    let digits = field.iter().all(u8::is_ascii_digit);
    digits && (1..=4).contains(&field.len()) && (field.len() == 1 || field[0] != b'0')
}

/// The table of a file and how many records it has. A list for the records would have so much room.
pub fn read_table(file: &[u8], room: usize) -> Result<(Table, usize), Fault> {
    let mut text = Text { rest: file };
    let before = text;
    let [channels, places] = text.size().ok_or_else(|| before.fault(1))?;
    let mut table = Table::blank(channels, places)?;
    let mut line = 1;
    while !text.rest.is_empty() {
        line += 1;
        let before = text;
        let record = text.record().ok_or_else(|| before.fault(line))?;
        table.add(line, record)?;
    }
    check_count(line - 1, room)?;
    Ok((table, line - 1))
}
