//! Judges network files, as example.c does and with the same output.
//!
//!   example FILE ..                        with buffers for the largest network
//!   example -s CHANNELS PLACES FILE ..     with buffers for a network of that size

use std::io::{self, Write};
use std::{env, fs, process};

const NONE: u32 = u32::MAX;
const MOST_CHANNELS: usize = 1024;
const MOST_PLACES: usize = 256;

// A slice crosses as a pointer and then a length.
unsafe extern "C" {
    fn tenvarog_check(
        file: *const u8, file_length: usize,
        allowed: *mut u8, allowed_length: usize,
        numbers: *mut u32, numbers_length: usize,
        places: *mut u32, places_length: usize,
        work: *mut u32, work_length: usize,
        fault: *mut u32, fault_length: usize,
    ) -> u32;
}

struct Buffers {
    allowed: Vec<u8>,
    numbers: Vec<u32>,
    places: Vec<u32>,
    work: Vec<u32>,
}

impl Buffers {
    fn new(channels: usize, places: usize) -> Buffers {
        Buffers {
            allowed: vec![0; channels * places],
            numbers: vec![0; channels],
            places: vec![0; channels],
            work: vec![0; channels * places],
        }
    }
}

enum Answer {
    Free,
    Blocked,
    Refused { number: u32, line: u32, field: u32 },
}

/// Judges a network file.
fn check(file: &[u8], b: &mut Buffers) -> Answer {
    let mut fault = [0; 2];
    // SAFETY: each pointer and length are those of one slice, no two of which overlap, and the call keeps none of them.
    let answer = unsafe {
        tenvarog_check(
            file.as_ptr(), file.len(),
            b.allowed.as_mut_ptr(), b.allowed.len(),
            b.numbers.as_mut_ptr(), b.numbers.len(),
            b.places.as_mut_ptr(), b.places.len(),
            b.work.as_mut_ptr(), b.work.len(),
            fault.as_mut_ptr(), fault.len(),
        )
    };
    match answer {
        0 => Answer::Free,
        1 => Answer::Blocked,
        number => Answer::Refused { number, line: fault[0], field: fault[1] },
    }
}

/// How many channels an accepted file says that there are.
fn channels_of(file: &[u8]) -> usize {
    let number = file.split(|byte| *byte == b'\t').nth(1).unwrap_or(b"");
    number.iter().fold(0, |channels, digit| 10 * channels + usize::from(digit - b'0'))
}

fn mark(word: u32) -> String {
    if word == NONE { String::from("-") } else { word.to_string() }
}

fn judge(name: &str, b: &mut Buffers, out: &mut impl Write) -> io::Result<()> {
    let file = fs::read(name)?;
    let word = match check(&file, b) {
        Answer::Refused { number, line, field } => return writeln!(out, "{name}\trefused\t{number}\t{line}\t{field}"),
        Answer::Free => "free",
        Answer::Blocked => "blocked",
    };
    writeln!(out, "{name}\t{word}")?;
    for (channel, (number, place)) in b.numbers.iter().zip(&b.places).take(channels_of(&file)).enumerate() {
        writeln!(out, "c\t{channel}\t{}\t{}", mark(*number), mark(*place))?;
    }
    Ok(())
}

/// The size of the buffers and the files, if the arguments are in order.
fn read_arguments(words: &[String]) -> Option<(usize, usize, &[String])> {
    let (channels, places, files) = match words {
        [flag, channels, places, files @ ..] if flag == "-s" => (channels.parse().ok()?, places.parse().ok()?, files),
        files => (MOST_CHANNELS, MOST_PLACES, files),
    };
    (!files.is_empty() && channels <= MOST_CHANNELS && places <= MOST_PLACES).then_some((channels, places, files))
}

fn main() -> io::Result<()> {
    let words: Vec<String> = env::args().skip(1).collect();
    let Some((channels, places, files)) = read_arguments(&words) else {
        eprintln!("usage: example [-s CHANNELS PLACES] FILE ..");
        process::exit(1);
    };
    let mut buffers = Buffers::new(channels, places);
    let mut out = io::stdout().lock();
    for name in files {
        judge(name, &mut buffers, &mut out)?;
    }
    out.flush()
}
