//! netcheck by the plain program: a network file on standard input, its answer on standard output.

#![allow(dead_code)]

mod plain;

use plain::answers::{LIMIT, answer};
use std::io::{Read, Write};

fn main() -> std::io::Result<()> {
    let mut input = Vec::new();
    std::io::stdin().take(LIMIT as u64 + 1).read_to_end(&mut input)?;
    std::io::stdout().write_all(answer(&input).as_bytes())
}
