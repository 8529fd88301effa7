//! What `front` does: reads a log from standard input and prints what an archive makes of it.

use plain::archive::{Archive, Verdict};
use plain::log::{BLOCK, Fault, Record, check};
use plain::spaces::{Better, Rule, Space};
use std::io::{self, BufWriter, Read, Write};

/// How many rows the archive has.
const ROWS: usize = 32;

/// How many bytes are read at a time: a whole number of blocks.
const PIECE: usize = 128 * BLOCK;

/// What the trials of a block came to.
#[derive(Default)]
struct Fed {
    entered: usize,
    passed: usize,
    denied: usize,
}

/// Delays, of which shorter ones are better, beside lives.
fn logger_space() -> Space<2> {
    let delay = Rule::Step {
        better: Better::Smaller,
        low: 0,
        high: 9999,
        step: 500,
    };
    let life = Rule::ratio(50, 1000);
    Space {
        rules: [delay, life],
    }
}

/// Offers the trials of a block, which is checked before.
fn feed(archive: &mut Archive<2>, block: &[u8], gone: &mut Vec<u32>) -> Result<Fed, Fault> {
    let mut fed = Fed::default();
    for record in check(block)? {
        if let Record::Trial { tag, point } = record {
            match archive.offer(point, tag, gone) {
                Verdict::PassedOver => fed.passed += 1,
                Verdict::Entered | Verdict::Displaced | Verdict::Replaced => fed.entered += 1,
                Verdict::OffGrid | Verdict::Full => fed.denied += 1,
            }
        }
    }
    Ok(fed)
}

/// Fills the buffer from its start, as far as the input reaches.
fn fill(input: &mut impl Read, buffer: &mut [u8]) -> io::Result<usize> {
    let mut filled = 0;
    while filled < buffer.len() {
        match input.read(&mut buffer[filled..])? {
            0 => break,
            count => filled += count,
        }
    }
    Ok(filled)
}

fn main() -> io::Result<()> {
    let mut archive = Archive::new(logger_space(), ROWS);
    let mut gone = Vec::with_capacity(ROWS);
    let mut piece = vec![0; PIECE];
    let mut input = io::stdin().lock();
    let mut out = BufWriter::new(io::stdout().lock());
    let mut number = 0u64;
    writeln!(out, "front 1")?;
    loop {
        let filled = fill(&mut input, &mut piece)?;
        for block in piece[..filled].chunks(BLOCK) {
            match feed(&mut archive, block, &mut gone) {
                Ok(Fed {
                    entered,
                    passed,
                    denied,
                }) => writeln!(
                    out,
                    "block {number} entered {entered} passed {passed} denied {denied}"
                )?,
                Err(fault) => writeln!(out, "block {number} refused {}", fault as u8)?,
            }
            number += 1;
        }
        if filled < PIECE {
            break;
        }
    }
    for (row, member) in archive.members().iter().enumerate() {
        writeln!(out, "row {row} tag {}", member.tag)?;
    }
    writeln!(out, "members {}", archive.members().len())?;
    out.flush()
}
