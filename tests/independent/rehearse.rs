// Document 01 once more, with Papers 1 to 6 of document 02, in plain Rust: reads a schedule from standard input, does
// its commands tick by tick (desk.rs) and prints what the rehearsal program must print. Written from the papers alone;
// tests/compare holds the product to it.

mod desk;
mod search;

use desk::{command, Desk};
use std::io::{self, BufWriter, Read, Write};

const LONGEST_SCHEDULE: usize = 65_536;

/// Runs a schedule from a fresh table and prints the listings and the last line.
fn schedule(bytes: &[u8], out: &mut impl Write) -> io::Result<()> {
    if bytes.len() > LONGEST_SCHEDULE {
        return writeln!(out, "refused 21 at 0");
    }
    let mut state: Option<Desk> = None;
    let mut offset = 0;
    while offset < bytes.len() {
        match command(&mut state, &bytes[offset..]) {
            Ok((length, report)) => {
                if report {
                    let desk = state.as_ref().expect("a report is accepted only where a desk is set up");
                    out.write_all(desk.listing().as_bytes())?;
                }
                offset += length;
            }
            Err(number) => return writeln!(out, "refused {number} at {offset}"),
        }
    }
    writeln!(out, "end {offset}")
}

fn main() -> io::Result<()> {
    let mut bytes = Vec::new();
    io::stdin().lock().take(LONGEST_SCHEDULE as u64 + 1).read_to_end(&mut bytes)?;
    let mut out = BufWriter::new(io::stdout().lock());
    schedule(&bytes, &mut out)?;
    out.flush()
}
