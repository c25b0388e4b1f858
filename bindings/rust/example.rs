//! Judges a tray of models from Rust: prints each verdict with its schedule, and replays that schedule.
#[allow(dead_code)]
mod turncheck;

use turncheck::{Refusal, Verdict};

/// Two records, one after another. In the first, thread A may push again and again in state 0, or leave it for 1; B leads from 1 to 2;
/// A leads from 2 to 3, the target. In the second, A leads from 0 to 1, the target.
const DAY: [u8; 26] = [
    0xC8, 0x03, 0x03, 0x06, 0x00, 0x00, 0x00, 0x01, 0x00, 0x01, 0x01, 0x20, 0x03, 0x01, 0x03, 0x10, 0x02, 0x00, // Two
    0x4B, 0x02, 0x01, 0x01, 0x01, 0x01, 0x00, 0x01, // One
];

fn judge(record: &[u8]) -> Result<(), Refusal> {
    let mut lines = [0; turncheck::LINES_BYTES];
    let mut schedule = [0; turncheck::SCHEDULE_BYTES];
    match turncheck::judge(record, &mut lines, &mut schedule)? {
        Verdict::Clear => println!("clear"),
        Verdict::Long => println!("long"),
        Verdict::Found(steps, depths) => {
            println!("found {steps} {} {}", depths.a, depths.b);
            let found = &schedule[..2 * steps];
            for step in found.chunks(2) {
                let thread = if step[0] % 2 == 0 { 'A' } else { 'B' };
                println!("{} {thread} {}", step[0], step[1]);
            }
            let last = turncheck::replay(record, found)?;
            let kind = if last.target { "the target" } else { "not the target" };
            println!("replayed to state {}, {kind}", last.state);
        }
    }
    Ok(())
}

fn main() -> Result<(), Refusal> {
    let mut tray: &[u8] = &DAY;
    while let Some(first) = turncheck::first(tray)? {
        judge(first.record)?;
        tray = first.rest;
    }
    Ok(())
}
