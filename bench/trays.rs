// A tray judged together beside its records judged one by one, both by the proved library.
use crate::models::Family;
use crate::{best, numbers, proved, shown, ROUNDS};
use std::hint::black_box;

// The bytes of one outcome.
const OUTCOME: usize = 6;

// Whether the tray's outcomes are those of its records alone, and its schedules those that fit, one after another.
pub fn agree(family: &Family) -> Result<(), String> {
    let (mut list, mut store) = (vec![0xAA; OUTCOME * family.records.len()], vec![0xAA; 8190]);
    let number = proved::batch(&family.records.concat(), &mut list, &mut store);
    if number != numbers::packed(numbers::JUDGED, family.records.len() as u64) {
        return Err(format!("batch says {number}"));
    }
    let mut written = Vec::new();
    for (record, outcome) in family.records.iter().zip(list.chunks_exact(OUTCOME)) {
        let mut schedule = [0; 8190];
        let verdict = proved::judge(record, &mut [0; 683], &mut schedule);
        let steps = numbers::steps(verdict);
        let fits = numbers::kind(verdict) == numbers::FOUND && written.len() + 2 * steps <= 8190;
        let place = if fits && steps > 0 { written.len() / 2 } else { 0 };
        let [s, p] = [steps, place].map(|n| (n as u16).to_le_bytes());
        if *outcome != [(numbers::kind(verdict) - numbers::CLEAR) as u8, s[0], s[1], fits.into(), p[0], p[1]] {
            return Err(format!("batch says {outcome:?} where judge says {verdict}"));
        }
        written.extend(if fits { &schedule[..2 * steps] } else { &[] });
    }
    let rest = vec![0xAA; 8190 - written.len()];
    if store != [written, rest].concat() {
        return Err("the schedules differ".to_string());
    }
    Ok(())
}

// The best time of one call for all, and of a call for each.
pub fn print(family: &Family) {
    let tray = family.records.concat();
    let (mut list, mut store) = (vec![0; OUTCOME * family.records.len()], [0; 8190]);
    let (mut lines, mut schedule) = ([0; 683], [0; 8190]);
    let (mut together, mut alone) = (f64::MAX, f64::MAX);
    for _ in 0..ROUNDS {
        let pair = best(
            || proved::batch(black_box(&tray), &mut list, &mut store),
            || family.records.iter().fold(0, |sum, record| sum ^ proved::judge(black_box(record), &mut lines, &mut schedule)),
        );
        together = together.min(pair.proved);
        alone = alone.min(pair.plain);
    }
    let times = [together, alone].map(shown).join(" | ");
    println!("| {} | {} | {times} | {:.2} |", family.name, family.records.len(), together / alone);
}
