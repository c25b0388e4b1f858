// The yardstick: the same calls by the same algorithm, but for merging, in plain Rust and with nothing proved. Records in; each call
// answers the number that the proved library answers.
mod costs;
mod merge;
mod page;
mod record;
mod run;
mod sequential;
mod table;
mod walk;
mod witness;
mod writer;

use crate::numbers::{
    packed, with_depths, CLEAR, DONE, FOLLOWED, FOUND, LONG, PAGED, PRINTED, REACHED, STOPPED, WRITTEN,
};

#[derive(Clone, Copy)]
pub enum Right {
    Remove,
    Swap(usize),
    Push(usize, usize),
}

// No turn ends right after a rule that is `held`.
#[derive(Clone, Copy)]
pub struct Rule {
    pub before: usize,
    pub symbol: usize,
    pub after: usize,
    pub held: bool,
    pub right: Right,
}

// `symbols` is how many symbols it has. `top` is the one that must top its stack at the target, where one is named.
pub struct Thread {
    pub symbols: usize,
    pub first: usize,
    pub top: Option<usize>,
    pub rules: Vec<Rule>,
}

pub struct Model {
    pub g: usize,
    pub k: usize,
    pub start: usize,
    pub target: usize,
    pub a: Thread,
    pub b: Thread,
}

pub fn read(record: &[u8]) -> u64 {
    match record::read(record) {
        Ok(_) => DONE,
        Err(number) => number,
    }
}

// The record of both models goes to the front of the store.
pub fn merge(first: &[u8], second: &[u8], store: &mut [u8]) -> u64 {
    match merge::merge(first, second, store) {
        Ok(size) => packed(WRITTEN, size as u64),
        Err(number) => number,
    }
}

// The line table goes to the front of the store.
pub fn lines(record: &[u8], store: &mut [u8]) -> u64 {
    let model = match record::read(record) {
        Ok(model) => model,
        Err(number) => return number,
    };
    if store.len() < bytes_for(&model) {
        return 7;
    }
    let [a, b] = costs::lines(&model);
    draw(&model, &a.any, &b.any, store);
    DONE
}

// The same, and the least of the shortest schedules at the front of its store, which is then walked for its depths.
pub fn judge(record: &[u8], store: &mut [u8], schedule: &mut [u8]) -> u64 {
    let model = match record::read(record) {
        Ok(model) => model,
        Err(number) => return number,
    };
    if store.len() < bytes_for(&model) || schedule.len() < 8190 {
        return 7;
    }
    let [a, b] = costs::both(&model);
    draw(&model, &a.any, &b.any, store);
    let (a, b) = (a.asked(), b.asked());
    let steps = fewest(&model, a, b);
    if steps > table::LONG {
        return CLEAR;
    }
    if steps == table::LONG {
        return LONG;
    }
    witness::write(&model, steps, a, b, schedule);
    let steps = usize::from(steps);
    match walk::walk(&model, &schedule[..2 * steps]) {
        Ok(last) => with_depths(FOUND, steps, last.depths),
        Err(number) => number,
    }
}

// How many lines a model has along which both threads together make the fewest steps. No call of the library tells it.
pub fn best_lines(record: &[u8]) -> usize {
    record::read(record).map_or(0, |model| {
        let [a, b] = costs::both(&model);
        let (a, b) = (a.asked(), b.asked());
        witness::best_lines(&model, fewest(&model, a, b), a, b).count()
    })
}

pub fn replay(record: &[u8], schedule: &[u8]) -> u64 {
    let model = match record::read(record) {
        Ok(model) => model,
        Err(number) => return number,
    };
    match walk::walk(&model, schedule) {
        Ok(last) => with_depths(if last.target { REACHED } else { STOPPED }, last.shared, last.depths),
        Err(number) => number,
    }
}

pub fn follow(record: &[u8], log: &[u8]) -> u64 {
    match record::read(record).and_then(|model| walk::follow(&model, log)) {
        Ok((shared, rounds)) => packed(FOLLOWED, (shared | rounds << 16) as u64),
        Err(number) => number,
    }
}

// The page of a schedule goes to the front of the store.
pub fn page(record: &[u8], schedule: &[u8], store: &mut [u8]) -> u64 {
    match record::read(record).and_then(|model| page::page(&model, schedule, store)) {
        Ok(size) => packed(PAGED, size as u64),
        Err(number) => number,
    }
}

// The rules of the sequential system go to the front of the store.
pub fn sequentialize(record: &[u8], store: &mut [u8]) -> u64 {
    match record::read(record).and_then(|model| sequential::print(&model, store)) {
        Ok(size) => packed(PRINTED, size as u64),
        Err(number) => number,
    }
}

fn line_bits(m: &Model) -> usize {
    (1..=2 * m.k as u32).map(|n| m.g.pow(n)).sum()
}

fn bytes_for(m: &Model) -> usize {
    line_bits(m).div_ceil(8)
}

// The fewest steps of both threads together along a full line to the target.
fn fewest(m: &Model, a: &[u16], b: &[u16]) -> u16 {
    let lines = (m.target..m.g.pow(2 * m.k as u32)).step_by(m.g);
    lines.fold(table::NONE, |best, v| table::joined(a[v], b[v], best))
}

// Bit p stands where both threads can follow the full line of place p.
fn draw(m: &Model, a: &[u16], b: &[u16], store: &mut [u8]) {
    let bits = line_bits(m);
    for (at, byte) in store[..bits.div_ceil(8)].iter_mut().enumerate() {
        *byte = 0;
        for bit in 0..8.min(bits - 8 * at) {
            let v = full_line(m, 8 * at + bit);
            if a[v] <= table::LONG && b[v] <= table::LONG {
                *byte |= 1 << bit;
            }
        }
    }
}

// The value of the line at place p, with its last state repeated up to 2K states.
fn full_line(m: &Model, p: usize) -> usize {
    let (mut q, mut count, mut len) = (p, m.g, 1);
    while count <= q {
        q -= count;
        count *= m.g;
        len += 1;
    }
    let last = q % m.g;
    for _ in len..2 * m.k {
        q = q * m.g + last;
    }
    q
}
