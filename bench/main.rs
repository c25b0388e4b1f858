// Times the proved library beside an unproved program of the same algorithm, but for merging, on fixed models, and prints three tables; and a
// fourth, of trays beside their records one by one.
mod compare;
mod models;
mod numbers;
mod proved;
mod reference;
mod trays;

use models::Family;
use std::hint::black_box;
use std::io::{IsTerminal, Write};
use std::ops::RangeInclusive;
use std::time::Instant;

// Best times of one call on one model, in nanoseconds.
struct Pair {
    proved: f64,
    plain: f64,
}

// A model's record, the schedule that the proved library writes for it, empty where there is none, and that schedule's log.
struct Case {
    record: Vec<u8>,
    schedule: Vec<u8>,
    log: Vec<u8>,
}

// A row of a table: a call on the models of a family.
struct Row {
    name: String,
    call: Call,
    cases: Vec<Case>,
    pairs: Vec<Pair>,
}

type Call = fn(&Case) -> Pair;

// The calls, and which families with tops, and which with held rules, have a row: all for the judgement, and for each other call the
// dense ones with some in both threads; but none for the sequential system, which such models do not have.
const CALLS: [(&str, Call, RangeInclusive<usize>, RangeInclusive<usize>); 8] = [
    ("judgement", judgement, 0..=3, 0..=5),
    ("line table", line_table, 1..=1, 1..=1),
    ("replay", replay, 1..=1, 1..=1),
    ("page", page, 1..=1, 1..=1),
    ("follow", follow, 1..=1, 1..=1),
    ("read", read, 1..=1, 1..=1),
    ("merge", merge, 1..=1, 1..=1),
    ("sequentialize", sequentialize, 1..=0, 1..=0),
];

// Each row is timed in so many rounds, and the best counts: a machine that is busy for some seconds spoils one of them.
const ROUNDS: u32 = 4;

// How the time grows: K, and the rules of each thread.
const GROWTH: [(u8, usize); 7] = [(1, 64), (2, 64), (3, 64), (3, 32), (3, 16), (3, 8), (3, 4)];

const HEAD: &str = "| Proved: median | worst | Unproved: median | worst | Ratio of medians |\n|---|---|---|---|---|---|---|---|";

fn main() {
    let fixed = models::fixed();
    let topped = models::topped();
    let held = models::held();
    let grown = GROWTH.map(|(k, rules)| models::grown(k, rules));
    let tied = models::ties();
    for family in fixed.iter().chain(&topped).chain(&held).chain(&grown).chain(&tied).chain(&models::untimed()) {
        for (i, record) in family.records.iter().enumerate() {
            if let Err(what) = compare::agree(record) {
                eprintln!("error: {}, model {i}: {what}", family.name);
                std::process::exit(1);
            }
        }
    }

    for (i, [first, second]) in models::pairs().iter().enumerate() {
        if let Err(what) = compare::agree_merged(first, second) {
            eprintln!("error: pair {i}: {what}");
            std::process::exit(1);
        }
    }

    for family in &fixed {
        if let Err(what) = trays::agree(family) {
            eprintln!("error: {}, as a tray: {what}", family.name);
            std::process::exit(1);
        }
    }

    let mut rows = Vec::new();
    for (name, call, with_tops, with_held) in CALLS {
        let families = fixed.iter().chain(&topped[with_tops]).chain(&held[with_held]);
        rows.extend(families.map(|family| Row::new(format!("{name} | {}", family.name), call, family)));
    }
    let first = rows.len();
    for ((k, rules), family) in GROWTH.iter().zip(&grown) {
        rows.push(Row::new(format!("{k} | {rules}+{rules}"), judgement, family));
    }
    let second = rows.len();
    rows.extend(tied.iter().map(|family| Row::new(family.name.clone(), judgement, family)));
    for round in 1..=ROUNDS {
        for row in &mut rows {
            row.measure(round);
        }
    }
    progress("");

    println!("| Call | Models | {HEAD}");
    rows[..first].iter().for_each(Row::print);
    println!("\n| K | Rules | {HEAD}");
    rows[first..second].iter().for_each(Row::print);
    println!("\n| Judgement | Best lines | Steps | Proved | Unproved | Ratio |\n|---|---|---|---|---|---|");
    rows[second..].iter().for_each(Row::print_ties);
    println!("\n| Tray | Records | Together | One by one | Ratio |\n|---|---|---|---|---|");
    fixed.iter().for_each(trays::print);
}

// A line on a terminal that is written over by the next.
fn progress(line: &str) {
    let mut err = std::io::stderr();
    if err.is_terminal() {
        let _ = write!(err, "\r{line:<70}\r").and_then(|()| err.flush());
    }
}

impl Row {
    fn new(name: String, call: Call, family: &Family) -> Row {
        let cases: Vec<Case> = family.records.iter().map(|record| Case::new(record)).collect();
        let pairs = cases.iter().map(|_| Pair { proved: f64::MAX, plain: f64::MAX }).collect();
        Row { name, call, cases, pairs }
    }

    fn measure(&mut self, round: u32) {
        for (i, (case, pair)) in self.cases.iter().zip(&mut self.pairs).enumerate() {
            progress(&format!("round {round} of {ROUNDS}: {}, model {} of {}", self.name, i + 1, self.cases.len()));
            let new = (self.call)(case);
            pair.proved = pair.proved.min(new.proved);
            pair.plain = pair.plain.min(new.plain);
        }
    }

    // Median and worst of both sides over the models, and the ratio of the medians.
    fn print(&self) {
        let (median, worst) = summed(self.pairs.iter().map(|p| p.proved).collect());
        let (plain_median, plain_worst) = summed(self.pairs.iter().map(|p| p.plain).collect());
        let times = [median, worst, plain_median, plain_worst].map(shown).join(" | ");
        println!("| {} | {} | {times} | {:.2} |", self.name, self.cases.len(), median / plain_median);
    }

    // Each model of the row by itself, with how many best lines it has and the steps of their schedules.
    fn print_ties(&self) {
        for (case, pair) in self.cases.iter().zip(&self.pairs) {
            let (lines, steps) = (reference::best_lines(&case.record), case.schedule.len() / 2);
            let times = [pair.proved, pair.plain].map(shown).join(" | ");
            println!("| {} | {lines} | {steps} | {times} | {:.2} |", self.name, pair.proved / pair.plain);
        }
    }
}

impl Case {
    fn new(record: &[u8]) -> Case {
        let mut schedule = vec![0; 8190];
        let answer = proved::judge(record, &mut [0; 683], &mut schedule);
        schedule.truncate(2 * numbers::steps(answer));
        let log = numbers::log(&schedule);
        Case { record: record.to_vec(), schedule, log }
    }
}

fn judgement(case: &Case) -> Pair {
    let (mut store, mut other) = ([0; 683], [0; 683]);
    let (mut schedule, mut spare) = ([0; 8190], [0; 8190]);
    best(
        || proved::judge(black_box(&case.record), &mut store, &mut schedule),
        || reference::judge(black_box(&case.record), &mut other, &mut spare),
    )
}

fn line_table(case: &Case) -> Pair {
    let (mut store, mut other) = ([0; 683], [0; 683]);
    best(
        || proved::lines(black_box(&case.record), &mut store),
        || reference::lines(black_box(&case.record), &mut other),
    )
}

fn replay(case: &Case) -> Pair {
    best(
        || proved::replay(black_box(&case.record), &case.schedule),
        || reference::replay(black_box(&case.record), &case.schedule),
    )
}

fn page(case: &Case) -> Pair {
    // not zeros: stores of zeros would get their memory in the first call, which would pay for it
    let (mut store, mut other) = (vec![1; numbers::PAGE], vec![1; numbers::PAGE]);
    best(
        || proved::page(black_box(&case.record), &case.schedule, &mut store),
        || reference::page(black_box(&case.record), &case.schedule, &mut other),
    )
}

fn follow(case: &Case) -> Pair {
    best(
        || proved::follow(black_box(&case.record), &case.log),
        || reference::follow(black_box(&case.record), &case.log),
    )
}

fn read(case: &Case) -> Pair {
    best(|| proved::read(black_box(&case.record)), || reference::read(black_box(&case.record)))
}

// A model with itself: as many rules as can be are read, compared and written.
fn merge(case: &Case) -> Pair {
    let (mut store, mut other) = ([0; numbers::RECORD], [0; numbers::RECORD]);
    best(
        || proved::merge(black_box(&case.record), &case.record, &mut store),
        || reference::merge(black_box(&case.record), &case.record, &mut other),
    )
}

// The rules of the sequential system: the longest texts are those of the dense models and of the crowded ones.
fn sequentialize(case: &Case) -> Pair {
    // not zeros, as for a page
    let (mut store, mut other) = (vec![1; numbers::TEXT], vec![1; numbers::TEXT]);
    best(
        || proved::sequentialize(black_box(&case.record), &mut store),
        || reference::sequentialize(black_box(&case.record), &mut other),
    )
}

// The best of two samples of each side, turn by turn. Short calls are repeated in a sample.
fn best(mut proved: impl FnMut() -> u64, mut plain: impl FnMut() -> u64) -> Pair {
    let once = sample(1, &mut proved).max(1.0);
    let repeats = (30_000.0 / once).ceil().clamp(1.0, 1000.0) as u32;
    let mut pair = Pair { proved: f64::MAX, plain: f64::MAX };
    for _ in 0..2 {
        pair.proved = pair.proved.min(sample(repeats, &mut proved));
        pair.plain = pair.plain.min(sample(repeats, &mut plain));
    }
    pair
}

fn sample(repeats: u32, call: &mut impl FnMut() -> u64) -> f64 {
    let start = Instant::now();
    for _ in 0..repeats {
        black_box(call());
    }
    start.elapsed().as_nanos() as f64 / repeats as f64
}

fn summed(mut times: Vec<f64>) -> (f64, f64) {
    times.sort_by(f64::total_cmp);
    (times[times.len() / 2], times[times.len() - 1])
}

fn shown(nanoseconds: f64) -> String {
    match nanoseconds {
        t if t < 1e3 => format!("{t:.0} ns"),
        t if t < 1e6 => format!("{:.1} µs", t / 1e3),
        t => format!("{:.2} ms", t / 1e6),
    }
}
