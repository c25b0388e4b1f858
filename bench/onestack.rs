// Holds the texts of sequential systems against line tables. A checker of single-threaded rule tables answers from a text alone which
// shared states a run of K rounds can have before rounds 2 to K and at its end; the line table must say the same.
#[allow(dead_code)]
mod numbers;
#[allow(dead_code)]
mod proved;
mod pushdown;

use pushdown::{Automaton, State};
use std::collections::BTreeSet;

// How many random models are tried.
const MODELS: usize = 300;

// The mark at the bottom of A's part of the stack, and the symbol that comes on top where both threads have made their turns.
const BOTTOM: usize = 32;
const CHECK: usize = 34;

// A model's record, and what the question needs of it: G, K, the start state and A's first symbol.
struct Model {
    record: Vec<u8>,
    g: u8,
    k: u8,
    start: u8,
    first: u8,
}

// A rule: before state and symbol, after state, number of new symbols, and these. Rules of a record are in this order.
type Rule = (u8, u8, u8, usize, Vec<u8>);

// A generator of our own (xorshift) with a fixed seed, so every run has the same models.
struct Random(u64);

impl Random {
    fn below(&mut self, n: usize) -> u8 {
        self.0 ^= self.0 << 13;
        self.0 ^= self.0 >> 7;
        self.0 ^= self.0 << 17;
        ((self.0 >> 32) % n as u64) as u8
    }

    // One of a thread's symbols, which are so many from the lowest on.
    fn symbol(&mut self, (lowest, count): (u8, usize)) -> u8 {
        lowest + self.below(count)
    }

    // None, one or two new symbols alike often.
    fn rule(&mut self, g: usize, symbols: (u8, usize)) -> Rule {
        let (before, symbol, after) = (self.below(g), self.symbol(symbols), self.below(g));
        let new: Vec<u8> = (0..self.below(3)).map(|_| self.symbol(symbols)).collect();
        (before, symbol, after, new.len(), new)
    }

    // Few symbols and few rules for each state and symbol: some states are reached only over what lay below, and some never.
    fn model(&mut self) -> Model {
        let (g, k) = (1 + self.below(4), 1 + self.below(3));
        let states = g.into();
        let symbols = [(); 2].map(|()| (self.below(13), 1 + usize::from(self.below(4))));
        let rules = symbols.map(|symbols| {
            let most = self.below(2 + 2 * states * symbols.1);
            (0..most).map(|_| self.rule(states, symbols)).collect()
        });
        let (start, target) = (self.below(states), self.below(states));
        let first = symbols.map(|symbols| self.symbol(symbols));
        Model { record: record([g, k, start, target], first, &rules), g, k, start, first: first[0] }
    }
}

// The record of G, K, start and target state, first symbols and rules.
fn record(head: [u8; 4], first: [u8; 2], rules: &[BTreeSet<Rule>; 2]) -> Vec<u8> {
    let [g, k, start, target] = head;
    let fields = [(g, 4), (k, 2), (start, 0), (target, u8::MAX), (first[0], 0), (first[1], 0)];
    let mut bytes = vec![0];
    for (bit, (value, _)) in fields.into_iter().enumerate().filter(|(_, (value, absent))| value != absent) {
        bytes[0] |= 1 << bit;
        bytes.push(value);
    }
    for (bit, rules) in [64, 128].into_iter().zip(rules).filter(|(_, rules)| !rules.is_empty()) {
        bytes[0] |= bit;
        bytes.push(rules.len() as u8);
        for (before, symbol, after, count, new) in rules {
            let moves = before != after;
            bytes.extend([[0, 2, 6][*count] + u8::from(moves), before * 16 + symbol]);
            bytes.extend(moves.then_some(after).into_iter().chain(new));
        }
    }
    bytes
}

// Document 01's One and Two, Two at K = 1, Two without A's first rule, and the record with a target alone.
fn document() -> Vec<Model> {
    let two = [3, 6, 0, 0, 0, 1, 0, 1, 1, 0x20, 3, 1, 3, 0x10, 2, 0];
    let less = [2, 1, 0, 1, 1, 0x20, 3, 1, 3, 0x10, 2, 0];
    let model = |g, k, parts: [&[u8]; 2]| Model { record: parts.concat(), g, k, start: 0, first: 0 };
    vec![
        model(2, 1, [&[0x4b, 2, 1, 1], &[1, 1, 0, 1]]),
        model(4, 2, [&[0xc8, 3], &two]),
        model(4, 1, [&[0xca, 1, 3], &two]),
        model(4, 2, [&[0xc8, 3], &less]),
        model(4, 2, [&[8, 0], &[]]),
    ]
}

// The digits of a number in base G, so many, the first the highest.
fn digits(g: u8, count: u8, value: usize) -> Vec<u8> {
    let g = usize::from(g);
    (0..u32::from(count)).rev().map(|place| (value / g.pow(place) % g) as u8).collect()
}

// The state with counter 1 and these copies.
fn begin(copies: &[u8]) -> State {
    copies.iter().fold(1, |state, &copy| 10 * state + State::from(copy))
}

// Which (g2 .. gK, e) the text of the model's rules allows, by their number in base G.
fn by_text(m: &Model) -> Result<Vec<bool>, String> {
    let mut store = vec![0; numbers::TEXT];
    let number = proved::sequentialize(&m.record, &mut store);
    let size = numbers::printed(number).ok_or(format!("sequentialize says {number}"))?;
    let text = std::str::from_utf8(&store[..size]).map_err(|error| error.to_string())?;
    let rules = pushdown::rules(text).ok_or("the text is no list of rules in order")?;
    let ends: Vec<Vec<u8>> = (0..usize::from(m.g).pow(m.k.into())).map(|v| digits(m.g, m.k, v)).collect();
    let goals: Vec<(State, usize)> = ends.iter().map(|end| (begin(end), CHECK)).collect();
    let automaton = Automaton::new(&rules, &goals);
    let reached = |(i, end): (usize, &Vec<u8>)| {
        let copies = [&[m.start], &end[..end.len() - 1]].concat();
        automaton.reached(begin(&copies), &[m.first.into(), BOTTOM])[i]
    };
    Ok(ends.iter().enumerate().map(reached).collect())
}

// The same by the model's line table: of a marked line of 2K states the second, the fourth and so on.
fn by_lines(m: &Model) -> Result<Vec<bool>, String> {
    let mut table = vec![0; 683];
    let number = proved::lines(&m.record, &mut table);
    if number != numbers::DONE {
        return Err(format!("lines says {number}"));
    }
    let g = usize::from(m.g);
    let full = g.pow(2 * u32::from(m.k));
    let shorter: usize = (1..2 * u32::from(m.k)).map(|length| g.pow(length)).sum();
    let mut reached = vec![false; g.pow(m.k.into())];
    for v in (0..full).filter(|v| table[(shorter + v) / 8] >> ((shorter + v) % 8) & 1 != 0) {
        let line = digits(m.g, 2 * m.k, v);
        let ends = line.iter().skip(1).step_by(2).fold(0, |value, &state| g * value + usize::from(state));
        reached[ends] = true;
    }
    Ok(reached)
}

// Both, one beside the other.
fn both(m: &Model) -> Result<Vec<(bool, bool)>, String> {
    Ok(by_text(m)?.into_iter().zip(by_lines(m)?).collect())
}

fn main() {
    let mut random = Random(13);
    let models: Vec<Model> = document().into_iter().chain((0..MODELS).map(|_| random.model())).collect();
    let (mut all, mut reached, mut differ) = (0, 0, 0);
    for m in &models {
        let answers = both(m).unwrap_or_else(|what| {
            eprintln!("error: {:02X?}: {what}", m.record);
            std::process::exit(1);
        });
        all += answers.len();
        reached += answers.iter().filter(|(_, lines)| *lines).count();
        let wrong = answers.iter().filter(|(text, lines)| text != lines).count();
        if wrong > 0 {
            eprintln!("differs in {wrong} of {}: {:02X?}", answers.len(), m.record);
        }
        differ += wrong;
    }
    println!("onestack: {} models, {all} combinations ({reached} reached), {differ} differ", models.len());
    std::process::exit(i32::from(differ > 0));
}
