// The sequential system of a model, a pushdown system with one stack for both threads, as text: a line for each rule.
use super::{Model, Right, Thread};
use crate::numbers::{HELD_OR_TOP, SHORT};

// A's symbols are 0 to 15 and B's as many from here on.
const OF_B: usize = 16;
// The mark at the bottom of A's part of the stack, that of B's, the check symbol, and the helper that comes where A has made its turns.
const BOTTOM_A: usize = 32;
const BOTTOM_B: usize = 33;
const CHECK: usize = 34;
const HELPER: usize = 35;

// A counter and up to three copies of the shared state, of which K are there.
type State = [usize; 4];

struct Rule {
    from: State,
    top: usize,
    to: State,
    new: Right,
}

// The text goes to the front of the store, and its length is answered, or the number of the first fault.
pub fn print(m: &Model, store: &mut [u8]) -> Result<usize, u64> {
    let plain = |t: &Thread| t.top.is_none() && !t.rules.iter().any(|r| r.held);
    if !plain(&m.a) || !plain(&m.b) {
        return Err(HELD_OR_TOP);
    }
    let mut size = 0;
    each(m, |rule| size += length(m.k, &rule));
    let text = store.get_mut(..size).ok_or(SHORT)?;
    let mut at = 0;
    each(m, |rule| at = put(text, at, m.k, &rule));
    Ok(size)
}

// All rules in the order of the text: by counter, copies and top.
fn each(m: &Model, mut take: impl FnMut(Rule)) {
    for counter in 1..=m.k + 1 {
        for v in 0..m.g.pow(m.k as u32) {
            let mut state = [counter, 0, 0, 0];
            state[1..=m.k].iter_mut().rev().fold(v, |rest, copy| {
                *copy = rest % m.g;
                rest / m.g
            });
            (0..=HELPER).for_each(|top| each_at(m, state, top, &mut take));
        }
    }
}

// Those at a state and a top.
fn each_at(m: &Model, from: State, top: usize, take: &mut impl FnMut(Rule)) {
    let counter = from[0];
    let to = |place: usize, value| {
        let mut to = from;
        to[place] = value;
        to
    };
    if counter > m.k {
        let closing = if top < OF_B || top == BOTTOM_A { HELPER } else { CHECK };
        if top <= BOTTOM_B {
            take(Rule { from, top, to: to(0, 1), new: Right::Push(closing, top) });
        }
        return;
    }
    let (thread, of) = if top < OF_B { (&m.a, 0) } else { (&m.b, OF_B) };
    for rule in thread.rules.iter().filter(|r| r.before == from[counter] && r.symbol + of == top) {
        let new = match rule.right {
            Right::Remove => Right::Remove,
            Right::Swap(a) => Right::Swap(a + of),
            Right::Push(a, b) => Right::Push(a + of, b + of),
        };
        take(Rule { from, top, to: to(counter, rule.after), new });
    }
    if top <= BOTTOM_B {
        take(Rule { from, top, to: to(0, counter + 1), new: Right::Swap(top) });
    }
    if counter == 1 && top == HELPER {
        take(Rule { from, top, to: from, new: Right::Push(OF_B + m.b.first, BOTTOM_B) });
    }
}

// The bytes of a rule's line: two states of K + 1 digits, a blank between all, and the line's end.
fn length(k: usize, rule: &Rule) -> usize {
    let symbol = |s: usize| if s < 10 { 2 } else { 3 };
    let new = match rule.new {
        Right::Remove => 0,
        Right::Swap(a) => symbol(a),
        Right::Push(a, b) => symbol(a) + symbol(b),
    };
    2 * (k + 1) + 2 + symbol(rule.top) + new
}

// The line of a rule at a place of the text; the place behind it is answered.
fn put(text: &mut [u8], mut at: usize, k: usize, rule: &Rule) -> usize {
    at = put_state(text, at, k, &rule.from);
    at = put_symbol(text, at, rule.top);
    text[at] = b' ';
    at = put_state(text, at + 1, k, &rule.to);
    match rule.new {
        Right::Remove => {}
        Right::Swap(a) => at = put_symbol(text, at, a),
        Right::Push(a, b) => {
            at = put_symbol(text, at, a);
            at = put_symbol(text, at, b);
        }
    }
    text[at] = b'\n';
    at + 1
}

fn put_state(text: &mut [u8], at: usize, k: usize, state: &State) -> usize {
    for (byte, digit) in text[at..=at + k].iter_mut().zip(state) {
        *byte = b'0' + *digit as u8;
    }
    at + k + 1
}

// A blank and a symbol in base ten.
fn put_symbol(text: &mut [u8], mut at: usize, symbol: usize) -> usize {
    text[at] = b' ';
    if symbol >= 10 {
        at += 1;
        text[at] = b'0' + (symbol / 10) as u8;
    }
    text[at + 1] = b'0' + (symbol % 10) as u8;
    at + 2
}
