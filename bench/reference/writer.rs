// The record of a model.
use super::{Model, Right, Rule};

pub fn write(m: &Model) -> Vec<u8> {
    mapped([
        unless(m.g, 4),
        unless(m.k, 2),
        unless(m.start, 0),
        aim(m),
        unless(m.a.first, 0),
        unless(m.b.first, 0),
        list(&m.a.rules),
        list(&m.b.rules),
    ])
}

// A map with a bit for each field that is not empty, and then these.
fn mapped<const N: usize>(fields: [Vec<u8>; N]) -> Vec<u8> {
    let map = fields.iter().rev().fold(0, |map, field| 2 * map + u8::from(!field.is_empty()));
    [vec![map], fields.concat()].concat()
}

// A field of one byte, left out where it says what its absence would.
fn unless(value: usize, absent: usize) -> Vec<u8> {
    Some(value as u8).filter(|_| value != absent).into_iter().collect()
}

// The target byte, and the second map if it has fields: tops, marks and symbol counts.
fn aim(m: &Model) -> Vec<u8> {
    let top = |top: Option<usize>| top.map(|symbol| symbol as u8).into_iter().collect();
    let second = mapped([
        top(m.a.top),
        top(m.b.top),
        marks(&m.a.rules),
        marks(&m.b.rules),
        unless(m.a.symbols, 16),
        unless(m.b.symbols, 16),
    ]);
    match second[0] {
        0 => vec![m.target as u8],
        _ => [vec![m.target as u8 + 128], second].concat(),
    }
}

fn marks(rules: &[Rule]) -> Vec<u8> {
    match rules.iter().rev().fold(0u64, |marks, rule| 2 * marks + u64::from(rule.held)) {
        0 => vec![],
        marks => marks.to_le_bytes().to_vec(),
    }
}

fn list(rules: &[Rule]) -> Vec<u8> {
    let mut bytes = vec![];
    if !rules.is_empty() {
        bytes.push(rules.len() as u8);
    }
    for rule in rules {
        let (map, new) = match rule.right {
            Right::Remove => (0, [None, None]),
            Right::Swap(a) => (2, [Some(a), None]),
            Right::Push(a, b) => (6, [Some(a), Some(b)]),
        };
        let moves = rule.before != rule.after;
        bytes.extend([map + u8::from(moves), (16 * rule.before + rule.symbol) as u8]);
        bytes.extend(moves.then_some(rule.after as u8));
        bytes.extend(new.iter().flatten().map(|&symbol| symbol as u8));
    }
    bytes
}
