// Models with many best lines, and with long schedules: of their shortest schedules the least takes most time to find.
use super::{double, family, longest, Family, Model, Push, Remove, Rules, Swap, ANY, FREE};

// A family for each, by name.
pub fn ties() -> Vec<Family> {
    let lines = include_str!("ties.txt").lines().filter(|line| !line.starts_with('#'));
    let mut families: Vec<Family> = lines.filter_map(stored).collect();
    families.extend([2, 6, 10].map(|high| family(&format!("A doubles from {high}, B chooses"), vec![tied(high)])));
    families.extend([1, 2, 3].map(|k| family(&format!("found at 4,095 steps, K={k}"), vec![longest(k)])));
    families
}

// A record in base 16, and its name before it.
fn stored(line: &str) -> Option<Family> {
    let (name, text) = line.split_once(": ")?;
    let byte = |i: usize| u8::from_str_radix(&text[i..i + 2], 16).expect("not base 16");
    Some(Family { name: name.to_string(), records: vec![(0..text.len()).step_by(2).map(byte).collect()] })
}

// In state 0 A takes away all that comes of `high` by doubling, then all that comes of the symbol before it, and leaves for state 1 or 2. B
// then goes to any state but the target, twice, and to the target: the turns can end in many ways.
fn tied(high: u8) -> Model {
    let mut a = double(0, 11);
    a.extend([(0, 11, 0, Push(high, 12)), (0, 12, 0, Push(high - 1, 13))]);
    a.extend([1, 2].map(|to| (0, 13, to, Swap(14))));
    let mut b = Rules::new();
    for from in 0..3 {
        let first = if from == 0 { 1 } else { 0 };
        b.extend((first..2).flat_map(|i| (0..3).map(move |to| (from, i, to, Swap(i + 1)))));
        b.insert((from, 2, 3, Remove));
    }
    Model { g: 4, k: 3, target: 3, tops: ANY, held: FREE, first: [11, 0], rules: [a, b] }
}
