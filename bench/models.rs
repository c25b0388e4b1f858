// The fixed models, as records. Random ones come from a generator of our own with a fixed seed, so every run has the same.
mod pairs;
mod ties;

pub use pairs::pairs;
pub use ties::ties;

use std::collections::BTreeSet;
use Right::{Push, Remove, Swap};

pub struct Family {
    pub name: String,
    pub records: Vec<Vec<u8>>,
}

// The new symbols. Fewer come first, as in a record.
#[derive(Clone, Copy, PartialEq, Eq, PartialOrd, Ord)]
enum Right {
    Remove,
    Swap(u8),
    Push(u8, u8),
}

// A rule: before state and symbol, after state, new symbols. They are compared in this order, which is that of a record.
type Rule = (u8, u8, u8, Right);

// A thread's rules, each once and in order: a rule's number is its place.
type Rules = BTreeSet<Rule>;

// `held` marks the held rules of each thread, rule 0 in the lowest bit.
struct Model {
    g: u8,
    k: u8,
    target: u8,
    tops: [Option<u8>; 2],
    held: [u64; 2],
    first: [u8; 2],
    rules: [Rules; 2],
}

// No top is named.
const ANY: [Option<u8>; 2] = [None, None];

// No rule is held.
const FREE: [u64; 2] = [0, 0];

// The threads that have something.
type Threads = [bool; 2];

const NEITHER: Threads = [false, false];
const BOTH: Threads = [true, true];

// What random models are like: G, K, and in each thread so many symbols and rules.
#[derive(Clone, Copy)]
struct Kind {
    g: u8,
    k: u8,
    symbols: u8,
    rules: usize,
}

const DENSE: Kind = Kind { g: 4, k: 3, symbols: 16, rules: 64 };
const CROWDED: Kind = Kind { symbols: 6, ..DENSE };
const SPARSE: Kind = Kind { rules: 12, ..DENSE };

// A linear congruential generator; its high bits are the random ones.
struct Random(u64);

impl Random {
    fn below(&mut self, n: u8) -> u8 {
        self.0 = self.0.wrapping_mul(6364136223846793005).wrapping_add(1442695040888963407);
        ((self.0 >> 33) % n as u64) as u8
    }

    // So many rules: one that is there already is drawn again.
    fn rules(&mut self, kind: Kind) -> Rules {
        let mut rules = Rules::new();
        while rules.len() < kind.rules {
            rules.insert(self.rule(kind));
        }
        rules
    }

    // A rule with none, one or two new symbols alike often.
    fn rule(&mut self, Kind { g, symbols, .. }: Kind) -> Rule {
        let (before, symbol, after) = (self.below(g), self.below(symbols), self.below(g));
        let right = match self.below(3) {
            0 => Remove,
            1 => Swap(self.below(symbols)),
            _ => Push(self.below(symbols), self.below(symbols)),
        };
        (before, symbol, after, right)
    }

    // The marks of so many rules, of which three in eight are held.
    fn marks(&mut self, rules: usize) -> u64 {
        (0..rules).filter(|_| self.below(8) < 3).fold(0, |marks, r| marks | 1 << r)
    }

    fn model(&mut self, kind: Kind) -> Model {
        let rules = [self.rules(kind), self.rules(kind)];
        let first = [self.below(kind.symbols), self.below(kind.symbols)];
        Model { g: kind.g, k: kind.k, target: 1 + self.below(kind.g - 1), tops: ANY, held: FREE, first, rules }
    }
}

impl Model {
    fn record(&self) -> Vec<u8> {
        let mut bytes = vec![8];
        let mut field = |bit: u8, value: &[u8], absent: &[u8]| {
            if value != absent {
                bytes[0] |= 1 << bit;
                bytes.extend(value);
            }
        };
        field(0, &[self.g], &[4]);
        field(1, &[self.k], &[2]);
        field(3, &self.aim(), &[]);
        field(4, &[self.first[0]], &[0]);
        field(5, &[self.first[1]], &[0]);
        for (thread, rules) in self.rules.iter().enumerate() {
            if !rules.is_empty() {
                bytes[0] |= 64 << thread;
                bytes.push(rules.len() as u8);
            }
            for (before, symbol, after, right) in rules {
                let (map, new) = match *right {
                    Remove => (0, vec![]),
                    Swap(a) => (2, vec![a]),
                    Push(a, b) => (6, vec![a, b]),
                };
                bytes.extend([map + (before != after) as u8, before * 16 + symbol]);
                bytes.extend((before != after).then_some(*after));
                bytes.extend(new);
            }
        }
        bytes
    }

    // The target byte and, where a top is named or a rule is held, the second map, the tops and the marks.
    fn aim(&self) -> Vec<u8> {
        let tops = self.tops.map(|top| top.into_iter().collect());
        let marks = self.held.map(|marks| if marks == 0 { vec![] } else { marks.to_le_bytes().to_vec() });
        let (mut map, mut fields): (u8, Vec<u8>) = (0, vec![]);
        for (bit, field) in tops.iter().chain(&marks).enumerate() {
            map |= u8::from(!field.is_empty()) << bit;
            fields.extend(field);
        }
        if map == 0 {
            return vec![self.target];
        }
        [vec![self.target + 128, map], fields].concat()
    }
}

fn family(name: &str, models: Vec<Model>) -> Family {
    Family { name: name.to_string(), records: models.iter().map(Model::record).collect() }
}

// Dense models at another K and with another number of rules in each thread.
pub fn grown(k: u8, rules: usize) -> Family {
    random(&format!("K={k}, {rules}+{rules} rules"), 16, Kind { k, rules, ..DENSE })
}

// So many random models of a kind.
fn random(name: &str, models: usize, kind: Kind) -> Family {
    with(name, models, kind, NEITHER, NEITHER)
}

// The same with random tops in some threads, and random held rules in some. Each are drawn apart and always for both, so that nothing
// else of the models changes, and A's are the same whether or not B has some.
fn with(name: &str, models: usize, kind: Kind, tops: Threads, held: Threads) -> Family {
    let (mut random, mut top, mut mark) = (Random(1), Random(2), Random(3));
    let model = |_| {
        let tops = tops.map(|thread| Some(top.below(kind.symbols)).filter(|_| thread));
        let held = held.map(|thread| mark.marks(kind.rules) * u64::from(thread));
        Model { tops, held, ..random.model(kind) }
    };
    family(name, (0..models).map(model).collect())
}

// The families of the first table.
pub fn fixed() -> Vec<Family> {
    vec![
        document(),
        random("dense: 64+64 rules", 32, DENSE),
        random("crowded: 64+64 rules, 6 symbols", 16, CROWDED),
        random("sparse: 12+12 rules", 32, SPARSE),
        family("doubling", vec![doubled(10, 1), doubled(11, 1), doubled(10, 3), doubled(11, 3), mirrored(9), mirrored(10)]),
        family("found at 4,095 steps", vec![longest(1), longest(2), longest(3)]),
    ]
}

// Families of the first table with tops, which have rows of their own.
pub fn topped() -> Vec<Family> {
    vec![
        with("dense, a top in A", 32, DENSE, [true, false], NEITHER),
        with("dense, tops in A and B", 32, DENSE, BOTH, NEITHER),
        with("crowded, tops in A and B", 16, CROWDED, BOTH, NEITHER),
        with("sparse, tops in A and B", 32, SPARSE, BOTH, NEITHER),
    ]
}

// Families of the first table with held rules, which have rows of their own.
pub fn held() -> Vec<Family> {
    vec![
        with("dense, held rules in A", 32, DENSE, NEITHER, [true, false]),
        with("dense, held rules in A and B", 32, DENSE, NEITHER, BOTH),
        with("crowded, held rules in A and B", 16, CROWDED, NEITHER, BOTH),
        with("sparse, held rules in A and B", 32, SPARSE, NEITHER, BOTH),
        with("dense, tops and held rules in A and B", 32, DENSE, BOTH, BOTH),
        with("crowded, tops and held rules in A and B", 16, CROWDED, BOTH, BOTH),
    ]
}

// Models with tops, with held rules and with both that are compared and not timed: at each K, with fewer states at K = 3, and with few
// symbols, so that most are Found.
pub fn untimed() -> Vec<Family> {
    let choices = [NEITHER, [true, false], [false, true], BOTH];
    let mut families = vec![];
    for (g, k) in [(4, 1), (4, 2), (4, 3), (3, 3), (2, 3)] {
        let kind = Kind { g, k, symbols: 4, rules: 32 };
        for tops in choices {
            for held in choices {
                let name = format!("untimed, G={g}, K={k}, tops in {tops:?}, held rules in {held:?}");
                families.push(with(&name, 16, kind, tops, held));
            }
        }
    }
    families
}

// One; Two at K = 2 and at K = 1; Two without A's first rule at K = 1, 2, 3; target equal to start.
fn document() -> Family {
    let two = [3, 6, 0, 0, 0, 1, 0, 1, 1, 0x20, 3, 1, 3, 0x10, 2, 0];
    let less = [2, 1, 0, 1, 1, 0x20, 3, 1, 3, 0x10, 2, 0];
    let with = |head: &[u8], rest: &[u8]| [head, rest].concat();
    Family {
        name: "document 01".to_string(),
        records: vec![
            vec![0x4b, 2, 1, 1, 1, 1, 0, 1],
            with(&[0xc8, 3], &two),
            with(&[0xca, 1, 3], &two),
            with(&[0xca, 1, 3], &less),
            with(&[0xc8, 3], &less),
            with(&[0xca, 3, 3], &less),
            vec![8, 0],
        ],
    }
}

// In a state, each symbol from 1 up to `end`, that one left out, becomes two of the one before it, and 0 is removed.
fn double(state: u8, end: u8) -> Rules {
    let mut rules = Rules::from([(state, 0, state, Remove)]);
    rules.extend((1..end).map(|i| (state, i, state, Push(i - 1, i - 1))));
    rules
}

// Document 01's doubling model: 12 becomes `top` above 13, and 13 moves to the target.
fn doubled(top: u8, k: u8) -> Model {
    let mut a = double(0, 12);
    a.extend([(0, 12, 0, Push(top, 13)), (0, 13, 1, Remove)]);
    Model { g: 2, k, target: 1, tops: ANY, held: FREE, first: [12, 0], rules: [a, Rules::new()] }
}

// Both threads double, A up to state 1 and B from there to the target, with symbol 13 - s in place of s: the rule of a symbol stands before
// those of the symbols that it becomes, which is the order that the search likes least.
fn mirrored(top: u8) -> Model {
    let thread = |from: u8, to: u8| {
        let mut rules = Rules::from([(from, 0, to, Remove), (from, 1, from, Push(13 - top, 0))]);
        for g in 0..4 {
            rules.extend((2..13).map(|i| (g, i, g, Push(i + 1, i + 1))));
            rules.insert((g, 13, g, Remove));
        }
        rules
    };
    Model { g: 4, k: 3, target: 3, tops: ANY, held: FREE, first: [1, 1], rules: [thread(0, 1), thread(1, 3)] }
}

// Eleven pushes one after another, each of which takes twice the steps of the one after it, and a last step: 4,095.
fn longest(k: u8) -> Model {
    let mut a: Rules = (0..3).flat_map(|g| double(g, 11)).collect();
    a.extend((0..11).map(|n| (n % 3, 11 + n / 3, (n + 1) % 3, Push(10 - n, 11 + (n + 1) / 3))));
    a.insert((2, 14, 3, Remove));
    Model { g: 4, k, target: 3, tops: ANY, held: FREE, first: [11, 0], rules: [a, Rules::new()] }
}
