// One thread's steps along a line: of its shortest runs the least. Each step is by the least rule of the present turn after which one step
// fewer is left, and the turn ends only where there is none.
use super::costs::Part;
use super::table::{gone, led_to, Table, FLOOR, NAMED, NONE, STAYS};
use super::{Right, Rule};

// A place is a number of turn ends passed and a control: eight places for each turn.
const PLACES: usize = 24;

// From a place with a symbol on top: the least steps until it is gone at each place, and last those to the end with something still there.
type Row = [u16; PLACES + 1];

// The rows of a place, by symbol.
type Exits = [Row; 17];

// A symbol of the stack, and for each place the least steps to the end with it on top. The lowest is the floor.
struct Level {
    symbol: usize,
    togo: [u16; PLACES],
}

// Its table holds what all lines share, and the rest for the lines with one first turn end at a time.
pub struct Runs<'a> {
    part: &'a Part<'a>,
    table: Table,
    solved: Option<usize>,
    exits: Vec<Exits>,
    levels: Vec<Level>,
}

// Where a run is: how many turn ends it has passed, its control, and the symbol on top of the levels.
#[derive(Clone, Copy)]
struct Head {
    passed: usize,
    control: usize,
    symbol: usize,
}

impl<'a> Runs<'a> {
    pub fn new(part: &'a Part<'a>) -> Runs<'a> {
        let mut table = Table::new();
        table.close_plain(part.g, part.top, part.thread);
        if part.n >= 1 {
            table.close_first(part.thread);
        }
        Runs { part, table, solved: None, exits: vec![[[NONE; PLACES + 1]; 17]; PLACES], levels: Vec::new() }
    }

    // The least of the shortest runs along the line of this value: they have so many steps.
    pub fn least(&mut self, v: usize, count: u16) -> Vec<[u8; 2]> {
        let ends = self.part.ends(v);
        if self.part.n >= 2 && self.solved != Some(ends.lanes[0]) {
            self.table.close_second(ends.lanes[0] / 4, ends.lanes[0] % 4, self.part.thread);
            self.solved = Some(ends.lanes[0]);
        }
        let stays = if self.part.top.is_some() { NAMED } else { STAYS };
        self.fill(ends.lanes, stays + ends.to);
        self.levels.clear();
        self.levels.push(Level { symbol: FLOOR, togo: std::array::from_fn(|x| self.exits[x][FLOOR][PLACES]) });
        self.write(Head { passed: 0, control: ends.from, symbol: self.part.thread.first }, ends.lanes, count)
    }

    // Reads the line's counts off the table.
    fn fill(&mut self, lanes: [usize; 2], dest: usize) {
        let (n, controls) = (self.part.n, self.table.controls);
        for (j, p) in (0..=n).flat_map(|j| (0..controls).map(move |p| (j, p))) {
            for (symbol, row) in self.exits[8 * j + p].iter_mut().enumerate() {
                let entry = |k: usize, d| self.table.entry(k - j, p, symbol, d, lanes[k.saturating_sub(1)]);
                for k in j..=n {
                    for q in 0..controls {
                        row[8 * k + q] = entry(k, gone(q));
                    }
                }
                row[PLACES] = entry(n, dest);
            }
        }
    }

    fn write(&mut self, mut head: Head, lanes: [usize; 2], count: u16) -> Vec<[u8; 2]> {
        let rules = &self.part.thread.rules;
        let mut out = Vec::with_capacity(count.into());
        while out.len() < count.into() {
            let left = count - out.len() as u16 - 1;
            let Some(r) = rules.iter().position(|rule| self.suits(head, rule, left)) else {
                // no step is tight, so the turn ends here
                head = Head { passed: head.passed + 1, control: lanes[head.passed] % 4, ..head };
                continue;
            };
            out.push([(2 * head.passed + self.part.other) as u8, r as u8]);
            head = self.moved(head, &rules[r]);
        }
        out
    }

    // Whether a rule applies and leaves so many steps to the end.
    fn suits(&self, head: Head, rule: &Rule, left: u16) -> bool {
        if rule.before != head.control % 4 || rule.symbol != head.symbol {
            return false;
        }
        let x = 8 * head.passed + led_to(rule);
        let level = &self.levels[self.levels.len() - 1];
        let togo = match rule.right {
            Right::Remove => level.togo[x],
            Right::Swap(a) => self.over(level, a, x),
            Right::Push(a, b) => self.over_two(level, a, b, x),
        };
        togo == left
    }

    // The least steps to the end from a place, with a symbol on top of a level: it stays, or it goes and the level is on top.
    fn over(&self, level: &Level, symbol: usize, x: usize) -> u16 {
        let row = &self.exits[x][symbol];
        let ways = row[..PLACES].iter().zip(&level.togo).map(|(gone, togo)| gone + togo);
        ways.fold(row[PLACES], u16::min)
    }

    // The same with two symbols on top of a level. A way is not looked at where its first part alone is as long as another.
    fn over_two(&self, level: &Level, a: usize, b: usize, x: usize) -> u16 {
        let row = &self.exits[x][a];
        let mut best = row[PLACES];
        for (y, &gone) in row[..PLACES].iter().enumerate() {
            if gone < best {
                best = best.min(gone + self.over(level, b, y));
            }
        }
        best
    }

    // The head after a step. A push makes a level for the lower symbol, and a removal takes one away.
    fn moved(&mut self, head: Head, rule: &Rule) -> Head {
        let symbol = match rule.right {
            Right::Remove => self.levels.pop().map_or(FLOOR, |level| level.symbol),
            Right::Swap(a) => a,
            Right::Push(a, b) => {
                self.raise(head.passed, b);
                a
            }
        };
        Head { control: led_to(rule), symbol, ..head }
    }

    // Puts a symbol onto the levels. Turns that have passed are not asked for any more.
    fn raise(&mut self, passed: usize, symbol: usize) {
        let level = &self.levels[self.levels.len() - 1];
        let mut togo = [NONE; PLACES];
        for j in passed..=self.part.n {
            for x in 8 * j..8 * j + self.table.controls {
                togo[x] = self.over(level, symbol, x);
            }
        }
        self.levels.push(Level { symbol, togo });
    }
}
