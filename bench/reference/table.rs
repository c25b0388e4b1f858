// Least step counts of one thread, by the turn ends inside a stretch: none, one (16 lanes), or two of which the first is fixed.
use super::{Right, Rule, Thread};

pub const LONG: u16 = 4096;
pub const NONE: u16 = 4097;
pub const FLOOR: usize = 16;

// The first destination of staying under any top, and under the named one, and where those of staying end.
pub const STAYS: usize = 4;
pub const NAMED: usize = 8;
pub const STAYS_END: usize = 12;

// The cells of a control within one turn.
const CONTROL: usize = 17 * 16;
// A cell that is 0, for edges that have one part.
const REST: usize = 4;

// Its controls are the states, and from 4 on the states after a held step, which only a thread with held rules has. Of the 16
// destinations the first `dests` are in use, and those of staying end at `stays`: at 8, or at 12 where a top is named. The parts with
// one and with two turn ends inside start at `first` and at `second`, and the last one ends at `end`.
pub struct Table {
    cells: Vec<u16>,
    pub controls: usize,
    stays: usize,
    dests: usize,
    first: usize,
    second: usize,
    end: usize,
}

// The cell from a control with a symbol on top to a destination: 0 to 3 gone at a state, 4 to 7 still there, 8 to 11 still there
// under the named top, 12 to 15 gone at a state after a held step.
fn place(p: usize, s: usize, d: usize) -> usize {
    (p * 17 + s) * 16 + d
}

fn lane_place(base: usize, p: usize, s: usize, d: usize) -> usize {
    base + place(p, s, d) * 16
}

// The destination of being gone at a control.
pub fn gone(p: usize) -> usize {
    if p < 4 {
        p
    } else {
        p + 8
    }
}

// The control that a rule leads to.
pub fn led_to(rule: &Rule) -> usize {
    rule.after + 4 * usize::from(rule.held)
}

// The lesser of a count and of two stretches one after the other.
pub fn joined(x: u16, y: u16, old: u16) -> u16 {
    if x > LONG || y > LONG {
        return old;
    }
    old.min((x + y).min(LONG))
}

// Each cell falls to what the other row offers it, w more than is there. Whether a cell has fallen. Without a branch, so that the
// compiler does eight cells at once.
fn offer(to: &mut [u16], from: &[u16], w: u16) -> bool {
    let mut changes = 0;
    for (old, &y) in to.iter_mut().zip(from) {
        let new = (*old).min(y.max((w + y).min(LONG)));
        changes += u16::from(new < *old);
        *old = new;
    }
    changes != 0
}

impl Table {
    pub fn new() -> Table {
        Table { cells: Vec::new(), controls: 0, stays: 0, dests: 0, first: 0, second: 0, end: 0 }
    }

    // The controls at which a turn may end and a symbol may stay: not those after a held step.
    fn free(&self) -> usize {
        self.controls.min(4)
    }

    // The controls that a rule acts from: those that have its before state.
    fn before(&self, rule: &Rule) -> impl Iterator<Item = usize> {
        (rule.before..self.controls).step_by(4)
    }

    // The entry of a stretch with `gap` turn ends inside, the last of them in this lane.
    pub fn entry(&self, gap: usize, p: usize, s: usize, d: usize, lane: usize) -> u16 {
        match gap {
            0 => self.cells[place(p, s, d)],
            1 => self.cells[lane_place(self.first, p, s, d) + lane],
            _ => self.cells[lane_place(self.second, p, s, d) + lane],
        }
    }

    // Stretches within one turn. The parts that are closed after it are for the same top and thread.
    pub fn close_plain(&mut self, g: usize, top: Option<usize>, th: &Thread) {
        self.controls = if th.rules.iter().any(|rule| rule.held) { 4 + g } else { g };
        self.stays = if top.is_some() { STAYS_END } else { NAMED };
        self.dests = if self.controls > 4 { 16 } else { self.stays };
        self.first = CONTROL * self.controls;
        self.second = 17 * self.first;
        self.end = 33 * self.first;
        if self.cells.len() < self.end {
            self.cells.resize(self.end, NONE);
        }
        self.cells[..self.first].fill(NONE);
        for p in 0..self.free() {
            for s in 0..17 {
                self.cells[place(p, s, STAYS + p)] = 0;
            }
            if let Some(s) = top {
                self.cells[place(p, s, NAMED + p)] = 0;
            }
        }
        while self.plain_pass(th) {}
    }

    // Stretches with one turn end inside.
    pub fn close_first(&mut self, th: &Thread) {
        self.cells[self.first..self.second].fill(NONE);
        for o in 0..self.free() {
            for i in 0..self.free() {
                for s in 0..17 {
                    for d in 0..self.dests {
                        self.cells[lane_place(self.first, o, s, d) + o * 4 + i] = self.cells[place(i, s, d)];
                    }
                }
            }
        }
        while self.lane_pass(self.first, th) {}
    }

    // Stretches with two turn ends inside of which the first is (o, i).
    pub fn close_second(&mut self, o: usize, i: usize, th: &Thread) {
        self.cells[self.second..self.end].fill(NONE);
        for s in 0..17 {
            let from = lane_place(self.first, i, s, 0);
            self.cells.copy_within(from..from + 16 * self.dests, lane_place(self.second, o, s, 0));
        }
        self.cross_pass(o * 4 + i, th);
        while self.lane_pass(self.second, th) {}
    }

    // For each x below n: cell k + x is at most one more than cells a and b + x together. Whether a cell has fallen.
    fn row(&mut self, k: usize, a: usize, b: usize, n: usize) -> bool {
        let x = self.cells[a];
        if x > LONG {
            return false;
        }
        // a row over itself changes nothing
        let Ok([to, from]) = self.cells.get_disjoint_mut([k..k + n, b..b + n]) else {
            return false;
        };
        offer(to, from, x + 1)
    }

    fn plain_pass(&mut self, th: &Thread) -> bool {
        let mut changed = false;
        for r in &th.rules {
            for p in self.before(r) {
                changed |= self.plain_rule(p, led_to(r), r);
            }
        }
        changed
    }

    // The edges of a rule from control p to control h.
    fn plain_rule(&mut self, p: usize, h: usize, r: &Rule) -> bool {
        let to = place(p, r.symbol, 0);
        match r.right {
            Right::Remove => self.row(to + gone(h), REST, REST, 1),
            Right::Swap(a) => self.row(to, REST, place(h, a, 0), self.dests),
            Right::Push(a, b) => {
                let mut changed = false;
                for q in 0..self.controls {
                    changed |= self.row(to, place(h, a, gone(q)), place(q, b, 0), self.dests);
                }
                changed | self.row(to + STAYS, REST, place(h, a, STAYS), self.stays - STAYS)
            }
        }
    }

    fn lane_pass(&mut self, base: usize, th: &Thread) -> bool {
        let mut changed = false;
        for r in &th.rules {
            for p in self.before(r) {
                changed |= self.lane_rule(base, p, led_to(r), r);
            }
        }
        changed
    }

    // The same with the turn end inside what comes of the second symbol of a pair, or of the first.
    fn lane_rule(&mut self, base: usize, p: usize, h: usize, r: &Rule) -> bool {
        let dests = self.dests;
        let to = lane_place(base, p, r.symbol, 0);
        match r.right {
            Right::Remove => false,
            Right::Swap(a) => self.row(to, REST, lane_place(base, h, a, 0), 16 * dests),
            Right::Push(a, b) => {
                let mut changed = false;
                for q in 0..self.controls {
                    changed |= self.row(to, place(h, a, gone(q)), lane_place(base, q, b, 0), 16 * dests);
                    let from = lane_place(base, h, a, gone(q));
                    for d in 0..dests {
                        changed |= self.row(to + 16 * d, place(q, b, d), from, 16);
                    }
                }
                let stays = 16 * (self.stays - STAYS);
                changed | self.row(to + 16 * STAYS, REST, lane_place(base, h, a, STAYS), stays)
            }
        }
    }

    // One turn end inside what comes of each symbol of a pair, the first one's in lane l.
    fn cross_pass(&mut self, l: usize, th: &Thread) {
        for r in &th.rules {
            let Right::Push(a, b) = r.right else { continue };
            for p in self.before(r) {
                let to = lane_place(self.second, p, r.symbol, 0);
                for q in 0..self.controls {
                    let one = lane_place(self.first, led_to(r), a, gone(q)) + l;
                    self.row(to, one, lane_place(self.first, q, b, 0), 16 * self.dests);
                }
            }
        }
    }
}
