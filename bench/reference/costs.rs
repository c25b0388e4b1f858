// The least steps of each thread along each full line.
use super::table::{gone, joined, Table, FLOOR, NAMED, STAYS};
use super::{Model, Thread};

// One thread of a model and its part in a line: A moves in even turns, B in odd ones. `top` is the one its table is for.
pub struct Part<'a> {
    pub thread: &'a Thread,
    pub top: Option<usize>,
    pub g: usize,
    pub n: usize,
    pub other: usize,
    pub start: usize,
}

pub struct Ends {
    pub from: usize,
    pub to: usize,
    pub lanes: [usize; 2],
}

// The costs to any top, for the line table, and to the named one, where there is one, for the verdict.
pub struct Costs {
    pub any: Vec<u16>,
    named: Option<Vec<u16>>,
}

impl Costs {
    // Those that the verdict is about.
    pub fn asked(&self) -> &[u16] {
        self.named.as_ref().unwrap_or(&self.any)
    }
}

// Both threads' costs to any top alone, which is all that the line table needs.
pub fn lines(m: &Model) -> [Costs; 2] {
    let mut table = Table::new();
    parts(m).map(|part| Part { top: None, ..part }.costs(&mut table))
}

// Both threads' costs, to the tops that the model names too.
pub fn both(m: &Model) -> [Costs; 2] {
    let mut table = Table::new();
    parts(m).map(|part| part.costs(&mut table))
}

pub fn parts(m: &Model) -> [Part<'_>; 2] {
    [(&m.a, 0), (&m.b, 1)].map(|(thread, other)| Part {
        thread,
        top: thread.top,
        g: m.g,
        n: m.k - 1,
        other,
        start: m.start,
    })
}

impl Part<'_> {
    // The states of the line of this value, and 0 beyond its end.
    fn states(&self, mut v: usize) -> [usize; 7] {
        let mut states = [0; 7];
        for j in (0..2 * self.n + 2).rev() {
            states[j] = v % self.g;
            v /= self.g;
        }
        states
    }

    // Where the thread starts and ends along a line, and the lanes of its turn ends.
    pub fn ends(&self, v: usize) -> Ends {
        let s = self.states(v);
        let lane = |j: usize| s[2 * j + self.other] * 4 + s[2 * j + self.other + 1];
        Ends {
            from: if self.other == 1 { s[0] } else { self.start },
            to: s[2 * self.n + self.other],
            lanes: [lane(0), lane(1)],
        }
    }

    fn costs(&self, t: &mut Table) -> Costs {
        let g = self.g;
        let count = g.pow(2 * self.n as u32 + 2);
        t.close_plain(g, self.top, self.thread);
        if self.n >= 1 {
            t.close_first(self.thread);
        }
        if self.n < 2 {
            let all = |stays| (0..count).map(|v| self.line_cost(t, stays, v)).collect();
            return Costs { any: all(STAYS), named: self.top.map(|_| all(NAMED)) };
        }
        let mut costs = Costs { any: vec![0; count], named: self.top.map(|_| vec![0; count]) };
        for o in 0..g {
            for i in 0..g {
                t.close_second(o, i, self.thread);
                self.slice(t, STAYS, o, i, &mut costs.any);
                if let Some(named) = &mut costs.named {
                    self.slice(t, NAMED, o, i, named);
                }
            }
        }
        costs
    }

    // The lines whose first turn end is (o, i): `heads` states stand before it, `tails` ways to go on after it.
    fn slice(&self, t: &Table, stays: usize, o: usize, i: usize, costs: &mut [u16]) {
        let g = self.g;
        let heads = g.pow(self.other as u32);
        let tails = costs.len() / heads / (g * g);
        for head in 0..heads {
            let first = ((head * g + o) * g + i) * tails;
            for (rest, cost) in costs[first..first + tails].iter_mut().enumerate() {
                *cost = self.line_cost(t, stays, first + rest);
            }
        }
    }

    // The first symbol still stands at the end, or it has gone after j turn ends and the floor stands until the end; to a top whose
    // destinations start at `stays`.
    fn line_cost(&self, t: &Table, stays: usize, v: usize) -> u16 {
        let Ends { from, to, lanes } = self.ends(v);
        let lane_to = |j| if j == 1 { lanes[0] } else { lanes[1] };
        let symbol = self.thread.first;
        let mut best = t.entry(self.n, from, symbol, stays + to, lane_to(self.n));
        for j in 0..=self.n {
            for p in 0..t.controls {
                let first = t.entry(j, from, symbol, gone(p), lane_to(j));
                let rest = t.entry(self.n - j, p, FLOOR, stays + to, lane_to(self.n));
                best = joined(first, rest, best);
            }
        }
        best
    }
}
