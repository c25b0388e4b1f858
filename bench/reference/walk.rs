// The walk of a schedule from the start, and that of a log.
use super::{Model, Right};

// Where a walk is: the turn of its last step and whether that step was held, and the shared state. The stacks are apart from it,
// bottom first.
pub struct Walk {
    turn: usize,
    held: bool,
    pub shared: usize,
}

pub type Stacks = [Vec<usize>; 2];

// Where a walk ends: the last shared state, whether the run ends at the target, and the most symbols that each stack has held.
pub struct Last {
    pub shared: usize,
    pub target: bool,
    pub depths: [usize; 2],
}

// Its end, or the number of the first fault.
pub fn walk(m: &Model, schedule: &[u8]) -> Result<Last, u64> {
    if schedule.len() % 2 != 0 || schedule.len() > 8190 {
        return Err(8);
    }
    let (mut walk, mut stacks) = Walk::start(m);
    let mut depths = [1, 1];
    for step in schedule.chunks_exact(2) {
        walk.step(m, step, &mut stacks)?;
        let thread = walk.turn % 2;
        depths[thread] = stacks[thread].len().max(depths[thread]);
    }
    if walk.held {
        return Err(12);
    }
    let [a, b] = &stacks;
    let target = walk.shared == m.target && has_top(m.a.top, a) && has_top(m.b.top, b);
    Ok(Last { shared: walk.shared, target, depths })
}

// The last shared state and the fewest rounds of a log, each step of which is made in the earliest turn of its thread.
pub fn follow(m: &Model, log: &[u8]) -> Result<(usize, usize), u64> {
    if log.len() > 4095 {
        return Err(18);
    }
    let (mut walk, mut stacks) = Walk::start(m);
    for byte in log.iter().map(|byte| usize::from(*byte)) {
        if byte & 0x40 != 0 {
            return Err(18);
        }
        let turn = walk.turn + (walk.turn + byte / 128) % 2;
        walk.make(m, turn, byte % 64, &mut stacks)?;
    }
    if walk.held {
        return Err(12);
    }
    Ok((walk.shared, if log.is_empty() { 0 } else { walk.turn / 2 + 1 }))
}

// Whether a stack has the top that is asked for. An empty one has none.
fn has_top(top: Option<usize>, stack: &[usize]) -> bool {
    top.is_none() || stack.last() == top.as_ref()
}

impl Walk {
    pub fn start(m: &Model) -> (Walk, Stacks) {
        (Walk { turn: 0, held: false, shared: m.start }, [vec![m.a.first], vec![m.b.first]])
    }

    // Inline in the loops that call it, so that replay takes no longer than if it were alone, and so is what it calls.
    #[inline(always)]
    pub fn step(&mut self, m: &Model, step: &[u8], stacks: &mut Stacks) -> Result<(), u64> {
        let turn = step[0] as usize;
        if turn < self.turn || 2 * m.k <= turn {
            return Err(9);
        }
        self.make(m, turn, step[1] as usize, stacks)
    }

    // A step in its turn, whatever the turn's number.
    #[inline(always)]
    fn make(&mut self, m: &Model, turn: usize, rule: usize, stacks: &mut Stacks) -> Result<(), u64> {
        if self.held && self.turn != turn {
            return Err(12);
        }
        self.turn = turn;
        let thread = if turn % 2 == 0 { &m.a } else { &m.b };
        let rule = thread.rules.get(rule).ok_or(10u64)?;
        let stack = &mut stacks[turn % 2];
        if rule.before != self.shared || stack.last() != Some(&rule.symbol) {
            return Err(10);
        }
        stack.pop();
        match rule.right {
            Right::Remove => {}
            Right::Swap(a) => stack.push(a),
            Right::Push(a, b) => stack.extend([b, a]),
        }
        self.shared = rule.after;
        self.held = rule.held;
        Ok(())
    }
}
