// The page of a schedule: a line for each step, and a foot line.
use super::walk::{walk, Stacks, Walk};
use super::Model;

// The bytes of a line: 72 characters and the line's end.
const LINE: usize = 73;
// How many symbols of a stack are shown.
const SHOWN: usize = 28;

const BLANK: [u8; LINE] = {
    let mut line = [b' '; LINE];
    line[LINE - 1] = b'\n';
    line
};

// The page goes to the front of the store, and its length is answered, or the number of the first fault.
pub fn page(m: &Model, schedule: &[u8], store: &mut [u8]) -> Result<usize, u64> {
    walk(m, schedule)?;
    let steps = schedule.len() / 2;
    let size = LINE * (steps + 1);
    let (lines, foot) = store.get_mut(..size).ok_or(7u64)?.split_at_mut(size - LINE);
    let (mut walk, mut stacks) = Walk::start(m);
    for (i, (line, step)) in lines.chunks_exact_mut(LINE).zip(schedule.chunks_exact(2)).enumerate() {
        walk.step(m, step, &mut stacks)?;
        put_step(line, i + 1, step, walk.shared, &stacks);
    }
    put_foot(foot, steps, turns(schedule));
    Ok(size)
}

// How many turns have a step. A replayed schedule has no turn above 5.
fn turns(schedule: &[u8]) -> usize {
    let made = schedule.iter().step_by(2).fold(0, |made, turn| made | 1u8 << turn);
    made.count_ones() as usize
}

// The line of step n, with the shared state and both stacks after it.
fn put_step(line: &mut [u8], n: usize, step: &[u8], shared: usize, [a, b]: &Stacks) {
    line.copy_from_slice(&BLANK);
    put_number(&mut line[..4], n);
    line[5] = b'0' + step[0];
    line[7] = if step[0] % 2 == 0 { b'A' } else { b'B' };
    put_number(&mut line[9..11], step[1] as usize);
    line[12] = b'0' + shared as u8;
    put_stack(&mut line[14..14 + SHOWN], a);
    put_stack(&mut line[43..43 + SHOWN], b);
    if a.len() > SHOWN || b.len() > SHOWN {
        line[71] = b'+';
    }
}

fn put_foot(line: &mut [u8], steps: usize, turns: usize) {
    line.copy_from_slice(&BLANK);
    put_number(&mut line[..4], steps);
    put_number(&mut line[5..6], turns);
    if steps > 0 {
        put_number(&mut line[7..11], steps / turns);
        put_number(&mut line[12..13], steps % turns);
    }
}

// A number in base ten, right-aligned in blank columns that have room for it.
fn put_number(columns: &mut [u8], mut n: usize) {
    for column in columns.iter_mut().rev() {
        *column = b'0' + (n % 10) as u8;
        n /= 10;
        if n == 0 {
            return;
        }
    }
}

// A digit for each of the topmost symbols, as many as there are columns.
fn put_stack(columns: &mut [u8], stack: &[usize]) {
    for (column, symbol) in columns.iter_mut().zip(stack.iter().rev()) {
        *column = b"0123456789abcdef"[symbol % 16];
    }
}
