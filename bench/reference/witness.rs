// The least of the shortest schedules: on each line along which the threads together make the fewest steps, both threads' least runs merged
// by turn, and of these the least.
use super::costs::parts;
use super::run::Runs;
use super::table::joined;
use super::Model;

// A turn and a rule: steps, and lists of steps, are compared in this order.
type Step = [u8; 2];

// Both threads make so many steps along a best line.
pub fn write(m: &Model, steps: u16, a: &[u16], b: &[u16], schedule: &mut [u8]) {
    let [one, other] = parts(m);
    let (mut one, mut other) = (Runs::new(&one), Runs::new(&other));
    let all = best_lines(m, steps, a, b).map(|v| merged(&one.least(v, a[v]), &other.least(v, b[v])));
    if let Some(least) = all.min() {
        schedule[..2 * least.len()].copy_from_slice(least.as_flattened());
    }
}

// The full lines to the target whose costs add up to so many steps, by value.
pub fn best_lines<'a>(m: &Model, steps: u16, a: &'a [u16], b: &'a [u16]) -> impl Iterator<Item = usize> + 'a {
    let to_target = (m.target..m.g.pow(2 * m.k as u32)).step_by(m.g);
    to_target.filter(move |&v| joined(a[v], b[v], u16::MAX) == steps)
}

fn merged(a: &[Step], b: &[Step]) -> Vec<Step> {
    let (mut i, mut j) = (0, 0);
    let mut next = || {
        if j == b.len() || (i < a.len() && a[i][0] <= b[j][0]) {
            i += 1;
            a[i - 1]
        } else {
            j += 1;
            b[j - 1]
        }
    };
    (0..a.len() + b.len()).map(|_| next()).collect()
}
