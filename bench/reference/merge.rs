// Two models made one: the head of both, and in each thread the rules of either.
use super::record::{key, read};
use super::writer::write;
use super::{Model, Rule, Thread};

// The record of both goes to the front of the store, and its length is answered, or the number of the first fault.
pub fn merge(first: &[u8], second: &[u8], store: &mut [u8]) -> Result<usize, u64> {
    let whole = write(&joined(read(first)?, &read(second)?)?);
    store.get_mut(..whole.len()).ok_or(7u64)?.copy_from_slice(&whole);
    Ok(whole.len())
}

fn joined(mut m: Model, n: &Model) -> Result<Model, u64> {
    if head(&m) != head(n) {
        return Err(14);
    }
    let pairs = [(&mut m.a, &n.a), (&mut m.b, &n.b)];
    let mut clash = false;
    let mut longest = 0;
    for (t, u) in pairs {
        t.rules.extend(&u.rules);
        t.rules.sort_by_key(key);
        clash |= t.rules.windows(2).any(differ);
        t.rules.dedup_by_key(|rule| key(rule));
        longest = longest.max(t.rules.len());
    }
    match (clash, longest) {
        (true, _) => Err(15),
        (_, 65..) => Err(16),
        _ => Ok(m),
    }
}

fn head(m: &Model) -> ([usize; 4], [[Option<usize>; 3]; 2]) {
    let fields = |t: &Thread| [Some(t.symbols), Some(t.first), t.top];
    ([m.g, m.k, m.start, m.target], [fields(&m.a), fields(&m.b)])
}

// Two rules are the same, and one of them is held.
fn differ(pair: &[Rule]) -> bool {
    key(&pair[0]) == key(&pair[1]) && pair[0].held != pair[1].held
}
