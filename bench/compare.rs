// Before anything is timed: both sides must say the same of a model and write the same schedule, which must reach the target on both, not
// before its last step and as deep as the verdict says, and give the same page, and its log the same state in no more rounds; both must
// print the same rules of its sequential system; and both must make the same one of two models.
use crate::{numbers, proved, reference};

pub fn agree(record: &[u8]) -> Result<(), String> {
    let read = (proved::read(record), reference::read(record));
    if read != (numbers::DONE, numbers::DONE) {
        return Err(format!("read says {} and {}", read.0, read.1));
    }
    let mut stores = [[0; 683]; 4];
    let mut schedules = [[0xAA; 8190]; 2];
    let [a, b, c, d] = &mut stores;
    let [x, y] = &mut schedules;
    let verdicts = (proved::judge(record, a, x), reference::judge(record, b, y));
    let verdict = verdicts.0;
    if verdict != verdicts.1 || numbers::kind(verdict) < numbers::CLEAR {
        return Err(format!("judge says {} and {}", verdict, verdicts.1));
    }
    // the whole stores: there is one least schedule, and no byte behind it is written
    if schedules[0] != schedules[1] {
        return Err("the schedules differ".to_string());
    }
    let lines = (proved::lines(record, c), reference::lines(record, d));
    if lines != (numbers::DONE, numbers::DONE) || stores.iter().any(|store| *store != stores[0]) {
        return Err("the line tables differ".to_string());
    }
    if numbers::kind(verdict) == numbers::FOUND {
        same_schedule(record, &schedules[0][..2 * numbers::steps(verdict)], verdict)?;
    }
    same_text(record)?;
    same_page(record, &[])
}

// The schedule that both sides wrote, and the Found that they answered.
fn same_schedule(record: &[u8], steps: &[u8], found: u64) -> Result<(), String> {
    let last = same_replay(record, steps, &[numbers::REACHED])?;
    if numbers::depths(last) != numbers::depths(found) {
        return Err(format!("judge says {found}, and replay of its schedule {last}"));
    }
    same_log(record, steps, last)?;
    // without its last step it stops elsewhere, or no turn may end there
    if let Some(short) = steps.len().checked_sub(2) {
        same_replay(record, &steps[..short], &[numbers::STOPPED, numbers::HELD])?;
    }
    same_page(record, steps)
}

// What both sides say of a schedule's log: the state that replay gave, and no more rounds than the schedule has.
fn same_log(record: &[u8], schedule: &[u8], last: u64) -> Result<(), String> {
    let log = numbers::log(schedule);
    let followed = (proved::follow(record, &log), reference::follow(record, &log));
    let rounds = schedule.chunks_exact(2).last().map_or(0, |step| u64::from(step[0]) / 2 + 1);
    let most = numbers::packed(numbers::FOLLOWED, last >> 16 & 0xFFFF | rounds << 16);
    if followed.0 != followed.1 || followed.0 & 0xFFFF_FFFF != most & 0xFFFF_FFFF || followed.0 > most {
        return Err(format!("follow says {} and {}", followed.0, followed.1));
    }
    Ok(())
}

// What both sides say of a schedule, depths included. It is of one of these kinds.
fn same_replay(record: &[u8], schedule: &[u8], kinds: &[u64]) -> Result<u64, String> {
    let last = (proved::replay(record, schedule), reference::replay(record, schedule));
    if last.0 != last.1 || !kinds.contains(&numbers::kind(last.0)) {
        return Err(format!("replay says {} and {}", last.0, last.1));
    }
    Ok(last.0)
}

// Two models made one, in a store with room and, where they make one, in a store without. It is a model like the others, and its verdict
// is no later than theirs.
pub fn agree_merged(first: &[u8], second: &[u8]) -> Result<(), String> {
    let Some(whole) = same_merger(first, second, numbers::RECORD)? else { return Ok(()) };
    agree(&whole)?;
    if same_merger(first, second, whole.len() - 1)?.is_some() {
        return Err("merge takes a short store".to_string());
    }
    let [a, b, both] = [first, second, &whole].map(|record| rank(proved::judge(record, &mut [0; 683], &mut [0; 8190])));
    if a.min(b) < both {
        return Err("the verdict is later than that of a part".to_string());
    }
    Ok(())
}

// Found by its steps, then Long, then Clear.
fn rank(verdict: u64) -> usize {
    match numbers::kind(verdict) {
        numbers::FOUND => numbers::steps(verdict),
        numbers::LONG => 4096,
        _ => 4097,
    }
}

// The record of both, where there is one. The whole stores are compared.
fn same_merger(first: &[u8], second: &[u8], size: usize) -> Result<Option<Vec<u8>>, String> {
    let (mut store, mut other) = (vec![0xAA; size], vec![0xAA; size]);
    let merged = (proved::merge(first, second, &mut store), reference::merge(first, second, &mut other));
    if merged.0 != merged.1 || store != other {
        return Err(format!("merge says {} and {}, or the records differ", merged.0, merged.1));
    }
    Ok(numbers::written(merged.0).map(|length| store[..length].to_vec()))
}

// The whole stores are compared, so neither side may write beyond its page.
fn same_page(record: &[u8], schedule: &[u8]) -> Result<(), String> {
    let (mut store, mut other) = (vec![0; numbers::PAGE], vec![0; numbers::PAGE]);
    let paged = (proved::page(record, schedule, &mut store), reference::page(record, schedule, &mut other));
    if paged.0 != paged.1 || numbers::kind(paged.0) != numbers::PAGED {
        return Err(format!("page says {} and {}", paged.0, paged.1));
    }
    if store != other {
        return Err("the pages differ".to_string());
    }
    Ok(())
}

// The rules of the sequential system, in a store with room and in one that is short of a byte; a model with tops or held rules has none.
// The whole stores are compared.
fn same_text(record: &[u8]) -> Result<(), String> {
    let printed = same_print(record, numbers::TEXT)?;
    match numbers::printed(printed) {
        Some(size) if same_print(record, size - 1)? == numbers::SHORT => Ok(()),
        None if printed == numbers::HELD_OR_TOP => Ok(()),
        _ => Err(format!("sequentialize says {printed}, or takes a short store")),
    }
}

fn same_print(record: &[u8], size: usize) -> Result<u64, String> {
    let (mut store, mut other) = (vec![0; size], vec![0; size]);
    let printed = (proved::sequentialize(record, &mut store), reference::sequentialize(record, &mut other));
    if printed.0 != printed.1 || store != other {
        return Err(format!("sequentialize says {} and {}, or the texts differ", printed.0, printed.1));
    }
    Ok(printed.0)
}
