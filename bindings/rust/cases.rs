//! Makes each call of a file of cases on a thread of its own, and compares the answer and every byte of every store.
//! Arguments: the file, and the size of the threads' stacks in KB. cases.txt says how a case is written.
#[allow(dead_code)]
mod turncheck;

use turncheck::{Depths, First, Followed, Last, Outcome, Refusal, Verdict, VerdictKind};

const FILLER: u8 = 0xAA;

/// A place of a list that is lent: no record comes to this.
const UNFILLED: Outcome = Outcome { verdict: VerdictKind::Found, steps: usize::MAX, written: false, place: usize::MAX };

/// Makes a call on a thread with a stack of so many bytes.
fn on_thread<T: Send>(stack: usize, call: impl FnOnce() -> T + Send) -> T {
    std::thread::scope(|scope| {
        let thread = std::thread::Builder::new().stack_size(stack);
        thread.spawn_scoped(scope, call).expect("no thread").join().expect("the call does not end")
    })
}

/// Bytes from their text: parts with a comma between them, each `-` for none, `@` and a name for those of a file, or base 16, with `*` and
/// how often they stand there.
fn parse(text: &str) -> Vec<u8> {
    text.split(',').flat_map(part).collect()
}

fn part(text: &str) -> Vec<u8> {
    if let Some(path) = text.strip_prefix('@') {
        return std::fs::read(path).expect("no such file");
    }
    let (once, times) = text.split_once('*').unwrap_or((text.trim_matches('-'), "1"));
    let byte = |i: usize| u8::from_str_radix(&once[i..i + 2], 16).expect("not base 16");
    let bytes: Vec<u8> = (0..once.len()).step_by(2).map(byte).collect();
    bytes.repeat(number(times))
}

fn number(text: &str) -> usize {
    text.parse().expect("not a number")
}

/// A store of so many bytes, all the filler.
fn lent(size: &str) -> Vec<u8> {
    vec![FILLER; number(size)]
}

/// A store begins with what is expected, and all other bytes are as they were.
fn holds(store: &[u8], expected: &[u8]) -> bool {
    store.starts_with(expected) && store[expected.len()..].iter().all(|&b| b == FILLER)
}

/// The same by a size and a sum: so many bytes have this FNV-1a sum of 64 bits.
fn sums(store: &[u8], text: &str) -> bool {
    let (size, sum) = text.split_once(':').expect("no sum");
    let Some(front) = store.get(..number(size)) else { return false };
    let add = |sum: u64, &byte: &u8| (sum ^ u64::from(byte)).wrapping_mul(0x100000001B3);
    let found = front.iter().fold(0xCBF29CE484222325, add);
    u64::from_str_radix(sum, 16) == Ok(found) && holds(store, front)
}

/// An answer in words.
fn told<T>(answer: Result<T, Refusal>, words: impl FnOnce(T) -> String) -> String {
    match answer {
        Ok(value) => words(value),
        Err(refusal) => format!("refused:{}", refusal as u8),
    }
}

fn verdict(v: Verdict) -> String {
    match v {
        Verdict::Clear => "clear".into(),
        Verdict::Long => "long".into(),
        Verdict::Found(n, d) => format!("found:{n}:{}:{}", d.a, d.b),
    }
}

fn last(l: Last) -> String {
    format!("{}:{}:{}:{}", if l.target { "target" } else { "state" }, l.state, l.depths.a, l.depths.b)
}

/// What is expected of a store, by a word: `?` for anything, `=` for the record, `~` for a size and a sum, other words for their bytes, no
/// word for no bytes.
fn expects(word: Option<&&str>, record: &[u8], store: &[u8]) -> bool {
    match word {
        Some(&"?") => true,
        Some(&"=") => holds(store, record),
        Some(text) => text.strip_prefix('~').map_or_else(|| holds(store, &parse(text)), |sum| sums(store, sum)),
        None => holds(store, &[]),
    }
}

/// A judgement. The table of a verdict is the one that `lines` fills, and replay finds that its schedule reaches the target, with the same
/// depths.
fn judged(record: &[u8], word: &[&str], stack: usize) -> bool {
    let (mut table, mut found, mut again) = (lent(word[0]), lent(word[1]), lent(word[0]));
    let answer = on_thread(stack, || turncheck::judge(record, &mut table, &mut found));
    let stored = expects(word.get(3), record, &table) && expects(word.get(4), record, &found);
    if told(answer, verdict) != word[2] || !stored {
        return false;
    }
    let Ok(v) = answer else { return true };
    let (steps, depths) = if let Verdict::Found(n, d) = v { (n, Some(d)) } else { (0, None) };
    let schedule = &found[..2 * steps];
    let replayed = || on_thread(stack, || turncheck::replay(record, schedule));
    let reaches = |d: Depths| replayed().is_ok_and(|l| l.target && l.depths == d);
    on_thread(stack, || turncheck::lines(record, &mut again)).is_ok()
        && again == table
        && holds(&found, schedule)
        && depths.is_none_or(reaches)
}

/// The first record of a tray. What is taken is a record by itself, and the rest is what stands behind it.
fn taken(tray: &[u8], wanted: &str, stack: usize) -> bool {
    let answer = on_thread(stack, || turncheck::first(tray));
    let words = |first: Option<First>| first.map_or("none".into(), |f| format!("taken:{}", f.record.len()));
    let stands = match answer {
        Ok(Some(f)) => on_thread(stack, || turncheck::read(f.record)).is_ok() && [f.record, f.rest].concat() == tray,
        _ => true,
    };
    told(answer, words) == wanted && stands
}

/// The bytes of an outcome in a list; the filler where none was filled in.
fn listed(outcome: &Outcome) -> [u8; 6] {
    let bytes = |n: usize| u16::to_le_bytes(n.try_into().expect("above 65,535"));
    if *outcome == UNFILLED {
        return [FILLER; 6];
    }
    let ([a, b], [c, d]) = (bytes(outcome.steps), bytes(outcome.place));
    [outcome.verdict as u8, a, b, outcome.written.into(), c, d]
}

/// One outcome of a tray: the verdict and steps of its record alone, and where a schedule was written, the same one, which replay finds to
/// reach the target.
fn is_alone(record: &[u8], outcome: Outcome, store: &[u8], stack: usize) -> bool {
    let (mut lines, mut schedule) = ([0; turncheck::LINES_BYTES], [0; turncheck::SCHEDULE_BYTES]);
    let answer = on_thread(stack, || turncheck::judge(record, &mut lines, &mut schedule));
    let reaches = |written: &[u8]| on_thread(stack, || turncheck::replay(record, written)).is_ok_and(|l| l.target);
    match (answer, outcome.verdict) {
        (Ok(Verdict::Clear), VerdictKind::Clear) | (Ok(Verdict::Long), VerdictKind::Long) => {
            outcome.steps == 0 && !outcome.written
        }
        (Ok(Verdict::Found(n, _)), VerdictKind::Found) if outcome.written => {
            let written = &store[2 * outcome.place..2 * (outcome.place + n)];
            n == outcome.steps && *written == schedule[..2 * n] && reaches(written)
        }
        (Ok(Verdict::Found(n, _)), VerdictKind::Found) => n == outcome.steps,
        _ => false,
    }
}

/// All outcomes of a tray, one after another: the records take the whole of it.
fn apart(mut tray: &[u8], outcomes: &[Outcome], store: &[u8], stack: usize) -> bool {
    for &outcome in outcomes {
        match on_thread(stack, || turncheck::first(tray)) {
            Ok(Some(f)) if is_alone(f.record, outcome, store, stack) => tray = f.rest,
            _ => return false,
        }
    }
    tray.is_empty()
}

/// A tray judged together, and each record of it alone. A list of so many bytes has a sixth as many places.
fn batched(tray: &[u8], word: &[&str], stack: usize) -> bool {
    let (mut list, mut store) = (vec![UNFILLED; number(word[0]) / 6], lent(word[1]));
    let answer = on_thread(stack, || turncheck::batch(tray, &mut list, &mut store));
    let bytes: Vec<u8> = list.iter().flat_map(listed).collect();
    let stored = expects(word.get(3), tray, &bytes) && expects(word.get(4), tray, &store);
    if told(answer, |n| format!("judged:{n}")) != word[2] || !stored {
        return false;
    }
    answer.map_or(true, |n| apart(tray, &list[..n], &store, stack))
}

/// A log with each step in the earliest turn that it can have. Turns above 255 are written as 255: one before them is refused.
fn placed(log: &[u8]) -> Vec<u8> {
    let mut turn = 0;
    let step = |&byte: &u8| {
        turn += (turn + usize::from(byte >> 7)) % 2;
        [turn.min(255) as u8, byte & 0x3F]
    };
    log.iter().flat_map(step).collect()
}

/// What a log comes to. Replay accepts the log so placed, with the same last state, exactly if the rounds are at most K, which stands
/// behind the map and G. Otherwise a turn is above 2K-1.
fn followed(record: &[u8], word: &[&str], stack: usize) -> bool {
    let log = parse(word[0]);
    let answer = on_thread(stack, || turncheck::follow(record, &log));
    if told(answer, |f: Followed| format!("rounds:{}:{}", f.state, f.rounds)) != word[1] {
        return false;
    }
    let Ok(f) = answer else { return true };
    let k = if record[0] & 2 != 0 { record[1 + usize::from(record[0] & 1)] } else { 2 };
    match on_thread(stack, || turncheck::replay(record, &placed(&log))) {
        Ok(last) => f.rounds <= k.into() && last.state == f.state,
        Err(refusal) => f.rounds > k.into() && refusal == Refusal::StepTurn,
    }
}

/// A call that is lent one store beside the record.
fn filled<T: Send>(
    record: &[u8],
    word: &[&str],
    stack: usize,
    call: fn(&[u8], &mut [u8]) -> Result<T, Refusal>,
    words: fn(T) -> String,
) -> bool {
    let mut store = lent(word[0]);
    let answer = on_thread(stack, || call(record, &mut store));
    told(answer, words) == word[1] && expects(word.get(2), record, &store)
}

/// One case, by its words: the call, what is lent beside the record, the answer, what the stores then hold.
fn agrees(record: &[u8], word: &[&str], stack: usize) -> bool {
    match word[0] {
        "read" => told(on_thread(stack, || turncheck::read(record)), |()| "accepted".into()) == word[1],
        "first" => taken(record, word[1], stack),
        "replay" => {
            let schedule = parse(word[1]);
            told(on_thread(stack, || turncheck::replay(record, &schedule)), last) == word[2]
        }
        "write" => filled(record, &word[1..], stack, turncheck::write, |n| format!("length:{n}")),
        "lines" => filled(record, &word[1..], stack, turncheck::lines, |()| "done".into()),
        "sequentialize" => filled(record, &word[1..], stack, turncheck::sequentialize, |n| format!("printed:{n}")),
        "merge" => {
            let (second, mut store) = (parse(word[1]), lent(word[2]));
            let answer = on_thread(stack, || turncheck::merge(record, &second, &mut store));
            told(answer, |n| format!("length:{n}")) == word[3] && expects(word.get(4), record, &store)
        }
        "page" => {
            let (schedule, mut store) = (parse(word[1]), lent(word[2]));
            let answer = on_thread(stack, || turncheck::page(record, &schedule, &mut store));
            told(answer, |n| format!("page:{n}")) == word[3] && expects(word.get(4), record, &store)
        }
        "judge" => judged(record, &word[1..], stack),
        "follow" => followed(record, &word[1..], stack),
        "batch" => batched(record, &word[1..], stack),
        other => panic!("no such call: {other}"),
    }
}

fn main() {
    let arguments: Vec<String> = std::env::args().collect();
    let [_, file, size] = &arguments[..] else { panic!("usage: cases FILE KB") };
    let text = std::fs::read_to_string(file).expect("no such file");
    let stack = number(size) * 1024;
    let (mut record, mut compared, mut differ) = (Vec::new(), 0, 0);
    for line in text.lines() {
        let word: Vec<&str> = line.split_whitespace().collect();
        if word.is_empty() || word[0].starts_with('#') {
            continue;
        }
        if word[0] == "record" {
            record = parse(word[1]);
            continue;
        }
        compared += 1;
        if !agrees(&record, &word, stack) {
            differ += 1;
            println!("differs: {:.60}", line);
        }
    }
    println!("{compared} compared, {differ} differ");
    if differ != 0 || compared == 0 {
        std::process::exit(1);
    }
}
