//! turncheck from Rust: a proved checker for races between two threads with stacks.
//!
//! Each call takes the bytes of a model record, of two of them or of a tray. A call that refuses changes no byte of any store.
//! The rules of a thread ascend, each above the one before it: by before state, before symbol, after state, number of new symbols, first
//! new symbol and second new symbol. So no rule stands twice, and a model has one record, however its rules were gathered.
//! A record may name the symbol that tops A's stack at the target, B's, or both. A run reaches the target if it ends with the target
//! state under the tops that are named; an empty stack has no top.
//! A record may also mark rules of A and of B as held, by eight bytes for each thread: bit r mod 8 of byte r div 8, the lowest bit being
//! bit 0, marks rule r. No turn ends right after a held step, and so no run does: the target counts only where a turn may end. A turn
//! without steps may always end.
//! A record may also write out how many symbols A has, or B, by one byte for each thread, 1 to 15; a thread without that byte has 16. They
//! are numbered from 0: a thread's first symbol, a named top and each symbol of its rules, before and new, are below its count.
//! A call takes up to 800 KB of stack, by measurement, and no more for deeper models. A Rust thread has 2 MB by default.

/// The longest record.
pub const RECORD_BYTES: usize = 670;
/// The largest line table: 5,460 bits, of a model with G = 4 and K = 3.
pub const LINES_BYTES: usize = 683;
/// The longest schedule, of 4,095 steps: what `judge` asks for, whatever the verdict, and `batch`, whatever the tray.
pub const SCHEDULE_BYTES: usize = 8190;
/// The longest log, of 4,095 steps.
pub const LOG_BYTES: usize = 4095;
/// The longest page, that of 4,095 steps: 73 bytes for each step and 73 for the foot line.
pub const PAGE_BYTES: usize = 299008;
/// The longest text of rules: 14,912 of them, of a model with G = 4, K = 3 and 64 rules in each thread.
pub const TEXT_BYTES: usize = 258624;
/// The most records of a tray that are judged together: a list with so many places is enough.
pub const TRAY_RECORDS: usize = 32;

/// Why a call refuses, with the refusal's number. The first fault of a record counts, from left to right.
#[derive(Clone, Copy, Debug, PartialEq, Eq)]
pub enum Refusal {
    /// The record ends before or inside a field or rule.
    Truncated = 1,
    /// The record has no target.
    NoTarget = 2,
    /// A head field is out of its range.
    HeadRange = 3,
    /// A rule count, or a rule's map, state or symbol, is out of its range.
    RuleRange = 4,
    /// A field says what its absence would.
    Redundant = 5,
    /// Bytes are left after the last field.
    Trailing = 6,
    /// A store is too small.
    StoreTooSmall = 7,
    /// The schedule's length is odd or above 8,190 bytes.
    ScheduleSize = 8,
    /// A step's turn is not one of the 2K, or below that of the step before.
    StepTurn = 9,
    /// A step's rule is not in the list, or does not apply.
    StepRule = 10,
    /// A rule number that the thread's list lacks is marked as held.
    MarkRange = 11,
    /// A schedule leaves a turn after a held step, or a log a thread, or either ends after one.
    StepHeld = 12,
    /// A rule is not above the one before it in its thread's list.
    RuleOrder = 13,
    /// Two models differ in G, K, start, target, a top, a symbol count or a first symbol.
    MergeHeads = 14,
    /// A rule is held in one model and free in the other.
    MergeHeld = 15,
    /// A thread has more than 64 rules in both models together.
    MergeCount = 16,
    /// A first symbol, a top or a rule's symbol is not below its thread's symbol count.
    SymbolRange = 17,
    /// The log has more than 4,095 bytes, or one of its bytes has bit 6 set.
    Log = 18,
    /// The tray has more than 32 records.
    TrayCount = 19,
    /// The list has fewer places than the tray has records.
    ListTooSmall = 20,
    /// The model has held rules or named tops, and so no sequential system.
    HeldOrTop = 21,
}

/// A verdict on a model.
#[derive(Clone, Copy, Debug, PartialEq, Eq)]
pub enum Verdict {
    /// No run reaches the target.
    Clear,
    /// Some run does, and each that does has more than 4,095 steps.
    Long,
    /// A shortest run that does has so many steps. The depths are those of the least schedule, which was written.
    Found(usize, Depths),
}

/// The verdict on a record of a tray.
#[derive(Clone, Copy, Debug, Default, PartialEq, Eq)]
pub enum VerdictKind {
    /// No run reaches the target.
    #[default]
    Clear,
    /// Some run does, and each that does has more than 4,095 steps.
    Long,
    /// A shortest run that does has at most 4,095 steps.
    Found,
}

/// What a record of a tray comes to, judged together with others.
#[derive(Clone, Copy, Debug, Default, PartialEq, Eq)]
pub struct Outcome {
    pub verdict: VerdictKind,
    /// The steps of a shortest run to the target; 0 unless Found.
    pub steps: usize,
    /// Whether its least schedule was written.
    pub written: bool,
    /// The place of that schedule's first step in the store, counted in steps from 0, so its bytes start at twice the place; 0 where nothing
    /// was written.
    pub place: usize,
}

/// The greatest numbers of symbols that A's and that B's stack held at any point of a schedule's run, the starting symbol counted: 1 for a
/// stack that never grew, and at most 4,096.
#[derive(Clone, Copy, Debug, PartialEq, Eq)]
pub struct Depths {
    pub a: usize,
    pub b: usize,
}

/// Where a schedule ends, the last shared state and whether its run reaches the target, and the depths of its run.
#[derive(Clone, Copy, Debug, PartialEq, Eq)]
pub struct Last {
    pub state: u16,
    pub target: bool,
    pub depths: Depths,
}

/// Where a log ends, the last shared state, and the fewest rounds that could hold it: at most 2,048, and 0 for an empty log.
#[derive(Clone, Copy, Debug, PartialEq, Eq)]
pub struct Followed {
    pub state: u16,
    pub rounds: usize,
}

/// The first record of a tray, and the rest.
#[derive(Clone, Copy, Debug, PartialEq, Eq)]
pub struct First<'a> {
    pub record: &'a [u8],
    pub rest: &'a [u8],
}

extern "C" {
    fn turncheck_read(record: *const u8, record_size: usize) -> u64;
    fn turncheck_first(tray: *const u8, tray_size: usize) -> u64;
    fn turncheck_write(record: *const u8, record_size: usize, store: *mut u8, store_size: usize) -> u64;
    fn turncheck_merge(
        first: *const u8,
        first_size: usize,
        second: *const u8,
        second_size: usize,
        store: *mut u8,
        store_size: usize,
    ) -> u64;
    fn turncheck_lines(record: *const u8, record_size: usize, lines: *mut u8, lines_size: usize) -> u64;
    fn turncheck_judge(
        record: *const u8,
        record_size: usize,
        lines: *mut u8,
        lines_size: usize,
        schedule: *mut u8,
        schedule_size: usize,
    ) -> u64;
    fn turncheck_replay(record: *const u8, record_size: usize, schedule: *const u8, schedule_size: usize) -> u64;
    fn turncheck_page(
        record: *const u8,
        record_size: usize,
        schedule: *const u8,
        schedule_size: usize,
        store: *mut u8,
        store_size: usize,
    ) -> u64;
    fn turncheck_follow(record: *const u8, record_size: usize, log: *const u8, log_size: usize) -> u64;
    fn turncheck_batch(
        tray: *const u8,
        tray_size: usize,
        list: *mut u8,
        list_size: usize,
        store: *mut u8,
        store_size: usize,
    ) -> u64;
    fn turncheck_sequentialize(record: *const u8, record_size: usize, store: *mut u8, store_size: usize) -> u64;
}

/// The kinds of answers that are no refusals: the low byte of a number.
const DONE: u16 = 0;
const WRITTEN: u16 = 32;
const CLEAR: u16 = 33;
const LONG: u16 = 34;
const FOUND: u16 = 35;
const STOPPED: u16 = 36;
const REACHED: u16 = 37;
const TAKEN: u16 = 38;
const NONE: u16 = 39;
const PAGED: u16 = 40;
const FOLLOWED: u16 = 41;
const JUDGED: u16 = 42;
const PRINTED: u16 = 43;

/// The greatest depth: that of 4,095 pushes upon the starting symbol.
const DEEPEST: u16 = 4096;

/// The bytes that an outcome has in the library's list.
const RESULT_BYTES: usize = 6;

/// A number's kind, whose upper byte is 0, and the three fields above it.
fn parts(number: u64) -> [u16; 4] {
    [0, 16, 32, 48].map(|bits| (number >> bits) as u16)
}

/// The length in a number's first two fields.
fn length(low: u16, high: u16) -> usize {
    usize::from(low) + (usize::from(high) << 16)
}

/// The depths in a number's second and third field.
fn depths(a: u16, b: u16) -> Depths {
    Depths { a: a.into(), b: b.into() }
}

/// The refusal that a number says. Panics on a number that this wrapper does not know: the library is of another version.
fn refusal(number: u64) -> Refusal {
    match number {
        1 => Refusal::Truncated,
        2 => Refusal::NoTarget,
        3 => Refusal::HeadRange,
        4 => Refusal::RuleRange,
        5 => Refusal::Redundant,
        6 => Refusal::Trailing,
        7 => Refusal::StoreTooSmall,
        8 => Refusal::ScheduleSize,
        9 => Refusal::StepTurn,
        10 => Refusal::StepRule,
        11 => Refusal::MarkRange,
        12 => Refusal::StepHeld,
        13 => Refusal::RuleOrder,
        14 => Refusal::MergeHeads,
        15 => Refusal::MergeHeld,
        16 => Refusal::MergeCount,
        17 => Refusal::SymbolRange,
        18 => Refusal::Log,
        19 => Refusal::TrayCount,
        20 => Refusal::ListTooSmall,
        21 => Refusal::HeldOrTop,
        _ => panic!("turncheck: the library answers {number:#x}, which this wrapper does not know"),
    }
}

/// Reads a record.
pub fn read(record: &[u8]) -> Result<(), Refusal> {
    // SAFETY: here and below, each pointer and length are those of one slice that is borrowed for the call.
    let number = unsafe { turncheck_read(record.as_ptr(), record.len()) };
    match parts(number) {
        [DONE, 0, 0, 0] => Ok(()),
        _ => Err(refusal(number)),
    }
}

/// Reads the first record of a tray, which is records one after another; `None` where it is empty. The record is a part of the tray by
/// itself, which every other call takes, and the rest is the tray behind it, which is no fault of the record.
pub fn first(tray: &[u8]) -> Result<Option<First<'_>>, Refusal> {
    let number = unsafe { turncheck_first(tray.as_ptr(), tray.len()) };
    match parts(number) {
        [TAKEN, length, 0, 0] => {
            let (record, rest) = tray.split_at(length.into());
            Ok(Some(First { record, rest }))
        }
        [NONE, 0, 0, 0] => Ok(None),
        _ => Err(refusal(number)),
    }
}

/// Reads a record and writes its model again, to the front of the store; the bytes beyond keep their value. Answers how many bytes
/// were written.
pub fn write(record: &[u8], store: &mut [u8]) -> Result<usize, Refusal> {
    let number = unsafe { turncheck_write(record.as_ptr(), record.len(), store.as_mut_ptr(), store.len()) };
    match parts(number) {
        [WRITTEN, length, 0, 0] => Ok(length.into()),
        _ => Err(refusal(number)),
    }
}

/// Reads two records and makes their models one: the head that both have, and in each thread the rules of either, each once, in order and
/// held as it was. Writes its record to the front of the store; the bytes beyond keep their value. Answers how many bytes were written. If
/// either model is Found, so is this one, in no more steps; if either is Long, this one is not Clear.
pub fn merge(first: &[u8], second: &[u8], store: &mut [u8]) -> Result<usize, Refusal> {
    let number = unsafe {
        turncheck_merge(first.as_ptr(), first.len(), second.as_ptr(), second.len(), store.as_mut_ptr(), store.len())
    };
    match parts(number) {
        [WRITTEN, length, 0, 0] => Ok(length.into()),
        _ => Err(refusal(number)),
    }
}

/// Fills the line table of a record's model: bit p, in byte p div 8, lowest bit first, stands exactly if some run ends its turns
/// along the line at place p. Spare bits of the table's last byte are 0; the bytes beyond keep their value.
pub fn lines(record: &[u8], lines: &mut [u8]) -> Result<(), Refusal> {
    let number = unsafe { turncheck_lines(record.as_ptr(), record.len(), lines.as_mut_ptr(), lines.len()) };
    match parts(number) {
        [DONE, 0, 0, 0] => Ok(()),
        _ => Err(refusal(number)),
    }
}

/// Judges a record's model. Each verdict fills the line table as `lines` does. Found writes the least of the shortest schedules to the
/// front of the schedule store: the first, compared step by step, turn number before rule number. A step has two bytes: the turn, and the
/// rule's number in its thread's list, from 0. All other bytes keep their value. The depths are those of this schedule, as `replay` gives
/// them; another one that is as short may have others.
pub fn judge(record: &[u8], lines: &mut [u8], schedule: &mut [u8]) -> Result<Verdict, Refusal> {
    let number = unsafe {
        turncheck_judge(
            record.as_ptr(),
            record.len(),
            lines.as_mut_ptr(),
            lines.len(),
            schedule.as_mut_ptr(),
            schedule.len(),
        )
    };
    match parts(number) {
        [CLEAR, 0, 0, 0] => Ok(Verdict::Clear),
        [LONG, 0, 0, 0] => Ok(Verdict::Long),
        [FOUND, steps, a @ 1..=DEEPEST, b @ 1..=DEEPEST] => Ok(Verdict::Found(steps.into(), depths(a, b))),
        _ => Err(refusal(number)),
    }
}

/// Walks a schedule of a record's model from its start, and answers where it ends and how deep it went.
pub fn replay(record: &[u8], schedule: &[u8]) -> Result<Last, Refusal> {
    let number = unsafe { turncheck_replay(record.as_ptr(), record.len(), schedule.as_ptr(), schedule.len()) };
    match parts(number) {
        [STOPPED, state, a @ 1..=DEEPEST, b @ 1..=DEEPEST] => Ok(Last { state, target: false, depths: depths(a, b) }),
        [REACHED, state, a @ 1..=DEEPEST, b @ 1..=DEEPEST] => Ok(Last { state, target: true, depths: depths(a, b) }),
        _ => Err(refusal(number)),
    }
}

/// Walks a schedule of a record's model as `replay` does, and writes its page to the front of the store, in ASCII: a line of 72 characters
/// and a line feed for each step, with the shared state and both stacks after it, and a foot line. The bytes beyond keep their value.
/// Answers how many bytes were written.
pub fn page(record: &[u8], schedule: &[u8], store: &mut [u8]) -> Result<usize, Refusal> {
    let number = unsafe {
        turncheck_page(
            record.as_ptr(),
            record.len(),
            schedule.as_ptr(),
            schedule.len(),
            store.as_mut_ptr(),
            store.len(),
        )
    };
    match parts(number) {
        [PAGED, low, high, 0] => Ok(length(low, high)),
        _ => Err(refusal(number)),
    }
}

/// Follows a log of a record's model from its start. A log has a byte for each step: bit 7 is set for B, bit 6 is zero, and the bits below
/// are the rule's number in its thread's list, from 0. Answers the last shared state and the fewest rounds that could hold the log, which
/// may be above K; an empty log takes 0. No placing of its steps in turns uses fewer, and with each step in the earliest turn that it can
/// have they use so many. If these are at most K, the log so placed is a schedule that `replay` accepts, with the same last state.
pub fn follow(record: &[u8], log: &[u8]) -> Result<Followed, Refusal> {
    let number = unsafe { turncheck_follow(record.as_ptr(), record.len(), log.as_ptr(), log.len()) };
    match parts(number) {
        [FOLLOWED, state, rounds, 0] => Ok(Followed { state, rounds: rounds.into() }),
        _ => Err(refusal(number)),
    }
}

/// What the bytes of an outcome say: the verdict, the steps, whether the schedule was written, and its place. Panics on bytes that this
/// wrapper does not know, as `refusal` does.
fn outcome(result: &[u8]) -> Outcome {
    let number = |low, high| usize::from(u16::from_le_bytes([low, high]));
    match *result {
        [0, 0, 0, 0, 0, 0] => Outcome::default(),
        [1, 0, 0, 0, 0, 0] => Outcome { verdict: VerdictKind::Long, ..Outcome::default() },
        [2, a, b, written @ 0..=1, c, d] => {
            Outcome { verdict: VerdictKind::Found, steps: number(a, b), written: written == 1, place: number(c, d) }
        }
        _ => panic!("turncheck: the library lists {result:02x?}, which this wrapper does not know"),
    }
}

/// Judges the records of a tray, 32 at most, with one schedule store for all. Answers how many they are, 0 for an empty tray, and fills as
/// many places at the front of the list; the others keep their value. Verdict and steps are those that `judge` gives for the record alone,
/// whatever its neighbours are. In the tray's order a Found record's least schedule is written right behind the last one written, exactly
/// if its steps fit in what is left of 4,095. One that does not fit is passed over, and a later, shorter one may still be written. A
/// schedule of 0 steps always counts as written, at place 0. Store bytes behind the last written step keep their value. The tray is read
/// whole first: the first record that is refused counts before all else, then the number of records, the list, and the store.
pub fn batch(tray: &[u8], list: &mut [Outcome], store: &mut [u8]) -> Result<usize, Refusal> {
    let mut results = [0; RESULT_BYTES * TRAY_RECORDS];
    // A tray with more records than these places is refused whatever the list is.
    let lent = &mut results[..RESULT_BYTES * list.len().min(TRAY_RECORDS)];
    let number = unsafe {
        turncheck_batch(tray.as_ptr(), tray.len(), lent.as_mut_ptr(), lent.len(), store.as_mut_ptr(), store.len())
    };
    match parts(number) {
        [JUDGED, count, 0, 0] => {
            let judged = lent.chunks_exact(RESULT_BYTES).take(count.into());
            list.iter_mut().zip(judged).for_each(|(place, result)| *place = outcome(result));
            Ok(count.into())
        }
        _ => Err(refusal(number)),
    }
}

/// Prints the sequential system of a record's model, a pushdown system with one stack for both threads, for checkers of single-threaded
/// rule tables: A makes all its turns on copies of the shared state that are guessed for the rounds, then B makes its turns on what A left,
/// and where B ends a round A must have begun the next. Writes its rules to the front of the store, in ASCII; the bytes beyond keep their
/// value. Answers how many bytes were written. A rule is a line: state, top, next state, and the symbols that come in the top's place, none
/// to two, the first on top; with one blank between and a line feed behind. A state is a turn counter, 1 to K + 1, and K copies of the
/// shared state, a digit each. Symbols are in base ten: 0 to 15 are A's, 16 to 31 B's, 32 is the mark at the bottom for A and 33 for B, 34
/// is the check symbol, and 35 a helper. The rules ascend by state, top, next state, number of new symbols and these, all as numbers, so
/// each is there once. From counter 1 and copies (start, g2 to gK), with A's first symbol over 32, the check symbol can come on top at
/// counter 1 and copies (g2 to gK, e) exactly if a run of K rounds has the shared states g2 to gK before rounds 2 to K and ends in e. A
/// model with held rules or named tops is refused, and then a short store.
pub fn sequentialize(record: &[u8], store: &mut [u8]) -> Result<usize, Refusal> {
    let number = unsafe { turncheck_sequentialize(record.as_ptr(), record.len(), store.as_mut_ptr(), store.len()) };
    match parts(number) {
        [PRINTED, low, high, 0] => Ok(length(low, high)),
        _ => Err(refusal(number)),
    }
}
