// The numbers that the calls answer: a kind in the low byte, and what it carries from bit 16 on. A refusal's kind is its own number. The
// depths of A and of B, where a number has them, stand from bit 32 and from bit 48 on, and the rounds of a log from bit 32 on.
pub const DONE: u64 = 0;
pub const SHORT: u64 = 7;
pub const HELD: u64 = 12;
pub const HELD_OR_TOP: u64 = 21;
pub const WRITTEN: u64 = 32;
pub const CLEAR: u64 = 33;
pub const LONG: u64 = 34;
pub const FOUND: u64 = 35;
pub const STOPPED: u64 = 36;
pub const REACHED: u64 = 37;
pub const PAGED: u64 = 40;
pub const FOLLOWED: u64 = 41;
pub const JUDGED: u64 = 42;
pub const PRINTED: u64 = 43;

// The bytes of the longest record.
pub const RECORD: usize = 670;

// The bytes of the longest page: 4,095 steps and the foot, 73 bytes each.
pub const PAGE: usize = 299_008;

// The bytes of the longest text of a sequential system: 14,912 rules, of a model with G = 4, K = 3 and 64 rules in each thread.
pub const TEXT: usize = 258_624;

pub fn packed(kind: u64, carried: u64) -> u64 {
    kind | carried << 16
}

// A count or a state, and the depths of A and of B.
pub fn with_depths(kind: u64, carried: usize, depths: [usize; 2]) -> u64 {
    let [carried, a, b] = [carried, depths[0], depths[1]].map(|n| n as u64);
    packed(kind, carried | a << 16 | b << 32)
}

pub fn kind(number: u64) -> u64 {
    number & 0xFF
}

// The length of the record that a merger wrote, where it did.
pub fn written(number: u64) -> Option<usize> {
    (kind(number) == WRITTEN).then_some((number >> 16) as usize)
}

// The length of the text of a sequential system, where it was printed.
pub fn printed(number: u64) -> Option<usize> {
    (kind(number) == PRINTED).then_some((number >> 16) as usize)
}

// How many steps a schedule has that a judgement wrote: none, unless it is Found.
pub fn steps(number: u64) -> usize {
    if kind(number) == FOUND {
        (number >> 16 & 0xFFFF) as usize
    } else {
        0
    }
}

// The log of a schedule: a byte a step, bit 7 for B and the rule's number below.
pub fn log(schedule: &[u8]) -> Vec<u8> {
    schedule.chunks_exact(2).map(|step| step[0] % 2 << 7 | step[1]).collect()
}

// Both depths of a number that has them.
pub fn depths(number: u64) -> u64 {
    number >> 32
}
