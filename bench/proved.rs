// The proved library, over its C interface.
extern "C" {
    fn turncheck_read(record: *const u8, n: usize) -> u64;
    fn turncheck_merge(first: *const u8, n: usize, second: *const u8, m: usize, store: *mut u8, l: usize) -> u64;
    fn turncheck_lines(record: *const u8, n: usize, store: *mut u8, m: usize) -> u64;
    fn turncheck_judge(record: *const u8, n: usize, store: *mut u8, m: usize, schedule: *mut u8, l: usize) -> u64;
    fn turncheck_replay(record: *const u8, n: usize, schedule: *const u8, l: usize) -> u64;
    fn turncheck_page(record: *const u8, n: usize, schedule: *const u8, l: usize, store: *mut u8, m: usize) -> u64;
    fn turncheck_follow(record: *const u8, n: usize, log: *const u8, l: usize) -> u64;
    fn turncheck_batch(tray: *const u8, n: usize, list: *mut u8, m: usize, store: *mut u8, l: usize) -> u64;
    fn turncheck_sequentialize(record: *const u8, n: usize, store: *mut u8, m: usize) -> u64;
}

// Each call is handed the places and lengths of slices that live as long as it runs; its contract asks for no more.

pub fn read(record: &[u8]) -> u64 {
    unsafe { turncheck_read(record.as_ptr(), record.len()) }
}

pub fn merge(first: &[u8], second: &[u8], store: &mut [u8]) -> u64 {
    let (n, m, l) = (first.len(), second.len(), store.len());
    unsafe { turncheck_merge(first.as_ptr(), n, second.as_ptr(), m, store.as_mut_ptr(), l) }
}

pub fn lines(record: &[u8], store: &mut [u8]) -> u64 {
    unsafe { turncheck_lines(record.as_ptr(), record.len(), store.as_mut_ptr(), store.len()) }
}

pub fn judge(record: &[u8], store: &mut [u8], schedule: &mut [u8]) -> u64 {
    let (n, m, l) = (record.len(), store.len(), schedule.len());
    unsafe { turncheck_judge(record.as_ptr(), n, store.as_mut_ptr(), m, schedule.as_mut_ptr(), l) }
}

pub fn follow(record: &[u8], log: &[u8]) -> u64 {
    unsafe { turncheck_follow(record.as_ptr(), record.len(), log.as_ptr(), log.len()) }
}

pub fn replay(record: &[u8], schedule: &[u8]) -> u64 {
    unsafe { turncheck_replay(record.as_ptr(), record.len(), schedule.as_ptr(), schedule.len()) }
}

pub fn page(record: &[u8], schedule: &[u8], store: &mut [u8]) -> u64 {
    let (n, l, m) = (record.len(), schedule.len(), store.len());
    unsafe { turncheck_page(record.as_ptr(), n, schedule.as_ptr(), l, store.as_mut_ptr(), m) }
}

pub fn batch(tray: &[u8], list: &mut [u8], store: &mut [u8]) -> u64 {
    let (n, m, l) = (tray.len(), list.len(), store.len());
    unsafe { turncheck_batch(tray.as_ptr(), n, list.as_mut_ptr(), m, store.as_mut_ptr(), l) }
}

pub fn sequentialize(record: &[u8], store: &mut [u8]) -> u64 {
    unsafe { turncheck_sequentialize(record.as_ptr(), record.len(), store.as_mut_ptr(), store.len()) }
}
