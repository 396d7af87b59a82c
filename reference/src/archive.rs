//! The C archive under test, called with slices.
//!
//! Every out-parameter holds a strange number before the call, so that one the archive forgets to
//! write does not pass for a 0.

/// What an out-parameter holds before the call.
pub const UNWRITTEN: u32 = 0xDEAD_BEEF;

extern "C" {
    fn vlodenka_replay(
        table: *const u8,
        table_len: usize,
        times: *const u32,
        times_len: usize,
        log: *mut u32,
        log_len: usize,
        switches: *mut u32,
    ) -> u32;

    fn vlodenka_judge(
        table: *const u8,
        table_len: usize,
        log: *const u32,
        log_len: usize,
        times: *mut u32,
        times_len: usize,
    ) -> u32;

    fn vlodenka_tree(
        table: *const u8,
        table_len: usize,
        words: *mut u32,
        words_len: usize,
        nodes: *mut u32,
        orders: *mut u32,
    ) -> u32;

    fn vlodenka_part(
        table: *const u8,
        table_len: usize,
        job: u32,
        start: *mut u32,
        length: *mut u32,
    );
}

/// The refusal number and the out-parameters of a call, those it does not have being 0.
#[derive(Clone, Copy, Debug, PartialEq, Eq)]
pub struct Answer {
    pub refusal: u32,
    pub counts: [u32; 2],
}

pub fn replay(table: &[u8], times: &[u32], log: &mut [u32]) -> Answer {
    let mut switches = UNWRITTEN;
    // SAFETY: every pointer is of a live slice or variable, with the length of that slice.
    let refusal = unsafe {
        vlodenka_replay(
            table.as_ptr(),
            table.len(),
            times.as_ptr(),
            times.len(),
            log.as_mut_ptr(),
            log.len(),
            &mut switches,
        )
    };
    Answer { refusal, counts: [switches, 0] }
}

pub fn judge(table: &[u8], log: &[u32], times: &mut [u32]) -> Answer {
    // SAFETY: every pointer is of a live slice, with its length.
    let refusal = unsafe {
        vlodenka_judge(
            table.as_ptr(),
            table.len(),
            log.as_ptr(),
            log.len(),
            times.as_mut_ptr(),
            times.len(),
        )
    };
    Answer { refusal, counts: [0, 0] }
}

pub fn tree(table: &[u8], words: &mut [u32]) -> Answer {
    let (mut nodes, mut orders) = (UNWRITTEN, UNWRITTEN);
    // SAFETY: every pointer is of a live slice or variable, with the length of that slice.
    let refusal = unsafe {
        vlodenka_tree(
            table.as_ptr(),
            table.len(),
            words.as_mut_ptr(),
            words.len(),
            &mut nodes,
            &mut orders,
        )
    };
    Answer { refusal, counts: [nodes, orders] }
}

/// Start and length of the job's records; there is no refusal number.
pub fn part(table: &[u8], job: u32) -> Answer {
    let (mut start, mut length) = (UNWRITTEN, UNWRITTEN);
    // SAFETY: every pointer is of a live slice or variable, with the length of that slice.
    unsafe { vlodenka_part(table.as_ptr(), table.len(), job, &mut start, &mut length) };
    Answer { refusal: 0, counts: [start, length] }
}
