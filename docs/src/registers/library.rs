// The calls of the proved library on slices, and the filings of one from before an element and its inverse shared an
// entry.

use crate::plain::Filing;
use crate::records::Answer;

type Export = unsafe extern "C" fn(
    *const u8,
    usize,
    *mut u16,
    usize,
    *mut u16,
    usize,
    *mut u8,
    usize,
    u16,
    *mut u8,
    usize,
) -> Filing;

extern "C" {
    fn thompson_enter_word(
        word: *const u8,
        word_len: usize,
        b: *mut u16,
        b_len: usize,
        a: *mut u16,
        a_len: usize,
        record: *mut u8,
        record_len: usize,
        holder: u16,
        register: *mut u8,
        register_len: usize,
    ) -> Filing;
    #[cfg(older)]
    fn older_enter_word(
        word: *const u8,
        word_len: usize,
        b: *mut u16,
        b_len: usize,
        a: *mut u16,
        a_len: usize,
        record: *mut u8,
        record_len: usize,
        holder: u16,
        register: *mut u8,
        register_len: usize,
    ) -> Filing;
    fn thompson_check_register(register: *const u8, register_len: usize) -> Answer;
    fn thompson_live_entries(register: *const u8, register_len: usize, holder: u16) -> Answer;
}

#[inline(always)]
fn on_slices(
    f: Export,
    word: &[u8],
    b: &mut [u16],
    a: &mut [u16],
    record: &mut [u8],
    holder: u16,
    register: &mut [u8],
) -> Filing {
    unsafe {
        f(
            word.as_ptr(),
            word.len(),
            b.as_mut_ptr(),
            b.len(),
            a.as_mut_ptr(),
            a.len(),
            record.as_mut_ptr(),
            record.len(),
            holder,
            register.as_mut_ptr(),
            register.len(),
        )
    }
}

pub fn enter_word(
    word: &[u8],
    b: &mut [u16],
    a: &mut [u16],
    record: &mut [u8],
    holder: u16,
    register: &mut [u8],
) -> Filing {
    on_slices(thompson_enter_word, word, b, a, record, holder, register)
}

#[cfg(older)]
pub fn enter_word_before(
    word: &[u8],
    b: &mut [u16],
    a: &mut [u16],
    record: &mut [u8],
    holder: u16,
    register: &mut [u8],
) -> Filing {
    on_slices(older_enter_word, word, b, a, record, holder, register)
}

pub fn check_register(register: &[u8]) -> Answer {
    unsafe { thompson_check_register(register.as_ptr(), register.len()) }
}

pub fn live_entries(register: &[u8], holder: u16) -> Answer {
    unsafe { thompson_live_entries(register.as_ptr(), register.len(), holder) }
}
