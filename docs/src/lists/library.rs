// The library's list call on slices, its calls word by word, and those of an older library.

use crate::plain;
use crate::records::Answer;

type Export = unsafe extern "C" fn(*const u8, usize, *mut u16, usize, *mut u16, usize, *mut u8, usize) -> Answer;

extern "C" {
    fn thompson_list_to_records(
        list: *const u8,
        list_len: usize,
        b: *mut u16,
        b_len: usize,
        a: *mut u16,
        a_len: usize,
        records: *mut u8,
        records_len: usize,
    ) -> Answer;
    fn thompson_word_to_record(
        word: *const u8,
        word_len: usize,
        b: *mut u16,
        b_len: usize,
        a: *mut u16,
        a_len: usize,
        record: *mut u8,
        record_len: usize,
    ) -> Answer;
    #[cfg(older)]
    fn older_word_to_record(
        word: *const u8,
        word_len: usize,
        b: *mut u16,
        b_len: usize,
        a: *mut u16,
        a_len: usize,
        record: *mut u8,
        record_len: usize,
    ) -> Answer;
}

#[inline(always)]
fn on_slices(f: Export, bytes: &[u8], b: &mut [u16], a: &mut [u16], out: &mut [u8]) -> Answer {
    unsafe {
        f(
            bytes.as_ptr(),
            bytes.len(),
            b.as_mut_ptr(),
            b.len(),
            a.as_mut_ptr(),
            a.len(),
            out.as_mut_ptr(),
            out.len(),
        )
    }
}

pub fn list_to_records(list: &[u8], b: &mut [u16], a: &mut [u16], records: &mut [u8]) -> Answer {
    on_slices(thompson_list_to_records, list, b, a, records)
}

pub fn word_by_word(list: &[u8], b: &mut [u16], a: &mut [u16], records: &mut [u8]) -> Answer {
    plain::word_by_word(|w, b, a, r| on_slices(thompson_word_to_record, w, b, a, r), list, b, a, records)
}

#[cfg(older)]
pub fn older_word_by_word(list: &[u8], b: &mut [u16], a: &mut [u16], records: &mut [u8]) -> Answer {
    plain::word_by_word(|w, b, a, r| on_slices(older_word_to_record, w, b, a, r), list, b, a, records)
}
