// The calls of the proved library on slices.

use crate::plain::Answer;

extern "C" {
    fn thompson_text_to_record(
        text: *const u8,
        text_len: usize,
        b: *mut u16,
        b_len: usize,
        a: *mut u16,
        a_len: usize,
        record: *mut u8,
        record_len: usize,
    ) -> Answer;
    fn thompson_record_to_text(record: *const u8, record_len: usize, text: *mut u8, text_len: usize) -> Answer;
    fn thompson_word_to_record(
        word: *const u8,
        word_len: usize,
        b: *mut u16,
        b_len: usize,
        a: *mut u16,
        a_len: usize,
        record: *mut u8,
        record_len: usize,
    ) -> Answer;
}

pub fn text_to_record(text: &[u8], b: &mut [u16], a: &mut [u16], record: &mut [u8]) -> Answer {
    unsafe {
        thompson_text_to_record(
            text.as_ptr(),
            text.len(),
            b.as_mut_ptr(),
            b.len(),
            a.as_mut_ptr(),
            a.len(),
            record.as_mut_ptr(),
            record.len(),
        )
    }
}

pub fn record_to_text(record: &[u8], text: &mut [u8]) -> Answer {
    unsafe { thompson_record_to_text(record.as_ptr(), record.len(), text.as_mut_ptr(), text.len()) }
}

pub fn word_to_record(word: &[u8], b: &mut [u16], a: &mut [u16], record: &mut [u8]) -> Answer {
    unsafe {
        thompson_word_to_record(
            word.as_ptr(),
            word.len(),
            b.as_mut_ptr(),
            b.len(),
            a.as_mut_ptr(),
            a.len(),
            record.as_mut_ptr(),
            record.len(),
        )
    }
}
