// The call of the proved library on slices, and that of a library from before there were three answers.

use crate::records::Answer;
use crate::Lent;

type Export = unsafe extern "C" fn(
    *const u8,
    usize,
    *mut u16,
    usize,
    *mut u16,
    usize,
    *mut u8,
    usize,
    *const u8,
    usize,
    *mut u16,
    usize,
    *mut u16,
    usize,
    *mut u8,
    usize,
) -> Answer;

macro_rules! export {
    ($name:ident) => {
        fn $name(
            word1: *const u8,
            word1_len: usize,
            b1: *mut u16,
            b1_len: usize,
            a1: *mut u16,
            a1_len: usize,
            record1: *mut u8,
            record1_len: usize,
            word2: *const u8,
            word2_len: usize,
            b2: *mut u16,
            b2_len: usize,
            a2: *mut u16,
            a2_len: usize,
            record2: *mut u8,
            record2_len: usize,
        ) -> Answer;
    };
}

extern "C" {
    export!(thompson_same_element);
    #[cfg(older)]
    export!(older_same_element);
}

#[inline(always)]
fn on_slices(f: Export, [u, v]: [&[u8]; 2], [l, k]: &mut [Lent; 2]) -> Answer {
    unsafe {
        f(
            u.as_ptr(),
            u.len(),
            l.b.as_mut_ptr(),
            l.b.len(),
            l.a.as_mut_ptr(),
            l.a.len(),
            l.record.as_mut_ptr(),
            l.record.len(),
            v.as_ptr(),
            v.len(),
            k.b.as_mut_ptr(),
            k.b.len(),
            k.a.as_mut_ptr(),
            k.a.len(),
            k.record.as_mut_ptr(),
            k.record.len(),
        )
    }
}

pub fn same_element(words: [&[u8]; 2], lent: &mut [Lent; 2]) -> Answer {
    on_slices(thompson_same_element, words, lent)
}

#[cfg(older)]
pub fn same_element_before(words: [&[u8]; 2], lent: &mut [Lent; 2]) -> Answer {
    on_slices(older_same_element, words, lent)
}
