// The five calls of the static library on slices.

use crate::plain;

#[repr(C)]
struct Answer {
    refusal: u64,
    value: u64,
}

extern "C" {
    fn thompson_pack_shape(
        shape: *const u8,
        shape_size: usize,
        numbers: *mut u64,
        numbers_size: usize,
        summary: *mut u16,
        summary_entries: usize,
    ) -> Answer;
    fn thompson_unpack_shape(
        numbers: *const u64,
        numbers_size: usize,
        summary: *const u16,
        summary_entries: usize,
        shape: *mut u8,
        shape_size: usize,
    ) -> Answer;
    fn thompson_carets_before(
        numbers: *const u64,
        numbers_size: usize,
        summary: *const u16,
        summary_entries: usize,
        node: u64,
    ) -> Answer;
    fn thompson_subtree_end(
        numbers: *const u64,
        numbers_size: usize,
        summary: *const u16,
        summary_entries: usize,
        node: u64,
    ) -> Answer;
    fn thompson_grow_caret(
        numbers: *mut u64,
        numbers_size: usize,
        summary: *mut u16,
        summary_entries: usize,
        leaf: u64,
    ) -> Answer;
}

// The answer as the plain program has it; the place of a refusal is 0.
fn value(answer: Answer) -> plain::Answer {
    if answer.refusal == 0 {
        return Ok(answer.value as usize);
    }
    assert!(answer.value == 0);
    Err(answer.refusal)
}

pub fn pack_shape(shape: &[u8], numbers: &mut [u64], summary: &mut [u16]) -> plain::Answer {
    let (n, m) = (numbers.len(), summary.len());
    value(unsafe { thompson_pack_shape(shape.as_ptr(), shape.len(), numbers.as_mut_ptr(), n, summary.as_mut_ptr(), m) })
}

pub fn unpack_shape(numbers: &[u64], summary: &[u16], shape: &mut [u8]) -> plain::Answer {
    let (n, m) = (numbers.len(), summary.len());
    value(unsafe { thompson_unpack_shape(numbers.as_ptr(), n, summary.as_ptr(), m, shape.as_mut_ptr(), shape.len()) })
}

pub fn carets_before(numbers: &[u64], summary: &[u16], node: u64) -> plain::Answer {
    value(unsafe { thompson_carets_before(numbers.as_ptr(), numbers.len(), summary.as_ptr(), summary.len(), node) })
}

pub fn subtree_end(numbers: &[u64], summary: &[u16], node: u64) -> plain::Answer {
    value(unsafe { thompson_subtree_end(numbers.as_ptr(), numbers.len(), summary.as_ptr(), summary.len(), node) })
}

pub fn grow_caret(numbers: &mut [u64], summary: &mut [u16], leaf: u64) -> plain::Answer {
    let (n, m) = (numbers.len(), summary.len());
    value(unsafe { thompson_grow_caret(numbers.as_mut_ptr(), n, summary.as_mut_ptr(), m, leaf) })
}
