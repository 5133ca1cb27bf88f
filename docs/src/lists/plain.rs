// The list call as a plain program: a word a line, the records one behind another. The form of a word is kept as two
// arrays, the lent tables themselves, and each letter multiplies it (../speed/plain.rs): no other memory is used.

use crate::records::{word_to_record, Answer, LIMIT};

// The bytes of a record without powers.
const BASE: usize = 6;

// A word with what is lent for its record, or a list with what is lent for its records.
pub type Call = fn(&[u8], &mut [u16], &mut [u16], &mut [u8]) -> Answer;

pub fn list_to_records(list: &[u8], b: &mut [u16], a: &mut [u16], records: &mut [u8]) -> Answer {
    word_by_word(word_to_record, list, b, a, records)
}

// The list, with this call for each word.
#[inline(always)]
pub fn word_by_word(call: Call, list: &[u8], b: &mut [u16], a: &mut [u16], records: &mut [u8]) -> Answer {
    if b.len() <= LIMIT || a.len() <= LIMIT {
        return Answer { refusal: 6, value: 0 };
    }
    if (records.len() as u128) < size(list) {
        return Answer { refusal: 7, value: 0 };
    }
    let mut end = 0;
    for line in lines(list) {
        let rest = &mut records[end..];
        let answer = call(line, b, a, rest);
        end += match answer.refusal {
            0 => answer.value as usize,
            _ => put_refused(answer, rest),
        };
    }
    Answer { refusal: 0, value: end as u64 }
}

// The lines: byte 0A and no other ends one; an unended last line counts unless it is empty.
pub fn lines(list: &[u8]) -> impl Iterator<Item = &[u8]> {
    list.split_inclusive(|&x| x == b'\n').map(|line| line.strip_suffix(b"\n").unwrap_or(line))
}

// The bytes that the output needs: a base for each line, and four for each byte but the ends of line.
pub fn size(list: &[u8]) -> u128 {
    let ends = list.iter().filter(|&&x| x == b'\n').count();
    let unended = list.last().is_some_and(|&x| x != b'\n');
    BASE as u128 * (ends + unended as usize) as u128 + 4 * (list.len() - ends) as u128
}

// A refused word: tag, length 3, the refusal's number in one byte and its place in two.
fn put_refused(refused: Answer, out: &mut [u8]) -> usize {
    let place = (refused.value as u16).to_be_bytes();
    out[..6].copy_from_slice(&[0x0f, 0, 3, refused.refusal as u8, place[0], place[1]]);
    6
}
