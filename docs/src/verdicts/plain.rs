// Two words as a plain program: both records are written, and compared, and the one with its sides exchanged.

use crate::exchange::exchanged;
use crate::records::{word_to_record, Answer};
use crate::Lent;

// The record of a word in memory of its own, or the refusal.
fn written(word: &[u8], lent: &mut Lent) -> Result<usize, Answer> {
    match word_to_record(word, &mut lent.b, &mut lent.a, &mut lent.record) {
        Answer { refusal: 0, value } => Ok(value as usize),
        refused => Err(refused),
    }
}

pub fn same_element(words: [&[u8]; 2], lent: &mut [Lent; 2]) -> Answer {
    let mut own = lent.clone();
    let n = match written(words[0], &mut own[0]) {
        Ok(n) => n,
        Err(refused) => return refused,
    };
    let m = match written(words[1], &mut own[1]) {
        Ok(m) => m,
        Err(refused) => return Answer { refusal: 256 + refused.refusal, value: refused.value },
    };
    *lent = own;
    let (first, second) = (&lent[0].record[..n], &lent[1].record[..m]);
    let value = if first == second {
        1
    } else if *first == exchanged(second)[..] {
        2
    } else {
        0
    };
    Answer { refusal: 0, value }
}
