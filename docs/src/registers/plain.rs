// The register as a plain program: the entries are read into a hash map by their records, and the holders' counts into
// another. All is worked out first, and what was lent is written last.

use crate::exchange::{exchanged, smaller};
use crate::records::{self, Answer, LIMIT};
use std::collections::HashMap;

pub const MOST_BYTES: usize = 65536;
pub const LIVE_MOST: u64 = 4;

#[repr(C)]
#[derive(Clone, Copy, PartialEq, Eq, Debug)]
pub struct Filing {
    pub refusal: u64,
    pub value: u64,
    pub present: u64,
    pub word: u64,
}

fn refused(refusal: u64, value: u64) -> Filing {
    Filing { refusal, value, present: 0, word: 0 }
}

fn entry(number: u32, present: u64) -> Filing {
    Filing { refusal: 0, value: number as u64, present, word: 0 }
}

// What a register holds: the last number given, the entries' numbers by their records, the holders' live entries, and
// where the entries end.
struct Register<'a> {
    last: u32,
    numbers: HashMap<&'a [u8], u32>,
    live: HashMap<u16, u64>,
    end: usize,
}

fn four(bytes: &[u8]) -> u32 {
    u32::from_be_bytes(bytes[..4].try_into().unwrap())
}

fn two(bytes: &[u8]) -> u16 {
    u16::from_be_bytes(bytes[..2].try_into().unwrap())
}

// The register in a buffer, if it is well-formed.
fn read(bytes: &[u8]) -> Option<Register<'_>> {
    if bytes.len() > MOST_BYTES || bytes.len() < 7 || bytes[..3] != [0x10, 0, 4] {
        return None;
    }
    let mut register =
        Register { last: four(&bytes[3..]), numbers: HashMap::new(), live: HashMap::new(), end: 7 };
    let mut low = 0;
    while register.end < bytes.len() && bytes[register.end] != 0 {
        let (number, holder, record) = entry_at(&bytes[register.end..])?;
        let live = register.live.entry(holder).or_default();
        *live += 1;
        if number <= low || number > register.last || *live > LIVE_MOST || !is_stored(record) {
            return None;
        }
        if register.numbers.insert(record, number).is_some() {
            return None;
        }
        low = number;
        register.end += 9 + record.len();
    }
    Some(register)
}

// The number, the holder and the record of the entry in front.
fn entry_at(bytes: &[u8]) -> Option<(u32, u16, &[u8])> {
    if bytes.len() < 3 || bytes[0] != 0x11 {
        return None;
    }
    let body = bytes[3..].get(..two(&bytes[1..]) as usize)?;
    (body.len() >= 6).then(|| (four(body), two(&body[4..]), &body[6..]))
}

// Whether these are the bytes of a record that is not above the record with its sides exchanged.
fn is_stored(bytes: &[u8]) -> bool {
    is_record(bytes) && *bytes <= exchanged(bytes)[..]
}

// Whether these are the bytes of a record, and all of them.
fn is_record(bytes: &[u8]) -> bool {
    let Some((b, behind)) = field(1, bytes) else { return false };
    let Some((a, [])) = field(2, behind) else { return false };
    let mut sum = 0;
    for side in [b, a] {
        let mut least = 0;
        for (i, e) in powers(side) {
            sum += e;
            if e == 0 || i > LIMIT || i < least || sum > LIMIT {
                return false;
            }
            least = i + 1;
        }
    }
    is_reduced(b, a)
}

// Whether each index on both sides is followed by the next one on a side.
fn is_reduced(b: &[u8], a: &[u8]) -> bool {
    let mut right = powers(a).peekable();
    let mut left = powers(b).peekable();
    while let Some((i, _)) = left.next() {
        while right.next_if(|&(k, _)| k < i).is_some() {}
        if right.next_if(|&(k, _)| k == i).is_some() {
            let next = |side: Option<&(usize, usize)>| side.is_some_and(|&(k, _)| k == i + 1);
            if !next(left.peek()) && !next(right.peek()) {
                return false;
            }
        }
    }
    true
}

// The body of the field in front, with this tag and whole powers, and what stands behind it.
fn field(tag: u8, bytes: &[u8]) -> Option<(&[u8], &[u8])> {
    let [first, high, low, behind @ ..] = bytes else { return None };
    let size = u16::from_be_bytes([*high, *low]) as usize;
    (*first == tag && size % 4 == 0 && size <= behind.len()).then(|| behind.split_at(size))
}

// The indices and exponents of a field's body.
fn powers(body: &[u8]) -> impl Iterator<Item = (usize, usize)> + '_ {
    body.chunks_exact(4).map(|x| (two(x) as usize, two(&x[2..]) as usize))
}

pub fn enter_word(
    word: &[u8],
    b: &mut [u16],
    a: &mut [u16],
    record: &mut [u8],
    holder: u16,
    register: &mut [u8],
) -> Filing {
    let mut own_b = vec![0; b.len().min(LIMIT + 1)];
    let mut own_a = vec![0; a.len().min(LIMIT + 1)];
    let mut own = vec![0; record.len().min(6 + 4 * LIMIT)];
    let answer = records::word_to_record(word, &mut own_b, &mut own_a, &mut own);
    if answer.refusal > 0 {
        return refused(answer.refusal, answer.value);
    }
    let own = &own[..answer.value as usize];
    let filing = decide(&smaller(own), holder, register);
    if filing.refusal == 0 {
        b[..=word.len()].copy_from_slice(&own_b[..=word.len()]);
        a[..=word.len()].copy_from_slice(&own_a[..=word.len()]);
        record[..own.len()].copy_from_slice(own);
    }
    filing
}

// The entry of a record that may be stored, or why there is none; a new one is written.
fn decide(record: &[u8], holder: u16, register: &mut [u8]) -> Filing {
    let Some(r) = read(register) else { return refused(12, 0) };
    if let Some(&number) = r.numbers.get(record) {
        return entry(number, 1);
    }
    if r.live.get(&holder).is_some_and(|&live| live >= LIVE_MOST) {
        return refused(13, 0);
    }
    let (end, Some(number)) = (r.end, r.last.checked_add(1)) else { return refused(14, 0) };
    if register.len() - end < 9 + record.len() {
        return refused(14, 0);
    }
    put_entry(number, holder, record, &mut register[end..]);
    register[3..7].copy_from_slice(&number.to_be_bytes());
    entry(number, 0)
}

// An entry, and a byte 00 behind it if a byte is free.
pub fn put_entry(number: u32, holder: u16, record: &[u8], out: &mut [u8]) -> usize {
    let n = 9 + record.len();
    out[0] = 0x11;
    out[1..3].copy_from_slice(&(6 + record.len() as u16).to_be_bytes());
    out[3..7].copy_from_slice(&number.to_be_bytes());
    out[7..9].copy_from_slice(&holder.to_be_bytes());
    out[9..n].copy_from_slice(record);
    if n < out.len() {
        out[n] = 0;
    }
    n
}

pub fn check_register(register: &[u8]) -> Answer {
    match read(register) {
        Some(_) => Answer { refusal: 0, value: 0 },
        None => Answer { refusal: 12, value: 0 },
    }
}

pub fn live_entries(register: &[u8], holder: u16) -> Answer {
    match read(register) {
        Some(r) => Answer { refusal: 0, value: r.live.get(&holder).copied().unwrap_or(0) },
        None => Answer { refusal: 12, value: 0 },
    }
}
