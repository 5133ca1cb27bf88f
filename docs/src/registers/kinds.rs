// The registers and words on which the library and the plain program are compared.

use crate::exchange::{exchanged, smaller};
use crate::plain::{put_entry, MOST_BYTES};
use crate::records::{word_to_record, LIMIT};
use crate::words::{over, Random};

// A register as a list: number, holder and record of each entry, the last number given, and what stands behind.
pub struct Made {
    pub entries: Vec<(u32, u16, Vec<u8>)>,
    pub last: u32,
    pub behind: Vec<u8>,
}

// A kind of registers, and how many of it.
pub struct Kind {
    pub name: &'static str,
    pub registers: usize,
    pub make: fn(&mut Random) -> Vec<u8>,
}

pub const KINDS: &[Kind] = &[
    Kind { name: "fresh", registers: 1000, make: |r| bytes(&made(0, r)) },
    Kind { name: "a few entries", registers: 4000, make: |r| bytes(&few(r)) },
    Kind { name: "a hundred entries", registers: 1000, make: |r| bytes(&made(100, r)) },
    Kind { name: "a thousand entries", registers: 60, make: |r| bytes(&made(1000, r)) },
    Kind { name: "the highest numbers", registers: 1000, make: |r| bytes(&high(few(r))) },
    Kind { name: "a record twice", registers: 1000, make: twice },
    Kind { name: "the sides of a record exchanged", registers: 1000, make: greater },
    Kind { name: "an element and its inverse", registers: 1000, make: both_ways },
    Kind { name: "more than four of a holder", registers: 1000, make: crowded },
    Kind { name: "numbers out of order", registers: 1000, make: disordered },
    Kind { name: "one to three bytes changed", registers: 6000, make: |r| changed(bytes(&few(r)), r) },
    Kind { name: "a byte of a hundred entries changed", registers: 600, make: |r| changed(bytes(&made(100, r)), r) },
    Kind { name: "cut off", registers: 2000, make: |r| cut(bytes(&few(r)), r) },
    Kind { name: "a byte put in or taken out", registers: 2000, make: |r| shifted(bytes(&few(r)), r) },
    Kind { name: "bytes without a 00 behind", registers: 1000, make: |r| behind(bytes(&bare(few(r))), r) },
    Kind { name: "any bytes behind a first field", registers: 1000, make: |r| behind(vec![16, 0, 4, 0, 0, 0, 9], r) },
    Kind { name: "any bytes", registers: 500, make: |r| any(r.below(60), r) },
    Kind { name: "65,534 to 65,539 bytes", registers: 60, make: longest },
];

// The record of a word.
pub fn record(word: &[u8]) -> Vec<u8> {
    let n = word.len();
    let mut record = vec![0; 6 + 4 * n];
    let answer = word_to_record(word, &mut vec![0; n + 1], &mut vec![0; n + 1], &mut record);
    record.truncate(answer.value as usize);
    record
}

// A word of few letters, so that elements come again.
pub fn word(random: &mut Random) -> Vec<u8> {
    let most = [4, 6, 9, 30][random.below(4)];
    let n = random.below(most);
    over(b"aAbB", n, random)
}

// The inverse of a word.
fn inverse(word: &[u8]) -> Vec<u8> {
    word.iter().rev().map(|x| x ^ 32).collect()
}

// Another spelling of the same element: pairs that cancel, and relators.
pub fn respelled(word: &[u8], random: &mut Random) -> Vec<u8> {
    let mut word = word.to_vec();
    for _ in 0..random.below(4) {
        let place = random.below(word.len() + 1);
        let one = [&b"aA"[..], b"Aa", b"bB", b"Bb", b"BAbabAABaa", b"AABaaBAbab"][random.below(6)];
        word.splice(place..place, one.iter().copied());
    }
    word
}

// Up to so many entries of different records, at most four of a holder.
fn made(most: usize, random: &mut Random) -> Made {
    let mut entries: Vec<(u32, u16, Vec<u8>)> = Vec::new();
    let mut number = 0;
    let mut records = std::collections::HashSet::new();
    for e in 0..most {
        number += 1 + [0, 0, 0, random.below(5)][random.below(4)] as u32;
        let record = smaller(&record(&if most > 50 { over(b"aAbB", 14, random) } else { word(random) }));
        if records.insert(record.clone()) {
            entries.push((number, (e / 4) as u16 * 7, record));
        }
    }
    let n = random.below(60);
    let behind = if random.below(4) == 0 { vec![] } else { [vec![0], any(n, random)].concat() };
    Made { entries, last: number + random.below(3) as u32, behind }
}

fn few(random: &mut Random) -> Made {
    let n = random.below(12);
    made(n, random)
}

fn bare(mut made: Made) -> Made {
    made.behind.clear();
    made
}

// The same entries with the last number given at most three below the highest number there is.
fn high(mut made: Made) -> Made {
    let up = u32::MAX - made.last - (made.behind.len() % 3) as u32;
    made.entries.iter_mut().for_each(|e| e.0 += up);
    made.last += up;
    made
}

pub fn bytes(made: &Made) -> Vec<u8> {
    let mut out = vec![0x10, 0, 4];
    out.extend(made.last.to_be_bytes());
    for (number, holder, record) in &made.entries {
        let mut entry = vec![0; 9 + record.len()];
        put_entry(*number, *holder, record, &mut entry);
        out.extend(entry);
    }
    out.extend(&made.behind);
    out
}

fn any(n: usize, random: &mut Random) -> Vec<u8> {
    (0..n).map(|_| random.below(256) as u8).collect()
}

fn twice(random: &mut Random) -> Vec<u8> {
    let mut made = few(random);
    if let [first, .., last] = &mut made.entries[..] {
        last.2 = first.2.clone();
    }
    bytes(&made)
}

// One record, of the registers that have any, is the greater of the two, unless it is that of the identity.
fn greater(random: &mut Random) -> Vec<u8> {
    let mut made = few(random);
    let n = made.entries.len();
    if n > 0 {
        let entry = &mut made.entries[random.below(n)];
        entry.2 = exchanged(&entry.2);
    }
    bytes(&made)
}

// The last record is the first one exchanged.
fn both_ways(random: &mut Random) -> Vec<u8> {
    let mut made = few(random);
    if let [first, .., last] = &mut made.entries[..] {
        last.2 = exchanged(&first.2);
    }
    bytes(&made)
}

// Holders that have up to six.
fn crowded(random: &mut Random) -> Vec<u8> {
    let mut made = made(24, random);
    let few = 1 + random.below(3);
    made.entries.iter_mut().enumerate().for_each(|(i, e)| e.1 = (i % few) as u16);
    bytes(&made)
}

fn disordered(random: &mut Random) -> Vec<u8> {
    let mut made = few(random);
    for _ in 0..1 + random.below(2) {
        let n = made.entries.len();
        if n > 0 {
            made.entries[random.below(n)].0 = random.below(n + 2) as u32;
        }
    }
    bytes(&made)
}

fn changed(mut bytes: Vec<u8>, random: &mut Random) -> Vec<u8> {
    for _ in 0..1 + random.below(3) {
        let place = random.below(bytes.len());
        bytes[place] = [bytes[place] ^ 1 << random.below(8), 0, 0x11, random.below(256) as u8][random.below(4)];
    }
    bytes
}

fn cut(mut bytes: Vec<u8>, random: &mut Random) -> Vec<u8> {
    let n = random.below(bytes.len() + 1);
    bytes.truncate(n);
    bytes
}

fn shifted(mut bytes: Vec<u8>, random: &mut Random) -> Vec<u8> {
    let place = random.below(bytes.len());
    match random.below(2) {
        0 => bytes.insert(place, [0, 1, 0x11, 0xff][random.below(4)]),
        _ => _ = bytes.remove(place),
    }
    bytes
}

fn behind(mut bytes: Vec<u8>, random: &mut Random) -> Vec<u8> {
    let n = random.below(30);
    bytes.push([0x10, 0x11, 0x11, 0x12][random.below(4)]);
    bytes.extend(any(n, random));
    bytes
}

fn longest(random: &mut Random) -> Vec<u8> {
    let mut bytes = bytes(&few(random));
    bytes.resize(MOST_BYTES - 2 + random.below(6), 0);
    bytes
}

// A word to be filed, mostly of few letters, so that its element is often there; now and then one that is refused.
pub fn filed(random: &mut Random) -> Vec<u8> {
    let mut word = word(random);
    match random.below(30) {
        0 => word.push(b'c'),
        1 => word = vec![b'a'; LIMIT + random.below(2)],
        2 => word.insert(0, 0),
        3..=9 => word = respelled(&inverse(&word), random),
        _ => word = respelled(&word, random),
    }
    word
}
