// The lists that are compared and measured, from a fixed seed.

use crate::records::LIMIT;
use crate::words::{over, sets, Random};

const LETTERS: &[u8] = b"aAbB";

// Bytes that are no letters and end no line.
const OTHERS: &[u8] = b"\0\r\t xXcC@`\x7f\x80\xe1\xff";

// A kind of lists, and how many of it; of a list that is measured, the calls of one run.
pub struct Kind {
    pub name: &'static str,
    pub count: usize,
    pub list: fn(&mut Random) -> Vec<u8>,
}

pub const MEASURED: &[Kind] = &[
    Kind { name: "one word of 16 letters, repeated", count: 10_000, list: |r| ended(1, r, |r| word(16, 16, r)) },
    Kind { name: "words of 0 to 10 letters", count: 1, list: |r| ended(100_000, r, |r| word(0, 10, r)) },
    Kind { name: "words of 16 letters", count: 1, list: |r| ended(100_000, r, |r| word(16, 16, r)) },
    Kind { name: "words of 256 letters", count: 1, list: |r| ended(10_000, r, |r| word(256, 256, r)) },
    Kind { name: "words of 4,096 letters", count: 1, list: |r| ended(1000, r, |r| word(4096, 4096, r)) },
    Kind { name: "words of full length", count: 1, list: |r| ended(2000, r, |r| word(LIMIT, LIMIT, r)) },
    Kind { name: "freely reduced, full length", count: 1, list: |_| set("freely reduced random") },
    Kind { name: "a^n, full length", count: 1, list: |_| set("a^n") },
    Kind { name: "empty lines", count: 1, list: |r| ended(1_000_000, r, |_| vec![]) },
    Kind { name: "0 to 32 letters, some refused", count: 1, list: |r| ended(100_000, r, |r| mixed(32, r)) },
    Kind { name: "0 to 4,096 letters, some refused", count: 1, list: |r| ended(1000, r, |r| mixed(4096, r)) },
    Kind { name: "16 bytes, all refused", count: 1, list: |r| ended(100_000, r, |r| spoiled(word(15, 15, r), r)) },
    Kind { name: "one unended line of 10,000,000 bytes", count: 1, list: |_| vec![b'a'; 10_000_000] },
];

pub const COMPARED: &[Kind] = &[
    Kind { name: "up to ten short words", count: 4000, list: |r| any_end(10, r, |r| word(0, 12, r)) },
    Kind { name: "the same, some refused", count: 4000, list: |r| any_end(10, r, |r| mixed(12, r)) },
    Kind { name: "long words behind short ones", count: 200, list: |r| any_end(9, r, any_length) },
    Kind { name: "lines at the limit", count: 200, list: |r| any_end(5, r, |r| word(LIMIT - 2, LIMIT + 2, r)) },
    Kind { name: "ends of line alone", count: 500, list: |r| vec![b'\n'; r.below(60)] },
    Kind { name: "letters and ends of line", count: 3000, list: |r| bytes(b"aAbB\n", r) },
    Kind { name: "letters, CR, NUL and ends of line", count: 3000, list: |r| bytes(b"aAbBaAbBaAbB\n\n\n\r\0", r) },
    Kind { name: "any bytes", count: 2000, list: |r| (0..r.below(90)).map(|_| r.below(256) as u8).collect() },
    Kind { name: "a thousand lines", count: 100, list: |r| any_end(1000, r, |r| mixed(20, r)) },
];

fn word(least: usize, most: usize, random: &mut Random) -> Vec<u8> {
    let n = least + random.below(most - least + 1);
    over(LETTERS, n, random)
}

// A word with a byte at any place that is no letter.
fn spoiled(mut word: Vec<u8>, random: &mut Random) -> Vec<u8> {
    word.insert(random.below(word.len() + 1), OTHERS[random.below(OTHERS.len())]);
    word
}

// One in four is refused: one in 256 has too many letters, the others a byte that is no letter.
fn mixed(most: usize, random: &mut Random) -> Vec<u8> {
    match random.below(256) {
        0 => word(LIMIT + 1, LIMIT + 99, random),
        1..64 => spoiled(word(0, most, random), random),
        _ => word(0, most, random),
    }
}

fn any_length(random: &mut Random) -> Vec<u8> {
    let most = [3, 30, 300, LIMIT][random.below(4)];
    mixed(most, random)
}

// A set of words of ../speed/words.rs.
fn set(name: &str) -> Vec<u8> {
    let set = sets(LIMIT).into_iter().find(|set| set.name == name).unwrap();
    set.words.join(&b'\n')
}

// So many words, each with an end of line.
fn ended(words: usize, random: &mut Random, word: fn(&mut Random) -> Vec<u8>) -> Vec<u8> {
    let mut list = Vec::new();
    for _ in 0..words {
        list.extend(word(random));
        list.push(b'\n');
    }
    list
}

// Up to so many words, the last with or without an end of line.
fn any_end(most: usize, random: &mut Random, word: fn(&mut Random) -> Vec<u8>) -> Vec<u8> {
    let words = random.below(most + 1);
    let mut list = ended(words, random, word);
    if random.below(2) == 0 {
        list.pop();
    }
    list
}

fn bytes(over_these: &[u8], random: &mut Random) -> Vec<u8> {
    let n = random.below(90);
    over(over_these, n, random)
}
