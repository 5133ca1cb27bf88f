// The pairs of words on which the library and the plain program are compared.

use crate::records::LIMIT;
use crate::words::{over, Random};

// A kind of pairs, and how many of it.
pub struct Kind {
    pub name: &'static str,
    pub pairs: usize,
    pub make: fn(&mut Random) -> [Vec<u8>; 2],
}

pub const KINDS: &[Kind] = &[
    Kind { name: "up to 4 letters each", pairs: 40000, make: |r| [short(4, r), short(4, r)] },
    Kind { name: "up to 30 letters each", pairs: 5000, make: |r| [short(30, r), short(30, r)] },
    Kind { name: "a word, respelled", pairs: 10000, make: |r| beside(r, |w| w) },
    Kind { name: "a word, its inverse respelled", pairs: 10000, make: |r| beside(r, |w| inverse(&w)) },
    Kind { name: "a word, read backwards", pairs: 5000, make: |r| beside(r, |w| w.into_iter().rev().collect()) },
    Kind { name: "a word, each letter inverted", pairs: 5000, make: |r| beside(r, each_inverted) },
    Kind { name: "words for the identity", pairs: 2000, make: identities },
    Kind { name: "a byte that is no letter", pairs: 2000, make: |r| [odd(r), short(9, r)] },
    Kind { name: "the same in the second", pairs: 2000, make: |r| [short(9, r), odd(r)] },
    Kind { name: "4,090 to 4,098 letters, an inverse", pairs: 300, make: longest },
];

fn flipped(x: &u8) -> u8 {
    x ^ 32
}

fn each_inverted(word: Vec<u8>) -> Vec<u8> {
    word.iter().map(flipped).collect()
}

pub fn inverse(word: &[u8]) -> Vec<u8> {
    word.iter().rev().map(flipped).collect()
}

fn short(most: usize, random: &mut Random) -> Vec<u8> {
    let n = random.below(most + 1);
    over(b"aAbB", n, random)
}

// Another spelling of the same element: pairs that cancel, and relators.
fn respelled(mut word: Vec<u8>, random: &mut Random) -> Vec<u8> {
    for _ in 0..random.below(4) {
        let place = random.below(word.len() + 1);
        let one = [&b"aA"[..], b"Aa", b"bB", b"Bb", b"BAbabAABaa", b"AABaaBAbab"][random.below(6)];
        word.splice(place..place, one.iter().copied());
    }
    word
}

fn beside(random: &mut Random, change: fn(Vec<u8>) -> Vec<u8>) -> [Vec<u8>; 2] {
    let word = short(40, random);
    let other = respelled(change(word.clone()), random);
    [word, other]
}

fn identities(random: &mut Random) -> [Vec<u8>; 2] {
    [(); 2].map(|_| {
        let word = short(12, random);
        respelled([word.clone(), inverse(&word)].concat(), random)
    })
}

fn odd(random: &mut Random) -> Vec<u8> {
    let mut word = short(9, random);
    let place = random.below(word.len() + 1);
    word.insert(place, [b'c', 0, b' ', 0xff][random.below(4)]);
    word
}

fn longest(random: &mut Random) -> [Vec<u8>; 2] {
    let n = LIMIT - 6 + random.below(9);
    let word = over(b"aAbB", n, random);
    let other = inverse(&word);
    [word, other]
}
