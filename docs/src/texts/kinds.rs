// The texts on which the library and the plain program are compared: 20,000 of many kinds, right ones and others.

use crate::forms;
use crate::plain::{self, LIMIT};
use crate::words::Random;

// A kind of texts, and how many of it.
pub struct Kind {
    pub name: &'static str,
    pub texts: usize,
    pub text: fn(&mut Random) -> Vec<u8>,
}

pub const KINDS: &[Kind] = &[
    Kind { name: "few tokens, small indices", texts: 4000, text: |r| written(&tokens(10, 5, 3, r)) },
    Kind { name: "many tokens, small indices", texts: 3000, text: |r| written(&tokens(80, 40, 9, r)) },
    Kind { name: "any index", texts: 2000, text: |r| written(&tokens(60, LIMIT, 3, r)) },
    Kind { name: "indices 0 to 2 and at the limit", texts: 2000, text: |r| written(&at_both_ends(8, 3, r)) },
    Kind { name: "exponents' sum about the limit", texts: 1500, text: about_the_limit },
    Kind { name: "tokens that are taken back", texts: 2000, text: taken_back },
    Kind { name: "a form's own text", texts: 1000, text: own_text },
    Kind { name: "up to 4096 tokens", texts: 100, text: many },
    Kind { name: "a byte changed, put in, taken out", texts: 2400, text: edited },
    Kind { name: "a misspelled token", texts: 1400, text: misspelled },
    Kind { name: "random bytes of the notation", texts: 400, text: |r| bytes(b"x0123456789^- ", 12, r) },
    Kind { name: "any bytes", texts: 200, text: |r| (0..r.below(12)).map(|_| r.below(256) as u8).collect() },
];

// An index and an exponent, of either sign and not 0.
pub type Token = (usize, isize);

pub fn written(tokens: &[Token]) -> Vec<u8> {
    let token = |&(k, e): &Token| if e == 1 { format!("x{k}") } else { format!("x{k}^{e}") };
    tokens.iter().map(token).collect::<Vec<_>>().join(" ").into_bytes()
}

// An exponent of at most this size.
pub fn exponent(most: usize, random: &mut Random) -> isize {
    let size = 1 + random.below(most) as isize;
    [size, -size][random.below(2)]
}

fn tokens(most: usize, high: usize, size: usize, random: &mut Random) -> Vec<Token> {
    (0..random.below(most + 1)).map(|_| (random.below(high + 1), exponent(size, random))).collect()
}

fn at_both_ends(most: usize, size: usize, random: &mut Random) -> Vec<Token> {
    let place = |(k, e): Token| (if k < 3 { k } else { LIMIT + k - 5 }, e);
    tokens(most, 5, size, random).into_iter().map(place).collect()
}

fn many(random: &mut Random) -> Vec<u8> {
    let high = [20, 500, 2000, LIMIT][random.below(4)];
    written(&tokens(LIMIT, high, 1, random))
}

// A sum from three below to three above the limit, in up to 40 tokens.
fn about_the_limit(random: &mut Random) -> Vec<u8> {
    let mut left = LIMIT - 3 + random.below(7);
    let high = [3, 100, LIMIT][random.below(3)];
    let share = 1 + left / (1 + random.below(40));
    let mut tokens = Vec::new();
    while left > 0 {
        let (k, e) = (random.below(high + 1), exponent(share.min(left).min(LIMIT), random));
        let e = if tokens.len() >= 40 { left.min(LIMIT) as isize * e.signum() } else { e };
        left -= e.unsigned_abs();
        tokens.push((k, e));
    }
    written(&tokens)
}

// Tokens, a few others, and the inverses of the first, last one first: the others conjugated.
fn taken_back(random: &mut Random) -> Vec<u8> {
    let outer = if random.below(2) == 0 { tokens(20, 6, 40, random) } else { at_both_ends(12, 100, random) };
    let inner = if random.below(2) == 0 { tokens(3, LIMIT, 2, random) } else { tokens(3, 30, 9, random) };
    let back = outer.iter().rev().map(|&(k, e)| (k, -e)).collect();
    written(&[outer, inner, back].concat())
}

fn own_text(random: &mut Random) -> Vec<u8> {
    let kind = &forms::KINDS[random.below(forms::KINDS.len())];
    let n = [1, 2, 3, 5, 17, 64, 255, 256, 257, 1000, LIMIT][random.below(11)];
    let mut text = vec![0; 16 * n];
    let answer = plain::record_to_text(&forms::record(kind, n, random), &mut text);
    assert!(answer.refusal == 0);
    text.truncate(answer.value as usize);
    text
}

fn right(random: &mut Random) -> Vec<u8> {
    written(&match random.below(3) {
        0 => tokens(6, 12, 30, random),
        1 => tokens(6, LIMIT, LIMIT, random),
        _ => at_both_ends(6, 3, random),
    })
}

fn edited(random: &mut Random) -> Vec<u8> {
    let mut text = right(random);
    let byte = b"xx0123456789^^--   X+*,.\t\n\0\xff"[random.below(28)];
    let place = random.below(text.len() + 1);
    match random.below(3) {
        0 => text.insert(place, byte),
        1 if place < text.len() => text[place] = byte,
        _ if place < text.len() => _ = text.remove(place),
        _ => text.push(byte),
    }
    text
}

// Pieces that are no tokens, each behind a bar; the first is empty.
const WRONG: &str = "|x|X0|x0^1|x0^0|x0^-0|x00|x01|x0^02|x0^-01|x0^+2|x0^|x0^-|x0^--1|x0^2^2|x0^2-1|x-1|x+1|x0\n|\tx0\
    |x0x1|0|^2|-1|a|bA|x1\u{b2}|x\u{661}|x4097|x9999|x10000|x65536|x4294967296|x18446744073709551616|x0^4097|x0^-4097\
    |x0^65538|x0^-65537|x0^4294967298|x0^18446744073709551618|x0^-18446744073709551617\
    |x340282366920938463463374607431768211456";

// A misspelled token, now and then behind tokens whose sum is above the limit, or in front of another one.
fn misspelled(random: &mut Random) -> Vec<u8> {
    let wrong: Vec<&[u8]> = WRONG.split('|').map(str::as_bytes).collect();
    let (first, second) = (wrong[random.below(wrong.len())], wrong[random.below(wrong.len())]);
    let (before, behind) = (right(random), right(random));
    match random.below(4) {
        0 => [b"x0^4096 x1", &before[..], first, &behind].join(&b' '),
        1 => [&before[..], first, &behind, second].join(&b' '),
        _ => [&before[..], first, &behind].join(&b' '),
    }
}

fn bytes(over: &[u8], most: usize, random: &mut Random) -> Vec<u8> {
    (0..random.below(most + 1)).map(|_| over[random.below(over.len())]).collect()
}
