// Two words: the proved library against a plain Rust program, and the time of both. They are compared on many pairs of
// words, the same, inverse and different, refused ones among them, with what is lent just large enough, larger and too
// small: the answers, and every entry and byte that was lent.

#[path = "../registers/exchange.rs"]
#[allow(dead_code)]
mod exchange;
mod library;
mod pairs;
mod plain;
#[path = "../speed/plain.rs"]
mod records;
mod speed;
#[allow(dead_code)]
#[path = "../speed/words.rs"]
mod words;

use pairs::{Kind, KINDS};
use records::Answer;
use words::{Random, SEED};

// What is lent with one word.
#[derive(Clone, PartialEq)]
pub struct Lent {
    pub b: Vec<u16>,
    pub a: Vec<u16>,
    pub record: Vec<u8>,
}

pub type Call = fn([&[u8]; 2], &mut [Lent; 2]) -> Answer;

// So many elements more or fewer than a word needs.
pub fn lent(word: &[u8], [b, a, record]: [isize; 3]) -> Lent {
    let size = |n: usize, more: isize| n.saturating_add_signed(more);
    Lent {
        b: vec![0xa5a5; size(word.len() + 1, b)],
        a: vec![0x5a5a; size(word.len() + 1, a)],
        record: vec![0xee; size(6 + 4 * word.len(), record)],
    }
}

#[derive(Default)]
pub struct Compared {
    calls: usize,
    mismatches: usize,
    same: usize,
    inverse: usize,
    different: usize,
    refused: usize,
}

impl Compared {
    pub fn right(&mut self, what: &str, right: bool, words: [&[u8]; 2]) {
        if !right {
            self.mismatches += 1;
            let text = words.map(|word| String::from_utf8_lossy(&word[..word.len().min(100)]).into_owned());
            println!("mismatch, {what}, at {text:?}");
        }
    }

    // Both programs on two words, in order and the other way round: the answers, and all that was lent.
    fn pair(&mut self, words: [&[u8]; 2], more: [[isize; 3]; 2]) {
        let before = [lent(words[0], more[0]), lent(words[1], more[1])];
        let (mut l, mut p) = (before.clone(), before.clone());
        let answer = library::same_element(words, &mut l);
        self.right("answer", answer == plain::same_element(words, &mut p), words);
        self.right("what was lent", l == p, words);
        self.right("nothing altered on a refusal", answer.refusal == 0 || l == before, words);
        self.calls += 1;
        match (answer.refusal, answer.value) {
            (0, 1) => self.same += 1,
            (0, 2) => self.inverse += 1,
            (0, _) => self.different += 1,
            _ => self.refused += 1,
        }
        if answer.refusal == 0 {
            let mut back = [before[1].clone(), before[0].clone()];
            let turned = library::same_element([words[1], words[0]], &mut back);
            self.right("the other way round", turned == answer, words);
        }
    }

    fn kind(&mut self, kind: &Kind, random: &mut Random) {
        for _ in 0..kind.pairs {
            let [u, v] = (kind.make)(random);
            let mut more = || match random.below(16) {
                0 => [-1, 0, 0],
                1 => [0, -1, 0],
                2 => [0, 0, -1],
                3 => [3, 1, 7],
                _ => [0, 0, 0],
            };
            let sizes = [more(), more()];
            self.pair([&u, &v], sizes);
        }
    }
}

fn main() {
    println!("two words, seed {SEED:#018x}");
    println!("{:<40}{:>8}{:>8}{:>9}{:>11}{:>9}", "pairs", "number", "same", "inverse", "different", "refused");
    let mut random = Random::new(SEED + 7);
    let (mut calls, mut mismatches) = (0, 0);
    for kind in KINDS {
        let mut c = Compared::default();
        c.kind(kind, &mut random);
        println!("{:<40}{:>8}{:>8}{:>9}{:>11}{:>9}", kind.name, c.calls, c.same, c.inverse, c.different, c.refused);
        calls += c.calls;
        mismatches += c.mismatches;
    }
    println!("{calls} calls compared\n");
    let mut c = Compared::default();
    speed::measure(&mut c, &mut random);
    println!("\n{} mismatches", mismatches + c.mismatches);
    if mismatches + c.mismatches > 0 {
        std::process::exit(1);
    }
}
