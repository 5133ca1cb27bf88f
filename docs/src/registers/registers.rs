// The register: the proved library against a plain Rust program with a hash map, and the time of both.
// Both are compared on many registers, well-formed and not, with what is lent for the word just large enough, larger
// and too small: the answers, and every entry and byte that was lent.

mod collide;
mod exchange;
mod kinds;
mod library;
mod plain;
#[path = "../speed/plain.rs"]
mod records;
mod speed;
#[allow(dead_code)]
#[path = "../speed/words.rs"]
mod words;

use kinds::{Kind, KINDS};
use plain::Filing;
use records::Answer;
use words::{Random, SEED};

// The answers that are counted: a new entry, an entry that was there, and the refusals.
const ANSWERS: [&str; 9] = ["new", "present", "1", "2", "6", "7", "12", "13", "14"];

// The mismatches that are shown; all are counted.
const SHOWN: usize = 20;

pub type Call = fn(&[u8], &mut [u16], &mut [u16], &mut [u8], u16, &mut [u8]) -> Filing;

// What is lent with a word, and the register.
#[derive(Clone, PartialEq)]
pub struct Lent {
    b: Vec<u16>,
    a: Vec<u16>,
    record: Vec<u8>,
    register: Vec<u8>,
}

impl Lent {
    pub fn new([nb, na, nr]: [usize; 3], register: &[u8]) -> Lent {
        Lent { b: vec![0xa5a5; nb], a: vec![0x5a5a; na], record: vec![0xee; nr], register: register.to_vec() }
    }

    pub fn call(&mut self, f: Call, word: &[u8], holder: u16) -> Filing {
        f(word, &mut self.b, &mut self.a, &mut self.record, holder, &mut self.register)
    }
}

// What a word needs: the entries of the tables, and the bytes of the record buffer.
pub fn sizes(word: &[u8]) -> [usize; 3] {
    [word.len() + 1, word.len() + 1, 6 + 4 * word.len()]
}

#[derive(Default)]
pub struct Compared {
    mismatches: usize,
    calls: usize,
    counts: [usize; 9],
}

impl Compared {
    pub fn same(&mut self, what: &str, same: bool, register: &[u8]) {
        if !same {
            self.mismatches += 1;
            if self.mismatches <= SHOWN {
                println!("mismatch, {what}, at the register {:?}", &register[..register.len().min(200)]);
            }
        }
    }

    // Both programs on one word and one register: the answers, and all that was lent; the plain program's afterwards.
    pub fn filing(&mut self, word: &[u8], sizes: [usize; 3], holder: u16, register: &[u8]) -> (Filing, Lent) {
        let before = Lent::new(sizes, register);
        let mut lent = [before.clone(), before.clone()];
        let x = lent[0].call(library::enter_word, word, holder);
        let y = lent[1].call(plain::enter_word, word, holder);
        self.same("answer", x == y, register);
        self.same("what was lent", lent[0] == lent[1], register);
        let [l, p] = lent;
        self.same("nothing altered on a refusal", x.refusal == 0 || l == before, register);
        self.same("no register altered where present", x.present == 0 || l.register == before.register, register);
        self.calls += 1;
        self.counts[answer_of(y)] += 1;
        (y, p)
    }

    // The two calls that read a register.
    fn reading(&mut self, register: &[u8], holder: u16) -> Answer {
        let x = library::check_register(register);
        self.same("register check", x == plain::check_register(register), register);
        let live = library::live_entries(register, holder);
        self.same("live entries", live == plain::live_entries(register, holder), register);
        self.calls += 2;
        x
    }

    // A register: both calls that read it, then filings, each into what the one before it left.
    fn register(&mut self, mut register: Vec<u8>, random: &mut Random) -> bool {
        let holder = |random: &mut Random| [random.below(3) * 7, random.below(30) * 7, 65535][random.below(3)] as u16;
        let h = holder(random);
        let answer = self.reading(&register, h);
        for _ in 0..if register.len() > 5000 { 2 } else { 4 } {
            let word = kinds::filed(random);
            let [nb, na, nr] = sizes(&word);
            let lent = match random.below(12) {
                0 => [nb - 1, na, nr],
                1 => [nb, na - 1, nr],
                2 => [nb, na, nr - 1],
                3 => [0, 0, 0],
                4 | 5 => [nb + random.below(4), na + random.below(4), nr + random.below(9)],
                _ => [nb, na, nr],
            };
            let h = holder(random);
            let (filing, after) = self.filing(&word, lent, h, &register);
            if filing.refusal == 0 {
                let accepted = library::check_register(&after.register).refusal == 0;
                self.same("well-formed afterwards", accepted, &register);
            }
            register = after.register;
        }
        answer.refusal == 0
    }

    // The registers of a kind; how many of them are well-formed.
    fn kind(&mut self, kind: &Kind, random: &mut Random) -> usize {
        (0..kind.registers).filter(|_| self.register((kind.make)(random), random)).count()
    }
}

// The place of an answer among those that are counted.
fn answer_of(filing: Filing) -> usize {
    match filing.refusal {
        0 => filing.present as usize,
        n => ANSWERS.iter().position(|&name| name == n.to_string()).unwrap(),
    }
}

fn main() {
    println!("the register, seed {SEED:#018x}");
    println!("{:<40}{:>10}{:>13}", "registers", "number", "well-formed");
    let mut random = Random::new(SEED + 5);
    let mut c = Compared::default();
    for kind in KINDS {
        let well = c.kind(kind, &mut random);
        println!("{:<40}{:>10}{well:>13}", kind.name, kind.registers);
    }
    println!("{} calls compared; the filings among them by their answer, refusals by number", c.calls);
    let counts: Vec<String> = ANSWERS.iter().zip(c.counts).map(|(name, n)| format!("{name}: {n}")).collect();
    println!("{}", counts.join(", "));
    println!();
    speed::measure(&mut c);
    println!();
    println!("{} mismatches", c.mismatches);
    if c.mismatches > 0 {
        std::process::exit(1);
    }
}
