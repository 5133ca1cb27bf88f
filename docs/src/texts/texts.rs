// Subscript notation: the proved library against a plain Rust program, and the time of both.
// Both are compared on many texts, with what is lent just large enough, larger, and too small: the answers, and every
// entry and byte that was lent. The records that were written are written out as texts and read again.

#[allow(dead_code)]
#[path = "../pairs/forms.rs"]
mod forms;
mod kinds;
mod library;
mod plain;
mod speed;
#[allow(dead_code)]
#[path = "../speed/words.rs"]
mod words;

use kinds::{Kind, KINDS};
use plain::{Answer, Power, ENTRIES, LIMIT};
use std::collections::{BTreeMap, HashSet};
use words::{Random, SEED};

const REFUSALS: [u64; 6] = [0, 9, 10, 11, 6, 7];

// The mismatches that are shown; all are counted.
const SHOWN: usize = 20;

type Call = fn(&[u8], &mut [u16], &mut [u16], &mut [u8]) -> Answer;

// What is lent with a text.
#[derive(Clone, PartialEq)]
struct Lent {
    b: Vec<u16>,
    a: Vec<u16>,
    record: Vec<u8>,
}

impl Lent {
    fn new([nb, na, nr]: [usize; 3]) -> Lent {
        Lent { b: vec![0xabcd; nb], a: vec![0xdcba; na], record: vec![0xee; nr] }
    }

    fn call(&mut self, f: Call, text: &[u8]) -> Answer {
        f(text, &mut self.b, &mut self.a, &mut self.record)
    }

    // Whether all behind what an answer writes, or all if it is a refusal, is as it was in `before`.
    fn unchanged(&self, before: &Lent, answer: Answer) -> bool {
        let (entries, bytes) = if answer.refusal > 0 { (0, 0) } else { (ENTRIES, answer.value as usize) };
        behind(entries, &self.b, &before.b)
            && behind(entries, &self.a, &before.a)
            && behind(bytes, &self.record, &before.record)
    }
}

// Whether n stand in both, and the same behind them.
fn behind<T: PartialEq>(n: usize, x: &[T], y: &[T]) -> bool {
    n <= x.len() && n <= y.len() && x[n..] == y[n..]
}

#[derive(Default)]
struct Compared {
    mismatches: usize,
    records: HashSet<Vec<u8>>,
    spelled: usize,
    changed: BTreeMap<u64, usize>,
}

impl Compared {
    fn same(&mut self, what: &str, same: bool, at: &[u8]) {
        if same {
            return;
        }
        self.mismatches += 1;
        if self.mismatches <= SHOWN {
            println!("mismatch, {what}, at {}", &at[..at.len().min(200)].escape_ascii());
        }
    }

    // Both programs on one text; the answer of the plain one, and what it was lent.
    fn text(&mut self, text: &[u8], sizes: [usize; 3]) -> (Answer, Lent) {
        let before = Lent::new(sizes);
        let mut lent = [before.clone(), before.clone()];
        let x = lent[0].call(library::text_to_record, text);
        let y = lent[1].call(plain::text_to_record, text);
        self.same("answer", x == y, text);
        self.same("tables", lent[0].b == lent[1].b && lent[0].a == lent[1].a, text);
        self.same("record", lent[0].record == lent[1].record, text);
        let [l, p] = lent;
        self.same("beyond", l.unchanged(&before, x), text);
        (y, p)
    }

    // Both programs on one record and a buffer of this size; the answer of the plain one, and its buffer.
    fn record(&mut self, record: &[u8], size: usize) -> (Answer, Vec<u8>) {
        let mut texts = [(); 2].map(|_| vec![0xee; size]);
        let x = library::record_to_text(record, &mut texts[0]);
        let y = plain::record_to_text(record, &mut texts[1]);
        self.same("answer for a record", x == y, record);
        self.same("text of a record", texts[0] == texts[1], record);
        let [l, p] = texts;
        let written = if x.refusal > 0 { 0 } else { x.value as usize };
        self.same("beyond the text", behind(written, &l, &vec![0xee; size]), record);
        (y, p)
    }

    // An accepted record that was not seen: its text, with a buffer that is larger, exact, one byte short and empty;
    // the text read again; and the record with a bit changed, cut short and without one of its entries.
    fn accepted(&mut self, record: &[u8], random: &mut Random) {
        if !self.records.insert(record.to_vec()) {
            return;
        }
        let mut large = vec![0; 4 * record.len()];
        let n = plain::record_to_text(record, &mut large).value as usize;
        self.record(record, n + 1 + random.below(9));
        let (answer, text) = self.record(record, n);
        self.same("length of the text", answer == Answer { refusal: 0, value: n as u64 }, record);
        for size in [n.saturating_sub(1), 0] {
            let refusal = if size < n { 7 } else { 0 };
            let (short, _) = self.record(record, size);
            self.same("short buffer", short == Answer { refusal, value: 0 }, record);
        }
        let (again, l) = self.text(&text, sizes(&text));
        self.same("text read again", again == Answer { refusal: 0, value: record.len() as u64 }, record);
        self.same("record again", l.record.starts_with(record), record);
        let place = random.below(record.len());
        let mut changed = record.to_vec();
        changed[place] ^= 1 << random.below(8);
        for bytes in [changed, record[..place].to_vec(), without_entry(record, random)] {
            let (answer, _) = self.record(&bytes, 4 * record.len());
            *self.changed.entry(answer.refusal).or_default() += 1;
        }
    }

    // Where the letters of a text make a word, word to record gives the same record.
    fn letters(&mut self, text: &[u8], record: &[u8]) {
        let Some(word) = word(text) else { return };
        self.spelled += 1;
        let n = word.len();
        let mut lent = Lent::new([n + 1, n + 1, 6 + 4 * n]);
        let answer = lent.call(library::word_to_record, &word);
        self.same("letters", answer == Answer { refusal: 0, value: record.len() as u64 }, text);
        self.same("record of the letters", lent.record.starts_with(record), text);
    }

    // The texts of a kind; how many answers each refusal was.
    fn kind(&mut self, kind: &Kind, random: &mut Random) -> [usize; 6] {
        let mut counts = [0; 6];
        for i in 0..kind.texts {
            let text = (kind.text)(random);
            let [nb, na, nr] = sizes(&text);
            let more = [nb + random.below(4), na + random.below(4), nr + random.below(9)];
            for lent in [[nb, na, nr], more, short([nb, na, nr], i)] {
                let (answer, l) = self.text(&text, lent);
                match REFUSALS.iter().position(|&n| n == answer.refusal) {
                    Some(n) => counts[n] += 1,
                    None => self.same("a refusal of another call", false, &text),
                }
                if answer.refusal == 0 {
                    let record = &l.record[..answer.value as usize];
                    self.accepted(record, random);
                    self.letters(&text, record);
                }
            }
        }
        counts
    }
}

// A record without one of its entries, if it has any: another record, or a form that is not reduced.
fn without_entry(record: &[u8], random: &mut Random) -> Vec<u8> {
    let mut bytes = record.to_vec();
    let all = record.len() / 4 - 1;
    if all == 0 {
        return bytes;
    }
    let first = u16::from_be_bytes([record[1], record[2]]) as usize;
    let i = 4 * random.below(all);
    let (field, entry) = if i < first { (0, 3 + i) } else { (3 + first, 6 + i) };
    let size = u16::from_be_bytes([record[field + 1], record[field + 2]]) - 4;
    bytes[field + 1..field + 3].copy_from_slice(&size.to_be_bytes());
    bytes.drain(entry..entry + 4);
    bytes
}

// What a text needs: the entries of the tables, and the bytes of the record buffer.
fn sizes(text: &[u8]) -> [usize; 3] {
    [ENTRIES, ENTRIES, 6 + 4 * plain::powers(text).map_or(0, |(_, sum)| sum)]
}

// Too little in one way or another.
fn short([nb, na, nr]: [usize; 3], way: usize) -> [usize; 3] {
    match way % 8 {
        0 => [nb - 1, na, nr],
        1 => [nb, na - 1, nr],
        2 => [nb, na, nr - 1],
        3 => [0, na, nr],
        4 => [nb, 0, nr],
        5 => [nb, na, 0],
        6 => [0, 0, 0],
        _ => [nb - 1, na - 1, nr - 1],
    }
}

// The letters of a text that is right, if they are few enough for a word.
fn word(text: &[u8]) -> Option<Vec<u8>> {
    let (powers, _) = plain::powers(text).ok()?;
    let each = |power: &Power| if power.index == 0 { 1 } else { 2 * power.index - 1 };
    let all: usize = powers.iter().map(|power| power.exponent * each(power)).sum();
    (all <= LIMIT).then(|| powers.iter().flat_map(|power| letters(power).repeat(power.exponent)).collect())
}

fn letters(power: &Power) -> Vec<u8> {
    match (power.index, power.inverse) {
        (0, false) => b"a".to_vec(),
        (0, true) => b"A".to_vec(),
        (k, inverse) => [vec![b'A'; k - 1], vec![if inverse { b'B' } else { b'b' }], vec![b'a'; k - 1]].concat(),
    }
}

fn main() {
    println!("subscript notation, seed {SEED:#018x}");
    println!("answers on each text with what is lent exact, larger and short, by refusal");
    let mut random = Random::new(SEED + 4);
    let mut c = Compared::default();
    let row = |name, texts, counts: [usize; 6]| {
        let columns: String = counts.iter().map(|n| format!("{n:>9}")).collect();
        println!("{name:<36}{texts:>7}{columns}");
    };
    let columns: String = REFUSALS[1..].iter().map(|n| format!("{n:>9}")).collect();
    println!("{:<36}{:>7}{:>9}{columns}", "texts", "number", "accepted");
    let mut all = [0; 6];
    for kind in KINDS {
        let counts = c.kind(kind, &mut random);
        row(kind.name, kind.texts, counts);
        (0..6).for_each(|i| all[i] += counts[i]);
    }
    row("all", KINDS.iter().map(|kind| kind.texts).sum(), all);
    println!("{} of the accepted calls again by word to record, on the letters of the text", c.spelled);
    println!("{} different records written out and read again", c.records.len());
    let changed: Vec<String> = c.changed.iter().map(|(refusal, n)| format!("{n} with {refusal}")).collect();
    println!("of these, with a bit changed, cut short, without an entry: {} (0: accepted)", changed.join(", "));
    println!();
    speed::measure(&mut c, &mut random);
    println!();
    println!("{} mismatches", c.mismatches);
    if c.mismatches > 0 {
        std::process::exit(1);
    }
}
