// Record to word: the proved library against a plain Rust program that writes every letter of every power and deletes
// neighbouring inverse letters as they come, and the library's time on words of two sizes and on records it refuses.

#[path = "../pairs/forms.rs"]
mod forms;
#[allow(dead_code)]
#[path = "../pairs/plain.rs"]
mod plain;
#[allow(dead_code)]
#[path = "../speed/words.rs"]
mod words;

use std::collections::HashSet;
use std::hint::black_box;
use words::{Random, SEED};

const RUNS: usize = 11;
const LIMIT: usize = 4096;

#[repr(C)]
#[derive(Clone, Copy, PartialEq, Eq, Debug)]
struct Answer {
    refusal: u64,
    value: u64,
}

extern "C" {
    fn thompson_word_to_record(
        word: *const u8,
        word_len: usize,
        b: *mut u16,
        b_len: usize,
        a: *mut u16,
        a_len: usize,
        record: *mut u8,
        record_len: usize,
    ) -> Answer;
    fn thompson_check_record(record: *const u8, record_len: usize) -> Answer;
    fn thompson_record_to_word(record: *const u8, record_len: usize, word: *mut u8, word_len: usize) -> Answer;
    fn clock_gettime(clock: i32, seconds_and_nanoseconds: *mut [i64; 2]) -> i32;
}

fn word_to_record(word: &[u8]) -> Vec<u8> {
    let n = word.len();
    let mut b = vec![0u16; n + 1];
    let mut a = vec![0u16; n + 1];
    let mut record = vec![0u8; 6 + 4 * n];
    let r = unsafe {
        thompson_word_to_record(
            word.as_ptr(),
            n,
            b.as_mut_ptr(),
            b.len(),
            a.as_mut_ptr(),
            a.len(),
            record.as_mut_ptr(),
            record.len(),
        )
    };
    assert!(r.refusal == 0);
    record.truncate(r.value as usize);
    record
}

fn check_record(record: &[u8]) -> Answer {
    unsafe { thompson_check_record(record.as_ptr(), record.len()) }
}

fn spell(record: &[u8], word: &mut [u8]) -> Answer {
    unsafe { thompson_record_to_word(record.as_ptr(), record.len(), word.as_mut_ptr(), word.len()) }
}

// A letter behind a word without neighbouring inverse letters; the inverse of a letter is the letter in the other case.
fn put(word: &mut Vec<u8>, letter: u8, times: usize) {
    for _ in 0..times {
        if word.last() == Some(&(letter ^ 32)) {
            word.pop();
        } else {
            word.push(letter);
        }
    }
}

// The letters of x_k or, where `letter` is `B`, of its inverse.
fn put_generator(word: &mut Vec<u8>, k: usize, letter: u8) {
    if k == 0 {
        return put(word, letter - 1, 1);
    }
    put(word, b'A', k - 1);
    put(word, letter, 1);
    put(word, b'a', k - 1);
}

// Each power of the form, in order, letter by letter.
fn plain_spelling(b: &[u16], a: &[u16]) -> Vec<u8> {
    let mut word = Vec::new();
    for (k, &e) in b.iter().enumerate() {
        (0..e).for_each(|_| put_generator(&mut word, k, b'b'));
    }
    for (k, &e) in a.iter().enumerate().rev() {
        (0..e).for_each(|_| put_generator(&mut word, k, b'B'));
    }
    word
}

#[derive(Default)]
struct Compared {
    seen: HashSet<Vec<u8>>,
    mismatches: usize,
    records: usize,
    spelled: usize,
}

impl Compared {
    fn same(&mut self, what: &str, same: bool, record: &[u8]) {
        if !same {
            self.mismatches += 1;
            println!("mismatch, {what}, at the record {record:?}");
        }
    }

    // The library against the plain program on one record: a buffer with a few bytes more, one byte short, and none.
    fn record(&mut self, record: &[u8], more: usize) {
        if !self.seen.insert(record.to_vec()) {
            return;
        }
        self.records += 1;
        let [b, a] = plain::tables(record);
        let word = plain_spelling(&b, &a);
        if word.len() > LIMIT {
            return self.long(record);
        }
        self.spelled += 1;
        let mut buffer = vec![0xee; word.len() + more];
        let answer = spell(record, &mut buffer);
        self.same("letters", answer == Answer { refusal: 0, value: word.len() as u64 }, record);
        self.same("word", buffer[..word.len()] == word[..], record);
        self.same("bytes behind", buffer[word.len()..].iter().all(|&x| x == 0xee), record);
        self.same("record again", word_to_record(&word) == record, record);
        if !word.is_empty() {
            self.refused(record, word.len() - 1, Answer { refusal: 7, value: 0 });
            self.refused(record, 0, Answer { refusal: 7, value: 0 });
        }
    }

    fn long(&mut self, record: &[u8]) {
        for size in [0, LIMIT, 3 * LIMIT] {
            self.refused(record, size, Answer { refusal: 8, value: 0 });
        }
    }

    fn refused(&mut self, record: &[u8], size: usize, wanted: Answer) {
        let mut buffer = vec![0xee; size];
        self.same("refusal", spell(record, &mut buffer) == wanted, record);
        self.same("buffer at a refusal", buffer.iter().all(|&x| x == 0xee), record);
    }

    fn print(&mut self, what: &str) {
        println!("{what:<42}{:>7} records, {:>6} of them spelled", self.records, self.spelled);
        self.records = 0;
        self.spelled = 0;
    }
}

// Every element of at most 8 letters.
fn compare_short(c: &mut Compared) {
    for n in 0..=8u32 {
        for code in 0..4usize.pow(n) {
            let word: Vec<u8> = (0..n).map(|i| b"aAbB"[code >> (2 * i) & 3]).collect();
            c.record(&word_to_record(&word), code % 3);
        }
    }
    c.print("all elements of at most 8 letters");
}

fn compare_words(c: &mut Compared, random: &mut Random) {
    for letters in [&b"aAbB"[..], b"abB", b"ab", b"Ab"] {
        for n in (0..=LIMIT).filter(|n| n % 7 == 0 || *n < 400) {
            let word = words::over(letters, n, random);
            c.record(&word_to_record(&word), n % 3);
        }
        c.print(&format!("words over {}", String::from_utf8_lossy(letters)));
    }
}

fn compare_forms(c: &mut Compared, random: &mut Random) {
    let mut refused = 0;
    for kind in forms::KINDS {
        for n in [1, 2, 3, 5, 17, 64, 255, 256, 257, 1000, LIMIT] {
            for _ in 0..5 {
                let record = forms::record(kind, n, random);
                c.record(&record, random.below(3));
                let mut changed = record.clone();
                let place = random.below(changed.len());
                changed[place] ^= 1 << random.below(8);
                for bytes in [&changed[..], &record[..place]] {
                    let r = check_record(bytes);
                    if r.refusal > 0 {
                        c.refused(bytes, LIMIT, r);
                        refused += 1;
                    }
                }
            }
        }
        c.print(kind.name);
    }
    println!("of these, with a bit changed or cut short: {refused} refused by the call as by the check");
}

// The time that this thread ran, in microseconds: that of other work on the machine does not count.
fn now() -> f64 {
    const CLOCK_THREAD_CPUTIME_ID: i32 = 3;
    let mut t = [0; 2];
    assert!(unsafe { clock_gettime(CLOCK_THREAD_CPUTIME_ID, &mut t) } == 0);
    t[0] as f64 * 1e6 + t[1] as f64 / 1e3
}

// Microseconds a call, over 200 calls.
fn time(call: &mut dyn FnMut(&[u8]) -> Answer, record: &[u8]) -> f64 {
    let start = now();
    for _ in 0..200 {
        black_box(call(black_box(record)));
    }
    (now() - start) / 200.0
}

fn median(mut times: Vec<f64>) -> f64 {
    times.sort_by(f64::total_cmp);
    times[times.len() / 2]
}

fn table(powers: &[(usize, u16)]) -> Vec<u16> {
    let mut table = vec![0; LIMIT + 1];
    powers.iter().for_each(|&(k, e)| table[k] = e);
    table
}

// Records by name, the b side and the a side.
fn timed() -> Vec<(&'static str, Vec<u8>)> {
    let rising: Vec<(usize, u16)> = (1..=1366).map(|k| (k, 1)).collect();
    let all: Vec<(usize, u16)> = (1..=LIMIT).map(|k| (k, 1)).collect();
    let of = |b: &[(usize, u16)], a: &[(usize, u16)]| plain::record(&table(b), &table(a));
    vec![
        ("the identity", of(&[], &[])),
        ("x2048^2", of(&[(2048, 2)], &[])),
        ("x1024^2", of(&[(1024, 2)], &[])),
        ("x1^4096", of(&[(1, 4096)], &[])),
        ("x1 x2 .. x1366", of(&rising, &[])),
        ("x1 x2 .. x683", of(&rising[..683], &[])),
        ("x4096", of(&[(4096, 1)], &[])),
        ("x4096^4096", of(&[(4096, 4096)], &[])),
        ("x1 x2 .. x4096", of(&all, &[])),
    ]
}

fn main() {
    let mut random = Random::new(SEED + 3);
    println!("record to word, seed {SEED:#018x}");
    let mut c = Compared::default();
    compare_short(&mut c);
    compare_words(&mut c, &mut random);
    compare_forms(&mut c, &mut random);
    println!();
    println!("times of the thread in us, median of {RUNS} runs of 200 calls");
    println!("{:<18}{:>10}{:>12}{:>10}{:>10}", "form", "refusal", "letters", "check", "spelling");
    let mut buffer = vec![0u8; LIMIT];
    for (name, record) in timed() {
        c.record(&record, 0);
        let answer = spell(&record, &mut buffer);
        let mut call = |bytes: &[u8]| spell(bytes, &mut buffer);
        let mut times = [(); 2].map(|_| Vec::new());
        for _ in 0..RUNS {
            times[0].push(time(&mut check_record, &record));
            times[1].push(time(&mut call, &record));
        }
        let [check, spelled] = times.map(median);
        println!("{name:<18}{:>10}{:>12}{check:>10.2}{spelled:>10.2}", answer.refusal, answer.value);
    }
    println!();
    println!("{} different records: {} mismatches", c.seen.len(), c.mismatches);
    if c.mismatches > 0 {
        std::process::exit(1);
    }
}
