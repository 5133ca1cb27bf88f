// Word to record: the time of the proved library against that of a plain Rust program that keeps two arrays.
// First both are compared, byte for byte, on every word that is measured and on many more; then both are timed. With
// `--cfg beside` another archive takes the place of the plain program.

mod plain;
mod words;

use plain::{Answer, LIMIT};
use std::hint::black_box;
use std::time::Instant;
use words::{Random, Set, SEED};

const RUNS: usize = 11;
const ENTRIES: usize = LIMIT + 1;
const BYTES: usize = 6 + 4 * LIMIT;

type Export = unsafe extern "C" fn(*const u8, usize, *mut u16, usize, *mut u16, usize, *mut u8, usize) -> Answer;

extern "C" {
    fn thompson_word_to_record(
        word: *const u8,
        word_len: usize,
        b: *mut u16,
        b_len: usize,
        a: *mut u16,
        a_len: usize,
        record: *mut u8,
        record_len: usize,
    ) -> Answer;
    #[cfg(beside)]
    fn beside_word_to_record(
        word: *const u8,
        word_len: usize,
        b: *mut u16,
        b_len: usize,
        a: *mut u16,
        a_len: usize,
        record: *mut u8,
        record_len: usize,
    ) -> Answer;
}

type Call = fn(&[u8], &mut [u16], &mut [u16], &mut [u8]) -> Answer;

// A call of an archive on slices.
#[inline(always)]
fn on_slices(f: Export, word: &[u8], b: &mut [u16], a: &mut [u16], record: &mut [u8]) -> Answer {
    unsafe {
        f(
            word.as_ptr(),
            word.len(),
            b.as_mut_ptr(),
            b.len(),
            a.as_mut_ptr(),
            a.len(),
            record.as_mut_ptr(),
            record.len(),
        )
    }
}

fn library(word: &[u8], b: &mut [u16], a: &mut [u16], record: &mut [u8]) -> Answer {
    on_slices(thompson_word_to_record, word, b, a, record)
}

// The program beside the library: the plain one, or another archive.
#[cfg(not(beside))]
const OTHER: (&str, Call) = ("plain", plain::word_to_record);
#[cfg(beside)]
const OTHER: (&str, Call) = ("other", other_library);

#[cfg(beside)]
fn other_library(word: &[u8], b: &mut [u16], a: &mut [u16], record: &mut [u8]) -> Answer {
    on_slices(beside_word_to_record, word, b, a, record)
}

// What is lent with a word.
#[derive(PartialEq)]
struct Lent {
    b: Vec<u16>,
    a: Vec<u16>,
    record: Vec<u8>,
}

impl Lent {
    fn new(nb: usize, na: usize, nr: usize) -> Lent {
        Lent { b: vec![0xabcd; nb], a: vec![0xdcba; na], record: vec![0xee; nr] }
    }

    fn call(&mut self, f: Call, word: &[u8]) -> Answer {
        f(word, &mut self.b, &mut self.a, &mut self.record)
    }
}

// Both programs on one word: the same answer, and the same in all that is lent, beyond the record and the form too.
fn compare(word: &[u8], l: &mut Lent, p: &mut Lent) -> Answer {
    let x = l.call(library, word);
    let y = p.call(OTHER.1, word);
    if x != y || l != p {
        println!("different at {}", String::from_utf8_lossy(word));
        println!("library {x:?}, {} {y:?}", OTHER.0);
        std::process::exit(1);
    }
    x
}

// As compare, for sizes that may be refused; a refusal leaves all that is lent as it was.
fn compare_sizes(word: &[u8], nb: usize, na: usize, nr: usize) {
    let mut l = Lent::new(nb, na, nr);
    let mut p = Lent::new(nb, na, nr);
    let x = compare(word, &mut l, &mut p);
    if x.refusal > 0 && l != Lent::new(nb, na, nr) {
        println!("altered on a refusal: {}", String::from_utf8_lossy(word));
        std::process::exit(1);
    }
}

// Words that are not measured: all short ones, random ones of all lengths, long ones at the limit, and refusals.
fn compare_others() -> usize {
    let mut l = Lent::new(ENTRIES, ENTRIES, BYTES);
    let mut p = Lent::new(ENTRIES, ENTRIES, BYTES);
    let mut count = 0;
    for n in 0..=8u32 {
        for code in 0..4usize.pow(n) {
            let word: Vec<u8> = (0..n).map(|i| b"aAbB"[code >> (2 * i) & 3]).collect();
            compare(&word, &mut l, &mut p);
            count += 1;
        }
    }
    let mut random = Random::new(SEED + 1);
    for n in 0..=LIMIT {
        let word = words::over(b"aAbB", n, &mut random);
        compare(&word, &mut l, &mut p);
        count += 1;
    }
    for n in [0, 1, 2, 9, LIMIT - 1, LIMIT, LIMIT + 1] {
        for last in *b"aAbB" {
            let mut word = vec![b'A'; n];
            word.push(last);
            for nb in [n, n + 1, n + 2, n + 3] {
                for na in [n, n + 1, n + 2, n + 3] {
                    for nr in [4 * n, 4 * n + 9, 4 * n + 10, 4 * n + 11] {
                        compare_sizes(&word, nb, na, nr);
                        count += 1;
                    }
                }
            }
        }
    }
    for byte in 0..=255 {
        for place in [0, 1, 7, LIMIT - 1, LIMIT] {
            for behind in [0, 1] {
                let mut word = words::over(b"aAbB", place, &mut random);
                word.push(byte);
                word.extend(vec![b'c'; behind]);
                compare_sizes(&word, ENTRIES, ENTRIES, BYTES);
                compare_sizes(&word, 0, 0, 0);
                count += 2;
            }
        }
    }
    count
}

// Microseconds a word.
fn time(f: Call, set: &Set, lent: &mut Lent) -> f64 {
    let start = Instant::now();
    for word in &set.words {
        black_box(lent.call(f, black_box(word)));
    }
    start.elapsed().as_secs_f64() * 1e6 / set.words.len() as f64
}

fn median(mut times: Vec<f64>) -> f64 {
    times.sort_by(f64::total_cmp);
    times[times.len() / 2]
}

fn main() {
    println!("word to record, seed {SEED:#018x}, median of {RUNS} runs, both programs in turn in each run");
    println!("both are lent two tables of {ENTRIES} entries and a buffer of {BYTES} bytes, not cleared between words");
    println!("same bytes: {} words and refusals that are not timed", compare_others());
    println!();
    println!(
        "{:<24}{:>7}{:>9}{:>14}{:>12}{:>8}  compared",
        "set",
        "words",
        "letters",
        "library us",
        format!("{} us", OTHER.0),
        "ratio"
    );
    for set in words::sets(LIMIT) {
        let mut l = Lent::new(ENTRIES, ENTRIES, BYTES);
        let mut p = Lent::new(ENTRIES, ENTRIES, BYTES);
        for word in &set.words {
            compare(word, &mut l, &mut p);
        }
        let mut of_library = Vec::new();
        let mut of_other = Vec::new();
        for _ in 0..RUNS {
            of_library.push(time(library, &set, &mut l));
            of_other.push(time(OTHER.1, &set, &mut p));
        }
        let x = median(of_library);
        let y = median(of_other);
        println!(
            "{:<24}{:>7}{:>9}{:>14.2}{:>12.2}{:>8.3}  same bytes",
            set.name,
            set.words.len(),
            set.words[0].len(),
            x,
            y,
            x / y
        );
    }
}
