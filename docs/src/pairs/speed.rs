// Tree pair and length: the proved library against a plain Rust program, and its time in two sizes.
// Both are compared on many records, those that are timed too: the number of carets, every byte of the two buffers, and
// the length by both calls, which is held to the shortest words as well. The library is timed on forms of each kind, in
// two sizes, and its two calls for the length side by side on small forms.

mod forms;
mod plain;
#[path = "../speed/words.rs"]
mod words;

use std::collections::HashSet;
use std::hint::black_box;
use words::{Random, SEED};

const RUNS: usize = 11;
const LIMIT: usize = 4096;
const CARETS: usize = 2 * LIMIT + 1;
const SHAPE: usize = 2 * CARETS + 1;
// No form of this size has more than 16 carets.
const SMALL: usize = 7;

#[repr(C)]
#[derive(Clone, Copy, PartialEq, Eq, Debug)]
struct Answer {
    refusal: u64,
    value: u64,
}

extern "C" {
    fn thompson_word_to_record(
        word: *const u8,
        word_len: usize,
        b: *mut u16,
        b_len: usize,
        a: *mut u16,
        a_len: usize,
        record: *mut u8,
        record_len: usize,
    ) -> Answer;
    fn thompson_check_record(record: *const u8, record_len: usize) -> Answer;
    fn thompson_record_to_tree_pair(
        record: *const u8,
        record_len: usize,
        t_minus: *mut u8,
        t_minus_len: usize,
        t_plus: *mut u8,
        t_plus_len: usize,
    ) -> Answer;
    fn thompson_record_to_length(record: *const u8, record_len: usize) -> Answer;
    fn thompson_record_to_label_length(record: *const u8, record_len: usize) -> Answer;
    fn clock_gettime(clock: i32, seconds_and_nanoseconds: *mut [i64; 2]) -> i32;
}

fn word_to_record(word: &[u8]) -> Vec<u8> {
    let n = word.len();
    let mut b = vec![0u16; n + 1];
    let mut a = vec![0u16; n + 1];
    let mut record = vec![0u8; 6 + 4 * n];
    let r = unsafe {
        thompson_word_to_record(
            word.as_ptr(),
            n,
            b.as_mut_ptr(),
            b.len(),
            a.as_mut_ptr(),
            a.len(),
            record.as_mut_ptr(),
            record.len(),
        )
    };
    assert!(r.refusal == 0);
    record.truncate(r.value as usize);
    record
}

fn check_record(record: &[u8]) -> Answer {
    unsafe { thompson_check_record(record.as_ptr(), record.len()) }
}

fn tree_pair(record: &[u8], minus: &mut [u8], plus: &mut [u8]) -> Answer {
    unsafe {
        thompson_record_to_tree_pair(
            record.as_ptr(),
            record.len(),
            minus.as_mut_ptr(),
            minus.len(),
            plus.as_mut_ptr(),
            plus.len(),
        )
    }
}

fn length(record: &[u8]) -> Answer {
    unsafe { thompson_record_to_length(record.as_ptr(), record.len()) }
}

fn label_length(record: &[u8]) -> Answer {
    unsafe { thompson_record_to_label_length(record.as_ptr(), record.len()) }
}

// The records that were compared, and of those since the last line: how many, the most carets, the longest.
#[derive(Default)]
struct Compared {
    seen: HashSet<Vec<u8>>,
    mismatches: usize,
    records: usize,
    most_carets: usize,
    longest: u64,
}

impl Compared {
    fn same(&mut self, what: &str, same: bool, record: &[u8]) {
        if !same {
            self.mismatches += 1;
            println!("mismatch, {what}, at the record {record:?}");
        }
    }

    // The library against the plain program on one record, with buffers of 2N + 1 + more bytes; false if it was seen.
    fn record(&mut self, record: &[u8], more: usize) -> bool {
        if !self.seen.insert(record.to_vec()) {
            return false;
        }
        let [b, a] = plain::tables(record);
        let (n, minus, plus) = plain::smallest_pair(&b, &a);
        let letters = plain::length(&minus, &plus);
        let shapes = [minus, plus].map(|tree| {
            let mut bytes = tree.shape();
            bytes.resize(2 * n + 1 + more, 0xee);
            bytes
        });
        let mut buffers = [(); 2].map(|_| vec![0xee; 2 * n + 1 + more]);
        let [m, p] = &mut buffers;
        self.same("carets", tree_pair(record, m, p) == Answer { refusal: 0, value: n as u64 }, record);
        self.same("shapes", buffers == shapes, record);
        self.same("length", length(record) == Answer { refusal: 0, value: letters }, record);
        self.same("length by labels", label_length(record) == Answer { refusal: 0, value: letters }, record);
        self.records += 1;
        self.most_carets = self.most_carets.max(n);
        self.longest = self.longest.max(letters);
        for (short_m, short_p) in [(1, 0), (0, 1), (1, 1)] {
            let mut m = vec![0xee; 2 * n + 1 - short_m];
            let mut p = vec![0xee; 2 * n + 1 - short_p];
            self.same("refusal 7", tree_pair(record, &mut m, &mut p) == Answer { refusal: 7, value: 0 }, record);
            self.same("buffers at refusal 7", m.iter().chain(&p).all(|&x| x == 0xee), record);
        }
        true
    }

    // Any bytes: where the check refuses them, all calls refuse them in the same way and nothing is touched.
    fn refused(&mut self, record: &[u8]) -> bool {
        let r = check_record(record);
        if r.refusal == 0 {
            return false;
        }
        let mut m = vec![0xee; SHAPE];
        let mut p = vec![0xee; SHAPE];
        self.same("refusal of the pair", tree_pair(record, &mut m, &mut p) == r, record);
        self.same("buffers at a refusal", m.iter().chain(&p).all(|&x| x == 0xee), record);
        self.same("refusal of the length", length(record) == r, record);
        self.same("refusal of the length by labels", label_length(record) == r, record);
        true
    }

    fn print(&mut self, what: &str) {
        println!(
            "{what:<42}{:>7} records, at most {:>5} carets and {:>6} letters",
            self.records, self.most_carets, self.longest
        );
        self.records = 0;
        self.most_carets = 0;
        self.longest = 0;
    }
}

// The length of a record is the number of letters of the shortest word: every word of at most 8 letters, in order.
fn compare_shortest(c: &mut Compared) {
    for n in 0..=8u32 {
        for code in 0..4usize.pow(n) {
            let word: Vec<u8> = (0..n).map(|i| b"aAbB"[code >> (2 * i) & 3]).collect();
            let record = word_to_record(&word);
            if c.record(&record, 0) {
                c.same("shortest word", length(&record) == Answer { refusal: 0, value: n as u64 }, &record);
            }
        }
    }
    c.print("all elements of at most 8 letters");
}

fn compare_words(c: &mut Compared, random: &mut Random) {
    for letters in [&b"aAbB"[..], b"abB", b"aAb", b"ab", b"AB", b"aB", b"Ab"] {
        for n in 0..=LIMIT {
            let word = words::over(letters, n, random);
            c.record(&word_to_record(&word), n % 3);
        }
        c.print(&format!("a word of each length over {}", String::from_utf8_lossy(letters)));
    }
    for set in words::sets(LIMIT) {
        for word in &set.words {
            c.record(&word_to_record(word), 1);
        }
        c.print(&format!("words, {}", set.name));
    }
}

fn compare_forms(c: &mut Compared, random: &mut Random) {
    let mut refused = 0;
    for kind in forms::KINDS {
        for _ in 0..20 {
            for n in [1, 2, 3, 5, 17, 64, 255, 256, 257, 1000, LIMIT] {
                let record = forms::record(kind, n, random);
                c.record(&record, random.below(3));
                let mut changed = record.clone();
                let place = random.below(changed.len());
                changed[place] ^= 1 << random.below(8);
                refused += c.refused(&changed) as usize;
                refused += c.refused(&record[..place]) as usize;
            }
        }
        c.print(kind.name);
    }
    println!("of these, with a bit changed or cut short: {refused} refused by all three calls as by the check");
}

// The time that this thread ran, in microseconds: that of other work on the machine does not count.
fn now() -> f64 {
    const CLOCK_THREAD_CPUTIME_ID: i32 = 3;
    let mut t = [0; 2];
    assert!(unsafe { clock_gettime(CLOCK_THREAD_CPUTIME_ID, &mut t) } == 0);
    t[0] as f64 * 1e6 + t[1] as f64 / 1e3
}

// Microseconds a record.
fn time(call: &mut dyn FnMut(&[u8]) -> Answer, records: &[Vec<u8>]) -> f64 {
    let start = now();
    for record in records {
        black_box(call(black_box(record)));
    }
    (now() - start) / records.len() as f64
}

fn median(mut times: Vec<f64>) -> f64 {
    times.sort_by(f64::total_cmp);
    times[times.len() / 2]
}

// Each call on forms of each kind, n = LIMIT and half of it in turn.
fn time_forms(c: &mut Compared, random: &mut Random) {
    println!("times of the thread in us, median of {RUNS} runs, n = {LIMIT} and {} in turn in each run", LIMIT / 2);
    println!(
        "{:<28}{:>8}{:>8} |{:>9}{:>9}{:>7} |{:>9}{:>9}{:>7} |{:>9}{:>9}{:>7}{:>10}",
        "form",
        "carets",
        "half",
        "pair",
        "half",
        "ratio",
        "length",
        "half",
        "ratio",
        "labels",
        "half",
        "ratio",
        "of length"
    );
    let mut m = vec![0u8; SHAPE];
    let mut p = vec![0u8; SHAPE];
    for kind in forms::KINDS {
        let sizes = [LIMIT, LIMIT / 2];
        let sets = sizes.map(|n| (0..200).map(|_| forms::record(kind, n, random)).collect::<Vec<_>>());
        for record in sets.iter().flatten() {
            c.record(record, 0);
        }
        let carets = [0, 1].map(|k| sets[k].iter().map(|r| tree_pair(r, &mut m, &mut p).value).sum::<u64>() / 200);
        let mut pair = |record: &[u8]| tree_pair(record, &mut m, &mut p);
        let mut times = [(); 6].map(|_| Vec::new());
        for _ in 0..RUNS {
            for k in 0..2 {
                times[k].push(time(&mut pair, &sets[k]));
                times[2 + k].push(time(&mut length, &sets[k]));
                times[4 + k].push(time(&mut label_length, &sets[k]));
            }
        }
        let [x, y, u, v, w, z] = times.map(median);
        println!(
            "{:<28}{:>8}{:>8} |{x:>9.2}{y:>9.2}{:>7.2} |{u:>9.2}{v:>9.2}{:>7.2} |{w:>9.2}{z:>9.2}{:>7.2}{:>10.3}",
            kind.name,
            carets[0],
            carets[1],
            x / y,
            u / v,
            w / z,
            w / u,
        );
    }
}

// Both calls for the length on forms of at most 16 carets, many of each kind.
fn time_small(c: &mut Compared, random: &mut Random) {
    println!("small forms, n = {SMALL}: times of the thread in us, median of {RUNS} runs, both calls in turn");
    println!("{:<28}{:>8} |{:>9}{:>9}{:>10}", "form", "carets", "length", "labels", "of length");
    for kind in forms::KINDS {
        let set: Vec<_> = (0..2000).map(|_| forms::record(kind, SMALL, random)).collect();
        for record in &set {
            c.record(record, 0);
        }
        let mut m = vec![0u8; SHAPE];
        let mut p = vec![0u8; SHAPE];
        let carets = set.iter().map(|r| tree_pair(r, &mut m, &mut p).value).max().unwrap();
        let mut times = [(); 2].map(|_| Vec::new());
        for _ in 0..RUNS {
            times[0].push(time(&mut length, &set));
            times[1].push(time(&mut label_length, &set));
        }
        let [u, w] = times.map(median);
        println!("{:<28}{carets:>8} |{u:>9.3}{w:>9.3}{:>10.3}", kind.name, w / u);
    }
}

fn main() {
    let mut random = Random::new(SEED + 2);
    println!("tree pair and length, seed {SEED:#018x}");
    let mut c = Compared::default();
    compare_shortest(&mut c);
    compare_words(&mut c, &mut random);
    compare_forms(&mut c, &mut random);
    println!();
    time_forms(&mut c, &mut random);
    println!();
    time_small(&mut c, &mut random);
    println!();
    println!("{} different records, those that are timed too: {} mismatches", c.seen.len(), c.mismatches);
    if c.mismatches > 0 {
        std::process::exit(1);
    }
}
