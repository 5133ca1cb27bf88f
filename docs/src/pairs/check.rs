// The record check: its time by the entries of the record, on records that are accepted and on some that are not. With
// `--cfg beside` the check of another archive is timed beside it, in turn, and the answers are compared; so are the
// lengths of both, on the forms for which the length is measured.

#[cfg(beside)]
mod forms;
mod plain;
#[path = "../speed/words.rs"]
mod words;

use std::hint::black_box;
use words::{Random, SEED};

const RUNS: usize = 11;
const LIMIT: usize = 4096;

#[repr(C)]
#[derive(Clone, Copy, PartialEq, Eq, Debug)]
struct Answer {
    refusal: u64,
    value: u64,
}

type Call = unsafe extern "C" fn(*const u8, usize) -> Answer;

extern "C" {
    fn thompson_check_record(record: *const u8, record_len: usize) -> Answer;
    #[cfg(beside)]
    fn beside_check_record(record: *const u8, record_len: usize) -> Answer;
    #[cfg(beside)]
    fn thompson_record_to_length(record: *const u8, record_len: usize) -> Answer;
    #[cfg(beside)]
    fn beside_record_to_length(record: *const u8, record_len: usize) -> Answer;
    fn clock_gettime(clock: i32, seconds_and_nanoseconds: *mut [i64; 2]) -> i32;
}

#[cfg(beside)]
const CHECKS: &[Call] = &[thompson_check_record, beside_check_record];
#[cfg(not(beside))]
const CHECKS: &[Call] = &[thompson_check_record];
#[cfg(beside)]
const LENGTHS: &[Call] = &[thompson_record_to_length, beside_record_to_length];

// The time that this thread ran, in microseconds.
fn now() -> f64 {
    const CLOCK_THREAD_CPUTIME_ID: i32 = 3;
    let mut t = [0; 2];
    assert!(unsafe { clock_gettime(CLOCK_THREAD_CPUTIME_ID, &mut t) } == 0);
    t[0] as f64 * 1e6 + t[1] as f64 / 1e3
}

// Microseconds a record, over all records several times.
fn time(call: Call, turns: usize, records: &[Vec<u8>]) -> f64 {
    let start = now();
    for _ in 0..turns {
        for record in records {
            black_box(unsafe { call(black_box(record.as_ptr()), record.len()) });
        }
    }
    (now() - start) / (turns * records.len()) as f64
}

fn median(mut times: Vec<f64>) -> f64 {
    times.sort_by(f64::total_cmp);
    times[times.len() / 2]
}

// So many powers with exponent 1, at random places of both sides; a power that breaks the clause gets the next index.
fn spread(entries: usize, random: &mut Random) -> [Vec<u16>; 2] {
    let mut sides = [vec![0u16; LIMIT + 2], vec![0u16; LIMIT + 2]];
    let mut left = entries;
    while left > 0 {
        let side = random.below(2);
        let i = random.below(LIMIT + 1);
        if sides[side][i] == 0 {
            sides[side][i] = 1;
            left -= 1;
        }
    }
    for i in 0..=LIMIT {
        let [b, a] = &mut sides;
        if b[i] > 0 && a[i] > 0 && b[i + 1] == 0 && a[i + 1] == 0 {
            a[i] = 0;
        }
    }
    sides
}

// A power at every index up to the limit but the first, on either side.
fn every_index(random: &mut Random) -> [Vec<u16>; 2] {
    let mut sides = [vec![0u16; LIMIT + 2], vec![0u16; LIMIT + 2]];
    for i in 1..=LIMIT {
        sides[random.below(2)][i] = 1;
    }
    sides
}

// Powers at every index, with one index on both sides and none at the next.
fn broken_at(i: usize, random: &mut Random) -> [Vec<u16>; 2] {
    let mut sides = every_index(random);
    for side in &mut sides {
        side[i] = 1;
        side[i + 1] = 0;
        if i == 0 {
            side[LIMIT] = 0;
        }
    }
    sides
}

// The first or the last entry has exponent 0.
fn empty_power(mut record: Vec<u8>, last: bool) -> Vec<u8> {
    let n = record.len();
    let b = 256 * record[1] as usize + record[2] as usize;
    let at = if !last { 3 } else if n > 6 + b { n - 4 } else { b - 1 };
    record[at + 2] = 0;
    record[at + 3] = 0;
    record
}

// A call of each archive on sets of records: the answers, compared, and the medians. The number of mismatches.
fn compare(name: &str, calls: &[Call], turns: usize, kinds: &[(String, Vec<Vec<u8>>)]) -> usize {
    println!("{name}, times of the thread in us, median of {RUNS} runs in turn, seed {SEED:#018x}");
    println!("{:<30}{:>9}{:>9}{:>10}{:>10}{:>8}", "records", "entries", "refusal", name, "beside", "ratio");
    let mut mismatches = 0;
    for (name, records) in kinds {
        let entries = records.iter().map(|r| (r.len() - 6) / 4).sum::<usize>() / records.len();
        for record in records {
            let answers: Vec<_> = calls.iter().map(|c| unsafe { c(record.as_ptr(), record.len()) }).collect();
            mismatches += answers.iter().any(|&r| r != answers[0]) as usize;
        }
        let refusal = unsafe { calls[0](records[0].as_ptr(), records[0].len()) }.refusal;
        let mut times = vec![Vec::new(); calls.len()];
        for _ in 0..RUNS {
            for (k, &call) in calls.iter().enumerate() {
                times[k].push(time(call, turns, records));
            }
        }
        let times: Vec<f64> = times.into_iter().map(median).collect();
        print!("{name:<30}{entries:>9}{refusal:>9}{:>10.3}", times[0]);
        match times.get(1) {
            Some(other) => println!("{other:>10.3}{:>8.2}", times[0] / other),
            None => println!(),
        }
    }
    mismatches
}

// The records on which the check is timed.
fn checked(random: &mut Random) -> Vec<(String, Vec<Vec<u8>>)> {
    let tables = |[b, a]: [Vec<u16>; 2]| plain::record(&b, &a);
    let mut kinds: Vec<(String, Vec<Vec<u8>>)> = vec![("the identity".into(), vec![plain::record(&[], &[])])];
    for k in [1, 2, 4, 8, 16, 31, 32, 33, 34, 48, 64, 128, 512, 2048, 4096] {
        kinds.push((format!("{k} powers"), (0..200).map(|_| tables(spread(k, random))).collect()));
    }
    kinds.push(("every index".into(), (0..200).map(|_| tables(every_index(random))).collect()));
    for (name, i) in [("break at 0", 0), ("break in the middle", LIMIT / 2), ("break at the end", LIMIT - 1)] {
        kinds.push((name.into(), (0..200).map(|_| tables(broken_at(i, random))).collect()));
    }
    for (name, last) in [("first entry wrong", false), ("last entry wrong", true)] {
        kinds.push((name.into(), (0..200).map(|_| empty_power(tables(every_index(random)), last)).collect()));
    }
    kinds
}

// The records of the forms for which the length is measured, and what both archives answer.
#[cfg(beside)]
fn compare_lengths(random: &mut Random) -> usize {
    let kinds: Vec<_> = forms::KINDS
        .iter()
        .map(|k| (k.name.to_string(), (0..200).map(|_| forms::record(k, LIMIT, random)).collect()))
        .collect();
    println!();
    compare("length", LENGTHS, 2, &kinds)
}

#[cfg(not(beside))]
fn compare_lengths(_: &mut Random) -> usize {
    0
}

fn main() {
    let mut random = Random::new(SEED + 3);
    let mismatches = compare("check", CHECKS, 20, &checked(&mut random)) + compare_lengths(&mut random);
    println!("{mismatches} mismatches");
    if mismatches > 0 {
        std::process::exit(1);
    }
}
