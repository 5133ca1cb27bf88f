// The time of the programs on the lists that are measured.

use crate::kinds::{Kind, MEASURED};
use crate::words::{Random, SEED};
use crate::{compare, plain, sizes, Lent, PROGRAMS};
use std::hint::black_box;

const RUNS: usize = 11;

extern "C" {
    fn clock_gettime(clock: i32, seconds_and_nanoseconds: *mut [i64; 2]) -> i32;
}

// The time that this thread ran, in microseconds: that of other work on the machine does not count.
fn now() -> f64 {
    const CLOCK_THREAD_CPUTIME_ID: i32 = 3;
    let mut t = [0; 2];
    assert!(unsafe { clock_gettime(CLOCK_THREAD_CPUTIME_ID, &mut t) } == 0);
    t[0] as f64 * 1e6 + t[1] as f64 / 1e3
}

fn median(mut times: Vec<f64>) -> f64 {
    times.sort_by(f64::total_cmp);
    times[times.len() / 2]
}

// The medians of the programs, each in turn in each run, in microseconds a line; same bytes and tables afterwards.
fn medians(kind: &Kind, list: &[u8], lines: usize, right: &Lent) -> Vec<f64> {
    let mut lent: Vec<Lent> = PROGRAMS.iter().map(|_| Lent::new(sizes(list))).collect();
    let mut times = vec![Vec::new(); PROGRAMS.len()];
    for _ in 0..RUNS {
        for (i, (_, call)) in PROGRAMS.iter().enumerate() {
            let start = now();
            for _ in 0..kind.count {
                black_box(lent[i].call(*call, black_box(list)));
            }
            times[i].push((now() - start) / (kind.count * lines) as f64);
        }
    }
    for ((name, _), lent) in PROGRAMS.iter().zip(&lent) {
        if let Some(part) = lent.other_than(right) {
            println!("different: {part} of {name}, behind the timed calls");
            std::process::exit(1);
        }
    }
    times.into_iter().map(median).collect()
}

pub fn measure() {
    println!("times of the thread in us a line, medians of {RUNS} runs, the programs in turn in each run");
    print!("{:<36}{:>8}{:>9}{:>9} |", "list", "lines", "bytes in", "out");
    PROGRAMS.iter().for_each(|(name, _)| print!("{name:>11}"));
    println!(" | list to each other");
    let mut random = Random::new(SEED + 8);
    for kind in MEASURED {
        let list = (kind.list)(&mut random);
        let lines = plain::lines(&list).count();
        let (answer, right) = compare(&list, sizes(&list));
        let times = medians(kind, &list, lines, &right);
        print!("{:<36}{lines:>8}{:>9}{:>9} |", kind.name, list.len(), answer.value);
        times.iter().for_each(|t| print!("{t:>11.4}"));
        print!(" |");
        times[1..].iter().for_each(|t| print!("{:>7.3}", times[0] / t));
        println!();
    }
    println!("same bytes and tables of all programs, before and behind the timed calls");
}
