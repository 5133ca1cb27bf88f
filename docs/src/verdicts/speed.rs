// The time of the library, of the plain program and of an older library on two words of full length.

use crate::pairs::inverse;
use crate::records::LIMIT;
use crate::words::{over, Random};
use crate::{lent, library, plain, Call, Compared};
use std::hint::black_box;

// The runs, and the pairs of a set.
const RUNS: usize = 33;
const PAIRS: usize = 100;

extern "C" {
    fn clock_gettime(clock: i32, seconds_and_nanoseconds: *mut [i64; 2]) -> i32;
}

// The time that this thread ran, in microseconds: that of other work on the machine does not count.
fn now() -> f64 {
    const CLOCK_THREAD_CPUTIME_ID: i32 = 3;
    let mut t = [0; 2];
    assert!(unsafe { clock_gettime(CLOCK_THREAD_CPUTIME_ID, &mut t) } == 0);
    t[0] as f64 * 1e6 + t[1] as f64 / 1e3
}

fn median(mut times: Vec<f64>) -> f64 {
    times.sort_by(f64::total_cmp);
    times[times.len() / 2]
}

type Pair = [Vec<u8>; 2];

fn slices([u, v]: &Pair) -> [&[u8]; 2] {
    [u, v]
}

// The medians of the programs over all pairs, in microseconds a call: each in turn in each run, and each run begins
// with another one.
fn medians(calls: &[Call], pairs: &[Pair]) -> Vec<f64> {
    let mut times = vec![Vec::new(); calls.len()];
    let mut memory = slices(&pairs[0]).map(|word| lent(word, [0, 0, 0]));
    for run in 0..RUNS {
        for k in 0..calls.len() {
            let i = (run + k) % calls.len();
            let start = now();
            pairs.iter().for_each(|pair| _ = black_box(calls[i](black_box(slices(pair)), &mut memory)));
            times[i].push((now() - start) / pairs.len() as f64);
        }
    }
    times.into_iter().map(median).collect()
}

const CALLS: &[(&str, Call)] = &[
    ("library", library::same_element),
    ("plain", plain::same_element),
    #[cfg(older)]
    ("older", library::same_element_before),
];

// The sets of pairs that are measured, each of as many pairs.
fn sets(random: &mut Random) -> Vec<(&'static str, Vec<Pair>)> {
    let mut any = || over(b"aAbB", LIMIT, random);
    let words: Vec<Pair> = (0..PAIRS).map(|_| [any(), any()]).collect();
    let beside = |change: fn(&[u8]) -> Vec<u8>| words.iter().map(|[u, _]| [u.clone(), change(u)]).collect();
    let powers = |x: u8, y: u8| vec![[vec![x; LIMIT], vec![y; LIMIT]]; PAIRS];
    vec![
        ("any, different", words.clone()),
        ("any, another first letter", beside(|u| [&[u[0] ^ 3], &u[1..]].concat())),
        ("any, the same", beside(|u| u.to_vec())),
        ("any, inverse", beside(inverse)),
        ("a and b, different", powers(b'a', b'b')),
        ("b and B, inverse", powers(b'b', b'B')),
        ("ab and ba, two letters, different", vec![[b"ab".to_vec(), b"ba".to_vec()]; PAIRS]),
    ]
}

pub fn measure(c: &mut Compared, random: &mut Random) {
    println!("times of the thread, microseconds a call, medians of {RUNS} runs, the programs in turn");
    let names: Vec<String> = CALLS.iter().map(|(name, _)| format!("{name:>10}")).collect();
    println!("{:<40}{:>8} |{}    to each of the others", "pairs of 4,096 letters", "answer", names.concat());
    let calls: Vec<Call> = CALLS.iter().map(|&(_, call)| call).collect();
    for (name, pairs) in &sets(random) {
        let mut answer = 0;
        for words in pairs.iter().map(slices) {
            let [mut memory, mut of_plain] = [(); 2].map(|_| words.map(|word| lent(word, [0, 0, 0])));
            let told = library::same_element(words, &mut memory);
            c.right("timed call", told == plain::same_element(words, &mut of_plain) && memory == of_plain, words);
            answer = told.value;
        }
        let times = medians(&calls, pairs);
        let columns: Vec<String> = times.iter().map(|x| format!("{x:>10.2}")).collect();
        let ratios: Vec<String> = times[1..].iter().map(|y| format!("{:>10.2}", times[0] / y)).collect();
        println!("{name:<40}{answer:>8} |{}{}", columns.concat(), ratios.concat());
    }
}
