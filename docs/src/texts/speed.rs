// The time of the library and of the plain program, with its walk in runs and in steps, on texts whose exponents sum to
// the limit and on a short one; of the library alone on texts far above the limit; of both on records written out.

use crate::kinds::{exponent, written, Token};
use crate::plain::{self, Answer, ENTRIES, LIMIT};
use crate::words::Random;
use crate::{library, sizes, Call, Compared, Lent};
use std::hint::black_box;

const RUNS: usize = 11;
const FULL: [usize; 3] = [ENTRIES, ENTRIES, 6 + 4 * LIMIT];

extern "C" {
    fn clock_gettime(clock: i32, seconds_and_nanoseconds: *mut [i64; 2]) -> i32;
}

// The time that this thread ran, in microseconds: that of other work on the machine does not count.
fn now() -> f64 {
    const CLOCK_THREAD_CPUTIME_ID: i32 = 3;
    let mut t = [0; 2];
    assert!(unsafe { clock_gettime(CLOCK_THREAD_CPUTIME_ID, &mut t) } == 0);
    t[0] as f64 * 1e6 + t[1] as f64 / 1e3
}

// Microseconds a call.
fn time(calls: usize, call: &mut dyn FnMut() -> Answer) -> f64 {
    let start = now();
    for _ in 0..calls {
        black_box(call());
    }
    (now() - start) / calls as f64
}

fn median(mut times: Vec<f64>) -> f64 {
    times.sort_by(f64::total_cmp);
    times[times.len() / 2]
}

// The medians of the calls, each in turn in each run.
fn medians<const N: usize>(calls: usize, mut each: [&mut dyn FnMut() -> Answer; N]) -> [f64; N] {
    let mut times = [(); N].map(|_| Vec::new());
    for _ in 0..RUNS {
        for (call, times) in each.iter_mut().zip(&mut times) {
            times.push(time(calls, call));
        }
    }
    times.map(median)
}

// x0 x1 .. x2047, then x2048^-1 and x2046^-1 .. x0^-1: each pair of a power and its inverse has a level behind it.
fn rising_and_falling() -> Vec<Token> {
    let half = LIMIT / 2;
    let falling = [half].into_iter().chain((0..half - 1).rev());
    (0..half).map(|k| (k, 1)).chain(falling.map(|k| (k, -1))).collect()
}

fn random_tokens(high: usize, random: &mut Random) -> Vec<Token> {
    (0..LIMIT).map(|_| (random.below(high + 1), exponent(1, random))).collect()
}

fn in_turn(x: Token, y: Token) -> Vec<Token> {
    [x, y].repeat(LIMIT / 2)
}

// The texts by name.
fn texts(random: &mut Random) -> Vec<(&'static str, Vec<Token>)> {
    vec![
        ("x0^2 x1 x6 x3^-1 x0^-2", vec![(0, 2), (1, 1), (6, 1), (3, -1), (0, -2)]),
        ("x0 .. x2047 x2048^-1 x2046^-1 .. x0^-1", rising_and_falling()),
        ("x1 x2 .. x4096", (1..=LIMIT).map(|k| (k, 1)).collect()),
        ("random indices up to 1024", random_tokens(1024, random)),
        ("random indices up to 4096", random_tokens(LIMIT, random)),
        ("x0 and x2048^-1 in turn", in_turn((0, 1), (LIMIT / 2, -1))),
        ("x0 and x4096^-1 in turn", in_turn((0, 1), (LIMIT, -1))),
    ]
}

fn measure_texts(c: &mut Compared, random: &mut Random) {
    println!(
        "{:<40}{:>7}{:>8} |{:>11}{:>10}{:>8} |{:>10}{:>8}",
        "text", "tokens", "refusal", "library us", "plain us", "ratio", "in steps", "ratio"
    );
    for (name, tokens) in texts(random) {
        let text = written(&tokens);
        let (answer, by_plain) = c.text(&text, FULL);
        let calls: [Call; 3] = [library::text_to_record, plain::text_to_record, plain::text_to_record_in_steps];
        let mut lent = [(); 3].map(|_| Lent::new(FULL));
        let [l, p, s] = &mut lent;
        let mut of_library = || l.call(calls[0], black_box(&text));
        let mut of_plain = || p.call(calls[1], black_box(&text));
        let mut of_steps = || s.call(calls[2], black_box(&text));
        let count = if tokens.len() < 10 { 1000 } else { 5 };
        let [x, y, z] = medians(count, [&mut of_library, &mut of_plain, &mut of_steps]);
        c.same("timed text", lent.iter().all(|timed| *timed == by_plain), &text);
        println!(
            "{name:<40}{:>7}{:>8} |{x:>11.2}{y:>10.2}{:>8.3} |{z:>10.2}{:>8.3}",
            tokens.len(),
            answer.refusal,
            x / y,
            x / z
        );
    }
}

// Long texts, which are refused behind their last byte.
fn measure_bytes(c: &mut Compared) {
    println!("{:<40}{:>15} |{:>11}{:>10}", "text, by the library alone", "refusal", "us", "ns a byte");
    for tokens in [333_333, 3_333_333] {
        let text = vec!["x0"; tokens].join(" ").into_bytes();
        let (answer, _) = c.text(&text, sizes(&text));
        let mut lent = Lent::new(sizes(&text));
        let [x] = medians(1, [&mut || lent.call(library::text_to_record, black_box(&text))]);
        let name = format!("x0 x0 .., {} bytes", text.len());
        println!("{name:<40}{:>15} |{x:>11.2}{:>10.3}", answer.refusal, 1000.0 * x / text.len() as f64);
    }
}

fn measure_records(c: &mut Compared) {
    println!(
        "{:<40}{:>7}{:>8} |{:>11}{:>10}{:>8}",
        "record to text", "powers", "bytes", "library us", "plain us", "ratio"
    );
    let ones = vec![1; LIMIT + 1];
    let from_1 = |n: usize| [&[0], &ones[..n]].concat();
    let both = [vec![1; LIMIT / 2], [&ones[..LIMIT / 2 - 1], &[0, 1]].concat()];
    for (name, [b, a]) in [
        ("the identity", [vec![], vec![]]),
        ("x1 x2 .. x4096", [from_1(LIMIT), vec![]]),
        ("x4096^-1 .. x2^-1 x1^-1", [vec![], from_1(LIMIT)]),
        ("x0 .. x2047 x2048^-1 x2046^-1 .. x0^-1", both),
    ] {
        let record = plain::record(&b, &a);
        let powers = (record.len() - 6) / 4;
        let mut large = vec![0; 4 * record.len()];
        let n = plain::record_to_text(&record, &mut large).value as usize;
        let (_, text) = c.record(&record, n);
        let mut texts = [(); 2].map(|_| vec![0; n]);
        let [l, p] = &mut texts;
        let mut of_library = || library::record_to_text(black_box(&record), l);
        let mut of_plain = || plain::record_to_text(black_box(&record), p);
        let [x, y] = medians(50, [&mut of_library, &mut of_plain]);
        c.same("timed record", texts.iter().all(|timed| *timed == text), &record);
        println!("{name:<40}{powers:>7}{n:>8} |{x:>11.2}{y:>10.2}{:>8.3}", x / y);
    }
}

pub fn measure(c: &mut Compared, random: &mut Random) {
    println!("times of the thread in us, median of {RUNS} runs, the programs in turn in each run");
    measure_texts(c, random);
    println!();
    measure_bytes(c);
    println!();
    measure_records(c);
}
