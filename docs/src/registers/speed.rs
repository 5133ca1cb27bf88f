// The time of the library and of the plain program: filings into a full register and into one of half its bytes, a run
// that fills a register, and registers whose fingerprints all collide.

#[cfg(older)]
use crate::exchange::exchanged;
use crate::kinds::{bytes, Made};
use crate::plain::{self, Filing, MOST_BYTES};
use crate::{collide, library, sizes, Call, Compared, Lent};
use std::hint::black_box;

const RUNS: usize = 11;

extern "C" {
    fn clock_gettime(clock: i32, seconds_and_nanoseconds: *mut [i64; 2]) -> i32;
}

// The time that this thread ran, in microseconds: that of other work on the machine does not count.
fn now() -> f64 {
    const CLOCK_THREAD_CPUTIME_ID: i32 = 3;
    let mut t = [0; 2];
    assert!(unsafe { clock_gettime(CLOCK_THREAD_CPUTIME_ID, &mut t) } == 0);
    t[0] as f64 * 1e6 + t[1] as f64 / 1e3
}

fn median(mut times: Vec<f64>) -> f64 {
    times.sort_by(f64::total_cmp);
    times[times.len() / 2]
}

// The medians of the calls, each in turn in each run, in microseconds a call.
fn medians<const N: usize>(calls: usize, mut each: [&mut dyn FnMut(); N]) -> [f64; N] {
    let mut times = [(); N].map(|_| Vec::new());
    for _ in 0..RUNS {
        for (call, times) in each.iter_mut().zip(&mut times) {
            let start = now();
            (0..calls).for_each(|_| call());
            times.push((now() - start) / calls as f64);
        }
    }
    times.map(median)
}

// A register of so many bytes, with as many of the records as fit, each holder with four.
fn holding(size: usize, records: &[Vec<u8>]) -> Vec<u8> {
    let fit = (size - 7) / (9 + records[0].len());
    let records = &records[..fit.min(records.len())];
    let entries: Vec<_> = records.iter().enumerate().map(|(e, r)| (e as u32 + 1, (e / 4) as u16, r.clone())).collect();
    let mut register = bytes(&Made { last: entries.len() as u32, entries, behind: vec![] });
    register.resize(size, 0);
    register
}

// The records of the inverses of x1, x2, .. with that of x0 as the last of n.
fn one_power_each(n: usize) -> Vec<Vec<u8>> {
    let record = |i: usize| [&[1, 0, 0, 2, 0, 4][..], &((i as u32) << 16 | 1).to_be_bytes()].concat();
    (1..n).chain([0]).map(record).collect()
}

// Four records of so many powers, all with exponent 1: each leaves out another index.
fn many_powers(n: usize) -> Vec<Vec<u8>> {
    let record = |left_out: usize| {
        let indices = (1..n + 2).filter(|&i| i != left_out);
        let body: Vec<u8> = indices.flat_map(|i| ((i as u32) << 16 | 1).to_be_bytes()).collect();
        [&[1, 0, 0, 2][..], &(body.len() as u16).to_be_bytes(), &body].concat()
    };
    (1..5).map(record).collect()
}

// Both programs on a word and a register, timed; the library's time.
fn timed(c: &mut Compared, name: &str, word: &[u8], register: &[u8]) -> f64 {
    let (answer, by_plain) = c.filing(word, sizes(word), 60000, register);
    let mut lent = [(); 2].map(|_| Lent::new(sizes(word), register));
    let [l, p] = &mut lent;
    let mut of_library = || _ = black_box(l.call(library::enter_word, black_box(word), 60000));
    let mut of_plain = || _ = black_box(p.call(plain::enter_word, black_box(word), 60000));
    let [x, y] = medians(5, [&mut of_library, &mut of_plain]);
    c.same("timed filing", lent.iter().all(|timed| *timed == by_plain), register);
    let told = told(answer);
    println!("{name:<44}{told:>14} |{:>11.3}{:>11.3}{:>8.2}", x / 1000.0, y / 1000.0, x / y);
    x
}

fn told(filing: Filing) -> String {
    match filing {
        Filing { refusal: 0, value, present: 0, .. } => format!("new {value}"),
        Filing { refusal: 0, value, .. } => format!("present {value}"),
        Filing { refusal, .. } => format!("refused {refusal}"),
    }
}

// `a`, which is the last entry, and `ab`, which is none and has no room, in registers of both sizes.
fn measure_filings(c: &mut Compared) {
    println!("{:<44}{:>14} |{:>11}{:>11}{:>8}", "enter_word", "answer", "library ms", "plain ms", "ratio");
    let registers = [MOST_BYTES, MOST_BYTES / 2].map(|size| holding(size, &one_power_each((size - 7) / 19)));
    for (name, word) in [("a, present", &b"a"[..]), ("ab, not present", b"ab")] {
        let [full, half] = registers.each_ref().map(|register| {
            let n = (register.len() - 7) / 19;
            timed(c, &format!("{name}: {} bytes, {n} entries", register.len()), word, register)
        });
        println!("{:<44}{:>14} |{:>11.2}", "  the full register to the half one", "", full / half);
    }
}

// The same filings by the library and by the older one, each into the register that its own rule fills: the older one
// stores the words' own records, here the greater ones.
#[cfg(older)]
fn measure_older() {
    println!("{:<44}{:>14} |{:>11}{:>11}{:>8}", "enter_word", "answer", "library ms", "older ms", "ratio");
    for size in [MOST_BYTES, MOST_BYTES / 2] {
        let records = one_power_each((size - 7) / 19);
        let own: Vec<_> = records.iter().map(|r| exchanged(r)).collect();
        let registers = [holding(size, &records), holding(size, &own)];
        for (name, word) in [("a, present", &b"a"[..]), ("ab, not present", b"ab")] {
            let [mut l, mut o] = registers.each_ref().map(|register| Lent::new(sizes(word), register));
            let answer = l.call(library::enter_word, word, 60000);
            assert!(answer == o.call(library::enter_word_before, word, 60000));
            let mut of_library = || _ = black_box(l.call(library::enter_word, black_box(word), 60000));
            let mut of_older = || _ = black_box(o.call(library::enter_word_before, black_box(word), 60000));
            let [x, y] = medians(21, [&mut of_library, &mut of_older]);
            let (name, told) = (format!("{name}: {size} bytes"), told(answer));
            println!("{name:<44}{told:>14} |{:>11.3}{:>11.3}{:>8.2}", x / 1000.0, y / 1000.0, x / y);
        }
    }
    println!();
}

// The words of a run that fills a register: x1, its square, x2, its square, ..
fn filling() -> Vec<Vec<u8>> {
    let word = |e: usize| {
        let k = e / 2;
        [vec![b'A'; k], vec![b'b'; 1 + e % 2], vec![b'a'; k]].concat()
    };
    (0..).map(word).take((MOST_BYTES - 7) / 19).collect()
}

// All filings of the run into one register; the microseconds of the calls, and the register.
fn fill(call: Call, words: &[Vec<u8>]) -> (f64, Vec<u8>) {
    let fresh = [&[0x10, 0, 4, 0, 0, 0, 0][..], &[0; MOST_BYTES - 7]].concat();
    let mut lent = Lent::new(sizes(&words[words.len() - 1]), &fresh);
    let start = now();
    for (e, word) in words.iter().enumerate() {
        let filing = lent.call(call, word, (e / 4) as u16);
        assert!(filing == Filing { refusal: 0, value: e as u64 + 1, present: 0, word: 0 });
    }
    (now() - start, lent.register)
}

fn measure_fill(c: &mut Compared) {
    let words = filling();
    let mut times = [Vec::new(), Vec::new()];
    for _ in 0..RUNS {
        let (x, by_library) = fill(library::enter_word, &words);
        let (y, by_plain) = fill(plain::enter_word, &words);
        c.same("filled register", by_library == by_plain, &by_plain);
        times[0].push(x / 1e6);
        times[1].push(y / 1e6);
    }
    let [x, y] = times.map(median);
    println!("{:<44}{:>14} |{:>11}{:>11}{:>8}", "a run from fresh", "filings", "library s", "plain s", "ratio");
    println!("{:<44}{:>14} |{x:>11.3}{y:>11.3}{:>8.2}", "one power each, 65,536 bytes", words.len(), x / y);
}

fn measure_checks(c: &mut Compared) {
    let name = "check_register, 65,536 bytes";
    println!("{name:<44}{:>14} |{:>11}{:>11}{:>8}", "entries", "library ms", "plain ms", "ratio");
    let colliding = collide::records((MOST_BYTES - 7) / 23);
    let spread = one_power_each((MOST_BYTES - 7) / 19);
    let marked = |n: u32| collide::marked(n, (MOST_BYTES - 7) / (15 + 4 * n as usize));
    for (name, records) in [
        ("one power each", spread),
        ("4,070 powers each", many_powers(4070)),
        ("two powers, all fingerprints the same", colliding),
        ("one power, both halves marked", marked(1)),
        ("8 powers, 7 the same, both halves marked", marked(8)),
        ("32 powers, 31 the same, both halves marked", marked(32)),
    ] {
        let register = holding(MOST_BYTES, &records);
        let right = library::check_register(&register).refusal == 0 && plain::check_register(&register).refusal == 0;
        c.same("register that is timed", right, &register);
        let mut of_library = || _ = black_box(library::check_register(black_box(&register)));
        let mut of_plain = || _ = black_box(plain::check_register(black_box(&register)));
        let [x, y] = medians(1, [&mut of_library, &mut of_plain]);
        println!("{name:<44}{:>14} |{:>11.3}{:>11.3}{:>8.2}", records.len(), x / 1000.0, y / 1000.0, x / y);
    }
}

pub fn measure(c: &mut Compared) {
    println!("times of the thread, medians of {RUNS} runs, the two programs in turn");
    measure_filings(c);
    println!();
    #[cfg(older)]
    measure_older();
    measure_fill(c);
    println!();
    measure_checks(c);
}
