// Packed shapes: the proved library against a plain Rust program. Both are compared on many shapes, right and wrong:
// the answers and every element that is lent. Then they are timed on the largest shapes.

mod library;
mod plain;
mod shapes;
#[path = "../speed/words.rs"]
mod words;

use plain::{Answer, CARETS};
use std::hint::black_box;
use words::{Random, SEED};

const RUNS: usize = 11;

// The calls of a run.
const CALLS: usize = 200;

extern "C" {
    fn clock_gettime(clock: i32, seconds_and_nanoseconds: *mut [i64; 2]) -> i32;
}

// The numbers and the summary of a packed shape, as lent to a call, and its bytes where it has any.
#[derive(Clone, PartialEq)]
struct Packed {
    numbers: Vec<u64>,
    summary: Vec<u16>,
    shape: Vec<u8>,
}

impl Packed {
    fn empty(numbers: usize, summary: usize) -> Packed {
        Packed { numbers: vec![0xeeee_eeee_eeee_eeee; numbers], summary: vec![0xa5a5; summary], shape: vec![] }
    }

    // A shape packed, with so many more numbers and entries lent.
    fn new(shape: &[u8], more: usize) -> Packed {
        let n = shape.len().div_ceil(64) + more;
        let mut packed = Packed::empty(n, n);
        plain::pack_shape(shape, &mut packed.numbers, &mut packed.summary).expect("a tree");
        packed.shape = shape.to_vec();
        packed
    }
}

// How many calls were compared, how many of them are accepted, and the mismatches.
#[derive(Default)]
struct Compared {
    calls: usize,
    accepted: usize,
    mismatches: usize,
}

impl Compared {
    fn same(&mut self, call: &str, ours: (Answer, bool), plain: Answer) {
        self.calls += 1;
        self.accepted += plain.is_ok() as usize;
        if ours != (plain, true) {
            self.mismatches += 1;
            println!("mismatch: {call}, {ours:?} and {plain:?}");
        }
    }

    // Bytes packed, with so many numbers and entries lent.
    fn pack(&mut self, shape: &[u8], numbers: usize, summary: usize) {
        let mut ours = Packed::empty(numbers, summary);
        let mut other = ours.clone();
        let answer = library::pack_shape(shape, &mut ours.numbers, &mut ours.summary);
        let right = plain::pack_shape(shape, &mut other.numbers, &mut other.summary);
        self.same("pack", (answer, ours == other), right);
    }

    fn unpack(&mut self, packed: &Packed, bytes: usize) {
        let mut ours = vec![0xee; bytes];
        let mut other = ours.clone();
        let answer = library::unpack_shape(&packed.numbers, &packed.summary, &mut ours);
        let right = plain::unpack_shape(&packed.numbers, &packed.summary, &mut other);
        self.same("unpack", (answer, ours == other), right);
    }

    fn ask(&mut self, packed: &Packed, node: u64) {
        let answer = library::carets_before(&packed.numbers, &packed.summary, node);
        self.same("before", (answer, true), plain::carets_before(&packed.numbers, &packed.summary, node));
        let answer = library::subtree_end(&packed.numbers, &packed.summary, node);
        self.same("end", (answer, true), plain::subtree_end(&packed.numbers, &packed.summary, node));
    }

    fn grow(&mut self, packed: &Packed, leaf: u64) {
        let mut ours = packed.clone();
        let mut other = packed.clone();
        let answer = library::grow_caret(&mut ours.numbers, &mut ours.summary, leaf);
        let right = plain::grow_caret(&mut other.numbers, &mut other.summary, leaf);
        self.same("grow", (answer, ours == other), right);
    }

    // The four calls on a packed shape, or on what is none.
    fn packed(&mut self, packed: &Packed, nodes: usize, random: &mut Random) {
        self.unpack(packed, nodes + random.below(3));
        self.unpack(packed, nodes.saturating_sub(1));
        for node in [0, random.below(nodes + 2), nodes - 1, nodes] {
            self.ask(packed, node as u64);
            self.grow(packed, node as u64 / 2);
        }
        for far in [65535, 65536, 65536 + random.next() % 64, 1 << 32, random.next(), u64::MAX] {
            self.ask(packed, far);
            self.grow(packed, far);
        }
    }
}

// A packed shape with something wrong: a bit or an entry changed, or an end cut off.
fn spoilt(packed: &Packed, random: &mut Random) -> Packed {
    let mut other = packed.clone();
    let at = random.below(packed.numbers.len());
    match random.below(5) {
        0 => other.numbers[at] ^= 1 << random.below(64),
        1 => other.summary[at] ^= 1 << random.below(16),
        2 => other.numbers.truncate(at),
        3 => other.summary.truncate(at),
        _ => other.numbers[at] = random.next(),
    }
    other
}

// A byte shape with something wrong.
fn spoilt_bytes(shape: &[u8], random: &mut Random) -> Vec<u8> {
    let mut other = shape.to_vec();
    let at = random.below(shape.len());
    match random.below(4) {
        0 => other[at] ^= 1 << random.below(8),
        1 => other.truncate(at),
        2 => other.push(random.below(2) as u8),
        _ => other.swap(at, shape.len() - 1),
    }
    other
}

fn compare_shape(c: &mut Compared, shape: &[u8], random: &mut Random) {
    let n = shape.len().div_ceil(64);
    let more = random.below(3);
    c.pack(shape, n + more, n);
    c.pack(shape, n, n - 1);
    c.pack(shape, n - 1, n);
    c.pack(&spoilt_bytes(shape, random), n + 1, n + 1);
    c.pack(&spoilt_bytes(shape, random), 0, n);
    let packed = Packed::new(shape, more);
    c.packed(&packed, shape.len(), random);
    for _ in 0..4 {
        c.packed(&spoilt(&packed, random), shape.len(), random);
    }
}

fn compare(c: &mut Compared, random: &mut Random) {
    for carets in 0..200 {
        compare_shape(c, &shapes::right_comb(carets), random);
        compare_shape(c, &shapes::left_spine(carets), random);
        for _ in 0..20 {
            compare_shape(c, &shapes::random(carets, random), random);
        }
    }
    for carets in [CARETS - 1, CARETS, CARETS + 1] {
        for shape in [shapes::right_comb(carets), shapes::left_spine(carets), shapes::random(carets, random)] {
            if carets <= CARETS {
                compare_shape(c, &shape, random);
            }
            c.pack(&shape, 258, 258);
            c.pack(&shape, 0, 0);
        }
    }
    println!("{} calls compared, {} of them accepted: {} mismatches", c.calls, c.accepted, c.mismatches);
}

// The time that this thread ran, in microseconds: that of other work on the machine does not count.
fn now() -> f64 {
    const CLOCK_THREAD_CPUTIME_ID: i32 = 3;
    let mut t = [0; 2];
    assert!(unsafe { clock_gettime(CLOCK_THREAD_CPUTIME_ID, &mut t) } == 0);
    t[0] as f64 * 1e6 + t[1] as f64 / 1e3
}

fn median(mut times: Vec<f64>) -> f64 {
    times.sort_by(f64::total_cmp);
    times[times.len() / 2]
}

type Call = fn(&mut Packed) -> Answer;

// Microseconds a call, each on a copy of its own that is made before.
fn time(call: Call, packed: &Packed) -> f64 {
    let mut copies = vec![packed.clone(); CALLS];
    let start = now();
    for copy in &mut copies {
        black_box(call(black_box(copy))).expect("accepted");
    }
    (now() - start) / CALLS as f64
}

// The medians of the library and of the plain program, in turn in each run.
fn medians(calls: [Call; 2], packed: &Packed) -> [f64; 2] {
    let mut times = [Vec::new(), Vec::new()];
    for _ in 0..RUNS {
        for k in 0..2 {
            times[k].push(time(calls[k], packed));
        }
    }
    times.map(median)
}

const ENDS: [Call; 2] =
    [|p| library::subtree_end(&p.numbers, &p.summary, 0), |p| plain::subtree_end(&p.numbers, &p.summary, 0)];

const LAST: u64 = 2 * CARETS as u64;
const BEFORES: [Call; 2] =
    [|p| library::carets_before(&p.numbers, &p.summary, LAST), |p| plain::carets_before(&p.numbers, &p.summary, LAST)];

const GROWS: [Call; 2] = [
    |p| library::grow_caret(&mut p.numbers, &mut p.summary, 0),
    |p| plain::grow_caret(&mut p.numbers, &mut p.summary, 0),
];

const PACKS: [Call; 2] = [
    |p| library::pack_shape(&p.shape, &mut p.numbers, &mut p.summary),
    |p| plain::pack_shape(&p.shape, &mut p.numbers, &mut p.summary),
];

const UNPACKS: [Call; 2] = [
    |p| library::unpack_shape(&p.numbers, &p.summary, &mut p.shape),
    |p| plain::unpack_shape(&p.numbers, &p.summary, &mut p.shape),
];

fn measure(random: &mut Random) {
    println!("times of the thread in us a call, median of {RUNS} runs of {CALLS} calls, library and plain in turn");
    println!("end: subtree_end of node 0; before: carets_before of the last node; both of {CARETS} carets");
    println!("grow: grow_caret at leaf 0 of {} carets; pack, unpack: of {CARETS}", CARETS - 1);
    print!("{:<14}", "shape");
    for call in ["end", "before", "grow", "pack", "unpack"] {
        print!(" |{call:>9}{:>9}{:>7}", "plain", "ratio");
    }
    println!(" | grow to before");
    let random_shape = [shapes::random(CARETS, random), shapes::random(CARETS - 1, random)];
    let kinds = [
        ("right comb", [CARETS, CARETS - 1].map(shapes::right_comb)),
        ("left spine", [CARETS, CARETS - 1].map(shapes::left_spine)),
        ("random", random_shape),
    ];
    for (name, [largest, smaller]) in kinds {
        let [largest, smaller] = [Packed::new(&largest, 0), Packed::new(&smaller, 1)];
        let [ends, befores, packs, unpacks] = [ENDS, BEFORES, PACKS, UNPACKS].map(|calls| medians(calls, &largest));
        let times = [ends, befores, medians(GROWS, &smaller), packs, unpacks];
        print!("{name:<14}");
        times.iter().for_each(|[ours, plain]| print!(" |{ours:>9.3}{plain:>9.3}{:>7.3}", ours / plain));
        println!(" |{:>8.2}", times[2][0] / times[1][0]);
    }
}

fn main() {
    let mut random = Random::new(SEED + 6);
    println!("packed shapes, seed {SEED:#018x}");
    let mut c = Compared::default();
    compare(&mut c, &mut random);
    println!();
    measure(&mut random);
    if c.mismatches > 0 {
        std::process::exit(1);
    }
}
