// Many words in one call: the library's list call, its calls word by word, a plain Rust program and, with
// `--cfg older`, an older library's calls word by word. All are compared on many lists, with what is lent just large
// enough, larger and too small: the answers, and every entry and byte that was lent. Then all are timed. The first
// difference ends the program with an error.

mod kinds;
mod library;
mod plain;
#[path = "../speed/plain.rs"]
mod records;
mod speed;
#[allow(dead_code)]
#[path = "../speed/words.rs"]
mod words;

use kinds::{Kind, COMPARED};
use plain::Call;
use records::{Answer, LIMIT};
use words::{Random, SEED};

pub const ENTRIES: usize = LIMIT + 1;

// The programs by name; the list call is compared with all others.
pub const PROGRAMS: &[(&str, Call)] = &[
    ("list", library::list_to_records),
    ("words", library::word_by_word),
    ("plain", plain::list_to_records),
    #[cfg(older)]
    ("older", library::older_word_by_word),
];

// What is lent with a list.
pub struct Lent {
    b: Vec<u16>,
    a: Vec<u16>,
    records: Vec<u8>,
}

impl Lent {
    pub fn new([nb, na, nr]: [usize; 3]) -> Lent {
        Lent { b: vec![0xa5a5; nb], a: vec![0x5a5a; na], records: vec![0xee; nr] }
    }

    pub fn call(&mut self, f: Call, list: &[u8]) -> Answer {
        f(list, &mut self.b, &mut self.a, &mut self.records)
    }

    // What is not the same, if anything.
    pub fn other_than(&self, right: &Lent) -> Option<&'static str> {
        let parts = [
            ("b table", self.b == right.b),
            ("a table", self.a == right.a),
            ("bytes", self.records == right.records),
        ];
        parts.into_iter().find(|part| !part.1).map(|part| part.0)
    }
}

// What a list needs: the entries of the tables, and the bytes of the output.
pub fn sizes(list: &[u8]) -> [usize; 3] {
    [ENTRIES, ENTRIES, plain::size(list) as usize]
}

fn different(what: &str, list: &[u8], sizes: [usize; 3]) -> ! {
    println!("different: {what}");
    println!("lent {sizes:?}, list of {} bytes: {:?}", list.len(), &list[..list.len().min(200)]);
    std::process::exit(1)
}

// All programs on one list: the same answer, and the same in all that was lent, beyond the records and the forms too; a
// refusal leaves all as it was.
pub fn compare(list: &[u8], sizes: [usize; 3]) -> (Answer, Lent) {
    let mut by_list = Lent::new(sizes);
    let x = by_list.call(PROGRAMS[0].1, list);
    for (name, call) in &PROGRAMS[1..] {
        let mut lent = Lent::new(sizes);
        let y = lent.call(*call, list);
        if x != y {
            different(&format!("answer, list {x:?}, {name} {y:?}"), list, sizes);
        }
        if let Some(part) = lent.other_than(&by_list) {
            different(&format!("{part}, list and {name}"), list, sizes);
        }
    }
    if x.refusal > 0 && by_list.other_than(&Lent::new(sizes)).is_some() {
        different("what was lent is altered on a refusal", list, sizes);
    }
    (x, by_list)
}

// The lists of a kind, each with what is lent in six sizes: calls accepted, refused with 6, and refused with 7.
fn compare_kind(kind: &Kind, random: &mut Random) -> [usize; 3] {
    let mut counts = [0; 3];
    for _ in 0..kind.count {
        let list = (kind.list)(random);
        let [nb, na, nr] = sizes(&list);
        let more = [nb + random.below(9), na + random.below(9), nr + random.below(99)];
        let short = [nb - 1, na, nr];
        let other = [nb, na - 1, nr.saturating_sub(1)];
        for sizes in [[nb, na, nr], more, [nb, na, nr.saturating_sub(1)], short, other, [0, 0, 0]] {
            let (answer, _) = compare(&list, sizes);
            counts[[0, 6, 7].iter().position(|&n| n == answer.refusal).unwrap()] += 1;
        }
    }
    counts
}

fn main() {
    let names: Vec<&str> = PROGRAMS.iter().map(|p| p.0).collect();
    println!("many words in one call, seed {SEED:#018x}, programs: {}", names.join(", "));
    println!("{:<36}{:>8} |{:>10}{:>10}{:>10}", "lists", "number", "accepted", "refusal 6", "refusal 7");
    let mut random = Random::new(SEED + 7);
    for kind in COMPARED {
        let [x, y, z] = compare_kind(kind, &mut random);
        println!("{:<36}{:>8} |{x:>10}{y:>10}{z:>10}", kind.name, kind.count);
    }
    println!("same answers, bytes and tables of all programs, in all calls");
    println!();
    speed::measure();
}
