// The receipt program as a plain Rust program. The form is kept as two arrays and each letter multiplies it
// (../speed/plain.rs); the number of carets is the least that both sides' exponents need; the length is the sum of
// Table 1 of document 001 over the labels of the carets, which are told from the exponents in one pass.
use std::io::{self, BufRead, BufWriter, Write};

#[allow(dead_code)]
#[path = "../speed/plain.rs"]
mod words;

const TABLE: [[usize; 5]; 5] = [
    // L, X, R, N, I
    [2, 1, 1, 2, 2],
    [1, 2, 2, 3, 3],
    [1, 2, 2, 3, 1],
    [2, 3, 3, 4, 4],
    [2, 3, 1, 4, 2],
];
const R: usize = 2;

// The carets that the exponents of a side need.
fn needed(exponents: &[u16]) -> usize {
    let mut sum = 0;
    let mut most = 0;
    for (i, &e) in exponents.iter().enumerate().rev() {
        sum += e as usize;
        if e > 0 {
            most = most.max(i + sum + 1);
        }
    }
    most
}

// The labels of a tree's carets from caret 1 on: the subtrees open over the next caret, and the left carets to come.
struct Labels<'a> {
    exponents: &'a [u16],
    next: usize,
    open: usize,
    lefts: usize,
}

impl<'a> Labels<'a> {
    fn new(exponents: &'a [u16]) -> Labels<'a> {
        let at = |i: usize| exponents.get(i).copied().unwrap_or(0) as usize;
        Labels { exponents, next: 2, open: at(1), lefts: at(0) }
    }

    #[inline(always)]
    fn label(&mut self) -> usize {
        let e = self.exponents.get(self.next).copied().unwrap_or(0) as usize;
        self.next += 1;
        if self.open > 0 {
            self.open = self.open - 1 + e;
            return if e > 0 { 3 } else { 4 };
        }
        self.open = e;
        if self.lefts > 0 {
            self.lefts -= 1;
            return 0;
        }
        if e > 0 { 1 } else { R }
    }
}

// The length of a pair of n carets: trailing columns R over R weigh nothing.
fn length(b: &[u16], a: &[u16], n: usize) -> usize {
    let (mut minus, mut plus) = (Labels::new(a), Labels::new(b));
    let (mut sum, mut pending) = (0, 0);
    for _ in 1..n {
        let (x, y) = (minus.label(), plus.label());
        if x == R && y == R {
            pending += TABLE[R][R];
        } else {
            sum += pending + TABLE[x][y];
            pending = 0;
        }
    }
    sum
}

struct Desk {
    b: Vec<u16>,
    a: Vec<u16>,
    record: Vec<u8>,
}

impl Desk {
    fn receipt(&mut self, number: u64, line: &[u8], out: &mut impl Write) -> io::Result<()> {
        let answer = words::word_to_record(line, &mut self.b, &mut self.a, &mut self.record);
        if answer.refusal > 0 {
            return writeln!(out, "{number} refused {} {}", answer.refusal, answer.value);
        }
        let entries = line.len() + 1;
        let (b, a) = (&self.b[..entries], &self.a[..entries]);
        let n = needed(b).max(needed(a));
        write!(out, "{number} {} {n} {} ", line.len(), length(b, a, n))?;
        let mut digits = [0u8; 2];
        for &x in &self.record[..answer.value as usize] {
            digits[0] = b"0123456789abcdef"[(x / 16) as usize];
            digits[1] = b"0123456789abcdef"[(x % 16) as usize];
            out.write_all(&digits)?;
        }
        out.write_all(b"\n")
    }
}

fn main() -> io::Result<()> {
    let mut input = io::stdin().lock();
    let mut out = BufWriter::with_capacity(1 << 16, io::stdout().lock());
    let mut desk = Desk {
        b: vec![0; words::LIMIT + 1],
        a: vec![0; words::LIMIT + 1],
        record: vec![0; 6 + 4 * words::LIMIT],
    };
    out.write_all(b"line letters carets length record\n")?;
    let (mut number, mut line) = (1, Vec::new());
    while input.read_until(b'\n', &mut line)? > 0 {
        if line.last() == Some(&b'\n') {
            line.pop();
        }
        desk.receipt(number, &line, &mut out)?;
        line.clear();
        number += 1;
    }
    out.flush()
}
