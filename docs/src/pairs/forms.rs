// The forms that are measured, in a size n: no index is above n and the exponents sum to at most n.

use crate::plain;
use crate::words::Random;

pub struct Kind {
    pub name: &'static str,
    tables: fn(usize, &mut Random) -> [Vec<u16>; 2],
}

pub const KINDS: &[Kind] = &[
    Kind { name: "x_n^n", tables: |n, _| [power(n, n), vec![]] },
    Kind { name: "x_n^-n", tables: |n, _| [vec![], power(n, n)] },
    Kind { name: "b over the last 16th", tables: |n, r| [spread(n - n / 16, n, n, r), vec![]] },
    Kind { name: "b over the last quarter", tables: |n, r| [spread(n - n / 4, n, n, r), vec![]] },
    Kind { name: "b, a over the last quarter", tables: |n, r| both(n - n / 4, n, n / 2, r) },
    Kind { name: "b over all", tables: |n, r| [spread(0, n, n, r), vec![]] },
    Kind { name: "b, a over all", tables: |n, r| both(0, n, n / 2, r) },
    Kind { name: "b, a over the first 16th", tables: |n, r| both(0, n / 16, n / 2, r) },
    Kind { name: "x_0^n, a left side", tables: |n, _| [power(0, n), vec![]] },
    Kind { name: "x_n, right sides", tables: |n, _| [power(n, 1), vec![]] },
    Kind { name: "x_0^m x_1 x_0^-m, left sides", tables: |n, _| left_sides(n) },
];

pub fn record(kind: &Kind, n: usize, random: &mut Random) -> Vec<u8> {
    let [mut b, mut a] = (kind.tables)(n, random);
    b.resize(n + 2, 0);
    a.resize(n + 2, 0);
    for i in 0..=n {
        if b[i] > 0 && a[i] > 0 && b[i + 1] == 0 && a[i + 1] == 0 {
            a[i] = 0;
        }
    }
    plain::record(&b, &a)
}

fn power(i: usize, e: usize) -> Vec<u16> {
    let mut table = vec![0; i + 1];
    table[i] = e as u16;
    table
}

// A sum of exponents spread at random over the indices from low to high.
fn spread(low: usize, high: usize, sum: usize, random: &mut Random) -> Vec<u16> {
    let mut table = vec![0; high + 1];
    for _ in 0..sum {
        table[low + random.below(high - low + 1)] += 1;
    }
    table
}

fn both(low: usize, high: usize, sum: usize, random: &mut Random) -> [Vec<u16>; 2] {
    [(); 2].map(|_| spread(low, high, sum, random))
}

fn left_sides(n: usize) -> [Vec<u16>; 2] {
    let m = (n / 2).max(1) as u16 - 1;
    [vec![m, 1], vec![m]]
}
