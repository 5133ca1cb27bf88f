// Records that the library's check of a register has to search for. Those of two powers have all the same fingerprint:
// the first power takes one of the lower indices, the second one of the upper, and those that meet in a given
// fingerprint are found in a table. The others have a long front in common, and fingerprints whose two halves are among
// those of the records before.

const STEP: u32 = 16777619;
const HALF: u32 = 2048;

// The fingerprint of bytes, going on from x.
fn print(x: u32, bytes: &[u8]) -> u32 {
    bytes.iter().fold(x, |x, &y| x.wrapping_mul(STEP).wrapping_add(y as u32 + 1))
}

fn power(index: u32, exponent: u32) -> [u8; 4] {
    (index << 16 | exponent).to_be_bytes()
}

// Index and exponent of choice i: an index below HALF, and an exponent from 1 to HALF.
fn choice(i: u32) -> (u32, u32) {
    (i / HALF, 1 + i % HALF)
}

// So many records at most, all with the fingerprint of the inverse of x0 x2048. The records have no b side, so that
// none is above the one with its sides exchanged.
pub fn records(most: usize) -> Vec<Vec<u8>> {
    let front = print(0, &[1, 0, 0, 2, 0, 8]);
    let back = |i| {
        let (k, e) = choice(i);
        print(0, &power(HALF + k, e))
    };
    let shift = STEP.wrapping_pow(4);
    let left = |i| {
        let (k, e) = choice(i);
        print(front, &power(k, e)).wrapping_mul(shift)
    };
    let mut backs: Vec<(u32, u32)> = (0..HALF * HALF).map(|i| (back(i), i)).collect();
    backs.sort_unstable();
    let target = left(0).wrapping_add(back(0));
    let mut records = Vec::new();
    for i in 0..HALF * HALF {
        let wanted = target.wrapping_sub(left(i));
        let first = backs.partition_point(|&(x, _)| x < wanted);
        for &(_, j) in backs[first..].iter().take_while(|&&(x, _)| x == wanted) {
            let ((k, e), (l, f)) = (choice(i), choice(j));
            let record = [&[1, 0, 0, 2, 0, 8][..], &power(k, e), &power(HALF + l, f)].concat();
            assert!(print(0, &record) == target);
            records.push(record);
            if records.len() == most {
                return records;
            }
        }
    }
    records
}

// So many records at most of n powers, all but the last power the same. The first third are any; of each of the others
// both halves of the fingerprint are halves of fingerprints before. The last powers are gone through in steps of a
// prime, since neighbours have neighbouring fingerprints.
pub fn marked(n: u32, most: usize) -> Vec<Vec<u8>> {
    let ones = (0..n - 1).flat_map(|k| power(k, 1));
    let front: Vec<u8> = [1, 0, 0, 2, (n >> 6) as u8, (n << 2) as u8].into_iter().chain(ones).collect();
    let start = print(0, &front);
    let mut marks = vec![false; 65536];
    let mut records = Vec::new();
    let (indices, exponents) = (2 * HALF + 2 - n, 2 * HALF + 1 - n);
    let all = (indices * exponents) as u64;
    for i in (0..all).map(|i| (i * 1_000_003 % all) as u32) {
        let (k, e) = (n - 1 + i / exponents, 1 + i % exponents);
        let x = print(start, &power(k, e));
        let halves = [x as u16 as usize, (x >> 16) as usize];
        if records.len() < most / 3 || halves.iter().all(|&i| marks[i]) {
            halves.iter().for_each(|&i| marks[i] = true);
            records.push([&front[..], &power(k, e)].concat());
        }
        if records.len() == most {
            break;
        }
    }
    records
}
