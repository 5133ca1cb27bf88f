// Word to record as a plain program: the form is kept as two arrays, one entry for each level.
// The word is read from its right end; each letter multiplies the form on the left.

pub const LIMIT: usize = 4096;

#[repr(C)]
#[derive(Clone, Copy, PartialEq, Eq, Debug)]
pub struct Answer {
    pub refusal: u64,
    pub value: u64,
}

pub fn word_to_record(word: &[u8], b: &mut [u16], a: &mut [u16], record: &mut [u8]) -> Answer {
    if let Some(refused) = judge(word, b.len(), a.len(), record.len()) {
        return refused;
    }
    let n = word.len();
    let b = &mut b[..=n];
    let a = &mut a[..=n];
    let used = form(word, b, a);
    let at = put_field(1, &b[..used], record);
    let end = at + put_field(2, &a[..used], &mut record[at..]);
    Answer { refusal: 0, value: end as u64 }
}

// Refusals 1, 2, 6 and 7, in this order.
fn judge(word: &[u8], nb: usize, na: usize, nr: usize) -> Option<Answer> {
    let n = word.len();
    if n > LIMIT {
        return Some(Answer { refusal: 1, value: LIMIT as u64 });
    }
    if let Some(place) = word.iter().position(|x| !matches!(x, b'a' | b'A' | b'b' | b'B')) {
        return Some(Answer { refusal: 2, value: place as u64 });
    }
    if nb <= n || na <= n {
        return Some(Answer { refusal: 6, value: 0 });
    }
    if nr < 6 + 4 * n {
        return Some(Answer { refusal: 7, value: 0 });
    }
    None
}

// The levels of the reduced form, and how many entries are live: all behind them are 0.
// After m letters at most m + 1 are live, so the tables have room for each letter.
fn form(word: &[u8], b: &mut [u16], a: &mut [u16]) -> usize {
    b.fill(0);
    a.fill(0);
    let mut used = 0;
    for &x in word.iter().rev() {
        used = match x {
            b'a' => multiply(0, b, a, used),
            b'A' => divide(0, b, a, used),
            b'b' => multiply(1, b, a, used),
            _ => divide(1, b, a, used),
        };
    }
    used
}

// The level that x_k meets: on its way behind level i, k grows by b_i.
#[inline(always)]
fn place(k: usize, b: &[u16], used: usize) -> usize {
    let live = &b[..used];
    let mut k = k;
    let mut i = 0;
    while i < k && i < live.len() {
        k += live[i] as usize;
        i += 1;
    }
    k
}

// The form behind x_k, with one reducing step where one is needed.
#[inline(always)]
fn multiply(k: usize, b: &mut [u16], a: &mut [u16], used: usize) -> usize {
    let k = place(k, b, used);
    if k >= used {
        b[k] = 1;
        return k + 1;
    }
    if b[k] == 0 && a[k] > 0 && (k + 1 == used || (b[k + 1] == 0 && a[k + 1] == 0)) {
        a[k] -= 1;
        return remove(k + 1, b, a, used);
    }
    b[k] += 1;
    used
}

// The form behind the inverse of x_k.
#[inline(always)]
fn divide(k: usize, b: &mut [u16], a: &mut [u16], used: usize) -> usize {
    let k = place(k, b, used);
    if k >= used {
        a[k] = 1;
        return k + 1;
    }
    if b[k] > 0 {
        b[k] -= 1;
        return used;
    }
    a[k] += 1;
    insert(k + 1, b, a, used)
}

// A level (0, 0) at i; none is stored behind the live ones.
#[inline(always)]
fn insert(i: usize, b: &mut [u16], a: &mut [u16], used: usize) -> usize {
    if i >= used {
        return used;
    }
    b.copy_within(i..used, i + 1);
    a.copy_within(i..used, i + 1);
    b[i] = 0;
    a[i] = 0;
    used + 1
}

// The level (0, 0) at i goes.
#[inline(always)]
fn remove(i: usize, b: &mut [u16], a: &mut [u16], used: usize) -> usize {
    if i >= used {
        return used;
    }
    b.copy_within(i + 1..used, i);
    a.copy_within(i + 1..used, i);
    b[used - 1] = 0;
    a[used - 1] = 0;
    used - 1
}

// A field: its tag, the length of its body, and an entry for each exponent above 0.
fn put_field(tag: u8, table: &[u16], record: &mut [u8]) -> usize {
    let mut end = 3;
    for (i, &x) in table.iter().enumerate() {
        if x > 0 {
            let entry = (i as u32) << 16 | x as u32;
            record[end..end + 4].copy_from_slice(&entry.to_be_bytes());
            end += 4;
        }
    }
    record[0] = tag;
    record[1..3].copy_from_slice(&(end as u16 - 3).to_be_bytes());
    end
}
