// Subscript notation as a plain program: the form is kept as two arrays, one entry for each level.
// The text is read into powers, which multiply the form on the left, the last one first. A power takes one walk to the
// level where it settles, and one shift of the levels behind it where it puts levels in or takes levels out.

pub const LIMIT: usize = 4096;
pub const ENTRIES: usize = LIMIT + 1;

// The exponents sum to at most the limit, so no index grows by more.
const LEVELS: usize = 2 * LIMIT + 2;

#[repr(C)]
#[derive(Clone, Copy, PartialEq, Eq, Debug)]
pub struct Answer {
    pub refusal: u64,
    pub value: u64,
}

fn accepted(value: usize) -> Answer {
    Answer { refusal: 0, value: value as u64 }
}

fn refused(refusal: u64, place: usize) -> Answer {
    Answer { refusal, value: place as u64 }
}

// How a power finds its level: the index, and the b levels.
type Walk = fn(usize, &[u16]) -> usize;

pub fn text_to_record(text: &[u8], b: &mut [u16], a: &mut [u16], record: &mut [u8]) -> Answer {
    read(place, text, b, a, record)
}

// The same with the walk that takes the levels one by one.
pub fn text_to_record_in_steps(text: &[u8], b: &mut [u16], a: &mut [u16], record: &mut [u8]) -> Answer {
    read(place_in_steps, text, b, a, record)
}

// Refusals 9, 10, 11, 6 and 7, in this order; then the tables and the record.
#[inline(always)]
fn read(walk: Walk, text: &[u8], b: &mut [u16], a: &mut [u16], record: &mut [u8]) -> Answer {
    let (powers, sum) = match powers(text) {
        Ok(read) => read,
        Err(place) => return refused(9, place),
    };
    if sum > LIMIT {
        return refused(10, 0);
    }
    let mut form = Form { b: [0; LEVELS], a: [0; LEVELS], used: 0 };
    for power in powers.iter().rev() {
        let k = walk(power.index, &form.b[..form.used]);
        if power.inverse {
            form.divide(k, power.exponent);
        } else {
            form.multiply(k, power.exponent);
        }
    }
    if form.high() {
        return refused(11, 0);
    }
    if b.len() < ENTRIES || a.len() < ENTRIES {
        return refused(6, 0);
    }
    if record.len() < 6 + 4 * sum {
        return refused(7, 0);
    }
    b[..ENTRIES].copy_from_slice(&form.b[..ENTRIES]);
    a[..ENTRIES].copy_from_slice(&form.a[..ENTRIES]);
    let used = form.used.min(ENTRIES);
    accepted(put_record(&form.b[..used], &form.a[..used], record))
}

// x_k^e, or x_k^-e.
pub struct Power {
    pub index: usize,
    pub exponent: usize,
    pub inverse: bool,
}

// The powers of a text and the sum of their exponents' sizes, or the offset of the first piece that is misspelled.
// Powers behind those whose sum passes the limit are not kept.
pub fn powers(text: &[u8]) -> Result<(Vec<Power>, usize), usize> {
    let mut powers = Vec::new();
    let mut sum = 0;
    if text.is_empty() {
        return Ok((powers, sum));
    }
    let mut offset = 0;
    for piece in text.split(|&x| x == b' ') {
        let Some(power) = power(piece) else { return Err(offset) };
        offset += piece.len() + 1;
        if sum <= LIMIT {
            sum += power.exponent;
            powers.push(power);
        }
    }
    Ok((powers, sum))
}

fn power(piece: &[u8]) -> Option<Power> {
    let (index, behind) = number(piece.strip_prefix(b"x")?)?;
    let (least, exponent, inverse, behind) = match behind {
        [b'^', b'-', digits @ ..] => number(digits).map(|(e, behind)| (1, e, true, behind))?,
        [b'^', digits @ ..] => number(digits).map(|(e, behind)| (2, e, false, behind))?,
        _ => (1, 1, false, behind),
    };
    let right = index <= LIMIT && least <= exponent && exponent <= LIMIT && behind.is_empty();
    right.then_some(Power { index, exponent, inverse })
}

// The number in front, held just above the limit once it is there, and what stands behind it.
fn number(text: &[u8]) -> Option<(usize, &[u8])> {
    let digits = text.iter().take_while(|x| x.is_ascii_digit()).count();
    if digits == 0 || (digits > 1 && text[0] == b'0') {
        return None;
    }
    let value = text[..digits].iter().fold(0, |n, x| (10 * n + (x - b'0') as usize).min(LIMIT + 1));
    Some((value, &text[digits..]))
}

// The level where x_k settles: on its way behind level i, k grows by b_i. All levels below k are passed, whatever they
// hold, so they are added up together; their sum is at most the limit.
#[inline(always)]
fn place(k: usize, b: &[u16]) -> usize {
    let mut k = k;
    let mut i = 0;
    while i < k && i < b.len() {
        let end = k.min(b.len());
        k += b[i..end].iter().sum::<u16>() as usize;
        i = end;
    }
    k
}

#[inline(always)]
fn place_in_steps(k: usize, b: &[u16]) -> usize {
    let mut k = k;
    let mut i = 0;
    while i < k && i < b.len() {
        k += b[i] as usize;
        i += 1;
    }
    k
}

// The reduced form. All levels from `used` on are (0, 0).
struct Form {
    b: [u16; LEVELS],
    a: [u16; LEVELS],
    used: usize,
}

impl Form {
    // The form behind x_k^e, settled at k; b is 0 at the level in front of k. Each x_k that meets an inverse needs the
    // next level to be (0, 0) and takes it out.
    #[inline(always)]
    fn multiply(&mut self, k: usize, e: usize) {
        if k >= self.used {
            self.b[k] = e as u16;
            self.used = k + 1;
        } else if self.b[k] > 0 || self.a[k] == 0 {
            self.b[k] += e as u16;
        } else {
            let most = e.min(self.a[k] as usize);
            let stop = (k + 1..self.used).take(most).find(|&i| self.b[i] > 0 || self.a[i] > 0);
            let pairs = stop.map_or(most, |i| i - k - 1);
            self.b[k] = (e - pairs) as u16;
            self.a[k] -= pairs as u16;
            self.remove(k + 1, pairs);
        }
    }

    // The form behind x_k^-e, settled at k: what b does not take away goes to a and lifts the levels behind k.
    #[inline(always)]
    fn divide(&mut self, k: usize, e: usize) {
        if k >= self.used {
            self.a[k] = e as u16;
            self.used = k + 1;
            return;
        }
        let taken = e.min(self.b[k] as usize);
        self.b[k] -= taken as u16;
        self.a[k] += (e - taken) as u16;
        self.insert(k + 1, e - taken);
    }

    // Levels (0, 0) at i, n of them; none is stored behind the last one used.
    #[inline(always)]
    fn insert(&mut self, i: usize, n: usize) {
        if i >= self.used || n == 0 {
            return;
        }
        for side in [&mut self.b, &mut self.a] {
            side.copy_within(i..self.used, i + n);
            side[i..i + n].fill(0);
        }
        self.used += n;
    }

    // The n levels at i, which are (0, 0), go.
    #[inline(always)]
    fn remove(&mut self, i: usize, n: usize) {
        let n = n.min(self.used - i);
        if n == 0 {
            return;
        }
        for side in [&mut self.b, &mut self.a] {
            side.copy_within(i + n..self.used, i);
            side[self.used - n..self.used].fill(0);
        }
        self.used -= n;
    }

    // Whether an index above the limit occurs.
    fn high(&self) -> bool {
        self.used > ENTRIES && (ENTRIES..self.used).any(|i| self.b[i] > 0 || self.a[i] > 0)
    }
}

// The record of two tables.
pub fn record(b: &[u16], a: &[u16]) -> Vec<u8> {
    let mut bytes = vec![0; 6 + 4 * (b.len() + a.len())];
    let end = put_record(b, a, &mut bytes);
    bytes.truncate(end);
    bytes
}

fn put_record(b: &[u16], a: &[u16], record: &mut [u8]) -> usize {
    let at = put_field(1, b, record);
    at + put_field(2, a, &mut record[at..])
}

// A field: its tag, the length of its body, and an entry for each exponent above 0.
fn put_field(tag: u8, table: &[u16], record: &mut [u8]) -> usize {
    let mut end = 3;
    for (i, &x) in table.iter().enumerate() {
        if x > 0 {
            let entry = (i as u32) << 16 | x as u32;
            record[end..end + 4].copy_from_slice(&entry.to_be_bytes());
            end += 4;
        }
    }
    record[0] = tag;
    record[1..3].copy_from_slice(&(end as u16 - 3).to_be_bytes());
    end
}

// Refusals 3, 4, 5 and 7, in this order; then the text, a token for each entry, the a side from its end.
pub fn record_to_text(record: &[u8], text: &mut [u8]) -> Answer {
    let sides = match sides(record) {
        Ok(sides) => sides,
        Err(refused) => return refused,
    };
    let mut written = Vec::with_capacity(3 * record.len());
    for (i, e) in entries(sides[0]) {
        put_token(&mut written, i, if e > 1 { b"^" } else { b"" }, e);
    }
    for (i, e) in entries(sides[1]).rev() {
        put_token(&mut written, i, b"^-", e);
    }
    // the space behind the last token
    written.pop();
    if text.len() < written.len() {
        return refused(7, 0);
    }
    text[..written.len()].copy_from_slice(&written);
    accepted(written.len())
}

// The bodies of a record's two fields, if it is one, or why not.
fn sides(record: &[u8]) -> Result<[&[u8]; 2], Answer> {
    let Some((b, behind)) = field(1, record) else { return Err(refused(3, 0)) };
    let Some((a, [])) = field(2, behind) else { return Err(refused(3, 0)) };
    let mut tables = [[0; LIMIT + 2]; 2];
    let mut sum = 0;
    for (side, (body, offset)) in [(b, 3), (a, 6 + b.len())].into_iter().enumerate() {
        let mut least = 0;
        for (n, (i, e)) in entries(body).enumerate() {
            sum += e;
            if e == 0 || i > LIMIT || i < least || sum > LIMIT {
                return Err(refused(4, offset + 4 * n));
            }
            least = i + 1;
            tables[side][i] = e;
        }
    }
    let [x, y] = &tables;
    match (0..ENTRIES).find(|&i| x[i] > 0 && y[i] > 0 && x[i + 1] == 0 && y[i + 1] == 0) {
        Some(i) => Err(refused(5, i)),
        None => Ok([b, a]),
    }
}

// The body of the field in front, with this tag and whole entries, and what stands behind it.
fn field(tag: u8, bytes: &[u8]) -> Option<(&[u8], &[u8])> {
    let [first, high, low, behind @ ..] = bytes else { return None };
    let size = u16::from_be_bytes([*high, *low]) as usize;
    (*first == tag && size % 4 == 0 && size <= behind.len()).then(|| behind.split_at(size))
}

// The indices and exponents of a field's body.
fn entries(body: &[u8]) -> impl DoubleEndedIterator<Item = (usize, usize)> + '_ {
    let pair = |high, low| u16::from_be_bytes([high, low]) as usize;
    body.chunks_exact(4).map(move |x| (pair(x[0], x[1]), pair(x[2], x[3])))
}

// A token and a space.
fn put_token(text: &mut Vec<u8>, index: usize, sign: &[u8], exponent: usize) {
    text.push(b'x');
    put_number(text, index);
    if !sign.is_empty() {
        text.extend(sign);
        put_number(text, exponent);
    }
    text.push(b' ');
}

fn put_number(text: &mut Vec<u8>, n: usize) {
    let mut digits = [0; 20];
    let mut at = digits.len();
    let mut n = n;
    loop {
        at -= 1;
        digits[at] = b'0' + (n % 10) as u8;
        n /= 10;
        if n == 0 {
            break;
        }
    }
    text.extend(&digits[at..]);
}
