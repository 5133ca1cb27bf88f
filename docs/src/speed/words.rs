// The sets of words that are measured, and a small generator of random numbers (splitmix64).

pub const SEED: u64 = 0x0123_4567_89ab_cdef;

pub struct Set {
    pub name: &'static str,
    pub words: Vec<Vec<u8>>,
}

pub struct Random(u64);

impl Random {
    pub fn new(seed: u64) -> Random {
        Random(seed)
    }

    pub fn next(&mut self) -> u64 {
        self.0 = self.0.wrapping_add(0x9e37_79b9_7f4a_7c15);
        let mut z = self.0;
        z = (z ^ (z >> 30)).wrapping_mul(0xbf58_476d_1ce4_e5b9);
        z = (z ^ (z >> 27)).wrapping_mul(0x94d0_49bb_1331_11eb);
        z ^ (z >> 31)
    }

    // A number below n, for a small n.
    pub fn below(&mut self, n: usize) -> usize {
        (((self.next() >> 32) * n as u64) >> 32) as usize
    }
}

// The inverse of a letter is the letter in the other case.
fn inverse(x: u8) -> u8 {
    x ^ 32
}

pub fn over(letters: &[u8], n: usize, random: &mut Random) -> Vec<u8> {
    (0..n).map(|_| letters[random.below(letters.len())]).collect()
}

fn freely_reduced(n: usize, random: &mut Random) -> Vec<u8> {
    let mut word: Vec<u8> = Vec::with_capacity(n);
    while word.len() < n {
        let x = b"aAbB"[random.below(4)];
        if word.last() != Some(&inverse(x)) {
            word.push(x);
        }
    }
    word
}

fn powers(parts: &[(&[u8], usize)]) -> Vec<u8> {
    let mut word = Vec::new();
    for &(part, k) in parts {
        word.extend(part.repeat(k));
    }
    word
}

// A positive random word of n letters, then n letters aA aA .., each of which puts in a level or takes one out.
fn pairs_on_positive(n: usize, random: &mut Random) -> Vec<u8> {
    let mut word = powers(&[(b"aA", n / 2)]);
    word.extend(over(b"ab", n, random));
    word
}

pub fn sets(limit: usize) -> Vec<Set> {
    let mut random = Random::new(SEED);
    let r = &mut random;
    let third = limit / 3;
    let set = |name, words| Set { name, words };
    vec![
        set("uniform random", (0..1000).map(|_| over(b"aAbB", limit, r)).collect()),
        set("freely reduced random", (0..1000).map(|_| freely_reduced(limit, r)).collect()),
        set("positive random (a, b)", (0..200).map(|_| over(b"ab", limit, r)).collect()),
        set("negative random (A, B)", (0..200).map(|_| over(b"AB", limit, r)).collect()),
        set("a^n", vec![powers(&[(b"a", limit)]); 200]),
        set("A^n", vec![powers(&[(b"A", limit)]); 200]),
        set("b^n", vec![powers(&[(b"b", limit)]); 200]),
        set("B^n", vec![powers(&[(b"B", limit)]); 200]),
        set("(Aa)^k b^k", vec![powers(&[(b"Aa", third), (b"b", third)]); 200]),
        set("(aA)^k on positive", (0..200).map(|_| pairs_on_positive(limit / 2, r)).collect()),
        set("random, 256 letters", (0..1000).map(|_| over(b"aAbB", 256, r)).collect()),
        set("random, 16 letters", (0..1000).map(|_| over(b"aAbB", 16, r)).collect()),
    ]
}
