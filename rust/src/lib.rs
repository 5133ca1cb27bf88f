//! Thompson's group F: each element listed once. A safe face of libthompson, whose calls are proved.
//!
//! A **word** is bytes `a` (x0), `A` (its inverse), `b` (x1), `B` (its inverse), at most [`LIMIT`] of them; the
//! rightmost letter acts first. A **record** is the bytes of an element's reduced form: two words get the same record
//! just when they are the same element. A **text** is an element in subscript notation, as in
//! `x0^2 x1 x6 x3^-1 x0^-2`.
//!
//! ```
//! use thompson::{length, record, text, verdict, Verdict};
//!
//! let record = record("aabAAAAAbaaaB")?;
//! assert_eq!(text(&record)?, "x0^2 x1 x6 x3^-1 x0^-2");
//! assert_eq!(length(&record)?, 11);
//! assert_eq!(verdict("BAbab", "AAbaa"), Ok(Verdict::Same));
//! # Ok::<(), thompson::Refused>(())
//! ```
//!
//! What a call refuses is an `Err` with the refusal's number and place. Every function takes any bytes, and every call
//! has memory of its own, so that any number of threads may call at once; a thread that calls needs a stack of 900,000
//! bytes, which is less than half of what Rust gives a thread. What the calls ask of their caller in C is met here: a
//! Rust slice is a valid pointer with its length, and a `&mut` slice overlaps nothing else.

use std::fmt;

// A refusal's number and place, or 0 and the call's value.
#[repr(C)]
struct Answer {
    refusal: u64,
    value: u64,
}

// A filing: a refusal's number and place, or 0 and the entry's number; 1 where that entry was present; the word.
#[repr(C)]
struct Filing {
    refusal: u64,
    value: u64,
    present: u64,
    word: u64,
}

extern "C" {
    fn thompson_word_to_record(
        word: *const u8,
        letters: usize,
        b_table: *mut u16,
        b_entries: usize,
        a_table: *mut u16,
        a_entries: usize,
        record: *mut u8,
        record_size: usize,
    ) -> Answer;
    fn thompson_list_to_records(
        list: *const u8,
        list_size: usize,
        b_table: *mut u16,
        b_entries: usize,
        a_table: *mut u16,
        a_entries: usize,
        records: *mut u8,
        records_size: usize,
    ) -> Answer;
    fn thompson_check_record(record: *const u8, record_size: usize) -> Answer;
    fn thompson_record_to_word(record: *const u8, record_size: usize, word: *mut u8, word_size: usize) -> Answer;
    fn thompson_text_to_record(
        text: *const u8,
        text_size: usize,
        b_table: *mut u16,
        b_entries: usize,
        a_table: *mut u16,
        a_entries: usize,
        record: *mut u8,
        record_size: usize,
    ) -> Answer;
    fn thompson_record_to_text(record: *const u8, record_size: usize, text: *mut u8, text_size: usize) -> Answer;
    fn thompson_record_to_tree_pair(
        record: *const u8,
        record_size: usize,
        t_minus: *mut u8,
        t_minus_size: usize,
        t_plus: *mut u8,
        t_plus_size: usize,
    ) -> Answer;
    fn thompson_record_to_length(record: *const u8, record_size: usize) -> Answer;
    fn thompson_record_to_label_length(record: *const u8, record_size: usize) -> Answer;
    fn thompson_same_element(
        word1: *const u8,
        letters1: usize,
        b_table1: *mut u16,
        b_entries1: usize,
        a_table1: *mut u16,
        a_entries1: usize,
        record1: *mut u8,
        record_size1: usize,
        word2: *const u8,
        letters2: usize,
        b_table2: *mut u16,
        b_entries2: usize,
        a_table2: *mut u16,
        a_entries2: usize,
        record2: *mut u8,
        record_size2: usize,
    ) -> Answer;
    fn thompson_enter_word(
        word: *const u8,
        letters: usize,
        b_table: *mut u16,
        b_entries: usize,
        a_table: *mut u16,
        a_entries: usize,
        record: *mut u8,
        record_size: usize,
        holder: u16,
        register: *mut u8,
        register_size: usize,
    ) -> Filing;
    fn thompson_check_register(register: *const u8, register_size: usize) -> Answer;
    fn thompson_live_entries(register: *const u8, register_size: usize, holder: u16) -> Answer;
    fn thompson_pack_shape(
        shape: *const u8,
        shape_size: usize,
        numbers: *mut u64,
        numbers_size: usize,
        summary: *mut u16,
        summary_entries: usize,
    ) -> Answer;
    fn thompson_unpack_shape(
        numbers: *const u64,
        numbers_size: usize,
        summary: *const u16,
        summary_entries: usize,
        shape: *mut u8,
        shape_size: usize,
    ) -> Answer;
    fn thompson_carets_before(
        numbers: *const u64,
        numbers_size: usize,
        summary: *const u16,
        summary_entries: usize,
        node: u64,
    ) -> Answer;
    fn thompson_subtree_end(
        numbers: *const u64,
        numbers_size: usize,
        summary: *const u16,
        summary_entries: usize,
        node: u64,
    ) -> Answer;
    fn thompson_grow_caret(
        numbers: *mut u64,
        numbers_size: usize,
        summary: *mut u16,
        summary_entries: usize,
        leaf: u64,
    ) -> Answer;
}

/// The most letters of a word; also the highest index and the highest sum of exponents of a record or a text.
pub const LIMIT: usize = 4096;

/// The most carets of a tree.
pub const CARETS: usize = 2 * LIMIT + 1;

/// The most bytes of a register.
pub const REGISTER_MOST: usize = 65536;

/// The bytes of a register without entries.
pub const REGISTER_FIRST: usize = 7;

// The entries of each table, and the bytes of a record, that are enough for a word of n letters; a longer word than
// the limit is refused whatever is lent.
fn table(n: usize) -> Vec<u16> {
    vec![0; n.min(LIMIT) + 1]
}
fn room(n: usize) -> Vec<u8> {
    vec![0; 6 + 4 * n.min(LIMIT)]
}

/// Why a call refused: the refusal's number and its place.
///
/// ```
/// let refused = thompson::record("axb").unwrap_err();
/// assert_eq!((refused.number, refused.place), (2, 1));
/// assert_eq!(refused.to_string(), "refused 2 at 1: a byte that is no letter");
/// ```
#[derive(Clone, Copy, Debug, PartialEq, Eq, Hash)]
pub struct Refused {
    pub number: u64,
    pub place: u64,
}

impl Refused {
    /// The refusal in words.
    pub fn reason(&self) -> &'static str {
        match self.number {
            0 => "no refusal",
            1 => "more letters than the limit",
            2 => "a byte that is no letter",
            3 => "the two fields do not frame the record",
            4 => "an entry that breaks a rule",
            5 => "the form is not reduced",
            6 => "a table that is too short",
            7 => "an output buffer that is too short",
            8 => "a spelling with more letters than the limit",
            9 => "a misspelled token, or an index above the limit",
            10 => "exponents whose sizes sum above the limit",
            11 => "a reduced form with an index above the limit",
            12 => "no well-formed register",
            13 => "a holder with four entries",
            14 => "an entry that does not fit the register",
            15 => "no tree within the bound, or no such node or leaf",
            _ => "unknown refusal",
        }
    }
}

impl fmt::Display for Refused {
    fn fmt(&self, f: &mut fmt::Formatter<'_>) -> fmt::Result {
        write!(f, "refused {} at {}: {}", self.number, self.place, self.reason())
    }
}

impl std::error::Error for Refused {}

/// The verdict on two words.
#[derive(Clone, Copy, Debug, PartialEq, Eq, Hash)]
pub enum Verdict {
    /// One element.
    Same,
    /// Two elements, each the inverse of the other.
    Inverse,
    /// Neither.
    Different,
}

/// Why two words have no verdict: the first is refused, or the second is.
#[derive(Clone, Copy, Debug, PartialEq, Eq, Hash)]
pub enum Unjudged {
    First(Refused),
    Second(Refused),
}

impl fmt::Display for Unjudged {
    fn fmt(&self, f: &mut fmt::Formatter<'_>) -> fmt::Result {
        match self {
            Unjudged::First(refused) => write!(f, "{refused}"),
            Unjudged::Second(refused) => write!(f, "second word {refused}"),
        }
    }
}

impl std::error::Error for Unjudged {}

/// The two trees of a pair, each with a byte for each node: 1 for a caret and 0 for a leaf, a node before its left
/// subtree before its right one.
#[derive(Clone, Debug, PartialEq, Eq, Hash)]
pub struct TreePair {
    pub carets: usize,
    pub minus: Vec<u8>,
    pub plus: Vec<u8>,
}

/// A shape packed 64 nodes to a number, the first in the lowest bit, and for each number the carets in those before it.
#[derive(Clone, Debug, PartialEq, Eq, Hash)]
pub struct Packed {
    pub numbers: Vec<u64>,
    pub summary: Vec<u16>,
}

/// The entry of a word in a register, by its number.
#[derive(Clone, Copy, Debug, PartialEq, Eq, Hash)]
pub enum Entered {
    /// A new entry.
    New(u64),
    /// An entry that held the element or its inverse before.
    Present(u64),
}

fn value(answer: Answer) -> Result<usize, Refused> {
    match answer.refusal {
        0 => Ok(answer.value as usize),
        number => Err(Refused { number, place: answer.value }),
    }
}

// Bytes of ASCII, which letters and texts are.
fn ascii(bytes: Vec<u8>) -> String {
    String::from_utf8(bytes).expect("letters and texts are ASCII")
}

/// The record of a word. Refuses 1, 2.
///
/// ```
/// assert_eq!(thompson::record("ba")?, [1, 0, 8, 0, 0, 0, 1, 0, 2, 0, 1, 2, 0, 0]);
/// assert_eq!(thompson::record("")?, [1, 0, 0, 2, 0, 0]);
/// assert_eq!(thompson::record([b'a'; thompson::LIMIT + 1]).unwrap_err().number, 1);
/// # Ok::<(), thompson::Refused>(())
/// ```
pub fn record(word: impl AsRef<[u8]>) -> Result<Vec<u8>, Refused> {
    let word = word.as_ref();
    let (mut b, mut a, mut bytes) = (table(word.len()), table(word.len()), room(word.len()));
    let answer = unsafe {
        thompson_word_to_record(
            word.as_ptr(),
            word.len(),
            b.as_mut_ptr(),
            b.len(),
            a.as_mut_ptr(),
            a.len(),
            bytes.as_mut_ptr(),
            bytes.len(),
        )
    };
    bytes.truncate(value(answer)?);
    Ok(bytes)
}

// The bytes of the field at a place, with its tag and its length.
fn field_size(bytes: &[u8], at: usize) -> usize {
    3 + 256 * bytes[at + 1] as usize + bytes[at + 2] as usize
}

// The items of a list, gone through by their tags: a refused word has tag 0F hex, a record has two fields.
fn items(bytes: &[u8]) -> Vec<Result<Vec<u8>, Refused>> {
    let mut items = Vec::new();
    let mut at = 0;
    while at < bytes.len() {
        let first = at + field_size(bytes, at);
        if bytes[at] == 0x0F {
            let place = 256 * bytes[at + 4] as u64 + bytes[at + 5] as u64;
            items.push(Err(Refused { number: bytes[at + 3] as u64, place }));
            at = first;
        } else {
            let end = first + field_size(bytes, first);
            items.push(Ok(bytes[at..end].to_vec()));
            at = end;
        }
    }
    items
}

/// The records of many words in one call, each a line of the list: only the byte 0A (hexadecimal) ends a line, and an
/// unended last line counts unless it is empty. A word that is refused, with 1 or 2, refuses nothing but itself.
///
/// ```
/// let items = thompson::records("ba\naxb\nA");
/// assert_eq!(items.len(), 3);
/// assert_eq!(items[0], thompson::record("ba"));
/// assert_eq!(items[1], Err(thompson::Refused { number: 2, place: 1 }));
/// assert_eq!(items[2], thompson::record("A"));
/// assert!(thompson::records("").is_empty());
/// ```
pub fn records(list: impl AsRef<[u8]>) -> Vec<Result<Vec<u8>, Refused>> {
    let list = list.as_ref();
    let ends = list.iter().filter(|&&byte| byte == b'\n').count();
    let (mut b, mut a) = (table(LIMIT), table(LIMIT));
    let mut bytes = vec![0u8; 6 * (ends + 1) + 4 * (list.len() - ends)];
    let answer = unsafe {
        thompson_list_to_records(
            list.as_ptr(),
            list.len(),
            b.as_mut_ptr(),
            b.len(),
            a.as_mut_ptr(),
            a.len(),
            bytes.as_mut_ptr(),
            bytes.len(),
        )
    };
    // 6 and 7 alone are refused, and what is lent is enough.
    bytes.truncate(value(answer).expect("tables and output are long enough for any list"));
    items(&bytes)
}

/// Whether bytes are a record. Refuses 3, 4, 5.
///
/// ```
/// let record = thompson::record("b")?;
/// assert_eq!(thompson::check(&record), Ok(()));
/// assert_eq!(thompson::check(&record[1..]), Err(thompson::Refused { number: 3, place: 0 }));
/// # Ok::<(), thompson::Refused>(())
/// ```
pub fn check(record: impl AsRef<[u8]>) -> Result<(), Refused> {
    let record = record.as_ref();
    value(unsafe { thompson_check_record(record.as_ptr(), record.len()) }).map(|_| ())
}

/// The word that a record spells, which is not always a shortest one. Refuses 3, 4, 5, 8.
///
/// ```
/// let record = thompson::record("BAbab")?;
/// assert_eq!(thompson::word(&record)?, "AAbaa");
/// let high = thompson::record_of_text(format!("x{}", thompson::LIMIT))?;
/// assert_eq!(thompson::word(&high).unwrap_err().number, 8);
/// # Ok::<(), thompson::Refused>(())
/// ```
pub fn word(record: impl AsRef<[u8]>) -> Result<String, Refused> {
    let record = record.as_ref();
    let mut letters = vec![0u8; LIMIT];
    let answer = unsafe { thompson_record_to_word(record.as_ptr(), record.len(), letters.as_mut_ptr(), letters.len()) };
    letters.truncate(value(answer)?);
    Ok(ascii(letters))
}

/// The record of a text in subscript notation. Refuses 9, 10, 11.
///
/// ```
/// assert_eq!(thompson::record_of_text("x0 x2"), thompson::record("ba"));
/// assert_eq!(thompson::record_of_text("x0^1").unwrap_err().number, 9);
/// let most = thompson::LIMIT;
/// assert_eq!(thompson::record_of_text(format!("x0 x0^-{most}")).unwrap_err().number, 10);
/// assert_eq!(thompson::record_of_text(format!("x{most} x0")).unwrap_err().number, 11);
/// ```
pub fn record_of_text(text: impl AsRef<[u8]>) -> Result<Vec<u8>, Refused> {
    let text = text.as_ref();
    let (mut b, mut a, mut bytes) = (table(LIMIT), table(LIMIT), room(LIMIT));
    let answer = unsafe {
        thompson_text_to_record(
            text.as_ptr(),
            text.len(),
            b.as_mut_ptr(),
            b.len(),
            a.as_mut_ptr(),
            a.len(),
            bytes.as_mut_ptr(),
            bytes.len(),
        )
    };
    bytes.truncate(value(answer)?);
    Ok(bytes)
}

/// The text of a record in subscript notation. Refuses 3, 4, 5.
///
/// ```
/// assert_eq!(thompson::text(thompson::record("ba")?)?, "x0 x2");
/// # Ok::<(), thompson::Refused>(())
/// ```
pub fn text(record: impl AsRef<[u8]>) -> Result<String, Refused> {
    let record = record.as_ref();
    let mut bytes = vec![0u8; 9 * LIMIT];
    let answer = unsafe { thompson_record_to_text(record.as_ptr(), record.len(), bytes.as_mut_ptr(), bytes.len()) };
    bytes.truncate(value(answer)?);
    Ok(ascii(bytes))
}

/// The tree pair of a record. Refuses 3, 4, 5.
///
/// ```
/// let pair = thompson::tree_pair(thompson::record("b")?)?;
/// assert_eq!(pair.carets, 3);
/// assert_eq!(pair.minus, [1, 0, 1, 0, 1, 0, 0]);
/// assert_eq!(pair.plus, [1, 0, 1, 1, 0, 0, 0]);
/// # Ok::<(), thompson::Refused>(())
/// ```
pub fn tree_pair(record: impl AsRef<[u8]>) -> Result<TreePair, Refused> {
    let record = record.as_ref();
    let mut minus = vec![0u8; 2 * CARETS + 1];
    let mut plus = vec![0u8; 2 * CARETS + 1];
    let answer = unsafe {
        thompson_record_to_tree_pair(
            record.as_ptr(),
            record.len(),
            minus.as_mut_ptr(),
            minus.len(),
            plus.as_mut_ptr(),
            plus.len(),
        )
    };
    let carets = value(answer)?;
    minus.truncate(2 * carets + 1);
    plus.truncate(2 * carets + 1);
    Ok(TreePair { carets, minus, plus })
}

/// The length of a record: the least number of letters of a word of the element. Refuses 3, 4, 5.
///
/// ```
/// assert_eq!(thompson::length(thompson::record("aabAAAAAbaaaB")?)?, 11);
/// # Ok::<(), thompson::Refused>(())
/// ```
pub fn length(record: impl AsRef<[u8]>) -> Result<usize, Refused> {
    let record = record.as_ref();
    value(unsafe { thompson_record_to_length(record.as_ptr(), record.len()) })
}

/// The same number, added up by Table 1 over the labels of the carets. Refuses 3, 4, 5.
///
/// ```
/// assert_eq!(thompson::label_length(thompson::record("aabAAAAAbaaaB")?)?, 11);
/// # Ok::<(), thompson::Refused>(())
/// ```
pub fn label_length(record: impl AsRef<[u8]>) -> Result<usize, Refused> {
    let record = record.as_ref();
    value(unsafe { thompson_record_to_label_length(record.as_ptr(), record.len()) })
}

/// Whether two words are the same element, inverse elements, or neither. Refuses 1, 2 of the first word, then of the
/// second.
///
/// ```
/// use thompson::{verdict, Refused, Unjudged, Verdict};
///
/// assert_eq!(verdict("BAbab", "AAbaa"), Ok(Verdict::Same));
/// assert_eq!(verdict("ab", "BA"), Ok(Verdict::Inverse));
/// assert_eq!(verdict("ab", "ba"), Ok(Verdict::Different));
/// assert_eq!(verdict("ab", "a?"), Err(Unjudged::Second(Refused { number: 2, place: 1 })));
/// assert_eq!(verdict("a?", "?").unwrap_err().to_string(), "refused 2 at 1: a byte that is no letter");
/// ```
pub fn verdict(first: impl AsRef<[u8]>, second: impl AsRef<[u8]>) -> Result<Verdict, Unjudged> {
    let (first, second) = (first.as_ref(), second.as_ref());
    let (mut b1, mut a1, mut record1) = (table(first.len()), table(first.len()), room(first.len()));
    let (mut b2, mut a2, mut record2) = (table(second.len()), table(second.len()), room(second.len()));
    let answer = unsafe {
        thompson_same_element(
            first.as_ptr(),
            first.len(),
            b1.as_mut_ptr(),
            b1.len(),
            a1.as_mut_ptr(),
            a1.len(),
            record1.as_mut_ptr(),
            record1.len(),
            second.as_ptr(),
            second.len(),
            b2.as_mut_ptr(),
            b2.len(),
            a2.as_mut_ptr(),
            a2.len(),
            record2.as_mut_ptr(),
            record2.len(),
        )
    };
    let refused = |number| Refused { number, place: answer.value };
    match (answer.refusal, answer.value) {
        (0, 1) => Ok(Verdict::Same),
        (0, 2) => Ok(Verdict::Inverse),
        (0, _) => Ok(Verdict::Different),
        (number @ 1..=255, _) => Err(Unjudged::First(refused(number))),
        (number, _) => Err(Unjudged::Second(refused(number - 256))),
    }
}

/// A fresh register of n bytes.
///
/// # Panics
///
/// Where n is below [`REGISTER_FIRST`] or above [`REGISTER_MOST`].
///
/// ```
/// assert_eq!(thompson::fresh_register(8), [0x10, 0, 4, 0, 0, 0, 0, 0]);
/// ```
pub fn fresh_register(n: usize) -> Vec<u8> {
    assert!((REGISTER_FIRST..=REGISTER_MOST).contains(&n), "a register has 7 to 65,536 bytes");
    let mut register = vec![0u8; n];
    register[..3].copy_from_slice(&[0x10, 0, 4]);
    register
}

/// A word filed into a register under a holder: the entry that holds its element or its inverse, or a new one. Refuses
/// 1, 2, 12, and, where no entry holds either, 13, 14; a refusal leaves the register as it was.
///
/// ```
/// use thompson::{enter, fresh_register, live_entries, Entered};
///
/// let mut register = fresh_register(100);
/// assert_eq!(enter("b", 7, &mut register)?, Entered::New(1));
/// assert_eq!(enter("a", 7, &mut register)?, Entered::New(2));
/// assert_eq!(enter("B", 8, &mut register)?, Entered::Present(1));
/// assert_eq!(live_entries(&register, 7)?, 2);
/// assert_eq!(enter("a", 7, &mut [0x10, 0, 4, 0, 0, 0, 0]).unwrap_err().number, 14);
/// # Ok::<(), thompson::Refused>(())
/// ```
pub fn enter(word: impl AsRef<[u8]>, holder: u16, register: &mut [u8]) -> Result<Entered, Refused> {
    let word = word.as_ref();
    let (mut b, mut a, mut record) = (table(word.len()), table(word.len()), room(word.len()));
    let filing = unsafe {
        thompson_enter_word(
            word.as_ptr(),
            word.len(),
            b.as_mut_ptr(),
            b.len(),
            a.as_mut_ptr(),
            a.len(),
            record.as_mut_ptr(),
            record.len(),
            holder,
            register.as_mut_ptr(),
            register.len(),
        )
    };
    debug_assert_eq!(filing.word, 0, "one word is filed");
    match (filing.refusal, filing.present) {
        (0, 0) => Ok(Entered::New(filing.value)),
        (0, _) => Ok(Entered::Present(filing.value)),
        (number, _) => Err(Refused { number, place: filing.value }),
    }
}

/// Whether bytes are a well-formed register. Refuses 12.
///
/// ```
/// assert_eq!(thompson::check_register(thompson::fresh_register(7)), Ok(()));
/// assert_eq!(thompson::check_register([0x10, 0, 5]).unwrap_err().number, 12);
/// ```
pub fn check_register(register: impl AsRef<[u8]>) -> Result<(), Refused> {
    let register = register.as_ref();
    value(unsafe { thompson_check_register(register.as_ptr(), register.len()) }).map(|_| ())
}

/// How many entries a holder has in a register, at most four. Refuses 12.
///
/// ```
/// assert_eq!(thompson::live_entries(thompson::fresh_register(7), 0), Ok(0));
/// ```
pub fn live_entries(register: impl AsRef<[u8]>, holder: u16) -> Result<usize, Refused> {
    let register = register.as_ref();
    value(unsafe { thompson_live_entries(register.as_ptr(), register.len(), holder) })
}

/// A shape packed. Refuses 15.
///
/// ```
/// let packed = thompson::pack([1, 0, 1, 0, 0])?;
/// assert_eq!((packed.numbers, packed.summary), (vec![5], vec![0]));
/// assert_eq!(thompson::pack([1, 0]).unwrap_err().number, 15);
/// # Ok::<(), thompson::Refused>(())
/// ```
pub fn pack(shape: impl AsRef<[u8]>) -> Result<Packed, Refused> {
    let shape = shape.as_ref();
    let n = shape.len().min(2 * CARETS + 1).div_ceil(64);
    let (mut numbers, mut summary) = (vec![0u64; n], vec![0u16; n]);
    let answer =
        unsafe { thompson_pack_shape(shape.as_ptr(), shape.len(), numbers.as_mut_ptr(), n, summary.as_mut_ptr(), n) };
    value(answer)?;
    Ok(Packed { numbers, summary })
}

impl Packed {
    /// The carets before a node, in the order of the shape. Refuses 15.
    ///
    /// ```
    /// let packed = thompson::pack([1, 0, 1, 0, 0])?;
    /// assert_eq!(packed.carets_before(3)?, 2);
    /// assert_eq!(packed.carets_before(5).unwrap_err().number, 15);
    /// # Ok::<(), thompson::Refused>(())
    /// ```
    pub fn carets_before(&self, node: u64) -> Result<usize, Refused> {
        let (numbers, summary) = (&self.numbers, &self.summary);
        value(unsafe { thompson_carets_before(numbers.as_ptr(), numbers.len(), summary.as_ptr(), summary.len(), node) })
    }

    /// The node just behind the subtree of a node. Refuses 15.
    ///
    /// ```
    /// let packed = thompson::pack([1, 0, 1, 0, 0])?;
    /// assert_eq!(packed.subtree_end(0)?, 5);
    /// assert_eq!(packed.subtree_end(1)?, 2);
    /// # Ok::<(), thompson::Refused>(())
    /// ```
    pub fn subtree_end(&self, node: u64) -> Result<usize, Refused> {
        let (numbers, summary) = (&self.numbers, &self.summary);
        value(unsafe { thompson_subtree_end(numbers.as_ptr(), numbers.len(), summary.as_ptr(), summary.len(), node) })
    }

    /// A caret with two leaves in place of a leaf. Refuses 15, and leaves the packed shape then as it was.
    ///
    /// ```
    /// let mut packed = thompson::pack([1, 0, 0])?;
    /// packed.grow(1)?;
    /// assert_eq!(packed.unpack()?, [1, 0, 1, 0, 0]);
    /// assert_eq!(packed.grow(3).unwrap_err().number, 15);
    /// assert_eq!(packed.unpack()?, [1, 0, 1, 0, 0]);
    /// # Ok::<(), thompson::Refused>(())
    /// ```
    pub fn grow(&mut self, leaf: u64) -> Result<(), Refused> {
        // A number more may be needed.
        let (numbers, summary) = (self.numbers.len(), self.summary.len());
        self.numbers.push(0);
        self.summary.push(0);
        let answer = unsafe {
            thompson_grow_caret(self.numbers.as_mut_ptr(), numbers + 1, self.summary.as_mut_ptr(), summary + 1, leaf)
        };
        let grown = value(answer);
        self.numbers.truncate(*grown.as_ref().unwrap_or(&numbers));
        self.summary.truncate(*grown.as_ref().unwrap_or(&summary));
        grown.map(|_| ())
    }

    /// The shape, a byte for each node. Refuses 15.
    ///
    /// ```
    /// let packed = thompson::Packed { numbers: vec![5], summary: vec![0] };
    /// assert_eq!(packed.unpack()?, [1, 0, 1, 0, 0]);
    /// let wrong = thompson::Packed { numbers: vec![5], summary: vec![1] };
    /// assert_eq!(wrong.unpack().unwrap_err().number, 15);
    /// # Ok::<(), thompson::Refused>(())
    /// ```
    pub fn unpack(&self) -> Result<Vec<u8>, Refused> {
        let (numbers, summary) = (&self.numbers, &self.summary);
        let mut shape = vec![0u8; 2 * CARETS + 1];
        let answer = unsafe {
            thompson_unpack_shape(
                numbers.as_ptr(),
                numbers.len(),
                summary.as_ptr(),
                summary.len(),
                shape.as_mut_ptr(),
                shape.len(),
            )
        };
        shape.truncate(value(answer)?);
        Ok(shape)
    }
}
