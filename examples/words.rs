// A program in Rust over the crate `thompson` (rust/), the safe face of libthompson: for each word on the command line
// its record, its tree pair, the tree T+ packed with its carets, its end and a caret grown at its first leaf, its
// length and the same by Table 1, a word that the record spells, its text in subscript notation, and its entry in a
// register of the words before it, each word with a holder of its own; then whether each word and the one before it
// are the same, inverse or different, and the records of all words in one call.
//     words abA ba

use std::io::Write;
use std::os::unix::ffi::OsStringExt;
use thompson::{Entered, Refused, Unjudged, Verdict};

// Bytes as they are, whether they are text or not.
fn print_bytes(what: &str, bytes: &[u8]) {
    let line = [what.as_bytes(), b" ", bytes, b"\n"].concat();
    std::io::stdout().write_all(&line).expect("standard output");
}

fn digits(shape: &[u8]) -> String {
    shape.iter().map(|node| node.to_string()).collect()
}

fn print_refused(what: &str, refused: Refused) {
    println!("  {what}: refused {}, place {}", refused.number, refused.place);
}

fn print_hexadecimal(record: &[u8]) {
    let hexadecimal: String = record.iter().map(|byte| format!("{byte:02x}")).collect();
    println!("  record {hexadecimal}");
}

// A shape packed, the carets before its last node, where its first node's subtree ends, and the shape with a caret
// grown at its first leaf.
fn print_packed(shape: &[u8]) -> Result<(), Refused> {
    let mut packed = thompson::pack(shape)?;
    let entries: Vec<String> =
        packed.numbers.iter().zip(&packed.summary).map(|(number, carets)| format!("{number:016x}:{carets}")).collect();
    println!("  packed {}", entries.join(" "));
    println!("  before the last node {}", packed.carets_before(shape.len() as u64 - 1)?);
    println!("  end of node 0 at {}", packed.subtree_end(0)?);
    packed.grow(0)?;
    println!("  grown {}", digits(&packed.unpack()?));
    Ok(())
}

fn print_word(word: &[u8], holder: u16, register: &mut [u8]) {
    print_bytes("word", word);
    let record = match thompson::record(word) {
        Ok(record) => record,
        Err(refused) => return print_refused("record", refused),
    };
    print_hexadecimal(&record);
    match thompson::tree_pair(&record) {
        Ok(pair) => {
            println!("  carets {}\n  T- {}\n  T+ {}", pair.carets, digits(&pair.minus), digits(&pair.plus));
            if let Err(refused) = print_packed(&pair.plus) {
                print_refused("packed", refused);
            }
        }
        Err(refused) => print_refused("tree pair", refused),
    }
    match thompson::length(&record) {
        Ok(length) => println!("  length {length}"),
        Err(refused) => print_refused("length", refused),
    }
    match thompson::label_length(&record) {
        Ok(length) => println!("  by Table 1 {length}"),
        Err(refused) => print_refused("length by Table 1", refused),
    }
    match thompson::word(&record) {
        Ok(letters) => print_bytes("  spelled", letters.as_bytes()),
        Err(refused) => print_refused("spelling", refused),
    }
    match thompson::text(&record) {
        Ok(text) => print_bytes("  text", text.as_bytes()),
        Err(refused) => print_refused("text", refused),
    }
    match thompson::enter(word, holder, register) {
        Ok(Entered::New(number)) => println!("  entry {number} new"),
        Ok(Entered::Present(number)) => println!("  entry {number} present"),
        Err(refused) => print_refused("entry", refused),
    }
}

// Whether each word and the one before it are the same, inverse or different.
fn print_verdicts(words: &[Vec<u8>]) {
    println!("verdicts");
    for pair in words.windows(2) {
        let verdict = match thompson::verdict(&pair[0], &pair[1]) {
            Ok(Verdict::Same) => "same".to_string(),
            Ok(Verdict::Inverse) => "inverse".to_string(),
            Ok(Verdict::Different) => "different".to_string(),
            Err(Unjudged::First(r)) => format!("the first is refused {}, place {}", r.number, r.place),
            Err(Unjudged::Second(r)) => format!("the second is refused {}, place {}", r.number, r.place),
        };
        print_bytes(" ", &[&pair[0], &b", "[..], &pair[1], b": ", verdict.as_bytes()].concat());
    }
}

fn print_list(words: &[Vec<u8>]) {
    println!("list");
    let list: Vec<u8> = words.iter().flat_map(|word| [word, &b"\n"[..]].concat()).collect();
    for item in thompson::records(&list) {
        match item {
            Ok(record) => print_hexadecimal(&record),
            Err(refused) => println!("  refused {}, place {}", refused.number, refused.place),
        }
    }
}

fn main() {
    let mut register = thompson::fresh_register(thompson::REGISTER_MOST);
    let words: Vec<Vec<u8>> = std::env::args_os().skip(1).map(|word| word.into_vec()).collect();
    for (word, holder) in words.iter().zip(1..) {
        print_word(word, holder, &mut register);
    }
    if words.len() > 1 {
        print_verdicts(&words);
    }
    if !words.is_empty() {
        print_list(&words);
    }
}
