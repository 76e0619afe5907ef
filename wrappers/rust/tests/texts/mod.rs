//! Texts of which documents 01 and 02 say what they get, and the texts of trials/ and samples/ with their stored
//! prints. In a constant | stands for a tab and a space for the end of a line.
#![allow(dead_code)] // each test takes some of them

use std::fs;
use std::path::{Path, PathBuf};

pub const BLANK: u16 = 65535;

/// The report of document 01, "The whole print of one report", without its order.
const TREE: &str = "T|2 D|10|1 D|11|2 T|2 D|10|7 D|11|8 T|1 D|7 J|I|1|2 C|1|1|=|2|0 J|L|0|3 C|0|0|=|1|0";

/// A constant's bytes.
pub fn bytes(lines: &str) -> Vec<u8> {
    lines.split_whitespace().flat_map(|line| line.replace('|', "\t").into_bytes().into_iter().chain(*b"\n")).collect()
}

/// The report of document 01.
pub fn document() -> Vec<u8> {
    bytes(&format!("{TREE} P|0|1 P|3|2"))
}

/// The same with the order changed, a trial of document 01.
pub fn document_in_another_order() -> Vec<u8> {
    bytes(&format!("{TREE} P|0|2 P|3|1"))
}

/// Two tables whose rows all match.
pub fn all_match(left: usize, right: usize) -> Vec<u8> {
    let rows = |count| "D|1 ".repeat(count);
    bytes(&format!("T|1 {}T|1 {}J|I|0|1 C|0|0|=|1|0", rows(left), rows(right)))
}

/// A full outer join: one row of each side has a partner.
pub fn both_sides_kept() -> Vec<u8> {
    bytes("T|1 D|1 D|2 T|1 D|2 D|3 J|F|0|1 C|0|0|=|1|0")
}

/// A full outer join of so many rows without a partner.
pub fn no_partners(left: usize, right: usize) -> Vec<u8> {
    bytes(&format!("T|1 {}T|1 {}J|F|0|1 C|0|0|=|1|0", "D|1 ".repeat(left), "D|2 ".repeat(right)))
}

/// Two tables of eight columns and one row, all columns linked: 15 lines and 49 derived conditions. Where there are to
/// be more lines, the first stands again.
pub fn linked_columns(lines: usize) -> Vec<u8> {
    let tables = "T|8 D|5|5|5|5|5|5|5|5 ".repeat(2);
    let first: String = (0..8).map(|column| format!("C|0|0|=|1|{column} ")).collect();
    let second: String = (1..8).map(|column| format!("C|1|0|=|0|{column} ")).collect();
    bytes(&format!("{tables}J|L|0|1 {first}{second}{}", "C|0|0|=|1|0 ".repeat(lines - 15)))
}

/// One table of 256 rows whose text has so many bytes, at least 4,612.
pub fn long(count: usize) -> Vec<u8> {
    let mut more = count - 4612;
    let mut text = b"T\t8\n".to_vec();
    for _ in 0..256 {
        text.push(b'D');
        for _ in 0..8 {
            // a cell of one character and as many more as it takes
            let taken = more.min(10);
            more -= taken;
            text.push(b'\t');
            text.extend(&b"-1111111111"[10 - taken..]);
        }
        text.push(b'\n');
    }
    text
}

/// Texts that are turned down, with the question that does it: one or more for each question that a text can fail.
pub fn refused() -> Vec<(u8, Vec<u8>)> {
    let conditions = |count| format!("T|1 T|1 J|I|0|1 {}", "C|0|0|=|1|0 ".repeat(count));
    vec![
        (2, bytes("T|1 D|-2147483648")),
        (2, b"T\t1\nD\t1".to_vec()),
        (2, b"\xff\n".to_vec()),
        (2, long(16385)),
        (2, bytes("T|1 D|1 T|1 D|1 T|1 D|1 J|F|0|1 C|0|0|=|1|0 J|L|3|2 C|0|0|=|2|0")),
        (3, vec![]),
        (3, bytes(&format!("T|1 {}", "D|0 ".repeat(257)))),
        (4, bytes("T|2 D|1")),
        (12, bytes("T|2|0 D|1|7 D|1|8")),
        (12, bytes("T|1|1")),
        (5, bytes("T|1 T|1 J|I|0|0 C|0|0|=|1|0")),
        (6, bytes(&conditions(33))),
        (6, bytes("T|1 T|1 J|I|0|1 C|0|0|=|1|1")),
        (7, bytes("T|1 T|1 J|I|0|1 K|0|0|=|1")),
        (13, linked_columns(16)),
        (13, linked_columns(32)),
        (6, linked_columns(33)),
        (9, bytes("T|1 D|1 T|1 D|1 T|1 D|1 J|L|0|1 C|0|0|=|1|0 J|I|3|2 C|0|0|=|2|0 P|0|1")),
        (11, all_match(16, 17)),
        (11, no_partners(156, 101)),
    ]
}

/// A stored text with what `report` and `direct` print for it.
pub struct Stored {
    pub path: PathBuf,
    pub text: Vec<u8>,
    pub report: Vec<u8>,
    pub direct: Vec<u8>,
}

/// The texts of trials/ and samples/.
pub fn stored() -> Vec<Stored> {
    let top = Path::new(env!("CARGO_MANIFEST_DIR")).join("../..");
    let mut found = vec![];
    for folder in ["trials", "samples"] {
        let before = found.len();
        for entry in fs::read_dir(top.join(folder)).unwrap() {
            let path = entry.unwrap().path();
            if path.extension().is_some_and(|ending| ending == "in") {
                let [text, report, direct] =
                    ["in", "report", "direct"].map(|ending| fs::read(path.with_extension(ending)).unwrap());
                found.push(Stored { path, text, report, direct });
            }
        }
        assert!(found.len() > before, "{folder} has no text");
    }
    found
}
