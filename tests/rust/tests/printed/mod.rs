//! Texts with their prints. A bar stands for a tab, and a space ends a line.
#![allow(dead_code)] // each test takes some of them

use hashjoin::{print_direct, print_report};

pub fn text(lines: &str) -> Vec<u8> {
    lines.split_whitespace().flat_map(|line| [&line.replace('|', "\t"), "\n"].concat().into_bytes()).collect()
}

#[track_caller]
pub fn prints(input: &str, expected_report: &str, expected_direct: &str) {
    let input = text(input);
    let shown = |print: Vec<u8>| String::from_utf8(print).unwrap().replace('\t', "|").replace('\n', " ");
    assert_eq!(shown(print_report(&input)).trim(), expected_report, "report");
    assert_eq!(shown(print_direct(&input)).trim(), expected_direct, "direct");
}

#[track_caller]
pub fn refused(input: &str, question: u8) {
    let refusal = format!("E|{question}");
    prints(input, &refusal, &refusal);
}

/// Two tables of eight columns and one row, all columns linked: 15 lines and 49 derived conditions. Where there are to
/// be more lines, the first stands again.
pub fn linked_columns(cell: &str, lines: usize) -> String {
    let tables = format!("T|8 D{0} T|8 D{0}", format!("|{cell}").repeat(8));
    let mut links: Vec<String> = (0..8).map(|column| format!("C|0|0|=|1|{column}")).collect();
    links.extend((1..8).map(|column| format!("C|1|0|=|0|{column}")));
    links.extend(vec![links[0].clone(); lines - links.len()]);
    format!("{tables} J|I|0|1 {}", links.join(" "))
}
