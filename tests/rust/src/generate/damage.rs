//! Damage to a text by lines, by fields and by bytes.

use super::Random;

/// Fields that are read where they should not be, or refused where they should be read.
const FIELDS: [&str; 56] = [
    "",
    "-",
    "--",
    "-0",
    "0",
    "00",
    "01",
    "-01",
    "+1",
    "1",
    "2",
    "3",
    "-1",
    "7",
    "8",
    "9",
    "10",
    "99",
    "255",
    "256",
    "257",
    "999",
    "9999",
    "10000",
    "00001",
    "65535",
    "65536",
    "2147483646",
    "2147483647",
    "2147483648",
    "-2147483647",
    "-2147483648",
    "-2147483649",
    "4294967296",
    "18446744073709551617",
    "<",
    "=",
    "<=",
    ">",
    "<>",
    ">=",
    "==",
    "=<",
    "><",
    "I",
    "L",
    "R",
    "F",
    "i",
    "r",
    "f",
    "FF",
    "O",
    " 1",
    "1 ",
    "1\r",
];

const BYTES: &[u8] = b"\t\n\r -+0123456789<=>TDJCKPILFSMBZREf.\0\xff";

/// Each line dropped, repeated and moved to each place; and of the lines that are chosen each field removed, repeated,
/// and replaced and preceded by each of FIELDS, and each byte removed, each of its bits flipped, and replaced and
/// preceded by each of BYTES.
pub fn everywhere(text: &[u8], chosen: impl Fn(&[u8]) -> bool, take: &mut dyn FnMut(&[u8])) {
    let lines = split(text, b'\n');
    let count = lines.len() - 1;
    let mut start = 0;
    for at in 0..count {
        take(&[&lines[..at], &lines[at + 1..]].concat().join(&b'\n'));
        for to in 0..count {
            let mut moved = lines.clone();
            let line = moved.remove(at);
            moved.insert(to, line);
            take(&moved.join(&b'\n'));
        }
        for to in 0..=count {
            let mut repeated = lines.clone();
            repeated.insert(to, lines[at].clone());
            take(&repeated.join(&b'\n'));
        }
        // With its line feed.
        let end = start + lines[at].len() + 1;
        if chosen(&lines[at]) {
            each_field(&lines, at, take);
            (start..end).for_each(|at| each_byte(text, at, take));
        }
        start = end;
    }
}

fn each_field(lines: &[Vec<u8>], at: usize, take: &mut dyn FnMut(&[u8])) {
    let mut with_fields = |fields: &[Vec<u8>]| {
        let mut changed = lines.to_vec();
        changed[at] = fields.join(&b'\t');
        take(&changed.join(&b'\n'));
    };
    let fields = split(&lines[at], b'\t');
    for field in 0..fields.len() {
        let (before, after) = (&fields[..field], &fields[field + 1..]);
        with_fields(&[before, after].concat());
        with_fields(&[&fields[..=field], &fields[field..]].concat());
        for other in FIELDS.map(|other| other.as_bytes().to_vec()) {
            with_fields(&[before, std::slice::from_ref(&other), after].concat());
            with_fields(&[before, &[other], &fields[field..]].concat());
        }
    }
}

fn each_byte(text: &[u8], at: usize, take: &mut dyn FnMut(&[u8])) {
    let (before, after) = (&text[..at], &text[at + 1..]);
    take(before);
    take(&[before, after].concat());
    (0..8).for_each(|bit| take(&[before, &[text[at] ^ 1 << bit], after].concat()));
    for &byte in BYTES {
        take(&[before, &[byte], after].concat());
        take(&[before, &[byte], &text[at..]].concat());
    }
}

fn split(text: &[u8], byte: u8) -> Vec<Vec<u8>> {
    text.split(|&other| other == byte).map(<[u8]>::to_vec).collect()
}

/// Damages the text in one place.
pub fn apply(text: &mut Vec<u8>, random: &mut Random) {
    match random.below(8) {
        0..3 => {
            // The part after the last line feed is no line.
            let mut lines = split(text, b'\n');
            let rest = lines.pop().unwrap_or_default();
            change_lines(&mut lines, random);
            lines.push(rest);
            *text = lines.join(&b'\n');
        }
        3..6 => {
            let mut lines = split(text, b'\n');
            let at = line(&lines, random);
            change_fields(&mut lines[at], random);
            *text = lines.join(&b'\n');
        }
        _ => change_bytes(text, random),
    }
}

/// The place of a line, more often one of the few that are not rows.
fn line(lines: &[Vec<u8>], random: &mut Random) -> usize {
    let other: Vec<usize> = (0..lines.len()).filter(|&at| !lines[at].starts_with(b"D")).collect();
    if other.is_empty() || random.one_in(4) { random.below(lines.len()) } else { random.pick(&other) }
}

fn change_lines(lines: &mut Vec<Vec<u8>>, random: &mut Random) {
    if lines.is_empty() {
        return;
    }
    let (from, to) = (line(lines, random), random.below(lines.len()));
    match random.below(5) {
        0 => drop(lines.remove(from)),
        1 => lines.insert(from, lines[from].clone()),
        2 => lines.swap(from, to),
        3 if from + 1 < lines.len() => lines.swap(from, from + 1),
        _ => {
            let line = lines.remove(from);
            lines.insert(to, line);
        }
    }
}

fn change_fields(line: &mut Vec<u8>, random: &mut Random) {
    let mut fields: Vec<&[u8]> = line.split(|&byte| byte == b'\t').collect();
    let at = random.below(fields.len());
    let field = random.pick(&FIELDS).as_bytes();
    match random.below(6) {
        0 => drop(fields.remove(at)),
        1 => fields.insert(random.below(fields.len() + 1), field),
        2 => fields.insert(at, fields[at]),
        _ => fields[at] = field,
    }
    *line = fields.join(&b'\t');
}

fn change_bytes(text: &mut Vec<u8>, random: &mut Random) {
    let at = random.below(text.len() + 1);
    if at == text.len() || random.one_in(3) {
        let byte = random.pick(BYTES);
        return text.insert(at, byte);
    }
    match random.below(8) {
        0 | 1 => text[at] ^= 1 << random.below(8),
        2 | 3 => text[at] = random.pick(BYTES),
        4 => text.truncate(at),
        _ => drop(text.remove(at)),
    }
}
