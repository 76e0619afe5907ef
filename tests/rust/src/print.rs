//! What the programs print.

use crate::{Answer, BEST_MATCH, BLANKING, CELLS, INNER, NO_ROW, OUTER, RESULT, STEPS, Step, WORK, bits};

/// The whole print of program `report`.
pub fn print_report(text: &[u8]) -> Vec<u8> {
    let (mut cells, mut work, mut result) = ([0; CELLS], [0; WORK], [0; RESULT]);
    let mut steps = [Step::default(); STEPS];
    let answer = crate::report(text, &mut cells, &mut work, &mut result, &mut steps);
    let mut print = Vec::with_capacity(TYPICAL);
    write_report(&answer, &steps, &result, &mut print);
    print
}

/// The whole print of program `direct`.
pub fn print_direct(text: &[u8]) -> Vec<u8> {
    let (mut cells, mut work, mut result) = ([0; CELLS], [0; WORK], [0; RESULT]);
    let answer = crate::direct(text, &mut cells, &mut work, &mut result);
    let mut print = Vec::with_capacity(TYPICAL);
    write_direct(&answer, &result, &mut print);
    print
}

/// Room for 256 rows of eight tables.
const TYPICAL: usize = 12 * 1024;

pub fn write_report(answer: &Answer, steps: &[Step], result: &[u16], print: &mut Vec<u8>) {
    if let Ok(rows) = answer {
        for (table, &set) in rows.sets[..rows.tables].iter().enumerate() {
            print.push(b'S');
            field(table, print);
            end(set, print);
        }
        for (condition, tally) in rows.tallies[..rows.conditions].iter().enumerate() {
            print.push(b'U');
            field(condition, print);
            for count in [tally.holds, tally.fails, tally.unknown] {
                field(count as usize, print);
            }
            print.push(b'\n');
        }
        steps.iter().take_while(|step| step.kind != 0).for_each(|step| write_step(step, print));
        if let Some(added) = rows.added {
            print.push(b'F');
            field(added, print);
            print.push(b'\n');
        }
    }
    write_direct(answer, result, print);
}

pub fn write_direct(answer: &Answer, result: &[u16], print: &mut Vec<u8>) {
    match answer {
        Err(question) => {
            print.push(b'E');
            field((*question).into(), print);
            print.push(b'\n');
        }
        Ok(rows) => {
            for row in result.chunks_exact(rows.tables).take(rows.rows) {
                print.push(b'R');
                for &number in row {
                    match number {
                        NO_ROW => print.extend(b"\t-"),
                        number => field(number.into(), print),
                    }
                }
                print.push(b'\n');
            }
        }
    }
}

fn write_step(step: &Step, print: &mut Vec<u8>) {
    match step.kind {
        BEST_MATCH => print.push(b'Z'),
        BLANKING => {
            print.push(b'B');
            field(step.first.into(), print);
        }
        kind => {
            print.extend(match kind {
                INNER => b"M\tI",
                OUTER => b"M\tL",
                _ => b"M\tO",
            });
            for number in [step.first, step.second, step.rows] {
                field(number.into(), print);
            }
        }
    }
    end(step.conditions, print);
}

/// Condition numbers and the end of a line.
fn end(conditions: u64, print: &mut Vec<u8>) {
    bits(conditions).for_each(|number| field(number, print));
    print.push(b'\n');
}

/// A tab and a number of at most five digits.
fn field(number: usize, print: &mut Vec<u8>) {
    print.push(b'\t');
    for power in [10000, 1000, 100, 10, 1] {
        if number >= power || power == 1 {
            print.push(b'0' + (number / power % 10) as u8);
        }
    }
}
