//! What each routine returns and leaves in lent memory, in the cases A to D of include/rumbethola.h.

mod texts;

use rumbethola::lent;
use texts::BLANK;

/// Numbers behind the lent part of each buffer.
const BEHIND: usize = 8;
/// A number that no call writes: no row, count, set, letter or digit.
const MARK: u8 = 201;
/// How many numbers an answer of the report has.
const ANSWER: usize = 287;

#[derive(Clone, Copy, Debug, PartialEq)]
enum Routine {
    Report,
    Direct,
    PrintReport,
    PrintDirect,
}

const ROUTINES: [Routine; 4] = [Routine::Report, Routine::Direct, Routine::PrintReport, Routine::PrintDirect];

impl Routine {
    /// The least lengths: cells, work, result, and the buffer that is handed over in.
    fn least(self) -> [usize; 4] {
        let last = match self {
            Routine::Report => ANSWER,
            Routine::Direct => 2,
            Routine::PrintReport | Routine::PrintDirect => 32768,
        };
        [4096, 16384, 2048, last]
    }

    /// What is returned where that buffer is too short.
    fn too_short(self) -> u32 {
        match self {
            Routine::Report | Routine::Direct => 255,
            Routine::PrintReport | Routine::PrintDirect => 4_294_967_295,
        }
    }
}

/// Marked memory, of which the first numbers are lent.
#[derive(Clone)]
struct Memory {
    lengths: [usize; 4],
    cells: Vec<i32>,
    work: Vec<u16>,
    result: Vec<u16>,
    answer: Vec<u64>,
    out: Vec<u8>,
}

impl Memory {
    fn marked(lengths: [usize; 4]) -> Memory {
        let [cells, work, result, last] = lengths.map(|length| length + BEHIND);
        Memory {
            lengths,
            cells: vec![MARK.into(); cells],
            work: vec![MARK.into(); work],
            result: vec![MARK.into(); result],
            answer: vec![MARK.into(); last],
            out: vec![MARK; last],
        }
    }

    fn call(&mut self, routine: Routine, text: &[u8]) -> u32 {
        let [cells, work, result, last] = self.lengths;
        let (cells, work, result) = (&mut self.cells[..cells], &mut self.work[..work], &mut self.result[..result]);
        let (answer, out) = (&mut self.answer[..last], &mut self.out[..last]);
        match routine {
            Routine::Report => lent::report(text, cells, work, result, answer).into(),
            Routine::Direct => lent::direct(text, cells, work, result, answer).into(),
            Routine::PrintReport => lent::print_report(text, cells, work, result, out),
            Routine::PrintDirect => lent::print_direct(text, cells, work, result, out),
        }
    }

    /// The cell buffer and the work buffer filled with 0, to their ends.
    fn clear(&mut self) {
        self.cells[..self.lengths[0]].fill(0);
        self.work[..self.lengths[1]].fill(0);
    }

    /// Writes what a call hands over, and gives what it returns: a status, or how many bytes were written.
    fn hand_over(&mut self, routine: Routine, status: u8, report: &[u64], direct: &[u64], prints: [&[u8]; 2]) -> u32 {
        let numbers = match routine {
            Routine::Report => report,
            Routine::Direct => direct,
            Routine::PrintReport | Routine::PrintDirect => {
                let print = prints[usize::from(routine == Routine::PrintDirect)];
                self.out[..print.len()].copy_from_slice(print);
                return print.len() as u32;
            }
        };
        self.answer[..numbers.len()].copy_from_slice(numbers);
        status.into()
    }

    /// The same of a refusal.
    fn hand_over_refusal(&mut self, routine: Routine, question: u8) -> u32 {
        let mut numbers = [0; ANSWER];
        numbers[3] = question.into();
        let print = format!("E\t{question}\n").into_bytes();
        self.hand_over(routine, question, &numbers, &[0, 0], [&print, &print])
    }

    /// Fails where memory is not as expected.
    fn expect(&self, expected: &Memory, what: &str) {
        assert!(self.cells == expected.cells, "{what}: cells");
        assert!(self.work == expected.work, "{what}: work");
        assert!(self.result == expected.result, "{what}: result");
        assert!(self.answer == expected.answer, "{what}: answer");
        assert!(self.out == expected.out, "{what}: out");
    }
}

/// Puts a text to a routine and compares what it returns and leaves.
fn check(routine: Routine, text: &[u8], lengths: [usize; 4], change: impl Fn(&mut Memory) -> u32) {
    let what = format!("{routine:?}, lengths {lengths:?}, a text of {} bytes", text.len());
    let (mut found, mut expected) = (Memory::marked(lengths), Memory::marked(lengths));
    let returned = found.call(routine, text);
    assert_eq!(returned, change(&mut expected), "{what}: returned");
    found.expect(&expected, &what);
}

/// Texts that get rows, and texts that do not.
fn any_texts() -> Vec<Vec<u8>> {
    texts::refused().into_iter().map(|(_, text)| text).chain([texts::document()]).collect()
}

#[test]
fn a_the_buffer_that_is_handed_over_in_is_too_short() {
    for routine in ROUTINES {
        // 285: what the answer of the report had before full outer joins.
        for short in [0, 1, 285.min(routine.least()[3] - 1), routine.least()[3] - 1] {
            for other in [0, 4096, 20000] {
                for text in any_texts() {
                    check(routine, &text, [other, other, other, short], |_| routine.too_short());
                }
            }
        }
    }
}

#[test]
fn b_a_buffer_of_question_1_is_too_short() {
    for routine in ROUTINES {
        for more in [0, 5] {
            for place in 0..3 {
                for short in [0, routine.least()[place] - 1] {
                    let mut lengths = routine.least().map(|least| least + more);
                    lengths[place] = short;
                    for text in any_texts() {
                        check(routine, &text, lengths, |expected| expected.hand_over_refusal(routine, 1));
                    }
                }
            }
        }
    }
}

#[test]
fn c_a_question_turns_the_text_down() {
    for routine in ROUTINES {
        for more in [0, 5] {
            for (question, text) in texts::refused() {
                let lengths = routine.least().map(|least| least + more);
                if question == 9 && matches!(routine, Routine::Direct | Routine::PrintDirect) {
                    continue; // the direct reading does not ask it
                }
                check(routine, &text, lengths, |expected| {
                    expected.clear();
                    expected.hand_over_refusal(routine, question)
                });
            }
        }
    }
}

/// The report of document 01, with the numbers that its print has.
#[test]
fn d_there_is_an_answer() {
    let mut numbers = [0; ANSWER];
    numbers[..7].copy_from_slice(&[2, 3, 4, 0, 0, 0b11, 0b11]);
    numbers[12..17].copy_from_slice(&[2, 0, 1, 2, 0b10]);
    numbers[17..22].copy_from_slice(&[2, 3, 2, 2, 0b01]);
    numbers[22..27].copy_from_slice(&[4, 1, 0, 0, 0b01]);
    numbers[27] = 5;
    numbers[92..99].copy_from_slice(&[2, 1, 1, 0, 2, 2, 0]);
    let report =
        texts::bytes("S|0 S|1|0|1 S|2|0|1 U|0|1|1|0 U|1|2|2|0 M|L|0|1|2|1 M|L|3|2|2|0 B|1|0 Z R|0|0|0 R|1|-|-");
    let direct = texts::bytes("R|0|0|0 R|1|-|-");
    for routine in ROUTINES {
        for more in [0, 5] {
            let lengths = routine.least().map(|least| least + more);
            check(routine, &texts::document(), lengths, |expected| {
                expected.clear();
                expected.result[..6].copy_from_slice(&[0, 0, 0, 1, BLANK, BLANK]);
                expected.hand_over(routine, 0, &numbers, &[2, 3], [&report, &direct])
            });
        }
    }
}

/// A full outer join: the two numbers behind the counts of conditions, with a row added and with none.
#[test]
fn d_the_last_join_is_a_full_outer_join() {
    let mut numbers = [0; ANSWER];
    numbers[..6].copy_from_slice(&[3, 2, 1, 0, 0, 0b1]);
    numbers[12..17].copy_from_slice(&[2, 0, 1, 2, 0b1]);
    numbers[92..96].copy_from_slice(&[1, 1, 3, 0]);
    numbers[285..].copy_from_slice(&[1, 1]);
    let direct = texts::bytes("R|0|- R|1|0 R|-|1");
    let report = [texts::bytes("S|0 S|1|0 U|0|1|3|0 M|L|0|1|2|0 F|1"), direct.clone()].concat();
    for routine in ROUTINES {
        for more in [0, 5] {
            let lengths = routine.least().map(|least| least + more);
            check(routine, &texts::both_sides_kept(), lengths, |expected| {
                expected.clear();
                expected.result[..6].copy_from_slice(&[0, BLANK, 1, 0, BLANK, 1]);
                expected.hand_over(routine, 0, &numbers, &[3, 2], [&report, &direct])
            });
        }
    }
    let mut numbers = [0; ANSWER];
    numbers[..6].copy_from_slice(&[0, 2, 1, 0, 0, 0b1]);
    numbers[12..17].copy_from_slice(&[2, 0, 1, 0, 0b1]);
    numbers[92] = 1;
    numbers[285] = 1;
    let report = texts::bytes("S|0 S|1|0 U|0|0|0|0 M|L|0|1|0|0 F|0");
    for routine in ROUTINES {
        check(routine, &texts::bytes("T|1 T|1 J|F|0|1 C|0|0|=|1|0"), routine.least(), |expected| {
            expected.clear();
            expected.hand_over(routine, 0, &numbers, &[0, 2], [&report, &[]])
        });
    }
}

/// An answer whose sets have every bit, and whose counts have every place.
#[test]
fn d_there_are_as_many_conditions_as_there_may_be() {
    let mut numbers = [0; ANSWER];
    numbers[..6].copy_from_slice(&[1, 2, 1, 0, 0, u64::MAX]);
    numbers[12..17].copy_from_slice(&[2, 0, 1, 1, u64::MAX]);
    numbers[92] = 64;
    numbers[93..285].chunks_exact_mut(3).for_each(|tally| tally.copy_from_slice(&[1, 0, 0]));
    let set: String = (0..64).map(|number| format!("|{number}")).collect();
    let counts: String = (0..64).map(|number| format!("U|{number}|1|0|0 ")).collect();
    let report = texts::bytes(&format!("S|0 S|1{set} {counts}M|L|0|1|1{set} R|0|0"));
    let direct = texts::bytes("R|0|0");
    for routine in ROUTINES {
        check(routine, &texts::linked_columns(15), routine.least(), |expected| {
            expected.clear();
            expected.result[..2].copy_from_slice(&[0, 0]);
            expected.hand_over(routine, 0, &numbers, &[1, 2], [&report, &direct])
        });
    }
}

/// An answer that fills the whole result buffer: eight tables, of which one has 256 rows.
#[test]
fn d_the_result_is_full() {
    let rows: String = (0..256).map(|row| format!("D|{row} ")).collect();
    let joins: String = (1..8)
        .map(|table| format!("J|L|{}|{table} C|0|0|<|{table}|0 ", if table == 1 { 0 } else { 6 + table }))
        .collect();
    let text = texts::bytes(&format!("T|1 {rows}{}{joins}", "T|1 D|0 ".repeat(7)));
    let mut answer = vec![];
    let mut print = vec![];
    for row in 0..256 {
        answer.extend([row, BLANK, BLANK, BLANK, BLANK, BLANK, BLANK, BLANK]);
        print.extend(format!("R\t{row}\t-\t-\t-\t-\t-\t-\t-\n").bytes());
    }
    for routine in [Routine::Direct, Routine::PrintDirect] {
        check(routine, &text, routine.least(), |expected| {
            expected.clear();
            expected.result[..2048].copy_from_slice(&answer);
            expected.hand_over(routine, 0, &[], &[256, 8], [&[], &print])
        });
    }
}
