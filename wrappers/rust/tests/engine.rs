//! The engine with memory of its own: answers, refusals and prints as values.

mod texts;

use rumbethola::{BLANK, CONDITIONS, Engine, Kind, Refused, Report, Rows, STEPS, Step, TABLES, TEXT, Tally, WRITTEN};
use std::thread;

fn step(kind: Kind, first: u8, second: u8, rows: u16, conditions: u64) -> Step {
    Step { kind, first, second, rows, conditions }
}

fn tally(holds: u32, fails: u32, unknown: u32) -> Tally {
    Tally { holds, fails, unknown }
}

#[test]
fn the_report_of_document_01() {
    let mut engine = Engine::new();
    let text = texts::document();
    let report = engine.report(&text).unwrap();
    assert_eq!(report.tables(), 3);
    assert_eq!(report.sets(), [0, 0b11, 0b11]);
    assert_eq!(report.tallies(), [tally(1, 1, 0), tally(2, 2, 0)]);
    assert_eq!(
        report.steps(),
        [
            step(Kind::Outer, 0, 1, 2, 0b10),
            step(Kind::Outer, 3, 2, 2, 0b01),
            step(Kind::Blanking, 1, 0, 0, 0b01),
            step(Kind::BestMatch, 0, 0, 0, 0),
        ]
    );
    assert_eq!(report.added(), None);
    assert!(report.rows().eq([[0, 0, 0], [1, BLANK, BLANK]]));
    let rows = engine.direct(&text).unwrap();
    assert_eq!(rows.tables(), 3);
    assert!(rows.rows().eq([[0, 0, 0], [1, BLANK, BLANK]]));
    assert_eq!(
        engine.print_report(&text),
        texts::bytes("S|0 S|1|0|1 S|2|0|1 U|0|1|1|0 U|1|2|2|0 M|L|0|1|2|1 M|L|3|2|2|0 B|1|0 Z R|0|0|0 R|1|-|-")
    );
    assert_eq!(engine.print_direct(&text), texts::bytes("R|0|0|0 R|1|-|-"));
}

#[test]
fn another_order_with_a_product() {
    let mut engine = Engine::new();
    let text = texts::document_in_another_order();
    let report = engine.report(&text).unwrap();
    assert_eq!(
        report.steps(),
        [
            step(Kind::Product, 0, 2, 2, 0),
            step(Kind::Outer, 3, 1, 2, 0b11),
            step(Kind::Blanking, 2, 0, 0, 0b11),
            step(Kind::BestMatch, 0, 0, 0, 0),
        ]
    );
    assert!(report.rows().eq([[0, 0, 0], [1, BLANK, BLANK]]));
}

#[test]
fn an_inner_join_above_an_outer_one() {
    let mut engine = Engine::new();
    let report = engine
        .report(&texts::bytes("T|1 D|1 T|1 D|1 T|1 D|1 J|L|0|1 C|0|0|=|1|0 J|I|3|2 C|0|0|=|2|0"))
        .map(|report| (report.sets().to_vec(), report.steps().to_vec()));
    let steps = vec![step(Kind::Outer, 0, 1, 1, 0b01), step(Kind::Inner, 3, 2, 1, 0b10)];
    assert_eq!(report, Ok((vec![0b10, 0b111, 0b10], steps)));
}

/// A full outer join: its plan is that of a left outer join, and the right row without a partner is added.
#[test]
fn both_sides_kept() {
    let mut engine = Engine::new();
    let text = texts::both_sides_kept();
    let report = engine.report(&text).unwrap();
    assert_eq!((report.sets(), report.added()), (&[0, 0b1][..], Some(1)));
    assert_eq!(report.steps(), [step(Kind::Outer, 0, 1, 2, 0b1)]);
    assert!(report.rows().eq([[0, BLANK], [1, 0], [BLANK, 1]]));
    assert!(engine.direct(&text).unwrap().rows().eq([[0, BLANK], [1, 0], [BLANK, 1]]));
    let empty = texts::bytes("T|1 D|1 T|1 J|F|0|1 C|0|0|=|1|0");
    assert_eq!(engine.report(&empty).unwrap().added(), Some(0));
    let right_outer = texts::bytes("T|1 D|1 D|2 T|1 D|2 D|3 J|R|0|1 C|0|0|=|1|0");
    let report = engine.report(&right_outer).unwrap();
    assert_eq!((report.sets(), report.added()), (&[0b1, 0][..], None));
    assert_eq!(report.steps(), [step(Kind::Outer, 1, 0, 2, 0b1)]);
    assert!(report.rows().eq([[1, 0], [BLANK, 1]]));
    let most = texts::no_partners(156, 100);
    let report = engine.report(&most).unwrap();
    assert_eq!((report.rows().len(), report.added()), (256, Some(100)));
}

/// A derived condition has the number behind those of the lines: hours match strains and strains temperatures, so hours
/// match temperatures.
#[test]
fn a_derived_condition() {
    let mut engine = Engine::new();
    let tables = "T|1 D|1 D|2 T|1 D|1 D|2 T|1 D|1";
    let text = texts::bytes(&format!("{tables} J|L|0|1 C|0|0|=|1|0 J|L|3|2 C|1|0|=|2|0 P|0|2 P|3|1"));
    let report = engine.report(&text).unwrap();
    assert_eq!(report.sets(), [0, 0b001, 0b111]);
    assert_eq!(report.tallies(), [tally(2, 2, 0), tally(1, 1, 0), tally(1, 1, 0)]);
    assert_eq!(
        report.steps(),
        [
            step(Kind::Outer, 0, 2, 2, 0b100),
            step(Kind::Outer, 3, 1, 2, 0b001),
            step(Kind::Blanking, 2, 0, 0, 0b011),
            step(Kind::BestMatch, 0, 0, 0, 0),
        ]
    );
    assert!(report.rows().eq([[0, 0, 0], [1, 1, BLANK]]));
}

/// As many conditions as there may be, and one more.
#[test]
fn conditions_in_all() {
    let mut engine = Engine::new();
    let report = engine.report(&texts::linked_columns(15)).unwrap();
    assert_eq!(report.sets(), [0, u64::MAX]);
    assert_eq!(report.tallies(), [tally(1, 0, 0); CONDITIONS]);
    assert_eq!(report.steps(), [step(Kind::Outer, 0, 1, 1, u64::MAX)]);
    assert!(report.rows().eq([[0, 0]]));
    assert_eq!(engine.report(&texts::linked_columns(16)), Err(Refused { question: 13 }));
    assert_eq!(engine.direct(&texts::linked_columns(16)), Err(Refused { question: 13 }));
}

/// Conditions that are unknown: cells that are blank, a K line, a table without rows, and as many pairs as there may be.
#[test]
fn true_false_and_unknown() {
    let mut engine = Engine::new();
    let mut tallies = |lines: &str| engine.report(&texts::bytes(lines)).unwrap().tallies().to_vec();
    assert_eq!(tallies("T|1 D|1 D|2 T|1 D|- D|1 J|I|0|1 C|1|0|<>|0|0"), [tally(1, 1, 2)]);
    let empty = "T|1 T|1 D|1 D|- J|L|1|0 C|0|0|=|1|0 K|1|0|<>|1";
    assert_eq!(tallies(empty), [tally(0, 0, 0), tally(0, 1, 1)]);
    let blanks = "D|- ".repeat(256);
    assert_eq!(tallies(&format!("T|1 {blanks}T|1 {blanks}J|L|0|1 C|0|0|=|1|0")), [tally(0, 0, 65536)]);
    let most = "C|0|0|<|1|0 ".repeat(WRITTEN);
    assert_eq!(tallies(&format!("T|1 D|1 T|1 D|2 J|I|0|1 {most}")), [tally(1, 0, 0); WRITTEN]);
}

#[test]
fn no_rows() {
    let mut engine = Engine::new();
    let text = texts::bytes("T|1");
    let report = engine.report(&text).unwrap();
    assert_eq!((report.rows().len(), report.tallies()), (0, &[][..]));
    let rows = engine.direct(&text).unwrap();
    assert_eq!((rows.tables(), rows.rows().len()), (1, 0));
    assert_eq!(engine.print_report(&text), b"S\t0\n");
    assert_eq!(engine.print_direct(&text), b"");
}

#[test]
fn as_many_rows_and_bytes_as_there_may_be() {
    let mut engine = Engine::new();
    let pairs = (0..16).flat_map(|left| (0..16).map(move |right| [left, right]));
    assert!(engine.report(&texts::all_match(16, 16)).unwrap().rows().eq(pairs));
    let text = texts::long(TEXT);
    assert_eq!(text.len(), TEXT);
    assert!(engine.direct(&text).unwrap().rows().eq((0..256).map(|row| [row])));
    assert_eq!(texts::long(TEXT + 1).len(), TEXT + 1);
}

/// Each refusal by its question, as a value and as a print, and rows as before behind it.
#[test]
fn refusals() {
    let mut engine = Engine::new();
    let valid = texts::document();
    for (question, text) in texts::refused() {
        let print = format!("E\t{question}\n").into_bytes();
        assert_eq!(engine.report(&text), Err(Refused { question }));
        assert_eq!(engine.print_report(&text), print);
        if question == 9 {
            assert!(engine.direct(&text).unwrap().rows().eq([[0, 0, 0]]));
            assert_eq!(engine.print_direct(&text), b"R\t0\t0\t0\n");
        } else {
            assert_eq!(engine.direct(&text), Err(Refused { question }));
            assert_eq!(engine.print_direct(&text), print);
        }
        assert!(engine.report(&valid).unwrap().rows().eq([[0, 0, 0], [1, BLANK, BLANK]]));
    }
}

#[test]
fn a_refusal_as_an_error() {
    let error: Box<dyn std::error::Error> = Box::new(Refused { question: 7 });
    assert_eq!(error.to_string(), "the report was turned down by question 7");
}

/// The prints of the texts of trials/ and samples/ are the stored ones, and so are those put together from the values.
#[test]
fn stored_prints() {
    let mut engine = Engine::new();
    for stored in texts::stored() {
        let name = stored.path.display();
        assert!(engine.print_report(&stored.text) == stored.report, "{name}: print_report");
        assert!(engine.print_direct(&stored.text) == stored.direct, "{name}: print_direct");
        assert!(report_lines(engine.report(&stored.text)) == stored.report, "{name}: report");
        assert!(direct_lines(engine.direct(&stored.text)) == stored.direct, "{name}: direct");
    }
}

fn report_lines(answer: Result<Report, Refused>) -> Vec<u8> {
    let report = match answer {
        Ok(report) => report,
        Err(refused) => return refusal_line(refused),
    };
    assert!(report.sets().len() == report.tables() && report.tables() <= TABLES && report.steps().len() <= STEPS);
    assert!(report.tallies().len() <= CONDITIONS);
    let mut lines = String::new();
    for (table, &set) in report.sets().iter().enumerate() {
        lines += &format!("S\t{table}{}\n", conditions(set));
    }
    for (condition, tally) in report.tallies().iter().enumerate() {
        lines += &format!("U\t{condition}\t{}\t{}\t{}\n", tally.holds, tally.fails, tally.unknown);
    }
    for step in report.steps() {
        lines += &match step.kind {
            Kind::Inner => pair_line("I", step),
            Kind::Outer => pair_line("L", step),
            Kind::Product => pair_line("O", step),
            Kind::Blanking => format!("B\t{}{}\n", step.first, conditions(step.conditions)),
            Kind::BestMatch => "Z\n".into(),
        };
    }
    lines += &report.added().map_or(String::new(), |added| format!("F\t{added}\n"));
    let mut print = lines.into_bytes();
    print.extend(row_lines(report.rows()));
    print
}

fn direct_lines(answer: Result<Rows, Refused>) -> Vec<u8> {
    answer.map_or_else(refusal_line, |rows| row_lines(rows.rows()))
}

fn refusal_line(refused: Refused) -> Vec<u8> {
    format!("E\t{}\n", refused.question).into_bytes()
}

fn pair_line(kind: &str, step: &Step) -> String {
    format!("M\t{kind}\t{}\t{}\t{}{}\n", step.first, step.second, step.rows, conditions(step.conditions))
}

fn conditions(set: u64) -> String {
    (0..64).filter(|k| set >> k & 1 == 1).map(|k| format!("\t{k}")).collect()
}

fn row_lines<'a>(rows: impl Iterator<Item = &'a [u16]>) -> Vec<u8> {
    let field = |&number: &u16| if number == BLANK { "\t-".into() } else { format!("\t{number}") };
    rows.flat_map(|row| format!("R{}\n", row.iter().map(field).collect::<String>()).into_bytes()).collect()
}

/// Calls with engines of their own at the same time.
#[test]
fn threads() {
    thread::scope(|scope| {
        for (question, text) in texts::refused() {
            scope.spawn(move || {
                let mut engine = Engine::new();
                for _ in 0..100 {
                    assert!(engine.report(&texts::document()).unwrap().rows().eq([[0, 0, 0], [1, BLANK, BLANK]]));
                    assert_eq!(engine.report(&text), Err(Refused { question }));
                }
            });
        }
    });
}
