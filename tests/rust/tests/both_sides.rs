//! The trials of document 02's item 7, right outer joins and a full outer join as the last J.

mod printed;

use hashjoin::lent::{LEAST, Lent, MARK};
use hashjoin::{NO_ROW, Step, print_direct, print_report};
use printed::{linked_columns, prints, refused, text};

/// R is L with its sides exchanged; without P lines the pair is the exchanged one.
#[test]
fn right_outer_joins() {
    let rows = "R|0|0 R|-|1";
    prints("T|1 D|1 T|1 D|1 D|2 J|R|0|1 C|0|0|=|1|0", "S|0|0 S|1 U|0|1|1|0 M|L|1|0|2|0 R|0|0 R|-|1", rows);
    let tables = "T|1 D|1 T|1 D|1 T|1 D|1";
    let counts = "U|0|1|0|0 U|1|1|0|0 U|2|1|0|0";
    prints(
        &format!("{tables} J|R|0|1 C|0|0|=|1|0 J|I|3|2 C|0|0|=|2|0"),
        &format!("S|0|0|1|2 S|1|0|1|2 S|2|0|1|2 {counts} M|I|1|0|1|0 M|I|3|2|1|1|2 R|0|0|0"),
        "R|0|0|0",
    );
    let joins = "J|R|0|1 C|0|0|=|1|0 J|R|3|2 C|0|0|=|2|0";
    let sets = "S|0|0|1|2 S|1|0|1|2 S|2";
    for (order, steps) in [
        ("", "M|I|1|0|1|0 M|L|2|3|1|1|2"),
        // P lines stand as they are written.
        ("P|0|1 P|3|2", "M|I|0|1|1|0 M|L|2|3|1|1|2"),
        ("P|2|0 P|1|3", "M|L|2|0|1|1 M|L|3|1|1|0|2 B|0|0|2 Z"),
    ] {
        prints(&[tables, joins, order].join(" "), &[sets, counts, steps, "R|0|0|0"].join(" "), "R|0|0|0");
    }
}

#[test]
fn full_outer_joins() {
    let tables = "T|1 D|1 D|2 T|1 D|2 D|3";
    let rows = "R|0|- R|1|0 R|-|1";
    let print = format!("S|0 S|1|0 U|0|1|3|0 M|L|0|1|2|0 F|1 {rows}");
    for order in ["", "P|0|1", "P|1|0"] {
        prints(&format!("{tables} J|F|0|1 C|0|0|=|1|0 {order}"), &print, rows);
    }
    // Rows are put in order again: the right side is table 0.
    let print = format!("S|0|0 S|1 U|0|1|3|0 M|L|1|0|2|0 F|1 {rows}");
    prints(&format!("{tables} J|F|1|0 C|0|0|=|1|0"), &print, rows);
    // Blank cells have no partner.
    let print = "S|0 S|1|0 U|0|0|0|1 M|L|0|1|1|0 F|1 R|0|- R|-|0";
    prints("T|1 D|- T|1 D|- J|F|0|1 C|0|0|=|1|0", print, "R|0|- R|-|0");
}

/// The F line stands in every answer, also where no row is added and where a side has no rows.
#[test]
fn sides_without_rows_and_none_added() {
    for (tables, print, rows) in [
        ("T|1 T|1 D|2 D|3", "U|0|0|0|0 M|L|0|1|0|0 F|2 R|-|0 R|-|1", "R|-|0 R|-|1"),
        ("T|1 D|1 T|1", "U|0|0|0|0 M|L|0|1|1|0 F|0 R|0|-", "R|0|-"),
        ("T|1 T|1", "U|0|0|0|0 M|L|0|1|0|0 F|0", ""),
        ("T|1 D|1 T|1 D|1", "U|0|1|0|0 M|L|0|1|1|0 F|0 R|0|0", "R|0|0"),
    ] {
        prints(&format!("{tables} J|F|0|1 C|0|0|=|1|0"), &format!("S|0 S|1|0 {print}"), rows);
    }
}

/// A right row is in a row of the plan by its row number, whatever its cells are; a K line of either side takes
/// partners away.
#[test]
fn partners_taken_away() {
    prints(
        "T|1 D|1 D|2 T|1 D|1 D|2 J|F|0|1 C|0|0|=|1|0 K|0|0|=|1",
        "S|0 S|1|0|1 U|0|2|2|0 U|1|1|1|0 M|L|0|1|2|0 B|1|1 Z F|1 R|0|0 R|1|- R|-|1",
        "R|0|0 R|1|- R|-|1",
    );
    prints(
        "T|1 D|1 T|2 D|1|0 D|1|1 J|F|0|1 C|0|0|=|1|0 K|1|1|=|0",
        "S|0 S|1|0|1 U|0|2|0|0 U|1|1|1|0 M|L|0|1|2|0 B|1|1 Z F|1 R|0|0 R|-|1",
        "R|0|0 R|-|1",
    );
    prints(
        "T|1 D|1 T|1 D|1 J|F|0|1 C|0|0|=|1|0 K|0|0|=|2",
        "S|0 S|1|0|1 U|0|1|0|0 U|1|0|1|0 M|L|0|1|1|0 B|1|1 Z F|1 R|0|- R|-|0",
        "R|0|- R|-|0",
    );
    // Equal cells in two rows, of which one has a partner.
    prints(
        "T|2 D|1|5 T|2 D|1|5 D|1|5 J|F|0|1 C|0|0|=|1|0 K|0|1|<>|5",
        "S|0 S|1|0|1 U|0|2|0|0 U|1|0|1|0 M|L|0|1|2|0 B|1|1 Z F|2 R|0|- R|-|0 R|-|1",
        "R|0|- R|-|0 R|-|1",
    );
}

/// Whether a right row is in a row of the plan is asked after blanking and best match.
#[test]
fn adding_stands_behind_best_match() {
    prints(
        "T|1 D|1 T|1 D|1 T|1 D|9 J|L|0|1 C|0|0|=|1|0 J|F|3|2 C|0|0|=|2|0 P|1|2 P|3|0",
        "S|0 S|1|0 S|2|1 U|0|1|0|0 U|1|0|1|0 M|O|1|2|1 M|O|3|0|1 B|1|0 B|2|1 Z F|1 R|0|0|- R|-|-|0",
        "R|0|0|- R|-|-|0",
    );
}

/// Both sides are joins; a row of the right side is compared with all its tables at once.
#[test]
fn sides_that_are_joins() {
    let tables = "T|1 D|1 D|2 T|1 D|1 T|1 D|2 D|3 T|1 D|3";
    let joins = "J|L|0|1 C|0|0|=|1|0 J|L|2|3 C|2|0|=|3|0 J|F|4|5 C|0|0|=|2|0";
    let before = "S|0 S|1|0 S|2|2 S|3|1|2|3 U|0|1|1|0 U|1|1|1|0 U|2|1|3|0 U|3|0|2|0";
    let rows = "R|0|0|-|- R|1|-|0|- R|-|-|1|0";
    for (order, steps) in [
        ("", "M|L|0|1|2|0 M|L|2|3|2|1 M|L|4|5|2|2"),
        ("P|1|3 P|4|2 P|5|0", "M|O|1|3|1 M|O|4|2|2 M|O|5|0|4 B|1|0 B|2|2 B|3|1|2|3 Z"),
    ] {
        prints(&[tables, joins, order].join(" "), &[before, steps, "F|1", rows].join(" "), rows);
    }
    let joins = "J|L|0|1 C|0|0|=|1|0 J|I|2|3 C|2|0|=|3|0 J|F|4|5 C|0|0|=|2|0 C|1|0|<=|3|0 P|0|3 P|4|1 P|5|2";
    let rows = "R|0|0|-|- R|1|-|-|- R|-|-|1|0";
    prints(
        &[tables, joins].join(" "),
        "S|0 S|1|0 S|2|0|1|2|3|4|5|6 S|3|0|1|2|3|4|5|6 U|0|1|1|0 U|1|1|1|0 U|2|1|3|0 U|3|1|0|0 U|4|0|2|0 U|5|0|2|0 \
         U|6|0|1|0 M|L|0|3|2|4 M|L|4|1|2|0 M|L|5|2|2|1|2|5 B|2|3 B|3|0|1|2|3|5|6 Z F|1 R|0|0|-|- R|1|-|-|- R|-|-|1|0",
        rows,
    );
    prints(
        "T|1 D|1 T|1 D|2 T|1 D|1 J|R|0|1 C|0|0|=|1|0 J|F|3|2 C|0|0|=|2|0",
        "S|0|0 S|1 S|2|0|1|2 U|0|0|1|0 U|1|1|0|0 U|2|0|1|0 M|L|1|0|1|0 M|L|3|2|1|1|2 F|1 R|-|0|- R|-|-|0",
        "R|-|0|- R|-|-|0",
    );
    // The row 0 of table 1 has two rows of the right side, of which one has no partner.
    prints(
        "T|2 D|1|7 T|1 D|1 T|2 D|1|7 D|1|8 J|L|1|2 C|1|0|=|2|0 J|F|0|3 C|0|0|=|1|0 C|0|1|=|2|1",
        "S|0 S|1|0|1|2|3 S|2|0|1|2|3 U|0|2|0|0 U|1|1|0|0 U|2|1|1|0 U|3|2|0|0 M|I|1|2|2|0 M|L|0|3|1|1|2|3 \
         F|1 R|0|0|0 R|-|0|1",
        "R|0|0|0 R|-|0|1",
    );
}

/// Question 2: F is the last J; behind it C, K and P lines may stand. Before it all other questions are asked later.
#[test]
fn places_and_forms() {
    let tables = "T|1 D|1 T|1 D|1 T|1 D|1";
    let wrong = "J|F|0|1 C|0|0|=|1|0 J|L|3|2 C|0|0|=|2|0";
    refused(&format!("{tables} {wrong}"), 2);
    refused(&format!("{tables} {}", wrong.replace("J|L", "J|F")), 2);
    refused(&format!("{tables} {}", wrong.replace("J|L", "J|I")), 2);
    refused(&format!("{tables} {}", wrong.replace("J|L", "J|R")), 2);
    for last in ["J|F|0|1 J|I|3|2", "J|F|0|1 P|0|1 J|I|3|2", "J|F|0|1 K|0|0|=|1 T|1", "J|F|0|1 K|0|0|=|1 D|1"] {
        refused(&format!("{tables} {last}"), 2);
    }
    refused(&format!("{tables} J|F|0|1 P|0|1 C|0|0|=|1|0"), 2);
    refused(&format!("{tables} J|F|0|1 P|0|1 K|0|0|=|0"), 2);
    // Before 3, 4, 12, 5, 6 and 7.
    refused("J|F|0|1 J|F|0|1", 2);
    refused(&format!("T|9 {tables} {wrong}"), 2);
    refused(&format!("T|2 D|1 {wrong}"), 2);
    refused(&format!("T|1|0 D|1 D|1 {wrong}"), 2);
    refused(&format!("{tables} J|F|0|0 J|L|3|2"), 2);
    refused(&format!("{tables} J|F|0|1 C|0|7|=|1|0 J|L|3|2"), 2);
    for kind in ["f", "r", "", "FF", "RF", "F ", "-", "0", "O", "M"] {
        let input = format!("T|1\nT|1\nJ|{kind}|0|1\nC|0|0|=|1|0\n").replace('|', "\t");
        assert_eq!(print_report(input.as_bytes()), b"E\t2\n", "{kind}");
        assert_eq!(print_direct(input.as_bytes()), b"E\t2\n", "{kind}");
    }
}

/// The other questions of a report with R or F.
#[test]
fn other_questions() {
    for kind in ["R", "F"] {
        let report = |rest: &str| format!("T|1 D|1 T|1 D|1 J|{kind}|{rest}");
        refused(&report("0|0 C|0|0|=|1|0"), 5);
        refused(&report("0|2 C|0|0|=|1|0"), 5);
        refused(&report("2|0 C|0|0|=|1|0"), 5);
        refused(&report("0|1 C|0|0|=|2|0"), 6);
        refused(&report("0|1 K|0|0|=|1"), 7);
        refused(&report("0|1"), 7);
        prints(&report("0|1 C|0|0|=|1|0 P|0|0"), "E|9", "R|0|0");
        refused(&linked_columns("0", 16).replace("J|I", &format!("J|{kind}")), 13);
    }
}

/// So many rows with a partner for each, left ones without and right ones without.
fn rows(both: usize, left: usize, right: usize) -> String {
    let rows = |alone: usize, cell: &str| format!("T|1 {}{}", "D|1 ".repeat(both), format!("D|{cell} ").repeat(alone));
    format!("{}{}", rows(left, "2"), rows(right, "3"))
}

fn last_line(print: Vec<u8>) -> String {
    let print = String::from_utf8(print).unwrap().replace('\t', "|");
    print.lines().last().unwrap_or("").into()
}

/// Question 11 asks for the rows with those that are added.
#[test]
fn the_total() {
    for (both, left, right, first, last) in [
        (0, 156, 100, "F|100", "R|-|99"),
        (0, 255, 1, "F|1", "R|-|0"),
        (0, 0, 256, "F|256", "R|-|255"),
        (0, 256, 0, "F|0", "R|255|-"),
        (15, 15, 16, "F|16", "R|-|30"),
        (16, 0, 0, "F|0", "R|15|15"),
    ] {
        let input = text(&format!("{}J|F|0|1 C|0|0|=|1|0", rows(both, left, right)));
        let print = String::from_utf8(print_report(&input)).unwrap().replace('\t', "|");
        assert_eq!(print.lines().nth(4), Some(first));
        assert_eq!(print.lines().count(), 5 + 256);
        assert_eq!(last_line(print_report(&input)), last);
        assert_eq!(last_line(print_direct(&input)), last);
    }
    for (both, left, right) in [(0, 156, 101), (0, 200, 100), (0, 1, 256), (0, 256, 1), (15, 15, 17), (16, 0, 1)] {
        for sides in ["0|1", "1|0"] {
            for order in ["", "P|0|1", "P|1|0"] {
                refused(&format!("{}J|F|{sides} C|0|0|=|1|0 {order}", rows(both, left, right)), 11);
            }
        }
        let one_kept = print_report(&text(&format!("{}J|L|0|1 C|0|0|=|1|0", rows(both, left, right))));
        assert!(one_kept.starts_with(b"S\t0\n"));
    }
}

/// Question 11 asks for each join of the right side, also where no pair of the plan has so many rows.
#[test]
fn joins_of_the_right_side() {
    let order = "P|0|1 P|3|2";
    let report = |middle: usize, right: usize, kind: &str| {
        let middle = format!("{}D|1|5", "D|0|5 ".repeat(middle - 1));
        let tables = format!("T|1 D|1 T|2 {middle} T|1 {}", "D|5 ".repeat(right));
        format!("{tables} J|I|1|2 C|1|1|=|2|0 J|{kind}|0|3 C|0|0|=|1|0 {order}")
    };
    refused(&report(17, 16, "F"), 11);
    refused(&report(16, 17, "F"), 11);
    prints(
        &report(17, 16, "L").replace("T|1 D|1 T|2", "T|1 D|2 T|2"),
        "S|0 S|1|0|1 S|2|0|1 U|0|272|0|0 U|1|0|17|0 M|L|0|1|1|1 M|L|3|2|1|0 B|1|0 Z R|0|-|-",
        "E|11",
    );
    let print = String::from_utf8(print_report(&text(&report(16, 16, "F")))).unwrap().replace('\t', "|");
    assert!(print.contains("M|L|0|1|1|1\nM|L|3|2|16|0\nB|1|0\nZ\nF|240\nR|0|15|0\n"), "{print}");
    assert_eq!(print.lines().count(), 3 + 2 + 2 + 2 + 1 + 256);
}

/// What an answer and the step list have beside the print, and what a refusal leaves.
#[test]
fn what_is_handed_over() {
    let tables = "T|1 D|1 D|2 T|1 D|2 D|3";
    let mut lent = Lent::marked(LEAST);
    let answer = lent.report(&text(&format!("{tables} J|F|0|1 C|0|0|=|1|0"))).unwrap();
    assert_eq!((answer.rows, answer.tables, answer.added), (3, 2, Some(1)));
    assert_eq!(lent.steps[0], Step { kind: 2, first: 0, second: 1, rows: 2, conditions: 1 });
    assert_eq!(lent.steps[1..], [Step::default(); 15]);
    assert_eq!(lent.result[..6], [0, NO_ROW, 1, 0, NO_ROW, 1]);
    assert!(lent.result[6..].iter().all(|&number| number == MARK));
    assert!(lent.cells.iter().all(|&number| number == 0) && lent.work.iter().all(|&number| number == 0));
    for (kind, added) in [("L", None), ("R", None), ("I", None)] {
        let answer = lent.report(&text(&format!("{tables} J|{kind}|0|1 C|0|0|=|1|0"))).unwrap();
        assert_eq!(answer.added, added);
    }
    assert_eq!(lent.direct(&text(&format!("{tables} J|F|0|1 C|0|0|=|1|0"))).unwrap().added, None);

    let mut lent = Lent::marked(LEAST);
    assert_eq!(lent.report(&text(&format!("{}J|F|0|1 C|0|0|=|1|0", rows(0, 156, 101)))), Err(11));
    assert_eq!(lent.steps, [Step::default(); 16]);
    assert!(lent.result.iter().all(|&number| number == MARK));
    assert!(lent.cells.iter().all(|&number| number == 0) && lent.work.iter().all(|&number| number == 0));
}
