//! The trials of document 01 and of document 02's items 1, 2 and 4, worked out by hand.

mod printed;

use hashjoin::lent::{LEAST, Lent, MARK};
use hashjoin::{NO_ROW, Step, Tally, print_direct, print_report};
use printed::{linked_columns, prints, refused, text};

const TABLES: &str = "T|2 D|10|1 D|11|2 T|2 D|10|7 D|11|8 T|1 D|7";
const TABLES_0_EMPTY: &str = "T|2 T|2 D|10|7 D|11|8 T|1 D|7";
const TABLES_2_EMPTY: &str = "T|2 D|10|1 D|11|2 T|2 D|10|7 D|11|8 T|1";
const JOINS: &str = "J|I|1|2 C|1|1|=|2|0 J|L|0|3 C|0|0|=|1|0";
const ORDER: &str = "P|0|1 P|3|2";
const OTHER_ORDER: &str = "P|0|2 P|3|1";
const SETS: &str = "S|0 S|1|0|1 S|2|0|1";

fn document(tables: &str, order: &str) -> String {
    [tables, JOINS, order].join(" ")
}

#[test]
fn the_report_of_the_document() {
    let rows = "R|0|0|0 R|1|-|-";
    let counts = "U|0|1|1|0 U|1|2|2|0";
    let steps = "M|L|0|1|2|1 M|L|3|2|2|0 B|1|0 Z";
    prints(&document(TABLES, ORDER), &[SETS, counts, steps, rows].join(" "), rows);
    let steps = "M|O|0|2|2 M|L|3|1|2|0|1 B|2|0|1 Z";
    prints(&document(TABLES, OTHER_ORDER), &[SETS, counts, steps, rows].join(" "), rows);
}

#[test]
fn a_table_emptied() {
    let counts = "U|0|1|1|0 U|1|0|0|0";
    // Table 0 is preserved at the first pair and has no rows.
    prints(&document(TABLES_0_EMPTY, ORDER), &[SETS, counts, "M|L|0|1|0|1 M|L|3|2|0|0 B|1|0 Z"].join(" "), "");
    // The product keeps the row of table 2, which the blanking step takes away.
    prints(&document(TABLES_0_EMPTY, OTHER_ORDER), &[SETS, counts, "M|O|0|2|1 M|L|3|1|1|0|1 B|2|0|1 Z"].join(" "), "");
    let counts = "U|0|0|0|0 U|1|2|2|0";
    let rows = "R|0|-|- R|1|-|-";
    let steps = "M|L|0|1|2|1 M|L|3|2|2|0 B|1|0 Z";
    prints(&document(TABLES_2_EMPTY, ORDER), &[SETS, counts, steps, rows].join(" "), rows);
    let steps = "M|O|0|2|2 M|L|3|1|2|0|1 B|2|0|1 Z";
    prints(&document(TABLES_2_EMPTY, OTHER_ORDER), &[SETS, counts, steps, rows].join(" "), rows);
}

#[test]
fn a_lone_table_and_none() {
    prints("T|1 D|5 D|5", "S|0 R|0 R|1", "R|0 R|1");
    refused("", 3);
}

#[test]
fn blank_is_unequal_to_nothing() {
    let rows = "R|0|0 R|1|-";
    let print = ["S|0 S|1|0 U|0|1|0|1 M|L|0|1|2|0", rows].join(" ");
    prints("T|1 D|6 D|- T|1 D|5 J|L|0|1 C|0|0|<>|1|0", &print, rows);
    prints(
        "T|2 D|-|1 T|1 D|1 J|L|0|1 C|0|1|=|1|0 K|0|0|<>|5",
        "S|0 S|1|0|1 U|0|1|0|0 U|1|0|0|1 M|L|0|1|1|0 B|1|1 Z R|0|-",
        "R|0|-",
    );
}

#[test]
fn counts_of_conditions() {
    // Four pairs of six have a blank; the other two are 5 with 5 and 7 with 5.
    let tables = "T|1 D|- D|5 D|7 T|1 D|- D|5";
    for (operator, counts) in [("=", "1|1"), ("<>", "1|1"), ("<", "0|2"), ("<=", "1|1"), (">", "1|1"), (">=", "2|0")] {
        let input = format!("{tables} J|L|0|1 C|0|0|=|1|0 C|0|0|<>|1|0 C|0|0|{operator}|1|0");
        let print = format!("S|0 S|1|0|1|2 U|0|1|1|4 U|1|1|1|4 U|2|{counts}|4 M|L|0|1|3|0|1|2 R|0|- R|1|- R|2|-");
        prints(&input, &print, "R|0|- R|1|- R|2|-");
    }
    // The same line twice, and read from the other side.
    prints(
        "T|1 D|1 D|2 T|1 D|2 J|I|0|1 C|0|0|<|1|0 C|0|0|<|1|0 C|1|0|>|0|0",
        "S|0|0|1|2 S|1|0|1|2 U|0|1|1|0 U|1|1|1|0 U|2|1|1|0 M|I|0|1|1|0|1|2 R|0|0",
        "R|0|0",
    );
    // A K line counts the rows of its table; a table without rows gives no pair.
    prints(
        "T|1 D|- D|5 T|1 J|L|0|1 C|0|0|=|1|0 K|0|0|<>|5 K|1|0|=|5",
        "S|0 S|1|0|1|2 U|0|0|0|0 U|1|0|1|1 U|2|0|0|0 M|L|0|1|2|0 B|1|1|2 Z R|0|- R|1|-",
        "R|0|- R|1|-",
    );
}

#[test]
fn counts_that_16_bits_do_not_hold() {
    let column = |cell: &str| format!("T|1 {}", format!("D|{cell} ").repeat(256));
    let counts = |first: &str, second: &str| {
        let conditions = "J|I|0|1 C|0|0|=|1|0 C|0|0|<>|1|0 K|0|0|>=|1";
        let print = print_report(&text(&format!("{}{}{conditions}", column(first), column(second))));
        let print = String::from_utf8(print).unwrap().replace('\t', "|");
        print.lines().filter(|line| line.starts_with('U')).collect::<Vec<_>>().join(" ")
    };
    assert_eq!(counts("1", "1"), "U|0|65536|0|0 U|1|0|65536|0 U|2|256|0|0");
    assert_eq!(counts("1", "-"), "U|0|0|0|65536 U|1|0|0|65536 U|2|256|0|0");
    assert_eq!(counts("-", "-1"), "U|0|0|0|65536 U|1|0|0|65536 U|2|0|0|256");
    assert_eq!(counts("0", "-1"), "U|0|0|65536|0 U|1|65536|0|0 U|2|0|256|0");
}

#[test]
fn the_lowest_cell() {
    let input = "T|1 D|-2147483647 T|1 D|-2147483646 J|I|0|1 C|0|0|<|1|0 K|0|0|=|-2147483647";
    prints(input, "S|0|0|1 S|1|0|1 U|0|1|0|0 U|1|1|0|0 M|I|0|1|1|0 B|0|1 B|1|1 Z R|0|0", "R|0|0");
    refused("T|1 D|-2147483648", 2);
}

#[test]
fn a_tree_that_is_simplified() {
    let tables = "T|1 D|1 T|1 D|1 T|1 D|1";
    prints(
        &[tables, "J|L|0|1 C|0|0|=|1|0 J|I|3|2 C|0|0|=|2|0"].join(" "),
        "S|0|1 S|1|0|1|2 S|2|1 U|0|1|0|0 U|1|1|0|0 U|2|1|0|0 M|L|0|1|1|0 M|I|3|2|1|1 R|0|0|0",
        "R|0|0|0",
    );
    // The last outer join blanks its right side alone: it gives the left side nothing.
    prints(
        "T|1 D|1 D|2 T|1 D|1 T|1 D|1 J|L|0|1 C|0|0|=|1|0 J|L|3|2 C|1|0|=|2|0",
        "S|0 S|1|0 S|2|0|1|2 U|0|1|1|0 U|1|1|0|0 U|2|1|1|0 M|L|0|1|2|0 M|L|3|2|2|1|2 R|0|0|0 R|1|-|-",
        "R|0|0|0 R|1|-|-",
    );
}

#[test]
fn a_tree_that_is_not_simplified() {
    let sets = "S|0|0|1|2 S|1|0|1|2 S|2|0|1|2";
    let joins = "J|L|0|1 C|0|0|=|1|0 J|I|3|2 C|1|0|=|2|0";
    prints(
        &["T|1 D|1 T|1 D|1 T|1 D|1", joins].join(" "),
        &[sets, "U|0|1|0|0 U|1|1|0|0 U|2|1|0|0 M|I|0|1|1|0 M|I|3|2|1|1|2 R|0|0|0"].join(" "),
        "R|0|0|0",
    );
    // The second row of table 0 is kept by the first join and dropped by the second.
    let tables = "T|1 D|1 D|2 T|1 D|1 T|1 D|1 D|3";
    for (order, steps) in [
        ("", "M|I|0|1|1|0 M|I|3|2|1|1|2"),
        ("P|1|2 P|3|0", "M|I|1|2|1|1 M|I|3|0|1|0|2"),
        ("P|0|2 P|3|1", "M|I|0|2|1|2 M|I|3|1|1|0|1"),
    ] {
        let print = [sets, "U|0|1|1|0 U|1|1|1|0 U|2|1|3|0", steps, "R|0|0|0"].join(" ");
        prints(&[tables, joins, order].join(" "), &print, "R|0|0|0");
    }
}

/// What a join above names counts, whatever the line that names it: a K line, or a C line with both tables on one side.
#[test]
fn tables_named_by_other_lines() {
    prints(
        "T|1 D|2 T|1 D|1 D|2 T|1 D|2 J|L|0|1 C|0|0|=|1|0 J|L|2|3 C|2|0|=|0|0 K|1|0|=|1 P|2|1 P|3|0",
        "S|0|0|1|2|3 S|1|0|1|2|3 S|2 U|0|1|1|0 U|1|1|0|0 U|2|1|1|0 U|3|1|1|0 M|L|2|1|1|3 M|L|3|0|1|0|1 \
         B|0|2 B|1|0|1|2 Z R|-|-|0",
        "R|-|-|0",
    );
    prints(
        "T|1 D|2 T|1 D|1 T|1 D|2 J|L|2|1 C|2|0|=|1|0 J|L|0|3 C|0|0|=|2|0 C|1|0|<>|2|0 P|1|0 P|3|2",
        "S|0 S|1|0|1|2|3 S|2|0|1|2|3 U|0|0|1|0 U|1|1|0|0 U|2|1|0|0 U|3|0|1|0 M|L|0|1|1|3 M|L|3|2|1|0|1|2 \
         B|1|0|1|2 Z R|0|-|-",
        "R|0|-|-",
    );
}

/// A pair hands on the sets of named tables of the same side too, so that no blanking step is left.
#[test]
fn applied_sets() {
    let tables = "T|1 D|1 T|1 D|1 T|1 D|1 T|1 D|1";
    let joins = "J|I|0|1 C|0|0|=|1|0 J|I|4|2 C|1|0|<=|2|0 J|I|5|3 C|2|0|>=|3|0";
    let before = "S|0|0|1|2 S|1|0|1|2 S|2|0|1|2 S|3|0|1|2 U|0|1|0|0 U|1|1|0|0 U|2|1|0|0";
    for (order, steps) in [
        ("P|0|1 P|4|3 P|5|2", "M|I|0|1|1|0 M|O|4|3|1 M|I|5|2|1|1|2"),
        ("P|2|3 P|0|4 P|1|5", "M|I|2|3|1|2 M|O|0|4|1 M|I|1|5|1|0|1"),
    ] {
        prints(&[tables, joins, order].join(" "), &[before, steps, "R|0|0|0|0"].join(" "), "R|0|0|0|0");
    }
}

#[test]
fn key_columns() {
    // No two equal cells in the key column, whatever other columns and other tables have.
    prints("T|1|0 D|1 D|2 D|0", "S|0 R|0 R|1 R|2", "R|0 R|1 R|2");
    prints("T|3|1 D|5|1|- D|5|2|- D|5|-5|2", "S|0 R|0 R|1 R|2", "R|0 R|1 R|2");
    prints("T|2|0 D|1|2 D|2|1", "S|0 R|0 R|1", "R|0 R|1");
    prints("T|8|7 D|1|1|1|1|1|1|1|3 D|1|1|1|1|1|1|1|4", "S|0 R|0 R|1", "R|0 R|1");
    prints("T|1|0 D|-2147483647 D|2147483647 D|0 D|-1", "S|0 R|0 R|1 R|2 R|3", "R|0 R|1 R|2 R|3");
    prints("T|8|7", "S|0", "");
    let tables = "T|2|0 D|10|1 D|11|2 T|2|0 D|10|7 D|11|8 T|1|0 D|7";
    let rows = "R|0|0|0 R|1|-|-";
    let before = "U|0|1|1|0 U|1|2|2|0 M|L|0|1|2|1 M|L|3|2|2|0 B|1|0 Z";
    prints(&document(tables, ORDER), &[SETS, before, rows].join(" "), rows);
    for wrong in [
        "T|1|0 D|1 D|2 D|1",
        "T|1|0 D|-",
        "T|1|0 D|0 D|-",
        "T|1|0 D|2147483647 D|0 D|2147483647",
        "T|1|0 D|-2147483647 D|-2147483647",
        "T|2|1 D|1|7 D|2|7",
        "T|2|2 D|1|2",
        "T|2|2",
        "T|8|8",
        "T|1|9999",
        "T|1 D|1 D|1 T|1|0 D|1 D|1 J|L|0|1 C|0|0|=|1|0",
    ] {
        refused(wrong, 12);
    }
}

#[test]
fn key_columns_of_256_rows() {
    let column = |cells: &mut dyn Iterator<Item = i32>| {
        let rows: Vec<String> = cells.map(|cell| format!(" D|{cell}")).collect();
        format!("T|1|0{}", rows.concat())
    };
    for step in [1, 256, 3600, 65536] {
        let print = print_direct(&text(&column(&mut (0..256).map(|row| row * step))));
        assert_eq!(print.iter().filter(|&&byte| byte == b'\n').count(), 256);
        for (one, other) in [(0, 1), (0, 255), (254, 255), (127, 128)] {
            refused(&column(&mut (0..256).map(|row| if row == other { one * step } else { row * step })), 12);
        }
    }
}

#[test]
fn forms_of_key_columns() {
    for field in ["", "-", "-0", "-1", "+0", "00", "01", "00000", "10000", "0|", "0|0", "1.", "0x", "a"] {
        refused(&format!("T|1|{field} D|1"), 2);
    }
    refused("T|", 2);
    refused("T||0", 2);
}

/// Question 12 stands behind 4 and before 5, in both runs.
#[test]
fn the_order_of_question_12() {
    let wrong = "T|1|0 D|1 D|1";
    let refused = |rest: &str, question| refused(&[wrong, rest].join(" "), question);
    refused("X", 2);
    refused("T|9", 3);
    refused("T|1 D|1|1", 4);
    refused("T|1", 12);
    refused("J|I|0|0", 12);
    refused("T|1 D|1 J|L|0|1 C|0|1|=|1|0", 12);
    refused("T|1 D|1 J|L|0|1 K|0|0|=|1", 12);
    refused("T|1 D|1 J|L|0|1 C|0|0|=|1|0 P|0|0", 12);
    refused(&format!("T|1 {}J|L|0|1 C|0|0|=|1|0", "D|1 ".repeat(129)), 12);
}

#[test]
fn joins_that_are_refused() {
    refused("T|1 T|1 J|I|0|1 K|0|0|=|1", 7);
    refused("T|1 T|1 J|I|0|0 C|0|0|=|1|0", 5);
    prints("T|1 T|1 T|1 J|I|0|1 C|0|0|=|1|0 J|I|2|3 C|2|0|=|0|0 P|0|1", "E|9", "");
}

/// Two tables whose rows all match.
fn all_match(left: usize, right: usize) -> String {
    let rows = |count| "D|1 ".repeat(count);
    format!("T|1 {}T|1 {}J|I|0|1 C|0|0|=|1|0", rows(left), rows(right))
}

#[test]
fn limits() {
    let lines = |print: Vec<u8>| print.split(|&byte| byte == b'\n').count() - 1;
    assert_eq!(lines(print_direct(&text(&all_match(16, 16)))), 256);
    assert_eq!(lines(print_report(&text(&all_match(16, 16)))), 256 + 4);
    refused(&all_match(16, 17), 11);
    assert_eq!(lines(print_direct(&text(&format!("T|1 {}", "D|0 ".repeat(256))))), 256);
    refused(&format!("T|1 {}", "D|0 ".repeat(257)), 3);
    let conditions = |count| format!("T|1 T|1 J|I|0|1 {}", "C|0|0|=|1|0 ".repeat(count));
    assert_eq!(lines(print_direct(&text(&conditions(32)))), 0);
    refused(&conditions(33), 6);
}

/// Whether the work buffer and the cell buffer are filled with 0.
fn cleared(lent: &Lent) -> bool {
    lent.cells.iter().all(|&number| number == 0) && lent.work.iter().all(|&number| number == 0)
}

#[test]
fn short_buffers() {
    let input = text(&document(TABLES, ORDER));
    for short in 0..LEAST.len() {
        for size in [0, LEAST[short] - 1] {
            let mut sizes = LEAST.map(|least| least + 1);
            sizes[short] = size;
            let mut lent = Lent::marked(sizes);
            assert_eq!(lent.report(&input), Err(1));
            assert!(lent == Lent::marked(sizes));
            // No step list is lent for the direct reading.
            if short < 3 {
                assert_eq!(lent.direct(&input), Err(1));
                assert!(lent == Lent::marked(sizes));
            }
        }
    }
}

#[test]
fn what_the_buffers_hold_afterwards() {
    let input = text(&document(TABLES, ORDER));
    let numbers = [0, 0, 0, 1, NO_ROW, NO_ROW];
    for more in [0, 5] {
        let sizes = LEAST.map(|least| least + more);
        let mut lent = Lent::marked(sizes);
        let rows = lent.report(&input).unwrap();
        assert_eq!((rows.rows, rows.tables, rows.sets), (2, 3, [0, 3, 3, 0, 0, 0, 0, 0]));
        let tally = |holds, fails| Tally { holds, fails, unknown: 0 };
        assert_eq!((rows.conditions, &rows.tallies[..2]), (2, &[tally(1, 1), tally(2, 2)][..]));
        assert_eq!(rows.tallies[2..], [Tally::default(); 62]);
        let step = |kind, first, second, rows, conditions| Step { kind, first, second, rows, conditions };
        let plan = [step(2, 0, 1, 2, 2), step(2, 3, 2, 2, 1), step(4, 1, 0, 0, 1), step(5, 0, 0, 0, 0)];
        assert_eq!(lent.steps[..4], plan);
        assert!(lent.steps[4..].iter().all(|&step| step == Step::default()));
        assert_eq!(lent.result[..6], numbers);
        assert!(lent.result[6..].iter().all(|&number| number == MARK));
        assert!(cleared(&lent));

        let mut lent = Lent::marked(sizes);
        let rows = lent.direct(&input).unwrap();
        assert_eq!((rows.rows, rows.sets), (2, [0; 8]));
        assert_eq!((rows.conditions, rows.tallies), (0, [Tally::default(); 64]));
        assert_eq!(lent.result[..6], numbers);
        assert!(lent.result[6..].iter().all(|&number| number == MARK));
        assert!(cleared(&lent));

        for refused in ["X", "", "T|1|0 D|1 D|1", &linked_columns("0", 16), "T|1 D|1 P|0|0", &all_match(16, 17)] {
            let mut lent = Lent::marked(sizes);
            assert!(lent.report(&text(refused)).is_err());
            assert!(lent.steps.iter().all(|&step| step == Step::default()));
            assert!(lent.result.iter().all(|&number| number == MARK));
            assert!(cleared(&lent));
        }
    }
}
