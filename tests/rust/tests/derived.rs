//! The trials of document 02's item 6, derived conditions, worked out by hand.

mod printed;

use hashjoin::{print_direct, print_report};
use printed::{linked_columns, prints, refused, text};

/// Hours match strains and strains temperatures, so hours match temperatures.
#[test]
fn links_that_follow() {
    let tables = "T|1 D|1 D|2 T|1 D|1 D|2 T|1 D|1";
    let counts = "U|0|2|2|0 U|1|1|1|0 U|2|1|1|0";
    let [joins, sets, rows] = ["J|L|0|1 C|0|0|=|1|0 J|L|3|2 C|1|0|=|2|0", "S|0 S|1|0 S|2|0|1|2", "R|0|0|0 R|1|1|-"];
    for (order, steps) in [
        ("", "M|L|0|1|2|0 M|L|3|2|2|1|2"),
        ("P|0|2 P|3|1", "M|L|0|2|2|2 M|L|3|1|2|0 B|2|0|1 Z"),
        ("P|1|2 P|3|0", "M|L|1|2|2|1 M|L|0|3|2|0"),
    ] {
        prints(&[tables, joins, order].join(" "), &[sets, counts, steps, rows].join(" "), rows);
    }
    let joins = "J|I|0|1 C|0|0|=|1|0 J|I|3|2 C|1|0|=|2|0";
    prints(
        &[tables, joins, "P|0|2 P|3|1"].join(" "),
        &["S|0|0|1|2 S|1|0|1|2 S|2|0|1|2", counts, "M|I|0|2|1|2 M|I|3|1|1|0|1 R|0|0|0"].join(" "),
        "R|0|0|0",
    );
    // A chain of four lines.
    let sets: String = (0..5).map(|table| format!("S|{table}|0|1|2|3|4|5|6|7|8|9 ")).collect();
    let counts: String = (0..10).map(|number| format!("U|{number}|1|0|0 ")).collect();
    prints(
        "T|1 D|1 T|1 D|1 T|1 D|1 T|1 D|1 T|1 D|1 J|I|0|1 C|0|0|=|1|0 J|I|5|2 C|1|0|=|2|0 J|I|6|3 C|2|0|=|3|0 \
         J|I|7|4 C|3|0|=|4|0 P|0|4 P|1|3 P|5|6 P|7|2",
        &format!("{sets}{counts}M|I|0|4|1|6 M|I|1|3|1|7 M|I|5|6|1|0|3|5|8 M|I|7|2|1|1|2|4|9 R|0|0|0|0|0"),
        "R|0|0|0|0|0",
    );
    // Blanks count unknown in a derived condition too.
    prints(
        "T|1 D|1 D|- T|1 D|1 D|2 T|1 D|- D|2 J|L|0|1 C|0|0|=|1|0 J|L|3|2 C|1|0|=|2|0",
        "S|0 S|1|0 S|2|0|1|2 U|0|1|1|2 U|1|1|1|2 U|2|0|1|3 M|L|0|1|2|0 M|L|3|2|2|1|2 R|0|0|- R|1|-|-",
        "R|0|0|- R|1|-|-",
    );
    // 17 by 17 rows are no longer joined by a product.
    let tables = format!("T|1 {0}T|1 {0}T|1 {0}", (0..17).map(|row| format!("D|{row} ")).collect::<String>());
    let print = print_report(&text(&[&tables, joins, "P|0|2 P|3|1"].join(" ")));
    assert!(String::from_utf8(print).unwrap().contains("\nM\tI\t0\t2\t17\t2\nM\tI\t3\t1\t17\t0\t1\nR\t0\t0\t0\n"));
}

/// A chain is of one table's set.
#[test]
fn chains_of_one_set() {
    prints(
        "T|1 D|1 T|1 D|1 T|1 D|9 J|L|0|1 C|0|0|=|1|0 J|L|3|2 C|0|0|=|2|0",
        "S|0 S|1|0 S|2|1 U|0|1|0|0 U|1|0|1|0 M|L|0|1|1|0 M|L|3|2|1|1 R|0|0|-",
        "R|0|0|-",
    );
    // Of three links two are in each set; the derived conditions of all sets are numbered together.
    prints(
        "T|1 D|1 D|2 T|1 D|1 T|1 D|1 T|1 D|2 J|L|0|1 C|0|0|=|1|0 J|L|4|2 C|1|0|=|2|0 J|L|5|3 C|1|0|=|3|0",
        "S|0 S|1|0 S|2|0|1|3 S|3|0|2|4 U|0|1|1|0 U|1|1|0|0 U|2|0|1|0 U|3|1|1|0 U|4|1|1|0 \
         M|L|0|1|2|0 M|L|4|2|2|1|3 M|L|5|3|2|2|4 R|0|0|0|- R|1|-|-|-",
        "R|0|0|0|- R|1|-|-|-",
    );
}

/// By lower table, its column, higher table, its column, whichever way round the links are written.
#[test]
fn numbers_of_derived_conditions() {
    let tables = "T|2 D|1|5 D|1|6 T|2 D|1|5 T|2 D|5|1 D|5|2 D|6|2";
    for [first, second] in [["C|0|1|=|1|1", "C|1|1|=|2|0"], ["C|1|1|=|0|1", "C|2|0|=|1|1"]] {
        prints(
            &format!("{tables} J|I|0|1 {first} C|1|0|=|0|0 J|I|3|2 {second} C|2|1|=|1|0"),
            "S|0|0|1|2|3|4|5 S|1|0|1|2|3|4|5 S|2|0|1|2|3|4|5 U|0|1|1|0 U|1|2|0|0 U|2|2|1|0 U|3|1|2|0 \
             U|4|2|4|0 U|5|3|3|0 M|I|0|1|1|0|1 M|I|3|2|1|2|3|4|5 R|0|0|0",
            "R|0|0|0",
        );
    }
    // Column 1 of table 0 comes before column 0 of table 1.
    prints(
        "T|2 D|1|1 T|1 D|1 D|2 T|1 D|1 T|2 D|1|1 D|1|2 D|2|3 \
         J|I|0|1 C|0|0|=|1|0 J|I|4|2 C|0|1|=|2|0 J|I|5|3 C|2|0|=|3|0 C|0|0|=|3|1",
        "S|0|0|1|2|3|4|5 S|1|0|1|2|3|4|5 S|2|0|1|2|3|4|5 S|3|0|1|2|3|4|5 U|0|1|1|0 U|1|1|0|0 U|2|2|1|0 U|3|1|2|0 \
         U|4|2|1|0 U|5|2|4|0 M|I|0|1|1|0 M|I|4|2|1|1 M|I|5|3|1|2|3|4|5 R|0|0|0|0",
        "R|0|0|0|0",
    );
    // 0 with 2, 0 with 3, 1 with 3.
    prints(
        "T|1 D|1 T|1 D|1 D|2 D|3 T|1 D|1 D|4 T|1 D|1 D|2 D|3 D|4 D|5 \
         J|I|0|1 C|0|0|=|1|0 J|I|4|2 C|1|0|=|2|0 J|I|5|3 C|2|0|=|3|0",
        "S|0|0|1|2|3|4|5 S|1|0|1|2|3|4|5 S|2|0|1|2|3|4|5 S|3|0|1|2|3|4|5 U|0|1|2|0 U|1|1|5|0 U|2|2|8|0 \
         U|3|1|1|0 U|4|1|4|0 U|5|3|12|0 M|I|0|1|1|0 M|I|4|2|1|1|3 M|I|5|3|1|2|4|5 R|0|0|0|0",
        "R|0|0|0|0",
    );
}

/// The lowest-numbered line that states a derived condition joins the set; another can stay missing.
#[test]
fn lines_that_state_what_follows() {
    prints(
        "T|1 D|1 T|1 D|1 T|1 D|1 J|L|0|1 C|0|0|=|1|0 J|L|3|2 C|0|0|=|2|0 C|1|0|=|0|0",
        "S|0 S|1|0 S|2|0|1|2|3 U|0|1|0|0 U|1|1|0|0 U|2|1|0|0 U|3|1|0|0 M|L|0|1|1|0 M|L|3|2|1|1|3 B|2|2 Z R|0|0|0",
        "R|0|0|0",
    );
    // A chain of one: line 2 says what line 3 says.
    prints(
        "T|2 D|1|1 T|1 D|1 T|1 D|1 T|1 D|1 J|L|0|1 C|0|0|<=|1|0 J|L|4|2 C|0|1|=|2|0 C|0|0|=|1|0 \
         J|L|5|3 C|0|0|=|1|0 C|0|1|=|3|0",
        "S|0 S|1|0 S|2|0|1|2 S|3|0|2|3|4 U|0|1|0|0 U|1|1|0|0 U|2|1|0|0 U|3|1|0|0 U|4|1|0|0 \
         M|L|0|1|1|0 M|L|4|2|1|1 M|L|5|3|1|4 B|2|0|2 B|3|0|2|3 Z R|0|0|0|0",
        "R|0|0|0|0",
    );
    // Either way round.
    prints(
        "T|1 D|1 T|1 D|1 T|1 D|1 J|I|0|1 C|1|0|=|0|0 J|I|3|2 C|2|0|=|1|0 C|2|0|=|0|0 P|0|2 P|3|1",
        "S|0|0|1|2 S|1|0|1|2 S|2|0|1|2 U|0|1|0|0 U|1|1|0|0 U|2|1|0|0 M|I|0|2|1|2 M|I|3|1|1|0|1 R|0|0|0",
        "R|0|0|0",
    );
    // Another operator states nothing.
    prints(
        "T|1 D|1 T|1 D|1 T|1 D|1 J|I|0|1 C|0|0|=|1|0 J|I|3|2 C|1|0|=|2|0 C|0|0|<=|2|0",
        "S|0|0|1|2|3 S|1|0|1|2|3 S|2|0|1|2|3 U|0|1|0|0 U|1|1|0|0 U|2|1|0|0 U|3|1|0|0 \
         M|I|0|1|1|0 M|I|3|2|1|1|2|3 R|0|0|0",
        "R|0|0|0",
    );
}

/// K lines and other operators give no link; a chain may run through two columns of one table.
#[test]
fn what_gives_a_link() {
    prints(
        "T|1 D|5 T|1 D|5 T|1 D|5 J|I|0|1 C|0|0|<=|1|0 K|0|0|=|5 K|1|0|=|5 J|I|3|2 C|1|0|<=|2|0",
        "S|0|0|1|2|3 S|1|0|1|2|3 S|2|0|1|2|3 U|0|1|0|0 U|1|1|0|0 U|2|1|0|0 U|3|1|0|0 \
         M|I|0|1|1|0 M|I|3|2|1|3 B|0|1|2 B|1|1|2 B|2|1|2 Z R|0|0|0",
        "R|0|0|0",
    );
    prints(
        "T|2 D|1|1 D|1|2 T|1 D|1 T|1 D|1 J|I|0|1 C|0|0|=|1|0 C|0|1|=|1|0 J|I|3|2 C|0|1|=|2|0 P|1|2 P|3|0",
        "S|0|0|1|2|3|4 S|1|0|1|2|3|4 S|2|0|1|2|3|4 U|0|2|0|0 U|1|1|1|0 U|2|1|1|0 U|3|2|0|0 U|4|1|0|0 \
         M|I|1|2|1|4 M|I|3|0|1|0|1|2|3 R|0|0|0",
        "R|0|0|0",
    );
}

/// Applied sets are closed after the last pair, by derived conditions that a pair applied too.
#[test]
fn applied_sets_are_closed() {
    prints(
        "T|2 D|1|1 T|2 D|1|1 T|2 D|1|1 T|2 D|1|1 J|L|1|2 C|1|0|=|2|0 J|L|0|4 C|0|0|=|1|0 \
         J|L|5|3 C|1|1|=|3|0 C|2|1|=|3|1 P|0|2 P|4|1 P|5|3",
        "S|0 S|1|1 S|2|0|1|4 S|3|0|1|2|3|4 U|0|1|0|0 U|1|1|0|0 U|2|1|0|0 U|3|1|0|0 U|4|1|0|0 \
         M|L|0|2|1|4 M|L|4|1|1|1 M|L|5|3|1|2|3 B|2|0|1 Z R|0|0|0|0",
        "R|0|0|0|0",
    );
}

#[test]
fn conditions_in_all() {
    let print = String::from_utf8(print_report(&text(&linked_columns("0", 15)))).unwrap().replace('\t', "|");
    let all: String = (0..64).map(|number| format!("|{number}")).collect();
    let counts: String = (0..64).map(|number| format!("U|{number}|1|0|0\n")).collect();
    assert_eq!(print, format!("S|0{all}\nS|1{all}\n{counts}M|I|0|1|1{all}\nR|0|0\n"));
    refused(&linked_columns("0", 16), 13);
    // A line that states a derived condition takes its place in the count.
    let stated = text(&format!("{} C|1|7|=|0|7", linked_columns("0", 15)));
    assert!(print_report(&stated).starts_with(b"S\t0\t0\t1\t2"));
    assert_eq!(print_direct(&stated), b"R\t0\t0\n");
    refused(&format!("{} C|1|7|=|0|7 C|0|7|=|1|7", linked_columns("0", 15)), 13);
    refused(&linked_columns("-", 32), 13);
    refused(&linked_columns("0", 33), 6);
}

/// Question 13 stands behind 7 and before 9, in both runs.
#[test]
fn the_order_of_question_13() {
    let many = linked_columns("0", 16);
    refused(&format!("{many} X"), 2);
    refused(&format!("T|9 {many}"), 3);
    refused(&many.replacen("D|0", "D|0|0", 1), 4);
    refused(&many.replacen("T|8", "T|8|8", 1), 12);
    refused(&many.replacen("J|I|0|1", "J|I|0|0", 1), 5);
    refused(&format!("{many} C|0|8|=|1|0"), 6);
    let third = many.replacen(" J|", " T|1 J|", 1);
    refused(&format!("{third} J|I|3|2 K|2|0|=|1"), 7);
    refused(&format!("{third} J|I|3|2 C|2|0|=|0|0"), 13);
    refused(&format!("{many} P|0|0"), 13);
    refused(&format!("{many} P|0|1 P|0|1"), 13);
    let rows = "D|0|0|0|0|0|0|0|0 ".repeat(17);
    refused(&many.replace("D|0|0|0|0|0|0|0|0 ", &rows), 13);
}
