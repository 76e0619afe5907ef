//! Puts every joining order of reports of eight tables to the proved library. Each order that is not refused by
//! question 11 must give the rows of the direct reading, which are those of this crate's engine too. Where the last
//! join is a full outer join, each must add as many rows as the direct reading has more than that of a left outer join.
//!
//!     trees
//!
//! An order is an unordered binary tree whose leaves are the tables; there are 1 · 3 · 5 · 7 · 9 · 11 · 13 = 135,135.
//! They are made by putting table 1, 2, .. 7 in turn beside each node of the trees before, the root included. A tree
//! has one list of P lines: its nodes from the bottom up, left before right, and left is the side that has the lowest
//! table.
//!
//! Exit status 1: other rows, another count of rows added, another refusal, or another count of orders.

use hashjoin::join_tree::as_left_outer;
use hashjoin::lent::{LEAST, Lent};
use rumbethola::{Engine, Kind};
use std::collections::HashSet;
use std::process::exit;
use std::time::Instant;

const TABLES: usize = 8;
const ORDERS: usize = 135_135;

/// Reports of eight tables without P lines; | stands for a tab.
const REPORTS: [(&str, &str); 6] = [
    ("gaps", GAPS),
    ("an empty table", EMPTY),
    ("products", PRODUCTS),
    ("outer joins undone", UNDONE),
    ("links that follow", LINKS),
    ("both sides kept", BOTH_SIDES),
];

/// Two or three rows a table, with blank cells; inner and outer joins mixed, both sides of a join being joins.
const GAPS: &str = "\
T|2\nD|1|5\nD|2|-\nD|1|6\n\
T|2\nD|1|7\nD|2|8\n\
T|1\nD|7\nD|-\n\
T|2\nD|1|7\nD|-|3\n\
T|2\nD|5|1\nD|6|-\n\
T|2\nD|1|4\nD|-|5\n\
T|1\nD|5\nD|4\n\
T|2\nD|4|2\nD|-|-\n\
J|I|0|1\nC|0|0|=|1|0\n\
J|L|8|2\nC|1|1|=|2|0\n\
J|L|9|3\nC|2|0|<=|3|1\nC|0|0|=|3|0\n\
J|L|4|5\nC|4|1|=|5|0\n\
J|I|11|6\nC|4|0|>=|6|0\n\
J|L|10|12\nC|0|1|=|4|0\nK|4|0|<|9\n\
J|L|13|7\nC|5|1|<>|7|1\nC|1|0|<=|7|1\n";

/// Table 3 has no rows; one to three rows in the others.
const EMPTY: &str = "\
T|2\nD|1|1\nD|2|2\nD|3|-\n\
T|1\nD|1\nD|3\n\
T|2\nD|1|2\nD|2|3\n\
T|1\n\
T|2\nD|2|4\nD|3|5\nD|-|6\n\
T|1\nD|4\n\
T|2\nD|1|1\nD|2|1\n\
T|1\nD|1\nD|-\n\
J|L|0|1\nC|0|0|=|1|0\n\
J|L|2|3\nC|2|0|=|3|0\n\
J|L|8|9\nC|0|1|<=|2|0\n\
J|L|4|5\nC|4|1|=|5|0\n\
J|L|10|11\nC|2|1|=|4|0\n\
J|I|6|7\nC|6|1|=|7|0\n\
J|L|12|13\nC|0|0|=|6|0\nC|4|0|>=|6|0\n";

/// A chain of inner joins with outer joins beside it, so that most pairs of an order have no condition.
const PRODUCTS: &str = "\
T|1\nD|1\nD|2\nD|3\n\
T|1\nD|1\nD|2\n\
T|1\nD|2\nD|3\nD|-\n\
T|1\nD|1\nD|3\n\
T|1\nD|2\n\
T|1\nD|1\nD|2\nD|3\n\
T|1\nD|3\nD|-\n\
T|1\nD|1\nD|2\n\
J|I|0|1\nC|0|0|>=|1|0\n\
J|L|8|2\nC|1|0|=|2|0\n\
J|I|3|4\nC|3|0|<>|4|0\n\
J|L|10|5\nC|4|0|<=|5|0\n\
J|L|11|6\nC|5|0|=|6|0\nC|3|0|<=|6|0\n\
J|L|9|12\nC|0|0|=|3|0\nC|2|0|=|4|0\n\
J|L|13|7\nC|0|0|>|7|0\nC|6|0|>=|7|0\n";

/// A tree that is not simplified: an inner join undoes two outer joins, an outer join a third one, and three stay.
const UNDONE: &str = "\
T|2\nD|1|5\nD|2|6\nD|2|5\n\
T|2\nD|1|7\nD|2|8\nD|2|-\n\
T|1\nD|7\nD|-\n\
T|2\nD|1|4\nD|2|5\n\
T|1\nD|4\n\
T|2\nD|5|2\nD|6|2\nD|5|-\n\
T|1\nD|1\nD|2\n\
T|1\nD|7\nD|9\n\
J|L|0|1\nC|0|0|=|1|0\n\
J|L|8|2\nC|1|1|=|2|0\n\
J|L|3|4\nC|3|1|=|4|0\n\
J|L|9|10\nC|0|0|=|3|0\nC|0|1|>=|4|0\n\
J|L|5|6\nC|5|1|=|6|0\n\
J|I|11|12\nC|0|1|=|5|0\nC|1|0|<=|6|0\n\
J|L|13|7\nC|1|1|<=|7|0\nC|2|0|=|7|0\n";

/// Chains of equalities over all tables, one through two columns of table 3, lines that say the same, and a line that
/// joins sets: 13 lines and 26 derived conditions.
const LINKS: &str = "\
T|2\nD|1|1\nD|2|1\nD|3|2\n\
T|2\nD|1|1\nD|2|2\nD|-|1\n\
T|1\nD|1\nD|3\n\
T|2\nD|1|1\nD|2|2\nD|2|3\n\
T|1\nD|1\nD|2\n\
T|1\nD|1\nD|2\nD|-\n\
T|2\nD|1|2\nD|2|2\n\
T|1\nD|1\nD|4\n\
J|L|0|1\nC|0|0|=|1|0\n\
J|L|8|2\nC|1|0|=|2|0\n\
J|I|3|4\nC|3|0|=|4|0\nC|3|1|=|4|0\n\
J|L|9|10\nC|0|0|=|3|0\nC|2|0|=|1|0\n\
J|L|5|6\nC|5|0|=|6|0\n\
J|L|11|12\nC|1|0|=|5|0\nC|3|0|<=|6|1\nC|1|1|=|0|1\n\
J|L|13|7\nC|6|0|=|7|0\nC|0|0|=|5|0\nC|0|1|=|1|1\n";

/// A full outer join whose two sides are joins, with right outer joins below it and K lines of both sides: rows of both
/// sides have no partner.
const BOTH_SIDES: &str = "\
T|2\nD|1|5\nD|2|6\nD|-|5\n\
T|1\nD|1\nD|4\n\
T|2\nD|1|7\nD|3|8\n\
T|1\nD|7\n\
T|2\nD|5|1\nD|6|2\nD|9|-\n\
T|1\nD|1\nD|3\n\
T|2\nD|5|4\nD|9|4\n\
T|1\nD|4\n\
J|R|0|1\nC|0|0|=|1|0\n\
J|L|2|3\nC|2|1|=|3|0\n\
J|L|8|9\nC|1|0|=|2|0\n\
J|R|5|4\nC|4|1|=|5|0\n\
J|I|6|7\nC|6|1|=|7|0\n\
J|L|11|12\nC|4|0|=|6|0\n\
J|F|10|13\nC|0|1|=|4|0\nK|1|0|<|4\nK|4|0|<>|6\n";

/// A tree: a table, or two trees.
#[derive(Clone)]
enum Tree {
    Table(usize),
    Pair(Box<(Tree, Tree)>),
}

impl Tree {
    fn pair(left: Tree, right: Tree) -> Tree {
        Tree::Pair(Box::new((left, right)))
    }

    /// The trees that have a table more. It is the highest, so it stands on the right of each pair.
    fn each_with(&self, table: usize, take: &mut dyn FnMut(Tree)) {
        take(Tree::pair(self.clone(), Tree::Table(table)));
        if let Tree::Pair(sides) = self {
            let (left, right) = &**sides;
            left.each_with(table, &mut |left| take(Tree::pair(left, right.clone())));
            right.each_with(table, &mut |right| take(Tree::pair(left.clone(), right)));
        }
    }

    /// Appends the pairs from the bottom up and gives the node.
    fn pairs(&self, pairs: &mut Vec<(usize, usize)>) -> usize {
        match self {
            Tree::Table(table) => *table,
            Tree::Pair(sides) => {
                let left = sides.0.pairs(pairs);
                let right = sides.1.pairs(pairs);
                pairs.push((left, right));
                TABLES + pairs.len() - 1
            }
        }
    }
}

/// The pairs of every order.
fn orders() -> Vec<Vec<(usize, usize)>> {
    let mut trees = vec![Tree::Table(0)];
    for table in 1..TABLES {
        let mut more = vec![];
        trees.iter().for_each(|tree| tree.each_with(table, &mut |tree| more.push(tree)));
        trees = more;
    }
    let mut orders: Vec<_> = vec![];
    for tree in trees {
        let mut pairs = vec![];
        tree.pairs(&mut pairs);
        orders.push(pairs);
    }
    orders
}

fn fail(what: &str, text: &[u8]) -> ! {
    println!("{what}:\n{}", String::from_utf8_lossy(text));
    exit(1)
}

/// Puts each order of a report to the library.
fn check(name: &str, report: &str, orders: &[Vec<(usize, usize)>]) {
    let began = Instant::now();
    let query = report.replace('|', "\t").into_bytes();
    let mut engine = Engine::new();
    let Ok(direct) = engine.direct(&query) else { fail("the direct reading refuses", &query) };
    let expected: Vec<u16> = direct.rows().flatten().copied().collect();
    let count = direct.rows().len();
    let mut lent = Lent::marked(LEAST);
    match lent.direct(&query) {
        Ok(rows) if rows.rows == count && lent.result[..expected.len()] == expected[..] => {}
        _ => fail("the two direct readings differ", &query),
    }

    let mut added = None;
    if report.contains("J|F") {
        match lent.direct(&as_left_outer(&query)) {
            Ok(rows) => added = Some(count - rows.rows),
            Err(_) => fail("the direct reading refuses kind L", &query),
        }
    }

    let (mut answered, mut refused, mut kinds, mut most_rows) = (0, 0, [0; 5], 0);
    for order in orders {
        let mut text = query.clone();
        for (left, right) in order {
            text.extend(format!("P\t{left}\t{right}\n").bytes());
        }
        match engine.report(&text) {
            Ok(report) => {
                answered += 1;
                if !report.rows().flatten().eq(&expected) {
                    fail("other rows", &text);
                }
                if report.added() != added {
                    fail("another count of rows added", &text);
                }
                for step in report.steps() {
                    kinds[kind_place(step.kind)] += 1;
                    most_rows = most_rows.max(step.rows);
                }
            }
            Err(by) if by.question == 11 => refused += 1,
            Err(_) => fail("another refusal", &text),
        }
    }
    let of_these = added.map_or(String::new(), |added| format!(", {added} of them added"));
    println!(
        "{name}: {count} rows{of_these}; {answered} orders give them, {refused} are refused by 11, {:.1} s",
        began.elapsed().as_secs_f64()
    );
    println!(
        "    steps: inner {}, outer {}, product {}, blanking {}, best match {}; most rows of a pair {most_rows}",
        kinds[0], kinds[1], kinds[2], kinds[3], kinds[4]
    );
}

fn kind_place(kind: Kind) -> usize {
    match kind {
        Kind::Inner => 0,
        Kind::Outer => 1,
        Kind::Product => 2,
        Kind::Blanking => 3,
        Kind::BestMatch => 4,
    }
}

fn main() {
    let orders = orders();
    let distinct: HashSet<_> = orders.iter().collect();
    println!("{} orders, {} of them distinct", orders.len(), distinct.len());
    if orders.len() != ORDERS || distinct.len() != ORDERS {
        exit(1)
    }
    for (name, report) in REPORTS {
        check(name, report, &orders);
    }
}
