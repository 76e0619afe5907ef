//! Valid reports.

use super::Random;
use crate::{BLANK, COLUMNS, ROWS, WRITTEN};
use std::fmt::Write;

pub const OPERATORS: [&str; 6] = ["<", "=", "<=", ">", "<>", ">="];
const EQUAL: &str = "=";
/// The kinds of J lines. A full outer join is the last J.
pub const INNER: &str = "I";
pub const LEFT_OUTER: &str = "L";
pub const RIGHT_OUTER: &str = "R";
pub const FULL_OUTER: &str = "F";

#[derive(Clone, Default)]
pub struct Table {
    pub columns: usize,
    pub rows: Vec<Vec<i32>>,
    pub key_column: Option<usize>,
}

#[derive(Clone, Copy)]
pub enum Other {
    Column(usize, usize),
    Constant(i32),
}

#[derive(Clone, Copy)]
pub struct Condition {
    pub table: usize,
    pub column: usize,
    pub operator: &'static str,
    pub other: Other,
}

impl Condition {
    /// The tables that it names.
    fn named(self) -> impl Iterator<Item = usize> {
        let second = match self.other {
            Other::Column(second, _) => Some(second),
            Other::Constant(_) => None,
        };
        [self.table].into_iter().chain(second)
    }

    /// A C line with its two columns exchanged.
    pub fn turned(self) -> Option<Condition> {
        let Other::Column(table, column) = self.other else { return None };
        Some(Condition { table, column, other: Other::Column(self.table, self.column), ..self })
    }
}

#[derive(Clone)]
pub struct Join {
    pub kind: &'static str,
    pub sides: [usize; 2],
    /// The tables of each side that its conditions may name.
    pub named: [Vec<usize>; 2],
    pub conditions: Vec<Condition>,
}

#[derive(Clone, Default)]
pub struct Report {
    pub tables: Vec<Table>,
    pub joins: Vec<Join>,
    pub order: Vec<[usize; 2]>,
}

/// A node of a tree that is being made: its number, its tables, and those in the right side of an outer join.
struct Node {
    number: usize,
    tables: Vec<usize>,
    nullable: Vec<usize>,
}

impl Report {
    /// A report that questions 2 to 7, 9 and 12 let pass, and most often 13.
    pub fn random(random: &mut Random) -> Report {
        if random.one_in(200) {
            return Report::of_many_pairs(random);
        }
        if random.one_in(12) {
            return Report::of_many_links(random);
        }
        if random.one_in(40) {
            return Report::of_a_wide_right_side(random);
        }
        let count = random.pick(&[1, 2, 2, 3, 3, 3, 4, 4, 4, 5, 5, 6, 6, 7, 8]);
        // Many rows go with many values, so that results stay small.
        let (rows, values) = match random.below(6) {
            0 => ([60, 60, 40, 25, 20, 15, 10, 10][count - 1], 40),
            1 => (2, 1),
            _ => ([12, 9, 6, 5, 4, 3, 3, 3][count - 1], 1 + random.below(5)),
        };
        let mut report = Report::default();
        for _ in 0..count {
            report.tables.push(table(rows, values, random));
        }
        report.add_joins(values, random);
        match random.below(8) {
            0 | 1 => (),
            2 => report.order = report.joins.iter().map(|join| join.sides).collect(),
            _ => report.order = order(count, random),
        }
        report
    }

    /// Two tables of up to 256 rows, so that a condition has up to 65,536 pairs. The join asks for equal cells in
    /// column 0, where no two cells of a table are equal, so that its result stays small. It is most often the key
    /// column.
    fn of_many_pairs(random: &mut Random) -> Report {
        let mut report = Report::default();
        for _ in 0..2 {
            let fewer = random.below(ROWS);
            let rows = random.pick(&[ROWS, ROWS, ROWS - 1, fewer]);
            let (values, blanks) = (random.pick(&[1, 2, 300]), random.pick(&[1, 2, 10, 1000]));
            let mut keys: Vec<i32> = (0..rows as i32).collect();
            let mut row = || vec![take(&mut keys, random), cell(values, blanks, random)];
            let rows = (0..rows).map(|_| row()).collect();
            let key_column = random.pick(&[None, Some(0), Some(0), Some(0)]);
            report.tables.push(Table { columns: 2, rows, key_column });
        }
        let equal = Condition { table: 0, column: 0, operator: EQUAL, other: Other::Column(1, 0) };
        let kind = random.pick(&[INNER, LEFT_OUTER, RIGHT_OUTER, FULL_OUTER]);
        let mut join = Join { kind, sides: [0, 1], named: [vec![0], vec![1]], conditions: vec![equal] };
        for _ in 0..1 + random.below(6) {
            let more = report.one_more(&join, 3, random);
            join.conditions.push(more);
        }
        report.joins.push(join);
        if random.one_in(2) {
            report.order = order(2, random);
        }
        report
    }

    /// A full outer join whose right side is a join with about as many rows as there may be. Few of them have a
    /// partner, so that a plan that joins the left side first meets no limit before they are added. Now and then it is
    /// an outer join of another kind.
    fn of_a_wide_right_side(random: &mut Random) -> Report {
        let mut report = Report::default();
        let [left_rows, middle_rows, right_rows] =
            [random.pick(&[0, 1, 2, 5]), 14 + random.below(5), 14 + random.below(5)];
        let unlike = random.pick(&[20, 1000, 1000]);
        let link = |random: &mut Random| i32::from(random.one_in(unlike));
        let left = (0..left_rows as i32).map(|row| vec![row]).collect();
        let middle = (0..middle_rows).map(|_| vec![random.below(30) as i32, link(random)]).collect();
        let right = (0..right_rows).map(|_| vec![link(random)]).collect();
        for (columns, rows) in [(1, left), (2, middle), (1, right)] {
            report.tables.push(Table { columns, rows, key_column: None });
        }
        let equal = |table, column, second, of_second| {
            let other = Other::Column(second, of_second);
            vec![Condition { table, column, operator: EQUAL, other }]
        };
        let kind = random.pick(&[INNER, INNER, LEFT_OUTER, RIGHT_OUTER]);
        let [middle, right] = [vec![1], vec![2]];
        report.joins.push(Join { kind, sides: [1, 2], named: [middle, right], conditions: equal(1, 1, 2, 0) });
        let kind = random.pick(&[FULL_OUTER, FULL_OUTER, FULL_OUTER, LEFT_OUTER, RIGHT_OUTER]);
        let named = [vec![0], vec![1, 2]];
        report.joins.push(Join { kind, sides: [0, 3], named, conditions: equal(0, 0, 1, 0) });
        report.order = random.pick(&[&[][..], &[[0, 1], [3, 2]], &[[0, 1], [3, 2]], &[[2, 1], [3, 0]]]).to_vec();
        report
    }

    /// Up to 32 lines, most of them equalities over the first columns of the tables, so that chains of them link many
    /// columns, two of one table too, and there are about as many conditions in all as there may be. The cells of a row
    /// are most often equal, so that there are rows.
    fn of_many_links(random: &mut Random) -> Report {
        let count = random.pick(&[2, 3, 4, 4, 5, 5, 6, 6, 7, 8]);
        let most_columns = [COLUMNS, 5, 4, 3, 3, 2, 2][count - 2];
        let mut report = Report::default();
        for _ in 0..count {
            let columns = most_columns - random.below(2);
            let row = |random: &mut Random| match (value(2, random), random.one_in(4)) {
                (_, true) => (0..columns).map(|_| cell(2, 8, random)).collect(),
                (number, false) => vec![number; columns],
            };
            let rows = (0..random.pick(&[0, 1, 1, 2, 2, 3])).map(|_| row(random)).collect();
            report.tables.push(Table { columns, rows, key_column: None });
        }
        report.add_joins(2, random);
        let lines = random.pick(&[count + 2, 2 * count, 3 * count, WRITTEN]);
        while report.written() < lines.min(WRITTEN) {
            let at = random.below(report.joins.len());
            let link = Condition { operator: EQUAL, ..report.between(&report.joins[at], random) };
            report.joins[at].conditions.push(link);
        }
        if !random.one_in(4) {
            report.order = order(count, random);
        }
        report
    }

    /// Joins whose conditions name any table under them. Of three outer joins one is a right outer join, and of three
    /// that are the last one is a full outer join. One report of five is made so that its tree is simplified: no join
    /// names a table that an outer join below blanks in a side that it blanks itself.
    fn add_joins(&mut self, values: usize, random: &mut Random) {
        let count = self.tables.len();
        let simplified = random.one_in(5);
        let outer_chances = random.pick(&[1, 2, 2, 2, 4, 100]);
        let aside_chances = random.pick(&[1, 2, 8]);
        let mut asides: Vec<Condition> = vec![];
        let mut roots: Vec<Node> =
            (0..count).map(|table| Node { number: table, tables: vec![table], nullable: vec![] }).collect();
        for number in count..2 * count - 1 {
            let (left, right) = (take(&mut roots, random), take(&mut roots, random));
            let outer = random.one_in(outer_chances);
            let named = |node: &Node, blanked: bool| -> Vec<usize> {
                let without = |table: &usize| !(simplified && blanked && node.nullable.contains(table));
                node.tables.iter().copied().filter(without).collect()
            };
            let named = [named(&left, !outer), named(&right, true)];
            let nullable = [left.nullable, if outer { right.tables.clone() } else { right.nullable }].concat();
            let tables = [&left.tables[..], &right.tables].concat();
            let last = number == 2 * count - 2;
            let kind = match (outer, random.below(3)) {
                (false, _) => INNER,
                (true, 0) => RIGHT_OUTER,
                (true, 1) if last => FULL_OUTER,
                (true, _) => LEFT_OUTER,
            };
            let mut join = Join { kind, sides: [left.number, right.number], named, conditions: vec![] };
            let between = self.between(&join, random);
            join.conditions.push(between);
            while random.one_in(3) {
                let more = self.one_more(&join, values, random);
                let place = random.below(join.conditions.len() + 1);
                join.conditions.insert(place, more);
            }
            if self.written() < WRITTEN / 2 {
                if random.one_in(2) {
                    self.state_again(&mut join, &asides, random);
                }
                let left = &join.named[0];
                if outer && left.len() > 1 && random.one_in(aside_chances) {
                    let aside = Condition { operator: EQUAL, ..self.one_sided(left, random) };
                    join.conditions.push(aside);
                    asides.push(aside);
                }
            }
            if kind == RIGHT_OUTER {
                join.sides.reverse();
                join.named.reverse();
            }
            self.joins.push(join);
            roots.push(Node { number, tables, nullable });
        }
    }

    /// The count of C and K lines.
    fn written(&self) -> usize {
        self.joins.iter().map(|join| join.conditions.len()).sum()
    }

    /// Adds what one of the lines before says to the join: the same line, read from either side, or a chain over a
    /// column of a third table. The lines before are equalities of two tables left of an outer join, so that neither
    /// table has them in its set, and a set that says the same takes them.
    fn state_again(&self, join: &mut Join, before: &[Condition], random: &mut Random) {
        let under = join.named.concat();
        let before: Vec<&Condition> =
            before.iter().filter(|line| line.named().all(|table| under.contains(&table))).collect();
        if before.is_empty() {
            return;
        }
        let line = *random.pick(&before);
        let Some(turned) = line.turned() else { return };
        let third: Vec<usize> = under.into_iter().filter(|&table| line.named().all(|named| named != table)).collect();
        if third.is_empty() || random.one_in(2) {
            return join.conditions.push(random.pick(&[line, turned]));
        }
        let table = random.pick(&third);
        let other = Other::Column(table, random.below(self.tables[table].columns));
        join.conditions.extend([line, turned].map(|line| Condition { other, ..line }));
    }

    /// A condition between the join's sides.
    pub fn between(&self, join: &Join, random: &mut Random) -> Condition {
        let mut sides = [random.pick(&join.named[0]), random.pick(&join.named[1])];
        if random.one_in(2) {
            sides.reverse();
        }
        self.compare(sides[0], sides[1], random)
    }

    /// One more condition of the join, now and then over columns that an earlier one compares, of this join or of one
    /// below it: the same line again, with another operator, with another column of the same table, or read from its
    /// other side.
    fn one_more(&self, join: &Join, values: usize, random: &mut Random) -> Condition {
        if !random.one_in(3) {
            return self.condition(join, values, random);
        }
        let below: Vec<Condition> = self.joins.iter().flat_map(|join| &join.conditions).copied().collect();
        let mut again = random.pick(&join.conditions);
        if !below.is_empty() && random.one_in(2) {
            let other = random.pick(&below);
            if other.named().all(|table| join.named.iter().any(|side| side.contains(&table))) {
                again = other;
            }
        }
        match random.below(6) {
            0 | 1 => again.operator = random.pick(&OPERATORS),
            2 => again.column = random.below(self.tables[again.table].columns),
            _ => (),
        }
        if random.one_in(2) { again.turned().unwrap_or(again) } else { again }
    }

    /// Any condition that the join may have.
    pub fn condition(&self, join: &Join, values: usize, random: &mut Random) -> Condition {
        let side = &join.named[random.below(2)];
        let table = random.pick(side);
        match random.below(4) {
            0 | 1 => self.between(join, random),
            2 if side.len() > 1 => self.one_sided(side, random),
            _ => self.constant(table, value(values, random), random),
        }
    }

    /// A condition between two of the tables.
    pub fn one_sided(&self, tables: &[usize], random: &mut Random) -> Condition {
        let first = random.below(tables.len());
        let second = (first + 1 + random.below(tables.len() - 1)) % tables.len();
        self.compare(tables[first], tables[second], random)
    }

    pub fn constant(&self, table: usize, number: i32, random: &mut Random) -> Condition {
        let column = random.below(self.tables[table].columns);
        Condition { table, column, operator: random.pick(&OPERATORS), other: Other::Constant(number) }
    }

    fn compare(&self, first: usize, second: usize, random: &mut Random) -> Condition {
        // Most often the first column, so that conditions share columns.
        let mut column = |table: usize| {
            let column = random.below(self.tables[table].columns);
            if random.one_in(2) { 0 } else { column }
        };
        let (column, other) = (column(first), Other::Column(second, column(second)));
        let operator = if random.one_in(3) { random.pick(&OPERATORS) } else { EQUAL };
        Condition { table: first, column, operator, other }
    }

    pub fn text(&self) -> Vec<u8> {
        let mut text = String::new();
        for table in &self.tables {
            match table.key_column {
                None => line(&mut text, format_args!("T\t{}", table.columns)),
                Some(column) => line(&mut text, format_args!("T\t{}\t{column}", table.columns)),
            }
            for row in &table.rows {
                text.push('D');
                for &cell in row {
                    match cell {
                        BLANK => text.push_str("\t-"),
                        cell => write!(text, "\t{cell}").unwrap(),
                    }
                }
                text.push('\n');
            }
        }
        for join in &self.joins {
            line(&mut text, format_args!("J\t{}\t{}\t{}", join.kind, join.sides[0], join.sides[1]));
            for Condition { table, column, operator, other } in &join.conditions {
                match other {
                    Other::Column(second, of_second) => {
                        line(&mut text, format_args!("C\t{table}\t{column}\t{operator}\t{second}\t{of_second}"));
                    }
                    Other::Constant(number) => {
                        line(&mut text, format_args!("K\t{table}\t{column}\t{operator}\t{number}"));
                    }
                }
            }
        }
        for pair in &self.order {
            line(&mut text, format_args!("P\t{}\t{}", pair[0], pair[1]));
        }
        text.into_bytes()
    }
}

fn line(text: &mut String, fields: std::fmt::Arguments) {
    text.write_fmt(fields).unwrap();
    text.push('\n');
}

fn take<T>(items: &mut Vec<T>, random: &mut Random) -> T {
    items.swap_remove(random.below(items.len()))
}

fn table(most_rows: usize, values: usize, random: &mut Random) -> Table {
    let columns = if random.one_in(8) { 1 + random.below(8) } else { 1 + random.below(3) };
    let rows = if random.one_in(8) { 0 } else { 1 + random.below(most_rows) };
    let blanks = random.pick(&[4, 10, 1000]);
    let rows = (0..rows).map(|_| (0..columns).map(|_| cell(values, blanks, random)).collect()).collect();
    let mut table = Table { columns, rows, key_column: None };
    if random.one_in(4) {
        make_key_column(&mut table, values, random);
    }
    table
}

/// Makes a column the table's key column: no two cells are equal. They are numbers near the first `values`, which other
/// columns have, and now and then the ends of the range.
fn make_key_column(table: &mut Table, values: usize, random: &mut Random) {
    let column = random.below(table.columns);
    let mut numbers: Vec<i32> = (0..(table.rows.len() + values) as i32).collect();
    if random.one_in(4) {
        numbers.extend([-i32::MAX, i32::MAX]);
    }
    for row in &mut table.rows {
        row[column] = take(&mut numbers, random);
    }
    table.key_column = Some(column);
}

/// A cell; one in `blanks` is blank.
fn cell(values: usize, blanks: usize, random: &mut Random) -> i32 {
    if random.one_in(blanks) { BLANK } else { value(values, random) }
}

/// A cell that is not blank, most often one of the first `values` numbers.
fn value(values: usize, random: &mut Random) -> i32 {
    match random.below(40) {
        0 => -i32::MAX,
        1 => i32::MAX,
        2 => -1,
        3 => random.next_u64() as i32 | 1,
        _ => random.below(values) as i32,
    }
}

/// A tree of pairs over the tables.
fn order(tables: usize, random: &mut Random) -> Vec<[usize; 2]> {
    let mut roots: Vec<usize> = (0..tables).collect();
    let mut pairs = vec![];
    for node in tables..2 * tables - 1 {
        pairs.push([take(&mut roots, random), take(&mut roots, random)]);
        roots.push(node);
    }
    pairs
}
