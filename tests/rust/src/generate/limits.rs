//! Reports at each limit, and one past it.

use super::reports::{Condition, FULL_OUTER, INNER, Join, LEFT_OUTER, OPERATORS, Other, RIGHT_OUTER, Report, Table};
use crate::{BLANK, COLUMNS, ROWS, TABLES, TEXT, WRITTEN};
use std::collections::VecDeque;
use std::ops::Range;

pub fn each(take: &mut dyn FnMut(&[u8])) {
    for report in reports() {
        take(&report.text());
    }
    for length in [TEXT - 1, TEXT, TEXT + 1, TEXT + 2] {
        take(&text_of(length));
    }
    take(b"");
    take(&b"\n".repeat(TEXT + 1));
}

fn reports() -> Vec<Report> {
    let mut reports = vec![];
    for rows in [0, 255, 256, 257] {
        reports.push(chain(vec![constant(1, rows)], true));
        reports.push(chain(vec![constant(1, 1), constant(2, rows)], false));
    }
    for tables in 1..=9 {
        for outer in [false, true] {
            reports.push(chain(vec![counted(1, 3); tables], outer));
        }
    }
    for columns in [1, 7, 8, 9] {
        reports.push(chain(vec![counted(columns, 2); 2], false));
    }
    for conditions in [31, 32, 33, 63, 64, 65, 256, 257, 288] {
        for tables in [2, 3] {
            let mut report = chain(vec![counted(1, 2); tables], true);
            let last = report.joins.last_mut().unwrap();
            let condition = last.conditions[0];
            last.conditions.resize(conditions + 2 - tables, condition);
            reports.push(report);
        }
    }
    reports.extend([(3, 255), (4, 0), (4, 1)].map(|(wide, last)| cells(wide, last)));
    reports.extend(
        [(16, 16), (1, 256), (256, 1), (16, 17), (128, 2), (2, 129), (256, 256)]
            .map(|(left, right)| chain(vec![constant(1, left), constant(1, right)], false)),
    );
    for rest in 0..=2 {
        reports.push(all_but(rest));
    }
    for [first, second, third] in [[16, 16, 0], [16, 16, 1], [16, 17, 0], [17, 17, 1], [4, 8, 8], [4, 8, 9]] {
        reports.extend(three(first, second, third));
    }
    reports.extend(past_a_byte());
    reports.push(longest_plan());
    reports.extend(counted_conditions());
    reports.extend(key_columns());
    reports.extend(linked_columns());
    reports.extend(rows_added());
    reports.extend(wide_right_sides());
    reports.extend(kinds_of_joins());
    reports.extend(full_outer_of_eight());
    reports.extend(full_outer_and_fault());
    reports
}

/// Full outer joins of two tables, with about as many rows as there may be: by pairs, by rows of the left side alone,
/// and by rows of the right side alone, which are added. A right outer join and a left outer join of the same.
fn rows_added() -> Vec<Report> {
    let mut reports = vec![];
    for [both, left, right] in [
        [0, 156, 100],
        [0, 156, 101],
        [0, 200, 100],
        [0, 255, 1],
        [0, 256, 0],
        [0, 256, 1],
        [0, 1, 255],
        [0, 1, 256],
        [0, 0, 256],
        [0, 256, 256],
        [1, 255, 0],
        [1, 0, 255],
        [1, 254, 1],
        [1, 254, 2],
        [15, 15, 16],
        [15, 31, 0],
        [15, 15, 17],
        [16, 0, 0],
        [16, 0, 1],
        [16, 1, 0],
        [0, 0, 0],
    ] {
        let tables = [[left, 2], [right, 3]].map(|[rows, cell]| {
            let cells = [vec![1; both], vec![cell as i32; rows]].concat();
            column(cells)
        });
        for kind in [FULL_OUTER, RIGHT_OUTER, LEFT_OUTER] {
            for sides in [[0, 1], [1, 0]] {
                let mut report = of_kind(chain(tables.to_vec(), true), kind);
                report.joins[0].sides = sides;
                reports.push(report.clone());
                report.order = vec![[1, 0]];
                reports.push(report);
            }
        }
    }
    reports
}

/// The right side is a join with just as many rows as there may be, or more, and few of them have a partner. One order
/// joins the left side first, so that no pair of it has so many.
fn wide_right_sides() -> Vec<Report> {
    let mut reports = vec![];
    for [left, middle, right] in [[1, 16, 16], [0, 16, 16], [1, 15, 17], [1, 16, 17], [0, 16, 17], [1, 17, 17]] {
        let mut rows = vec![vec![0, 5]; middle];
        rows[0][0] = 1;
        let middle = Table { columns: 2, rows, key_column: None };
        let tables = vec![constant(1, left), middle, column(vec![5; right])];
        for below in [INNER, LEFT_OUTER, RIGHT_OUTER] {
            for kind in [FULL_OUTER, RIGHT_OUTER, LEFT_OUTER] {
                for order in [vec![], vec![[0, 1], [3, 2]], vec![[1, 2], [0, 3]]] {
                    let below = Join { kind: below, ..join(false, [1, 2], [1, 2], |table| 2 - table) };
                    let last = Join { kind, ..join(true, [0, 3], [0, 1], |_| 0) };
                    reports.push(Report { tables: tables.clone(), joins: vec![below, last], order });
                }
            }
        }
    }
    reports
}

/// The report with another kind of last join.
fn of_kind(mut report: Report, kind: &'static str) -> Report {
    report.joins.last_mut().expect("a join").kind = kind;
    report
}

/// Three tables, each with rows that have a partner and rows that have none: every kind of both joins, both sequences
/// of the last one's sides, a K line of either side or none, every order.
fn kinds_of_joins() -> Vec<Report> {
    let tables = [[1, 2, BLANK, 3], [2, 1, 4, BLANK], [1, 3, 4, 9]].map(|cells| column(cells.to_vec()));
    let mut reports = vec![];
    for below in [INNER, LEFT_OUTER, RIGHT_OUTER] {
        for kind in [INNER, LEFT_OUTER, RIGHT_OUTER, FULL_OUTER] {
            for sides in [[3, 2], [2, 3]] {
                for named in 0..=3 {
                    for order in [vec![], vec![[0, 1], [3, 2]], vec![[0, 2], [1, 3]], vec![[2, 1], [0, 3]]] {
                        let below = Join { kind: below, ..join(false, [0, 1], [0, 1], |_| 0) };
                        let mut last = Join { kind, ..join(false, sides, [1, 2], |_| 0) };
                        if named < 3 {
                            let other = Other::Constant(3);
                            last.conditions.push(Condition { table: named, column: 0, operator: "<>", other });
                        }
                        reports.push(Report { tables: tables.to_vec(), joins: vec![below, last], order });
                    }
                }
            }
        }
    }
    reports
}

/// A full outer join of eight tables, with one, two, .. seven of them in its right side, inner or outer joins below it;
/// one with as many steps as a plan may have, each side being blanked by a K line; and one with as many conditions as
/// there may be.
fn full_outer_of_eight() -> Vec<Report> {
    let cells = |table: i32| (0..4).map(|row| if row == table % 4 { 10 + table } else { row }).collect();
    let tables: Vec<Table> = (0..8).map(|table| column(cells(table))).collect();
    let by_tables: Vec<[usize; 2]> = (0..7).map(|pair| [if pair == 0 { 0 } else { 7 + pair }, pair + 1]).collect();
    let mut reports = vec![];
    for right in 1..=7 {
        for kind in [INNER, LEFT_OUTER, RIGHT_OUTER] {
            for in_pairs in [false, true] {
                let mut joins = vec![];
                let sides = [0..8 - right, 8 - right..8].map(|tables| join_side(tables, kind, in_pairs, &mut joins));
                joins.push(Join { kind: FULL_OUTER, ..join(true, sides, [7 - right, 8 - right], |_| 0) });
                for order in [vec![], by_tables.clone()] {
                    reports.push(Report { tables: tables.clone(), joins: joins.clone(), order });
                }
            }
        }
    }
    let mut longest = of_kind(longest_plan(), FULL_OUTER);
    longest.joins[5].conditions.push(Condition { table: 1, column: 0, operator: ">", other: Other::Constant(0) });
    reports.extend([longest, of_kind(all_linked(2, COLUMNS, true), FULL_OUTER)]);
    reports
}

/// Joins tables one after the other, or all neighbours before any two joins. Gives the node.
fn join_side(tables: Range<usize>, kind: &'static str, in_pairs: bool, joins: &mut Vec<Join>) -> usize {
    // Each node with one of its tables.
    let mut waiting: VecDeque<[usize; 2]> = tables.map(|table| [table, table]).collect();
    loop {
        let [node, named] = waiting.pop_front().expect("a side has a table");
        let Some([second, of_second]) = waiting.pop_front() else { return node };
        joins.push(Join { kind, ..join(false, [node, second], [named, of_second], |_| 0) });
        let joined = [7 + joins.len(), of_second];
        if in_pairs {
            waiting.push_back(joined);
        } else {
            waiting.push_front(joined);
        }
    }
}

/// A full outer join that is not the last J, beside what each other question turns down.
fn full_outer_and_fault() -> Vec<Report> {
    let mut wrong = chain(vec![counted(1, 2); 3], true);
    wrong.joins[0].kind = FULL_OUTER;
    let mut reports = vec![wrong; 12];
    reports[1].joins[1].kind = FULL_OUTER;
    reports[2].joins[1].kind = RIGHT_OUTER;
    reports[3].tables[1].columns = 9;
    reports[4].tables.clear();
    reports[5].tables[1].rows[0].push(0);
    reports[6].tables[1].key_column = Some(8);
    reports[7].joins[1].sides = [0, 0];
    reports[8].joins[0].conditions[0].column = 8;
    reports[9].joins[0].conditions[0].other = Other::Constant(1);
    reports[10].order = vec![[0, 0]];
    reports[11].tables = vec![constant(1, 17); 3];
    // The last J, beside a fault.
    let last: Vec<Report> = reports.iter().skip(3).cloned().collect();
    reports.extend(last.into_iter().map(|mut report| {
        report.joins[0].kind = RIGHT_OUTER;
        report.joins[1].kind = FULL_OUTER;
        report
    }));
    reports
}

/// Links of columns, so that there are about as many conditions in all as there may be, or far more, of which few or
/// as many as there may be are written.
fn linked_columns() -> Vec<Report> {
    let mut reports = vec![];
    // Without more lines 28, 50, 53, 55, 56, 62, 84 and 112 conditions, of which 7, 18, 18, 19, 14, 17, 21 and 28 are
    // written.
    let groups: [&[usize]; 8] =
        [&[8], &[8, 5, 4, 3, 3], &[8, 6, 4, 3, 2], &[8, 6, 4, 3, 3], &[8, 8], &[8, 8, 4], &[8, 8, 8], &[8, 8, 8, 8]];
    for groups in groups {
        for outer in [false, true] {
            for star in [false, true] {
                let report = linked_in_groups(groups, outer, star);
                reports.extend((0..=15).map(|more| with_more_lines(report.clone(), more)));
            }
        }
    }
    // 64, 48, 54, 90, 112, 252 and 448 conditions, of which 15, 11, 11, 14, 15, 23 and 31 are written.
    for [tables, columns] in [[2, COLUMNS], [3, 4], [4, 3], [5, 3], [8, 2], [8, 3], [8, 4]] {
        for outer in [false, true] {
            let report = all_linked(tables, columns, outer);
            reports.extend((0..=9).map(|more| with_more_lines(report.clone(), more)));
        }
    }
    reports.extend(links_and_fault());
    reports
}

/// Eight tables and groups of so many columns, no group larger than the one before it: the first tables have a column
/// of each. A group is a chain, or all of it is linked to table 0. Two rows match.
fn linked_in_groups(groups: &[usize], outer: bool, star: bool) -> Report {
    let of_table = |table: usize| groups.iter().filter(|&&size| size > table).count();
    let tables = (0..TABLES).map(|table| rows_of_one_number(of_table(table), 2)).collect();
    let mut report = chain(tables, outer);
    for (join, table) in report.joins.iter_mut().zip(1..) {
        let from = if star { 0 } else { table - 1 };
        join.conditions = (0..of_table(table)).map(|column| link([from, column], [table, column])).collect();
    }
    report
}

/// Tables whose columns are all linked: of each pair of neighbours column 0 of the one with all columns of the other.
fn all_linked(tables: usize, columns: usize, outer: bool) -> Report {
    let mut report = chain(vec![rows_of_one_number(columns, 2); tables], outer);
    for (join, table) in report.joins.iter_mut().zip(1..) {
        join.conditions = (0..columns).map(|column| link([table - 1, 0], [table, column])).collect();
    }
    report.joins[0].conditions.extend((1..columns).map(|column| link([1, 0], [0, column])));
    report
}

/// The report with lines that stand in it already, every second read from its other side, in its last join.
fn with_more_lines(mut report: Report, more: usize) -> Report {
    let lines: Vec<Condition> = report.joins.iter().flat_map(|join| &join.conditions).copied().collect();
    let again = lines.iter().cycle().take(more).enumerate();
    let again = again.map(|(at, line)| if at % 2 == 0 { *line } else { line.turned().expect("a link") });
    report.joins.last_mut().expect("a join").conditions.extend(again);
    report
}

/// A condition more than there may be in all, alone and beside what each other question turns down.
fn links_and_fault() -> Vec<Report> {
    let many = with_more_lines(all_linked(2, COLUMNS, true), 1);
    let mut third = many.clone();
    third.tables.push(counted(1, 1));
    third.joins.push(join(true, [3, 2], [0, 2], |_| 0));
    let mut reports = vec![many.clone(), third.clone(), third];
    reports[2].joins[1].conditions[0].other = Other::Constant(1);
    let at = reports.len();
    reports.resize(at + 11, many);
    let more = &mut reports[at..];
    more[0].tables[1].columns = 9;
    more[1].tables.resize(9, counted(1, 0));
    more[2].tables[1].rows[0].push(0);
    more[3].tables[1].key_column = Some(8);
    more[4].joins[0].sides = [0, 0];
    more[5].tables.push(counted(1, 1));
    more[6].joins[0].conditions[0].column = 8;
    let line = more[7].joins[0].conditions[0];
    more[7].joins[0].conditions.resize(WRITTEN + 1, line);
    more[8].order = vec![[0, 0]];
    more[9].order = vec![[0, 1]; 2];
    more[10].tables = vec![constant(8, 17); 2];
    reports
}

/// A table whose rows have their number in every column.
fn rows_of_one_number(columns: usize, rows: usize) -> Table {
    Table { columns, rows: (0..rows as i32).map(|row| vec![row; columns]).collect(), key_column: None }
}

/// An equality of two columns, each with its table before it.
fn link([table, column]: [usize; 2], [second, of_second]: [usize; 2]) -> Condition {
    Condition { table, column, operator: "=", other: Other::Column(second, of_second) }
}

/// Conditions with as many pairs as there can be, with none, with blanks on either side and on both, with cells at the
/// ends of their range, stated twice, and as many as there can be. All six operators at once are true of no pair, so
/// that results stay small.
fn counted_conditions() -> Vec<Report> {
    let ends = [BLANK, -i32::MAX, 1 - i32::MAX, -1, 0, 1, i32::MAX - 1, i32::MAX];
    let some = || column(ends.to_vec());
    let mut reports = vec![];
    for cells in [[1, 1], [1, BLANK], [BLANK, 1], [BLANK, BLANK], [1, 2], [-i32::MAX, i32::MAX]] {
        let [first, second] = cells.map(|cell| column(vec![cell; ROWS]));
        for outer in [false, true] {
            reports.push(compared([first.clone(), second.clone()], outer, OPERATORS.len()));
        }
        for [first, second] in [[first.clone(), some()], [some(), second.clone()], [first, column(vec![])]] {
            reports.push(compared([first, second], true, WRITTEN));
        }
    }
    // `<=` is true of all pairs but one, and `>` of one: counts of 65,535 and 1.
    let mut tables = [1, 3].map(|cell| column(vec![cell; ROWS]));
    tables[0].rows[ROWS - 1] = vec![3];
    tables[1].rows[0] = vec![2];
    reports.push(compared(tables, false, WRITTEN));
    reports.push(compared([some(), some()], false, WRITTEN));
    for constant in ends.into_iter().filter(|&cell| cell != BLANK) {
        for rows in [ends.to_vec(), vec![constant; ROWS], vec![BLANK; ROWS], vec![]] {
            let mut report = compared([column(rows), some()], true, OPERATORS.len());
            let against = |operator| Condition { table: 0, column: 0, operator, other: Other::Constant(constant) };
            report.joins[0].conditions.extend(OPERATORS.map(against));
            report.joins[0].conditions.extend(OPERATORS.map(|operator| Condition { table: 1, ..against(operator) }));
            reports.push(report);
        }
    }
    reports
}

/// Key columns that pass and that question 12 turns down.
fn key_columns() -> Vec<Report> {
    let tables = key_column_numbers().into_iter().chain(key_column_cells());
    let mut reports: Vec<Report> = tables.map(|table| chain(vec![table], false)).collect();
    for (columns, rows) in [(1, 3), (8, 64)] {
        reports.extend(key_columns_of_eight(columns, rows));
    }
    reports.extend(key_column_and_fault());
    reports
}

/// The table with a key column.
fn keyed(table: Table, column: usize) -> Table {
    Table { key_column: Some(column), ..table }
}

/// The first and the last column, and columns that there are not; in the one table column 0 counts the rows, in the
/// other every column.
fn key_column_numbers() -> Vec<Table> {
    let mut tables = vec![];
    for columns in [1, 2, 7, 8, 9] {
        for column in [0, columns - 1, columns, columns + 1, 255, 256, 257, 999, 9999] {
            for rows in [0, 1, 2] {
                let all = (0..rows).map(|row| vec![row as i32; columns]).collect();
                tables.push(keyed(counted(columns, rows), column));
                tables.push(Table { columns, rows: all, key_column: Some(column) });
            }
        }
    }
    tables
}

/// Columns of different numbers, which are alike in their last bits or in the rest after division by 3600; the same
/// with two equal ones or a blank in several places; and the ends of the range of cells, each once and twice.
fn key_column_cells() -> Vec<Table> {
    let mut columns = vec![];
    for step in [1, -1, 1 << 8, 1 << 10, 1 << 16, 1 << 20, 3600, -(1 << 22)] {
        for rows in [2, 3, ROWS - 1, ROWS] {
            let numbers: Vec<i32> = (0..rows as i32).map(|row| row * step).collect();
            let mut with = |at: usize, cell: i32| {
                let mut changed = numbers.clone();
                changed[at] = cell;
                columns.push(changed);
            };
            let [middle, last] = [rows / 2, rows - 1];
            for [from, to] in [[0, 0], [0, 1], [last - 1, last], [0, last], [last, 0], [middle, last], [0, middle]] {
                with(to, numbers[from]);
            }
            [0, middle, last].into_iter().for_each(|at| with(at, BLANK));
        }
    }
    let ends = [-i32::MAX, 1 - i32::MAX, -1, 0, 1, i32::MAX - 1, i32::MAX];
    columns.push(ends.to_vec());
    for cell in ends.into_iter().chain([BLANK]) {
        columns.extend([vec![cell], vec![cell; 2], [&ends[..], &[cell]].concat()]);
    }
    columns.into_iter().map(|cells| keyed(column(cells), 0)).collect()
}

/// Eight tables joined by the column that counts their rows, which is the key column of all of them, of one, or of all
/// but one; the same with two equal cells in that one, the last and the first.
fn key_columns_of_eight(columns: usize, rows: usize) -> Vec<Report> {
    let left = |table| if table == 1 { 0 } else { 6 + table };
    let joins = (1..8).map(|table| join(true, [left(table), table], [0, table], |_| 0)).collect();
    let every = Report { tables: vec![keyed(counted(columns, rows), 0); 8], joins, order: vec![] };
    let mut reports = vec![every.clone()];
    for table in 0..8 {
        let [mut one, mut others] = [(); 2].map(|()| every.clone());
        for at in 0..8 {
            let without = if at == table { &mut others } else { &mut one };
            without.tables[at].key_column = None;
        }
        for report in [every.clone(), one, others] {
            let mut equal = report.clone();
            equal.tables[table].rows[rows - 1][0] = 0;
            reports.extend([report, equal]);
        }
    }
    reports
}

/// Two equal cells in the key column of table 0, alone and beside what each other question turns down.
fn key_column_and_fault() -> Vec<Report> {
    let wrong = keyed(column(vec![1, 1]), 0);
    let mut reports = vec![chain(vec![wrong.clone(), counted(1, 2)], true); 10];
    reports[1].tables[1].columns = 9;
    reports[2].tables.resize(9, wrong.clone());
    reports[3].tables[1].rows[0].push(0);
    reports[4].joins[0].sides = [0, 0];
    reports[5].tables.push(wrong);
    reports[6].joins[0].conditions[0].column = 1;
    reports[7].joins[0].conditions[0].other = Other::Constant(1);
    reports[8].order = vec![[0, 0]];
    reports[9].tables[1] = constant(1, 129);
    reports
}

/// A table of one column.
fn column(cells: Vec<i32>) -> Table {
    Table { columns: 1, rows: cells.into_iter().map(|cell| vec![cell]).collect(), key_column: None }
}

/// Two tables of one column, compared by each operator in turn, every second round from table 1's side.
fn compared(tables: [Table; 2], outer: bool, conditions: usize) -> Report {
    let mut report = chain(tables.to_vec(), outer);
    let compare = |number: usize| {
        let table = number / OPERATORS.len() % 2;
        let other = Other::Column(1 - table, 0);
        Condition { table, column: 0, operator: OPERATORS[number % OPERATORS.len()], other }
    };
    report.joins[0].conditions = (0..conditions).map(compare).collect();
    report
}

/// Counts that a byte cannot hold, each beside one that would be right.
fn past_a_byte() -> Vec<Report> {
    let mut reports = vec![];
    let two = || chain(vec![counted(1, 2); 2], false);
    reports.push(Report { tables: vec![counted(1, 0); 256 + 2], ..two() });
    reports.push(chain(vec![counted(257, 1); 2], false));
    reports.push(chain(vec![constant(1, 512 + 3)], false));
    reports.push(Report { joins: vec![two().joins[0].clone(); 256 + 1], ..two() });
    reports.push(Report { order: vec![[0, 1]; 256 + 1], ..two() });
    for cells in [9, 257, 4096, 8170] {
        let mut report = two();
        report.tables[0].rows = vec![vec![0; cells]];
        reports.push(report);
    }
    for node in [255, 256, 258] {
        reports.push(Report { order: vec![[node, 1]], ..two() });
        let mut report = two();
        report.joins[0].sides[0] = node;
        reports.push(report);
        let mut report = two();
        report.joins[0].conditions[0].table = node;
        reports.push(report);
        let mut report = two();
        report.joins[0].conditions[0].column = node;
        reports.push(report);
    }
    reports
}

/// Eight tables whose plan has sixteen steps: a K line of the last inner join blanks every table.
fn longest_plan() -> Report {
    let mut report = chain(vec![counted(1, 3); 8], false);
    let constant = Condition { table: 0, column: 0, operator: ">", other: Other::Constant(0) };
    report.joins.last_mut().unwrap().conditions.push(constant);
    report
}

/// A table whose column 0 counts the rows.
fn counted(columns: usize, rows: usize) -> Table {
    let row = |number| (0..columns).map(|column| if column == 0 { number as i32 } else { 1 }).collect();
    Table { columns, rows: (0..rows).map(row).collect(), key_column: None }
}

/// A table whose cells are all equal.
fn constant(columns: usize, rows: usize) -> Table {
    Table { columns, rows: vec![vec![1; columns]; rows], key_column: None }
}

/// The tables joined one after the other, each to the one before it by its last column.
fn chain(tables: Vec<Table>, outer: bool) -> Report {
    let count = tables.len();
    let joins = (1..count).map(|table| {
        let left = if table == 1 { 0 } else { count + table - 2 };
        join(outer, [left, table], [table - 1, table], |table| tables[table].columns - 1)
    });
    let joins = joins.collect();
    Report { tables, joins, order: vec![] }
}

/// A join by one equality of a column of each of two tables.
fn join(outer: bool, sides: [usize; 2], [first, second]: [usize; 2], column: impl Fn(usize) -> usize) -> Join {
    let other = Other::Column(second, column(second));
    let condition = Condition { table: first, column: column(first), operator: "=", other };
    let kind = if outer { LEFT_OUTER } else { INNER };
    Join { kind, sides, named: Default::default(), conditions: vec![condition] }
}

/// Eight tables of 3072 + 256 * `wide` + `last` cells, each joined to the first by its row number.
fn cells(wide: usize, last: usize) -> Report {
    let mut tables = vec![counted(8, 64); 6];
    tables.extend([counted(wide, 256), counted(1, last)]);
    let left = |table| if table == 1 { 0 } else { 6 + table };
    let joins = (1..8).map(|table| join(true, [left(table), table], [0, table], |_| 0)).collect();
    Report { tables, joins, order: vec![] }
}

/// An outer join of 256 pairs of rows, and so many left rows without a partner.
fn all_but(rest: usize) -> Report {
    let mut report = chain(vec![constant(1, 16), constant(1, 16)], true);
    report.tables[0].rows.extend(vec![vec![2]; rest]);
    report
}

/// Three tables whose rows all match: every join kind, every order.
fn three(first: usize, second: usize, third: usize) -> Vec<Report> {
    let tables = vec![constant(1, first), constant(1, second), constant(1, third)];
    let mut reports = vec![];
    for outer in [false, true] {
        for order in [vec![], vec![[0, 1], [3, 2]], vec![[0, 2], [1, 3]], vec![[1, 2], [0, 3]]] {
            reports.push(Report { order, ..chain(tables.clone(), outer) });
        }
    }
    reports
}

/// A text of so many bytes: a table of 256 rows whose cells are as long as that takes.
fn text_of(length: usize) -> Vec<u8> {
    let mut report = chain(vec![constant(8, 256)], false);
    let mut missing = length - report.text().len();
    for cell in report.tables[0].rows.iter_mut().flatten() {
        let digits = missing.min(8);
        *cell *= 10_i32.pow(digits as u32);
        missing -= digits;
    }
    report.text()
}
