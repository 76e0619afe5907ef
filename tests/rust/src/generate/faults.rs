//! Faults that turn a valid report into one that questions 2 to 7, 9 and 11 to 13 turn down.

use super::Random;
use super::reports::{Condition, FULL_OUTER, Other, RIGHT_OUTER, Report, Table};
use crate::{BLANK, CELLS, COLUMNS, ROWS, TABLES, WRITTEN};

/// Adds one fault, where the report has a place for it.
pub fn add(report: &mut Report, random: &mut Random) {
    match random.below(10) {
        0 => size(report, random),
        1 => width(report, random),
        2 => tree(report, random),
        3 => condition(report, random),
        4 => no_link(report, random),
        5 => order(report, random),
        6 => key_column(report, random),
        7 => many_links(report, random),
        8 => kind(report, random),
        _ => many_rows(report, random),
    }
}

/// Question 2: a full outer join that is not the last J, or a kind that there is not. Of a lone join, and of the last
/// one, it is most often a fault no longer.
fn kind(report: &mut Report, random: &mut Random) {
    if report.joins.is_empty() {
        return;
    }
    let at = random.below(report.joins.len());
    let other = random.pick(&["f", "r", "O", "FL", "LF", "F ", ""]);
    report.joins[at].kind = random.pick(&[FULL_OUTER, FULL_OUTER, FULL_OUTER, RIGHT_OUTER, other]);
}

/// Question 3.
fn size(report: &mut Report, random: &mut Random) {
    if report.tables.is_empty() {
        return;
    }
    let at = random.below(report.tables.len());
    let table = &mut report.tables[at];
    match random.below(5) {
        0 => report.tables.clear(),
        1 => report.tables.resize(TABLES + 1, Table { columns: 1, ..Table::default() }),
        2 => table.columns = random.pick(&[0, 9, 10, 256, 9999]),
        3 => table.rows.resize(ROWS + 1, vec![0; table.columns]),
        _ => table.rows.push(vec![0; CELLS + 1]),
    }
}

/// Question 4.
fn width(report: &mut Report, random: &mut Random) {
    let rows: Vec<_> = report.tables.iter_mut().flat_map(|table| &mut table.rows).collect();
    if rows.is_empty() {
        return;
    }
    let at = random.below(rows.len());
    let row = rows.into_iter().nth(at).unwrap();
    if row.len() > 1 && random.one_in(2) {
        row.pop();
    } else {
        row.extend(vec![0; 1 + random.below(9)]);
    }
}

/// Question 12: a key column that there is not, or one with a blank or with two equal cells.
fn key_column(report: &mut Report, random: &mut Random) {
    if report.tables.is_empty() {
        return;
    }
    let at = random.below(report.tables.len());
    let Table { columns, rows, key_column } = &mut report.tables[at];
    let column = key_column.unwrap_or_else(|| random.below((*columns).max(1)));
    *key_column = Some(column);
    let last = rows.len().max(1) - 1;
    let [one, other] = if random.one_in(4) { [0, last] } else { [(); 2].map(|()| random.below(last + 1)) };
    let cell = |row: usize| rows.get(row).and_then(|row| row.get(column)).copied();
    let (kind, equal) = (random.below(5), cell(other));
    match (kind, rows.get_mut(one).and_then(|row| row.get_mut(column))) {
        (0 | 1, _) => *key_column = Some(random.pick(&[*columns, *columns + 1, 8, 255, 256, 9999])),
        (2, Some(cell)) => *cell = BLANK,
        (_, Some(cell)) => *cell = equal.unwrap_or(BLANK),
        (_, None) => (),
    }
}

/// Question 5.
fn tree(report: &mut Report, random: &mut Random) {
    if report.joins.is_empty() {
        return;
    }
    let at = random.below(report.joins.len());
    match random.below(4) {
        0 => drop(report.joins.remove(at)),
        1 => report.joins.push(report.joins[at].clone()),
        _ => {
            let node = report.tables.len() + at;
            report.joins[at].sides[random.below(2)] = side(node, random);
        }
    }
}

/// Question 9.
fn order(report: &mut Report, random: &mut Random) {
    if report.order.is_empty() || random.one_in(4) {
        return report.order.push([0, 1]);
    }
    let at = random.below(report.order.len());
    if random.one_in(4) {
        report.order.remove(at);
    } else {
        report.order[at][random.below(2)] = side(report.tables.len() + at, random);
    }
}

/// A side that the join or pair with this node should not have, or that another may have already.
fn side(node: usize, random: &mut Random) -> usize {
    match random.below(4) {
        0 => node,
        1 => random.pick(&[node + 1, 15, 16, 64, 256, 9999]),
        _ => random.below(node.max(1)),
    }
}

/// Question 6.
fn condition(report: &mut Report, random: &mut Random) {
    let tables = report.tables.len();
    if report.joins.is_empty() {
        return;
    }
    let at = random.below(report.joins.len());
    let join = &mut report.joins[at];
    if random.one_in(6) {
        let condition = join.conditions[0];
        return join.conditions.resize(WRITTEN + 1, condition);
    }
    let at = random.below(join.conditions.len());
    let condition = &mut join.conditions[at];
    let table = random.pick(&[tables, 64, 9999, 0, tables.max(1) - 1]);
    let column = random.pick(&[8, 3, 2, 9999]);
    match (random.below(5), &mut condition.other) {
        (0, _) => condition.table = table,
        (1, _) => condition.column = column,
        (2, Other::Column(second, _)) => *second = table,
        (3, Other::Column(_, of_second)) => *of_second = column,
        (_, other) => *other = Other::Column(condition.table, condition.column),
    }
}

/// Question 7: no condition is between the sides.
fn no_link(report: &mut Report, random: &mut Random) {
    if report.joins.is_empty() || report.tables.iter().any(|table| table.columns == 0) {
        return;
    }
    let at = random.below(report.joins.len());
    let side = report.joins[at].named[random.below(2)].clone();
    if side.iter().any(|&table| table >= report.tables.len()) {
        return;
    }
    let condition = if side.len() > 1 && random.one_in(2) {
        report.one_sided(&side, random)
    } else {
        report.constant(side[0], 0, random)
    };
    report.joins[at].conditions.fill(condition);
}

/// Question 13: a join that links all columns of two tables, which get eight, and states some of these links again.
/// With as many links as columns less one, and no other condition in the report, there are just as many conditions in
/// all as there may be.
fn many_links(report: &mut Report, random: &mut Random) {
    if report.joins.is_empty() || report.tables.iter().any(|table| table.columns == 0) {
        return;
    }
    let at = random.below(report.joins.len());
    let sides = [0, 1].map(|side| random.pick(&report.joins[at].named[side]));
    if sides.iter().any(|&table| table >= report.tables.len()) {
        return;
    }
    for table in sides {
        let Table { columns, rows, .. } = &mut report.tables[table];
        if *columns < COLUMNS {
            *columns = COLUMNS;
            rows.iter_mut().for_each(|row| row.resize(COLUMNS, 0));
        }
    }
    let [left, right] = sides;
    let link = |table, column, other| Condition { table, column, operator: "=", other: Other::Column(other, 0) };
    let mut links: Vec<Condition> = (0..COLUMNS).map(|column| link(left, column, right)).collect();
    links.extend((1..COLUMNS).map(|column| link(right, column, left)));
    for _ in 0..random.below(3) {
        links.push(random.pick(&links));
    }
    report.joins[at].conditions = links;
}

/// Question 11: all rows match, so that no column can be a key column. An empty table leaves it to the order whether a
/// result is too long.
fn many_rows(report: &mut Report, random: &mut Random) {
    let rows = 10 + random.below(30);
    for table in &mut report.tables {
        let rows = if random.one_in(8) { 0 } else { rows };
        table.rows = vec![vec![0; table.columns.max(1)]; rows];
        table.key_column = None;
    }
    for condition in report.joins.iter_mut().flat_map(|join| &mut join.conditions) {
        condition.operator = random.pick(&["=", "<=", ">="]);
        if let Other::Constant(number) = &mut condition.other {
            *number = 0;
        }
    }
}
