//! What occurred in the texts that are compared, and whether each kind was frequent enough.

use hashjoin::chains::chains;
use hashjoin::generate::OPERATORS;
use hashjoin::join_tree::{as_left_outer, join_tree};
use hashjoin::key_columns::key_columns;
use hashjoin::lent::{LEAST, Lent};
use hashjoin::{BEST_MATCH, BLANKING, CONDITIONS, INNER, OUTER, ROWS, Rows, STEPS, Step, Tally, WRITTEN};
use rumbethola::lent as library;

const QUESTIONS: usize = 13;
/// How often each operator must come out in each way, and how often question 11 must turn a report down for what a full
/// outer join adds; a damaged line has another operator now and then.
const FEWEST: u64 = 16;
/// Each kind of key column, of derived conditions and of outer joins must occur in answers once for so many answers,
/// and each kind of key column in refusals by question 12 once for so many of these; and there must be a refusal by 12,
/// and one by 13, for so many answers. Faults and damage make some of each kind.
const ANSWERS_FOR_A_KIND: u64 = 50;
const REFUSALS_FOR_A_KIND: u64 = 6;
const ANSWERS_FOR_A_REFUSAL: u64 = 100;
/// Each kind of full outer joins must occur in answers once for so many full outer joins.
const FULL_OUTER_FOR_A_KIND: u64 = 8;
/// Numbers that no question has.
pub const NOT_USED: [usize; 2] = [8, 10];

/// How often a call was answered (0), refused by each question, or had no room for its answer.
#[derive(Default)]
pub struct Counts {
    statuses: [u64; QUESTIONS + 1],
    no_room: u64,
}

impl Counts {
    pub fn count(&mut self, status: u8) {
        match status {
            library::NO_ROOM => self.no_room += 1,
            status => self.statuses[usize::from(status)] += 1,
        }
    }

    pub fn print(&self, name: &str) {
        let refused: Vec<String> =
            self.statuses.iter().enumerate().skip(1).map(|(question, count)| format!("{question}: {count}")).collect();
        println!("{name}: answered {}, refused by {}, no room {}", self.statuses[0], refused.join(", "), self.no_room);
    }

    pub fn lacks(&self, but: &[usize]) -> bool {
        self.statuses.iter().enumerate().any(|(status, &count)| count == 0 && !but.contains(&status))
    }
}

/// What the counts of conditions were in answers of the report.
#[derive(Default)]
pub struct Outcomes {
    conditions: u64,
    /// Answers with as many written conditions as there can be, and with as many in all.
    full_written: u64,
    full: u64,
    /// Conditions without a pair of rows; true, false and unknown of some pairs; and true, false or unknown of all
    /// pairs of two tables with as many rows as there can be.
    no_pair: u64,
    mixed: u64,
    all_pairs: [u64; 3],
    /// In C and in K lines of texts made by chance, for each operator: conditions that are true, false and unknown of
    /// some pairs.
    operators: [[[u64; 3]; OPERATORS.len()]; 2],
}

/// The lines of a valid text that are conditions: whether it is a K line, and which operator it has.
fn conditions(text: &[u8]) -> impl Iterator<Item = (usize, usize)> {
    let lines = text.split(|&byte| byte == b'\n').filter(|line| matches!(line.first(), Some(b'C' | b'K')));
    lines.map(|line| {
        let written = line.split(|&byte| byte == b'\t').nth(3);
        let operator = OPERATORS.iter().position(|name| written == Some(name.as_bytes()));
        (usize::from(line[0] == b'K'), operator.expect("an answered text has no other operator"))
    })
}

impl Outcomes {
    /// Forgets what is counted of texts made by chance alone.
    pub fn begin_chance(&mut self) {
        self.operators = Default::default();
    }

    pub fn count(&mut self, text: &[u8], rows: &Rows) {
        self.full_written += u64::from(conditions(text).count() == WRITTEN);
        self.full += u64::from(rows.conditions == CONDITIONS);
        for (tally, (constant, operator)) in rows.tallies[..rows.conditions].iter().zip(conditions(text)) {
            let counts = three(tally);
            for (some, count) in self.operators[constant][operator].iter_mut().zip(counts) {
                *some += u64::from(count > 0);
            }
        }
        for tally in &rows.tallies[..rows.conditions] {
            let counts = three(tally);
            self.conditions += 1;
            self.no_pair += u64::from(counts.iter().all(|&count| count == 0));
            self.mixed += u64::from(counts.iter().all(|&count| count > 0));
            for (all, count) in self.all_pairs.iter_mut().zip(counts) {
                *all += u64::from(count == (ROWS * ROWS) as u64);
            }
        }
    }

    pub fn print(&self) {
        let [holds, fails, unknown] = self.all_pairs;
        println!(
            "conditions: {} in answers, {} answers with {WRITTEN} written, {} with {CONDITIONS} in all; without a pair \
             {}, true, false and unknown {}; of 65536 pairs all true {holds}, all false {fails}, all unknown {unknown}",
            self.conditions, self.full_written, self.full, self.no_pair, self.mixed
        );
        for (letter, operators) in ["C", "K"].iter().zip(&self.operators) {
            let each: Vec<String> = OPERATORS
                .iter()
                .zip(operators)
                .map(|(name, [holds, fails, unknown])| format!("{name} {holds} {fails} {unknown}"))
                .collect();
            println!("{letter} lines made by chance true, false, unknown of some pairs: {}", each.join(", "));
        }
    }

    pub fn lacks(&self) -> bool {
        let rare = self.operators.as_flattened().as_flattened().iter().any(|&count| count < FEWEST);
        let none = [self.full_written, self.full, self.no_pair, self.mixed].contains(&0);
        none || self.all_pairs.contains(&0) || rare
    }
}

/// What the key columns of texts were.
#[derive(Default)]
pub struct KeyColumns {
    /// In answers of the report: of tables with as many rows as there can be.
    full: u64,
    /// Answers of the report to texts made by chance, and their key columns: of tables without rows, with one, and with
    /// more; behind the first column.
    answers: u64,
    answered: [u64; 4],
    /// Texts made by chance that question 12 turned down, and those of their key columns that do not exist, that have a
    /// blank, and that have equal cells.
    refusals: u64,
    refused: [u64; 3],
}

impl KeyColumns {
    /// Forgets what is counted of texts made by chance alone.
    pub fn begin_chance(&mut self) {
        *self = KeyColumns { full: self.full, ..Default::default() };
    }

    /// Counts those of a text that is answered, or that question 12 turns down.
    pub fn count(&mut self, text: &[u8], answered: bool) {
        *if answered { &mut self.answers } else { &mut self.refusals } += 1;
        for column in key_columns(text) {
            let rows = column.cells.len();
            if answered {
                self.full += u64::from(rows == ROWS);
                self.answered[rows.min(2)] += 1;
                self.answered[3] += u64::from(column.number > 0);
            } else {
                let why = [!column.exists(), column.has_blank(), column.has_equal()];
                self.refused.iter_mut().zip(why).for_each(|(count, why)| *count += u64::from(why));
            }
        }
    }

    pub fn print(&self) {
        let ([none, one, more, behind], [missing, blank, equal]) = (self.answered, self.refused);
        println!(
            "key columns made by chance: in {} answers without rows {none}, of one row {one}, of more {more}, behind the \
             first column {behind}; in {} refusals by 12 that do not exist {missing}, with a blank {blank}, with equal \
             cells {equal}; in all answers of {ROWS} rows {}",
            self.answers, self.refusals, self.full
        );
    }

    pub fn lacks(&self) -> bool {
        self.full == 0
            || rare(&self.answered, self.answers, ANSWERS_FOR_A_KIND)
            || rare(&self.refused, self.refusals, REFUSALS_FOR_A_KIND)
            || rare(&[self.refusals], self.answers, ANSWERS_FOR_A_REFUSAL)
    }
}

/// In answers of the report to texts made by chance: pairs whose usable conditions are of several J lines, joined by an
/// inner join, and by an outer join.
#[derive(Default)]
pub struct Pairs {
    inner: u64,
    outer: u64,
}

/// For each condition of a valid text, which J line it stands behind.
fn joins_of_conditions(text: &[u8]) -> Vec<usize> {
    let mut joins = 0;
    let mut of_conditions = vec![];
    for line in text.split(|&byte| byte == b'\n') {
        match line.first() {
            Some(b'J') => joins += 1,
            Some(b'C' | b'K') => of_conditions.push(joins),
            _ => (),
        }
    }
    of_conditions
}

impl Pairs {
    pub fn count(&mut self, text: &[u8], steps: &[Step]) {
        let joins = joins_of_conditions(text);
        for step in steps {
            let mut of_step =
                joins.iter().enumerate().filter(|&(c, _)| step.conditions >> c & 1 == 1).map(|(_, join)| join);
            let first = of_step.next();
            let several = of_step.any(|join| Some(join) != first);
            match step.kind {
                INNER => self.inner += u64::from(several),
                OUTER => self.outer += u64::from(several),
                _ => (),
            }
        }
    }

    pub fn print(&self) {
        println!("pairs made by chance with conditions of several joins: inner {}, outer {}", self.inner, self.outer);
    }

    pub fn lacks(&self) -> bool {
        self.inner < FEWEST || self.outer < FEWEST
    }
}

/// What texts made by chance have of derived conditions.
#[derive(Default)]
pub struct Derived {
    /// Answers of the report; those with a derived condition that no line states, in which a line joined a set, and in
    /// which tables have different ones.
    answers: u64,
    answered: [u64; 3],
    /// Of derived conditions that no line states: pairs that are joined by these alone, and by others too; blanking
    /// steps that have one; and how many are true, false and unknown of some pairs of rows.
    alone: u64,
    beside: u64,
    blanking: u64,
    some: [u64; 3],
    /// Texts that question 13 turned down, and those with one condition more than there may be.
    refusals: u64,
    one_more: u64,
}

impl Derived {
    pub fn count(&mut self, text: &[u8], rows: &Rows, steps: &[Step]) {
        let chains = chains(text);
        let [stated, derived] = chains.joined();
        self.answers += 1;
        let what = [derived, stated, chains.of_several_sets()];
        self.answered.iter_mut().zip(what).for_each(|(count, what)| *count += u64::from(what));
        for step in steps.iter().filter(|step| step.conditions >> chains.written != 0) {
            let written = step.conditions % (1 << chains.written);
            *match (step.kind, written) {
                (BLANKING, _) => &mut self.blanking,
                (_, 0) => &mut self.alone,
                _ => &mut self.beside,
            } += 1;
        }
        for tally in &rows.tallies[chains.written..rows.conditions] {
            self.some.iter_mut().zip(three(tally)).for_each(|(some, count)| *some += u64::from(count > 0));
        }
    }

    pub fn count_refusal(&mut self, text: &[u8]) {
        self.refusals += 1;
        self.one_more += u64::from(chains(text).conditions() == CONDITIONS + 1);
    }

    pub fn print(&self) {
        let ([derived, stated, several], [holds, fails, unknown]) = (self.answered, self.some);
        println!(
            "derived conditions made by chance: in {derived} of {} answers; a line joined a set in {stated}; tables \
             have different ones in {several}; pairs by these alone {}, by others too {}, blanking steps with one {}; true \
             {holds}, false {fails}, unknown {unknown} of some pairs; refusals by 13: {}, of {} conditions {}",
            self.answers,
            self.alone,
            self.beside,
            self.blanking,
            self.refusals,
            CONDITIONS + 1,
            self.one_more
        );
    }

    pub fn lacks(&self) -> bool {
        let steps = [self.alone, self.beside, self.blanking];
        let kinds = [&self.answered[..], &steps, &self.some].concat();
        rare(&kinds, self.answers, ANSWERS_FOR_A_KIND)
            || rare(&[self.refusals], self.answers, ANSWERS_FOR_A_REFUSAL)
            || self.one_more == 0
    }
}

/// What texts have of right outer and full outer joins.
#[derive(Default)]
pub struct BothSides {
    /// In answers of the report: of full outer joins with rows added, as many rows as there can be; and with as many
    /// steps as there can be.
    most_rows: u64,
    most_steps: u64,
    /// Reports that question 11 turned down for one row more than there may be, with those that are added.
    one_more: u64,
    /// Answers of the report to texts made by chance; those with a right outer join, with and without P lines; and
    /// those of a full outer join.
    answers: u64,
    right_outer: [u64; 2],
    full_outer: u64,
    /// Of full outer joins: with no row added, with rows added; with and without P lines; behind best match and behind
    /// a pair; with a left side without rows, and with a right side without; with a right side that is a join; and
    /// those in which an added row does not stand behind all others.
    kinds: [u64; 10],
    /// Reports made by chance that question 11 turned down and would not with kind L: by the right side's joins, by the
    /// total; and direct readings.
    refused: [u64; 3],
}

impl BothSides {
    /// Forgets what is counted of texts made by chance alone.
    pub fn begin_chance(&mut self) {
        let BothSides { most_rows, most_steps, one_more, .. } = *self;
        *self = BothSides { most_rows, most_steps, one_more, ..Default::default() };
    }

    pub fn count(&mut self, text: &[u8], rows: &Rows, steps: &[Step]) {
        let has = |start: &str| text.split(|&byte| byte == b'\n').any(|line| line.starts_with(start.as_bytes()));
        self.answers += 1;
        let ordered = has("P");
        self.right_outer[usize::from(ordered)] += u64::from(has("J\tR"));
        let Some(added) = rows.added else { return };
        self.full_outer += 1;
        self.most_rows += u64::from(added > 0 && rows.rows == ROWS);
        self.most_steps += u64::from(steps[STEPS - 1].kind == BEST_MATCH);
        let tree = join_tree(text);
        let best_match = steps.iter().any(|step| step.kind == BEST_MATCH);
        let [left, right] = tree.sides();
        let moved = tree
            .rows()
            .is_some_and(|rows| rows.iter().skip_while(|row| !tree.alone_has(row)).any(|row| !tree.alone_has(row)));
        let kinds = [
            added == 0,
            added > 0,
            ordered,
            !ordered,
            best_match,
            !best_match,
            left.is_some_and(Vec::is_empty),
            right.is_some_and(Vec::is_empty),
            tree.right_side_is_a_join(),
            moved,
        ];
        self.kinds.iter_mut().zip(kinds).for_each(|(count, kind)| *count += u64::from(kind));
    }

    /// A report that question 11 turned down.
    pub fn count_refusal(&mut self, text: &[u8]) {
        let tree = join_tree(text);
        if !tree.full_outer() || Lent::marked(LEAST).report(&as_left_outer(text)).is_err() {
            return;
        }
        let by_total = tree.sides()[1].is_some();
        self.refused[usize::from(by_total)] += 1;
        self.one_more += u64::from(by_total && tree.total() == Some(ROWS + 1));
    }

    /// A direct reading that question 11 turned down.
    pub fn count_direct_refusal(&mut self, text: &[u8]) {
        let full_outer = join_tree(text).full_outer();
        self.refused[2] += u64::from(full_outer && Lent::marked(LEAST).direct(&as_left_outer(text)).is_ok());
    }

    pub fn print(&self) {
        let [unordered, ordered] = self.right_outer;
        let [none, some, pairs, no_pairs, best_match, no_best_match, left_empty, right_empty, join, moved] = self.kinds;
        let [right_side, total, direct] = self.refused;
        println!(
            "right outer joins made by chance: in {} of {} answers, {ordered} of them with P lines",
            unordered + ordered,
            self.answers
        );
        println!(
            "full outer joins made by chance: in {} of {} answers; no row added {none}, some {some}; with P lines \
             {pairs}, without {no_pairs}; behind best match {best_match}, behind a pair {no_best_match}; without left \
             rows {left_empty}, without right rows {right_empty}; the right side a join {join}; an added row before \
             others {moved}; refused by 11, and not with kind L: for the right side {right_side}, for the total \
             {total}, direct readings {direct}; in all answers of {ROWS} rows {}, of {STEPS} steps {}, refusals of a row \
             more {}",
            self.full_outer, self.answers, self.most_rows, self.most_steps, self.one_more
        );
    }

    pub fn lacks(&self) -> bool {
        [self.most_rows, self.most_steps, self.one_more].contains(&0)
            || rare(&self.right_outer, self.answers, ANSWERS_FOR_A_KIND)
            || rare(&[self.full_outer], self.answers, ANSWERS_FOR_A_KIND)
            || rare(&self.kinds, self.full_outer, FULL_OUTER_FOR_A_KIND)
            || self.refused.iter().any(|&count| count < FEWEST)
    }
}

/// Whether one of the counts is not one for so many of the whole.
fn rare(counts: &[u64], of: u64, many: u64) -> bool {
    counts.iter().any(|&count| count == 0 || many * count < of)
}

pub fn three(tally: &Tally) -> [u64; 3] {
    [tally.holds, tally.fails, tally.unknown].map(u64::from)
}
