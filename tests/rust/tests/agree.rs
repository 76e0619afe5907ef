//! Generated texts: the plan and the direct reading hand over the same rows (demand 3), every refusal occurs, the lent
//! memory ends as document 01 says, the counts of each condition are those of all pairs looked at one by one, question
//! 12 says what all pairs of a key column's cells say, sets, derived conditions and question 13 are as worked out
//! apart, and the rows are those of the join tree read row by row.

use hashjoin::chains::chains;
use hashjoin::generate::{each_fixed_text, each_random_text};
use hashjoin::join_tree::{Row, as_left_outer, join_tree};
use hashjoin::key_columns::{KeyColumn, key_columns};
use hashjoin::lent::{LEAST, Lent, MARK};
use hashjoin::{Answer, BEST_MATCH, BLANKING, CONDITIONS, NO_ROW, ROWS, Rows, STEPS, Step, TABLES, Tally};

const SEED: u64 = 1;
const COUNT: usize = 40_000;
const QUESTIONS: usize = 13;

#[test]
fn report_and_direct_agree() {
    let mut lent = [(); 2].map(|()| Lent::marked(LEAST.map(|least| least + 3)));
    let mut refused = [[0; QUESTIONS + 1]; 2];
    let mut kinds = [0; BEST_MATCH as usize + 1];
    let (mut only_report, mut only_direct, mut most_rows, mut most_steps) = (0, 0, 0, 0);
    let (mut texts, mut conditions, mut highest) = (0, 0, Tally::default());
    let (mut keyed, mut most_cells) = (0, 0);
    let mut linked = Linked::default();
    let mut kept = Kept::default();
    let mut check = |text: &[u8]| {
        texts += 1;
        lent.iter_mut().for_each(|lent| lent.result.fill(MARK));
        let [of_report, of_direct] = &mut lent;
        let (planned, read) = (of_report.report(text), of_direct.direct(text));
        for (answer, refused) in [planned, read].iter().zip(&mut refused) {
            refused[usize::from(answer.err().unwrap_or(0))] += 1;
        }
        for (answer, lent) in [planned, read].iter().zip([&*of_report, of_direct]) {
            let written = answer.map_or(0, |rows| rows.rows * rows.tables);
            assert!(lent.result[written..].iter().all(|&number| number == MARK));
            assert!(lent.cells.iter().all(|&number| number == 0) && lent.work.iter().all(|&number| number == 0));
        }
        most_steps = most_steps.max(check_steps(&planned, &of_report.steps));
        of_report.steps.iter().for_each(|step| kinds[usize::from(step.kind)] += 1);
        for tally in planned.iter().flat_map(|rows| check_tallies(rows, text)) {
            conditions += 1;
            highest.holds = highest.holds.max(tally.holds);
            highest.fails = highest.fails.max(tally.fails);
            highest.unknown = highest.unknown.max(tally.unknown);
        }
        if let Ok(_) | Err(9 | 11 | 13) = planned {
            linked.check(text, &planned, &of_report.steps);
            assert_eq!(planned == Err(13), read == Err(13), "{}", shown(text));
        }
        if let Ok(_) | Err(11) = read {
            kept.check(text, [&planned, &read], of_direct, &of_report.steps);
        }
        if let Ok(_) | Err(12) = read {
            let columns = key_columns(text);
            assert_eq!(columns.iter().all(KeyColumn::fits), read.is_ok(), "{}", shown(text));
            if read.is_ok() {
                keyed += columns.len();
                most_cells = columns.iter().map(|column| column.cells.len()).fold(most_cells, usize::max);
            }
        }
        match (planned, read) {
            (Ok(planned), Ok(read)) => {
                assert_eq!((planned.rows, planned.tables), (read.rows, read.tables), "{}", shown(text));
                assert_eq!(of_report.result, of_direct.result, "{}", shown(text));
                most_rows = most_rows.max(planned.rows);
            }
            (Ok(_), Err(question)) => {
                assert_eq!(question, 11, "{}", shown(text));
                only_report += 1;
            }
            (Err(question), Ok(_)) => {
                assert!(question == 9 || question == 11, "{}", shown(text));
                only_direct += 1;
            }
            (Err(first), Err(second)) => assert!(first == second || (first, second) == (9, 11), "{}", shown(text)),
        }
    };
    each_fixed_text(&mut check);
    each_random_text(SEED, COUNT, &mut check);
    println!("{texts} texts");
    println!("answered (0) or refused by question: report {:?}", refused[0]);
    println!("                                     direct {:?}", refused[1]);
    println!("answered by report alone {only_report}, by direct alone {only_direct}");
    println!("steps by kind {:?}; most steps {most_steps}, most rows {most_rows}", &kinds[1..]);
    println!("conditions counted {conditions}; most of each {highest:?}");
    println!("key columns of answered texts {keyed}; most cells of one {most_cells}");
    println!("{linked:?}");
    println!("{kept:?}");
    for (question, &count) in refused[0].iter().enumerate() {
        // Numbers 8 and 10 are not used.
        assert_eq!(count == 0, [1, 8, 10].contains(&question), "question {question}");
    }
    assert!(only_report > 0 && only_direct > 0 && most_rows == ROWS && most_steps == STEPS);
    assert!(keyed > texts / 8 && most_cells == ROWS);
    assert!(kinds.iter().all(|&count| count > 0));
    assert!(linked.full > 0 && linked.one_more > 0);
    assert!([linked.derived, linked.several, linked.pairs].iter().all(|&count| count > texts / 50));
    assert!(linked.stated > texts / 200);
    assert!([kept.right_outer, kept.added, kept.none_added, kept.moved].iter().all(|&count| count > texts / 100));
    assert!(kept.longest > 0 && kept.most > 0 && kept.one_more > 0);
    assert!(kept.by_right_side > 16 && kept.by_total > 16);
    let pairs = (ROWS * ROWS) as u32;
    assert_eq!(highest, Tally { holds: pairs, fails: pairs, unknown: pairs });
}

/// What texts have of derived conditions.
#[derive(Debug, Default)]
struct Linked {
    /// Answers with a derived condition that no line states; in which a line joined a set; and in which tables have
    /// different ones.
    derived: usize,
    stated: usize,
    several: usize,
    /// Pairs that are joined by derived conditions alone, which no line states.
    pairs: usize,
    /// Answers with as many conditions as there can be, and refusals of one more.
    full: usize,
    one_more: usize,
}

impl Linked {
    /// A text that is asked 13: its sets and conditions are those that the lines say.
    fn check(&mut self, text: &[u8], answer: &Answer, steps: &[Step]) {
        let chains = chains(text);
        assert_eq!(*answer == Err(13), chains.conditions() > CONDITIONS, "{}", shown(text));
        self.one_more += usize::from(chains.conditions() == CONDITIONS + 1);
        let Ok(rows) = answer else { return };
        assert_eq!(rows.conditions, chains.conditions(), "{}", shown(text));
        let bits = chains.sets.iter().map(|set| set.iter().fold(0, |bits, number| bits | 1 << number));
        assert!(bits.eq(rows.sets[..rows.tables].iter().copied()), "{}", shown(text));
        let blanked = steps.iter().filter(|step| step.kind == BLANKING);
        let blanked = blanked.map(|step| (usize::from(step.first), step.conditions));
        let missing = chains.missing(steps).into_iter().enumerate().filter(|(_, missing)| !missing.is_empty());
        let missing = missing.map(|(table, set)| (table, set.iter().fold(0, |bits, number| bits | 1 << number)));
        assert!(blanked.eq(missing), "{}", shown(text));
        let [stated, derived] = chains.joined();
        self.derived += usize::from(derived);
        self.stated += usize::from(stated);
        self.several += usize::from(chains.of_several_sets());
        self.full += usize::from(rows.conditions == CONDITIONS);
        let alone = |step: &&Step| step.rows > 0 && step.conditions >> chains.written != 0;
        self.pairs += steps.iter().filter(alone).filter(|step| step.conditions % (1 << chains.written) == 0).count();
    }
}

/// What texts have of right outer and full outer joins.
#[derive(Debug, Default)]
struct Kept {
    /// Answers of the report with a right outer join; of full outer joins with rows added, and with none.
    right_outer: usize,
    added: usize,
    none_added: usize,
    /// Of full outer joins: answers in which an added row does not stand behind all others; with as many steps as there
    /// may be; and, with rows added, with as many rows as there may be.
    moved: usize,
    longest: usize,
    most: usize,
    /// Reports that question 11 turns down, and would not with kind L: by the right side's joins, and by the total; of
    /// these with one row more than there may be.
    by_right_side: usize,
    by_total: usize,
    one_more: usize,
}

impl Kept {
    /// A text whose tree is read: the rows, or refusal 11, are those of the join tree read row by row.
    fn check(&mut self, text: &[u8], [planned, read]: [&Answer; 2], of_direct: &Lent, steps: &[Step]) {
        let tree = join_tree(text);
        let rows = tree.rows();
        assert_eq!(rows.is_some(), read.is_ok(), "{}", shown(text));
        if let (Some(rows), Ok(read)) = (&rows, read) {
            let numbers = rows.iter().flatten().map(|number| number.map_or(NO_ROW, |number| number as u16));
            let written = read.rows * read.tables;
            assert!(numbers.eq(of_direct.result[..written].iter().copied()), "{}", shown(text));
            assert_eq!(read.added, None);
        }
        if let Ok(planned) = planned {
            self.right_outer += usize::from(tree.count_of("R") > 0);
            assert_eq!(planned.added.is_some(), tree.full_outer(), "{}", shown(text));
        }
        if !tree.full_outer() {
            return;
        }
        let total = tree.total();
        match planned {
            Ok(planned) => {
                assert!(tree.sides()[1].is_some(), "{}", shown(text));
                assert!(tree.alone().is_none() || planned.added == tree.alone(), "{}", shown(text));
                let added = planned.added.unwrap_or(0);
                *if added > 0 { &mut self.added } else { &mut self.none_added } += 1;
                self.longest += usize::from(steps[STEPS - 1].kind == BEST_MATCH);
                self.most += usize::from(added > 0 && planned.rows == ROWS);
                let alone = |row: &Row| tree.alone_has(row);
                let behind = rows.iter().flatten().skip_while(|row| !alone(row)).all(alone);
                self.moved += usize::from(!behind);
            }
            Err(11) => {
                let mut other = Lent::marked(LEAST);
                let as_left_outer = other.report(&as_left_outer(text));
                match (as_left_outer, tree.sides()[1]) {
                    (Err(question), _) => assert_eq!(question, 11, "{}", shown(text)),
                    (Ok(_), None) => self.by_right_side += 1,
                    (Ok(_), Some(_)) => {
                        assert!(total.is_none_or(|total| total > ROWS), "{}", shown(text));
                        self.by_total += 1;
                        self.one_more += usize::from(total == Some(ROWS + 1));
                    }
                }
            }
            _ => (),
        }
    }
}

/// The counts of an answered text, which must be those of its lines, and nothing behind them.
fn check_tallies<'a>(rows: &'a Rows, text: &[u8]) -> &'a [Tally] {
    let (tallies, none) = rows.tallies.split_at(rows.conditions);
    assert_eq!(tallies, counted(text), "{}", shown(text));
    assert!(none.iter().all(|&tally| tally == Tally::default()));
    tallies
}

/// Each C and K line of an answered text, and behind them each derived condition, put to every pair of rows, or every
/// row.
fn counted(text: &[u8]) -> Vec<Tally> {
    // By table, row and column; a blank cell is None.
    let mut tables: Vec<Vec<Vec<Option<i32>>>> = vec![];
    let mut tallies = vec![];
    for line in std::str::from_utf8(text).unwrap().lines() {
        let (letter, fields) = line.split_once('\t').unwrap();
        let fields: Vec<&str> = fields.split('\t').collect();
        let column = |tables: &[Vec<Vec<_>>], at: usize| -> Vec<Option<i32>> {
            let [table, column] = [at, at + 1].map(|at| fields[at].parse::<usize>().unwrap());
            tables[table].iter().map(|row| row[column]).collect()
        };
        let against = match letter {
            "T" => {
                tables.push(vec![]);
                continue;
            }
            "D" => {
                tables.last_mut().unwrap().push(fields.iter().map(|field| field.parse().ok()).collect());
                continue;
            }
            "C" => column(&tables, 3),
            "K" => vec![fields[3].parse().ok()],
            _ => continue,
        };
        tallies.push(tally(&column(&tables, 0), fields[2], &against));
    }
    let column = |(table, column): (usize, usize)| -> Vec<Option<i32>> {
        tables[table].iter().map(|row: &Vec<_>| row[column]).collect()
    };
    tallies.extend(chains(text).derived.iter().map(|&(one, other)| tally(&column(one), "=", &column(other))));
    tallies
}

/// How often the operator is true, false and unknown of a first and a second cell.
fn tally(first: &[Option<i32>], operator: &str, second: &[Option<i32>]) -> Tally {
    let mut tally = Tally::default();
    for first in first {
        for second in second {
            let (Some(first), Some(second)) = (first, second) else {
                tally.unknown += 1;
                continue;
            };
            let holds = match operator {
                "<" => first < second,
                "=" => first == second,
                "<=" => first <= second,
                ">" => first > second,
                "<>" => first != second,
                _ => first >= second,
            };
            *if holds { &mut tally.holds } else { &mut tally.fails } += 1;
        }
    }
    tally
}

/// A plan and then zero steps; after a refusal zero steps only. Gives the plan's length.
fn check_steps(answer: &Answer, steps: &[Step]) -> usize {
    let length = steps.iter().take_while(|step| step.kind != 0).count();
    assert!(steps[length..].iter().all(|&step| step == Step::default()));
    let Ok(rows) = answer else {
        assert_eq!(length, 0);
        return length;
    };
    let blanking = steps.iter().filter(|step| step.kind == BLANKING).count();
    assert!(blanking <= TABLES);
    assert_eq!(length, rows.tables - 1 + blanking + usize::from(blanking > 0));
    assert_eq!(steps[length.max(1) - 1].kind == BEST_MATCH, blanking > 0);
    length
}

fn shown(text: &[u8]) -> String {
    String::from_utf8_lossy(text).replace('\t', "|")
}
