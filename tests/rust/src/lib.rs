//! Reports of document 01 joined by hash joins, with the requests of document 02 that have landed: the engine as one
//! writes it without proofs.
//!
//! It shares nothing with the proved engine but the documents, so that the two can be compared, and is what the
//! proved engine's speed is measured against. All memory is lent by the caller.

pub mod chains;
mod execute;
pub mod generate;
pub mod join_tree;
pub mod key_columns;
pub mod lent;
mod links;
mod plan;
mod print;
mod tally;
mod text;

pub use print::{print_direct, print_report, write_direct, write_report};
pub use tally::Tally;

use execute::Executor;
use plan::Tree;
use tally::tallies;
use text::Query;

// The limits of questions 3, 6, 13 and 2: the conditions that a text may write, and all with those that are derived.
pub const TABLES: usize = 8;
pub const COLUMNS: usize = 8;
pub const ROWS: usize = 256;
pub const CELLS: usize = 4096;
pub const WRITTEN: usize = 32;
pub const CONDITIONS: usize = 64;
pub const TEXT: usize = 16384;

// The least sizes of the lent buffers, question 1. The cell buffer has at least CELLS numbers.
pub const WORK: usize = 16384;
pub const RESULT: usize = 2048;
pub const STEPS: usize = 16;

/// A blank cell.
pub const BLANK: i32 = i32::MIN;
/// The row number of a table that is blank in a row.
pub const NO_ROW: u16 = u16::MAX;

// The kinds of steps.
pub const INNER: u8 = 1;
pub const OUTER: u8 = 2;
pub const PRODUCT: u8 = 3;
pub const BLANKING: u8 = 4;
pub const BEST_MATCH: u8 = 5;

/// One step of a plan. Condition number i is bit i. Fields that a kind lacks are 0.
#[repr(C)]
#[derive(Clone, Copy, Debug, Default, PartialEq, Eq)]
pub struct Step {
    pub kind: u8,
    pub first: u16,
    pub second: u16,
    pub rows: u16,
    pub conditions: u64,
}

/// What an answered call hands over beside the numbers in the result buffer.
#[derive(Clone, Copy, Debug, PartialEq, Eq)]
pub struct Rows {
    pub rows: usize,
    pub tables: usize,
    /// Each table's blanking set; all empty for the direct reading.
    pub sets: [u64; TABLES],
    /// The count of conditions, written and derived, and how often each is true, false and unknown; all 0 for the
    /// direct reading.
    pub conditions: usize,
    pub tallies: [Tally; CONDITIONS],
    /// Where the last join is a full outer join, how many rows of its right side were added behind the plan; none for
    /// the direct reading.
    pub added: Option<usize>,
}

/// The rows, or the number of the question that turned the text down.
pub type Answer = Result<Rows, u8>;

/// Plans the report in its joining order and runs the plan.
pub fn report(text: &[u8], cells: &mut [i32], work: &mut [u16], result: &mut [u16], steps: &mut [Step]) -> Answer {
    if short(cells, work, result) || steps.len() < STEPS {
        return Err(1);
    }
    steps.fill(Step::default());
    let answer = run_plan(text, cells, work, result, steps);
    if answer.is_err() {
        steps.fill(Step::default());
    }
    cells.fill(0);
    work.fill(0);
    answer
}

/// Reads the join tree directly.
pub fn direct(text: &[u8], cells: &mut [i32], work: &mut [u16], result: &mut [u16]) -> Answer {
    if short(cells, work, result) {
        return Err(1);
    }
    let answer = run_tree(text, cells, work, result);
    cells.fill(0);
    work.fill(0);
    answer
}

fn short(cells: &[i32], work: &[u16], result: &[u16]) -> bool {
    work.len() < WORK || result.len() < RESULT || cells.len() < CELLS
}

/// The query with its derived conditions, its tree and the sets of the set rule: questions 2 to 7, 12 and 13.
fn accept(text: &[u8], cells: &mut [i32]) -> Result<(Query, Tree, [u64; TABLES]), u8> {
    let mut query = Query::read(text, cells)?;
    let tree = query.join_tree()?;
    let sets = query.blanking_sets(&tree);
    query.derive(&sets)?;
    Ok((query, tree, sets))
}

fn run_plan(text: &[u8], cells: &mut [i32], work: &mut [u16], result: &mut [u16], steps: &mut [Step]) -> Answer {
    let (query, tree, sets) = accept(text, cells)?;
    let order = query.joining_order(&tree)?;
    let sets = sets.map(|set| query.closed(set));
    let length = query.plan(&order, &sets, steps);

    let mut executor = Executor::new(&query, &order, cells, work);
    let mut node = query.tables.len();
    if node == 1 {
        executor.read(&tree, 0)?;
    }
    for step in &mut steps[..length] {
        match step.kind {
            BLANKING => executor.blank(step.first, step.conditions),
            BEST_MATCH => executor.best_match(),
            _ => {
                step.rows = executor.join(node, step)? as u16;
                node += 1;
            }
        }
    }
    let added = if query.full_outer { Some(executor.add_right(&tree)?) } else { None };
    let rows = executor.finish(result);
    let (tables, conditions) = (query.tables.len(), query.conditions.len());
    Ok(Rows { rows, tables, sets, conditions, tallies: tallies(&query, cells), added })
}

fn run_tree(text: &[u8], cells: &mut [i32], work: &mut [u16], result: &mut [u16]) -> Answer {
    let (query, tree, _) = accept(text, cells)?;
    let tables = query.tables.len();
    let mut executor = Executor::new(&query, &tree, cells, work);
    executor.read(&tree, 2 * tables - 2)?;
    let rows = executor.finish(result);
    let tallies = [Tally::default(); CONDITIONS];
    Ok(Rows { rows, tables, sets: [0; TABLES], conditions: 0, tallies, added: None })
}

/// The positions of the bits that are set, rising.
fn bits(mask: impl Into<u64>) -> impl Iterator<Item = usize> {
    let mut rest = mask.into();
    std::iter::from_fn(move || {
        let bit = rest.trailing_zeros() as usize;
        rest &= rest.wrapping_sub(1);
        (bit < 64).then_some(bit)
    })
}
