//! Rumbethola for Rust: reports joined by inner and outer joins in any joining order.
//!
//! The functions of [`lent`] are the routines of the library over memory that the caller lends. [`Engine`] owns that
//! memory and gives answers as values:
//!
//! ```
//! let mut engine = rumbethola::Engine::new();
//! match engine.report(b"T\t2\nD\t8\t152\nD\t9\t161\n") {
//!     Ok(report) => assert!(report.rows().eq([[0], [1]])),
//!     Err(refused) => panic!("turned down by question {}", refused.question),
//! }
//! ```
//!
//! What is proved: the routines of libcapi.a end, are memory-safe for every slice, and return and leave in all lent
//! memory what the definitions of `crates/capi/specs/Entries.antt` say. What is not proved: this wrapper, and the
//! compiler's steps from the proved program to machine code. The routines ask more of a caller than Rust's types say
//! in one point, the stack: a Rust slice is valid, aligned and not null, and slices that are lent mutably do not
//! overlap, which is all else that `include/rumbethola.h` lists.
//!
//! # Stack
//!
//! A call needs [`STACK`] bytes of the thread's stack, 128 KiB. Each routine takes less than 88 KiB of them; the rest is
//! for this wrapper and to spare. That is measured (`tests/capi/check`), not proved. Where the stack is too small the process is ended, as by any stack overflow.
//!
//! The main thread and the threads of [`std::thread::spawn`] have enough (8 MiB and 2 MiB, where nobody sets
//! `ulimit -s` or `RUST_MIN_STACK` to less). A thread with a stack of a size of its own is given [`STACK`] bytes
//! beside what its other functions take:
//!
//! ```
//! let others = 64 * 1024;
//! let thread = std::thread::Builder::new().stack_size(rumbethola::STACK + others);
//! let count = thread.spawn(|| rumbethola::Engine::new().report(b"T\t1\nD\t5\n").map(|report| report.rows().len()));
//! assert_eq!(count.unwrap().join().unwrap(), Ok(1));
//! ```

use std::fmt;

pub mod lent;

/// The bytes of stack that a call needs.
pub const STACK: usize = 128 * 1024;
/// The most bytes of a text. A longer one is turned down by question 2.
pub const TEXT: usize = 16384;
/// The most tables of a report.
pub const TABLES: usize = 8;
/// The most steps of a plan.
pub const STEPS: usize = 16;
/// The most conditions that a text may write: C and K lines. With more it is turned down by question 6.
pub const WRITTEN: usize = 32;
/// The most conditions of a report, written and derived. With more it is turned down by question 13.
///
/// Condition k below the count of the text's C and K lines is the k-th of these lines, counted from 0. The conditions
/// behind them are derived: each says that two columns of different tables are equal, follows from a chain of `=` C
/// lines in the blanking set of a table, and is stated by no line of the text, from either side. They are numbered by
/// the lower table, then its column, then the higher table, then its column, once for the report.
pub const CONDITIONS: usize = 64;
/// The row number of a table that is blank in a row.
pub const BLANK: u16 = u16::MAX;

/// What a step does, with its number in an answer.
#[derive(Clone, Copy, Debug, PartialEq, Eq)]
pub enum Kind {
    Inner = 1,
    /// The first node is preserved.
    Outer = 2,
    Product = 3,
    Blanking = 4,
    BestMatch = 5,
}

/// One step of a plan. Fields that a kind lacks are 0.
#[derive(Clone, Copy, Debug, PartialEq, Eq)]
pub struct Step {
    pub kind: Kind,
    /// A node, of an outer join the preserved side; of a blanking step its table.
    pub first: u8,
    /// A node.
    pub second: u8,
    /// The rows of a pair's result.
    pub rows: u16,
    /// Bit k is condition k, written or derived ([`CONDITIONS`]).
    pub conditions: u64,
}

/// How often a condition is true, false and unknown, over all pairs of a row of its one table and a row of its other
/// table; of a K line, over the rows of its table. It is unknown where a cell is blank. The three add up to the number
/// of pairs.
#[derive(Clone, Copy, Debug, PartialEq, Eq)]
pub struct Tally {
    pub holds: u32,
    pub fails: u32,
    pub unknown: u32,
}

/// The number of the question that turned a text down, 2 to 13. It is never 1, since an [`Engine`]
/// lends all that question 1 asks for; 8 and 10 are not used.
#[derive(Clone, Copy, Debug, PartialEq, Eq)]
pub struct Refused {
    pub question: u8,
}

impl fmt::Display for Refused {
    fn fmt(&self, to: &mut fmt::Formatter) -> fmt::Result {
        write!(to, "the report was turned down by question {}", self.question)
    }
}

impl std::error::Error for Refused {}

/// The rows of an answer: a number for each table, [`BLANK`] where the table is blank in the row.
#[derive(Clone, Copy, Debug, PartialEq, Eq)]
pub struct Rows<'a> {
    tables: usize,
    numbers: &'a [u16],
}

impl<'a> Rows<'a> {
    pub fn tables(&self) -> usize {
        self.tables
    }

    /// The rows, in the order of the print.
    pub fn rows(&self) -> impl ExactSizeIterator<Item = &'a [u16]> + use<'a> {
        self.numbers.chunks_exact(self.tables)
    }
}

/// The answer of a report.
#[derive(Clone, Debug, PartialEq, Eq)]
pub struct Report<'a> {
    rows: Rows<'a>,
    sets: Vec<u64>,
    tallies: Vec<Tally>,
    steps: Vec<Step>,
    added: Option<usize>,
}

impl<'a> Report<'a> {
    /// Each table's blanking set: bit k is condition k, written or derived ([`CONDITIONS`]).
    pub fn sets(&self) -> &[u64] {
        &self.sets
    }

    /// Of each condition how often it is true, false and unknown: of the text's C and K lines, then of the derived
    /// ones.
    pub fn tallies(&self) -> &[Tally] {
        &self.tallies
    }

    /// The plan.
    pub fn steps(&self) -> &[Step] {
        &self.steps
    }

    /// Where the last J line is a full outer join, kind F, the count of rows that it adds behind the plan: those of its
    /// right side that are in no row of the plan. They are among [`rows`](Report::rows); the adding is no step.
    pub fn added(&self) -> Option<usize> {
        self.added
    }

    pub fn tables(&self) -> usize {
        self.rows.tables
    }

    /// The rows, in the order of the print.
    pub fn rows(&self) -> impl ExactSizeIterator<Item = &'a [u16]> + use<'a> {
        self.rows.rows()
    }
}

/// The engine with memory of its own, for one call after the other.
pub struct Engine {
    cells: Vec<i32>,
    work: Vec<u16>,
    result: Vec<u16>,
    out: Vec<u8>,
}

impl Default for Engine {
    fn default() -> Engine {
        Engine::new()
    }
}

impl Engine {
    pub fn new() -> Engine {
        Engine {
            cells: vec![0; lent::CELLS],
            work: vec![0; lent::WORK],
            result: vec![0; lent::RESULT],
            out: vec![0; lent::OUT],
        }
    }

    /// Plans the text's join tree in its joining order and runs the plan.
    pub fn report(&mut self, text: &[u8]) -> Result<Report<'_>, Refused> {
        let mut answer = [0; lent::ANSWER];
        let status = lent::report(text, &mut self.cells, &mut self.work, &mut self.result, &mut answer);
        let [rows, tables, count, conditions, added] =
            [lent::AT_ROWS, lent::AT_TABLES, lent::AT_COUNT, lent::AT_CONDITIONS, lent::AT_ADDED]
                .map(|place| answer[place] as usize);
        let steps = answer[lent::AT_STEPS..].chunks_exact(lent::STEP_NUMBERS).take(count);
        let tallies = answer[lent::AT_TALLIES..].chunks_exact(lent::TALLY_NUMBERS).take(conditions);
        match status {
            0 => Ok(Report {
                rows: Rows { tables, numbers: &self.result[..rows * tables] },
                sets: answer[lent::AT_SETS..][..tables].to_vec(),
                tallies: tallies.map(tally).collect(),
                steps: steps.map(step).collect(),
                added: (answer[lent::AT_FULL_OUTER] == 1).then_some(added),
            }),
            question => Err(Refused { question }),
        }
    }

    /// Reads the join tree directly, without plan and joining order.
    pub fn direct(&mut self, text: &[u8]) -> Result<Rows<'_>, Refused> {
        let mut answer = [0; lent::DIRECT_ANSWER];
        let status = lent::direct(text, &mut self.cells, &mut self.work, &mut self.result, &mut answer);
        let [rows, tables] = [lent::AT_ROWS, lent::AT_TABLES].map(|place| answer[place] as usize);
        match status {
            0 => Ok(Rows { tables, numbers: &self.result[..rows * tables] }),
            question => Err(Refused { question }),
        }
    }

    /// The whole print of the report. Of a refusal it is one line, E with the number of the question; no other print
    /// of a report begins with E.
    pub fn print_report(&mut self, text: &[u8]) -> &[u8] {
        let bytes = lent::print_report(text, &mut self.cells, &mut self.work, &mut self.result, &mut self.out);
        &self.out[..bytes as usize]
    }

    /// The print of the direct reading: nothing where there is no row. Of a refusal it is one line, E with the number
    /// of the question; no other print begins with E.
    pub fn print_direct(&mut self, text: &[u8]) -> &[u8] {
        let bytes = lent::print_direct(text, &mut self.cells, &mut self.work, &mut self.result, &mut self.out);
        &self.out[..bytes as usize]
    }
}

fn tally(numbers: &[u64]) -> Tally {
    let [holds, fails, unknown] =
        [lent::TALLY_TRUE, lent::TALLY_FALSE, lent::TALLY_UNKNOWN].map(|place| numbers[place] as u32);
    Tally { holds, fails, unknown }
}

fn step(numbers: &[u64]) -> Step {
    let kind = match numbers[lent::STEP_KIND] {
        1 => Kind::Inner,
        2 => Kind::Outer,
        3 => Kind::Product,
        4 => Kind::Blanking,
        _ => Kind::BestMatch,
    };
    let [first, second] = [lent::STEP_FIRST, lent::STEP_SECOND].map(|place| numbers[place] as u8);
    Step { kind, first, second, rows: numbers[lent::STEP_ROWS] as u16, conditions: numbers[lent::STEP_CONDITIONS] }
}
