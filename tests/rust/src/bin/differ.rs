//! Puts texts to the proved library and to this crate's engine and compares all that the calls return and leave in
//! lent memory: the status, the answer's numbers (counts, sets, steps, how often each condition is true, false and
//! unknown, and what a full outer join adds), the prints, and every lent buffer.
//!
//!     differ [--seed SEED] [--count COUNT] [--seconds SECONDS]
//!
//! The texts are the fixed ones and then COUNT made by chance from the seed, or as many as there is time for. The
//! buffers begin with numbers made by chance; they are as long as they must be, longer or shorter. The memory behind
//! what is lent is compared too.
//!
//! Exit status 1: a difference, whose text is written to target/differ.in, or a refusal other than 8 and 10 or an
//! outcome of conditions that did not occur, or a kind of key column, of pairs whose conditions are of several joins,
//! of derived conditions, or of right outer and full outer joins, that is rare. Numbers 8 and 10 are not used.

#[path = "differ/counts.rs"]
mod counts;

use counts::{BothSides, Counts, Derived, KeyColumns, NOT_USED, Outcomes, Pairs, three};
use hashjoin::generate::{Random, each_fixed_text, each_random_text};
use hashjoin::lent::{LEAST, Lent};
use hashjoin::{Answer, CONDITIONS, Rows, STEPS, Step, Tally, write_direct, write_report};
use rumbethola::lent as library;
use std::process::exit;
use std::time::{Duration, Instant};

/// How much longer than its least length a buffer may be.
const MORE: usize = 64;
/// Numbers behind the longest lent part.
const BEHIND: usize = 16;
/// Texts made from one seed.
const BATCH: usize = 1000;
/// Where the text of a difference is written.
const FOUND: &str = "target/differ.in";

/// The least lengths: cells, work, result, the answer of the report, that of the direct reading, the output.
const LEASTS: [usize; 6] = [LEAST[0], LEAST[1], LEAST[2], library::ANSWER, library::DIRECT_ANSWER, library::OUT];
/// How many lengths each buffer has when all are tried.
const TRIED: usize = 4;

type Lengths = [usize; 6];

/// Everything that is lent to a call, each with more behind it.
struct Memory {
    lent: Lent,
    answer: Vec<u64>,
    out: Vec<u8>,
}

impl Memory {
    fn new() -> Memory {
        let [cells, work, result, ..] = LEASTS.map(|least| least + MORE + BEHIND);
        Memory {
            lent: Lent::marked([cells, work, result, STEPS]),
            answer: vec![0; library::ANSWER + MORE + BEHIND],
            out: vec![0; library::OUT + MORE + BEHIND],
        }
    }

    fn make_dirty(&mut self, random: &mut Random) {
        for pair in self.lent.cells.chunks_mut(2) {
            let number = random.next_u64();
            pair.iter_mut().zip([number, number >> 32]).for_each(|(cell, bits)| *cell = bits as i32);
        }
        for buffer in [&mut self.lent.work, &mut self.lent.result] {
            for four in buffer.chunks_mut(4) {
                let number = random.next_u64();
                four.iter_mut().zip([0, 16, 32, 48]).for_each(|(place, shift)| *place = (number >> shift) as u16);
            }
        }
        self.answer.iter_mut().for_each(|place| *place = random.next_u64());
        for eight in self.out.chunks_mut(8) {
            let bytes = random.next_u64().to_le_bytes();
            eight.copy_from_slice(&bytes[..eight.len()]);
        }
    }

    fn copy(&mut self, from: &Memory) {
        self.lent.cells.copy_from_slice(&from.lent.cells);
        self.lent.work.copy_from_slice(&from.lent.work);
        self.lent.result.copy_from_slice(&from.lent.result);
        self.answer.copy_from_slice(&from.answer);
        self.out.copy_from_slice(&from.out);
    }

    /// The name of the first buffer that differs.
    fn differs(&self, other: &Memory) -> Option<&'static str> {
        let same = [
            ("cells", self.lent.cells == other.lent.cells),
            ("work", self.lent.work == other.lent.work),
            ("result", self.lent.result == other.lent.result),
            ("answer", self.answer == other.answer),
            ("out", self.out == other.out),
        ];
        same.iter().find(|(_, same)| !same).map(|(name, _)| *name)
    }
}

/// The lent part of each buffer.
macro_rules! parts {
    ($memory:expr, $lengths:expr) => {
        (
            &mut $memory.lent.cells[..$lengths[0]],
            &mut $memory.lent.work[..$lengths[1]],
            &mut $memory.lent.result[..$lengths[2]],
        )
    };
}

struct Differ {
    /// What every call begins with, what it must leave, and what it leaves.
    start: Memory,
    expected: Memory,
    found: Memory,
    random: Random,
    calls: u64,
    report: Counts,
    direct: Counts,
    outcomes: Outcomes,
    key_columns: KeyColumns,
    pairs: Pairs,
    derived: Derived,
    both_sides: BothSides,
}

impl Differ {
    fn new(seed: u64) -> Differ {
        let [start, expected, found] = [(); 3].map(|()| Memory::new());
        let random = Random::new(!seed);
        Differ {
            start,
            expected,
            found,
            random,
            calls: 0,
            report: Counts::default(),
            direct: Counts::default(),
            outcomes: Outcomes::default(),
            key_columns: KeyColumns::default(),
            pairs: Pairs::default(),
            derived: Derived::default(),
            both_sides: BothSides::default(),
        }
    }

    /// The lengths of a call by chance: now and then one is too short.
    fn lengths(&mut self) -> Lengths {
        let random = &mut self.random;
        LEASTS.map(|least| match random.below(64) {
            0 => 0,
            1 => random.below(least),
            2 => least - 1,
            3..32 => least,
            _ => least + random.below(MORE + 1),
        })
    }

    fn compare(&mut self, text: &[u8], lengths: Lengths) {
        self.start.make_dirty(&mut self.random);
        self.compare_report(text, lengths);
        self.compare_direct(text, lengths);
    }

    fn compare_report(&mut self, text: &[u8], lengths: Lengths) {
        let (expected, found) = (&mut self.expected, &mut self.found);
        expected.copy(&self.start);
        let (cells, work, result) = parts!(expected, lengths);
        let steps = &mut expected.lent.steps;
        steps.fill(Step::default());
        let answer = hashjoin::report(text, cells, work, result, steps);
        let mut print = vec![];
        write_report(&answer, steps, result, &mut print);

        found.copy(&self.start);
        let (cells, work, result) = parts!(found, lengths);
        let status = library::report(text, cells, work, result, &mut found.answer[..lengths[3]]);
        self.report.count(status);
        match (&answer, status) {
            (Ok(rows), 0) => {
                self.outcomes.count(text, rows);
                self.key_columns.count(text, true);
                self.pairs.count(text, &expected.lent.steps);
                self.derived.count(text, rows, &expected.lent.steps);
                self.both_sides.count(text, rows, &expected.lent.steps);
            }
            (Err(11), 11) => self.both_sides.count_refusal(text),
            (Err(12), 12) => self.key_columns.count(text, false),
            (Err(13), 13) => self.derived.count_refusal(text),
            _ => (),
        }
        if lengths[3] < library::ANSWER {
            same("report", text, lengths, status == library::NO_ROOM, &self.start, found);
        } else {
            let numbers = report_numbers(&answer, &expected.lent.steps);
            expected.answer[..numbers.len()].copy_from_slice(&numbers);
            same("report", text, lengths, status == answer.err().unwrap_or(0), expected, found);
            expected.answer.copy_from_slice(&self.start.answer);
        }

        found.copy(&self.start);
        let (cells, work, result) = parts!(found, lengths);
        let bytes = library::print_report(text, cells, work, result, &mut found.out[..lengths[5]]);
        same_print("print_report", text, lengths, bytes, &print, &self.start, expected, found);
        self.calls += 2;
    }

    fn compare_direct(&mut self, text: &[u8], lengths: Lengths) {
        let (expected, found) = (&mut self.expected, &mut self.found);
        expected.copy(&self.start);
        let (cells, work, result) = parts!(expected, lengths);
        let answer = hashjoin::direct(text, cells, work, result);
        let mut print = vec![];
        write_direct(&answer, result, &mut print);

        found.copy(&self.start);
        let (cells, work, result) = parts!(found, lengths);
        let status = library::direct(text, cells, work, result, &mut found.answer[..lengths[4]]);
        self.direct.count(status);
        if answer == Err(11) && status == 11 {
            self.both_sides.count_direct_refusal(text);
        }
        if lengths[4] < library::DIRECT_ANSWER {
            same("direct", text, lengths, status == library::NO_ROOM, &self.start, found);
        } else {
            let (rows, tables) = answer.map_or((0, 0), |Rows { rows, tables, .. }| (rows as u64, tables as u64));
            expected.answer[..2].copy_from_slice(&[rows, tables]);
            same("direct", text, lengths, status == answer.err().unwrap_or(0), expected, found);
            expected.answer.copy_from_slice(&self.start.answer);
        }

        found.copy(&self.start);
        let (cells, work, result) = parts!(found, lengths);
        let bytes = library::print_direct(text, cells, work, result, &mut found.out[..lengths[5]]);
        same_print("print_direct", text, lengths, bytes, &print, &self.start, expected, found);
        self.calls += 2;
    }
}

/// The numbers of an answer of the report.
fn report_numbers(answer: &Answer, steps: &[Step]) -> Vec<u64> {
    let (rows, tables, sets) = answer.map_or((0, 0, [0; 8]), |rows| (rows.rows, rows.tables, rows.sets));
    let none = (0, [Tally::default(); CONDITIONS]);
    let (conditions, tallies) = answer.map_or(none, |rows| (rows.conditions, rows.tallies));
    let count = steps.iter().take_while(|step| step.kind != 0).count();
    let mut numbers = vec![rows as u64, tables as u64, count as u64, answer.err().unwrap_or(0).into()];
    numbers.extend(sets);
    for step in &steps[..STEPS] {
        let [first, second, rows] = [step.first, step.second, step.rows].map(u64::from);
        numbers.extend([step.kind.into(), first, second, rows, step.conditions]);
    }
    numbers.push(conditions as u64);
    numbers.extend(tallies.iter().flat_map(three));
    let added = answer.ok().and_then(|rows| rows.added);
    numbers.extend([added.is_some().into(), added.unwrap_or(0) as u64]);
    numbers
}

/// Ends the program where a call returned something else or left something else in lent memory.
fn same(call: &str, text: &[u8], lengths: Lengths, returned: bool, expected: &Memory, found: &Memory) {
    let what = if returned { expected.differs(found) } else { Some("returned number") };
    let Some(what) = what else { return };
    println!("{call} differs in the {what}; lengths {lengths:?}, {} bytes of text in {FOUND}", text.len());
    std::fs::write(FOUND, text).unwrap_or_else(|error| println!("{FOUND}: {error}"));
    exit(1)
}

/// The same of a print.
#[allow(clippy::too_many_arguments)]
fn same_print(
    call: &str,
    text: &[u8],
    lengths: Lengths,
    bytes: u32,
    print: &[u8],
    start: &Memory,
    expected: &mut Memory,
    found: &Memory,
) {
    if lengths[5] < library::OUT {
        return same(call, text, lengths, bytes == library::NO_PRINT, start, found);
    }
    expected.out[..print.len()].copy_from_slice(print);
    same(call, text, lengths, bytes as usize == print.len(), expected, found);
}

/// Lengths short of the least, just as long and longer, each with each.
fn each_lengths(take: &mut dyn FnMut(Lengths)) {
    for choice in 0..TRIED.pow(LEASTS.len() as u32) {
        let mut rest = choice;
        take(LEASTS.map(|least| {
            let length = [0, least - 1, least, least + 1][rest % TRIED];
            rest /= TRIED;
            length
        }));
    }
}

struct Options {
    seed: u64,
    count: usize,
    time: Option<Duration>,
}

fn options() -> Option<Options> {
    let mut options = Options { seed: 1, count: 20_000, time: None };
    let mut arguments = std::env::args().skip(1);
    while let Some(name) = arguments.next() {
        let number: u64 = arguments.next()?.parse().ok()?;
        match name.as_str() {
            "--seed" => options.seed = number,
            "--count" => options.count = number as usize,
            "--seconds" => {
                options.time = Some(Duration::from_secs(number));
                options.count = usize::MAX;
            }
            _ => return None,
        }
    }
    Some(options)
}

fn main() {
    let Some(options) = options() else {
        eprintln!("usage: differ [--seed SEED] [--count COUNT] [--seconds SECONDS]");
        exit(2)
    };
    let began = Instant::now();
    let mut differ = Differ::new(options.seed);
    let (mut fixed, mut chance) = (0, 0);

    each_fixed_text(&mut |text| {
        fixed += 1;
        differ.compare(text, LEASTS);
        let lengths = differ.lengths();
        differ.compare(text, lengths);
    });
    let mut few = vec![];
    each_random_text(options.seed, 1, &mut |text| few.push(text.to_vec()));
    few.push(b"T\t1\nD\t1\n".to_vec());
    few.push(b"T\t0\n".to_vec());
    for text in &few {
        each_lengths(&mut |lengths| differ.compare(text, lengths));
    }

    // The fixed texts have every operator and every kind of key column, derived condition and join, whatever those made
    // by chance have.
    differ.outcomes.begin_chance();
    differ.key_columns.begin_chance();
    differ.pairs = Pairs::default();
    differ.derived = Derived::default();
    differ.both_sides.begin_chance();
    let mut seed = options.seed;
    while chance < options.count && options.time.is_none_or(|time| began.elapsed() < time) {
        let batch = BATCH.min(options.count - chance);
        each_random_text(seed, batch, &mut |text| {
            let lengths = differ.lengths();
            differ.compare(text, lengths);
        });
        chance += batch;
        seed = seed.wrapping_add(1);
    }

    println!("{fixed} fixed texts, {chance} made by chance from seed {} on, {} calls", options.seed, differ.calls);
    differ.report.print("report");
    differ.direct.print("direct");
    differ.outcomes.print();
    differ.key_columns.print();
    differ.pairs.print();
    differ.derived.print();
    differ.both_sides.print();
    println!("no difference, {:.1} s", began.elapsed().as_secs_f64());
    if differ.report.lacks(&NOT_USED) || differ.direct.lacks(&[&NOT_USED[..], &[9]].concat()) {
        println!("a refusal did not occur");
        exit(1)
    }
    if differ.outcomes.lacks() {
        println!("an outcome of conditions did not occur");
        exit(1)
    }
    if differ.key_columns.lacks() {
        println!("a kind of key column is rare");
        exit(1)
    }
    if differ.pairs.lacks() {
        println!("pairs with conditions of several joins are rare");
        exit(1)
    }
    if differ.derived.lacks() {
        println!("a kind of derived conditions is rare");
        exit(1)
    }
    if differ.both_sides.lacks() {
        println!("a kind of right outer or full outer joins is rare");
        exit(1)
    }
}
