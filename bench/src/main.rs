//! Times one report after another: the proved library, the Rust engine and SQLite in memory.
//!
//! `bench FOLDER [--repeat N]` takes every NAME.in of the folder with NAME.load.sql and NAME.query.sql and prints a line for each:
//! best and median time of a call, in microseconds. `bench FOLDER --call NAME WHO` makes one call, for counting instructions.

use std::ffi::{c_char, c_int, c_void, CString};
use std::hint::black_box;
use std::time::Instant;

extern "C" {
    fn rumbethola_report(
        text: *const u8,
        text_length: usize,
        cells: *mut i32,
        cells_length: usize,
        work: *mut u16,
        work_length: usize,
        result: *mut u16,
        result_length: usize,
        answer: *mut u64,
        answer_length: usize,
    ) -> u8;
    fn sqlite3_open(name: *const c_char, base: *mut *mut c_void) -> c_int;
    fn sqlite3_close(base: *mut c_void) -> c_int;
    fn sqlite3_exec(base: *mut c_void, sql: *const c_char, call: *const c_void, data: *mut c_void, error: *mut *mut c_char) -> c_int;
    fn sqlite3_prepare_v2(base: *mut c_void, sql: *const c_char, bytes: c_int, statement: *mut *mut c_void, tail: *mut *const c_char) -> c_int;
    fn sqlite3_step(statement: *mut c_void) -> c_int;
    fn sqlite3_column_int(statement: *mut c_void, column: c_int) -> c_int;
    fn sqlite3_finalize(statement: *mut c_void) -> c_int;
}

const SQLITE_ROW: c_int = 100;

/// The memory that a call is lent.
struct Memory {
    cells: Vec<i32>,
    work: Vec<u16>,
    result: Vec<u16>,
    answer: Vec<u64>,
    steps: Vec<hashjoin::Step>,
}

impl Memory {
    fn new() -> Memory {
        Memory {
            cells: vec![0; 4096],
            work: vec![0; 16384],
            result: vec![0; 2048],
            answer: vec![0; 287],
            steps: vec![hashjoin::Step::default(); 16],
        }
    }

    /// The count of rows by the proved library; a refusal is a negative number.
    fn proved(&mut self, text: &[u8]) -> i64 {
        // SAFETY: all pointers are to live, separate vectors with these lengths.
        let refusal = unsafe {
            rumbethola_report(
                text.as_ptr(),
                text.len(),
                self.cells.as_mut_ptr(),
                self.cells.len(),
                self.work.as_mut_ptr(),
                self.work.len(),
                self.result.as_mut_ptr(),
                self.result.len(),
                self.answer.as_mut_ptr(),
                self.answer.len(),
            )
        };
        if refusal == 0 {
            self.answer[0] as i64
        } else {
            -i64::from(refusal)
        }
    }

    /// The same by the Rust engine.
    fn rust(&mut self, text: &[u8]) -> i64 {
        match hashjoin::report(text, &mut self.cells, &mut self.work, &mut self.result, &mut self.steps) {
            Ok(rows) => rows.rows as i64,
            Err(number) => -i64::from(number),
        }
    }
}

/// A database in memory.
struct Base(*mut c_void);

impl Base {
    fn new() -> Base {
        let mut base = std::ptr::null_mut();
        let name = CString::new(":memory:").unwrap();
        // SAFETY: the name ends with a zero byte and `base` is a place for the handle.
        assert_eq!(unsafe { sqlite3_open(name.as_ptr(), &mut base) }, 0);
        Base(base)
    }

    fn load(&self, sql: &CString) {
        // SAFETY: the handle is open and the text ends with a zero byte.
        let status = unsafe { sqlite3_exec(self.0, sql.as_ptr(), std::ptr::null(), std::ptr::null_mut(), std::ptr::null_mut()) };
        assert_eq!(status, 0);
    }

    /// The count of rows of a query, all of which are fetched.
    fn query(&self, sql: &CString) -> i64 {
        let mut statement = std::ptr::null_mut();
        let mut rows = 0;
        // SAFETY: the handle is open, the text ends with a zero byte, the statement is finalized once.
        unsafe {
            assert_eq!(sqlite3_prepare_v2(self.0, sql.as_ptr(), -1, &mut statement, std::ptr::null_mut()), 0);
            while sqlite3_step(statement) == SQLITE_ROW {
                black_box(sqlite3_column_int(statement, 0));
                rows += 1;
            }
            sqlite3_finalize(statement);
        }
        rows
    }
}

impl Drop for Base {
    fn drop(&mut self) {
        // SAFETY: the handle is open and closed once.
        unsafe { sqlite3_close(self.0) };
    }
}

/// Best and median of so many times, in microseconds.
fn time(repeat: usize, mut call: impl FnMut() -> i64) -> (f64, f64, i64) {
    let mut times = Vec::with_capacity(repeat);
    let mut rows = 0;
    for _ in 0..repeat {
        let start = Instant::now();
        rows = black_box(call());
        times.push(start.elapsed().as_secs_f64() * 1e6);
    }
    times.sort_by(f64::total_cmp);
    (times[0], times[times.len() / 2], rows)
}

fn read(path: &str) -> Vec<u8> {
    std::fs::read(path).unwrap_or_else(|error| panic!("{path}: {error}"))
}

fn main() {
    let words: Vec<String> = std::env::args().skip(1).collect();
    let folder = words.first().expect("bench FOLDER");
    let mut memory = Memory::new();
    if words.get(1).is_some_and(|word| word == "--call") {
        let text = read(&format!("{folder}/{}.in", words[2]));
        match words[3].as_str() {
            "proved" => black_box(memory.proved(&text)),
            "rust" => black_box(memory.rust(&text)),
            _ => 0,
        };
        return;
    }
    let repeat = match words.get(1) {
        Some(_) => words[2].parse().expect("a count"),
        None => 300,
    };
    let mut names: Vec<String> = std::fs::read_dir(folder)
        .expect("the folder")
        .filter_map(|entry| entry.ok()?.file_name().into_string().ok()?.strip_suffix(".in").map(String::from))
        .collect();
    names.sort();
    println!("| report | rows | proved | Rust | SQLite load and query | SQLite query | proved / Rust | SQLite / proved |");
    println!("|---|---|---|---|---|---|---|---|");
    for name in names {
        let text = read(&format!("{folder}/{name}.in"));
        let load = CString::new(read(&format!("{folder}/{name}.load.sql"))).unwrap();
        let query = CString::new(read(&format!("{folder}/{name}.query.sql"))).unwrap();
        let proved = time(repeat, || memory.proved(black_box(&text)));
        let rust = time(repeat, || memory.rust(black_box(&text)));
        assert_eq!(proved.2, rust.2, "{name}: the two engines differ");
        let whole = time(repeat / 10 + 1, || {
            let base = Base::new();
            base.load(&load);
            base.query(&query)
        });
        let base = Base::new();
        base.load(&load);
        let alone = time(repeat / 10 + 1, || base.query(&query));
        assert!(proved.2 < 0 || proved.2 == whole.2, "{name}: SQLite differs");
        println!(
            "| {name} | {} | {:.1} ({:.1}) | {:.1} ({:.1}) | {:.0} ({:.0}) | {:.0} ({:.0}) | {:.2} | {:.1} |",
            if proved.2 < 0 { format!("E {}", -proved.2) } else { proved.2.to_string() },
            proved.0, proved.1, rust.0, rust.1, whole.0, whole.1, alone.0, alone.1,
            proved.1 / rust.1,
            whole.1 / proved.1,
        );
    }
}
