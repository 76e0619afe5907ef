//! Prints the counts of a report's conditions, the count of rows that a full outer join adds, and its rows through the
//! wrapper, or, with --print, its whole print:
//!
//!     rows [--print] FILE
//!
//! To build and run it, at the top of the repository:
//!
//!     tests/capi/build-library
//!     cargo run --release --manifest-path examples/rust/Cargo.toml -- samples/week.in
//!
//! All are written as in the print: U and, behind a tab each, a condition and how often it is true, false and unknown,
//! first for the C and K lines and then for the derived conditions; where the last J line is a full outer join, F and,
//! behind a tab, how many rows it adds; R and, for each table, a row number or - behind a tab.
//!
//! Exit status 0: an answer was printed. 1: the text was refused, and E with the number was printed. 2: the arguments
//! are wrong, the file could not be read, or the print could not be written; one line on standard error says which.

use rumbethola::{BLANK, Engine, TEXT};
use std::ffi::{OsStr, OsString};
use std::fs::File;
use std::io::{Read, Result, Write, stderr, stdout};
use std::process::ExitCode;

const REFUSED: u8 = 1;
const FAILED: u8 = 2;

fn main() -> ExitCode {
    let arguments: Vec<OsString> = std::env::args_os().skip(1).collect();
    let (whole, path) = match &arguments[..] {
        [option, path] if option == "--print" => (true, path),
        [path] if path != "--print" => (false, path),
        _ => return failed("usage: rows [--print] FILE".into()),
    };
    let text = match read(path) {
        Ok(text) => text,
        Err(error) => return failed(format!("{}: {error}", path.display())),
    };
    let mut engine = Engine::new();
    let mut print = vec![];
    let refused = if whole {
        print.extend(engine.print_report(&text));
        print.starts_with(b"E")
    } else {
        add_rows(&mut engine, &text, &mut print)
    };
    match write(&print) {
        Err(error) => failed(format!("standard output: {error}")),
        Ok(()) if refused => ExitCode::from(REFUSED),
        Ok(()) => ExitCode::SUCCESS,
    }
}

/// The bytes of a file, and of a longer one a byte more than a text may have, so that it is refused as such.
fn read(path: &OsStr) -> Result<Vec<u8>> {
    let mut text = vec![];
    File::open(path)?.take(TEXT as u64 + 1).read_to_end(&mut text)?;
    Ok(text)
}

/// Adds the U, F and R lines or the E line to a print, and tells whether the text was refused.
fn add_rows(engine: &mut Engine, text: &[u8], print: &mut Vec<u8>) -> bool {
    match engine.report(text) {
        Ok(report) => {
            for (condition, tally) in report.tallies().iter().enumerate() {
                let counts = format!("{}\t{}\t{}", tally.holds, tally.fails, tally.unknown);
                print.extend(format!("U\t{condition}\t{counts}\n").bytes());
            }
            if let Some(added) = report.added() {
                print.extend(format!("F\t{added}\n").bytes());
            }
            for row in report.rows() {
                print.push(b'R');
                for &number in row {
                    let field = if number == BLANK { "-".into() } else { number.to_string() };
                    print.push(b'\t');
                    print.extend(field.bytes());
                }
                print.push(b'\n');
            }
            false
        }
        Err(refused) => {
            print.extend(format!("E\t{}\n", refused.question).bytes());
            true
        }
    }
}

fn write(print: &[u8]) -> Result<()> {
    stdout().write_all(print)?;
    stdout().flush()
}

/// Says what failed, where standard error takes it: `eprintln!` would panic where it does not.
fn failed(why: String) -> ExitCode {
    let _ = writeln!(stderr(), "{why}");
    ExitCode::from(FAILED)
}
