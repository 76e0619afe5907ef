//! Writes the fixed texts and COUNT texts made by chance, with their prints, into a directory as NUMBER.in,
//! NUMBER.report and NUMBER.direct:
//!
//!     texts SEED COUNT DIRECTORY

use hashjoin::generate::{each_fixed_text, each_random_text};
use hashjoin::{print_direct, print_report};
use std::fs::{create_dir_all, write};
use std::path::Path;

fn main() {
    let arguments: Vec<String> = std::env::args().skip(1).collect();
    let [seed, count, directory] = &arguments[..] else {
        eprintln!("usage: texts SEED COUNT DIRECTORY");
        std::process::exit(2);
    };
    let directory = Path::new(directory);
    create_dir_all(directory).expect("the directory can be made");
    let (seed, count) = (seed.parse().expect("a number"), count.parse().expect("a number"));
    let mut number = 0;
    let mut save = |text: &[u8]| {
        for (ending, bytes) in [("in", text), ("report", &print_report(text)), ("direct", &print_direct(text))] {
            write(directory.join(format!("{number:06}.{ending}")), bytes).expect("the file can be written");
        }
        number += 1;
    };
    each_fixed_text(&mut save);
    each_random_text(seed, count, &mut save);
}
