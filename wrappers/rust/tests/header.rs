//! The numbers that include/rumbethola.h and this wrapper name are the same.

use rumbethola::{BLANK, CONDITIONS, Kind, STACK, STEPS, TABLES, TEXT, WRITTEN, lent};
use std::collections::BTreeMap;

/// The numbers that the header defines, by their names without the prefix.
fn defined() -> BTreeMap<String, u64> {
    let path = concat!(env!("CARGO_MANIFEST_DIR"), "/../../include/rumbethola.h");
    let header = std::fs::read_to_string(path).unwrap();
    let mut numbers = BTreeMap::new();
    for line in header.lines() {
        let mut words = line.split_whitespace();
        if words.next() != Some("#define") {
            continue;
        }
        let name = words.next().unwrap().strip_prefix("RUMBETHOLA_").unwrap();
        if let Some(number) = words.next() {
            numbers.insert(name.into(), number.trim_end_matches('u').parse().unwrap());
        }
    }
    numbers
}

#[test]
fn the_same_numbers() {
    let ours = [
        ("ANSWER", lent::ANSWER as u64),
        ("AT_ADDED", lent::AT_ADDED as u64),
        ("AT_CONDITIONS", lent::AT_CONDITIONS as u64),
        ("AT_COUNT", lent::AT_COUNT as u64),
        ("AT_FULL_OUTER", lent::AT_FULL_OUTER as u64),
        ("AT_ROWS", lent::AT_ROWS as u64),
        ("AT_SETS", lent::AT_SETS as u64),
        ("AT_STATUS", lent::AT_STATUS as u64),
        ("AT_STEPS", lent::AT_STEPS as u64),
        ("AT_TABLES", lent::AT_TABLES as u64),
        ("AT_TALLIES", lent::AT_TALLIES as u64),
        ("BEST_MATCH", Kind::BestMatch as u64),
        ("BLANK", BLANK.into()),
        ("BLANKING", Kind::Blanking as u64),
        ("CELLS", lent::CELLS as u64),
        ("CONDITIONS", CONDITIONS as u64),
        ("DIRECT_ANSWER", lent::DIRECT_ANSWER as u64),
        ("INNER", Kind::Inner as u64),
        ("NO_PRINT", lent::NO_PRINT.into()),
        ("NO_ROOM", lent::NO_ROOM.into()),
        ("OUT", lent::OUT as u64),
        ("OUTER", Kind::Outer as u64),
        ("PRODUCT", Kind::Product as u64),
        ("RESULT", lent::RESULT as u64),
        ("STACK", STACK as u64),
        ("STEPS", STEPS as u64),
        ("STEP_CONDITIONS", lent::STEP_CONDITIONS as u64),
        ("STEP_FIRST", lent::STEP_FIRST as u64),
        ("STEP_KIND", lent::STEP_KIND as u64),
        ("STEP_NUMBERS", lent::STEP_NUMBERS as u64),
        ("STEP_ROWS", lent::STEP_ROWS as u64),
        ("STEP_SECOND", lent::STEP_SECOND as u64),
        ("TABLES", TABLES as u64),
        ("TALLY_FALSE", lent::TALLY_FALSE as u64),
        ("TALLY_NUMBERS", lent::TALLY_NUMBERS as u64),
        ("TALLY_TRUE", lent::TALLY_TRUE as u64),
        ("TALLY_UNKNOWN", lent::TALLY_UNKNOWN as u64),
        ("TEXT", TEXT as u64),
        ("WORK", lent::WORK as u64),
        ("WRITTEN", WRITTEN as u64),
    ];
    assert_eq!(ours.map(|(name, number)| (name.into(), number)).into_iter().collect::<BTreeMap<_, _>>(), defined());
}

/// The parts of an answer stand one behind the other and fill it.
#[test]
fn the_places_of_an_answer() {
    assert_eq!(lent::AT_SETS + TABLES, lent::AT_STEPS);
    assert_eq!(lent::AT_STEPS + STEPS * lent::STEP_NUMBERS, lent::AT_CONDITIONS);
    assert_eq!(lent::AT_CONDITIONS + 1, lent::AT_TALLIES);
    assert_eq!(lent::AT_TALLIES + CONDITIONS * lent::TALLY_NUMBERS, lent::AT_FULL_OUTER);
    assert_eq!(lent::AT_FULL_OUTER + 1, lent::AT_ADDED);
    assert_eq!(lent::AT_ADDED + 1, lent::ANSWER);
}
