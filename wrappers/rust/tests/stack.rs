//! The stack: `STACK` bytes are enough, and a thread with too little ends the process.

mod texts;

use rumbethola::{Engine, STACK};
use std::process::Command;
use std::thread::Builder;

/// Set where this program is to overflow a stack.
const OVERFLOW: &str = "RUMBETHOLA_TEST_OVERFLOW";

#[test]
fn enough() {
    let calls = || {
        let mut engine = Engine::new();
        for stored in texts::stored() {
            let name = stored.path.display();
            assert!(engine.print_report(&stored.text) == stored.report, "{name}: print_report");
            assert!(engine.print_direct(&stored.text) == stored.direct, "{name}: print_direct");
            assert_eq!(engine.report(&stored.text).is_err(), stored.report.starts_with(b"E"), "{name}: report");
            assert_eq!(engine.direct(&stored.text).is_err(), stored.direct.starts_with(b"E"), "{name}: direct");
        }
    };
    Builder::new().stack_size(STACK).spawn(calls).unwrap().join().unwrap();
}

#[test]
fn too_little() {
    if std::env::var_os(OVERFLOW).is_some() {
        let call = || Engine::new().report(&texts::document()).is_ok();
        let answered = Builder::new().stack_size(32 * 1024).spawn(call).unwrap().join();
        println!("the call ended: {answered:?}");
        return;
    }
    let this = std::env::current_exe().unwrap();
    let ended = Command::new(this).args(["--exact", "too_little", "--nocapture"]).env(OVERFLOW, "1").output().unwrap();
    let said = String::from_utf8_lossy(&ended.stderr);
    assert!(!ended.status.success() && said.contains("has overflowed its stack"), "{ended:?}");
}
