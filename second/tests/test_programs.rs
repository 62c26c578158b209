//! What the proved test programs print, worked out again line by line with this implementation.
//!
//! No line of the kept output is taken on the programs' word: here each is checked by answers that do not come from them.

use std::path::Path;

mod every_plan;

#[path = "test_programs/boards.rs"]
mod boards;
#[path = "test_programs/calls.rs"]
mod calls;
#[path = "test_programs/counts.rs"]
mod counts;
#[path = "test_programs/junk.rs"]
mod junk;
#[path = "test_programs/orders.rs"]
mod orders;
#[path = "test_programs/small.rs"]
mod small;

/// A file of a test program.
fn file_of(program: &str, file: &str) -> String {
    let kept = Path::new(env!("CARGO_MANIFEST_DIR")).join("../crates").join(program).join(file);
    std::fs::read_to_string(kept).expect(program)
}

/// The kept output of a test program.
fn printed_by(program: &str) -> String {
    file_of(program, "stdout")
}

/// Whole texts are compared, lines only to name the first that differs.
fn assert_same(printed: &str, worked_out: &[String]) {
    for (line, (printed, worked_out)) in printed.lines().zip(worked_out).enumerate() {
        assert_eq!(printed, worked_out, "line {}", line + 1);
    }
    assert_eq!(printed.lines().count(), worked_out.len());
    assert!(printed == worked_out.join("\n") + "\n", "line ends");
}

#[test]
fn calls() {
    assert_same(&printed_by("try_calls"), &calls::lines(&file_of("try_calls", "stdin")));
}

#[test]
fn small() {
    assert_same(&printed_by("try_small"), &small::lines());
}

#[test]
fn counts() {
    assert_same(&printed_by("try_counts"), &counts::lines());
}
