//! The program as it is typed: what it refuses, and that it says so when something differs.

use std::path::Path;
use std::process::Command;

/// Output, messages and exit status.
fn run(arguments: &[&str]) -> (String, String, i32) {
    let output = Command::new(env!("CARGO_BIN_EXE_compare")).args(arguments).output().expect("running compare");
    let text = |bytes| String::from_utf8(bytes).expect("plain text");
    (text(output.stdout), text(output.stderr), output.status.code().expect("an exit status"))
}

#[test]
fn numbers_below_the_floor_are_refused() {
    for (name, value, least) in [("--cases", "499999", 500_000), ("--cases", "many", 500_000), ("--files", "999", 1000)]
    {
        let why = format!("{name} takes a number from {least} on, and not {value}\n");
        assert_eq!(run(&[name, value]), (String::new(), why, 2));
    }
}

#[test]
fn wrong_arguments_print_the_commands() {
    for arguments in [&["--cases"][..], &["--what", "1"], &["400000"]] {
        let (output, usage, status) = run(arguments);
        assert!(output.is_empty() && usage.starts_with("compare [--cases N]") && status == 2, "{arguments:?}");
    }
}

#[test]
fn orders_alone_are_compared() {
    let (output, _, status) = run(&["--orders", "10000"]);
    assert!(output.ends_with("\nno difference\n") && status == 0, "{output}");
    assert_eq!(run(&["--orders", "0"]).2, 2);
}

#[test]
fn another_program_is_told_apart() {
    let (output, _, status) = run(&["--program", "cat"]);
    assert!(output.starts_with("DIFFERENCE: program cat printed\nTIP") && status == 1, "{output}");
}

/// What comparing a program tells that prints what the first job file gives, and ends as the command of the shell says.
fn told_of_program_that_ends(end: &str) -> (String, i32) {
    let program = concat!(env!("CARGO_MANIFEST_DIR"), "/tests/first-text");
    let mut compare = Command::new(env!("CARGO_BIN_EXE_compare"));
    let output = compare.env("END", end).args(["--program", program]).output().expect("running compare");
    let text = String::from_utf8(output.stdout).expect("plain text");
    (text.replace(program, "first-text"), output.status.code().expect("an exit status"))
}

#[test]
fn another_exit_status_is_told() {
    for (end, ended) in [("exit 3", "exit status: 3"), ("kill -KILL $$", "signal: 9 (SIGKILL)")] {
        let told = format!("DIFFERENCE: program first-text ended with {ended}, expected exit status: 0\n");
        let (output, status) = told_of_program_that_ends(end);
        assert!(output.starts_with(&told) && status == 1, "{output}");
    }
    // With the expected status a later file is the first that differs.
    let (output, status) = told_of_program_that_ends("exit 0");
    assert!(output.starts_with("DIFFERENCE: program first-text printed\n") && status == 1, "{output}");
}

#[test]
fn one_file_is_compared() {
    let path = Path::new(env!("CARGO_TARGET_TMPDIR")).join("example.hex");
    std::fs::write(&path, "54495000 01030002\n0000000000000001\n0000000000000006\n").expect("writing the file");
    let (output, _, status) = run(&["--hex", path.to_str().expect("a plain path")]);
    assert!(output.ends_with(" calls, no difference\n") && status == 0, "{output}");
    // The same lines with 2 and 3 placements.
    std::fs::write(&path, "54495000 02030002\n0000000000000001 02\n0000000000000006 03\n").expect("writing the file");
    let (output, _, status) = run(&["--hex", path.to_str().expect("a plain path")]);
    assert!(output.ends_with(" calls, no difference\n") && status == 0, "{output}");
    std::fs::write(&path, "5").expect("writing the file");
    assert_eq!(run(&["--hex", path.to_str().expect("a plain path")]).2, 2);
}
