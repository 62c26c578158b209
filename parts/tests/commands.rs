//! The program as it is typed: output, messages and exit status.

use std::ffi::OsStr;
use std::fs::{self, File, OpenOptions};
use std::io::Write;
use std::os::unix::ffi::OsStrExt;
use std::os::unix::fs::{symlink, PermissionsExt};
use std::os::unix::process::ExitStatusExt;
use std::path::{Path, PathBuf};
use std::process::{Command, Stdio};

const LIST: &str = "# board\nrack 3\nC1 height=2 : 0\nC2 height=1 : 1-2\n";
const EXAMPLE: [u8; 24] = *b"TIP\x00\x01\x03\x00\x02\x00\x00\x00\x00\x00\x00\x00\x01\x00\x00\x00\x00\x00\x00\x00\x06";

/// What the program gives for these arguments and this input: output, messages and exit status.
fn run(arguments: &[&str], input: &[u8]) -> (Vec<u8>, String, i32) {
    run_with(&mut program(arguments), input)
}

/// The program with these arguments, its input, output and messages through pipes.
fn program(arguments: &[&str]) -> Command {
    let mut program = Command::new(env!("CARGO_BIN_EXE_parts"));
    program.args(arguments).stdin(Stdio::piped()).stdout(Stdio::piped()).stderr(Stdio::piped());
    program
}

/// What the program gives for this input, which is of no use where another one was named before.
fn run_with(program: &mut Command, input: &[u8]) -> (Vec<u8>, String, i32) {
    let mut program = program.spawn().expect("starting parts");
    // A program that ends without reading closes its input.
    let _ = program.stdin.take().map(|mut pipe| pipe.write_all(input));
    let output = program.wait_with_output().expect("running parts");
    (output.stdout, String::from_utf8(output.stderr).unwrap(), output.status.code().unwrap())
}

fn given(output: &[u8]) -> (Vec<u8>, String, i32) {
    (output.to_vec(), String::new(), 0)
}

fn refused(why: &str) -> (Vec<u8>, String, i32) {
    (Vec::new(), format!("{why}\n"), 1)
}

fn wrong_argument(why: &str) -> (Vec<u8>, String, i32) {
    (Vec::new(), format!("{why}\n"), 2)
}

/// An empty folder for the files of one test.
fn folder(name: &str) -> PathBuf {
    let folder = PathBuf::from(env!("CARGO_TARGET_TMPDIR")).join(name);
    if folder.exists() {
        fs::remove_dir_all(&folder).expect("removing the folder of an earlier run");
    }
    fs::create_dir(&folder).expect("making the folder");
    folder
}

/// A file of a folder, as it is typed.
fn typed(folder: &Path, name: &str) -> String {
    folder.join(name).to_str().expect("a path of text").into()
}

#[test]
fn make_show_and_sort_print_their_result() {
    assert_eq!(run(&["make", "-"], LIST.as_bytes()), given(&EXAMPLE));
    assert_eq!(run(&["show", "-"], &EXAMPLE), given(b"rack 3\n0 : 0\n1 : 1-2\n"));
    let sorted = b"# board\nrack 3\nC2 height=1 : 1-2\nC1 height=2 : 0\n";
    assert_eq!(run(&["sort", "height", "-"], LIST.as_bytes()), given(sorted));
}

#[test]
fn faults_name_file_and_line() {
    let why = "-:2: no colon; write `NAME : TIPS`, or `: TIPS` without a name\n-:4: no tip after the colon; name one at least";
    assert_eq!(run(&["make", "-"], b"rack 3\nC1 0\nC2 : 1\nC3 :\n"), refused(why));
    let pitched = LIST.replace("1-2", "1-2\nC3 pitch=0.5 : 0");
    let why =
        "-:3: no pitch; give every part a pitch to sort by it\n-:4: no pitch; give every part a pitch to sort by it";
    assert_eq!(run(&["sort", "pitch", "-"], pitched.as_bytes()), refused(why));
    for column in ["name", "Height", ""] {
        let why = format!("-:3: no part has a column {column}; sort by height or quantity");
        assert_eq!(run(&["sort", column, "-"], LIST.as_bytes()), refused(&why));
    }
    let why = "-:2: no part has a column name; sort by h or at or quantity";
    assert_eq!(run(&["sort", "name", "-"], b"rack 1\nA h=1 : 0\nB at=1 : 0\n"), refused(why));
    let why = "-:2: no part has a column name; sort by quantity";
    assert_eq!(run(&["sort", "name", "-"], b"rack 1\nA : 0\n"), refused(why));
    let (_, many, _) = run(&["make", "-"], ("rack 3\n".to_string() + &"x\n".repeat(30)).as_bytes());
    assert_eq!((many.lines().count(), many.lines().last()), (21, Some("-: 10 more lines are wrong")));
}

#[test]
fn wrong_kinds_of_files_are_named() {
    let why = "-: this is a job file and no parts list; `parts show` turns it into one";
    assert_eq!(run(&["make", "-"], &EXAMPLE), refused(why));
    let why = "-: refused 7: the file does not begin with TIP; hand over a job file, such as `parts make` writes";
    assert_eq!(run(&["show", "-"], LIST.as_bytes()), refused(why));
    let (output, why, status) = run(&["make", "no-such-list"], b"");
    assert!(output.is_empty() && why.starts_with("no-such-list: ") && status == 1, "{why}");
}

#[test]
fn short_job_file_is_told_by_its_name() {
    let folder = folder("short");
    for (name, bytes) in [("a.job", &b""[..]), ("b.JOB", b"T"), ("c.job", b"TI"), ("d.job", b"\0\xff")] {
        let file = typed(&folder, name);
        fs::write(&file, bytes).unwrap();
        let length = bytes.len();
        let why =
            format!("{file}: refused 6: the file has {length} bytes and needs 8 at least; hand over the whole file");
        for command in ["plan", "show", "make", "picture", "order", "junior"] {
            assert_eq!(run(&[command, &file], b""), refused(&why), "{command} {name}");
        }
    }
    let list = typed(&folder, "list.txt");
    fs::write(&list, b"").unwrap();
    let why = "no rack; begin the list with `rack M`, M being the number of tips, 1 to 64";
    assert_eq!(run(&["plan", &list], b""), refused(&format!("{list}:1: {why}")));
    let job = typed(&folder, "list.job");
    fs::write(&job, LIST).unwrap();
    assert_eq!(run(&["plan", &job], b"").2, 0);
}

#[test]
fn swapped_files_of_an_import_are_told_once() {
    let folder = folder("swapped");
    let (board, tips) = (typed(&folder, "board.csv"), typed(&folder, "tips.txt"));
    let text = "### Footprint positions - created on 2024 ###\n# Ref Val Package PosX PosY Rot Side\n## End\n";
    let rows = "Ref,Val,Package,PosX,PosY,Rot,Side\nR1,1k,R0402,0,0,0,top\nR2,1k,R0402,0,0,0,top\n";
    fs::write(&tips, "# my tips\nrack 2\nR* : 0-1\nC* : 0\n").unwrap();
    for file in [text, rows] {
        fs::write(&board, file).unwrap();
        let why = "this is no table of tips; name the table behind --tips, and this file before it";
        assert_eq!(run(&["import", "kicad", &tips, "--tips", &board], b""), refused(&format!("{board}: {why}")));
    }
    let why = "this is a table of tips; name the file to import here, and the table behind --tips";
    for words in [&["kicad"][..], &["csv", "--columns", "ref=Ref,package=Package"]] {
        let words = [&["import"], words, &[&tips, "--tips", &tips]].concat();
        assert_eq!(run(&words, b""), refused(&format!("{tips}: {why}")), "{words:?}");
    }
    let why = "-:1: no line `# Ref Val Package PosX PosY Rot Side`; name a position file of KiCad, or export it again";
    assert_eq!(run(&["import", "kicad", "-", "--tips", &tips], b"# a\nb\nc\n"), refused(why));
    let why = "-:1: `Ref,Val,Package,PosX,PosY,Rot,Side R1,1k` is in no element; save the file as XML";
    assert_eq!(run(&["import", "openpnp", "-", "b.xml"], rows.replace('\n', " ").as_bytes()), refused(why));
}

#[test]
fn inputs_that_are_too_large_are_refused() {
    let list = |lines: usize| "rack 1\n".to_string() + &"#\n".repeat(lines - 2) + "A : 0\n";
    assert_eq!(run(&["plan", "-"], list(100_000).as_bytes()).2, 0);
    let why = "-: 100001 lines; 100000 is the most, split the file";
    assert_eq!(run(&["plan", "-"], list(100_001).as_bytes()), refused(why));
    // A device without an end is read no further than to the limit.
    let endless = run_with(program(&["plan", "-"]).stdin(File::open("/dev/zero").unwrap()), b"");
    assert_eq!(endless, refused("-: more than 16 MB; name another file, or split it"));
    let columns = |count: usize| (0..count).map(|column| format!(" c{column}=1")).collect::<String>();
    assert_eq!(run(&["make", "-"], format!("rack 1\nA{} : 0\n", columns(64)).as_bytes()).2, 0);
    let why = "more than 64 columns in this list; take out those that nobody sorts by";
    let wide = format!("rack 1\nA{} : 0\n", columns(65));
    assert_eq!(run(&["make", "-"], wide.as_bytes()), refused(&format!("-:2: {why}")));
    let wide = format!("rack 1\nA{} : 0\nB c0=2 : 0\nC d=1 : 0\n", columns(64));
    assert_eq!(run(&["make", "-"], wide.as_bytes()), refused(&format!("-:4: {why}")));
}

#[test]
fn characters_that_nobody_sees_are_refused_in_names() {
    let why = |line, number| {
        refused(&format!("-:{line}: a character that nobody sees, U+{number}; delete these words and type them again"))
    };
    for (c, number) in [("\u{202e}", "202E"), ("\u{200b}", "200B"), ("\u{feff}", "FEFF"), ("\u{e0041}", "E0041")] {
        assert_eq!(run(&["plan", "-"], format!("rack 1\nR{c}1 : 0\n").as_bytes()), why(2, number));
        assert_eq!(run(&["order", "-"], format!("rack 1\nA : 0\nbefore A{c} A\n").as_bytes()), why(3, number));
        // In a comment it stays.
        assert_eq!(run(&["plan", "-"], format!("rack 1\nR1 : 0 # {c}\n").as_bytes()).2, 0);
    }
    let folder = folder("unseen");
    let list = typed(&folder, "list.txt");
    fs::write(&list, LIST).unwrap();
    assert_eq!(
        run(&["check", &list, "-"], "pairs 0\nC1\u{200b} : 0\n".as_bytes()).1.lines().next(),
        why(2, "200B").1.lines().next()
    );
    let tips = typed(&folder, "tips.txt");
    fs::write(&tips, "rack 1\n* : 0\n").unwrap();
    let rows = "Ref,Val,Package,PosX,PosY,Rot,Side\nR\u{202e}1,1k,P,0,0,0,top\n";
    let (text, _, _) = run(&["import", "kicad", "-", "--tips", &tips], rows.as_bytes());
    assert!(text.starts_with(b"rack 1\nR_1 : 0 # P 1k: R"));
}

#[test]
fn signal_removes_what_is_half_written() {
    let folder = folder("signals");
    let (list, job, pipe) = (typed(&folder, "list.txt"), typed(&folder, "out.job"), typed(&folder, "pipe"));
    // More than a pipe takes, so that the list is never written whole.
    fs::write(&list, format!("{BOARD}# {}\n", "x".repeat(1 << 20))).unwrap();
    fs::write(&job, "TIP old").unwrap();
    assert!(Command::new("mkfifo").arg(&pipe).status().unwrap().success());
    for (name, number) in [("HUP", 1), ("INT", 2), ("TERM", 15)] {
        let mut started = unshielded(&["keep", "1", &list, "--job", &job, "--list", &pipe]).spawn().unwrap();
        let reader = File::open(&pipe).unwrap();
        let is_written = || names_in(&folder).iter().any(|name| name.ends_with(".tmp"));
        while !is_written() {
            assert_eq!(started.try_wait().unwrap(), None);
            std::thread::yield_now();
        }
        assert!(Command::new("kill").args(["-s", name, &started.id().to_string()]).status().unwrap().success());
        assert_eq!(started.wait().unwrap().signal(), Some(number));
        drop(reader);
        assert_eq!(names_in(&folder), ["list.txt", "out.job", "pipe"]);
        assert_eq!(fs::read(&job).unwrap(), b"TIP old");
    }
}

/// The program, ended by signals that this process ignores too, as it does under nohup.
fn unshielded(arguments: &[&str]) -> Command {
    let mut program = Command::new("env");
    program.args(["--default-signal=HUP,INT,TERM", env!("CARGO_BIN_EXE_parts")]).args(arguments);
    program.stdin(Stdio::piped()).stdout(Stdio::piped()).stderr(Stdio::piped());
    program
}

#[test]
fn signal_removes_what_was_just_made() {
    let folder = folder("made");
    // The signal comes while the call that made the file is not back yet.
    let source =
        "#include <fcntl.h>\n#include <signal.h>\n#include <string.h>\n#include <sys/syscall.h>\n#include <unistd.h>\n\
        int open64(const char *path, int flags, unsigned mode) {\n\
            int file = syscall(SYS_openat, AT_FDCWD, path, flags, mode);\n\
            if (strstr(path, \"/.parts-\") && file >= 0) raise(SIGTERM);\n\
            return file;\n\
        }\n";
    let library = preloaded(&folder, source);
    let list = typed(&folder, "list.txt");
    fs::write(&list, LIST).unwrap();
    let before = names_in(&folder);
    let job = typed(&folder, "out.job");
    let mut started = unshielded(&["make", &list, "-o", &job]).env("LD_PRELOAD", &library).spawn().unwrap();
    assert_eq!(started.wait().unwrap().signal(), Some(15));
    assert_eq!(names_in(&folder), before);
    // A signal that is ignored, as under nohup, removes nothing.
    let mut ignoring = Command::new("env");
    ignoring.args(["--ignore-signal=TERM", env!("CARGO_BIN_EXE_parts"), "make", &list, "-o", &job]);
    assert!(ignoring.env("LD_PRELOAD", &library).status().unwrap().success());
    assert_eq!(fs::read(&job).unwrap(), EXAMPLE);
}

/// A library of this source in C, to load before the others.
fn preloaded(folder: &Path, text: &str) -> String {
    let (source, library) = (typed(folder, "library.c"), typed(folder, "library.so"));
    fs::write(&source, text).unwrap();
    let built = Command::new("gcc").args(["-shared", "-fPIC", "-o", &library, &source]).status().unwrap();
    assert!(built.success());
    library
}

#[test]
fn output_that_is_lost_when_it_is_closed_is_told() {
    let folder = folder("closing");
    // As on a file system that keeps an error until then.
    let source =
        "#include <errno.h>\nint close(int file) { errno = file == 1 ? EIO : 0; return file == 1 ? -1 : 0; }\n";
    let library = preloaded(&folder, source);
    let (_, why, status) = run_with(program(&["make", "-"]).env("LD_PRELOAD", &library), LIST.as_bytes());
    let lost =
        "standard output: Input/output error (os error 5); let it lead to a file or a pipe that takes all of it\n";
    assert_eq!((why.as_str(), status), (lost, 1));
}

#[test]
fn running_out_of_memory_is_told() {
    let folder = folder("memory");
    let list = typed(&folder, "list.txt");
    fs::write(&list, "rack 1\n".to_string() + &"#".repeat(15 << 20)).unwrap();
    let mut limited = Command::new("sh");
    limited.args(["-c", "ulimit -v 20000; exec \"$0\" plan \"$1\"", env!("CARGO_BIN_EXE_parts"), &list]);
    limited.stdin(Stdio::piped()).stdout(Stdio::piped()).stderr(Stdio::piped());
    let why = "there is not enough memory for this; close other programs, or split the file";
    assert_eq!(run_with(&mut limited, b""), refused(why));
}

#[test]
fn plans_from_other_software_are_checked() {
    let folder = folder("checked");
    let (list, plan) = (typed(&folder, "list.txt"), typed(&folder, "plan.txt"));
    fs::write(&list, LIST).unwrap();
    fs::write(&plan, "pairs 0\nC1 : 0\nC2 : 2\ntable\n0 0 0\n0 0 0\n0 0 0\n").unwrap();
    let text = b"lines 2 rack 3\npairs 0 as claimed, each part on a tip of its own\n\
                 table accepted: no plan has more pairs\nbest 0, the plan has as many\n";
    assert_eq!(run(&["check", &list, &plan], b""), given(text));
    assert_eq!(run(&["check", "-", &plan], LIST.as_bytes()), given(text));
    let why = "-: refused 19: C2 is on tip 0 and has only 1-2; give it a tip of its own";
    assert_eq!(run(&["check", &list, "-"], b"pairs 0\nC1 : 0\nC2 : 0\n"), refused(why));
    let why = "-:2: no colon; write `NAME : TIP`, or `: TIP` for a part without a name\n\
               -:3: the list has no part C3; take it out, or correct its name";
    assert_eq!(run(&["check", &list, "-"], b"pairs 0\nC1 0\nC3 : 0\n"), refused(why));
    let why = format!(
        "{list}: refused 25: C2 is no run: it lacks tip 1, which C1 has (with the tips in the order 0 2 1 every part is a run); take the table out to check tips and pairs"
    );
    fs::write(&list, "rack 3\nC1 : 1\nC2 : 0 2\n").unwrap();
    assert_eq!(run(&["check", &list, &plan], b""), refused(&why));
    let why = "-: this is a job file and no parts list; `parts show` turns it into one";
    assert_eq!(run(&["check", "-", &plan], &EXAMPLE), refused(why));
    let why = "-: this is LIST and PLAN; name a file for one of them";
    assert_eq!(run(&["check", "-", "-"], b""), wrong_argument(why));
    let usage = "PLAN is missing\nusage: parts check LIST PLAN\n`parts check --help` says more";
    assert_eq!(run(&["check", &list], b""), wrong_argument(usage));
}

#[test]
fn file_to_be_imported_is_told_from_a_list() {
    let why = "-: this is no parts list; `parts import` makes one of it";
    for file in ["Ref,Val,Package\nR1,1,P\n", "\na;b;c\n", "<openpnp-board/>", "### Footprint positions - ..\nC1 1\n"] {
        assert_eq!(run(&["plan", "-"], file.as_bytes()), refused(why), "{file}");
    }
    let why = "-:2: no rack; begin the list with `rack M`, M being the number of tips, 1 to 64";
    assert_eq!(run(&["plan", "-"], b"# a, b, c\nR1 : 0\n"), refused(why));
    let list = "### Footprint positions, by hand\nrack 1\nR1 : 0\n";
    assert_eq!(run(&["plan", "-"], list.as_bytes()).2, 0);
}

#[test]
fn windows_are_printed() {
    let list = b"rack 3\nC1 tall : 0\nC2 : 1-2\nC3 : 0\n";
    let text = b"parts 3 rules 0\nC1 tall position 2\nC2 positions 0 to 1\nC3 positions 0 to 1\n";
    assert_eq!(run(&["windows", "-"], list), given(text));
    let why = "-: this is a job file and no parts list; `parts show` turns it into one";
    assert_eq!(run(&["windows", "-"], &EXAMPLE), refused(why));
    let many = "rack 1\n".to_string() + &": 0\n".repeat(129);
    let why = "-: refused 12: 129 parts; an order has 128 at most, split the list";
    assert_eq!(run(&["windows", "-"], many.as_bytes()), refused(why));
}

#[test]
fn orders_are_printed() {
    let list = b"rack 3\nC1 tall : 0\nC2 : 1-2\nC3 fine : 0\n";
    let text = b"parts 3 rules 0\nposition 0 C3 fine\nposition 1 C2\nposition 2 C1 tall\n";
    assert_eq!(run(&["order", "-"], list), given(text));
    let why = "-: refused 29: no order obeys: C1 before C2 (rule on line 4), C2 before C1 (tall last); \
               take out one of these rules, or a word fine or tall";
    assert_eq!(run(&["order", "-"], b"rack 3\nC1 fine tall : 0\nC2 : 1\nbefore C1 C2\n"), refused(why));
    let why = "-:3: the list has no part C4; take the rule out, or correct the name";
    assert_eq!(run(&["order", "-"], b"rack 3\nC1 : 0\nbefore C1 C4\n"), refused(why));
    let why = "-: this is a job file and no parts list; `parts show` turns it into one";
    assert_eq!(run(&["order", "-"], &EXAMPLE), refused(why));
    let usage = "usage: parts order LIST [--tips PLAN] [--mounted T] [--price P] [--fewest-tips]\n`parts order --help` says more";
    assert_eq!(run(&["order"], b""), wrong_argument(&format!("LIST is missing\n{usage}")));
    assert_eq!(run(&["order", "-", "-"], b""), wrong_argument(&format!("`-` is a word too many\n{usage}")));
    let text =
        b"parts 3 rules 0\ntips of the best plan, 3 changes in this order, tip 1 mounted\nposition 0 C3 fine tip 0\n\
                 position 1 C2 tip 1\nposition 2 C1 tall tip 0\n";
    let by_tips = run(&["order", "-", "--tips", "best", "--mounted", "1"], list);
    assert_eq!(by_tips, given(text));
    let why = "a plan is quick, best or exact, and not 3";
    assert_eq!(run(&["order", "-", "--tips", "3"], list), wrong_argument(why));
    let why = "--mounted needs --tips and a plan; without it the tips do not count";
    assert_eq!(run(&["order", "-", "--mounted", "1"], list), wrong_argument(why));
    let why = "a price is for the exact plan; add --tips exact";
    assert_eq!(run(&["order", "-", "--tips", "best", "--price", "1"], list), wrong_argument(why));
    assert_eq!(run(&["order", "-", "--fewest-tips"], list), wrong_argument(why));
}

/// The list with a quantity, and its job file, which is of version 2.
const TWICE: &str = "# board\nrack 3\nC1 x2 height=2 : 0\nC2 height=1 : 1-2\n";
const TWICE_JOB: [u8; 26] =
    *b"TIP\x00\x02\x03\x00\x02\x00\x00\x00\x00\x00\x00\x00\x01\x02\x00\x00\x00\x00\x00\x00\x00\x06\x01";

#[test]
fn quantities_are_made_shown_sorted_and_planned() {
    assert_eq!(run(&["make", "-"], TWICE.as_bytes()), given(&TWICE_JOB));
    assert_eq!(run(&["show", "-"], &TWICE_JOB), given(b"rack 3\n0 x2 : 0\n1 : 1-2\n"));
    let sorted = b"# board\nrack 3\nC2 height=1 : 1-2\nC1 x2 height=2 : 0\n";
    for column in ["height", "quantity", "Qty"] {
        assert_eq!(run(&["sort", column, "-"], TWICE.as_bytes()), given(sorted), "{column}");
    }
    let plan = "lines 2 rack 3\noff 1 tips 0\nquick 1\nbest 1\nC1 x2 quick 0 best 0\nC2 quick 1 best 1\n\n\
                parts 2 placements 3\nparts on tip 0 quick 1 best 1\n\
                placements on tip 0 quick 2 best 2\nparts on tip 1 quick 1 best 1\n\
                placements on tip 1 quick 1 best 1\n\
                plan   pairs  tips  changes in the list's order  changes in the order by tips\n\
                quick      1     2                            1                             1\n\
                best       1     2                            1                             1\n";
    assert_eq!(run(&["plan", "-"], TWICE.as_bytes()), given(plan.as_bytes()));
}

#[test]
fn wrong_quantities_name_file_and_line() {
    let why = "-:2: `qty=40` is a quantity; write x40 in its place\n\
               -:3: `x0` is no placement at all; write x1 to x255, or take the part out\n\
               -:4: a second quantity `x3`; give each part one";
    assert_eq!(run(&["make", "-"], b"rack 2\nR1 qty=40 : 0-1\nR2 x0 : 0\nR3 x2 x3 : 0\n"), refused(why));
    let eight = "rack 2\n".to_string() + &"x255 : 0\n".repeat(8) + "R9 x9 : 0\n";
    let why = "-:10: 2049 placements with this part; a list has 2048 at most, split it";
    assert_eq!(run(&["plan", "-"], eight.as_bytes()), refused(why));
}

#[test]
fn help_and_version_are_printed() {
    let (page, messages, status) = run(&["--help"], b"");
    let page = String::from_utf8(page).unwrap();
    assert_eq!((messages.as_str(), status), ("", 0));
    // Once with what it does, and once as an example.
    let (commands, examples) = page.split_once("\nExamples:\n").unwrap();
    for command in COMMANDS {
        assert!(commands.contains(&format!("\nparts {command} ")), "{command}");
        assert!(examples.contains(&format!("parts {command}")), "{command}");
    }
    assert_eq!(examples.split_once("\n\n").unwrap().0.lines().count(), COMMANDS.len());
    for arguments in [&["help"][..], &["-h"]] {
        assert_eq!(run(arguments, b""), given(page.as_bytes()), "{arguments:?}");
    }
    let version = concat!("parts ", env!("CARGO_PKG_VERSION"), "\n");
    assert_eq!(run(&["--version"], b""), given(version.as_bytes()));
}

const COMMANDS: [&str; 19] = [
    "import kicad",
    "import openpnp",
    "import csv",
    "make",
    "show",
    "sort",
    "keep",
    "goal",
    "plan",
    "check",
    "compare",
    "junior",
    "panel",
    "mend",
    "order",
    "windows",
    "picture",
    "page",
    "completion bash",
];

#[test]
fn every_command_has_a_page() {
    for command in COMMANDS {
        let words: Vec<&str> = command.split(' ').collect();
        let (page, messages, status) = run(&[&words[..], &["--help"]].concat(), b"");
        assert_eq!((messages.as_str(), status), ("", 0), "{command}");
        let text = String::from_utf8(page.clone()).unwrap();
        assert!(text.starts_with(&format!("parts {command}")) && text.lines().count() >= 5, "{text}");
        assert!(text.contains("\nExample: "), "{text}");
        let behind: [&[&str]; 2] = [&["-h"], &["1", "board.txt", "--help"]];
        for arguments in
            behind.map(|more| [&words[..], more].concat()).into_iter().chain([[&["help"], &words[..]].concat()])
        {
            assert_eq!(run(&arguments, b""), given(&page), "{arguments:?}");
        }
    }
}

#[test]
fn wrong_arguments_print_the_usage_of_their_command() {
    let cases: [(&[&str], &str, &str); 28] = [
        (&["page"], "FILE is missing", "page FILE [--keep K]"),
        (&["page", "a", "--keep"], "--keep needs K behind it", "page FILE [--keep K]"),
        (&["page", "a", "--k", "1"], "parts page has no option --k", "page FILE [--keep K]"),
        (&["order"], "LIST is missing", "order LIST [--tips PLAN] [--mounted T] [--price P] [--fewest-tips]"),
        (&["junior", "--side", "top"], "parts junior has no option --side", "junior FILE"),
        (&["make"], "LIST is missing", "make LIST"),
        (&["make", "a", "b"], "`b` is a word too many", "make LIST"),
        (&["make", "--list", "a"], "parts make has no option --list", "make LIST"),
        (&["show"], "JOB is missing", "show JOB"),
        (&["show", "--all"], "parts show has no option --all", "show JOB"),
        (&["sort", "height"], "LIST is missing", "sort COLUMN LIST"),
        (&["sort", "height", "a", "b"], "`b` is a word too many", "sort COLUMN LIST"),
        (&["keep", "1"], "FILE is missing", "keep K FILE [--job JOB] [--list LIST]"),
        (
            &["keep", "1", "a", "b"],
            "`b` is a word too many; write the job file with --job b",
            "keep K FILE [--job JOB] [--list LIST]",
        ),
        (&["keep", "1", "a", "--list"], "--list needs LIST behind it", "keep K FILE [--job JOB] [--list LIST]"),
        (
            &["keep", "1", "a", "--list", "b", "--list", "c"],
            "--list stands twice; name it once",
            "keep K FILE [--job JOB] [--list LIST]",
        ),
        (
            &["keep", "1", "a", "--jobs", "b"],
            "parts keep has no option --jobs",
            "keep K FILE [--job JOB] [--list LIST]",
        ),
        (&["goal", "1"], "FILE is missing", "goal K FILE [--job JOB] [--list LIST]"),
        (
            &["goal", "1", "a", "b"],
            "`b` is a word too many; write the job file with --job b",
            "goal K FILE [--job JOB] [--list LIST]",
        ),
        (&["junior"], "FILE is missing", "junior FILE"),
        (&["junior", "a", "b"], "`b` is a word too many", "junior FILE"),
        (
            &["plan"],
            "FILE is missing",
            "plan FILE [--mounted T] [--price P] [--fewest-tips] [--in-order] [--in-placing-order] [--format FORMAT] [--plan PLAN]",
        ),
        (
            &["plan", "a", "b"],
            "`b` is a word too many",
            "plan FILE [--mounted T] [--price P] [--fewest-tips] [--in-order] [--in-placing-order] [--format FORMAT] [--plan PLAN]",
        ),
        (
            &["plan", "a", "--mounted"],
            "--mounted needs T behind it",
            "plan FILE [--mounted T] [--price P] [--fewest-tips] [--in-order] [--in-placing-order] [--format FORMAT] [--plan PLAN]",
        ),
        (
            &["plan", "a", "--mounted", "1", "--mounted", "2"],
            "--mounted stands twice; name it once",
            "plan FILE [--mounted T] [--price P] [--fewest-tips] [--in-order] [--in-placing-order] [--format FORMAT] [--plan PLAN]",
        ),
        (&["picture", "a", "--mounted", "1"], "parts picture has no option --mounted", "picture FILE"),
        (&["picture"], "FILE is missing", "picture FILE"),
        (&["help", "make", "show"], "", "make LIST"),
    ];
    for (arguments, what, usage) in cases {
        let command = usage.split(' ').next().unwrap();
        let what = if what.is_empty() { String::new() } else { format!("{what}\n") };
        let expected = format!("{what}usage: parts {usage}\n`parts {command} --help` says more\n");
        assert_eq!(run(arguments, b""), (Vec::new(), expected, 2), "{arguments:?}");
    }
    let kicad = "usage: parts import kicad POS --tips TABLE [--side SIDE] [--start-table]\n`parts import kicad --help` says more";
    for (arguments, what) in [
        (&["import", "kicad", "a"][..], "--tips TABLE is missing"),
        (&["import", "kicad", "--tips", "a"], "POS is missing"),
        (&["import", "kicad", "a", "b", "--tips", "c"], "`b` is a word too many"),
        (&["import", "kicad", "a", "--tips", "--side"], "--tips needs TABLE behind it"),
        (&["import", "kicad", "a", "--tip", "c"], "parts import kicad has no option --tip"),
    ] {
        assert_eq!(run(arguments, b""), wrong_argument(&format!("{what}\n{kicad}")), "{arguments:?}");
    }
    let (page, _, status) = run(&["import", "--help"], b"");
    let page = String::from_utf8(page).unwrap();
    assert_eq!((page.matches("usage: parts import ").count(), status), (3, 0));
    assert_eq!(run(&["help", "import"], b""), given(page.as_bytes()));
    for arguments in [&["import"][..], &["import", "eagle", "a"]] {
        assert_eq!(run(arguments, b""), (Vec::new(), page.clone(), 2), "{arguments:?}");
    }
    for arguments in [&["draw", "a"][..], &["help", "draw"], &["draw", "--help"]] {
        let expected = "parts has no command draw; `parts --help` names its commands\n";
        assert_eq!(run(arguments, b""), (Vec::new(), expected.into(), 2), "{arguments:?}");
    }
    let (page, _, _) = run(&["--help"], b"");
    assert_eq!(run(&[], b""), (Vec::new(), String::from_utf8(page).unwrap(), 2));
}

/// The commands that print, with what each is given.
const PRINTING: [(&[&str], &[u8]); 11] = [
    (&["page", "-"], LIST.as_bytes()),
    (&["completion", "bash"], b""),
    (&["--help"], b""),
    (&["--version"], b""),
    (&["make", "--help"], b""),
    (&["make", "-"], LIST.as_bytes()),
    (&["show", "-"], &EXAMPLE),
    (&["sort", "height", "-"], LIST.as_bytes()),
    (&["keep", "1", "-"], LIST.as_bytes()),
    (&["plan", "-"], LIST.as_bytes()),
    (&["picture", "-"], LIST.as_bytes()),
];

fn full_disk() -> File {
    OpenOptions::new().write(true).open("/dev/full").expect("a device that is always full")
}

#[test]
fn lost_output_is_a_failure() {
    for (arguments, input) in PRINTING {
        let why =
            |error| refused(&format!("standard output: {error}; let it lead to a file or a pipe that takes all of it"));
        let full = run_with(program(arguments).stdout(full_disk()), input);
        assert_eq!(full, why("No space left on device (os error 28)"), "{arguments:?}");
        let (reader, writer) = std::io::pipe().expect("a pipe");
        drop(reader);
        let closed = run_with(program(arguments).stdout(writer), input);
        assert_eq!(closed, why("Broken pipe (os error 32)"), "{arguments:?}");
    }
}

#[test]
fn output_that_is_closed_from_the_start_is_told() {
    let closed = |words: &[&str]| {
        let mut program = Command::new("sh");
        program.args(["-c", "exec \"$0\" \"$@\" >&-", env!("CARGO_BIN_EXE_parts")]).args(words);
        run_with(program.stdin(Stdio::piped()).stdout(Stdio::piped()).stderr(Stdio::piped()), LIST.as_bytes())
    };
    let why = "standard output: Bad file descriptor (os error 9); let it lead to a file or a pipe that takes all of it";
    for words in [&["plan", "-"][..], &["--help"]] {
        assert_eq!(closed(words), refused(why), "{words:?}");
    }
    // Where nothing is printed, nothing is lost.
    let job = typed(&folder("closed"), "out.job");
    assert_eq!(closed(&["make", "-", "-o", &job]), given(b""));
}

#[test]
fn lost_messages_leave_the_exit_status() {
    for (arguments, status) in [(&["make", "no-such-list"][..], 1), (&["make"], 2), (&[], 2)] {
        assert_eq!(run_with(program(arguments).stderr(full_disk()), b""), (Vec::new(), String::new(), status));
    }
    let both = run_with(program(&["make", "-"]).stdout(full_disk()).stderr(full_disk()), LIST.as_bytes());
    assert_eq!(both, (Vec::new(), String::new(), 1));
}

#[test]
fn list_that_is_standard_output_too_is_left_alone() {
    let folder = folder("appended");
    let list = typed(&folder, "list.txt");
    fs::write(&list, LIST).unwrap();
    let appended = || OpenOptions::new().append(true).open(&list).unwrap();
    let why = "this file is standard output too; name another file behind `>`";
    let by_name = run_with(program(&["sort", "height", &list]).stdout(appended()), b"");
    assert_eq!(by_name, refused(&format!("{list}: {why}")));
    let by_stream = run_with(program(&["make", "-"]).stdin(File::open(&list).unwrap()).stdout(appended()), b"");
    assert_eq!(by_stream, refused(&format!("-: {why}")));
    assert_eq!(fs::read_to_string(&list).unwrap(), LIST);
}

const SUMMARY: &str = "\nparts on tip 0 quick 1 best 1\nparts on tip 1 quick 1 best 1\n\
                       plan   pairs  tips  changes in the list's order  changes in the order by tips\n\
                       quick      0     2                            1                             1\n\
                       best       0     2                            1                             1\n";

#[test]
fn keep_plan_and_picture_take_lists_and_job_files() {
    let kept = b"off 1 tips 0 1 2\nk 1 margin 0\nno tip struck from 2 parts\n";
    assert_eq!(run(&["keep", "1", "-"], LIST.as_bytes()), given(kept));
    assert_eq!(run(&["keep", "1", "-"], &EXAMPLE), given(kept));
    let plan = "lines 2 rack 3\noff 1 tips 0 1 2\nquick 0\nbest 0\nline 0 quick 0 best 0\nline 1 quick 1 best 1\n";
    assert_eq!(run(&["plan", "-"], &EXAMPLE), given((plan.to_string() + SUMMARY).as_bytes()));
    let named = plan.replace("line 0", "C1").replace("line 1", "C2") + SUMMARY;
    assert_eq!(run(&["plan", "-"], LIST.as_bytes()), given(named.as_bytes()));
    for (file, name) in [(LIST.as_bytes(), ">C2</text>"), (&EXAMPLE, ">line 1</text>")] {
        let (picture, messages, status) = run(&["picture", "-"], file);
        assert_eq!((messages.as_str(), status), ("", 0));
        let picture = String::from_utf8(picture).unwrap();
        assert!(picture.starts_with("<svg ") && picture.contains(name) && picture.ends_with("</svg>\n"));
    }
}

/// Four parts of which the first loses tip 1 within k = 1.
const BOARD: &str = "rack 2\nA h=2 : 0-1 # a\nB : 0\nC : 1\nD : 0\n";
const KEPT: &str = "off 1 tips 0\nk 1 margin 0\nA keeps 0 struck 1\nno tip struck from 3 parts\n";

#[test]
fn keep_writes_the_job_file_and_the_list() {
    let folder = folder("kept");
    let (list, job, kept) = (typed(&folder, "list.txt"), typed(&folder, "out.job"), typed(&folder, "kept.txt"));
    fs::write(&list, BOARD).unwrap();
    let kept_list = "rack 2\nA h=2 : 0   # a\nB : 0\nC : 1\nD : 0\n";
    for arguments in [
        &["keep", "1", &list, "--job", &job][..],
        &["keep", "1", &list, "--list", &kept],
        &["keep", "--list", &kept, "1", &list, "-o", &job],
    ] {
        assert_eq!(run(arguments, b""), given(KEPT.as_bytes()));
        if arguments.contains(&job.as_str()) {
            assert_eq!(run(&["show", &job], b""), given(b"rack 2\n0 : 0\n1 : 0\n2 : 1\n3 : 0\n"));
            fs::remove_file(&job).unwrap();
        }
        if arguments.contains(&kept.as_str()) {
            assert_eq!(fs::read_to_string(&kept).unwrap(), kept_list);
            let (plan, _, _) = run(&["plan", &kept], b"");
            assert!(String::from_utf8(plan).unwrap().contains("\nA quick 0 best 0\n"));
            fs::remove_file(&kept).unwrap();
        }
        // The list is as it was, and nothing else is left.
        assert_eq!(names_in(&folder), ["list.txt"]);
        assert_eq!(fs::read_to_string(&list).unwrap(), BOARD);
    }
    // Quantities stay in both forms, and a longer output of an earlier run is replaced whole.
    fs::write(&job, [&EXAMPLE[..], &[1; 5000]].concat()).unwrap();
    let twice = BOARD.replace("A h=2", "A x2 h=2");
    let printed = KEPT.replace("A keeps", "A x2 keeps");
    let arguments = ["keep", "1", "-", "--job", &job, "--list", &kept, "--force"];
    assert_eq!(run(&arguments, twice.as_bytes()), given(printed.as_bytes()));
    assert_eq!(run(&["show", &job], b""), given(b"rack 2\n0 x2 : 0\n1 : 0\n2 : 1\n3 : 0\n"));
    assert_eq!(fs::read_to_string(&kept).unwrap(), kept_list.replace("A h=2", "A x2 h=2"));
    // From a job file the list has line numbers.
    assert_eq!(run(&["keep", "1", "-", "--list", &kept, "--force"], &EXAMPLE).2, 0);
    assert_eq!(fs::read_to_string(&kept).unwrap(), "rack 3\n0 : 0\n1 : 1-2\n");
}

#[test]
fn outputs_replace_only_job_files() {
    let folder = folder("kept-files");
    let (left, right) = (typed(&folder, "left.txt"), typed(&folder, "right.txt"));
    let (third, job) = (typed(&folder, "third.txt"), typed(&folder, "panel.job"));
    for list in [&left, &right, &third] {
        fs::write(list, BOARD).unwrap();
    }
    fs::write(&job, "TIP old").unwrap();
    let why = format!(
        "{third}: this file is there already, and is no job file; name another one, or add --force to replace it"
    );
    for option in ["--job", "-o"] {
        assert_eq!(run(&["panel", &left, &right, option, &third], b""), refused(&why));
        assert_eq!(run(&["keep", "1", &left, option, &third], b""), refused(&why));
        assert_eq!(run(&["goal", "1", &left, option, &third], b""), refused(&why));
    }
    assert_eq!(run(&["mend", "-", &third], &EXAMPLE), refused(&why));
    assert_eq!(run(&["mend", "-", "-o", &third], &EXAMPLE), refused(&why));
    assert_eq!(run(&["make", "-o", &third, &left], b""), refused(&why));
    let why = format!("{third}: this file is there already; name another one, or add --force to replace it");
    assert_eq!(run(&["keep", "1", &left, "--list", &third], b""), refused(&why));
    assert_eq!(run(&["plan", &left, "-o", &third], b""), refused(&why));
    let why = format!("{job}: this file is there already; name another one, or add --force to replace it");

    assert_eq!(run(&["picture", &left, "-o", &job], b""), refused(&why));
    assert_eq!((fs::read_to_string(&third).unwrap(), fs::read(&job).unwrap()), (BOARD.into(), b"TIP old".to_vec()));
    // A job file replaces a job file; with --force every file is replaced but one that was read.
    assert_eq!(run(&["panel", &left, &right, "--job", &job], b"").2, 0);
    assert_eq!(run(&["show", &job], b"").0.split(|&byte| byte == b'\n').count(), 10);
    assert_eq!(run(&["make", &left, &format!("-o={third}"), "--force"], b""), given(b""));
    assert_eq!(run(&["show", &third], b""), given(b"rack 2\n0 : 0-1\n1 : 0\n2 : 1\n3 : 0\n"));
    let why = format!("{left}: this is the file that was read; name another one to write");
    assert_eq!(run(&["plan", &left, "-o", &left, "--force"], b""), refused(&why));
    let why = wrong_argument("--job and -o name one file; take one of them out");
    assert_eq!(run(&["keep", "1", &left, "-o", &job, "--job", &job], b""), why);
    assert_eq!(names_in(&folder), ["left.txt", "panel.job", "right.txt", "third.txt"]);
}

#[test]
fn options_take_their_value_behind_a_space_or_a_sign() {
    for words in [&["plan", "-", "--mounted=1"][..], &["plan", "--mounted", "1", "-"]] {
        let plan = String::from_utf8(run(words, LIST.as_bytes()).0).unwrap();
        assert!(plan.contains("\ntip 1 mounted\n"), "{words:?}: {plan}");
    }
    let usage = "usage: parts plan FILE [--mounted T] [--price P] [--fewest-tips] [--in-order] [--in-placing-order] [--format FORMAT] [--plan PLAN]\n`parts plan --help` says more";
    for (words, what) in [
        (&["plan", "-", "--force=1"][..], "--force takes nothing behind it"),
        (&["plan", "-", "--mounted=1", "--mounted=2"], "--mounted stands twice; name it once"),
        (&["plan", "-", "-o"], "-o needs OUT behind it"),
        (&["plan", "-", "--unknown=1"], "parts plan has no option --unknown"),
    ] {
        assert_eq!(run(words, LIST.as_bytes()), wrong_argument(&format!("{what}\n{usage}")), "{words:?}");
    }
}

#[test]
fn file_names_need_not_be_text() {
    let folder = folder("names");
    let name = |bytes: &[u8]| folder.join(OsStr::from_bytes(bytes));
    let (list, job) = (name(b"Gr\xfc\xdfe.txt"), name(b"Gr\xfc\xdfe.job"));
    fs::write(&list, LIST).unwrap();
    let typed = |words: &[&OsStr]| run_with(program(&[]).args(words), b"");
    let made = typed(&["make".as_ref(), list.as_os_str(), "-o".as_ref(), job.as_os_str()]);
    assert_eq!((made, fs::read(&job).unwrap()), (given(b""), EXAMPLE.to_vec()));
    // What a name has of control characters is never printed.
    let escaping = name(b"a\x1b[31m\n\xe2\x80\xae.txt");
    let (_, why, status) = typed(&["plan".as_ref(), escaping.as_os_str()]);
    assert_eq!(status, 1);
    assert!(
        why.ends_with("a\\u{1b}[31m\\u{a}\\u{202e}.txt: there is no such file or folder; correct the name\n"),
        "{why}"
    );
    let why = typed(&["\u{1b}".as_ref()]).1;
    assert_eq!(why, "parts has no command \\u{1b}; `parts --help` names its commands\n");
}

fn names_in(folder: &Path) -> Vec<String> {
    let entries = fs::read_dir(folder).unwrap();
    let mut names: Vec<String> = entries.map(|entry| entry.unwrap().file_name().into_string().unwrap()).collect();
    names.sort();
    names
}

#[test]
fn refused_keep_leaves_the_file_as_it_is() {
    let job = typed(&folder("refused"), "out.job");
    fs::write(&job, "TIP old").unwrap();
    let why = "-: refused 26: margin -1, no plan is within k 0; the least k is 1";
    assert_eq!(run(&["keep", "0", "-", "--job", &job], &EXAMPLE), refused(why));
    assert_eq!(fs::read(&job).unwrap(), b"TIP old");
}

#[test]
fn list_that_was_read_is_never_written() {
    let folder = folder("same");
    let list = typed(&folder, "list.txt");
    fs::write(&list, BOARD).unwrap();
    fs::create_dir(folder.join("inner")).unwrap();
    symlink("../list.txt", folder.join("inner/link")).unwrap();
    fs::hard_link(&list, folder.join("hard")).unwrap();
    for name in ["list.txt", "./list.txt", "inner/../list.txt", "inner/link", "hard"] {
        let out = typed(&folder, name);
        let why = refused(&format!("{out}: this is the file that was read; name another one to write"));
        assert_eq!(run(&["keep", "1", &list, "--job", &out], b""), why);
        assert_eq!(run(&["keep", "1", &list, "--list", &out], b""), why);
        // The input by its other names, and as standard input.
        assert_eq!(run(&["keep", "1", &out, "--job", &out], b""), why);
        let stream = run_with(program(&["keep", "1", "-", "--job", &out]).stdin(File::open(&list).unwrap()), b"");
        assert_eq!(stream, why);
    }
    assert_eq!(fs::read_to_string(&list).unwrap(), BOARD);
    assert_eq!(names_in(&folder), ["hard", "inner", "list.txt"]);
}

#[test]
fn one_file_is_not_job_and_list() {
    let folder = folder("twice");
    for (job, list) in [("out", "out"), ("out", "./out")] {
        let (job, list) = (typed(&folder, job), typed(&folder, list));
        let why = wrong_argument(&format!("{list}: this is JOB and LIST; name two files"));
        assert_eq!(run(&["keep", "1", "-", "--job", &job, "--list", &list], &EXAMPLE), why);
    }
    assert!(names_in(&folder).is_empty());
    let why = wrong_argument("-: this is standard input; name a file to write");
    assert_eq!(run(&["keep", "1", "-", "--job", "-"], &EXAMPLE), why);
    assert_eq!(run(&["keep", "1", "-", "--list", "-"], &EXAMPLE), why);
}

#[test]
fn written_file_keeps_its_link_and_its_permissions() {
    let folder = folder("links");
    let (job, link) = (typed(&folder, "out.job"), typed(&folder, "link"));
    fs::write(&job, "TIP old").unwrap();
    fs::set_permissions(&job, fs::Permissions::from_mode(0o640)).unwrap();
    symlink("out.job", &link).unwrap();
    assert_eq!(run(&["keep", "1", "-", "--job", &link], &EXAMPLE).2, 0);
    assert_eq!(fs::read(&job).unwrap(), EXAMPLE);
    assert_eq!(fs::metadata(&job).unwrap().permissions().mode() & 0o777, 0o640);
    assert_eq!(fs::read_link(&link).unwrap().to_str(), Some("out.job"));
    assert_eq!(names_in(&folder), ["link", "out.job"]);
}

#[test]
fn file_that_cannot_be_written_is_named_and_nothing_is_left() {
    let folder = folder("failing");
    let (job, list) = (typed(&folder, "out.job"), typed(&folder, "kept.txt"));
    fs::write(&job, "TIP old").unwrap();
    let missing = typed(&folder, "no-such-folder/kept.txt");
    symlink("nowhere", folder.join("dangling")).unwrap();
    let dangling = typed(&folder, "dangling");
    for (out, why) in [
        (missing.as_str(), "there is no such file or folder; correct the name"),
        (dangling.as_str(), "there is no such file or folder; correct the name"),
        (folder.to_str().unwrap(), "this is a folder; name a file"),
        ("/dev/full", "the disk is full; make room on it"),
    ] {
        let why = refused(&format!("{out}: {why}"));
        assert_eq!(run(&["keep", "1", "-", "--job", out], &EXAMPLE), why);
        // The job file could be written, and is not, because the list cannot.
        assert_eq!(run(&["keep", "1", "-", "--job", &job, "--list", out], &EXAMPLE), why);
        assert_eq!(fs::read(&job).unwrap(), b"TIP old");
        assert_eq!(names_in(&folder), ["dangling", "out.job"]);
    }
    // A limit of no bytes at all stands for a full disk; its signal is ignored, so that writing fails instead.
    let limited = "trap '' XFSZ; ulimit -f 0; exec \"$0\" \"$@\"";
    let mut program = Command::new("sh");
    program.args(["-c", limited, env!("CARGO_BIN_EXE_parts"), "keep", "1", "-", "--job", &job, "--list", &list]);
    program.stdin(Stdio::piped()).stdout(Stdio::piped()).stderr(Stdio::piped());
    let why = refused(&format!("{job}: File too large (os error 27)"));
    assert_eq!(run_with(&mut program, &EXAMPLE), why);
    assert_eq!(fs::read(&job).unwrap(), b"TIP old");
    assert_eq!(names_in(&folder), ["dangling", "out.job"]);
}

#[test]
fn pipe_is_written_to_as_it_is() {
    let pipe = "parts=$1; printf 'rack 1\\nA : 0\\n' | $parts keep 0 - --job /dev/fd/3 3>&1 >/dev/null | $parts show -";
    let mut program = Command::new("sh");
    program.args(["-c", pipe, "sh", env!("CARGO_BIN_EXE_parts")]);
    program.stdin(Stdio::null()).stdout(Stdio::piped()).stderr(Stdio::piped());
    assert_eq!(run_with(&mut program, b""), given(b"rack 1\n0 : 0\n"));
}

#[test]
fn prices_are_numbers_and_one() {
    let exact = |words: &[&str]| String::from_utf8(run(&[&["plan", "-"], words].concat(), LIST.as_bytes()).0).unwrap();
    assert!(exact(&["--price", "7"]).contains("\nbest 0\nexact 0, price 7 a tip\nC1 quick 0 best 0 exact 0\n"));
    assert_eq!(exact(&["--fewest-tips"]), exact(&["--price", "4294967295"]));
    for price in ["4294967296", "-1", "x", "", "+1"] {
        let why = format!("a price is a number from 0 to 4294967295, and not {price}");
        assert_eq!(run(&["plan", "-", "--price", price], LIST.as_bytes()), wrong_argument(&why));
    }
    let why = "--price and --fewest-tips name two prices; take one of them out";
    assert_eq!(run(&["plan", "-", "--price", "1", "--fewest-tips"], LIST.as_bytes()), wrong_argument(why));
}

#[test]
fn mounted_tip_is_named_before_the_file_or_behind_it() {
    let plan = "lines 2 rack 3\noff 1 tips 0 1 2\nquick 0\nbest 0\nC1 quick 0 best 0\nC2 quick 2 best 2\n\n\
                parts on tip 0 quick 1 best 1\nparts on tip 2 quick 1 best 1\ntip 2 mounted\n\
                plan   pairs  tips  changes in the list's order  changes in the order by tips\n\
                quick      0     2                            2                             1\n\
                best       0     2                            2                             1\n";
    for arguments in [["plan", "-", "--mounted", "2"], ["plan", "--mounted", "2", "-"]] {
        assert_eq!(run(&arguments, LIST.as_bytes()), given(plan.as_bytes()));
    }
    let why = "-: refused 16: the mounted tip 3 is outside the rack of 3; name a tip from 0 to 2, or none";
    assert_eq!(run(&["plan", "-", "--mounted", "3"], LIST.as_bytes()), refused(why));
    let why = "-: refused 16: the mounted tip 63 is outside the rack of 1; name tip 0, or none";
    assert_eq!(run(&["plan", "-", "--mounted", "63"], b"rack 1\n"), refused(why));
    for tip in ["64", "-1", "x", "", "+1", "1.0", "18446744073709551615"] {
        let why = format!("a tip is a number from 0 to 63, and not {tip}");
        assert_eq!(run(&["plan", "-", "--mounted", tip], LIST.as_bytes()), wrong_argument(&why));
    }
}

#[test]
fn goal_writes_the_job_file_and_the_list() {
    let folder = folder("goal");
    let (job, kept) = (typed(&folder, "goal.job"), typed(&folder, "goal.txt"));
    let list = b"# board\nrack 2\nA x2 : 0\nB : 0-1 # either\n";
    let text = b"best 3 goal 3\nB keeps 0 struck 1\nno tip struck from 1 part\n";
    assert_eq!(run(&["goal", "3", "-", "--job", &job, "--list", &kept], list), given(text));
    assert_eq!(fs::read(&kept).unwrap(), b"# board\nrack 2\nA x2 : 0\nB : 0   # either\n");
    assert_eq!(run(&["show", &job], b""), given(b"rack 2\n0 x2 : 0\n1 : 0\n"));
    let why = "-: refused 34: no plan has 4 pairs; the most is 3, name a goal from 0 to 3";
    assert_eq!(run(&["goal", "4", "-", "--job", &job], list), refused(why));
    assert_eq!(run(&["show", &job], b""), given(b"rack 2\n0 x2 : 0\n1 : 0\n"));
    for goal in ["", "-1", "4294967296", "1.5", "+1"] {
        let why = format!("a goal is a number from 0 to 4294967295, and not {goal}");
        assert_eq!(run(&["goal", goal, "-"], list), wrong_argument(&why));
    }
}

#[test]
fn junior_takes_lists_and_job_files() {
    let of_list = b"lines 2 rack 3\nholders tip 0 and tip 1\npairs 0\nC1 tip 0\nC2 tip 1\n";
    assert_eq!(run(&["junior", "-"], LIST.as_bytes()), given(of_list));
    let of_file = b"lines 2 rack 3\nholders tip 0 and tip 1\npairs 0\nline 0 tip 0\nline 1 tip 1\n";
    assert_eq!(run(&["junior", "-"], &EXAMPLE), given(of_file));
    let why = "-: refused 1: a rack of 9; the Junior takes 8 tips at most, name a smaller rack";
    assert_eq!(run(&["junior", "-"], b"rack 9\nA : 0\n"), refused(why));
}

#[test]
fn k_out_of_range_is_named() {
    for k in ["65536", "-1", "x", "", "+1", "1.0"] {
        let why = format!("k is a number from 0 to 65535, and not {k}");
        assert_eq!(run(&["keep", k, "-"], &EXAMPLE), wrong_argument(&why));
    }
}

#[test]
fn imported_files_are_read_from_standard_input_too() {
    let folder = folder("imported");
    let (file, tips) = (typed(&folder, "board.csv"), typed(&folder, "tips.txt"));
    let rows = "Ref,Val,Package,PosX,PosY,Rot,Side\nR1,1k,R0402,0,0,0,top\nR2,1k,R0402,0,0,0,top\n";
    fs::write(&file, rows).unwrap();
    fs::write(&tips, "rack 2\nR* : 0-1\n").unwrap();
    let list = b"rack 2\nR1 x2 : 0-1 # R0402 1k: R1 R2\n";
    assert_eq!(run(&["import", "kicad", &file, "--tips", &tips], b""), given(list));
    assert_eq!(run(&["import", "kicad", "--tips", &tips, "-"], rows.as_bytes()), given(list));
    assert_eq!(run(&["import", "kicad", &file, "--tips", "-"], b"rack 2\nR* : 0-1\n"), given(list));
    let why = "-: this is standard input for two files; name a file for one of them";
    assert_eq!(run(&["import", "kicad", "-", "--tips", "-"], b""), wrong_argument(why));
    let why = format!(
        "{file}:2: no row matches R0402, the package of R1 R2; add `R0402 : TIPS` or `skip R0402` to the table"
    );
    assert_eq!(run(&["import", "kicad", &file, "--tips", "-"], b"rack 2\n"), refused(&why));
    let columns = ["--columns", "ref=Ref,package=Package", "--side", "top"];
    let list = b"rack 2\nR1 x2 : 0-1 # R0402: R1 R2\n";
    assert_eq!(run(&["import", "csv", &file, "--tips", &tips, columns[0], columns[1]], b""), given(list));
    let sided = run(&[&["import", "csv", &file, "--tips", &tips], &columns[..]].concat(), b"");
    assert_eq!(sided, refused(&format!("{file}:2: no side; take --side out, or name the sides")));
}

#[test]
fn lists_job_files_and_tables_are_compared() {
    let folder = folder("compared");
    let (old, new) = (typed(&folder, "old.txt"), typed(&folder, "new.txt"));
    let compared = |before: &str, after: &str| {
        fs::write(&old, before).unwrap();
        fs::write(&new, after).unwrap();
        let (text, why, status) = run(&["compare", &old, &new], b"");
        assert_eq!(status, 0, "{why}");
        String::from_utf8(text).unwrap()
    };
    assert_eq!(compared(LIST, LIST), "2 parts the same\n");
    // In another order the plans stay.
    let turned = "rack 3\nC2 height=1 : 1-2\nC1 height=2 : 0\n";
    assert_eq!(compared(LIST, turned), "the parts are in another order\n2 parts the same\n");
    let more = "rack 4\nC1 x3 height=3 fine : 0-1\nC2 height=1 : 1-2\n: 1 3\n";
    let text =
        "rack 3, then 4\nC1 tips 0, then 0-1\nC1 quantity 1, then 3\nC1 height 2, then 3\nC1 fine none, then yes\n\
                only in the second: line 2 tips 1 3, quantity 1\n1 part the same\nquick 0, then 10\nbest 0, then exact 10\n\
                C1 quick on tip 0, then 1\n";
    assert_eq!(compared(LIST, more), text);
    assert_eq!(
        compared("rack 1\nA : 0\nB : 0\n", "rack 1\nB : 0\n"),
        "only in the first: A tips 0, quantity 1\n1 part the same\nquick 1, then 0\nbest 1, then 0\n"
    );
    assert_eq!(
        compared("rack 1\nA : 0\nB : 0\nbefore A B\n", "rack 1\nA : 0\nB : 0\n"),
        "2 parts the same\nthe rules of the placing order differ\n"
    );
    let table = "rack 2\nR_0402* h=1 : 0\nR* : 1\nskip F*\nskip value DNP\n";
    let text = "R_0402* words h=1, then none\nR_0402* is placed, then left out\nR_0402* tips 0, then none\n";
    let changed = compared(table, "rack 2\nR* : 1\nskip R_0402*\nskip F*\nskip value X\n");
    assert!(text.lines().all(|line| changed.lines().any(|other| other == line)), "{changed}");
    assert!(
        changed.ends_with(
            "only in the first: value DNP is left out\nonly in the second: value X is left out\n\
                               the rows are in another order, and the first that matches counts\n2 rows the same\n"
        ),
        "{changed}"
    );
    let job = typed(&folder, "old.job");
    fs::write(&job, EXAMPLE).unwrap();
    assert_eq!(run(&["compare", &job, "-"], &EXAMPLE), given(b"2 parts the same\n"));
    assert_eq!(run(&["compare", &job, "-"], LIST.as_bytes()), given(b"2 parts the same\n"));
    assert_eq!(run(&["compare", "-", &job], LIST.as_bytes()), given(b"2 parts the same\n"));
    let why = wrong_argument("-: this is both files; name a file for one of them");
    assert_eq!(run(&["compare", "-", "-"], b""), why);
    fs::write(&old, table).unwrap();
    let why = "this is no table of tips, and the other file is one; compare two files of a kind";
    fs::write(&new, "Ref,Val,Package\n").unwrap();
    assert_eq!(run(&["compare", &old, &new], b""), refused(&format!("{new}: {why}")));
}

#[test]
fn table_is_begun_from_a_board() {
    let rows =
        "Ref,Val,Package,PosX,PosY,Rot,Side\nR1,1k,R_0402,0,0,0,top\nC1,1u,A B,0,0,0,top\nR2,2k,R_0402,0,0,0,top\n\
                F1,F,Fiducial_1mm,0,0,0,top\nD1,DNP,D_1,0,0,0,top\n";
    let (begun, why, status) = run(&["import", "kicad", "-", "--start-table"], rows.as_bytes());
    assert_eq!((why.as_str(), status), ("", 0));
    let begun = String::from_utf8(begun).unwrap();
    let table = "rack ?\nR_0402 : # 2 placements: R1 R2\nA?B : # 1 placement: C1\n\
                 skip Fiducial_1mm # 1 placement: F1\nD_1 : # 1 placement: D1\n";
    assert!(begun.ends_with(table), "{begun}");
    let folder = folder("begun");
    let tips = typed(&folder, "tips.txt");
    // Nothing is imported with it before it is filled.
    fs::write(&tips, &begun).unwrap();
    let (_, why, status) = run(&["import", "kicad", "-", "--tips", &tips], rows.as_bytes());
    assert_eq!((why.lines().count(), status), (4, 1), "{why}");
    let filled = begun.replace("rack ?", "rack 2").replace(" : #", " : 0-1 #");
    fs::write(&tips, &filled).unwrap();
    let list = run(&["import", "kicad", "-", "--tips", &tips], rows.as_bytes());
    assert_eq!((list.0.split(|&byte| byte == b'\n').count(), list.2), (7, 0));
    let every = given(b"# every package has a row\n");
    assert_eq!(run(&["import", "kicad", "-", "--tips", &tips, "--start-table"], rows.as_bytes()), every);
    // With a table only what it lacks.
    fs::write(&tips, "rack 2\nA* : 0\nskip F*\nskip value DNP\n").unwrap();
    let lacking = given(b"R_0402 : # 2 placements: R1 R2\n");
    assert_eq!(run(&["import", "kicad", "--start-table", "-", "--tips", &tips], rows.as_bytes()), lacking);
    let many: String = (1..=7).map(|number| format!("R{number},1,P,0,0,0,top\n")).collect();
    let many = "Ref,Val,Package,PosX,PosY,Rot,Side\n".to_string() + &many;
    let (begun, _, _) = run(&["import", "kicad", "-", "--start-table"], many.as_bytes());
    assert!(begun.ends_with(b"P : # 7 placements: R1 R2 R3 R4 R5 R6 ..\n"));
}

#[test]
fn every_package_without_a_row_is_told() {
    let rows: String = (0..30).map(|row| format!("R{row},1k,P{row},0,0,0,top\n")).collect();
    let rows = "Ref,Val,Package,PosX,PosY,Rot,Side\n".to_string() + &rows;
    let folder = folder("strange");
    let tips = typed(&folder, "tips.txt");
    fs::write(&tips, "rack 2\nR* : 0-1\n").unwrap();
    let (list, why, status) = run(&["import", "kicad", "-", "--tips", &tips], rows.as_bytes());
    assert_eq!((list.len(), why.lines().count(), status), (0, 30, 1));
}

/// What bash offers for the last of these words.
fn completed(words: &[&str]) -> Vec<String> {
    let script = "source <(\"$1\" completion bash); shift; COMP_WORDS=(\"$@\"); COMP_CWORD=$(($# - 1)); _parts; \
                  printf '%s\\n' \"${COMPREPLY[@]}\"";
    let mut bash = Command::new("bash");
    bash.args(["--norc", "-c", script, "bash", env!("CARGO_BIN_EXE_parts"), "parts"]).args(words);
    bash.stdin(Stdio::piped()).stdout(Stdio::piped()).stderr(Stdio::piped());
    let (offered, messages, status) = run_with(&mut bash, b"");
    assert_eq!((messages.as_str(), status), ("", 0), "{words:?}");
    String::from_utf8(offered).unwrap().lines().filter(|line| !line.is_empty()).map(String::from).collect()
}

#[test]
fn bash_completes_commands_and_options() {
    let firsts = completed(&[""]);
    for command in COMMANDS {
        let first = command.split(' ').next().unwrap();
        assert_eq!(firsts.iter().filter(|word| *word == first).count(), 1, "{command}");
    }
    assert_eq!(completed(&["pl"]), ["plan"]);
    assert_eq!(completed(&["import", ""]), ["kicad", "openpnp", "csv"]);
    assert_eq!(completed(&["help", "import", "o"]), ["openpnp"]);
    assert_eq!(completed(&["completion", ""]), ["bash"]);
    assert_eq!(
        completed(&["plan", "a", "--"]),
        [
            "--mounted",
            "--price",
            "--fewest-tips",
            "--in-order",
            "--in-placing-order",
            "--format",
            "--plan",
            "--force",
            "--help"
        ]
    );
    assert_eq!(completed(&["plan", "a", "--format", ""]), ["text", "csv", "json"]);
    assert_eq!(completed(&["import", "csv", "a", "--c"]), ["--columns"]);
    assert_eq!(completed(&["import", "csv", "a", "--side", "b"]), ["bottom", "both"]);
    // Files are completed by bash itself.
    assert!(completed(&["plan", ""]).is_empty() && completed(&["draw", "--"]).is_empty());
}
