//! Compares the proved library with the second implementation over seeded files.

use std::path::{Path, PathBuf};
use std::process::ExitCode;
use std::time::Instant;
use std::{env, fs};

use compare::check::Difference;
use compare::mistakes::{mistakes, mistakes_of_panels_and_mendings};
use compare::order_mistakes::order_mistakes;
use compare::orders::{Orders, CALL_NAMES};
use compare::record::Record;
use compare::run::{compare_program, Run};
use compare::sought::Sought;

const DEFAULT_CASES: u64 = 560_000;
/// The fixed and the small boards take some 460,000; with fewer there would be no seeded ones.
const LEAST_CASES: u64 = 500_000;
const DEFAULT_FILES: u64 = 2_000;
const LEAST_FILES: u64 = 1_000;
const DEFAULT_SEED: u64 = 1;
/// The calls on job files for each call on parts and rules.
const CALLS_AN_ORDER: u64 = 15;

/// How many calls are recorded.
const DEFAULT_RECORDED: u64 = 200_000;

const USAGE: &str = "\
compare [--cases N] [--seed S] [--last FILE]     compare the library on N calls, 560,000 without N, 500,000 at least
compare --record FILE [--recorded M]             the same, and M of its calls are written to FILE, 200,000 without M, to be
                                                 made again on another machine (targets/README.md)
compare --orders N [--seed S]                    compare it on N placing orders alone
compare --mendings N [--seed S]                  compare it on N calls that mend, and some that read what is mended
compare --hex FILE [--seed S]                    compare it on one job file, given as hex digits
compare --program PROGRAM [--files N]            compare what the program prints and its exit status for N
                                                 files, 2,000 without N, 1,000 at least
compare --self-test [--seed S]                   compare the library with a mistake put in, for each mistake that
                                                 must be found
--last FILE writes each job file to FILE before its calls, to find one that ends the program.";

struct Settings {
    cases: u64,
    files: u64,
    seed: u64,
    last: Option<PathBuf>,
    record: Option<PathBuf>,
    recorded: u64,
    hex: Option<PathBuf>,
    program: Option<String>,
    orders: Option<u64>,
    mendings: Option<u64>,
    self_test: bool,
}

/// The settings of the command line, or what is wrong with it.
fn settings() -> Result<Settings, String> {
    let mut settings = Settings {
        cases: DEFAULT_CASES,
        files: DEFAULT_FILES,
        seed: DEFAULT_SEED,
        last: None,
        record: None,
        recorded: DEFAULT_RECORDED,
        hex: None,
        program: None,
        orders: None,
        mendings: None,
        self_test: false,
    };
    let mut arguments = env::args().skip(1);
    while let Some(name) = arguments.next() {
        if name == "--self-test" {
            settings.self_test = true;
            continue;
        }
        let value = arguments.next().ok_or(USAGE)?;
        match name.as_str() {
            "--cases" => settings.cases = number(&name, &value, LEAST_CASES)?,
            "--files" => settings.files = number(&name, &value, LEAST_FILES)?,
            "--seed" => settings.seed = number(&name, &value, 0)?,
            "--last" => settings.last = Some(value.into()),
            "--record" => settings.record = Some(value.into()),
            "--recorded" => settings.recorded = number(&name, &value, 1)?,
            "--hex" => settings.hex = Some(value.into()),
            "--program" => settings.program = Some(value),
            "--orders" => settings.orders = Some(number(&name, &value, 1)?),
            "--mendings" => settings.mendings = Some(number(&name, &value, 1)?),
            _ => return Err(USAGE.into()),
        }
    }
    Ok(settings)
}

fn number(name: &str, value: &str, least: u64) -> Result<u64, String> {
    let number = value.parse().ok().filter(|&number| number >= least);
    number.ok_or_else(|| format!("{name} takes a number from {least} on, and not {value}"))
}

fn main() -> ExitCode {
    let settings = match settings() {
        Ok(settings) => settings,
        Err(why) => {
            eprintln!("{why}");
            return ExitCode::from(2);
        }
    };
    let result = if settings.self_test {
        return find_mistakes(&settings);
    } else if let Some(calls) = settings.orders {
        return compare_orders(settings.seed, calls, None);
    } else if let Some(calls) = settings.mendings {
        let mut run = Run::new(settings.seed, calls, settings.last);
        run.mendings().map(|()| println!("{} calls on {} files, no difference", run.tally.cases, run.tally.files))
    } else if let Some(program) = &settings.program {
        let files = settings.files;
        compare_program(program, settings.seed, files).map(|()| println!("{program}: {files} files, no difference"))
    } else if let Some(path) = &settings.hex {
        let Some(file) = fs::read_to_string(path).ok().and_then(|text| bytes_of(&text)) else {
            eprintln!("{} holds no hex digits", path.display());
            return ExitCode::from(2);
        };
        let mut run = Run::new(settings.seed, 0, settings.last);
        run.one_file(&file).map(|()| println!("{} calls, no difference", run.tally.cases))
    } else {
        return compare_library(settings);
    };
    match result {
        Ok(()) => ExitCode::SUCCESS,
        Err(difference) => fail(&difference),
    }
}

fn compare_library(settings: Settings) -> ExitCode {
    let start = Instant::now();
    let orders = settings.cases / CALLS_AN_ORDER;
    let mut run = Run::new(settings.seed, settings.cases, settings.last);
    run.record = settings.record.as_deref().map(|file| record_in(file, settings.cases + orders, settings.recorded));
    let result = run.all();
    let seconds = start.elapsed().as_secs_f64();
    let tally = &run.tally;
    println!("{tally}");
    println!("seed {}: {} cases on {} files, {} of them boards", settings.seed, tally.cases, tally.files, tally.boards);
    println!("{seconds:.1} s, {:.0} cases a second", tally.cases as f64 / seconds);
    if let Err(difference) = result {
        return fail(&difference);
    }
    let missing = tally.missing();
    for what in &missing {
        println!("NEVER OCCURRED: {what}");
    }
    if !missing.is_empty() {
        return ExitCode::FAILURE;
    }
    compare_orders(settings.seed, orders, run.record)
}

/// A record of some calls.
fn record_in(file: &Path, calls: u64, recorded: u64) -> Record {
    Record::new(file, calls, recorded).expect("making the file asked for with --record")
}

fn compare_orders(seed: u64, calls: u64, record: Option<Record>) -> ExitCode {
    let mut orders = Orders::new(seed, calls);
    orders.record = record;
    let result = orders.all();
    println!("{}", orders.tally);
    if let Err(difference) = result {
        println!("{difference}");
        return ExitCode::FAILURE;
    }
    let missing = orders.tally.missing();
    for what in &missing {
        println!("NEVER OCCURRED: {what}");
    }
    if !missing.is_empty() {
        return ExitCode::FAILURE;
    }
    if let Some(record) = orders.record {
        println!("{} calls recorded", record.end().expect("writing the file asked for with --record"));
    }
    println!("no difference");
    ExitCode::SUCCESS
}

/// A part of the comparison.
type Part = fn(&mut Run) -> Result<(), Difference>;

/// Every mistake put into the library must be found.
fn find_mistakes(settings: &Settings) -> ExitCode {
    // Each kind is looked for first where it can be seen.
    let kinds: [(Vec<_>, Part); 2] = [
        (mistakes().map(Sought::new).collect(), Run::seeded),
        (mistakes_of_panels_and_mendings().map(Sought::new).collect(), Run::panels_and_mendings),
    ];
    let mut found = Vec::new();
    for (sought, part) in kinds {
        let mut run = Run::new(settings.seed, settings.cases, None).seeking(sought);
        if let Err(difference) = part(&mut run) {
            return fail(&difference);
        }
        found.extend(run.sought.iter().map(|mistake| (mistake.what.to_string(), mistake.found_after)));
    }
    let sought = order_mistakes().map(|of_call| of_call.into_iter().map(Sought::new).collect());
    let mut orders = Orders::new(settings.seed, settings.cases / CALLS_AN_ORDER).seeking(sought);
    if let Err(difference) = orders.all() {
        println!("{difference}");
        return ExitCode::FAILURE;
    }
    for (name, of_call) in CALL_NAMES.iter().zip(&orders.sought) {
        found.extend(of_call.iter().map(|mistake| (format!("{name}: {}", mistake.what), mistake.found_after)));
    }
    for (what, found_after) in &found {
        match found_after {
            Some(calls) => println!("found  after {calls:>6} calls: {what}"),
            None => println!("MISSED: {what}"),
        }
    }
    let missed = found.iter().filter(|(_, found_after)| found_after.is_none()).count();
    println!("{} mistakes, {missed} missed", found.len());
    if missed == 0 && !found.is_empty() {
        ExitCode::SUCCESS
    } else {
        ExitCode::FAILURE
    }
}

fn fail(difference: &Difference) -> ExitCode {
    println!("{difference}");
    ExitCode::FAILURE
}

/// The bytes of a text of hex digits, with any space between them.
fn bytes_of(text: &str) -> Option<Vec<u8>> {
    let digits: Option<Vec<u8>> =
        text.chars().filter(|c| !c.is_whitespace()).map(|c| c.to_digit(16).map(|digit| digit as u8)).collect();
    let digits = digits?;
    if digits.len() % 2 == 1 {
        return None;
    }
    Some(digits.chunks(2).map(|pair| pair[0] << 4 | pair[1]).collect())
}
