//! The commands, and what they share.

use std::ffi::OsStr;
use std::fmt::Display;
use std::io::{self, IsTerminal, Write};
use std::path::Path;
use std::str::FromStr;

use parts::checking::Refused;
use parts::exporting::Format;
use parts::files::{of_standard_output, Identity, Input, Output};
use parts::handed::Handed;
use parts::import::csv::{self, Columns};
use parts::import::kicad;
use parts::import::openpnp::{Board, Packages, Parts};
use parts::import::table::{self, Table};
use parts::import::{is_foreign, Faults, Placement, Sides};
use parts::job::{has_mark, is_job, job_of, list_in_words};
use parts::letters::shown;
use parts::limits::too_large;
use parts::list::{Fault, List};
use parts::mending;
use parts::panel::Panel;
use parts::planning::{Along, Kept, Named, Which, Wish, FEWEST_TIPS};
use parts::MOST_TIPS;

use crate::arguments::{Arguments, FORCE, OUTPUT, START_TABLE, TABLE};
use crate::completion;

/// The most faults of a list that are printed.
const MOST_FAULTS: usize = 20;

/// What a bound of keep is.
const K: &str = "k is a number from 0 to 65535";

/// Why a command ends without its result.
pub enum Failure {
    /// The arguments are not those of a command.
    Arguments,
    /// One argument is not what the command takes.
    Argument(String),
    /// A file was refused, or could not be read or written.
    Refused(String),
    /// What was written lacks parts of what was read.
    Lost(String),
}

/// What a command writes to a file.
#[derive(Clone, Copy, PartialEq, Eq)]
enum Kind {
    Job,
    Text,
}

/// The files that a command has read, none of which it may write.
struct Files<'a> {
    arguments: &'a Arguments,
    read: Vec<Identity>,
}

impl Files<'_> {
    fn of(arguments: &Arguments) -> Files<'_> {
        Files { arguments, read: Vec::new() }
    }

    /// The bytes of a file, or of standard input for `-`, unless standard output is the same file.
    fn read(&mut self, path: &OsStr) -> Result<Vec<u8>, Failure> {
        let input = Input::read(path).map_err(|error| failed(path, error))?;
        let output = of_standard_output().map_err(lost)?;
        if output.is_some() && output == input.identity {
            return Err(about(path, "this file is standard output too; name another file behind `>`"));
        }
        if let Some(why) = too_large(&input.bytes) {
            return Err(about(path, why));
        }
        self.read.extend(input.identity);
        Ok(input.bytes)
    }

    /// The board of a parts list or of a job file.
    fn named(&mut self, path: &OsStr) -> Result<Named, Failure> {
        named(path, self.read(path)?)
    }

    fn list(&mut self, path: &OsStr) -> Result<List, Failure> {
        list_of(path, &self.read(path)?)
    }

    /// Where to write: none of the files that were read and, without `--force`, no file but a job file that a job file
    /// replaces.
    fn output<'a>(&self, path: &'a OsStr, kind: Kind) -> Result<(&'a OsStr, Output), Failure> {
        if path == "-" {
            return Err(Failure::Argument("-: this is standard input; name a file to write".into()));
        }
        let output = Output::at(Path::new(path)).map_err(|error| failed(path, error))?;
        if output.is_one_of(&self.read) {
            return Err(about(path, "this is the file that was read; name another one to write"));
        }
        let is_kept = match kind {
            Kind::Job => output.replaces_other_file().then_some("this file is there already, and is no job file"),
            Kind::Text => output.replaces_file().then_some("this file is there already"),
        };
        match is_kept.filter(|_| !self.arguments.has(FORCE)) {
            Some(why) => Err(about(path, format!("{why}; name another one, or add {FORCE} to replace it"))),
            None => Ok((path, output)),
        }
    }

    /// Where the job file goes, where one is asked for.
    fn job_output(&self) -> Result<Option<(&OsStr, Output)>, Failure> {
        match (self.arguments.option("--job"), self.arguments.option(OUTPUT)) {
            (Some(_), Some(_)) => {
                Err(Failure::Argument(format!("--job and {OUTPUT} name one file; take one of them out")))
            }
            (job, output) => job.or(output).map(|path| self.output(path, Kind::Job)).transpose(),
        }
    }

    /// Where the job file and the parts list go, where they are asked for.
    fn job_and_list(&self) -> Result<[Option<(&OsStr, Output)>; 2], Failure> {
        let job = self.job_output()?;
        let list = self.arguments.option("--list").map(|list| self.output(list, Kind::Text)).transpose()?;
        if let (Some((_, job)), Some((out, list))) = (&job, &list) {
            if list.replaces(job) {
                return Err(Failure::Argument(format!("{}: this is JOB and LIST; name two files", shown(out))));
            }
        }
        Ok([job, list])
    }

    /// Prints what the command makes, or writes it to the file behind `-o`.
    fn give(&self, kind: Kind, bytes: &[u8]) -> Result<(), Failure> {
        match self.arguments.option(OUTPUT) {
            None => print(bytes),
            Some(path) => write(vec![(self.output(path, kind)?, bytes)]),
        }
    }

    fn give_text(&self, text: &str) -> Result<(), Failure> {
        self.give(Kind::Text, text.as_bytes())
    }
}

/// Writes each of these files; only when all are written does any of them change.
fn write(outputs: Vec<((&OsStr, Output), &[u8])>) -> Result<(), Failure> {
    let mut written = Vec::new();
    for ((path, output), bytes) in outputs {
        written.push((path, output.write(bytes).map_err(|error| failed(path, error))?));
    }
    for (path, written) in written {
        written.put().map_err(|error| failed(path, error))?;
    }
    Ok(())
}

/// Writes the job file and the parts list, where they are asked for.
fn write_each(outputs: [Option<(&OsStr, Output)>; 2], bytes: [&[u8]; 2]) -> Result<(), Failure> {
    write(outputs.into_iter().zip(bytes).filter_map(|(output, bytes)| Some((output?, bytes))).collect())
}

pub fn import_kicad(arguments: &Arguments) -> Result<(), Failure> {
    import_by_table(arguments, kicad::placements_of)
}

pub fn import_csv(arguments: &Arguments) -> Result<(), Failure> {
    let columns = text_behind(arguments, "--columns")?.ok_or(Failure::Arguments)?;
    let columns = Columns::of(columns).map_err(Failure::Argument)?;
    import_by_table(arguments, |bytes| csv::placements_of(bytes, &columns))
}

/// Prints the parts list of the placements that a file has, with the tips of a table.
fn import_by_table(
    arguments: &Arguments,
    placements_of: impl Fn(&[u8]) -> Result<Vec<Placement>, Faults>,
) -> Result<(), Failure> {
    let [path] = arguments.files()[..] else { return Err(Failure::Arguments) };
    let tips = arguments.option(TABLE);
    let sides = sides_of(arguments)?;
    one_standard_input(&[path, tips.unwrap_or_default()], "this is standard input for two files")?;
    let mut files = Files::of(arguments);
    let table = tips.map(|tips| table_of(tips, &files.read(tips)?)).transpose()?;
    let bytes = files.read(path)?;
    let placements = placements_of(&bytes).map_err(|faults| match Table::read(&bytes) {
        Ok(_) => about(path, "this is a table of tips; name the file to import here, and the table behind --tips"),
        Err(_) => faulty(path, &faults),
    })?;
    if arguments.has(START_TABLE) {
        let begun = table::beginning(placements, sides, table.as_ref());
        return files.give_text(&begun.map_err(|faults| faulty(path, &faults))?);
    }
    let table = table.ok_or(Failure::Arguments)?;
    files.give_text(&table.list(placements, sides).map_err(|faults| without_tips(path, &faults))?)
}

fn table_of(path: &OsStr, bytes: &[u8]) -> Result<Table, Failure> {
    Table::read(bytes).map_err(|faults| match is_foreign(bytes) {
        true => about(path, "this is no table of tips; name the table behind --tips, and this file before it"),
        false => faulty(path, &faults),
    })
}

pub fn import_openpnp(arguments: &Arguments) -> Result<(), Failure> {
    let [packages, board] = arguments.files()[..] else { return Err(Failure::Arguments) };
    let (parts, rack, sides) = (arguments.option("--parts"), text_behind(arguments, "--rack")?, sides_of(arguments)?);
    one_standard_input(&[packages, board, parts.unwrap_or_default()], "this is standard input for two files")?;
    let mut files = Files::of(arguments);
    let known = Packages::read(&files.read(packages)?, rack).map_err(|faults| faulty(packages, &faults))?;
    let parts = match parts {
        Some(path) => Some(Parts::read(&files.read(path)?).map_err(|faults| faulty(path, &faults))?),
        None => None,
    };
    let read = Board::read(&files.read(board)?).map_err(|faults| faulty(board, &faults))?;
    files.give_text(&known.list(read, parts.as_ref(), sides).map_err(|faults| without_tips(board, &faults))?)
}

fn sides_of(arguments: &Arguments) -> Result<Sides, Failure> {
    Sides::of(text_behind(arguments, "--side")?).map_err(Failure::Argument)
}

/// That standard input is read for one file at most.
fn one_standard_input(paths: &[&OsStr], is: &str) -> Result<(), Failure> {
    if paths.iter().filter(|path| **path == "-").count() > 1 {
        return Err(Failure::Argument(format!("-: {is}; name a file for one of them")));
    }
    Ok(())
}

pub fn make(arguments: &Arguments) -> Result<(), Failure> {
    let [path] = arguments.files()[..] else { return Err(Failure::Arguments) };
    let mut files = Files::of(arguments);
    let file = files.list(path)?.job().write();
    if !arguments.has(OUTPUT) && io::stdout().is_terminal() {
        let typed = format!("parts make {} {OUTPUT} JOB", shown(path));
        return Err(Failure::Refused(format!("a job file is no text; name a file: {typed}")));
    }
    files.give(Kind::Job, &file)
}

pub fn show(arguments: &Arguments) -> Result<(), Failure> {
    let [path] = arguments.files()[..] else { return Err(Failure::Arguments) };
    let mut files = Files::of(arguments);
    let job = job_of(&files.read(path)?).map_err(|why| about(path, why))?;
    files.give_text(&list_in_words(&job))
}

pub fn sort(arguments: &Arguments) -> Result<(), Failure> {
    let [column, path] = arguments.files()[..] else { return Err(Failure::Arguments) };
    let mut files = Files::of(arguments);
    let list = files.list(path)?;
    files.give_text(&list.sorted_by(text_of(column)?).map_err(|faults| faulty(path, &faults))?)
}

pub fn keep(arguments: &Arguments) -> Result<(), Failure> {
    strike(arguments, K, |named, k| named.keep(k))
}

pub fn goal(arguments: &Arguments) -> Result<(), Failure> {
    strike(arguments, "a goal is a number from 0 to 4294967295", |named, goal| named.goal(goal))
}

/// Strikes tips by a number, prints which, and writes what is left where files are named for it.
fn strike<N: FromStr>(
    arguments: &Arguments,
    is: &str,
    strike: impl FnOnce(&Named, N) -> Result<Kept, String>,
) -> Result<(), Failure> {
    let [number, path] = arguments.files()[..] else { return Err(Failure::Arguments) };
    let Some(bound) = number_of(number) else {
        return Err(Failure::Argument(format!("{is}, and not {}", shown(number))));
    };
    let mut files = Files::of(arguments);
    let bytes = files.read(path)?;
    let outputs = files.job_and_list()?;
    let kept = strike(&named(path, bytes)?, bound).map_err(|why| about(path, why))?;
    write_each(outputs, [&kept.file, kept.list.as_bytes()])?;
    print(kept.text.as_bytes())
}

pub fn plan(arguments: &Arguments) -> Result<(), Failure> {
    let [path] = arguments.files()[..] else { return Err(Failure::Arguments) };
    let format = text_behind(arguments, "--format")?.map(Format::of).transpose().map_err(Failure::Argument)?;
    let which = text_behind(arguments, "--plan")?;
    if format.is_none() && which.is_some() {
        return Err(Failure::Argument("--plan needs a --format; without one all plans are printed".into()));
    }
    let which = which.map_or(Ok(Which::First), Which::of).map_err(Failure::Argument)?;
    let mut wish = wish_of(arguments)?;
    wish.price = wish.price.or((which == Which::Exact).then_some(0));
    let mut files = Files::of(arguments);
    let named = files.named(path)?;
    let text = match format {
        None => named.plan(wish),
        Some(format) => named.exported(format, which, wish),
    };
    files.give_text(&text.map_err(|why| about(path, why))?)
}

/// What the options ask for of the plans.
fn wish_of(arguments: &Arguments) -> Result<Wish, Failure> {
    let mounted = arguments.option("--mounted").map(tip_of).transpose()?;
    let along = match (arguments.has("--in-order"), arguments.has("--in-placing-order")) {
        (true, true) => {
            let why = "--in-order and --in-placing-order name two orders; take one of them out";
            return Err(Failure::Argument(why.into()));
        }
        (true, false) => Some(Along::List),
        (false, true) => Some(Along::PlacingOrder),
        (false, false) => None,
    };
    Ok(Wish { mounted, price: price_of(arguments)?, along })
}

/// The price of a tip for an exact plan, where one is named.
fn price_of(arguments: &Arguments) -> Result<Option<u32>, Failure> {
    let price = arguments.option("--price").map(|word| {
        let why = || format!("a price is a number from 0 to {}, and not {}", u32::MAX, shown(word));
        number_of(word).ok_or_else(|| Failure::Argument(why()))
    });
    match (price.transpose()?, arguments.has("--fewest-tips")) {
        (Some(_), true) => {
            Err(Failure::Argument("--price and --fewest-tips name two prices; take one of them out".into()))
        }
        (None, true) => Ok(Some(FEWEST_TIPS)),
        (price, false) => Ok(price),
    }
}

pub fn check(arguments: &Arguments) -> Result<(), Failure> {
    let [path, plan] = arguments.files()[..] else { return Err(Failure::Arguments) };
    one_standard_input(&[path, plan], "this is LIST and PLAN")?;
    let mut files = Files::of(arguments);
    let list = files.list(path)?;
    let handed = Handed::read(&files.read(plan)?, &list).map_err(|faults| faulty(plan, &faults))?;
    let checked = Named::of_list(list).check(&handed).map_err(|refused| match refused {
        Refused::List(why) => about(path, why),
        Refused::Plan(why) => about(plan, why),
    })?;
    files.give_text(&checked)
}

pub fn compare(arguments: &Arguments) -> Result<(), Failure> {
    let [one, other] = arguments.files()[..] else { return Err(Failure::Arguments) };
    one_standard_input(&[one, other], "this is both files")?;
    let mut files = Files::of(arguments);
    let bytes = [files.read(one)?, files.read(other)?];
    let is_table = |bytes: &Vec<u8>| Table::read(bytes).is_ok_and(|table| table.has_patterns());
    if bytes.iter().any(is_table) {
        let table = |path: &OsStr, bytes: &Vec<u8>| {
            let why = "this is no table of tips, and the other file is one; compare two files of a kind";
            Table::read(bytes).map_err(|_| about(path, why))
        };
        let (before, after) = (table(one, &bytes[0])?, table(other, &bytes[1])?);
        return files.give_text(&before.entries().compare(&after.entries()));
    }
    let [before, after] = bytes;
    let (before, after) = (named(one, before)?, named(other, after)?);
    for (path, board) in [(one, &before), (other, &after)] {
        job_of(&board.file).map_err(|why| about(path, why))?;
    }
    files.give_text(&before.compare(&after).map_err(Failure::Refused)?)
}

pub fn junior(arguments: &Arguments) -> Result<(), Failure> {
    let [path] = arguments.files()[..] else { return Err(Failure::Arguments) };
    let mut files = Files::of(arguments);
    let named = files.named(path)?;
    files.give_text(&named.junior().map_err(|why| about(path, why))?)
}

pub fn panel(arguments: &Arguments) -> Result<(), Failure> {
    let paths = arguments.files();
    let is = if paths.len() == 2 { "this is both boards" } else { "this is standard input for two boards" };
    one_standard_input(&paths, is)?;
    let mut files = Files::of(arguments);
    let inputs: Vec<Vec<u8>> = paths.iter().map(|path| files.read(path)).collect::<Result<_, _>>()?;
    let outputs = files.job_and_list()?;
    let mut boards = Vec::new();
    for (path, bytes) in paths.iter().zip(inputs) {
        let board = named(path, bytes)?;
        job_of(&board.file).map_err(|why| about(path, why))?;
        boards.push(board);
    }
    let panel = Panel::of(&boards.iter().collect::<Vec<_>>()).map_err(Failure::Refused)?;
    match panel.merged {
        Ok(merged) => {
            write_each(outputs, [&merged.file, merged.list.as_bytes()])?;
            print((panel.alone + &merged.text).as_bytes())
        }
        Err(why) => {
            print(panel.alone.as_bytes())?;
            let names: Vec<String> = paths.iter().map(shown).collect();
            let (last, others) = names.split_last().ok_or(Failure::Arguments)?;
            Err(Failure::Refused(format!("{} and {last}: {why}", others.join(", "))))
        }
    }
}

pub fn mend(arguments: &Arguments) -> Result<(), Failure> {
    let [path, out] = arguments.files()[..] else { return Err(Failure::Arguments) };
    let mut files = Files::of(arguments);
    let found = files.read(path)?;
    let output = files.output(out, Kind::Job)?;
    let mended = mending::mend(&found).map_err(|why| about(path, why))?;
    write(vec![(output, &mended.file)])?;
    print(mended.text.as_bytes())?;
    match mended.warning() {
        None => Ok(()),
        Some(warning) => Err(Failure::Lost(format!("{}: {warning}", shown(path)))),
    }
}

pub fn order(arguments: &Arguments) -> Result<(), Failure> {
    let [path] = arguments.files()[..] else { return Err(Failure::Arguments) };
    let mut files = Files::of(arguments);
    let which = text_behind(arguments, TABLE)?.map(Which::of).transpose().map_err(Failure::Argument)?;
    let mounted = arguments.option("--mounted").map(tip_of).transpose()?;
    let price = price_of(arguments)?;
    if which.is_none() && mounted.is_some() {
        return Err(Failure::Argument(format!("--mounted needs {TABLE} and a plan; without it the tips do not count")));
    }
    if which != Some(Which::Exact) && price.is_some() {
        return Err(Failure::Argument(format!("a price is for the exact plan; add {TABLE} exact")));
    }
    let list = files.list(path)?;
    let order = match which {
        None => list.order(),
        Some(Which::Exact) => list.order_by_plan(Which::Exact, Wish { mounted, price: price.or(Some(0)), along: None }),
        Some(which) => list.order_by_plan(which, Wish::mounted(mounted)),
    };
    files.give_text(&order.map_err(|why| about(path, why))?)
}

pub fn windows(arguments: &Arguments) -> Result<(), Failure> {
    let [path] = arguments.files()[..] else { return Err(Failure::Arguments) };
    let mut files = Files::of(arguments);
    let list = files.list(path)?;
    files.give_text(&list.windows().map_err(|why| about(path, why))?)
}

pub fn picture(arguments: &Arguments) -> Result<(), Failure> {
    let [path] = arguments.files()[..] else { return Err(Failure::Arguments) };
    let mut files = Files::of(arguments);
    let named = files.named(path)?;
    files.give_text(&named.picture().map_err(|why| about(path, why))?)
}

pub fn page(arguments: &Arguments) -> Result<(), Failure> {
    let [path] = arguments.files()[..] else { return Err(Failure::Arguments) };
    let k = arguments.option("--keep");
    let k = k.map(|word| number_of(word).ok_or_else(|| Failure::Argument(format!("{K}, and not {}", shown(word)))));
    let k = k.transpose()?;
    let title = if path == "-" { "standard input".into() } else { shown(path) };
    let mut files = Files::of(arguments);
    let named = files.named(path)?;
    files.give_text(&named.page(&title, k).map_err(|why| about(path, why))?)
}

pub fn completion(arguments: &Arguments) -> Result<(), Failure> {
    let [] = arguments.files()[..] else { return Err(Failure::Arguments) };
    Files::of(arguments).give_text(&completion::bash())
}

/// The text of a word that names no file.
fn text_of(word: &OsStr) -> Result<&str, Failure> {
    word.to_str().ok_or_else(|| Failure::Argument(format!("`{}` is no text; type it as UTF-8", shown(word))))
}

fn text_behind<'a>(arguments: &'a Arguments, option: &str) -> Result<Option<&'a str>, Failure> {
    arguments.option(option).map(text_of).transpose()
}

/// The number that the digits make, without a sign.
fn number_of<T: FromStr>(word: &OsStr) -> Option<T> {
    let digits = word.to_str()?;
    digits.parse().ok().filter(|_| digits.bytes().all(|byte| byte.is_ascii_digit()))
}

/// A tip that some rack has.
fn tip_of(word: &OsStr) -> Result<usize, Failure> {
    let tip = number_of(word).filter(|&tip| tip < MOST_TIPS);
    let is_none =
        || Failure::Argument(format!("a tip is a number from 0 to {}, and not {}", MOST_TIPS - 1, shown(word)));
    tip.ok_or_else(is_none)
}

/// The board of these bytes, with names where they are a parts list.
fn named(path: &OsStr, bytes: Vec<u8>) -> Result<Named, Failure> {
    if is_job(path, &bytes) {
        return Ok(Named { file: bytes, list: None });
    }
    Ok(Named::of_list(list_of(path, &bytes)?))
}

fn about(path: &OsStr, why: impl Display) -> Failure {
    Failure::Refused(format!("{}: {why}", shown(path)))
}

/// Why a file could not be read or written, and what to do.
fn failed(path: &OsStr, error: io::Error) -> Failure {
    let why = match error.kind() {
        io::ErrorKind::NotFound => "there is no such file or folder; correct the name".into(),
        io::ErrorKind::IsADirectory => "this is a folder; name a file".into(),
        io::ErrorKind::PermissionDenied => {
            "that is not allowed here; name another file, or ask for the right to it".into()
        }
        io::ErrorKind::StorageFull => "the disk is full; make room on it".into(),
        io::ErrorKind::AlreadyExists => {
            format!("this file came meanwhile; name another one, or add {FORCE} to replace it")
        }
        _ => error.to_string(),
    };
    about(path, why)
}

fn list_of(path: &OsStr, bytes: &[u8]) -> Result<List, Failure> {
    if has_mark(bytes) {
        return Err(about(path, "this is a job file and no parts list; `parts show` turns it into one"));
    }
    if is_job(path, bytes) {
        return Err(about(path, job_of(bytes).err().unwrap_or_default()));
    }
    List::read(bytes).map_err(|faults| match is_foreign(bytes) {
        true => about(path, "this is no parts list; `parts import` makes one of it"),
        false => faulty(path, &faults),
    })
}

/// The faults as lines `FILE:LINE: what is wrong; what to do`.
fn faulty<W: Display>(path: &OsStr, faults: &[Fault<W>]) -> Failure {
    let mut lines = faults_in_words(path, &faults[..faults.len().min(MOST_FAULTS)]);
    if faults.len() > MOST_FAULTS {
        lines.push(format!("{}: {} more lines are wrong", shown(path), faults.len() - MOST_FAULTS));
    }
    Failure::Refused(lines.join("\n"))
}

/// Every package that has no tips, however many there are: a table is made from them.
fn without_tips(path: &OsStr, faults: &[Fault<String>]) -> Failure {
    Failure::Refused(faults_in_words(path, faults).join("\n"))
}

fn faults_in_words<W: Display>(path: &OsStr, faults: &[Fault<W>]) -> Vec<String> {
    let path = shown(path);
    faults.iter().map(|fault| format!("{path}:{}: {}", fault.line, fault.what)).collect()
}

pub fn print(bytes: &[u8]) -> Result<(), Failure> {
    let mut out = io::stdout();
    let result = system::standard_output_is_open().and_then(|()| out.write_all(bytes)).and_then(|()| out.flush());
    result.map_err(lost)
}

/// Closes standard output, behind everything that is printed.
pub fn close() -> Result<(), Failure> {
    system::close_standard_output().map_err(lost)
}

/// The failure of standard output.
fn lost(error: io::Error) -> Failure {
    about(OsStr::new("standard output"), format!("{error}; let it lead to a file or a pipe that takes all of it"))
}
