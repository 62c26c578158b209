//! The calls of the planner's page. A request and its answer are fields, each a length of four bytes, lowest byte first, and as
//! many bytes. A request is a command and its arguments; an answer is `ok` or `refused`, and then what was asked for or why not.
//! There are two buffers, and no pointer comes in from outside.

use std::cell::RefCell;
use std::fmt::Display;
use std::panic;

use parts::changes::in_cell;
use parts::exporting::Format;
use parts::import::csv::{self, Columns};
use parts::import::openpnp::{Board, Packages, Parts};
use parts::import::table::{self, Missing, Table};
use parts::import::{is_foreign, kicad, Faults, Placement, Sides};
use parts::job::{has_mark, is_job, job_of, list_in_words};
use parts::limits::too_large;
use parts::list::{Fault, List};
use parts::mending;
use parts::panel::{Merged, Panel};
use parts::planning::{Kept, Named, Plan, Plans, Which, Wish};
use parts::{tips_in_words, MOST_TIPS};

/// How the files of spreadsheets begin, newer and older ones.
const PACKED: [&[u8]; 2] = [b"PK\x03\x04", b"\xd0\xcf\x11\xe0"];

/// What is wrong is told of this many lines.
const MOST_FAULTS: usize = 20;

thread_local! {
    static REQUEST: RefCell<Vec<u8>> = const { RefCell::new(Vec::new()) };
    static ANSWER: RefCell<Vec<u8>> = const { RefCell::new(Vec::new()) };
}

/// Makes room for a request of this many bytes; gives where it begins.
#[no_mangle]
pub extern "C" fn request(length: usize) -> *mut u8 {
    REQUEST.with_borrow_mut(|bytes| {
        bytes.clear();
        bytes.resize(length, 0);
        bytes.as_mut_ptr()
    })
}

/// Answers the request; gives the length of the answer.
#[no_mangle]
pub extern "C" fn run() -> usize {
    panic::set_hook(Box::new(|info| {
        ANSWER.with(|answer| answer.replace(info.to_string().into_bytes()));
    }));
    let answer = REQUEST.with_borrow(|bytes| answer_to(bytes));
    ANSWER.with_borrow_mut(|bytes| {
        *bytes = answer;
        bytes.len()
    })
}

/// Where the answer begins.
#[no_mangle]
pub extern "C" fn answer() -> *const u8 {
    ANSWER.with_borrow(|bytes| bytes.as_ptr())
}

/// The length of the answer; after a trap that of the words of the panic.
#[no_mangle]
pub extern "C" fn answer_length() -> usize {
    ANSWER.with_borrow(Vec::len)
}

/// The answer to a request, both as bytes.
pub fn answer_to(request: &[u8]) -> Vec<u8> {
    let answer = fields_of(request).ok_or("a broken request".to_string()).and_then(|fields| answer_of(&fields));
    match answer {
        Ok(fields) => joined([b"ok".to_vec()].iter().chain(&fields)),
        Err(why) => joined([b"refused".to_vec(), why.into_bytes()].iter()),
    }
}

fn fields_of(mut bytes: &[u8]) -> Option<Vec<&[u8]>> {
    let mut fields = Vec::new();
    while !bytes.is_empty() {
        let (length, rest) = bytes.split_first_chunk::<4>()?;
        let (field, rest) = rest.split_at_checked(u32::from_le_bytes(*length) as usize)?;
        fields.push(field);
        bytes = rest;
    }
    Some(fields)
}

fn joined<'a>(fields: impl Iterator<Item = &'a Vec<u8>>) -> Vec<u8> {
    let mut bytes = Vec::new();
    for field in fields {
        bytes.extend_from_slice(&(field.len() as u32).to_le_bytes());
        bytes.extend_from_slice(field);
    }
    bytes
}

fn answer_of(fields: &[&[u8]]) -> Result<Vec<Vec<u8>>, String> {
    let text = |words: String| Ok(vec![words.into_bytes()]);
    match fields {
        [b"list", name, bytes, table, columns, side] => text(list(name, bytes, table, columns, side)?),
        [b"kind", name, bytes] => text(kind_of(name, bytes).into()),
        [b"mend", name, bytes] => mended(name, bytes),
        [b"columns", bytes] => text(csv::names_of(bytes).unwrap_or_default().join("\n")),
        [b"packages", name, bytes, table, columns, side] => text(packages(name, bytes, table, columns, side)?),
        [b"start", name, bytes, table, columns, side] => text(begun(name, bytes, table, columns, side)?),
        [b"openpnp", packages, board, parts, side] => text(openpnp(packages, board, parts, side)?),
        [b"plan", list, mounted, price] => planned(&named(list)?, wish_of(mounted, price)),
        [b"changed", list, lines, tip] => changed(&named(list)?, lines, number_of(tip).ok_or("no tip is chosen")?),
        [b"text", list, price] => text(named(list)?.plan(wish_of(b"", price))?),
        [b"export", format, list, plan, mounted, price] => text(exported(format, &named(list)?, plan, mounted, price)?),
        [b"keep", list, k] => kept(named(list)?.keep(number_of(k).ok_or("k is a number from 0 to 65535")?)?),
        [b"goal", list, goal] => kept(named(list)?.goal(number_of(goal).ok_or("a goal is a number of pairs")?)?),
        [b"picture", list] => text(named(list)?.picture()?),
        [b"page", name, list] => text(named(list)?.page(&String::from_utf8_lossy(name), None)?),
        [b"sheet", name, list, k, mounted, price] => {
            let wish = wish_of(mounted, price);
            let (named, name) = (named(list)?, String::from_utf8_lossy(name));
            let sheet = |wish| named.sheet(&name, number_of(k), wish);
            let (text, is_wide) = sheet(wish).or_else(|_| sheet(Wish::mounted(wish.mounted)))?;
            Ok(vec![text.into_bytes(), if is_wide { b"wide".to_vec() } else { Vec::new() }])
        }
        [b"make", list] => Ok(vec![named(list)?.file]),
        [b"order", list, b"", _, _] => text(read(list)?.order()?),
        [b"order", list, plan, mounted, price] => {
            let which = Which::of(&String::from_utf8_lossy(plan))?;
            let wish = wish_of(mounted, price);
            let price = wish.price.or(Some(0)).filter(|_| which == Which::Exact);
            text(read(list)?.order_by_plan(which, Wish { price, ..wish })?)
        }
        [b"windows", list] => text(read(list)?.windows()?),
        [b"junior", list] => text(named(list)?.junior()?),
        [b"panel", boards @ ..] => panel(&boards.iter().map(|list| named(list)).collect::<Result<Vec<_>, _>>()?),
        _ => Err("an unknown command".into()),
    }
}

fn number_of<N: std::str::FromStr>(digits: &[u8]) -> Option<N> {
    std::str::from_utf8(digits).ok()?.parse().ok()
}

/// What is asked for with this mounted tip and this price of a tip, either of which may be left out.
fn wish_of(mounted: &[u8], price: &[u8]) -> Wish {
    Wish { mounted: number_of(mounted), price: number_of(price), along: None }
}

fn faulty<W: Display>(name: &str, faults: &[Fault<W>]) -> String {
    let mut lines: Vec<String> =
        faults.iter().take(MOST_FAULTS).map(|fault| format!("{name}:{}: {}", fault.line, fault.what)).collect();
    if faults.len() > MOST_FAULTS {
        lines.push(format!("{name}: {} more lines are wrong", faults.len() - MOST_FAULTS));
    }
    lines.join("\n")
}

/// The parts list of a file: a list, a job file, a file of KiCad, or a table with named columns.
fn list(name: &[u8], bytes: &[u8], table: &[u8], columns: &[u8], side: &[u8]) -> Result<String, String> {
    let shown = String::from_utf8_lossy(name);
    if let Some(why) = too_large(bytes).or_else(|| too_large(table)) {
        return Err(format!("{shown}: {why}"));
    }
    if is_job(&*shown, bytes) {
        return Ok(list_in_words(&job_of(bytes)?));
    }
    if PACKED.iter().any(|mark| bytes.starts_with(mark)) {
        return Err(format!(
            "{shown}: this is packed, as files of spreadsheets are; save it as CSV there, and open that"
        ));
    }
    if columns.is_empty() && !is_foreign(bytes) {
        return String::from_utf8(bytes.to_vec()).map_err(|_| format!("{shown}: this is no UTF-8 text"));
    }
    let table = Table::read(table).map_err(|faults| faulty("tips", &faults))?;
    let placements = placements_of(name, bytes, columns)?;
    table.list(placements, sides_of(side)?).map_err(|faults| faulty(&shown, &faults))
}

/// The placements of a file of KiCad, or of a table with named columns.
fn placements_of(name: &[u8], bytes: &[u8], columns: &[u8]) -> Result<Vec<Placement>, String> {
    let read: Result<Vec<Placement>, Faults> = match &*String::from_utf8_lossy(columns) {
        "" => kicad::placements_of(bytes),
        columns => csv::placements_of(bytes, &Columns::of(columns)?),
    };
    read.map_err(|faults| faulty(&String::from_utf8_lossy(name), &faults))
}

fn sides_of(side: &[u8]) -> Result<Sides, String> {
    Sides::of(Some(&*String::from_utf8_lossy(side)).filter(|side| !side.is_empty()))
}

/// What mending a job file says, the mended file, and where parts are lost how many and what to do.
fn mended(name: &[u8], bytes: &[u8]) -> Result<Vec<Vec<u8>>, String> {
    if let Some(why) = too_large(bytes) {
        return Err(why);
    }
    let mended = mending::mend(bytes)?;
    let name = String::from_utf8_lossy(name);
    let warning = mended.warning().map_or(String::new(), |warning| format!("{name}: {warning}\n"));
    Ok(vec![mended.text.into_bytes(), mended.file, warning.into_bytes()])
}

/// What a file of this name is: a job file, a file of OpenPnP, one with placements, a table of tips, or a list.
fn kind_of(name: &[u8], bytes: &[u8]) -> &'static str {
    if is_job(&*String::from_utf8_lossy(name), bytes) {
        "job"
    } else if bytes.trim_ascii_start().starts_with(b"<") {
        "xml"
    } else if is_foreign(bytes) {
        "placements"
    } else if Table::read(bytes).is_ok_and(|table| table.has_patterns()) {
        "table"
    } else {
        "list"
    }
}

/// The packages of a file that no row of the table matches, a line each: the pattern of its row, its placements, and `skip` where
/// it is left out as a rule, with tabs between them. A row without tips counts, for its tips are still to be written.
fn packages(name: &[u8], bytes: &[u8], table: &[u8], columns: &[u8], side: &[u8]) -> Result<String, String> {
    let table = Table::read(whole(table).as_bytes()).map_err(|faults| faulty("tips", &faults))?;
    let line = |Missing { pattern, comment, is_left_out }: Missing| {
        format!("{pattern}\t{comment}\t{}\n", if is_left_out { "skip" } else { "" })
    };
    missing(name, bytes, Some(&table), columns, side, table::missing).map(|all| all.into_iter().map(line).collect())
}

/// A table to begin with, or the rows that a table lacks.
fn begun(name: &[u8], bytes: &[u8], table: &[u8], columns: &[u8], side: &[u8]) -> Result<String, String> {
    let table = match table.trim_ascii() {
        b"" => None,
        _ => Some(Table::read(whole(table).as_bytes()).map_err(|faults| faulty("tips", &faults))?),
    };
    missing(name, bytes, table.as_ref(), columns, side, table::beginning)
}

/// What the placements of a file and a table come to.
fn missing<T>(
    name: &[u8],
    bytes: &[u8],
    table: Option<&Table>,
    columns: &[u8],
    side: &[u8],
    of: impl FnOnce(Vec<Placement>, Sides, Option<&Table>) -> Result<T, Faults>,
) -> Result<T, String> {
    let placements = placements_of(name, bytes, columns)?;
    of(placements, sides_of(side)?, table).map_err(|faults| faulty(&String::from_utf8_lossy(name), &faults))
}

/// A table in which a row without tips leaves its packages out, and with a rack if it names none.
fn whole(table: &[u8]) -> String {
    let mut has_rack = false;
    let line = |line: &str| {
        let content = line.split('#').next().unwrap_or_default().trim();
        let mut words = content.split_whitespace();
        match (words.next(), words.next()) {
            (Some("rack"), size) if !content.contains(':') => {
                has_rack = true;
                let is_size = size.is_some_and(|size| size.parse::<usize>().is_ok());
                if is_size {
                    line.into()
                } else {
                    format!("rack {MOST_TIPS}")
                }
            }
            (Some(pattern), _) if content.ends_with(':') => format!("skip {}", pattern.trim_end_matches(':')),
            _ => line.to_string(),
        }
    };
    let lines: Vec<String> = String::from_utf8_lossy(table).lines().map(line).collect();
    let rack = if has_rack { String::new() } else { format!("rack {MOST_TIPS}\n") };
    rack + &lines.join("\n") + "\n"
}

/// The parts list of an OpenPnP board, by its packages and, where they are given, its parts.
fn openpnp(packages: &[u8], board: &[u8], parts: &[u8], side: &[u8]) -> Result<String, String> {
    let known = Packages::read(packages, None).map_err(|faults| faulty("packages", &faults))?;
    let parts = match parts {
        [] => None,
        parts => Some(Parts::read(parts).map_err(|faults| faulty("parts", &faults))?),
    };
    let board = Board::read(board).map_err(|faults| faulty("board", &faults))?;
    known.list(board, parts.as_ref(), sides_of(side)?).map_err(|faults| faulty("board", &faults))
}

fn read(list: &[u8]) -> Result<List, String> {
    if has_mark(list) {
        return Err("this is a job file and no parts list; `parts show` turns it into one".into());
    }
    List::read(list).map_err(|faults| match is_foreign(list) {
        true => "this is no parts list; `parts import` makes one of it".into(),
        false => faulty("list", &faults),
    })
}

fn named(list: &[u8]) -> Result<Named, String> {
    if has_mark(list) {
        return Ok(Named { file: list.to_vec(), list: None });
    }
    Ok(Named::of_list(read(list)?))
}

/// What is told of the quick, the best and the exact plan: pairs, tips in use, changes in the list's order and in the order by
/// tips; `-` where there is no such plan.
fn numbers_of(plans: &Plans, exact: Option<&Plan>) -> Vec<Vec<u8>> {
    let of = |plan: Option<&Plan>| {
        plan.map_or(vec!["-".to_string(); 4], |plan| {
            let numbers = [plan.pairs.to_string(), plan.tips_used(plans.job.rack).to_string()];
            let changes = plans.changes_of(plan).into_iter().map(|(_, changes)| in_cell(changes));
            numbers.into_iter().chain(changes).collect()
        })
    };
    let all = [of(Some(&plans.quick)), of(plans.best.as_ref().ok()), of(exact)];
    all.into_iter().flatten().map(String::into_bytes).collect()
}

/// In this order: rack, parts, placements, the least k, the numbers of the three plans, why there is no best plan and why no
/// exact one, the drawing, the job file, the plans as CSV, the plans in words.
fn planned(named: &Named, wish: Wish) -> Result<Vec<Vec<u8>>, String> {
    // If the price is refused, the page says so in the place of the exact plan.
    let plans = named.plans(wish).or_else(|_| named.plans(Wish::mounted(wish.mounted)))?;
    let beside_best;
    let exact = match &plans.exact {
        Some(exact) => exact,
        None => {
            beside_best = named.exact(&plans.job, wish.mounted, wish.price.unwrap_or(0));
            &beside_best
        }
    };
    let sizes = [plans.job.rack, plans.job.lines.len(), plans.job.placements(), plans.common.off as usize];
    let mut answer: Vec<Vec<u8>> = sizes.iter().map(|size| size.to_string().into_bytes()).collect();
    answer.extend(numbers_of(&plans, exact.as_ref().ok()));
    let no_best = plans.best.as_ref().err().map_or(String::new(), |&line| named.no_run(&plans.job, line));
    let no_exact = exact.as_ref().err().cloned().unwrap_or_default();
    answer.extend([
        no_best.into_bytes(),
        no_exact.into_bytes(),
        named.drawing_of(&plans, exact.as_ref().ok()).into_bytes(),
        named.file.clone(),
        table_of(named, &plans, exact.as_ref().ok()).into_bytes(),
        named.in_words(&plans, wish.price).into_bytes(),
    ]);
    Ok(answer)
}

/// What is left in words, and its job file.
fn kept(kept: Kept) -> Result<Vec<Vec<u8>>, String> {
    Ok(vec![kept.text.into_bytes(), kept.file])
}

/// One plan for other programs, in this form.
fn exported(format: &[u8], named: &Named, plan: &[u8], mounted: &[u8], price: &[u8]) -> Result<String, String> {
    let word = String::from_utf8_lossy;
    let which = Which::of(&word(plan))?;
    let wish = wish_of(mounted, price);
    let price = wish.price.or(Some(0)).filter(|_| which == Which::Exact);
    named.exported(Format::of(&word(format))?, which, Wish { price, ..wish })
}

/// The plans as they are and as they would be with some lines allowed on one more tip, which may be new to the rack: the numbers
/// of both, and a drawing of both beside each other; nothing in its place where they are drawn alike.
fn changed(before: &Named, lines: &[u8], tip: usize) -> Result<Vec<Vec<u8>>, String> {
    let bit = u32::try_from(tip).ok().and_then(|tip| 1u64.checked_shl(tip)).ok_or("no rack has this tip")?;
    let mut job = job_of(&before.file)?;
    job.rack = job.rack.max(tip + 1);
    for number in String::from_utf8_lossy(lines).split_whitespace() {
        let line = number.parse().ok().and_then(|number: usize| job.lines.get_mut(number));
        line.ok_or("the list has no line of this number")?.set |= bit;
    }
    let after = Named { file: job.write(), list: before.list.clone() };
    let (is, would_be) = (Both::of(before)?, Both::of(&after)?);
    let drawn = before.drawing_beside(is.shown(), would_be.shown()).unwrap_or_default();
    Ok([
        numbers_of(&is.plans, is.exact.as_ref()),
        numbers_of(&would_be.plans, would_be.exact.as_ref()),
        vec![drawn.into_bytes()],
    ]
    .concat())
}

/// The plans of a list and, if there is one, its exact plan.
struct Both<'a> {
    plans: Plans<'a>,
    exact: Option<Plan>,
}

impl Both<'_> {
    fn of(named: &Named) -> Result<Both<'_>, String> {
        let plans = named.plans(Wish::default())?;
        let exact = named.exact(&plans.job, None, 0).ok();
        Ok(Both { plans, exact })
    }

    /// The first plan that there is of best, exact and quick, and its name.
    fn shown(&self) -> (&Plans<'_>, &'static str, &Plan) {
        let (name, plan) = match (&self.plans.best, &self.exact) {
            (Ok(best), _) => ("best", best),
            (Err(_), Some(exact)) => ("exact", exact),
            (Err(_), None) => ("quick", &self.plans.quick),
        };
        (&self.plans, name, plan)
    }
}

/// What is said of the boards, the job file of their panel and its list; nothing of either where there is no panel.
fn panel(boards: &[Named]) -> Result<Vec<Vec<u8>>, String> {
    let Panel { alone, merged } = Panel::of(&boards.iter().collect::<Vec<_>>())?;
    Ok(match merged {
        Ok(Merged { text, file, list }) => vec![(alone + &text).into_bytes(), file, list.into_bytes()],
        Err(why) => vec![(alone + &why + "\n").into_bytes(), Vec::new(), Vec::new()],
    })
}

/// The plans as a table, a row a part.
fn table_of(named: &Named, plans: &Plans, exact: Option<&Plan>) -> String {
    let tip = |plan: Option<&Plan>, line: usize| plan.map_or("-".into(), |plan| plan.tips[line].to_string());
    let mut table = "part,quantity,tips,quick,best,exact,comment\r\n".to_string();
    for (line, of) in plans.job.lines.iter().enumerate() {
        let cells = [
            named.label(line),
            of.quantity.to_string(),
            tips_in_words(of.set),
            tip(Some(&plans.quick), line),
            tip(plans.best.as_ref().ok(), line),
            tip(exact, line),
            named.comment(line).to_string(),
        ];
        table += &(cells.map(|cell| quoted(&cell)).join(",") + "\r\n");
    }
    table
}

/// A cell of a table; one that a spreadsheet would take for a formula gets an apostrophe.
fn quoted(words: &str) -> String {
    let risky = words.starts_with(['=', '+', '-', '@']) && words.len() > 1;
    format!("\"{}{}\"", if risky { "'" } else { "" }, words.replace('"', "\"\""))
}
