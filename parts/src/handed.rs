//! Plans from other software. As text: `pairs N` first, then a tip for each part, as `C1 : 3`, and sometimes a table. As CSV:
//! a column `tip`, and a column `reference` or `part`. As JSON: a list `placements` of the same, and `pairs`.

use std::collections::HashMap;
use std::fmt;

use crate::import::{csv, name_of};
use crate::json::Json;
use crate::letters::is_invisible;
use crate::list::{invisible_in_words, lines_of, number_of, text_of, Fault, List, What as WhatOfList};

/// A plan with its claimed pairs, and with its table where there is one.
#[derive(Clone, PartialEq, Eq, Debug)]
pub struct Handed {
    /// Its pairs, where it names them.
    pub claim: Option<u32>,
    /// The tip of each part of the list, as it is written.
    pub tips: Vec<usize>,
    /// The entries, row by row, as many rows and columns as the rack has tips.
    pub table: Option<Vec<u32>>,
}

/// What can be wrong with a line.
#[derive(Clone, PartialEq, Eq, Debug)]
pub enum What {
    NotText,
    ControlCharacter,
    Invisible(char),
    NoPairs,
    PairsWords(String),
    PairsSize(String),
    PairsAgain,
    TableWords(String),
    NoColon,
    ColonAgain,
    NameWords(String),
    UnknownTip(String),
    UnknownPart(String),
    PartAgain { name: String, line: usize },
    TooManyWithoutName,
    NoTip(String),
    UnknownEntry(String),
    RowLength { entries: usize, rack: usize },
    Rows { rows: usize, rack: usize },
    OtherTip { name: String, tip: usize, other: String, other_tip: usize, part: String },
    OtherForm(String),
}

impl fmt::Display for What {
    fn fmt(&self, to: &mut fmt::Formatter) -> fmt::Result {
        match self {
            What::NotText => write!(to, "not UTF-8 text; save the file as UTF-8 text"),
            What::ControlCharacter => write!(to, "a control character; save the file as plain text"),
            What::Invisible(c) => invisible_in_words(to, *c),
            What::NoPairs => write!(to, "no pairs; begin the plan with `pairs N`, N being its number of pairs"),
            What::PairsWords(line) => write!(to, "unknown words in `{line}`; write `pairs N`, N being a number"),
            What::PairsSize(number) => write!(to, "pairs {number} is out of range; {} is the most", u32::MAX),
            What::PairsAgain => write!(to, "a second pairs; name it once, at the beginning of the plan"),
            What::TableWords(line) => {
                write!(to, "unknown words in `{line}`; write `table` alone, and its rows below it")
            }
            What::NoColon => write!(to, "no colon; write `NAME : TIP`, or `: TIP` for a part without a name"),
            What::ColonAgain => write!(to, "a second colon; write one part a line"),
            What::NameWords(words) => write!(to, "unknown words in `{words}`; write only the name before the colon"),
            What::UnknownTip(words) => write!(to, "`{words}` is no tip; write one number after the colon"),
            What::UnknownPart(name) => write!(to, "the list has no part {name}; take it out, or correct its name"),
            What::PartAgain { name, line } => {
                write!(to, "{name} is on line {line} already; give each part one tip")
            }
            What::TooManyWithoutName => write!(to, "the list has no more parts without a name; take this one out"),
            What::NoTip(part) => write!(to, "no tip for {part}; give every part of the list one"),
            What::UnknownEntry(word) => {
                write!(to, "`{word}` is no entry of a table; write numbers up to {}, with spaces between", u32::MAX)
            }
            What::RowLength { entries, rack } => write!(to, "{entries} entries; a row has {rack}, one for each tip"),
            What::OtherTip { name, tip, other, other_tip, part } => write!(
                to,
                "{name} is on tip {tip} and {other} on tip {other_tip}, and both are part {part}; give all of a part one tip"
            ),
            What::OtherForm(what) => write!(to, "{what}"),
            What::Rows { rows, rack } => write!(to, "{rows} rows; the table has {rack}, one for each tip"),
        }
    }
}

impl Handed {
    /// Reads a plan for this list, or gives what is wrong, at most one fault a line; what is missing is told at the end.
    pub fn read(bytes: &[u8], list: &List) -> Result<Handed, Vec<Fault<What>>> {
        let mut reading = Reading::of(list);
        let lines = lines_of(bytes);
        let first = lines.iter().map(|line| line.trim_ascii()).find(|line| !line.is_empty()).unwrap_or_default();
        let mut faults = if first.starts_with(b"{") {
            reading.take_json(bytes)
        } else if let Some(names) = csv::names_of(bytes).filter(|names| names.iter().any(|name| is_called(name, &TIP)))
        {
            reading.take_csv(bytes, &names)
        } else {
            reading.take_text(&lines)
        };
        let last = lines.len().max(1);
        // Faulty lines may be the ones that are missing.
        if faults.is_empty() {
            faults.extend(reading.missing().map(|what| Fault { line: last, what }));
        }
        if !faults.is_empty() {
            return Err(faults);
        }
        Ok(Handed { claim: reading.claim, tips: reading.tips(), table: reading.table })
    }
}

/// What the columns of CSV and the members of JSON are called.
const TIP: [&str; 1] = ["tip"];
const REFERENCE: [&str; 4] = ["reference", "ref", "designator", "name"];
const PART: [&str; 1] = ["part"];

fn is_called(name: &str, names: &[&str]) -> bool {
    names.iter().any(|other| other.eq_ignore_ascii_case(name))
}

/// The tip of a reference, and the line that it is on.
type Placed = Option<(usize, usize)>;

/// A plan of which the lines up to some line are read.
struct Reading<'a> {
    list: &'a List,
    /// The parts that a word may mean, and which of their references.
    words: HashMap<String, Vec<(usize, usize)>>,
    /// The references of each part, or its own name where it has none; a part without a name has its line.
    references: Vec<Vec<String>>,
    has_pairs: bool,
    claim: Option<u32>,
    /// What each reference of each part has.
    placed: Vec<Vec<Placed>>,
    table: Option<Vec<u32>>,
}

impl Reading<'_> {
    fn of(list: &List) -> Reading<'_> {
        let label = |part: usize| list.parts[part].name.clone().unwrap_or_else(|| format!("line {part}"));
        let mut words: HashMap<String, Vec<(usize, usize)>> = HashMap::new();
        let mut references = Vec::new();
        for (part, listed) in list.parts.iter().enumerate() {
            let mut named: Vec<String> = listed.references().into_iter().map(String::from).collect();
            let own = named.iter().position(|word| name_of(word) == label(part)).unwrap_or_default();
            if named.is_empty() {
                named.push(label(part));
            }
            for (place, word) in named.iter().enumerate() {
                words.entry(word.clone()).or_default().push((part, place));
            }
            if named[own] != label(part) {
                words.entry(label(part)).or_default().push((part, own));
            }
            references.push(named);
        }
        let placed = references.iter().map(|named| vec![None; named.len()]).collect();
        Reading { list, words, references, has_pairs: false, claim: None, placed, table: None }
    }

    fn take_text(&mut self, lines: &[&[u8]]) -> Vec<Fault<What>> {
        let mut faults = Vec::new();
        for (line, bytes) in (1..).zip(lines) {
            if let Err(what) = self.take(line, bytes) {
                faults.push(Fault { line, what });
            }
        }
        if !self.has_pairs {
            faults.push(Fault { line: lines.len().max(1), what: What::NoPairs });
        }
        faults
    }

    fn take_csv(&mut self, bytes: &[u8], names: &[String]) -> Vec<Fault<What>> {
        let column = |called: &[&str]| names.iter().position(|name| is_called(name, called));
        let (rows, other) = csv::rows_behind_names(bytes);
        let mut faults: Vec<Fault<What>> =
            other.into_iter().map(|fault| Fault { line: fault.line, what: What::OtherForm(fault.what) }).collect();
        for (line, fields) in rows {
            let field = |called: &[&str]| column(called).map(|at| fields[at].as_str());
            if let Err(what) = self.put(line, field(&REFERENCE), field(&PART), field(&TIP).unwrap_or_default()) {
                faults.push(Fault { line, what });
            }
        }
        faults.sort_by_key(|fault| fault.line);
        faults
    }

    fn take_json(&mut self, bytes: &[u8]) -> Vec<Fault<What>> {
        let fault = |line, what: &str| vec![Fault { line, what: What::OtherForm(what.into()) }];
        let Ok(text) = std::str::from_utf8(bytes) else { return vec![Fault { line: 1, what: What::NotText }] };
        let plan = match Json::read(text) {
            Ok(plan) => plan,
            Err((line, what)) => return fault(line, &what),
        };
        let claim = plan.get("pairs").and_then(Json::digits);
        self.claim = claim.and_then(|digits| digits.parse().ok());
        if claim.is_some() && self.claim.is_none() {
            return fault(1, "the pairs are no number that a plan has; write them as digits");
        }
        let mut faults = Vec::new();
        for placement in plan.get("placements").map_or(&[][..], Json::list) {
            let text = |called: &[&str]| called.iter().find_map(|name| placement.get(name)?.text());
            let tip = TIP.iter().find_map(|name| placement.get(name)?.digits()).unwrap_or_default();
            if let Err(what) = self.put(1, text(&REFERENCE), text(&PART), tip) {
                faults.push(Fault { line: 1, what });
            }
        }
        faults
    }

    /// Takes the tip of a row, whose part is named by a reference, by its name, or by both.
    fn put(&mut self, line: usize, reference: Option<&str>, part: Option<&str>, tip: &str) -> Result<(), What> {
        let tip = number_of(tip.trim()).ok_or_else(|| What::UnknownTip(tip.trim().into()))?;
        let word = reference.filter(|word| !word.is_empty()).or(part).unwrap_or_default();
        let is_part = |&&(number, _): &&(usize, usize)| part.is_none_or(|part| *part == self.label(number));
        let meant: Vec<(usize, usize)> = self.words.get(word).into_iter().flatten().filter(is_part).copied().collect();
        self.put_first(line, word, &meant, tip)
    }

    /// Gives the first of these references that has no tip this one.
    fn put_first(&mut self, line: usize, word: &str, meant: &[(usize, usize)], tip: usize) -> Result<(), What> {
        let Some(&(part, place)) = meant.iter().find(|&&(part, place)| self.placed[part][place].is_none()) else {
            return Err(match meant.first().and_then(|&(part, place)| self.placed[part][place]) {
                Some((_, line)) => What::PartAgain { name: word.into(), line },
                None => What::UnknownPart(word.into()),
            });
        };
        let other = self.placed[part].iter().position(|placed| placed.is_some_and(|(other, _)| other != tip));
        if let Some((at, (other_tip, _))) = other.and_then(|at| Some((at, self.placed[part][at]?))) {
            let (other, part) = (self.references[part][at].clone(), self.label(part));
            return Err(What::OtherTip { name: word.into(), tip, other, other_tip, part });
        }
        self.placed[part][place] = Some((tip, line));
        Ok(())
    }

    fn label(&self, part: usize) -> String {
        self.list.parts[part].name.clone().unwrap_or_else(|| format!("line {part}"))
    }

    /// The tip of each part, where nothing is missing.
    fn tips(&self) -> Vec<usize> {
        let tip = |placed: &Vec<Placed>| placed.iter().flatten().next().map_or(0, |&(tip, _)| tip);
        self.placed.iter().map(tip).collect()
    }

    fn take(&mut self, line: usize, bytes: &[u8]) -> Result<(), What> {
        let text = text_of(bytes).map_err(|what| match what {
            WhatOfList::NotText => What::NotText,
            _ => What::ControlCharacter,
        })?;
        let content = text.split('#').next().unwrap_or_default().trim();
        if content.is_empty() {
            return Ok(());
        }
        if let Some(c) = content.chars().find(|&c| is_invisible(c)) {
            return Err(What::Invisible(c));
        }
        if !self.has_pairs {
            self.has_pairs = true;
            self.claim = Some(claim_of(content)?);
            return Ok(());
        }
        match &mut self.table {
            Some(table) => {
                table.extend(row_of(content, self.list.rack)?);
                Ok(())
            }
            None => self.take_part(line, content),
        }
    }

    /// Takes the tip of a part, or the beginning of the table.
    fn take_part(&mut self, line: usize, content: &str) -> Result<(), What> {
        let Some((before, after)) = content.split_once(':') else {
            return match content.split_whitespace().next() {
                Some("pairs") => Err(What::PairsAgain),
                Some("table") if content == "table" => {
                    self.table = Some(Vec::new());
                    Ok(())
                }
                Some("table") => Err(What::TableWords(content.into())),
                _ => Err(What::NoColon),
            };
        };
        if after.contains(':') {
            return Err(What::ColonAgain);
        }
        let tip = number_of(after.trim()).ok_or_else(|| What::UnknownTip(after.trim().into()))?;
        let name = before.trim();
        if name.contains(char::is_whitespace) {
            return Err(What::NameWords(name.into()));
        }
        let meant: Vec<(usize, usize)> = match name {
            "" => {
                let parts = self.list.parts.iter().zip(&self.placed);
                let next = parts.clone().position(|(part, placed)| part.name.is_none() && placed[0].is_none());
                vec![(next.ok_or(What::TooManyWithoutName)?, 0)]
            }
            _ => self.words.get(name).cloned().ok_or_else(|| What::UnknownPart(name.into()))?,
        };
        self.put_first(line, name, &meant, tip)
    }

    /// What is missing in a plan without faults: a part's tip, or rows of the table.
    fn missing(&self) -> Option<What> {
        for (part, placed) in self.placed.iter().enumerate() {
            let name = &self.list.parts[part].name;
            let is_own =
                |place: usize| name.as_ref().is_some_and(|name| name_of(&self.references[part][place]) == *name);
            let given: Vec<usize> = (0..placed.len()).filter(|&place| placed[place].is_some()).collect();
            match (&given[..], placed.iter().position(Option::is_none)) {
                // The name of a part stands for all of its references.
                ([own], _) if is_own(*own) => {}
                ([], _) => return Some(What::NoTip(self.label(part))),
                (_, Some(place)) => return Some(What::NoTip(self.references[part][place].clone())),
                _ => {}
            }
        }
        let rack = self.list.rack;
        let rows = self.table.as_ref().map_or(rack, |table| table.len() / rack);
        (rows != rack).then_some(What::Rows { rows, rack })
    }
}

fn claim_of(content: &str) -> Result<u32, What> {
    let words: Vec<&str> = content.split_whitespace().collect();
    if words[0] != "pairs" {
        return Err(What::NoPairs);
    }
    let [_, number] = words[..] else {
        return Err(What::PairsWords(content.into()));
    };
    let claim = number_of(number).ok_or_else(|| What::PairsWords(content.into()))?;
    u32::try_from(claim).map_err(|_| What::PairsSize(number.into()))
}

fn row_of(content: &str, rack: usize) -> Result<Vec<u32>, What> {
    let entry_of = |word: &str| number_of(word).and_then(|entry| u32::try_from(entry).ok());
    let entries = content.split_whitespace().map(|word| entry_of(word).ok_or_else(|| What::UnknownEntry(word.into())));
    let row: Vec<u32> = entries.collect::<Result<_, _>>()?;
    if row.len() != rack {
        return Err(What::RowLength { entries: row.len(), rack });
    }
    Ok(row)
}
