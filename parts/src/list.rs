//! Parts lists as text: `rack M` first, then one line a part, as `C1 x10 height=0.9 : 0 2 4-6`, rules of the placing order,
//! as `before R1 U1`, and `#` comments.

use std::cmp::Ordering;
use std::collections::{HashMap, HashSet};
use std::fmt;

use crate::import::name_of;
use crate::job::{Job, Line};
use crate::letters::is_invisible;
use crate::limits::MOST_COLUMNS;
use crate::{quantity_in_words, tips_in_words, MOST_LINES, MOST_PLACEMENTS, MOST_QUANTITY, MOST_TIPS};

/// Words for the quantity, in capitals or not, which no column may have. `x` is none: it is where the part is placed.
const QUANTITIES: [&str; 7] = ["qty", "quantity", "count", "amount", "pieces", "pcs", "n"];

/// The words for parts that come first and last in the placing order.
const FINE: &str = "fine";
const TALL: &str = "tall";
/// The word before the positions of a part.
const POSITIONS: &str = "at";
/// The word that begins a rule of the placing order.
const BEFORE: &str = "before";

/// A parts list that keeps every rule.
#[derive(Clone, PartialEq, Debug)]
pub struct List {
    pub rack: usize,
    pub parts: Vec<Part>,
    /// The rules of the placing order.
    pub rules: Vec<Before>,
    /// Everything above the first part, as it stands in the list.
    head: String,
    /// Everything below the last part.
    tail: String,
}

/// One part of the list.
#[derive(Clone, PartialEq, Debug)]
pub struct Part {
    pub name: Option<String>,
    /// How often it is placed, as `x10`; 1 where the list does not say.
    pub quantity: u8,
    /// Numbers to sort by, as `height=0.9`.
    pub columns: Vec<(String, f64)>,
    /// Of fine pitch, which comes first in the placing order.
    pub fine: bool,
    /// Tall, which comes last in the placing order.
    pub tall: bool,
    /// Its first and last position in the placing order, where the list says so, as `at=0-3`.
    pub at: Option<(u32, u32)>,
    /// The tips that can pick it, bit t for tip t.
    pub tips: u64,
    /// Its line in the text, counted from 1.
    pub line: usize,
    /// The comments and blank lines between the part above and it.
    above: String,
    /// Its line as it stands in the list.
    text: String,
}

/// A rule of the placing order: one part is placed before another, both by their numbers in the list.
#[derive(Clone, Copy, PartialEq, Eq, Debug)]
pub struct Before {
    pub earlier: usize,
    pub later: usize,
    /// Its line in the text, counted from 1.
    pub line: usize,
}

/// What is wrong, and on which line of the text, counted from 1.
#[derive(Clone, PartialEq, Eq, Debug)]
pub struct Fault<W = What> {
    pub line: usize,
    pub what: W,
}

/// What can be wrong with a line.
#[derive(Clone, PartialEq, Eq, Debug)]
pub enum What {
    NotText,
    ControlCharacter,
    Invisible(char),
    NoRack,
    RackWords(String),
    RackSize(String),
    RackAgain,
    NoColon,
    ColonAgain,
    UnknownWord(String),
    ColumnName(String),
    ColumnValue(String),
    ColumnAgain(String),
    QuantityColumn(String),
    NoPlacement(String),
    TooManyOfPart(String),
    QuantityAgain(String),
    TooManyPlacements(usize),
    NameAgain { name: String, line: usize },
    UnknownTip(String),
    RangeBackwards { first: String, last: String },
    TipOutside { tip: String, rack: usize },
    TipAgain(usize),
    NoTip,
    TooManyParts,
    TooManyColumns,
    NoColumn(String),
    UnknownColumn { column: String, columns: Vec<String> },
    FlagAgain(String),
    Positions(String),
    PositionsBackwards { first: String, last: String },
    PositionsAgain(String),
    BeforeWords(String),
    BeforeUnknown(String),
    BeforeItself(String),
}

impl fmt::Display for What {
    fn fmt(&self, to: &mut fmt::Formatter) -> fmt::Result {
        match self {
            What::NotText => write!(to, "not UTF-8 text; save the file as UTF-8 text"),
            What::ControlCharacter => write!(to, "a control character; save the file as plain text"),
            What::Invisible(c) => invisible_in_words(to, *c),
            What::NoRack => write!(to, "no rack; begin the list with `rack M`, M being the number of tips, 1 to 64"),
            What::RackWords(line) => {
                write!(to, "unknown words in `{line}`; write `rack M`, M being the number of tips")
            }
            What::RackSize(size) => write!(to, "rack {size} is out of range; a rack has 1 to 64 tips"),
            What::RackAgain => write!(to, "a second rack; name it once, at the beginning of the list"),
            What::NoColon => write!(to, "no colon; write `NAME : TIPS`, or `: TIPS` without a name"),
            What::ColonAgain => write!(to, "a second colon; write one part a line"),
            What::UnknownWord(word) => write!(
                to,
                "unknown word `{word}`; write the name first, then only a quantity, as x10, columns, as height=0.9, fine and tall"
            ),
            What::ColumnName(word) => write!(to, "no column name in `{word}`; write it as height=0.9"),
            What::ColumnValue(word) => write!(to, "no number in `{word}`; write it as height=0.9"),
            What::ColumnAgain(column) => write!(to, "a second {column}; give each column once"),
            What::QuantityColumn(word) => {
                write!(to, "`{word}` is a quantity; ")?;
                match word.split_once('=').and_then(|(_, value)| number_of(value)) {
                    Some(number @ 1..=MOST_QUANTITY) => write!(to, "write x{number} in its place"),
                    _ => write!(to, "write x1 to x{MOST_QUANTITY} in its place"),
                }
            }
            What::NoPlacement(word) => {
                write!(to, "`{word}` is no placement at all; write x1 to x{MOST_QUANTITY}, or take the part out")
            }
            What::TooManyOfPart(word) => write!(
                to,
                "`{word}` is above x{MOST_QUANTITY}; write the rest as another part with the same tips and its own name"
            ),
            What::QuantityAgain(word) => write!(to, "a second quantity `{word}`; give each part one"),
            What::TooManyPlacements(total) => {
                write!(to, "{total} placements with this part; a list has {MOST_PLACEMENTS} at most, split it")
            }
            What::NameAgain { name, line } => {
                write!(to, "the name {name} is on line {line} already; give each part its own name")
            }
            What::UnknownTip(word) => {
                write!(to, "unknown word `{word}`; write tips as numbers and ranges with spaces between, as 0 2 4-6")
            }
            What::RangeBackwards { first, last } => {
                write!(to, "the range {first}-{last} runs backwards; write {last}-{first}")
            }
            What::TipOutside { tip, rack } => write!(
                to,
                "tip {tip} is outside the rack, whose tips are 0 to {}; take it out, or name a larger rack",
                rack - 1
            ),
            What::TipAgain(tip) => write!(to, "tip {tip} stands twice; name each tip once"),
            What::NoTip => write!(to, "no tip after the colon; name one at least"),
            What::TooManyParts => write!(to, "part {}; a list has {MOST_LINES} at most, split it", MOST_LINES + 1),
            What::TooManyColumns => {
                write!(to, "more than {MOST_COLUMNS} columns in this list; take out those that nobody sorts by")
            }
            What::NoColumn(column) => write!(to, "no {column}; give every part a {column} to sort by it"),
            What::UnknownColumn { column, columns } => {
                write!(to, "no part has a column {column}; sort by {}", columns.join(" or "))
            }
            What::FlagAgain(flag) => write!(to, "a second {flag}; write it once"),
            What::Positions(word) => {
                write!(to, "no positions in `{word}`; write the first and the last, counted from 0, as at=0-3")
            }
            What::PositionsBackwards { first, last } => {
                write!(to, "the positions {first}-{last} run backwards; write at={last}-{first}")
            }
            What::PositionsAgain(word) => write!(to, "a second `{word}`; give each part one first and last position"),
            What::BeforeWords(line) => {
                write!(to, "unknown words in `{line}`; write `before A B`, A being placed before B")
            }
            What::BeforeUnknown(name) => write!(to, "the list has no part {name}; take the rule out, or correct the name"),
            What::BeforeItself(name) => write!(to, "{name} cannot be before itself; name two parts"),
        }
    }
}

/// That two names may look the same and differ.
pub(crate) fn invisible_in_words(to: &mut fmt::Formatter, c: char) -> fmt::Result {
    write!(to, "a character that nobody sees, U+{:04X}; delete these words and type them again", u32::from(c))
}

impl List {
    /// Reads a list, or gives what is wrong, at most one fault a line.
    pub fn read(bytes: &[u8]) -> Result<List, Vec<Fault>> {
        let mut reading = Reading::new();
        let mut faults = Vec::new();
        let lines = lines_of(bytes);
        for (line, &bytes) in (1..).zip(&lines) {
            if let Err(what) = reading.take(line, bytes) {
                faults.push(Fault { line, what });
            }
        }
        if !reading.has_rack && faults.is_empty() {
            faults.push(Fault { line: lines.len().max(1), what: What::NoRack });
        }
        // Parts below a rule may be named in it; names that faulty lines have are not missing.
        if faults.is_empty() {
            faults = reading.put_rules();
        }
        if !faults.is_empty() {
            return Err(faults);
        }
        Ok(List { tail: reading.above, ..reading.list })
    }

    /// The job of this list, a line a part.
    pub fn job(&self) -> Job {
        let lines = self.parts.iter().map(|part| Line { set: part.tips, quantity: part.quantity }).collect();
        Job { rack: self.rack, lines }
    }

    /// The text of the list, sorted by a column or by the quantity; parts with equal numbers stay in their order.
    pub fn sorted_by(&self, column: &str) -> Result<String, Vec<Fault>> {
        let mut numbered = Vec::new();
        let mut faults = Vec::new();
        for part in &self.parts {
            match part.number_of(column) {
                Some(number) => numbered.push((number, part)),
                None => faults.push(Fault { line: part.line, what: What::NoColumn(column.into()) }),
            }
        }
        if let (true, Some(first)) = (numbered.is_empty(), self.parts.first()) {
            let what = What::UnknownColumn { column: column.into(), columns: self.columns() };
            return Err(vec![Fault { line: first.line, what }]);
        }
        if !faults.is_empty() {
            return Err(faults);
        }
        numbered.sort_by(|(one, _), (other, _)| one.partial_cmp(other).unwrap_or(Ordering::Equal));
        Ok(self.text_with(numbered.iter().map(|(_, part)| part.with_tips(part.tips))))
    }

    /// What the list can be sorted by: each column that some part has, and the quantity.
    fn columns(&self) -> Vec<String> {
        let mut columns: Vec<String> = Vec::new();
        for part in &self.parts {
            let positions = part.at.map(|_| POSITIONS);
            for name in part.columns.iter().map(|(name, _)| name.as_str()).chain(positions) {
                if !columns.iter().any(|other| other == name) {
                    columns.push(name.into());
                }
            }
        }
        columns.push("quantity".into());
        columns
    }

    /// The text of the list with the tips of these lines, a line a part; names, quantities, columns and comments stay.
    pub fn with_tips(&self, lines: &[Line]) -> String {
        self.text_with(self.parts.iter().zip(lines).map(|(part, line)| part.with_tips(line.set)))
    }

    /// The text of the list with these texts of parts.
    fn text_with(&self, parts: impl Iterator<Item = String>) -> String {
        format!("{}{}{}", self.head, parts.collect::<String>(), self.tail)
    }
}

impl Part {
    /// What stands behind the `#` of its line.
    pub fn comment(&self) -> &str {
        self.text.split_once('#').map_or("", |(_, comment)| comment.trim())
    }

    /// The reference designators of its placements, as an import writes them behind its comment: as many placements for
    /// each, and its name among them. Nothing where the list does not say.
    pub fn references(&self) -> Vec<&str> {
        let Some((_, words)) = self.comment().rsplit_once(": ") else { return Vec::new() };
        let references: Vec<&str> = words.split_whitespace().collect();
        let is_named = self.name.as_ref().is_some_and(|name| references.iter().any(|word| name_of(word) == *name));
        let is_even = !references.is_empty() && usize::from(self.quantity) % references.len() == 0;
        if is_named && is_even {
            references
        } else {
            Vec::new()
        }
    }

    /// Its line on a panel, with this behind its name and its references; a position in the order of one board is left out.
    pub(crate) fn on_panel(&self, board: &str) -> String {
        let mut words: Vec<String> = self.name.iter().map(|name| format!("{name}{board}")).collect();
        words.extend(Some(quantity_in_words(self.quantity).trim().to_string()).filter(|word| !word.is_empty()));
        words.extend(self.columns.iter().map(|(column, number)| format!("{column}={number}")));
        words.extend(self.fine.then(|| FINE.into()));
        words.extend(self.tall.then(|| TALL.into()));
        let references: Vec<String> = self.references().iter().map(|word| format!("{word}{board}")).collect();
        let comment = match self.comment().rsplit_once(": ") {
            Some((before, _)) if !references.is_empty() => format!(" # {before}: {}", references.join(" ")),
            _ if self.comment().is_empty() => String::new(),
            _ => format!(" # {}", self.comment()),
        };
        format!("{} : {}{comment}\n", words.join(" "), tips_in_words(self.tips)).trim_start().into()
    }

    /// Its number to sort by: in a column, or its quantity by any word for it.
    fn number_of(&self, column: &str) -> Option<f64> {
        if is_quantity(column) {
            return Some(self.quantity.into());
        }
        if column == POSITIONS {
            return self.at.map(|(first, _)| first.into());
        }
        self.columns.iter().find(|(name, _)| name == column).map(|&(_, number)| number)
    }

    /// Its lines with these tips, and as they stand in the list where these are its own.
    fn with_tips(&self, tips: u64) -> String {
        let mut text = self.text.clone();
        if tips != self.tips {
            let (before, after) = text.split_once(':').unwrap_or_default();
            let place = after.find('#').unwrap_or(after.len());
            let (written, comment) = after.split_at(place);
            let gap = &written[..written.len() - written.trim_start().len()];
            // Where there is room, comments stay below one another.
            let width = written.trim_start().chars().count().saturating_sub(1);
            let line = format!("{before}:{gap}{:width$} {comment}", tips_in_words(tips));
            text = line.trim_end().into();
        }
        format!("{}{text}\n", self.above)
    }
}

/// Whether a word is never a name, whatever its place.
pub(crate) fn is_taken(word: &str) -> bool {
    matches!(word, FINE | TALL) || word.strip_prefix('x').and_then(number_of).is_some()
}

/// Whether a column of this name is meant as a quantity.
fn is_quantity(column: &str) -> bool {
    QUANTITIES.iter().any(|name| name.eq_ignore_ascii_case(column))
}

/// A list of which the lines up to some line are read.
struct Reading {
    list: List,
    has_rack: bool,
    /// The parts so far, those with a fault too.
    count: usize,
    /// The placements of the parts without a fault.
    placements: usize,
    /// The line of each name.
    names: HashMap<String, usize>,
    columns: HashSet<String>,
    /// The names of each rule, and its line.
    rules: Vec<(String, String, usize)>,
    /// The text below the last part.
    above: String,
}

impl Reading {
    fn new() -> Reading {
        // Until the rack is known, every tip that a rack can have is inside.
        let list =
            List { rack: MOST_TIPS, parts: Vec::new(), rules: Vec::new(), head: String::new(), tail: String::new() };
        Reading {
            list,
            has_rack: false,
            count: 0,
            placements: 0,
            names: HashMap::new(),
            columns: HashSet::new(),
            rules: Vec::new(),
            above: String::new(),
        }
    }

    fn take(&mut self, line: usize, bytes: &[u8]) -> Result<(), What> {
        let text = text_of(bytes)?;
        let content = text.split('#').next().unwrap_or_default().trim();
        if content.is_empty() {
            self.above += &format!("{text}\n");
            return Ok(());
        }
        if let Some(c) = content.chars().find(|&c| is_invisible(c)) {
            return Err(What::Invisible(c));
        }
        if !self.has_rack {
            self.has_rack = true;
            self.above += &format!("{text}\n");
            self.list.rack = rack_of(content)?;
            return Ok(());
        }
        if let Some((earlier, later)) = rule_of(content)? {
            // It stays where it stands, as a comment does.
            self.above += &format!("{text}\n");
            self.rules.push((earlier, later, line));
            return Ok(());
        }
        self.count += 1;
        if self.count == MOST_LINES + 1 {
            return Err(What::TooManyParts);
        }
        let part = part_of(content, self.list.rack)?;
        if let Some(name) = &part.name {
            if let Some(&line) = self.names.get(name) {
                return Err(What::NameAgain { name: name.clone(), line });
            }
            self.names.insert(name.clone(), line);
        }
        self.columns.extend(part.columns.iter().map(|(column, _)| column.clone()));
        if self.columns.len() > MOST_COLUMNS {
            return Err(What::TooManyColumns);
        }
        let before = self.placements;
        self.placements += usize::from(part.quantity);
        // Only the first part to pass is told: it is where to split the list.
        if before <= MOST_PLACEMENTS && self.placements > MOST_PLACEMENTS {
            return Err(What::TooManyPlacements(self.placements));
        }
        if self.list.parts.is_empty() {
            // What stands above the first part stays on top when the list is sorted.
            self.list.head = std::mem::take(&mut self.above);
        }
        let above = std::mem::take(&mut self.above);
        self.list.parts.push(Part { line, above, text: text.into(), ..part });
        Ok(())
    }

    /// Puts the rules into the list, or gives what is wrong with them.
    fn put_rules(&mut self) -> Vec<Fault> {
        let number = |(number, part): (usize, &Part)| Some((part.name.clone()?, number));
        let numbers: HashMap<String, usize> = self.list.parts.iter().enumerate().filter_map(number).collect();
        let mut faults = Vec::new();
        for (earlier, later, line) in &self.rules {
            let unknown = [earlier, later].into_iter().find(|name| !numbers.contains_key(*name));
            let what = match unknown {
                Some(name) => What::BeforeUnknown(name.clone()),
                None if earlier == later => What::BeforeItself(later.clone()),
                None => {
                    self.list.rules.push(Before { earlier: numbers[earlier], later: numbers[later], line: *line });
                    continue;
                }
            };
            faults.push(Fault { line: *line, what });
        }
        faults
    }
}

/// The lines of a text, without what ends them.
pub(crate) fn lines_of(bytes: &[u8]) -> Vec<&[u8]> {
    // UTF-16 has line ends of its own; as one line it is refused once.
    if bytes.starts_with(b"\xFF\xFE") || bytes.starts_with(b"\xFE\xFF") {
        return vec![bytes];
    }
    let bytes = bytes.strip_prefix("\u{FEFF}".as_bytes()).unwrap_or(bytes);
    let bytes = bytes.strip_suffix(b"\n").unwrap_or(bytes);
    if bytes.is_empty() {
        return Vec::new();
    }
    bytes.split(|&byte| byte == b'\n').map(|line| line.strip_suffix(b"\r").unwrap_or(line)).collect()
}

pub(crate) fn text_of(line: &[u8]) -> Result<&str, What> {
    let text = std::str::from_utf8(line).map_err(|_| What::NotText)?;
    if text.chars().any(|c| c.is_control() && c != '\t') {
        return Err(What::ControlCharacter);
    }
    Ok(text)
}

/// A number in digits alone, the largest there is where it does not fit.
pub(crate) fn number_of(word: &str) -> Option<usize> {
    let is_digits = !word.is_empty() && word.bytes().all(|byte| byte.is_ascii_digit());
    is_digits.then(|| word.parse().unwrap_or(usize::MAX))
}

/// A number as `0.9`, `12` or `-3.25`.
pub(crate) fn decimal_of(word: &str) -> Option<f64> {
    let unsigned = word.strip_prefix('-').unwrap_or(word);
    let (whole, part) = unsigned.split_once('.').unwrap_or((unsigned, "0"));
    number_of(whole).and(number_of(part)).and(word.parse().ok())
}

fn rack_of(content: &str) -> Result<usize, What> {
    let words: Vec<&str> = content.split_whitespace().collect();
    if words[0] != "rack" {
        return Err(What::NoRack);
    }
    let [_, size] = words[..] else {
        return Err(What::RackWords(content.into()));
    };
    match number_of(size) {
        None => Err(What::RackWords(content.into())),
        Some(rack) if rack == 0 || rack > MOST_TIPS => Err(What::RackSize(size.into())),
        Some(rack) => Ok(rack),
    }
}

/// The two names of a rule, where the line is one; a part has a colon.
fn rule_of(content: &str) -> Result<Option<(String, String)>, What> {
    let words: Vec<&str> = content.split_whitespace().collect();
    if words[0] != BEFORE || content.contains(':') {
        return Ok(None);
    }
    match words[..] {
        [_, earlier, later] => Ok(Some((earlier.into(), later.into()))),
        _ => Err(What::BeforeWords(content.into())),
    }
}

/// The first and last position of a word as `at=0-3` or `at=2`; what is too large for a position is one that none has.
fn positions_of(word: &str, value: &str) -> Result<(u32, u32), What> {
    let (first, last) = value.split_once('-').unwrap_or((value, value));
    let (Some(low), Some(high)) = (number_of(first), number_of(last)) else {
        return Err(What::Positions(word.into()));
    };
    if low > high {
        return Err(What::PositionsBackwards { first: first.into(), last: last.into() });
    }
    let position = |number: usize| u32::try_from(number).unwrap_or(u32::MAX);
    Ok((position(low), position(high)))
}

/// The part of a line, which has no place in the list yet.
fn part_of(content: &str, rack: usize) -> Result<Part, What> {
    let Some((before, after)) = content.split_once(':') else {
        let is_rack = content.split_whitespace().next() == Some("rack");
        return Err(if is_rack { What::RackAgain } else { What::NoColon });
    };
    if after.contains(':') {
        return Err(What::ColonAgain);
    }
    let mut name = None;
    let mut quantity = None;
    let mut columns: Vec<(String, f64)> = Vec::new();
    let (mut fine, mut tall, mut at) = (false, false, None);
    for (place, word) in before.split_whitespace().enumerate() {
        if let Some(number) = word.strip_prefix('x').and_then(number_of) {
            if quantity.is_some() {
                return Err(What::QuantityAgain(word.into()));
            }
            if number == 0 {
                return Err(What::NoPlacement(word.into()));
            }
            quantity = Some(u8::try_from(number).map_err(|_| What::TooManyOfPart(word.into()))?);
            continue;
        }
        let flag = match word {
            FINE => Some(&mut fine),
            TALL => Some(&mut tall),
            _ => None,
        };
        if let Some(flag) = flag {
            if std::mem::replace(flag, true) {
                return Err(What::FlagAgain(word.into()));
            }
            continue;
        }
        let Some((column, value)) = word.split_once('=') else {
            if place > 0 {
                return Err(What::UnknownWord(word.into()));
            }
            name = Some(word.to_string());
            continue;
        };
        if column.is_empty() {
            return Err(What::ColumnName(word.into()));
        }
        if is_quantity(column) {
            return Err(What::QuantityColumn(word.into()));
        }
        if column == POSITIONS {
            if at.replace(positions_of(word, value)?).is_some() {
                return Err(What::PositionsAgain(word.into()));
            }
            continue;
        }
        if columns.iter().any(|(earlier, _)| earlier == column) {
            return Err(What::ColumnAgain(column.into()));
        }
        if columns.len() == MOST_COLUMNS {
            return Err(What::TooManyColumns);
        }
        let number = decimal_of(value).ok_or_else(|| What::ColumnValue(word.into()))?;
        columns.push((column.into(), number));
    }
    let (tips, quantity) = (tips_of(after, rack)?, quantity.unwrap_or(1));
    Ok(Part { name, quantity, columns, fine, tall, at, tips, line: 0, above: String::new(), text: String::new() })
}

fn tips_of(text: &str, rack: usize) -> Result<u64, What> {
    let mut set = 0;
    for word in text.split_whitespace() {
        let (first, last) = word.split_once('-').unwrap_or((word, word));
        let (Some(low), Some(high)) = (number_of(first), number_of(last)) else {
            return Err(What::UnknownTip(word.into()));
        };
        if low > high {
            return Err(What::RangeBackwards { first: first.into(), last: last.into() });
        }
        if high >= rack {
            return Err(What::TipOutside { tip: last.into(), rack });
        }
        for tip in low..=high {
            if set >> tip & 1 == 1 {
                return Err(What::TipAgain(tip));
            }
            set |= 1 << tip;
        }
    }
    if set == 0 {
        return Err(What::NoTip);
    }
    Ok(set)
}
