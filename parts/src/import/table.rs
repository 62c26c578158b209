//! The table from packages to tips: a parts list with patterns for names, as `R_0402* height=0.5 : 0-1`, and lines as
//! `skip Fiducial*` for packages and `skip value DNP` for values that are left out. The first row that matches a package
//! counts; a value is left out wherever its row stands.

use std::collections::HashSet;

use crate::comparing::{Entries, Entry};
use crate::import::{distinct, fault, groups_of, list_of, on_one_line, Faults, Group, Known, Picked, Placement, Sides};
use crate::letters::is_invisible;
use crate::list::{is_taken, lines_of, List, Part};
use crate::{counted, tips_in_words, MOST_LINES};

/// The word that begins a row for packages that are left out.
const SKIP: &str = "skip";
/// The word behind it where the pattern is for values.
const VALUE: &str = "value";

/// A table without faults.
#[derive(Clone, PartialEq, Eq, Debug)]
pub struct Table {
    pub rack: usize,
    /// In the order of the text.
    rows: Vec<Row>,
    /// The patterns of the values that are left out.
    skipped_values: Vec<String>,
}

/// What is left out by a row.
enum Skipped {
    Package(String),
    Value(String),
}

#[derive(Clone, PartialEq, Eq, Debug)]
struct Row {
    pattern: String,
    /// What its packages get; nothing where they are left out.
    picked: Option<Picked>,
    line: usize,
}

impl Table {
    /// Reads a table, or gives what is wrong, at most one fault a line.
    pub fn read(bytes: &[u8]) -> Result<Table, Faults> {
        let (mut rows, mut faults, mut skipped_values) = (Vec::new(), Vec::new(), Vec::new());
        // The rest keeps its line numbers.
        let mut rest = Vec::new();
        for (line, text) in (1..).zip(lines_of(bytes)) {
            match skipped_in(text) {
                None => rest.extend_from_slice(text),
                Some(Ok(_)) if rows.len() + skipped_values.len() == MOST_LINES => {
                    faults.push(fault(
                        line,
                        format!("more than {MOST_LINES} lines `{SKIP}`; a * stands for any letters"),
                    ));
                    return Err(faults);
                }
                Some(Ok(Skipped::Package(pattern))) => rows.push(Row { pattern, picked: None, line }),
                Some(Ok(Skipped::Value(pattern))) => skipped_values.push(pattern),
                Some(Err(what)) => faults.push(fault(line, what)),
            }
            rest.push(b'\n');
        }
        let list = match List::read(&rest) {
            Ok(list) => list,
            Err(others) => {
                faults.extend(others.into_iter().map(|other| fault(other.line, other.what.to_string())));
                faults.sort_by_key(|fault| fault.line);
                return Err(faults);
            }
        };
        for rule in &list.rules {
            faults.push(fault(rule.line, "a rule of the placing order; write it into the parts list, which has names"));
        }
        for part in &list.parts {
            match row_of(part) {
                Ok(row) => rows.push(row),
                Err(what) => faults.push(fault(part.line, what)),
            }
        }
        faults.sort_by_key(|fault| fault.line);
        rows.sort_by_key(|row| row.line);
        if faults.is_empty() {
            Ok(Table { rack: list.rack, rows, skipped_values })
        } else {
            Err(faults)
        }
    }

    /// What the first row that matches says of a package.
    pub fn known(&self, package: &str) -> Known<'_> {
        match self.rows.iter().find(|row| matches(&row.pattern, package)) {
            None => Known::Nothing,
            Some(Row { picked: None, .. }) => Known::Skipped,
            Some(Row { picked: Some(picked), .. }) => Known::Picked(picked),
        }
    }

    /// Whether a name of a list, or a row that leaves something out, shows that this is a table and no list of parts.
    pub fn has_patterns(&self) -> bool {
        !self.skipped_values.is_empty()
            || self.rows.iter().any(|row| row.picked.is_none() || row.pattern.contains(['*', '?']))
    }

    /// Its rows, to be compared with those of another one.
    pub fn entries(&self) -> Entries {
        let row = |row: &Row| {
            let mut facts = vec![("is".to_string(), "left out".to_string())];
            if let Some(picked) = &row.picked {
                facts = vec![("is".into(), "placed".into()), ("tips".into(), tips_in_words(picked.tips))];
                facts.extend((!picked.words.is_empty()).then(|| ("words".into(), picked.words.clone())));
            }
            Entry { name: row.pattern.clone(), facts }
        };
        let value = |pattern: &String| Entry {
            name: format!("{VALUE} {pattern}"),
            facts: vec![("is".into(), "left out".into())],
        };
        let entries = self.rows.iter().map(row).chain(self.skipped_values.iter().map(value)).collect();
        Entries { rack: self.rack, entries, thing: "row", is_ordered: true }
    }

    /// The text of the parts list of these placements, on these sides.
    pub fn list(&self, placements: Vec<Placement>, sides: Sides) -> Result<String, Faults> {
        if let (false, Some(first)) = (self.skipped_values.is_empty(), placements.first()) {
            if placements.iter().all(|placement| placement.value.is_empty()) {
                let what = "no placement has a value, and the table leaves values out; add value=COLUMN to --columns";
                return Err(vec![fault(first.line, what)]);
            }
        }
        let placements = sides.of_placements(placements, |_| false)?;
        let head = format!("rack {}\n", self.rack);
        list_of(&placements, head, |group| self.known_of(group), unknown)
    }

    fn known_of(&self, group: &Group) -> Known<'_> {
        match self.skipped_values.iter().any(|pattern| matches(pattern, group.value)) {
            true => Known::Skipped,
            false => self.known(group.package),
        }
    }
}

/// What packages begin with that no tip places.
const NOT_PLACED: [&str; 3] = ["fiducial", "mountinghole", "testpoint"];
/// The most references that a row of a new table names.
const MOST_REFERENCES: usize = 6;
const BEGINNING: &str = "\
# Write the number of tips in your rack for the ?, and behind each colon the tips that can pick the package, as 0-1 or 2 4.
# One row may do for many packages, as R_0402* with a * for any letters. A row `skip PACKAGE` leaves a package out.
rack ?
";

/// A package that a table has no row for.
#[derive(Clone, PartialEq, Eq, Debug)]
pub struct Missing {
    /// What the row begins with.
    pub pattern: String,
    /// How many placements it has, and where they are, in short.
    pub comment: String,
    /// Whether it is left out as a rule, as a fiducial is.
    pub is_left_out: bool,
}

impl Missing {
    fn of(group: &Group) -> Missing {
        let references = distinct(&group.references);
        let more = if references.len() > MOST_REFERENCES { " .." } else { "" };
        let named = on_one_line(&references[..references.len().min(MOST_REFERENCES)].join(" "));
        let package = group.package.to_ascii_lowercase();
        Missing {
            pattern: pattern_of(group.package),
            comment: format!("{}: {named}{more}", counted(group.references.len() as u64, "placement")),
            is_left_out: NOT_PLACED.iter().any(|word| package.starts_with(word)),
        }
    }

    /// Its row, without tips.
    fn row(&self) -> String {
        match self {
            Missing { pattern, comment, is_left_out: true } => format!("{SKIP} {pattern} # {comment}\n"),
            Missing { pattern, comment, is_left_out: false } => format!("{pattern} : # {comment}\n"),
        }
    }
}

/// The packages of placements that a table lacks, each pattern once; without a table all of them.
pub fn missing(placements: Vec<Placement>, sides: Sides, table: Option<&Table>) -> Result<Vec<Missing>, Faults> {
    let placements = sides.of_placements(placements, |_| false)?;
    let is_new = |group: &Group| table.is_none_or(|table| matches!(table.known_of(group), Known::Nothing));
    let new: HashSet<&str> =
        groups_of(placements.iter(), true).iter().filter(|group| is_new(group)).map(|group| group.package).collect();
    let groups = groups_of(placements.iter(), false);
    let mut patterns = HashSet::new();
    let missing = groups.iter().filter(|group| new.contains(group.package)).map(Missing::of);
    Ok(missing.filter(|missing| patterns.insert(missing.pattern.clone())).collect())
}

/// A table to begin with: a row for each package, to be filled with tips; or only the rows that a table lacks.
pub fn beginning(placements: Vec<Placement>, sides: Sides, table: Option<&Table>) -> Result<String, Faults> {
    let missing = missing(placements, sides, table)?;
    let mut text = if table.is_none() { BEGINNING.into() } else { String::new() };
    text.extend(missing.iter().map(Missing::row));
    if missing.is_empty() {
        text += "# every package has a row\n";
    }
    Ok(text)
}

/// That no row matches, and which rows would.
fn unknown(group: &Group) -> String {
    let (package, references) = (group.package, distinct(&group.references).join(" "));
    let pattern = pattern_of(package);
    format!(
        "no row matches {package}, the package of {references}; add `{pattern} : TIPS` or `{SKIP} {pattern}` to the table"
    )
}

/// A pattern for this package, with `?` for what no pattern has.
fn pattern_of(package: &str) -> String {
    let is_foreign = |c: char| c.is_whitespace() || is_invisible(c) || ":=#".contains(c);
    let pattern: String = package.chars().map(|c| if is_foreign(c) { '?' } else { c }).collect();
    // A word as x10 is no pattern either.
    match is_taken(&pattern) {
        true => pattern.chars().skip(1).fold("?".into(), |pattern, c| pattern + &c.to_string()),
        false => pattern,
    }
}

/// What a line leaves out, where it leaves something out; other rows have a colon.
fn skipped_in(line: &[u8]) -> Option<Result<Skipped, String>> {
    let content = std::str::from_utf8(line).ok()?.split('#').next().unwrap_or_default().trim();
    let mut words = content.split_whitespace();
    if words.next() != Some(SKIP) || content.contains(':') {
        return None;
    }
    match (words.next(), words.next(), words.next()) {
        (Some(pattern), None, None) => Some(Ok(Skipped::Package(pattern.into()))),
        (Some(VALUE), Some(pattern), None) => Some(Ok(Skipped::Value(pattern.into()))),
        _ => Some(Err(format!(
            "unknown words in `{content}`; write `{SKIP} PATTERN` or `{SKIP} {VALUE} PATTERN`, one pattern a line"
        ))),
    }
}

fn row_of(part: &Part) -> Result<Row, String> {
    let pattern = part.name.clone().ok_or("no pattern; write one before the colon, as R_0402* : 0-1")?;
    if part.quantity != 1 {
        return Err(format!("a quantity x{}; placements are counted, take it out", part.quantity));
    }
    if let Some((column, _)) = part.columns.iter().find(|(_, number)| !number.is_finite()) {
        return Err(format!("too large a number for {column}; write fewer digits"));
    }
    let picked = Some(Picked { words: words_of(part), tips: part.tips });
    Ok(Row { pattern, picked, line: part.line })
}

/// The columns and words of a row, for the parts of its packages.
fn words_of(part: &Part) -> String {
    let mut words: Vec<String> = part.columns.iter().map(|(column, number)| format!("{column}={number}")).collect();
    words.extend(part.fine.then(|| "fine".into()));
    words.extend(part.tall.then(|| "tall".into()));
    words.extend(part.at.map(|(first, last)| match first == last {
        true => format!("at={first}"),
        false => format!("at={first}-{last}"),
    }));
    words.join(" ")
}

/// Whether a pattern stands for this word: `*` for any letters or none, `?` for one letter.
pub fn matches(pattern: &str, word: &str) -> bool {
    let (pattern, word): (Vec<char>, Vec<char>) = (pattern.chars().collect(), word.chars().collect());
    let (mut at, mut read) = (0, 0);
    // The place behind the last star, and where what it stands for ends.
    let mut star = None;
    while read < word.len() {
        match pattern.get(at) {
            Some('*') => {
                at += 1;
                star = Some((at, read));
            }
            Some(&c) if c == '?' || c == word[read] => {
                at += 1;
                read += 1;
            }
            _ => {
                let Some((behind, end)) = star else { return false };
                star = Some((behind, end + 1));
                (at, read) = (behind, end + 1);
            }
        }
    }
    pattern[at..].iter().all(|&c| c == '*')
}

#[cfg(test)]
mod tests {
    use super::matches;

    #[test]
    fn stars_and_question_marks_stand_for_letters() {
        for (pattern, word) in [
            ("R_0402*", "R_0402_1005Metric"),
            ("R_0402*", "R_0402"),
            ("*", ""),
            ("*0402*", "C_0402"),
            ("*a*b", "aab xb"),
            ("?_0402", "R_0402"),
            ("SOT-23", "SOT-23"),
            ("*-?", "SOT-23-6"),
            ("Ω*", "Ω1"),
            ("?1", "Ω1"),
        ] {
            assert!(matches(pattern, word), "{pattern} {word}");
        }
        for (pattern, word) in [
            ("R_0402", "R_0402_1005Metric"),
            ("r_0402*", "R_0402"),
            ("?", ""),
            ("", "a"),
            ("*a*b", "aabx"),
            ("SOT-23", "SOT-2"),
        ] {
            assert!(!matches(pattern, word), "{pattern} {word}");
        }
    }
}
