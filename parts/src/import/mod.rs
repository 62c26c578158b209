//! Parts lists from the files of other programs: placements of equal package and value make one part.

use std::collections::{HashMap, HashSet};

use crate::letters::{is_invisible, shown};
use crate::list::{is_taken, lines_of, Fault};
use crate::{quantity_in_words, tips_in_words, MOST_LINES, MOST_PLACEMENTS, MOST_QUANTITY};

pub mod csv;
pub mod kicad;
pub mod openpnp;
pub mod table;
pub mod xml;

/// What is wrong with a file, by line.
pub type Faults = Vec<Fault<String>>;

fn fault(line: usize, what: impl Into<String>) -> Fault<String> {
    Fault { line, what: what.into() }
}

/// How KiCad's own files begin, boards and schematics, which are no position files.
const OF_KICAD: &str = "(kicad_";

/// Whether a file looks like one that is imported: XML, a file of KiCad, or a first row with several columns.
pub fn is_foreign(bytes: &[u8]) -> bool {
    let lines = lines_of(bytes);
    let first = lines.into_iter().find(|line| !line.trim_ascii().is_empty()).unwrap_or_default();
    let begins = |words: &str| first.starts_with(words.as_bytes());
    let has_columns =
        || csv::SEPARATORS.iter().any(|&mark| first.iter().filter(|&&byte| char::from(byte) == mark).count() > 1);
    begins("<")
        || begins(OF_KICAD)
        || begins("### Footprint positions")
        || begins("### Module positions")
        || !begins("#") && has_columns()
}

/// A side of the board.
#[derive(Clone, Copy, PartialEq, Eq, Debug)]
pub enum Side {
    Top,
    Bottom,
}

impl Side {
    /// The side that a file means by this word.
    fn of(word: &str) -> Result<Side, String> {
        match word.to_ascii_lowercase().as_str() {
            "top" | "t" | "toplayer" | "front" | "f.cu" => Ok(Side::Top),
            "bottom" | "b" | "bottomlayer" | "back" | "b.cu" => Ok(Side::Bottom),
            "" => Err("no side; write top or bottom".into()),
            _ => Err(format!("`{word}` is no side; write top or bottom")),
        }
    }

    fn name(self) -> &'static str {
        match self {
            Side::Top => "top",
            Side::Bottom => "bottom",
        }
    }
}

/// The sides that are asked for.
#[derive(Clone, Copy, PartialEq, Eq, Debug)]
pub enum Sides {
    /// No word of them: then the file is of one side.
    Unsaid,
    One(Side),
    Both,
}

impl Sides {
    /// The sides of the option `--side`.
    pub fn of(word: Option<&str>) -> Result<Sides, String> {
        let Some(word) = word else { return Ok(Sides::Unsaid) };
        match word.to_ascii_lowercase().as_str() {
            "top" => Ok(Sides::One(Side::Top)),
            "bottom" => Ok(Sides::One(Side::Bottom)),
            "both" => Ok(Sides::Both),
            _ => Err(format!("a side is top, bottom or both, and not {}", shown(word))),
        }
    }

    /// Whether something on this side is asked for; what has no side is.
    fn has(self, side: Option<Side>) -> bool {
        match (self, side) {
            (Sides::One(asked), Some(side)) => asked == side,
            _ => true,
        }
    }

    /// The placements on these sides. Something else may be on a side too.
    fn of_placements(
        self,
        placements: Vec<Placement>,
        has_others: impl Fn(Side) -> bool,
    ) -> Result<Vec<Placement>, Faults> {
        match self {
            Sides::Both => Ok(placements),
            Sides::One(side) => {
                if let Some(placement) = placements.iter().find(|placement| placement.side.is_none()) {
                    return Err(vec![fault(placement.line, "no side; take --side out, or name the sides")]);
                }
                let line = placements.first().map_or(1, |placement| placement.line);
                let on_side: Vec<Placement> =
                    placements.into_iter().filter(|placement| placement.side == Some(side)).collect();
                if on_side.is_empty() && !has_others(side) {
                    let what =
                        format!("no placement is on the {0}; take --side {0} out, or name another file", side.name());
                    return Err(vec![fault(line, what)]);
                }
                Ok(on_side)
            }
            Sides::Unsaid => {
                let mut sided = placements.iter().filter_map(|placement| Some((placement, placement.side?)));
                let Some((first, side)) = sided.next() else { return Ok(placements) };
                if let Some((other, another)) = sided.find(|&(_, another)| another != side) {
                    let (one, side, another) = (&first.reference, side.name(), another.name());
                    let what = format!("{} is on the {another} and {one} on the {side}", other.reference);
                    return Err(vec![fault(other.line, what + "; add --side top, --side bottom or --side both")]);
                }
                Ok(placements)
            }
        }
    }
}

/// One placement of a board.
#[derive(Clone, PartialEq, Eq, Debug)]
pub struct Placement {
    pub reference: String,
    pub package: String,
    pub value: String,
    pub side: Option<Side>,
    /// Its line in the file, counted from 1.
    pub line: usize,
}

/// Placements of one package, or of one package and value.
pub struct Group<'a> {
    pub package: &'a str,
    pub value: &'a str,
    /// One for each placement.
    pub references: Vec<&'a str>,
    /// The line of the first placement.
    pub line: usize,
}

/// The words between the name and the colon of a part, and its tips.
#[derive(Clone, PartialEq, Eq, Debug)]
pub struct Picked {
    pub words: String,
    pub tips: u64,
}

/// What is known of a package.
pub enum Known<'a> {
    Nothing,
    /// It is left out.
    Skipped,
    Picked(&'a Picked),
}

/// The groups in the order in which they begin.
fn groups_of<'a>(placements: impl Iterator<Item = &'a Placement>, is_by_value: bool) -> Vec<Group<'a>> {
    let mut groups: Vec<Group> = Vec::new();
    let mut numbers = HashMap::new();
    for placement in placements {
        let (package, value) = (placement.package.as_str(), if is_by_value { &placement.value } else { "" });
        let number = *numbers.entry((package, value)).or_insert(groups.len());
        if number == groups.len() {
            groups.push(Group { package, value, references: Vec::new(), line: placement.line });
        }
        groups[number].references.push(&placement.reference);
    }
    groups
}

/// The text of a parts list behind this head, or a fault for each package that nothing is known of.
fn list_of<'a>(
    placements: &[Placement],
    mut text: String,
    known: impl Fn(&Group) -> Known<'a>,
    unknown: impl Fn(&Group) -> String,
) -> Result<String, Faults> {
    let mut strange = HashSet::new();
    let mut parts = Vec::new();
    for group in groups_of(placements.iter(), true) {
        match known(&group) {
            Known::Nothing => _ = strange.insert((group.package, group.value)),
            Known::Skipped => text += &format!("# left out: {}\n", described(&group, &distinct(&group.references))),
            Known::Picked(picked) => parts.push((group, picked)),
        }
    }
    if !strange.is_empty() {
        let is_strange = |placement: &&Placement| strange.contains(&(&placement.package[..], &placement.value[..]));
        let strange = placements.iter().filter(is_strange);
        return Err(groups_of(strange, false).iter().map(|group| fault(group.line, unknown(group))).collect());
    }
    if parts.is_empty() {
        text += "# no placement is left\n";
    }
    let mut names = HashSet::new();
    let (mut count, mut total) = (0, 0);
    for (group, picked) in &parts {
        for references in group.references.chunks(MOST_QUANTITY) {
            count += 1;
            total += references.len();
            if count > MOST_LINES {
                let what = format!("part {count}; a list has {MOST_LINES} at most, split it");
                return Err(vec![fault(group.line, what)]);
            }
            if total > MOST_PLACEMENTS {
                let what = format!("{total} placements with this part; a list has {MOST_PLACEMENTS} at most, split it");
                return Err(vec![fault(group.line, what)]);
            }
            // A reference may stand several times, as on a panel; then a part may be left without a name.
            let mut free = references.iter().map(|reference| name_of(reference));
            let name = free.find(|name| !name.is_empty() && names.insert(name.clone())).unwrap_or_default();
            text += &part_in_words(&name, references, group, picked);
        }
    }
    Ok(text)
}

/// The line of a part, with package, value and references as its comment.
fn part_in_words(name: &str, references: &[&str], group: &Group, picked: &Picked) -> String {
    let quantity = quantity_in_words(u8::try_from(references.len()).unwrap_or(u8::MAX));
    let words: Vec<&str> = [name, quantity.trim(), &picked.words].into_iter().filter(|word| !word.is_empty()).collect();
    let mut references = distinct(references);
    if references == [name] {
        references.clear();
    }
    let line = format!("{} : {} # {}", words.join(" "), tips_in_words(picked.tips), described(group, &references));
    line.trim_start().to_string() + "\n"
}

/// Package, value and references, as `R_0402 10k: R1 R2`, on one line.
fn described(group: &Group, references: &[&str]) -> String {
    let what = on_one_line(&format!("{} {}", group.package, group.value));
    match on_one_line(&references.join(" ")) {
        references if references.is_empty() => what,
        references => format!("{what}: {references}"),
    }
}

/// The words of a comment, which ends with its line.
fn on_one_line(words: &str) -> String {
    words.split_whitespace().collect::<Vec<_>>().join(" ")
}

/// Each of these once, in their order.
fn distinct<'a>(words: &[&'a str]) -> Vec<&'a str> {
    let mut seen = HashSet::new();
    words.iter().copied().filter(|word| seen.insert(*word)).collect()
}

/// A reference as a name of a list: one word, with `_` for what no name has.
pub(crate) fn name_of(reference: &str) -> String {
    let is_foreign = |c: char| c.is_whitespace() || is_invisible(c) || ":=#".contains(c);
    let name: String = reference.chars().map(|c| if is_foreign(c) { '_' } else { c }).collect();
    if is_taken(&name) {
        return name + "_";
    }
    name
}
