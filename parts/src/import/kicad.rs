//! KiCad's position files: its CSV, and its text with aligned columns.

use crate::import::csv::{self, Columns};
use crate::import::{fault, Faults, Placement, Side, OF_KICAD};
use crate::list::{decimal_of, lines_of, text_of};

/// A row is one placement, whatever its reference.
const COLUMNS: Columns = Columns {
    reference: "Ref",
    package: "Package",
    value: Some("Val"),
    side: Some("Side"),
    quantity: None,
    is_several: false,
};

/// The names of the columns in both forms.
const NAMES: [&str; 7] = ["Ref", "Val", "Package", "PosX", "PosY", "Rot", "Side"];

/// The placements of a position file in either form.
pub fn placements_of(bytes: &[u8]) -> Result<Vec<Placement>, Faults> {
    let first = lines_of(bytes).into_iter().find(|line| !line.trim_ascii().is_empty()).unwrap_or_default();
    if first.starts_with(b"#") {
        return aligned(bytes);
    }
    if first.starts_with(OF_KICAD.as_bytes()) {
        let what = "KiCad's own file and no position file; in KiCad's PCB editor choose File, Fabrication Outputs, \
                    Component Placement, and take the file that this writes";
        return Err(vec![fault(1, what)]);
    }
    if let Some(names) = csv::names_of(bytes) {
        if names != NAMES {
            let what = format!("no position file of KiCad; it begins with {} or with ###", NAMES.join(","));
            return Err(vec![fault(1, what + ", and `parts import csv` takes other files")]);
        }
    }
    csv::placements_apart(bytes, &COLUMNS, fields_apart)
}

/// The fields of a row whose value has quotation marks and commas that KiCad 6 leaves as they are: the three fields in front
/// have marks around them, and the four behind have none.
fn fields_apart(row: &str) -> Option<Vec<String>> {
    let mut behind = row.trim().rsplitn(5, ',');
    let mut numbers: Vec<&str> = behind.by_ref().take(4).collect();
    numbers.reverse();
    let words = behind.next()?.trim().strip_prefix('"')?.strip_suffix('"')?;
    let (reference, rest) = words.split_once(BETWEEN)?;
    let (value, package) = rest.rsplit_once(BETWEEN)?;
    Some([reference, value, package].into_iter().chain(numbers).map(|field| field.trim().into()).collect())
}

/// What is between two fields with marks around them.
const BETWEEN: &str = "\",\"";

/// The placements of the text with aligned columns, which has a line of names above them and `## End` below.
fn aligned(bytes: &[u8]) -> Result<Vec<Placement>, Faults> {
    let (mut placements, mut faults) = (Vec::new(), Vec::new());
    let lines = lines_of(bytes);
    if !lines.iter().any(|line| text_of(line).is_ok_and(is_line_of_names)) {
        return Err(vec![fault(
            1,
            format!("no line `# {}`; name a position file of KiCad, or export it again", NAMES.join(" ")),
        )]);
    }
    // Where the packages begin, from the line of names up to the end.
    let mut packages = None;
    let mut is_ended = false;
    for (line, &bytes) in (1..).zip(&lines) {
        let text = match text_of(bytes) {
            Ok(text) => text,
            Err(what) => {
                faults.push(fault(line, what.to_string()));
                continue;
            }
        };
        if text.trim().is_empty() {
            continue;
        }
        if let Some(comment) = text.strip_prefix('#') {
            if is_line_of_names(text) {
                (packages, is_ended) = (text.find("Package"), false);
            } else if comment.split_whitespace().eq(["#", "End"]) {
                (packages, is_ended) = (None, true);
            }
            continue;
        }
        match packages.ok_or_else(|| format!("no line `# {}` above it; export the file again", NAMES.join(" "))) {
            Ok(column) => match placement_of(text, column, line) {
                Ok(placement) => placements.push(placement),
                Err(what) => faults.push(fault(line, what)),
            },
            Err(what) => faults.push(fault(line, what)),
        }
    }
    if !is_ended {
        faults.push(fault(lines.len(), "no `## End`; the file is cut, export it again"));
    }
    if faults.is_empty() {
        Ok(placements)
    } else {
        Err(faults)
    }
}

/// Whether a line is the one with the names of the columns.
fn is_line_of_names(text: &str) -> bool {
    text.strip_prefix('#').is_some_and(|comment| comment.split_whitespace().eq(NAMES))
}

/// The placement of a line, in which packages begin at this column; KiCad writes `_` for the spaces in names.
fn placement_of(text: &str, packages: usize, line: usize) -> Result<Placement, String> {
    let words: Vec<&str> = text.split_whitespace().collect();
    let (reference, value, package, numbers, side) = match words[..] {
        [reference, value, package, x, y, turn, side] => (reference, value, package, [x, y, turn], side),
        // A part without a value.
        [reference, package, x, y, turn, side] if second_at(text) == packages => {
            (reference, "", package, [x, y, turn], side)
        }
        _ => return Err(format!("{} words; a row has {}: {}", words.len(), NAMES.len(), NAMES.join(" "))),
    };
    if let Some(word) = numbers.into_iter().find(|word| decimal_of(word).is_none()) {
        return Err(format!("`{word}` is no number; a row has {}", NAMES.join(" ")));
    }
    let side = Some(Side::of(side)?);
    Ok(Placement { reference: reference.into(), package: package.into(), value: value.into(), side, line })
}

/// The column in which the second word begins.
fn second_at(text: &str) -> usize {
    let gap = text.chars().position(char::is_whitespace).unwrap_or(0);
    gap + text.chars().skip(gap).take_while(|c| c.is_whitespace()).count()
}
