//! Comma-separated text: a row of column names, then a row for each placement or for several of one kind.

use crate::import::{fault, Faults, Placement, Side};
use crate::limits::{self, MOST_COLUMNS};
use crate::list::{lines_of, number_of, text_of};
use crate::{counted, MOST_PLACEMENTS};

/// What may stand between fields; the first row tells which of them does.
pub(super) const SEPARATORS: [char; 3] = [',', ';', '\t'];

/// The name of each column that is read, or its number, counted from 1.
#[derive(Clone, PartialEq, Eq, Debug)]
pub struct Columns<'a> {
    pub reference: &'a str,
    pub package: &'a str,
    pub value: Option<&'a str>,
    pub side: Option<&'a str>,
    pub quantity: Option<&'a str>,
    /// Whether a field may have several references, as `R1, R2`.
    pub is_several: bool,
}

impl Columns<'_> {
    /// The columns of the option `--columns`, as `ref=Designator,package=Footprint`.
    pub fn of(words: &str) -> Result<Columns<'_>, String> {
        let (mut reference, mut package, mut value, mut side, mut quantity) = (None, None, None, None, None);
        for word in words.split(',').filter(|word| !word.trim().is_empty()) {
            let (kind, name) = word.split_once('=').unwrap_or((word, ""));
            let place = match kind.trim() {
                "ref" => &mut reference,
                "package" => &mut package,
                "value" => &mut value,
                "side" => &mut side,
                "quantity" => &mut quantity,
                _ => {
                    return Err(format!(
                        "--columns has no {}; it has ref, package, value, side and quantity",
                        kind.trim()
                    ))
                }
            };
            if name.trim().is_empty() || place.replace(name.trim()).is_some() {
                return Err(format!("--columns takes one name for {0}, as {0}=NAME", kind.trim()));
            }
        }
        let (Some(reference), Some(package)) = (reference, package) else {
            return Err("--columns needs a ref and a package, as ref=Designator,package=Footprint".into());
        };
        Ok(Columns { reference, package, value, side, quantity, is_several: true })
    }
}

/// A row, and its line in the text, counted from 1.
struct Row {
    line: usize,
    fields: Vec<String>,
}

/// What takes the fields of a row that has more of them than it should, if it can.
pub(super) type Apart = fn(&str) -> Option<Vec<String>>;

/// The names of the columns, in the first row; none where something is wrong up to there.
pub fn names_of(bytes: &[u8]) -> Option<Vec<String>> {
    let (rows, faults) = rows_of(bytes, |_| None);
    let head = rows.into_iter().next()?;
    (!is_above(&faults, head.line)).then_some(head.fields)
}

/// The rows below the names of the columns, each as long as they are, with its line; and what is wrong with others.
pub(crate) fn rows_behind_names(bytes: &[u8]) -> (Vec<(usize, Vec<String>)>, Faults) {
    let (rows, mut faults) = rows_of(bytes, |_| None);
    let columns = rows.first().map_or(0, |head| head.fields.len());
    let mut good = Vec::new();
    for row in rows.into_iter().skip(1) {
        match row.fields.len() {
            count if count == columns => good.push((row.line, row.fields)),
            count => faults.push(fault(row.line, wrong_count(count, columns))),
        }
    }
    (good, faults)
}

/// That a row has another number of fields than there are columns.
fn wrong_count(fields: usize, columns: usize) -> String {
    let fields = counted(fields as u64, "field");
    format!("{fields}; the first row has {columns}, give each row as many")
}

/// Whether something is wrong above this line.
fn is_above(faults: &Faults, line: usize) -> bool {
    faults.first().is_some_and(|fault| fault.line < line)
}

/// The rows that are not blank, the first with the names of the columns, and what is wrong with the others.
fn rows_of(bytes: &[u8], apart: Apart) -> (Vec<Row>, Faults) {
    let (mut rows, mut faults) = (Vec::new(), Vec::new());
    let mut head: Option<(char, usize)> = None;
    for (line, bytes) in (1..).zip(lines_of(bytes)) {
        let fields = text_of(bytes).map_err(|what| what.to_string()).and_then(|text| {
            if text.trim().is_empty() {
                return Ok(Vec::new());
            }
            if let Some((separator, columns)) = head {
                return row_of(text, separator, columns, apart);
            }
            let separator = separator_of(text);
            let fields = fields_of(text, separator)?;
            head = Some((separator, fields.len()));
            Ok(fields)
        });
        match fields {
            Ok(fields) if fields.is_empty() => {}
            Ok(fields) => rows.push(Row { line, fields }),
            Err(what) => faults.push(fault(line, what)),
        }
    }
    (rows, faults)
}

/// The separator that stands most often outside of quotation marks.
fn separator_of(text: &str) -> char {
    let count = |separator: char| text.split('"').step_by(2).map(|part| part.matches(separator).count()).sum::<usize>();
    // Of equal counts the first one.
    SEPARATORS.into_iter().rev().max_by_key(|&separator| count(separator)).unwrap_or(',')
}

/// The fields of a row below the names of the columns. KiCad 6 leaves quotation marks inside a field as they are, and its
/// bills of materials have empty fields behind the last column.
fn row_of(text: &str, separator: char, columns: usize, apart: Apart) -> Result<Vec<String>, String> {
    let fitting = |mut fields: Vec<String>| {
        let is_longer = fields.len() > columns && fields[columns..].iter().all(String::is_empty);
        fields.truncate(if is_longer { columns } else { fields.len() });
        (fields.len() == columns).then_some(fields)
    };
    let fields = fields_of(text, separator);
    let fits = fields.clone().ok().and_then(fitting);
    let unescaped = || unescaped_fields_of(text, separator).and_then(fitting).or_else(|| apart(text).and_then(fitting));
    fits.or_else(unescaped).map_or(fields, Ok)
}

/// The fields where a quotation mark closes one only before a separator or the end; nothing where one is not closed.
fn unescaped_fields_of(text: &str, separator: char) -> Option<Vec<String>> {
    let mut fields = Vec::new();
    let mut rest = Some(text);
    while let Some(text) = rest {
        let (field, behind) = match text.trim_start_matches(' ').strip_prefix('"') {
            Some(inside) => {
                let is_closing = |place: &usize| {
                    let behind = inside[place + 1..].trim_start_matches(' ');
                    behind.is_empty() || behind.starts_with(separator)
                };
                let place = inside.match_indices('"').map(|(place, _)| place).find(is_closing)?;
                (&inside[..place], inside[place + 1..].trim_start_matches(' ').strip_prefix(separator))
            }
            None => text.split_once(separator).map_or((text, None), |(field, behind)| (field, Some(behind))),
        };
        fields.push(field.trim().into());
        rest = behind;
    }
    Some(fields)
}

fn fields_of(text: &str, separator: char) -> Result<Vec<String>, String> {
    let mut fields = Vec::new();
    let mut rest = Some(text);
    while let Some(text) = rest {
        let (field, behind) = field_of(text, separator)?;
        fields.push(field);
        rest = behind;
    }
    Ok(fields)
}

/// The first field, and what stands behind its separator.
fn field_of(text: &str, separator: char) -> Result<(String, Option<&str>), String> {
    let Some(mut rest) = text.trim_start_matches(' ').strip_prefix('"') else {
        let (field, behind) = text.split_once(separator).map_or((text, None), |(field, behind)| (field, Some(behind)));
        return Ok((field.trim().into(), behind));
    };
    let mut field = String::new();
    loop {
        let (part, behind) = rest.split_once('"').ok_or("a quotation mark is not closed; close it on its line")?;
        field += part;
        if let Some(more) = behind.strip_prefix('"') {
            field.push('"');
            rest = more;
            continue;
        }
        let behind = behind.trim_start_matches(' ');
        return match behind.strip_prefix(separator) {
            Some(more) => Ok((field.trim().into(), Some(more))),
            None if behind.is_empty() => Ok((field.trim().into(), None)),
            None => Err("words behind a closing quotation mark; write two marks for one inside a field".into()),
        };
    }
}

/// The numbers of the columns that are read, counted from 0.
struct Found {
    reference: usize,
    package: usize,
    value: Option<usize>,
    side: Option<usize>,
    quantity: Option<usize>,
    is_several: bool,
}

impl Found {
    fn of(columns: &Columns, names: &[String]) -> Result<Found, String> {
        let find = |column: &str| {
            let is_named = |name: &String| name.eq_ignore_ascii_case(column);
            let named = names.iter().position(is_named);
            if let (Some(one), Some(other)) = (named, names.iter().rposition(is_named)) {
                if one != other {
                    let (one, other) = (one + 1, other + 1);
                    return Err(format!("columns {one} and {other} are `{column}`; name yours by its number"));
                }
            }
            let numbered =
                || number_of(column).filter(|number| (1..=names.len()).contains(number)).map(|number| number - 1);
            let has = || names.iter().map(|name| format!("`{name}`")).collect::<Vec<_>>().join(", ");
            named.or_else(numbered).ok_or_else(|| format!("no column `{column}`; the first row has {}", has()))
        };
        Ok(Found {
            reference: find(columns.reference)?,
            package: find(columns.package)?,
            value: columns.value.map(find).transpose()?,
            side: columns.side.map(find).transpose()?,
            quantity: columns.quantity.map(find).transpose()?,
            is_several: columns.is_several,
        })
    }
}

/// The placements of the rows, or what is wrong, at most one fault a line.
pub fn placements_of(bytes: &[u8], columns: &Columns) -> Result<Vec<Placement>, Faults> {
    placements_apart(bytes, columns, |_| None)
}

/// The same, with what takes rows apart that have too many fields.
pub(super) fn placements_apart(bytes: &[u8], columns: &Columns, apart: Apart) -> Result<Vec<Placement>, Faults> {
    let (rows, mut faults) = rows_of(bytes, apart);
    let Some((head, rows)) = rows.split_first() else {
        if faults.is_empty() {
            faults.push(fault(1, "no row; the first row has the names of the columns"));
        }
        return Err(faults);
    };
    if is_above(&faults, head.line) {
        return Err(faults);
    }
    if head.fields.len() > MOST_COLUMNS {
        let what =
            format!("{} columns; {MOST_COLUMNS} is the most, take out those that nobody needs", head.fields.len());
        return Err(vec![fault(head.line, what)]);
    }
    let found = Found::of(columns, &head.fields).map_err(|what| vec![fault(head.line, what)])?;
    let mut placements = Vec::new();
    for row in rows {
        match placements_in(row, &found, head.fields.len()) {
            Ok(more) if placements.len() + more.len() > limits::MOST_PLACEMENTS => {
                let what = format!("more than {} placements; split the file", limits::MOST_PLACEMENTS);
                return Err(vec![fault(row.line, what)]);
            }
            Ok(more) => placements.extend(more),
            Err(what) => faults.push(fault(row.line, what)),
        }
    }
    if faults.is_empty() {
        Ok(placements)
    } else {
        faults.sort_by_key(|fault| fault.line);
        Err(faults)
    }
}

/// The placements of one row: one for each of its references, or as many as its quantity says.
fn placements_in(row: &Row, found: &Found, columns: usize) -> Result<Vec<Placement>, String> {
    if row.fields.len() != columns {
        return Err(wrong_count(row.fields.len(), columns));
    }
    let field = |column: usize| row.fields[column].as_str();
    let package = field(found.package);
    if package.is_empty() {
        return Err("no package; name it, or take the row out".into());
    }
    let side = found.side.map(|column| Side::of(field(column))).transpose()?;
    let mut references = match found.is_several {
        true => references_in(field(found.reference))?,
        false => Some(field(found.reference).to_string()).into_iter().filter(|name| !name.is_empty()).collect(),
    };
    match found.quantity.map(|column| quantity_of(field(column))).transpose()? {
        None if references.is_empty() => return Err("no reference; name it, or take the row out".into()),
        None => {}
        Some(quantity) if references.len() > 1 && references.len() != quantity => {
            let named = counted(references.len() as u64, "reference");
            return Err(format!("{named} and quantity {quantity}; correct one of them"));
        }
        Some(quantity) => references.resize(quantity, references.first().cloned().unwrap_or_default()),
    }
    let placement = |reference: String| Placement {
        reference,
        package: package.into(),
        value: found.value.map_or("", field).into(),
        side,
        line: row.line,
    };
    Ok(references.into_iter().map(placement).collect())
}

/// What may stand between both ends of a range.
const RANGES: [&str; 8] = ["...", "..", "-", "\u{2010}", "\u{2011}", "\u{2013}", "\u{2014}", "~"];

/// The references of a field, those of ranges as `R1-R4` too.
fn references_in(field: &str) -> Result<Vec<String>, String> {
    let mut references = Vec::new();
    for word in field.split([',', ';', ' ', '\t']).filter(|word| !word.is_empty()) {
        if RANGES.contains(&word) {
            return Err(format!("`{word}` alone is no reference; write a range as one word, as R1-R4"));
        }
        match Range::of(word) {
            None => references.push(word.into()),
            Some(range) if range.last - range.first >= MOST_PLACEMENTS => {
                return Err(format!("`{word}` is more than {MOST_PLACEMENTS} references; correct it"));
            }
            Some(Range { letters, digits, first, last }) => {
                // Zeros in front stay, as in R01-R12.
                references.extend((first..=last).map(|number| format!("{letters}{number:0digits$}")));
            }
        }
    }
    Ok(references)
}

/// References with the same letters and rising numbers.
struct Range<'a> {
    letters: &'a str,
    /// The digits of the first number.
    digits: usize,
    first: usize,
    last: usize,
}

impl Range<'_> {
    /// The range of a word, whichever of its ends is first; `R1-2` is one reference, as on the second board of a panel.
    fn of(word: &str) -> Option<Range<'_>> {
        let (one, other) = RANGES.iter().find_map(|between| word.split_once(between))?;
        let digits = |reference: &str| reference.trim_end_matches(|c: char| c.is_ascii_digit()).len();
        let ((letters, one), (others, other)) = (one.split_at(digits(one)), other.split_at(digits(other)));
        let (first, last) = (number_of(one)?, number_of(other)?);
        let (digits, first, last) = if first <= last { (one.len(), first, last) } else { (other.len(), last, first) };
        let is_range = !letters.is_empty() && letters.eq_ignore_ascii_case(others);
        is_range.then_some(Range { letters, digits, first, last })
    }
}

fn quantity_of(field: &str) -> Result<usize, String> {
    let quantity = number_of(field).filter(|number| (1..=MOST_PLACEMENTS).contains(number));
    quantity.ok_or_else(|| format!("`{field}` is no quantity; write 1 to {MOST_PLACEMENTS}, or take the row out"))
}
