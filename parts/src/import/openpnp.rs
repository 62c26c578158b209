//! OpenPnP's files: its packages with their compatible nozzle tips, the placements of a board, and its parts.

use std::collections::HashMap;

use crate::import::xml::Element;
use crate::import::{distinct, fault, list_of, on_one_line, Faults, Group, Known, Picked, Placement, Side, Sides};
use crate::MOST_TIPS;

/// The word for a place of the rack without a tip.
const EMPTY: &str = "-";
const MILLIMETRES_OF_AN_INCH: f64 = 25.4;

/// The packages with their tips.
#[derive(Clone, PartialEq, Eq, Debug)]
pub struct Packages {
    /// The id of each tip, from tip 0 on.
    rack: Vec<String>,
    /// The tips of each package, bit t for tip t.
    tips: HashMap<String, u64>,
}

impl Packages {
    /// Reads the packages, with the tips of a rack or, without a word of them, with all tips in the order in which they
    /// first stand in the file.
    pub fn read(bytes: &[u8], rack: Option<&str>) -> Result<Packages, Faults> {
        let root = root_of(bytes, "openpnp-packages", "packages.xml")?;
        let mut ids = HashMap::new();
        let mut all: Vec<&str> = Vec::new();
        for package in root.named("package") {
            let id = package.needed("id").map_err(|fault| vec![fault])?;
            let lists = package.named("compatible-nozzle-tip-ids");
            let tips: Vec<&str> = lists.flat_map(|list| list.named("string")).map(|tip| tip.text.trim()).collect();
            all.extend(&tips);
            if ids.insert(id, tips).is_some() {
                return Err(vec![fault(package.line, format!("a second package {id}; give each its own id"))]);
            }
        }
        let all = distinct(&all);
        let rack: Vec<&str> = rack.map_or(all.clone(), |rack| rack.split(',').map(str::trim).collect());
        let numbers = numbers_of(&rack, &all).map_err(|what| vec![fault(root.line, what)])?;
        let set = |tips: Vec<&str>| tips.iter().filter_map(|tip| numbers.get(tip)).fold(0, |set, &tip| set | 1 << tip);
        let tips = ids.into_iter().map(|(id, tips)| (id.to_string(), set(tips))).collect();
        Ok(Packages { rack: rack.into_iter().map(String::from).collect(), tips })
    }

    /// The package of a part whose id begins with it, as R0402-10k, the longest where there are several.
    fn of_part(&self, part: &str) -> Option<&str> {
        let ends = part.match_indices('-').map(|(place, _)| place).chain([part.len()]);
        let mut beginnings = ends.map(|end| &part[..end]).collect::<Vec<_>>().into_iter().rev();
        beginnings.find_map(|beginning| self.tips.get_key_value(beginning)).map(|(package, _)| package.as_str())
    }

    /// The text of the parts list of a board, on these sides.
    pub fn list(&self, board: Board, parts: Option<&Parts>, sides: Sides) -> Result<String, Faults> {
        let mut placements = sides
            .of_placements(board.placements, |side| board.left_out.iter().any(|other| other.side == Some(side)))?;
        for placement in &mut placements {
            let part = &placement.value;
            let package = match parts {
                Some(parts) => parts.packages.get(part).map(String::as_str),
                None => self.of_part(part),
            };
            // A part without a package is told by its own id.
            placement.package = package.unwrap_or(part).into();
        }
        let heights = parts.map(|parts| &parts.heights);
        let height = |part: &str| heights.and_then(|heights| heights.get(part)).cloned().unwrap_or_default();
        let picked: HashMap<&str, Picked> = placements
            .iter()
            .filter_map(|placement| {
                let tips = *self.tips.get(&placement.package).filter(|&&tips| tips != 0)?;
                Some((placement.value.as_str(), Picked { words: height(&placement.value), tips }))
            })
            .collect();
        let known = |group: &Group| picked.get(group.value).map_or(Known::Nothing, Known::Picked);
        let left_out =
            board.left_out.iter().filter(|left_out| sides.has(left_out.side)).map(|left_out| &left_out.words[..]);
        list_of(&placements, self.head(left_out), known, |group| self.unknown(group, parts.is_some()))
    }

    /// The rack with the ids of its tips, and what is left out.
    fn head<'a>(&self, left_out: impl Iterator<Item = &'a str>) -> String {
        let mut text = String::new();
        for (tip, id) in self.rack.iter().enumerate().filter(|(_, id)| *id != EMPTY) {
            text += &format!("# tip {tip}: {}\n", on_one_line(id));
        }
        for words in left_out {
            text += &format!("# left out: {}\n", on_one_line(words));
        }
        text + &format!("rack {}\n", self.rack.len())
    }

    fn unknown(&self, group: &Group, has_parts: bool) -> String {
        let (package, references) = (group.package, distinct(&group.references).join(" "));
        match (self.tips.contains_key(package), has_parts) {
            (true, _) => {
                format!("no tip of the rack picks {package}, the package of {references}; give it one in OpenPnP")
            }
            (false, true) => format!("no package {package} for {references}; add it, or export the parts again"),
            (false, false) => {
                format!("no package begins the part {package} of {references}; name OpenPnP's parts.xml with --parts")
            }
        }
    }
}

/// The number of each tip of the rack.
fn numbers_of<'a>(rack: &[&'a str], all: &[&str]) -> Result<HashMap<&'a str, usize>, String> {
    if rack.len() > MOST_TIPS {
        let tips = rack.len();
        return Err(format!("{tips} tips; a rack has {MOST_TIPS} at most, name those of yours with --rack"));
    }
    if rack.is_empty() {
        return Err("no package has a tip; give each its compatible nozzle tips in OpenPnP".into());
    }
    let mut numbers = HashMap::new();
    for (number, tip) in rack.iter().enumerate().filter(|(_, tip)| **tip != EMPTY) {
        if !all.contains(tip) {
            return Err(format!(
                "no package has the tip {tip} of --rack; take it out, or write {EMPTY} for an empty place"
            ));
        }
        if numbers.insert(*tip, number).is_some() {
            return Err(format!("the tip {tip} stands twice in --rack; name each tip once"));
        }
    }
    Ok(numbers)
}

/// The parts, by their ids.
#[derive(Clone, PartialEq, Eq, Debug)]
pub struct Parts {
    packages: HashMap<String, String>,
    /// The column for each part whose height is known, as `height=0.9`.
    heights: HashMap<String, String>,
}

impl Parts {
    pub fn read(bytes: &[u8]) -> Result<Parts, Faults> {
        let root = root_of(bytes, "openpnp-parts", "parts.xml")?;
        let (mut packages, mut heights) = (HashMap::new(), HashMap::new());
        for part in root.named("part") {
            let id = part.needed("id").map_err(|fault| vec![fault])?.to_string();
            let height = height_of(part).map_err(|what| vec![fault(part.line, what)])?;
            heights.extend(height.map(|height| (id.clone(), format!("height={height}"))));
            let package = part.needed("package-id").map_err(|fault| vec![fault])?;
            if packages.insert(id.clone(), package.into()).is_some() {
                return Err(vec![fault(part.line, format!("a second part {id}; give each its own id"))]);
            }
        }
        Ok(Parts { packages, heights })
    }
}

/// The height of a part in millimetres; OpenPnP writes 0 where it is not known.
fn height_of(part: &Element) -> Result<Option<f64>, String> {
    let Some(words) = part.attribute("height") else { return Ok(None) };
    let height = words.parse::<f64>().ok().filter(|height| height.is_finite() && *height >= 0.0);
    let height = height.ok_or_else(|| format!("`{words}` is no height; write a number"))?;
    let height = match part.attribute("height-units") {
        None | Some("Millimeters") => height,
        // To a thousandth, which is finer than any height is known.
        Some("Inches") => (height * MILLIMETRES_OF_AN_INCH * 1000.0).round() / 1000.0,
        Some(units) => return Err(format!("heights in {units}; choose Millimeters or Inches in OpenPnP")),
    };
    Ok(Some(height).filter(|&height| height > 0.0))
}

/// The placements of a board, the id of their part as value and no package yet, and what is left out, in words.
#[derive(Clone, PartialEq, Eq, Debug)]
pub struct Board {
    placements: Vec<Placement>,
    left_out: Vec<LeftOut>,
}

/// A placement that is not planned, and why.
#[derive(Clone, PartialEq, Eq, Debug)]
struct LeftOut {
    side: Option<Side>,
    words: String,
}

impl Board {
    pub fn read(bytes: &[u8]) -> Result<Board, Faults> {
        let root = root_of(bytes, "openpnp-board", "the board")?;
        let mut board = Board { placements: Vec::new(), left_out: Vec::new() };
        let mut faults = Vec::new();
        for placement in root.named("placements").flat_map(|placements| placements.named("placement")) {
            if let Err(fault) = board.take(placement) {
                faults.push(fault);
            }
        }
        if faults.is_empty() {
            Ok(board)
        } else {
            Err(faults)
        }
    }

    fn take(&mut self, placement: &Element) -> Result<(), crate::list::Fault<String>> {
        let reference = placement.needed("id")?;
        let enabled = placement.attribute("enabled").unwrap_or("true");
        let why = match (placement.attribute("type").unwrap_or("Placement"), enabled) {
            ("Placement" | "Place", "true") => None,
            ("Placement" | "Place", "false") => Some("not enabled"),
            ("Fiducial", _) => Some("a fiducial"),
            ("Ignore", _) => Some("ignored in OpenPnP"),
            (kind, enabled) => {
                let what = format!("{reference} has type {kind} and enabled {enabled}; OpenPnP has other words");
                return Err(fault(placement.line, what));
            }
        };
        if let Some(why) = why {
            let side = placement.attribute("side").and_then(|word| Side::of(word).ok());
            self.left_out.push(LeftOut { side, words: format!("{reference}, {why}") });
            return Ok(());
        }
        let part = placement.attribute("part-id").filter(|part| !part.is_empty());
        let part =
            part.ok_or_else(|| fault(placement.line, format!("no part for {reference}; choose one in OpenPnP")))?;
        let side = Side::of(placement.needed("side")?).map_err(|what| fault(placement.line, what))?;
        self.placements.push(Placement {
            reference: reference.into(),
            package: String::new(),
            value: part.into(),
            side: Some(side),
            line: placement.line,
        });
        Ok(())
    }
}

/// The element with everything in it, which has this name.
fn root_of(bytes: &[u8], name: &str, file: &str) -> Result<Element, Faults> {
    let root = Element::read(bytes).map_err(|fault| vec![fault])?;
    if root.name != name {
        let what = format!("this is <{}> and not <{name}>; name {file} of OpenPnP here", root.name);
        return Err(vec![fault(root.line, what)]);
    }
    Ok(root)
}
