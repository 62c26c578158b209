//! A drawing of a parts list, parts against tips, with its quick and its best plan, else its exact one, as SVG.

use std::ops::Range;

use crate::job::{named_tips, Job};
use crate::planning::{Named, Plan, Plans, Wish};
use crate::{counted, quantity_in_words};

/// The side of a cell.
const CELL: usize = 38;
/// The least width of the comments beside the names.
const COMMENTS: usize = 166;
/// The most letters of a name, and of a comment beside it.
const MOST_LETTERS: usize = 40;
/// The space on both sides of a number below a column.
const SPACE: usize = 3;
/// Between the plans.
const BETWEEN: usize = 56;
/// The least width of a plan, for the words above it, and the size of these words.
const HEADING: usize = 228;
const HEADING_SIZE: usize = 18;
const MARGIN: usize = 24;
/// Above the first part.
const TOP: usize = 84;
/// Below the last part.
const BELOW: usize = 116;
/// Below the last part of a piece that another follows.
const BELOW_PIECE: usize = 16;
/// The most parts of a piece: so many are as high as a printed page.
const PIECE: usize = 16;

const INK: &str = "#1f2933";
const GREY: &str = "#66727f";
const RULE: &str = "#c3ccd5";
const ALLOWED: &str = "#dfe6ec";

/// What is drawn: a disc for quick, a square for best and a cross for a struck tip, so that they differ in black and white
/// too.
#[derive(Clone, Copy, PartialEq, Eq)]
enum Kind {
    Quick,
    /// The best plan and the exact one.
    Best,
    Kept,
}

impl Kind {
    fn colour(self) -> &'static str {
        match self {
            Kind::Quick => "#1f6fb2",
            Kind::Best => "#b8480b",
            Kind::Kept => "#3d6b35",
        }
    }

    /// The mark of a used tip, or of a struck one, in the cell at this place.
    fn mark(self, x: usize, y: usize) -> String {
        let colour = self.colour();
        match self {
            Kind::Quick => {
                let (middle, radius) = (CELL / 2, CELL / 2 - 8);
                format!(r#"<circle cx="{}" cy="{}" r="{radius}" fill="{colour}"/>"#, x + middle, y + middle)
            }
            Kind::Best => {
                let side = CELL - 16;
                format!(r#"<rect x="{}" y="{}" width="{side}" height="{side}" fill="{colour}"/>"#, x + 8, y + 8)
            }
            Kind::Kept => {
                let (left, top, right, bottom) = (x + 12, y + 12, x + CELL - 12, y + CELL - 12);
                let lines = format!("M{left} {top}L{right} {bottom}M{right} {top}L{left} {bottom}");
                format!(r#"<path d="{lines}" stroke="{GREY}" stroke-width="2"/>"#)
            }
        }
    }
}

/// A plan that is drawn, or a place for one that there is not.
struct Shown<'a> {
    /// What is above it: the name of the plan, or of several plans that are the same.
    name: String,
    kind: Kind,
    plans: &'a Plans<'a>,
    plan: Option<&'a Plan>,
}

impl Shown<'_> {
    /// What is said of the plan behind its name.
    fn in_words(&self) -> String {
        self.plan.map_or("none".into(), |plan| {
            let tips = plan.tips_used(self.plans.job.rack) as u64;
            format!("{} on {}", counted(plan.pairs, "pair"), counted(tips, "tip"))
        })
    }

    /// How wide it is: a cell for each tip, or what is said above.
    fn width(&self) -> usize {
        let words = width_of(&format!("{}: {} ", self.name, self.in_words()), HEADING_SIZE);
        HEADING.max(CELL * self.plans.job.rack).max(words.saturating_sub(BETWEEN - MARGIN))
    }
}

/// A line of text.
struct Text {
    size: usize,
    anchor: &'static str,
    colour: &'static str,
    weight: &'static str,
}

const PLAIN: Text = Text { size: 15, anchor: "start", colour: INK, weight: "normal" };

impl Text {
    fn at(&self, x: usize, y: usize, words: &str) -> String {
        let Text { size, anchor, colour, weight } = self;
        let words = escaped(words);
        format!(r#"<text x="{x}" y="{y}" font-size="{size}" text-anchor="{anchor}""#)
            + &format!(r#" fill="{colour}" font-weight="{weight}">{words}</text>"#)
    }

    /// A number, made smaller where it would touch its neighbours: a digit is about 5/9 as wide as the size of its text.
    fn in_cell(&self, x: usize, y: usize, number: usize) -> String {
        let digits = number.to_string();
        let size = self.size.min((CELL - 2 * SPACE) * 9 / 5 / digits.len());
        Text { size, ..*self }.at(x, y, &digits)
    }
}

/// The words as text of SVG and HTML.
pub(crate) fn escaped(words: &str) -> String {
    let marks = [("&", "&amp;"), ("<", "&lt;"), (">", "&gt;"), ("\"", "&quot;"), ("'", "&#x27;")];
    marks.iter().fold(words.into(), |words: String, (mark, name)| words.replace(mark, name))
}

/// The mark of a tip that can pick the part, in the cell at this place.
fn allowed(x: usize, y: usize) -> String {
    let side = CELL - 8;
    format!(r#"<rect x="{}" y="{}" width="{side}" height="{side}" rx="4" fill="{ALLOWED}"/>"#, x + 4, y + 4)
}

/// The top of a part's row in a piece with these rows; that of the row behind the last is the bottom.
fn row_top(rows: &Range<usize>, row: usize) -> usize {
    TOP + CELL * (row - rows.start)
}

/// The numbers on the middle of a tip's column.
const NUMBER: Text = Text { anchor: "middle", ..PLAIN };

/// The middle of a tip's column.
fn middle(left: usize, tip: usize) -> usize {
    left + CELL * tip + CELL / 2
}

/// The words above what is drawn, and the number of each tip.
fn heading(name: &str, colour: &str, left: usize, job: &Job, words: &str) -> Vec<String> {
    let mut drawn = vec![
        format!(r#"<text x="{left}" y="{}" font-size="{HEADING_SIZE}" fill="{INK}">"#, TOP - 50),
        format!(r#"<tspan font-weight="bold" fill="{colour}">{name}:</tspan> {words}</text>"#),
    ];
    let named = named_tips(job);
    for tip in 0..job.rack {
        // A tip that no part has counts for no run.
        let colour = if named >> tip & 1 == 1 { INK } else { GREY };
        drawn.push(Text { colour, weight: "bold", ..NUMBER }.at(middle(left, tip), TOP - 12, &tip.to_string()));
    }
    drawn
}

/// The tips of a set, in the row at this height.
fn allowed_in(set: u64, rack: usize, left: usize, y: usize) -> impl Iterator<Item = String> {
    (0..rack).filter(move |tip| set >> tip & 1 == 1).map(move |tip| allowed(left + CELL * tip, y))
}

/// The line below the last row.
fn ground(left: usize, rack: usize, rows: &Range<usize>) -> String {
    let (right, y) = (left + CELL * rack, row_top(rows, rows.end) + 3);
    format!(r#"<path d="M{left} {y}H{right}" stroke="{GREY}" stroke-width="1"/>"#)
}

/// The tips that a keep within k leaves, with a cross on those that it strikes; none where it is refused.
fn kept_panel(left: usize, rows: &Range<usize>, job: &Job, k: u16, kept: Option<&Job>) -> Vec<String> {
    let struck_of = |kept: &Job, row: usize| job.lines[row].set & !kept.lines[row].set;
    let struck: Option<u64> =
        kept.map(|kept| (0..job.lines.len()).map(|row| u64::from(struck_of(kept, row).count_ones())).sum());
    let words = struck.map_or("none".into(), |struck| format!("{} struck, k {k}", counted(struck, "tip")));
    let mut drawn = heading("kept", Kind::Kept.colour(), left, job, &words);
    for row in rows.clone() {
        let (y, struck) = (row_top(rows, row), kept.map_or(0, |kept| struck_of(kept, row)));
        drawn.extend(allowed_in(job.lines[row].set & !struck, job.rack, left, y));
        let crosses = (0..job.rack).filter(|tip| struck >> tip & 1 == 1);
        drawn.extend(crosses.map(|tip| Kind::Kept.mark(left + CELL * tip, y)));
    }
    drawn.push(ground(left, job.rack, rows));
    drawn
}

/// One plan, or none: a column for each tip, a row for each part, and below the last of all the sums.
fn panel(shown: &Shown, left: usize, rows: &Range<usize>) -> Vec<String> {
    let Shown { name, kind, plans, plan } = shown;
    let (rack, lines) = (plans.job.rack, &plans.job.lines);
    let colour = kind.colour();
    let bottom = row_top(rows, rows.end);
    let mut drawn = heading(name, colour, left, &plans.job, &shown.in_words());
    for row in rows.clone() {
        let y = row_top(rows, row);
        drawn.extend(allowed_in(lines[row].set, rack, left, y));
        drawn.extend(plan.map(|plan| kind.mark(left + CELL * usize::from(plan.tips[row]), y)));
    }
    drawn.push(ground(left, rack, rows));
    let Some(plan) = plan.filter(|_| rows.end == lines.len()) else {
        return drawn;
    };
    for tip in 0..rack {
        let (x, count) = (middle(left, tip), plans.placements_on(plan, tip));
        if count == 0 {
            let nothing = Text { colour: GREY, ..NUMBER };
            drawn.push(nothing.at(x, bottom + 27, "–"));
            drawn.push(nothing.at(x, bottom + 50, "–"));
        } else {
            drawn.push(NUMBER.in_cell(x, bottom + 27, count));
            drawn.push(Text { colour, weight: "bold", ..NUMBER }.in_cell(x, bottom + 50, count * (count - 1) / 2));
        }
    }
    drawn
}

/// How wide words are at the most in letters of this size, in any common font.
fn width_of(words: &str, size: usize) -> usize {
    let thousandths = |c: char| match c {
        'i' | 'j' | 'l' | 'I' | '.' | ',' | ':' | ';' | '\'' | '|' | '!' | ' ' => 350,
        'f' | 't' | 'r' | '-' | '(' | ')' | '/' => 450,
        'm' | 'w' | 'M' | 'W' | '@' | '%' => 1000,
        'A'..='Z' | '&' | '_' | '=' | '<' | '>' | '+' | '#' => 700,
        '\0'..='\u{7f}' => 560,
        '\u{1100}'.. => 1000,
        _ => 700,
    };
    words.chars().map(thousandths).sum::<usize>() * size / 1000
}

/// The beginning of a name or a comment, where it is long.
fn beginning_of(comment: &str) -> String {
    if comment.chars().count() <= MOST_LETTERS {
        return comment.into();
    }
    comment.chars().take(MOST_LETTERS - 1).collect::<String>() + "…"
}

/// Words as a list of names, as `quick, best and exact`.
fn listed(words: &[&str]) -> String {
    match words {
        [] => String::new(),
        [one] => one.to_string(),
        [first @ .., last] => format!("{} and {last}", first.join(", ")),
    }
}

impl Named {
    /// The drawing of the list and both plans.
    pub fn picture(&self) -> Result<String, String> {
        let plans = self.plans(Wish::default())?;
        Ok(self.drawing(&plans.all_shown(), None, 0..plans.job.lines.len()).0)
    }

    /// The drawing of the list and all of these plans. Plans that are the same are drawn once.
    pub fn drawing_of(&self, plans: &Plans, exact: Option<&Plan>) -> String {
        let all = [("quick", Some(&plans.quick)), ("best", plans.best.as_ref().ok()), ("exact", exact)];
        let there = all.into_iter().filter(|(_, plan)| plan.is_some());
        self.drawing(&plans.shown_apart(there), None, 0..plans.job.lines.len()).0
    }

    /// A plan of the list as it is and one as it would be, each by its name, beside each other; nothing where both are drawn
    /// alike.
    pub fn drawing_beside(&self, before: (&Plans, &str, &Plan), after: (&Plans, &str, &Plan)) -> Option<String> {
        let (is, would_be) = (&before.0.job, &after.0.job);
        if before.2.tips == after.2.tips && is == would_be {
            return None;
        }
        let shown = [("before", before), ("after", after)].map(|(when, (plans, name, plan))| Shown {
            name: format!("{name} {when}"),
            kind: Kind::Best,
            plans,
            plan: Some(plan),
        });
        Some(self.drawing(&shown, None, 0..is.lines.len()).0)
    }

    /// The drawing in pieces, each as high as a page, with what a keep within k leaves. Plans that are the same are drawn once.
    pub(crate) fn pieces(&self, plans: &Plans, k: u16, kept: Option<&Job>) -> String {
        let (count, shown) = (plans.job.lines.len(), plans.shown_apart(plans.all()));
        let rows = |piece: usize| piece * PIECE..count.min(piece * PIECE + PIECE);
        (0..count.div_ceil(PIECE).max(1)).map(|piece| self.drawing(&shown, Some((k, kept)), rows(piece)).0).collect()
    }

    /// How wide each of these pieces is.
    pub(crate) fn width_of_pieces(&self, plans: &Plans, k: u16) -> usize {
        self.drawing(&plans.shown_apart(plans.all()), Some((k, None)), 0..0).1
    }

    /// The drawing of these rows of the list and these plans and, where it is asked for, of what a keep within k leaves; and
    /// its width.
    fn drawing(&self, shown: &[Shown], keep: Option<(u16, Option<&Job>)>, rows: Range<usize>) -> (String, usize) {
        let job = &shown[0].plans.job;
        let count = job.lines.len();
        let label = |line: usize| beginning_of(&self.label(line)) + &quantity_in_words(job.lines[line].quantity);
        let labels: Vec<String> = (0..count).map(label).collect();
        let comments: Vec<String> = (0..count).map(|line| beginning_of(self.comment(line))).collect();
        let widest = |words: &[String], size: usize, letter: usize| {
            let width = |words: &String| width_of(words, size).max(letter * words.chars().count());
            words.iter().map(width).max().unwrap_or(0)
        };
        let names_width = 14 + widest(&labels, 15, 10);
        let comments_width = COMMENTS.max(22 + widest(&comments, 14, 8));
        let first = MARGIN + names_width + comments_width;
        // Where each plan begins, and what is kept.
        let mut lefts = vec![first];
        lefts.extend(shown.iter().scan(first, |left, shown| {
            *left += shown.width() + BETWEEN;
            Some(*left)
        }));
        let third = lefts[shown.len()];
        let width = if keep.is_some() { third + shown[0].width() } else { third - BETWEEN } + MARGIN;
        let bottom = row_top(&rows, rows.end);
        let is_last = rows.end == count;
        let height = bottom + if is_last { BELOW } else { BELOW_PIECE };

        let size = format!(r#"viewBox="0 0 {width} {height}" width="{width}" height="{height}""#);
        let names: Vec<String> = shown.iter().map(|shown| format!("the {}", shown.name)).collect();
        let names = listed(&names.iter().map(String::as_str).collect::<Vec<_>>());
        let mut drawn = vec![
            format!(r#"<svg xmlns="http://www.w3.org/2000/svg" {size}"#),
            r#" font-family="Helvetica, Arial, DejaVu Sans, sans-serif">"#.into(),
            format!("<title>Lines of a parts list against tips, with {names} plan</title>"),
            format!(r#"<rect width="{width}" height="{height}" fill="white"/>"#),
            Text { anchor: "end", colour: GREY, ..PLAIN }.at(first - 16, TOP - 12, "tip"),
        ];
        let small = Text { size: 14, ..PLAIN };
        for row in rows.clone() {
            let y = row_top(&rows, row) + CELL / 2 + 5;
            drawn.push(Text { weight: "bold", ..PLAIN }.at(MARGIN, y, &labels[row]));
            drawn.push(Text { colour: GREY, ..small }.at(MARGIN + names_width, y, &comments[row]));
            if row > rows.start {
                let (y, right) = (row_top(&rows, row), width - MARGIN);
                drawn.push(format!(r#"<path d="M{MARGIN} {y}H{right}" stroke="{RULE}" stroke-width="0.5"/>"#));
            }
        }
        if is_last {
            let sums = Text { anchor: "end", colour: GREY, ..small };
            let on_tip = if job.is_single() { "parts on the tip" } else { "placements on the tip" };
            drawn.push(sums.at(first - 16, bottom + 27, on_tip));
            drawn.push(sums.at(first - 16, bottom + 50, "pairs"));
        }
        for (shown, &left) in shown.iter().zip(&lefts) {
            drawn.extend(panel(shown, left, &rows));
        }
        let y = height - 46;
        let mut key = vec![(MARGIN - 8, allowed(MARGIN - 8, y), "tip that can pick the part".to_string())];
        let mut x = first + 30;
        for kind in [Kind::Quick, Kind::Best] {
            let of_kind: Vec<&str> =
                shown.iter().filter(|shown| shown.kind == kind).map(|shown| &shown.name[..]).collect();
            let words = match of_kind[..] {
                [] => continue,
                [name] if shown.len() > 1 => format!("its tip in the {name} plan"),
                _ => "its tip in the plan".into(),
            };
            key.push((x, kind.mark(x, y), words));
            x += 240;
        }
        if let Some((k, kept)) = keep {
            drawn.extend(kept_panel(third, &rows, job, k, kept));
            key.push((x, Kind::Kept.mark(x, y), "struck by keep".into()));
        }
        for (x, mark, words) in key.into_iter().filter(|_| is_last) {
            drawn.push(mark);
            drawn.push(small.at(x + CELL + 3, y + CELL / 2 + 5, &words));
        }
        drawn.push("</svg>\n".into());
        (drawn.join("\n"), width)
    }
}

impl Plans<'_> {
    /// These plans, each under the names of all that are the same.
    fn shown_apart<'a>(&'a self, all: impl IntoIterator<Item = (&'a str, Option<&'a Plan>)>) -> Vec<Shown<'a>> {
        let mut apart: Vec<(Vec<&str>, Option<&Plan>)> = Vec::new();
        for (name, plan) in all {
            let is_same = |other: &Option<&Plan>| other.map(|other| &other.tips) == plan.map(|plan| &plan.tips);
            match apart.iter_mut().find(|(_, other)| is_same(other)) {
                Some((names, _)) => names.push(name),
                None => apart.push((vec![name], plan)),
            }
        }
        let shown = |(names, plan): (Vec<&str>, _)| Shown {
            kind: if names == ["quick"] { Kind::Quick } else { Kind::Best },
            name: listed(&names),
            plans: self,
            plan,
        };
        apart.into_iter().map(shown).collect()
    }

    /// All plans: the best one has a place where it is missing and there is no exact one either.
    fn all_shown(&self) -> Vec<Shown<'_>> {
        let kind = |name| if name == "quick" { Kind::Quick } else { Kind::Best };
        let all = self.all().into_iter();
        all.map(|(name, plan)| Shown { name: name.into(), kind: kind(name), plans: self, plan }).collect()
    }
}
