//! One page of a parts list, as HTML that needs no network: the drawing, tips used and changes, and a table of the parts.

use crate::changes::in_cell;
use crate::job::{job_of, Job};
use crate::picture::escaped;
use crate::planning::{Named, Plan, Plans, Wish};
use crate::{counted, tips_in_words};

/// The page with its style and its few lines of script; TITLE, PAPER and BODY are replaced.
const PAGE: &str = include_str!("page.html");
/// The widest drawing that is printed upright: its letters are then 7 points high.
const UPRIGHT: usize = 1100;
/// The widest drawing that is printed at all: in landscape its letters are then 5 points high.
const PRINTED: usize = 2100;
/// What is printed in the place of a wider one.
const TOO_WIDE: &str = "<p class=\"paper\">The drawing is too wide for paper. The table has all that it shows.</p>\n";

/// What is on a page, and how wide its drawing is.
struct Body {
    title: String,
    text: String,
    width: usize,
}

impl Named {
    /// The page of the list, with a keep within k, or within the least k that is not refused.
    pub fn page(&self, name: &str, k: Option<u16>) -> Result<String, String> {
        let Body { title, text, width } = self.body(name, k, Wish::default(), false)?;
        let paper = if width > UPRIGHT { "size: landscape;" } else { "" };
        // The title has no BODY to be replaced, for it is put in last.
        Ok(PAGE.replacen("PAPER", paper, 1).replacen("BODY", &text, 1).replacen("TITLE", &title, 1))
    }

    /// What is printed of the page, without a style, and whether it is printed in landscape.
    pub fn sheet(&self, name: &str, k: Option<u16>, wish: Wish) -> Result<(String, bool), String> {
        let body = self.body(name, k, wish, true)?;
        Ok((body.text, (UPRIGHT..=PRINTED).contains(&body.width)))
    }

    /// The page without its style and its script; where it is for print alone, without what is not printed.
    fn body(&self, name: &str, k: Option<u16>, wish: Wish, is_print: bool) -> Result<Body, String> {
        let plans = self.plans(wish)?;
        let k = k.unwrap_or(u16::try_from(plans.common.off).unwrap_or(u16::MAX));
        let kept = self.keep(k).and_then(|kept| job_of(&kept.file));
        let title = escaped(&format!("Plan of {name}"));
        let (parts, placements) = (plans.job.lines.len() as u64, plans.job.placements() as u64);
        let counts = [counted(parts, "part"), counted(placements, "placement"), counted(plans.job.rack as u64, "tip")];
        let mounted = wish.mounted.map_or(String::new(), |tip| format!(" Tip {tip} is on the head."));
        let mut text =
            format!("<h1>{title}</h1>\n<p>{}, {} and a rack of {}.{mounted}</p>\n", counts[0], counts[1], counts[2]);
        if let Err(line) = plans.best {
            text += &refused(&format!("There is no best plan: {}.", self.no_run(&plans.job, line)));
            if let Some(Err(why)) = &plans.exact {
                text += &refused(&format!("There is no exact plan: {why}."));
            }
        }
        if let Err(why) = &kept {
            text += &refused(&format!("Nothing is kept: {why}."));
        }
        text += &summary(&plans);
        let width = self.width_of_pieces(&plans, k);
        let bound = format!("at most {} off the tip used most", counted(k.into(), "placement"));
        let kept_are = match kept {
            Ok(_) => format!("Kept are the tips of all plans with {bound}."),
            Err(_) => format!("No plan has {bound}, so nothing is kept."),
        };
        text += &format!("<h2>Plans and kept tips</h2>\n<p>{kept_are}</p>\n");
        let drawing = || self.pieces(&plans, k, kept.as_ref().ok());
        text += &match (width > PRINTED, is_print) {
            (true, true) => TOO_WIDE.to_string(),
            (true, false) => {
                format!("{TOO_WIDE}<div class=\"wide screen\" style=\"--drawn: {width}px\">\n{}</div>\n", drawing())
            }
            (false, true) => format!("<div>\n{}</div>\n", drawing()),
            (false, false) => format!("<div class=\"wide\" style=\"--drawn: {width}px\">\n{}</div>\n", drawing()),
        };
        text += &self.table(&plans, k, kept.as_ref().ok(), is_print);
        Ok(Body { title, text, width })
    }

    /// The parts, a row each, with their tips in both plans and those that are kept.
    fn table(&self, plans: &Plans, k: u16, kept: Option<&Job>, is_print: bool) -> String {
        let columns = self.columns();
        let mut heads = vec![("no.", true), ("part", false), ("quantity", true), ("tips", false)];
        let kept_head = format!("kept, k {k}");
        heads.push((kept_head.as_str(), false));
        heads.extend(plans.all().into_iter().map(|(name, _)| (name, true)));
        heads.extend(columns.iter().map(|column| (*column, true)));
        heads.push(("comment", false));
        let head = |(words, is_number): &(&str, bool)| {
            let words = escaped(words);
            let button = if is_print { words } else { format!("<span role=\"button\" tabindex=\"0\">{words}</span>") };
            format!("<th{}>{button}</th>", class_of(*is_number))
        };
        let heads: String = heads.iter().map(head).collect();
        let sorts =
            if is_print { "" } else { "<p class=\"screen\">A click on the name of a column sorts by it.</p>\n" };
        let mut text = format!("<h2>Parts</h2>\n{sorts}<div class=\"wide\">\n<table id=\"parts\">\n");
        text += &format!("<thead><tr>{heads}</tr></thead>\n<tbody>\n");
        for (row, line) in plans.job.lines.iter().enumerate() {
            let left = kept.map_or("-".into(), |kept| kept_in_words(line.set, kept.lines[row].set));
            let mut cells = cell(&row.to_string(), true) + &cell(&self.label(row), false);
            cells += &cell(&line.quantity.to_string(), true);
            cells += &format!("<td class=\"tips\">{}</td><td class=\"tips\">{left}</td>", tips_in_words(line.set));
            let tip = |plan: Option<&Plan>| plan.map_or("-".into(), |plan| plan.tips[row].to_string());
            cells += &plans.all().into_iter().map(|(_, plan)| cell(&tip(plan), true)).collect::<String>();
            cells += &columns.iter().map(|column| cell(&self.number_in(row, column), true)).collect::<String>();
            text += &format!("<tr>{cells}{}</tr>\n", cell(self.comment(row), false));
        }
        text + "</tbody>\n</table>\n</div>\n"
    }

    /// The columns that some part has, in the order in which they first stand in the list.
    fn columns(&self) -> Vec<&str> {
        let mut names: Vec<&str> = Vec::new();
        for (name, _) in self.list.iter().flat_map(|list| &list.parts).flat_map(|part| &part.columns) {
            if !names.contains(&name.as_str()) {
                names.push(name);
            }
        }
        names
    }

    /// The number of a part in a column, nothing where it has none.
    fn number_in(&self, row: usize, column: &str) -> String {
        let columns = self.list.as_ref().map_or(&[][..], |list| &list.parts[row].columns);
        columns.iter().find(|(name, _)| name == column).map_or(String::new(), |(_, number)| number.to_string())
    }
}

fn refused(words: &str) -> String {
    format!("<p class=\"refused\">{}</p>\n", escaped(words))
}

fn class_of(is_number: bool) -> &'static str {
    if is_number {
        " class=\"number\""
    } else {
        ""
    }
}

fn cell(words: &str, is_number: bool) -> String {
    format!("<td{}>{}</td>", class_of(is_number), escaped(words))
}

/// The tips that are kept, and behind them those that are struck.
fn kept_in_words(had: u64, has: u64) -> String {
    match had & !has {
        0 => tips_in_words(has),
        struck => format!("{} <del>{}</del>", tips_in_words(has), tips_in_words(struck)),
    }
}

/// Pairs, tips used, tip changes, and the placements on each tip that is used, for all plans.
fn summary(plans: &Plans) -> String {
    let rack = plans.job.rack;
    let row = |name: &str, of: &dyn Fn(&Plan) -> String| {
        let cells = plans.all().into_iter().map(|(_, plan)| cell(&plan.map_or("-".into(), of), true));
        format!("<tr>{}{}</tr>\n", cell(name, false), cells.collect::<String>())
    };
    let mut rows = row("pairs", &|plan| plan.pairs.to_string());
    rows += &row("tips used", &|plan| plan.tips_used(rack).to_string());
    for (number, (order, _)) in plans.changes_of(&plans.quick).into_iter().enumerate() {
        rows += &row(&format!("tip changes in {order}"), &|plan| in_cell(plans.changes_of(plan).swap_remove(number).1));
    }
    let is_used = |tip: &usize| plans.all().into_iter().any(|(_, plan)| plan.is_some_and(|plan| plan.on_tip(*tip) > 0));
    for tip in (0..rack).filter(is_used) {
        rows += &row(&format!("placements on tip {tip}"), &|plan| plans.placements_on(plan, tip).to_string());
    }
    let heads: String = plans.all().into_iter().map(|(name, _)| format!("<th class=\"number\">{name}</th>")).collect();
    format!("<h2>Tips used and changes</h2>\n<table id=\"summary\">\n<thead><tr><th></th>{heads}</tr></thead>\n<tbody>\n{rows}</tbody>\n</table>\n")
}
