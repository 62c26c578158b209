//! A plan for other programs: one row for each reference designator, as text, CSV or JSON. `parts check` reads each of them.

use crate::job::Job;
use crate::json::Quoted;
use crate::planning::{Named, Plan, Plans, Which, Wish};

/// A form of a plan.
#[derive(Clone, Copy, PartialEq, Eq, Debug)]
pub enum Format {
    Text,
    Csv,
    Json,
}

impl Format {
    /// The form of the option `--format`.
    pub fn of(word: &str) -> Result<Format, String> {
        match word.to_ascii_lowercase().as_str() {
            "text" => Ok(Format::Text),
            "csv" => Ok(Format::Csv),
            "json" => Ok(Format::Json),
            _ => Err(format!("a format is text, csv or json, and not {word}")),
        }
    }
}

/// One or more placements of a part.
struct Row {
    /// The reference designator, else the name of the part, else its line.
    reference: String,
    /// The part in the list.
    line: usize,
    placements: usize,
}

impl Named {
    /// A plan in this form.
    pub fn exported(&self, format: Format, which: Which, wish: Wish) -> Result<String, String> {
        let plans = self.plans(wish)?;
        let (name, plan) = plans.chosen(which)?;
        Ok(match format {
            Format::Text => self.as_text(&plans.job, name, plan),
            Format::Csv => self.as_csv(&plans.job, name, plan),
            Format::Json => self.as_json(&plans, name, plan),
        })
    }

    fn rows(&self, job: &Job) -> Vec<Row> {
        let mut rows = Vec::new();
        for (line, of_job) in job.lines.iter().enumerate() {
            let references = self.list.as_ref().map_or(Vec::new(), |list| list.parts[line].references());
            let quantity = usize::from(of_job.quantity);
            if references.is_empty() {
                rows.push(Row { reference: self.label(line), line, placements: quantity });
            }
            let placements = quantity.checked_div(references.len()).unwrap_or_default();
            rows.extend(references.iter().map(|word| Row { reference: word.to_string(), line, placements }));
        }
        rows
    }

    fn as_text(&self, job: &Job, name: &str, plan: &Plan) -> String {
        let mut text = format!("# the {name} plan\npairs {}\n", plan.pairs);
        for row in self.rows(job) {
            // A part without a name has none here.
            let is_named = self.list.as_ref().is_some_and(|list| list.parts[row.line].name.is_some());
            let name = if is_named { row.reference + " " } else { String::new() };
            text += &format!("{name}: {}\n", plan.tips[row.line]);
        }
        text
    }

    fn as_csv(&self, job: &Job, name: &str, plan: &Plan) -> String {
        let mut text = "reference,part,placements,plan,tip\n".to_string();
        for row in self.rows(job) {
            let (reference, part) = (field(&row.reference), field(&self.label(row.line)));
            text += &format!("{reference},{part},{},{name},{}\n", row.placements, plan.tips[row.line]);
        }
        text
    }

    fn as_json(&self, plans: &Plans, name: &str, plan: &Plan) -> String {
        let rack = plans.job.rack;
        let mut text = format!("{{\n  \"plan\": \"{name}\",\n  \"pairs\": {},\n  \"rack\": {rack},\n", plan.pairs);
        if let Some(tip) = plans.mounted {
            text += &format!("  \"mounted\": {tip},\n");
        }
        text += &format!("  \"tips used\": {},\n", plan.tips_used(rack));
        for (order, changes) in plans.changes_of(plan) {
            let changes = changes.map_or("null".into(), |changes| changes.to_string());
            text += &format!("  \"changes in {order}\": {changes},\n");
        }
        text += "  \"placements\": [";
        for (number, row) in self.rows(&plans.job).iter().enumerate() {
            let (reference, label) = (Quoted(&row.reference), self.label(row.line));
            text += if number == 0 { "\n" } else { ",\n" };
            text += &format!("    {{\"reference\": {reference}, \"part\": {}, ", Quoted(&label));
            text += &format!("\"placements\": {}, \"tip\": {}}}", row.placements, plan.tips[row.line]);
        }
        text + "\n  ]\n}\n"
    }
}

/// A field of CSV.
fn field(words: &str) -> String {
    if words.contains(['"', ',', ';', ' ', '\t']) {
        format!("\"{}\"", words.replace('"', "\"\""))
    } else {
        words.into()
    }
}
