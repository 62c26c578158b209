//! What differs between two parts lists or tables of tips.

use std::collections::HashMap;

use crate::job::job_of;
use crate::planning::{Named, Plan, Plans, Wish};
use crate::{counted, tips_in_words};

/// One part of a board, or one row of a table, by what it is called.
pub struct Entry {
    pub name: String,
    /// What is said of it, as `tips 0-1`, each with a word that tells what it is.
    pub facts: Vec<(String, String)>,
}

/// Entries with what they stand below, as the rack.
pub struct Entries {
    pub rack: usize,
    pub entries: Vec<Entry>,
    /// What an entry is called: `part` or `row`.
    pub thing: &'static str,
    /// Whether the order of the entries says something.
    pub is_ordered: bool,
}

impl Entries {
    /// What differs from these entries to the others, a line each; the last line says how many are the same.
    pub fn compare(&self, other: &Entries) -> String {
        let places: HashMap<&str, usize> =
            other.entries.iter().enumerate().map(|(place, entry)| (entry.name.as_str(), place)).collect();
        let own: HashMap<&str, usize> =
            self.entries.iter().enumerate().map(|(place, entry)| (entry.name.as_str(), place)).collect();
        let mut text = changed("rack", &self.rack.to_string(), &other.rack.to_string());
        let mut same = 0;
        for entry in &self.entries {
            let Some(&place) = places.get(entry.name.as_str()) else {
                text += &format!("only in the first: {}\n", entry.in_words());
                continue;
            };
            let changes = entry.changes(&other.entries[place]);
            same += u64::from(changes.is_empty());
            text += &changes;
        }
        for entry in other.entries.iter().filter(|entry| !own.contains_key(entry.name.as_str())) {
            text += &format!("only in the second: {}\n", entry.in_words());
        }
        let order = |entries: &Entries, in_both: &HashMap<&str, usize>| {
            let names = entries.entries.iter().map(|entry| entry.name.clone());
            names.filter(|name| in_both.contains_key(name.as_str())).collect::<Vec<_>>()
        };
        if order(self, &places) != order(other, &own) {
            let counts = if self.is_ordered { ", and the first that matches counts" } else { "" };
            text += &format!("the {}s are in another order{counts}\n", self.thing);
        }
        text + &format!("{} the same\n", counted(same, self.thing))
    }
}

impl Entry {
    fn in_words(&self) -> String {
        let facts: Vec<String> = self.facts.iter().map(|(kind, fact)| format!("{kind} {fact}")).collect();
        format!("{} {}", self.name, facts.join(", "))
    }

    fn changes(&self, other: &Entry) -> String {
        let fact = |entry: &Entry, kind: &str| {
            entry.facts.iter().find(|(other, _)| other == kind).map_or("none".to_string(), |(_, fact)| fact.clone())
        };
        let mut kinds: Vec<&String> = self.facts.iter().map(|(kind, _)| kind).collect();
        kinds.extend(
            other.facts.iter().map(|(kind, _)| kind).filter(|kind| !self.facts.iter().any(|(own, _)| own == *kind)),
        );
        kinds
            .iter()
            .map(|kind| changed(&format!("{} {kind}", self.name), &fact(self, kind), &fact(other, kind)))
            .collect()
    }
}

/// What was and what is, where they differ.
fn changed(what: &str, before: &str, after: &str) -> String {
    if before == after {
        return String::new();
    }
    format!("{what} {before}, then {after}\n")
}

impl Named {
    /// What differs from this board to another one, and what that changes of the plans.
    pub fn compare(&self, other: &Named) -> Result<String, String> {
        // A job file has no names; what is compared with one goes by its lines.
        let without_names = |named: &Named| Named { file: named.file.clone(), list: None };
        match (&self.list, &other.list) {
            (Some(_), None) => return without_names(self).compare(other),
            (None, Some(_)) => return self.compare(&without_names(other)),
            _ => {}
        }
        let mut text = self.entries()?.compare(&other.entries()?);
        let rules = |named: &Named| {
            let rule = |list: &crate::list::List| {
                let name = |part: usize| list.parts[part].name.clone().unwrap_or_default();
                list.rules.iter().map(|rule| (name(rule.earlier), name(rule.later))).collect::<Vec<_>>()
            };
            named.list.as_ref().map(rule).unwrap_or_default()
        };
        if rules(self) != rules(other) {
            text += "the rules of the placing order differ\n";
        }
        let (before, after) = (self.plans(Wish::default())?, other.plans(Wish::default())?);
        text += &changed("quick", &before.quick.pairs.to_string(), &after.quick.pairs.to_string());
        let pairs = |plan: Option<&Plan>| plan.map_or("none".to_string(), |plan| plan.pairs.to_string());
        text += &match (before.best_or_exact(), after.best_or_exact()) {
            ((name, plan), (other, other_plan)) if name == other => changed(name, &pairs(plan), &pairs(other_plan)),
            ((name, plan), (other, other_plan)) => {
                format!("{name} {}, then {other} {}\n", pairs(plan), pairs(other_plan))
            }
        };
        Ok(text + &self.moved(&before, other, &after))
    }

    /// The parts that have another tip in a plan of the other board.
    fn moved(&self, before: &Plans, other: &Named, after: &Plans) -> String {
        let places: HashMap<String, usize> = (0..after.job.lines.len()).map(|line| (other.label(line), line)).collect();
        let mut text = String::new();
        for line in 0..before.job.lines.len() {
            let label = self.label(line);
            let Some(&place) = places.get(&label) else { continue };
            text += &changed(
                &format!("{label} quick on tip"),
                &before.quick.tips[line].to_string(),
                &after.quick.tips[place].to_string(),
            );
            if let ((name, Some(before)), (other, Some(after))) = (before.best_or_exact(), after.best_or_exact()) {
                let (before, after) = (before.tips[line].to_string(), after.tips[place].to_string());
                text += &if name == other {
                    changed(&format!("{label} {name} on tip"), &before, &after)
                } else {
                    String::new()
                };
            }
        }
        text
    }

    fn entries(&self) -> Result<Entries, String> {
        let job = job_of(&self.file)?;
        let mut entries = Vec::new();
        for (line, of_job) in job.lines.iter().enumerate() {
            let mut facts = vec![("tips".to_string(), tips_in_words(of_job.set))];
            facts.push(("quantity".into(), of_job.quantity.to_string()));
            if let Some(list) = &self.list {
                facts.extend(list.parts[line].facts());
            }
            entries.push(Entry { name: self.label(line), facts });
        }
        Ok(Entries { rack: job.rack, entries, thing: "part", is_ordered: false })
    }
}

impl crate::list::Part {
    /// Its columns and words.
    pub(crate) fn facts(&self) -> Vec<(String, String)> {
        let mut facts: Vec<(String, String)> =
            self.columns.iter().map(|(column, number)| (column.clone(), number.to_string())).collect();
        let flags = [("fine", self.fine), ("tall", self.tall)].into_iter().filter(|(_, is_set)| *is_set);
        facts.extend(flags.map(|(word, _)| (word.to_string(), "yes".to_string())));
        facts.extend(self.at.map(|(first, last)| ("at".to_string(), format!("{first}-{last}"))));
        facts
    }
}
