//! The placing order of a parts list, by name, and why there is none.

use job_file::refusal::{BAD_WINDOW, NO_ORDER};

use crate::list::{List, Part};
use crate::no_order::{Because, OrderFault, Placing, Rule, Window};
use crate::planning::{Named, Which, Wish};
use crate::{counted, MOST_PARTS};

impl List {
    /// The order in which the parts are placed, or why there is none.
    pub fn order(&self) -> Result<String, String> {
        let mut text = self.counts();
        for (position, part) in self.placing_order()?.into_iter().enumerate() {
            text += &format!("position {position} {}\n", self.in_order(part));
        }
        Ok(text)
    }

    /// The parts in the order in which they are placed, or why there is none.
    pub fn placing_order(&self) -> Result<Vec<usize>, String> {
        let (parts, rules) = (self.placed_parts(), self.numbers_of_rules());
        let mut order = vec![0; parts.len()];
        library::order(&parts, &rules, &mut order).map_err(|refusal| self.without_order(refusal))?;
        Ok(order.into_iter().map(usize::from).collect())
    }

    /// The parts in the order by these tips, or why there is none.
    pub fn order_by_tips(&self, tips: &[u8], mounted: Option<usize>) -> Result<Vec<usize>, String> {
        let (parts, rules) = (self.placed_parts(), self.numbers_of_rules());
        let mut order = vec![0; parts.len()];
        library::order_by_tips(&parts, &rules, tips, mounted, &mut order)
            .map_err(|refusal| self.without_order(refusal))?;
        Ok(order.into_iter().map(usize::from).collect())
    }

    /// The order by the tips of a plan, each part with its tip, or why there is none.
    pub fn order_by_plan(&self, which: Which, wish: Wish) -> Result<String, String> {
        let mounted = wish.mounted;
        let named = Named::of_list(self.clone());
        let plans = named.plans(wish)?;
        let (name, plan) = plans.chosen(which)?;
        let order = self.order_by_tips(&plan.tips, mounted)?;
        let changes = counted(plan.changes_in(&order, mounted) as u64, "change");
        let begins = mounted.map_or(String::new(), |tip| format!(", tip {tip} mounted"));
        let mut text = self.counts() + &format!("tips of the {name} plan, {changes} in this order{begins}\n");
        for (position, part) in order.into_iter().enumerate() {
            text += &format!("position {position} {} tip {}\n", self.in_order(part), plan.tips[part]);
        }
        Ok(text)
    }

    /// Whether any part may be placed anywhere.
    pub fn is_free(&self) -> bool {
        self.rules.is_empty() && self.parts.iter().all(|part| !part.fine && !part.tall && part.at.is_none())
    }

    /// The first and the last position that each part can have, or why no order obeys.
    pub fn windows(&self) -> Result<String, String> {
        let (parts, rules) = (self.placed_parts(), self.numbers_of_rules());
        let (mut first, mut last) = (vec![0; parts.len()], vec![0; parts.len()]);
        library::windows(&parts, &rules, &mut first, &mut last).map_err(|refusal| self.without_order(refusal))?;
        let mut text = self.counts();
        for (part, (first, last)) in first.into_iter().zip(last).enumerate() {
            let positions = match first == last {
                true => format!("position {first}"),
                false => format!("positions {first} to {last}"),
            };
            text += &format!("{} {positions}\n", self.in_order(part));
        }
        Ok(text)
    }

    fn counts(&self) -> String {
        format!("parts {} rules {}\n", self.parts.len(), self.rules.len())
    }

    fn without_order(&self, refusal: library::Refusal) -> String {
        format!("refused {}: {}", refusal.number, self.no_order(refusal.number, refusal.line as usize))
    }

    /// The parts as the library takes them; where the list names no positions, a part may have any.
    fn placed_parts(&self) -> Vec<library::Part> {
        let placed = |part: &Part| {
            let (first, last) = part.at.unwrap_or((0, self.parts.len() as u32 - 1));
            library::Part { first, last, fine: part.fine, tall: part.tall }
        };
        self.parts.iter().map(placed).collect()
    }

    fn numbers_of_rules(&self) -> Vec<Rule> {
        self.rules.iter().map(|rule| (rule.earlier as u32, rule.later as u32)).collect()
    }

    /// The name of a part, else its number among the parts, counted from 0.
    fn label_of(&self, part: usize) -> String {
        self.parts[part].name.clone().unwrap_or_else(|| format!("line {part}"))
    }

    /// A part with what the list says of its place in the order.
    fn in_order(&self, part: usize) -> String {
        let given = &self.parts[part];
        let positions = given.at.map(|(first, last)| format!(" at={}", positions_in_words(first.into(), last.into())));
        let word = |flag: bool, word: &str| if flag { format!(" {word}") } else { String::new() };
        let flags = word(given.fine, "fine") + &word(given.tall, "tall");
        self.label_of(part) + &flags + &positions.unwrap_or_default()
    }

    /// What is wrong with a list that is refused with this number, and what to do.
    fn no_order(&self, number: u32, place: usize) -> String {
        let count = self.parts.len();
        match number {
            BAD_WINDOW if count > MOST_PARTS => {
                format!("{count} parts; an order has {MOST_PARTS} at most, split the list")
            }
            BAD_WINDOW => format!(
                "{} reaches past {}, the last position of {}; correct its at=",
                self.in_order(place),
                count - 1,
                counted(count as u64, "part")
            ),
            NO_ORDER => format!("no order obeys: {}", self.reason()),
            _ => "see the table of refusals in include/tipshare.h".into(),
        }
    }

    /// Why no order obeys.
    fn reason(&self) -> String {
        let parts = self.placed_parts();
        let placing = Placing::new(&parts, &self.numbers_of_rules());
        match placing.fault() {
            Some(OrderFault::Cycle(cycle)) => self.cycle_in_words(&cycle),
            Some(OrderFault::NoPosition { part, window }) => self.no_position(&placing, part, window),
            Some(OrderFault::TooFewPositions { first, last, parts }) => {
                let held: Vec<String> = parts.iter().map(|&(part, window)| self.held(&placing, part, window)).collect();
                format!(
                    "{} must share the {} {}: {}; give one of them other positions, or take out what keeps it there",
                    counted(parts.len() as u64, "part"),
                    if first == last { "position" } else { "positions" },
                    positions_in_words(first, last),
                    held.join(", ")
                )
            }
            None => "the parts stand in each other's way".into(),
        }
    }

    /// Each part of a cycle with the one that it must be before.
    fn cycle_in_words(&self, cycle: &[(usize, Because)]) -> String {
        let next = |at: usize| cycle[(at + 1) % cycle.len()].0;
        let step = |(at, &(part, because)): (usize, &(usize, Because))| {
            format!("{} before {} ({})", self.label_of(part), self.label_of(next(at)), self.because(because))
        };
        let steps: Vec<String> = cycle.iter().enumerate().map(step).collect();
        // Flags alone never go round.
        let by_flags = cycle.iter().any(|(_, because)| !matches!(because, Because::Rule(_)));
        let out = if by_flags { "one of these rules, or a word fine or tall" } else { "one of these rules" };
        format!("{}; take out {out}", steps.join(", "))
    }

    /// Why one part is before another.
    fn because(&self, because: Because) -> String {
        match because {
            Because::Rule(rule) => format!("rule on line {}", self.rules[rule].line),
            Because::Fine => "fine first".into(),
            Because::Tall => "tall last".into(),
        }
    }

    /// A part that can be nowhere, with what keeps it from each side.
    fn no_position(&self, placing: &Placing, part: usize, window: Window) -> String {
        let (from, to) = (window.first, window.last);
        let earliest = match window.after {
            Some(one) => format!("at {from} or later, behind {}", self.neighbour(placing, one, part, one)),
            None => format!("at {from} or later"),
        };
        let latest = match window.before {
            Some(other) if to < 0 => format!("before {}", self.neighbour(placing, part, other, other)),
            Some(other) => format!("at {to} or earlier, before {}", self.neighbour(placing, part, other, other)),
            None => format!("at {to} or earlier"),
        };
        format!(
            "{} must be {earliest}, and {latest}; give them more positions, or take out what keeps them",
            self.in_order(part)
        )
    }

    /// A part beside another, with the positions that the list names for it, and why one is before the other.
    fn neighbour(&self, placing: &Placing, one: usize, other: usize, named: usize) -> String {
        let because = placing.because(one, other).map_or_else(String::new, |because| self.because(because));
        format!("{} ({because})", self.in_order(named))
    }

    /// A part that must be at some positions, and what else than its own keeps it there.
    fn held(&self, placing: &Placing, part: usize, window: Window) -> String {
        let behind = window.after.map(|one| format!("behind {}", self.neighbour(placing, one, part, one)));
        let before = window.before.map(|other| format!("before {}", self.neighbour(placing, part, other, other)));
        [Some(self.in_order(part)), behind, before].into_iter().flatten().collect::<Vec<String>>().join(" ")
    }
}

/// Positions from first to last as `0-3`, and as `2` where they are one.
fn positions_in_words(first: i64, last: i64) -> String {
    if first == last {
        first.to_string()
    } else {
        format!("{first}-{last}")
    }
}
