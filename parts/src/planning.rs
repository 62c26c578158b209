//! What the proved library says of a job file, with the names of a parts list.

use std::fmt::Display;

use job_file::refusal::{MOUNTED_OUTSIDE, NO_PLAN, NO_RUN, TOO_MANY_NAMED};
use library::CommonTip;

use crate::job::{job_of, list_in_words, missed_tip, named_tips, Job};
use crate::list::List;
use crate::renumbering::Renumbering;
use crate::{counted, quantity_in_words, refusal, tips_in_words};

/// A job file, and the parts list that it was made from, where there is one.
pub struct Named {
    pub file: Vec<u8>,
    pub list: Option<List>,
}

/// What a keep prints, and what is left as a job file and as the text of a parts list.
pub struct Kept {
    pub text: String,
    pub file: Vec<u8>,
    pub list: String,
}

/// What is asked for of the plans.
#[derive(Clone, Copy, Default)]
pub struct Wish {
    /// The tip on the head, where one is named.
    pub mounted: Option<usize>,
    /// The price of a tip, where an exact plan is asked for.
    pub price: Option<u32>,
    /// The order along which a plan with the fewest changes is asked for.
    pub along: Option<Along>,
}

/// A price above the most pairs that a plan has: with it an exact plan has the fewest tips.
pub const FEWEST_TIPS: u32 = 2_096_129;
/// The most tips that an exact plan is made for.
pub const EXACT_TIPS: usize = 20;

/// An order along which a list is planned.
#[derive(Clone, Copy, PartialEq, Eq, Debug)]
pub enum Along {
    List,
    /// The order that `parts order` prints.
    PlacingOrder,
}

impl Along {
    pub(crate) fn in_words(self) -> &'static str {
        match self {
            Along::List => "the list's order",
            Along::PlacingOrder => "the placing order",
        }
    }
}

impl Wish {
    /// Both plans, with a tip on the head or none.
    pub fn mounted(mounted: Option<usize>) -> Wish {
        Wish { mounted, ..Wish::default() }
    }
}

/// A tip for each line, and how many pairs of placements share one.
pub struct Plan {
    pub pairs: u64,
    pub tips: Vec<u8>,
}

/// Which of the plans.
#[derive(Clone, Copy, PartialEq, Eq, Debug)]
pub enum Which {
    /// The one that is asked for beside both, else the best one, else the exact one, else the quick one.
    First,
    Quick,
    Best,
    Exact,
}

impl Which {
    /// The plan of this name.
    pub fn of(word: &str) -> Result<Which, String> {
        match word.to_ascii_lowercase().as_str() {
            "quick" => Ok(Which::Quick),
            "best" => Ok(Which::Best),
            "exact" => Ok(Which::Exact),
            _ => Err(format!("a plan is quick, best or exact, and not {word}")),
        }
    }
}

/// The plans of a job.
pub struct Plans<'a> {
    pub(crate) named: &'a Named,
    pub job: Job,
    /// The tip on the head, where one is named.
    pub mounted: Option<usize>,
    pub common: CommonTip,
    pub quick: Plan,
    /// The best plan, else the first line that is no run.
    pub best: Result<Plan, usize>,
    /// The exact plan, or why there is none, where it is asked for and where there is no best plan.
    pub exact: Option<Result<Plan, String>>,
    /// The plan with the fewest changes along an order, where it is asked for, and which order that is.
    pub along: Option<(Plan, Along)>,
    /// The parts in the order in which they are placed, where a plan along it is asked for.
    pub placing_order: Option<Vec<usize>>,
}

impl Named {
    pub fn of_list(list: List) -> Named {
        Named { file: list.job().write(), list: Some(list) }
    }

    /// The name of a line, else its number.
    pub fn label(&self, line: usize) -> String {
        let name = self.list.as_ref().and_then(|list| list.parts[line].name.clone());
        name.unwrap_or_else(|| format!("line {line}"))
    }

    /// The name or number of a line, with its quantity where that is not 1.
    pub fn label_in(&self, job: &Job, line: usize) -> String {
        self.label(line) + &quantity_in_words(job.lines[line].quantity)
    }

    /// What stands behind the `#` of a line.
    pub fn comment(&self, line: usize) -> &str {
        self.list.as_ref().map_or("", |list| list.parts[line].comment())
    }

    pub(crate) fn refused(&self, refusal: library::Refusal) -> String {
        refusal::in_words(refusal.number, refusal.line as usize, &self.file)
    }

    fn common(&self) -> Result<CommonTip, String> {
        library::common(&self.file).map_err(|refusal| self.refused(refusal))
    }

    /// Strikes the tips that no plan with at most k placements off its most used tip has.
    pub fn keep(&self, k: u16) -> Result<Kept, String> {
        let common = self.common()?;
        // What is left has the quantities of what was read, so that it is never longer.
        let mut file = vec![0; self.file.len()];
        let kept = library::keep(&self.file, k, &mut file).map_err(|refusal| match refusal.number {
            NO_PLAN => without_plan(k, refusal.margin),
            _ => self.refused(refusal),
        })?;
        file.truncate(kept.bytes as usize);
        let text = common_in_words(common) + &format!("k {k} margin {}\n", kept.margin);
        self.kept(text, file)
    }

    /// What is left of each line, behind this text, with the file that was written and its list.
    pub(crate) fn kept(&self, mut text: String, file: Vec<u8>) -> Result<Kept, String> {
        let before = job_of(&self.file)?;
        let after = job_of(&file)?;
        let mut same = 0;
        for (line, (had, has)) in before.lines.iter().zip(&after.lines).enumerate() {
            if had == has {
                same += 1;
                continue;
            }
            let struck = tips_in_words(had.set & !has.set);
            text += &format!("{} keeps {} struck {struck}\n", self.label_in(&before, line), tips_in_words(has.set));
        }
        text += &format!("no tip struck from {}\n", counted(same, "part"));
        let list = self.list.as_ref().map_or_else(|| list_in_words(&after), |list| list.with_tips(&after.lines));
        Ok(Kept { text, file, list })
    }

    /// Both plans, and those that are asked for beside them.
    pub fn plans(&self, wish: Wish) -> Result<Plans<'_>, String> {
        let mounted = wish.mounted;
        let common = self.common()?;
        let job = job_of(&self.file)?;
        let mut tips = vec![0; job.lines.len()];
        let pairs =
            library::quick(&self.file, mounted, &mut tips).map_err(|refusal| match (refusal.number, mounted) {
                (MOUNTED_OUTSIDE, Some(tip)) => not_in_rack(tip, job.rack),
                _ => self.refused(refusal),
            })?;
        let quick = Plan { pairs, tips };
        let best = self.best(&job, mounted)?.map(|(plan, _)| plan);
        // What is asked for and refused is told as any refusal.
        let exact = match (wish.price, &best) {
            (Some(price), _) => Some(Ok(self.exact(&job, mounted, price)?)),
            (None, Err(_)) => Some(self.exact(&job, mounted, 0)),
            (None, Ok(_)) => None,
        };
        let placing_order = match wish.along {
            Some(Along::PlacingOrder) => Some(self.placing_order(&job)?),
            _ => None,
        };
        let along = match wish.along {
            Some(order) => Some((self.along(&job, placing_order.as_deref(), mounted)?, order)),
            None => None,
        };
        Ok(Plans { named: self, job, mounted, common, quick, best, exact, along, placing_order })
    }

    /// The exact plan with this price for a tip, or why there is none.
    pub fn exact(&self, job: &Job, mounted: Option<usize>, price: u32) -> Result<Plan, String> {
        let named = named_tips(job).count_ones() as usize;
        let mut tips = vec![0; job.lines.len()];
        let mut table = vec![0; if named > EXACT_TIPS { 0 } else { 2 << named }];
        let planned = library::exact(&self.file, mounted, price, &mut tips, &mut table);
        planned.map(|planned| Plan { pairs: planned.pairs, tips }).map_err(|refusal| match refusal.number {
            TOO_MANY_NAMED => too_many_tips(named),
            _ => self.refused(refusal),
        })
    }

    /// The plan with the fewest tip changes where the parts are placed in this order, else in that of the list.
    fn along(&self, job: &Job, order: Option<&[usize]>, mounted: Option<usize>) -> Result<Plan, String> {
        let in_list: Vec<usize> = (0..job.lines.len()).collect();
        let order = order.unwrap_or(&in_list);
        let lines = order.iter().map(|&line| job.lines[line]).collect();
        let mut placed = vec![0; order.len()];
        let planned = library::along(&Job { rack: job.rack, lines }.write(), mounted, &mut placed)
            .map_err(|refusal| self.refused(refusal))?;
        let mut tips = vec![0; order.len()];
        for (&line, tip) in order.iter().zip(placed) {
            tips[line] = tip;
        }
        Ok(Plan { pairs: planned.pairs, tips })
    }

    /// The parts in the order in which they are placed; in a job file any part may be placed anywhere.
    fn placing_order(&self, job: &Job) -> Result<Vec<usize>, String> {
        self.list.as_ref().map_or_else(|| Ok((0..job.lines.len()).collect()), List::placing_order)
    }

    /// The best plan with its table, else the first line that is no run.
    pub fn best(&self, job: &Job, mounted: Option<usize>) -> Result<Result<(Plan, Vec<u32>), usize>, String> {
        let mut tips = vec![0; job.lines.len()];
        let mut table = vec![0; job.rack * job.rack];
        match library::best(&self.file, mounted, &mut tips, &mut table) {
            Ok(pairs) => Ok(Ok((Plan { pairs, tips }, table))),
            Err(refusal) if refusal.number == NO_RUN => Ok(Err(refusal.line as usize)),
            Err(refusal) => Err(self.refused(refusal)),
        }
    }

    /// That a line is no run, what it lacks, and who has it.
    pub fn no_run(&self, job: &Job, line: usize) -> String {
        no_run_in_words(job, line, |line| self.label(line))
    }

    /// The line that stands where there is no best plan.
    pub fn no_best(&self, job: &Job, line: usize) -> String {
        format!("best none, {}\n", self.no_run(job, line))
    }

    /// The plans line by line, and a summary.
    pub fn plan(&self, wish: Wish) -> Result<String, String> {
        Ok(self.in_words(&self.plans(wish)?, wish.price))
    }

    /// These plans line by line, the exact one with this price, and a summary.
    pub fn in_words(&self, plans: &Plans, price: Option<u32>) -> String {
        let lines = plans.job.lines.len();
        let mut text = format!("lines {lines} rack {}\n{}", plans.job.rack, common_in_words(plans.common));
        text += &format!("quick {}\n", plans.quick.pairs);
        text += &match &plans.best {
            Ok(best) => format!("best {}\n", best.pairs),
            Err(line) => self.no_best(&plans.job, *line),
        };
        text += &plans.exact_in_words(price);
        if let Some((along, order)) = &plans.along {
            let changes = plans.changes_along(along) as u64;
            text += &format!("along {}, {} in {}\n", along.pairs, counted(changes, "change"), order.in_words());
        }
        for line in 0..lines {
            text += &format!("{} {}\n", self.label_in(&plans.job, line), plans.each(|plan| plan.tips[line]));
        }
        text + "\n" + &plans.summary()
    }
}

impl Plan {
    /// The number of lines on a tip.
    pub fn on_tip(&self, tip: usize) -> usize {
        self.tips.iter().filter(|&&used| usize::from(used) == tip).count()
    }

    /// The number of tips that some line is on.
    pub fn tips_used(&self, rack: usize) -> usize {
        (0..rack).filter(|&tip| self.on_tip(tip) > 0).count()
    }
}

impl Plans<'_> {
    /// A plan with its name, or why there is none.
    pub fn chosen(&self, which: Which) -> Result<(&'static str, &Plan), String> {
        let all = self.all();
        let called =
            |name: &str| all.iter().find(|(other, _)| *other == name).and_then(|&(name, plan)| Some((name, plan?)));
        let found = match which {
            // There is an exact plan where it is asked for, and where there is no best one.
            Which::First => ["along", "exact", "best", "quick"].into_iter().find_map(called),
            Which::Quick => called("quick"),
            Which::Best => called("best"),
            Which::Exact => called("exact"),
        };
        found.ok_or_else(|| match (&self.exact, &self.best) {
            (Some(Err(why)), _) if which == Which::Exact => why.clone(),
            (_, &Err(line)) => {
                let instead = if called("exact").is_some() { "exact" } else { "quick" };
                format!("refused {NO_RUN}: {}; take the {instead} plan", self.named.no_run(&self.job, line))
            }
            _ => "this plan was not asked for".into(),
        })
    }

    /// The best plan, else the exact one, with its name.
    pub fn best_or_exact(&self) -> (&'static str, Option<&Plan>) {
        match (&self.best, &self.exact) {
            (Err(_), Some(Ok(exact))) => ("exact", Some(exact)),
            (best, _) => ("best", best.as_ref().ok()),
        }
    }

    /// The line that tells of the exact plan, where there is one, or why there is none.
    pub(crate) fn exact_in_words(&self, price: Option<u32>) -> String {
        let at = match price {
            Some(price) if price >= FEWEST_TIPS => ", fewest tips".into(),
            Some(price @ 1..) => format!(", price {price} a tip"),
            _ => String::new(),
        };
        match &self.exact {
            None => String::new(),
            Some(Ok(exact)) => format!("exact {}{at}\n", exact.pairs),
            Some(Err(why)) => format!("exact none, {why}\n"),
        }
    }

    /// Each plan by its name.
    pub fn all(&self) -> Vec<(&'static str, Option<&Plan>)> {
        let exact = self.exact.as_ref().and_then(|exact| exact.as_ref().ok());
        let mut all = vec![("quick", Some(&self.quick))];
        if self.best.is_ok() || exact.is_none() {
            all.push(("best", self.best.as_ref().ok()));
        }
        all.extend(exact.map(|exact| ("exact", Some(exact))));
        all.extend(self.along.as_ref().map(|(along, _)| ("along", Some(along))));
        all
    }

    /// What each plan has, `-` where there is no such plan.
    pub(crate) fn each<T: Display>(&self, of: impl Fn(&Plan) -> T) -> String {
        let of = |plan: Option<&Plan>| plan.map_or("-".into(), |plan| of(plan).to_string());
        self.all().into_iter().map(|(name, plan)| format!("{name} {}", of(plan))).collect::<Vec<_>>().join(" ")
    }

    /// The tip changes of the plan along an order, in that order.
    fn changes_along(&self, along: &Plan) -> usize {
        match &self.placing_order {
            Some(order) => along.changes_in(order, self.mounted),
            None => along.changes_in_list(self.mounted),
        }
    }

    /// The placements on a tip.
    pub fn placements_on(&self, plan: &Plan, tip: usize) -> usize {
        let on = self.job.lines.iter().zip(&plan.tips).filter(|(_, &used)| usize::from(used) == tip);
        on.map(|(line, _)| usize::from(line.quantity)).sum()
    }

    /// Parts and placements on each tip, without quantities the same, and the table of the plans.
    pub(crate) fn summary(&self) -> String {
        let is_single = self.job.is_single();
        let mut text = String::new();
        if !is_single {
            text += &format!("parts {} placements {}\n", self.job.lines.len(), self.job.placements());
        }
        let is_used =
            |tip: &usize| self.all().into_iter().any(|(_, plan)| plan.is_some_and(|plan| plan.on_tip(*tip) > 0));
        for tip in (0..self.job.rack).filter(is_used) {
            text += &format!("parts on tip {tip} {}\n", self.each(|plan| plan.on_tip(tip)));
            if !is_single {
                text += &format!("placements on tip {tip} {}\n", self.each(|plan| self.placements_on(plan, tip)));
            }
        }
        text + &self.table()
    }
}

/// That a line is no run, what it lacks, who has it, by these names, and which order of the tips helps.
pub(crate) fn no_run_in_words(job: &Job, line: usize, label: impl Fn(usize) -> String) -> String {
    let missing = missed_tip(job, line)
        .map_or(String::new(), |(tip, other)| format!(": it lacks tip {tip}, which {} has", label(other)));
    format!("{} is no run{missing} ({})", label(line), Renumbering::of(job).in_words())
}

/// The line that the program tipshare prints for the common tip.
pub(crate) fn common_in_words(common: CommonTip) -> String {
    let tips: String = (0..64).filter(|tip| common.tips >> tip & 1 == 1).map(|tip| format!(" {tip}")).collect();
    format!("off {} tips{tips}\n", common.off)
}

/// The refusal of a keep whose k no plan meets.
fn without_plan(k: u16, margin: i64) -> String {
    format!("refused {NO_PLAN}: margin {margin}, no plan is within k {k}; the least k is {}", i64::from(k) - margin)
}

/// The refusal of an exact plan of too many tips.
fn too_many_tips(named: usize) -> String {
    format!("refused {TOO_MANY_NAMED}: {named} tips are named and {EXACT_TIPS} is the most; take out tips that few parts need, or split the list by tips")
}

/// The refusal of a mounted tip that the rack has not.
fn not_in_rack(tip: usize, rack: usize) -> String {
    let name = if rack == 1 { "tip 0".into() } else { format!("a tip from 0 to {}", rack - 1) };
    format!("refused {MOUNTED_OUTSIDE}: the mounted tip {tip} is outside the rack of {rack}; name {name}, or none")
}
