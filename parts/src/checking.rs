//! Plans from other software, checked by the proved library.

use job_file::refusal::{FOREIGN_TIP, NO_RUN, WRONG_CLAIM, WRONG_TABLE};

use crate::handed::Handed;
use crate::job::{job_of, Job, Line};
use crate::planning::{Named, Plan};
use crate::table_fault::{pairs_in, table_fault, TableFault};
use crate::tips_in_words;

/// Why a plan is not accepted, and which file that is about.
#[derive(Clone, PartialEq, Eq, Debug)]
pub enum Refused {
    List(String),
    Plan(String),
}

impl Named {
    /// Checks a plan: its tips, its claim and its table; without a table the first two alone. Then compares its pairs with
    /// those of the best plan.
    pub fn check(&self, handed: &Handed) -> Result<String, Refused> {
        let job = job_of(&self.file).map_err(Refused::List)?;
        let best = self.best(&job, None).map_err(Refused::List)?;
        let number = match (&handed.table, &best) {
            (Some(table), _) => self.number(&job, handed, table),
            (None, Ok((_, table))) => match self.number(&job, handed, table) {
                // Our own table fails for a plan with fewer pairs than ours alone: that is no fault, and told below.
                WRONG_TABLE => 0,
                number => number,
            },
            // The library takes no plan of such a list.
            (None, Err(_)) => number_without_table(&job, handed),
        };
        if let (NO_RUN, &Err(line)) = (number, &best) {
            let why = self.no_run(&job, line);
            return Err(Refused::List(format!("refused {number}: {why}; take the table out to check tips and pairs")));
        }
        if number != 0 {
            return Err(Refused::Plan(format!("refused {number}: {}", self.fault(&job, handed, number))));
        }
        let mut text = format!("lines {} rack {}\n", job.lines.len(), job.rack);
        let claimed = if handed.claim.is_some() { " as claimed" } else { "" };
        text += &format!("pairs {}{claimed}, each part on a tip of its own\n", claim_of(&job, handed));
        text += match handed.table {
            Some(_) => "table accepted: no plan has more pairs\n",
            None => "no table: only the tips and the pairs are checked\n",
        };
        text += &match best {
            Ok((Plan { pairs, .. }, _)) => {
                format!("best {pairs}, the plan has {}\n", fewer(pairs, claim_of(&job, handed)))
            }
            Err(line) => {
                let exact = self.exact(&job, None, 0).map_or_else(
                    |why| format!("exact none, {why}\n"),
                    |Plan { pairs, .. }| {
                        format!("exact {pairs}, the plan has {}\n", fewer(pairs, claim_of(&job, handed)))
                    },
                );
                self.no_best(&job, line) + &exact
            }
        };
        Ok(text)
    }

    /// The number that the library gives.
    fn number(&self, job: &Job, handed: &Handed, table: &[u32]) -> u32 {
        library::check(&self.file, &plan_of(handed), claim_of(job, handed), table)
            .err()
            .map_or(0, |refusal| refusal.number)
    }

    /// What is wrong with a plan that is refused with this number, and what to do.
    fn fault(&self, job: &Job, handed: &Handed, number: u32) -> String {
        let (pairs, claim) = (pairs_of(job, handed), claim_of(job, handed));
        match (number, first_foreign(job, handed)) {
            (FOREIGN_TIP, Some(line)) => {
                let (tip, own) = (handed.tips[line], tips_in_words(job.lines[line].set));
                format!("{} is on tip {tip} and has only {own}; give it a tip of its own", self.label(line))
            }
            (WRONG_CLAIM, _) => format!("the plan has {pairs} pairs and says {claim}; write pairs {pairs}"),
            (WRONG_TABLE, _) => fault_of_table(job, handed),
            _ => "see the table of refusals in include/tipshare.h".into(),
        }
    }
}

/// The plan as bytes; what no byte holds is as foreign as the last that one does.
fn plan_of(handed: &Handed) -> Vec<u8> {
    handed.tips.iter().map(|&tip| u8::try_from(tip).unwrap_or(u8::MAX)).collect()
}

/// The first part on a tip that is not its own.
fn first_foreign(job: &Job, handed: &Handed) -> Option<usize> {
    let is_own = |(line, &tip): (&Line, &usize)| tip < 64 && line.set >> tip & 1 == 1;
    job.lines.iter().zip(&handed.tips).position(|pair| !is_own(pair))
}

/// The pairs of the plan.
fn pairs_of(job: &Job, handed: &Handed) -> u64 {
    pairs_in(job, &plan_of(handed))
}

/// The pairs that the plan is said to have; its own, where nothing is said.
fn claim_of(job: &Job, handed: &Handed) -> u32 {
    handed.claim.unwrap_or_else(|| u32::try_from(pairs_of(job, handed)).unwrap_or(u32::MAX))
}

/// What can be checked without a table, for a list that has no best plan.
fn number_without_table(job: &Job, handed: &Handed) -> u32 {
    if first_foreign(job, handed).is_some() {
        FOREIGN_TIP
    } else if pairs_of(job, handed) != u64::from(claim_of(job, handed)) {
        WRONG_CLAIM
    } else {
        0
    }
}

/// The first entry of the table that shows too little.
fn fault_of_table(job: &Job, handed: &Handed) -> String {
    let table = handed.table.as_deref().unwrap_or_default();
    match table_fault(job, claim_of(job, handed), table) {
        Some(TableFault::NotTheClaim { entry }) => {
            let claim = claim_of(job, handed);
            format!("the table has {entry} for the whole rack, and the plan {claim} pairs; correct the table or the plan")
        }
        Some(TableFault::TooLow { first, last, tip, entry, needed }) => format!(
            "the table has {entry} for the tips {first} to {last}, which need {needed} with tip {tip}; correct the table"
        ),
        None => "the table fails".into(),
    }
}

/// How the claim compares with the most pairs.
fn fewer(most: u64, claim: u32) -> String {
    match most - u64::from(claim) {
        0 => "as many".into(),
        less => format!("{less} fewer"),
    }
}
