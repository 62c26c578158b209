//! The pairs of a plan from other software, and why its table does not show that no plan has more.

use crate::job::{named_tips, Job, Line};

/// The first reason why a table fails.
#[derive(Clone, Copy, PartialEq, Eq, Debug)]
pub enum TableFault {
    /// The entry for the whole rack is not the claim.
    NotTheClaim { entry: u32 },
    /// The entry for the tips from first to last is below what it needs with this tip.
    TooLow { first: usize, last: usize, tip: usize, entry: u32, needed: u64 },
}

/// The pairs among placements on one tip.
fn pairs_among(placements: u64) -> u64 {
    placements * placements.saturating_sub(1) / 2
}

/// The pairs of placements of a plan, which has a tip for each line.
pub fn pairs_in(job: &Job, plan: &[u8]) -> u64 {
    let mut placements_on = [0; 256];
    for (line, &tip) in job.lines.iter().zip(plan) {
        placements_on[usize::from(tip)] += u64::from(line.quantity);
    }
    placements_on.into_iter().map(pairs_among).sum()
}

/// Whether every tip of the line is one from first to last.
fn lies_within(line: &Line, first: usize, last: usize) -> bool {
    let (lowest, highest) = (line.set.trailing_zeros(), u64::BITS - 1 - line.set.leading_zeros());
    first <= lowest as usize && highest as usize <= last
}

/// Why a table fails for a list of runs. It has a row and a column for each tip. The whole rack is checked first, then each
/// interval, tip by tip.
pub fn table_fault(job: &Job, claim: u32, table: &[u32]) -> Option<TableFault> {
    let rack = job.rack;
    let entry_of = |first: usize, last: usize| table[first * rack + last];
    let whole = entry_of(0, rack - 1);
    if whole != claim {
        return Some(TableFault::NotTheClaim { entry: whole });
    }
    let named = named_tips(job);
    let mut intervals = (0..rack).flat_map(|first| (first..rack).map(move |last| (first, last)));
    intervals.find_map(|(first, last)| {
        let within: Vec<&Line> = job.lines.iter().filter(|line| lies_within(line, first, last)).collect();
        let entry = entry_of(first, last);
        let needed_with = |tip: usize| {
            let on_tip = within.iter().filter(|line| line.set >> tip & 1 == 1);
            let taken = on_tip.map(|line| u64::from(line.quantity)).sum();
            // Beside the first and the last tip there is nothing to plan. 64 bits hold every sum.
            let below = if tip == first { 0 } else { entry_of(first, tip - 1) };
            let above = if tip == last { 0 } else { entry_of(tip + 1, last) };
            pairs_among(taken) + u64::from(below) + u64::from(above)
        };
        let tips = (first..=last).filter(|tip| named >> tip & 1 == 1);
        let mut faults = tips.map(|tip| (tip, needed_with(tip))).filter(|&(_, needed)| u64::from(entry) < needed);
        faults.next().map(|(tip, needed)| TableFault::TooLow { first, last, tip, entry, needed })
    })
}
