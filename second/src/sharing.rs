//! Quick sharing by rounds, and best sharing of runs; on a tie the mounted tip wins, where there is one.

use crate::board::{has, Answer, Board, Stage, MOST_TIPS};
use crate::refusal;

/// The number of pairs when placements are on these tips: two different ones on one tip, counted once.
pub fn pairs_in(placed: &[u8]) -> u32 {
    let mut pairs = 0;
    let mut earlier = [0; 256];
    for &tip in placed {
        // A placement makes a pair with every earlier one on its tip.
        pairs += earlier[usize::from(tip)];
        earlier[usize::from(tip)] += 1;
    }
    pairs
}

/// Whether the set has every named tip between its lowest tip and its highest.
fn is_run(set: u64, named: u64) -> bool {
    let mut lowest = MOST_TIPS;
    let mut highest = 0;
    for tip in 0..MOST_TIPS {
        if has(set, tip) {
            lowest = lowest.min(tip);
            highest = tip;
        }
    }
    for tip in lowest..=highest {
        if has(named, tip) && !has(set, tip) {
            return false;
        }
    }
    true
}

/// The set of the tips from first to last.
pub(crate) fn tips_from_to(first: usize, last: usize) -> u64 {
    let mut set = 0;
    for tip in first..=last {
        set |= 1 << tip;
    }
    set
}

/// What each tip takes in a stretch: the placements of the lines lying within it that allow the tip.
pub(crate) type Taken = [u32; MOST_TIPS];

/// The last tip of each stretch that begins with the first, the shortest stretch first, and what each tip takes in it.
pub(crate) fn stretches_from(board: &Board, first: usize) -> impl Iterator<Item = (usize, Taken)> + '_ {
    let mut taken = [0; MOST_TIPS];
    (first..board.rack).map(move |last| {
        let stretch = tips_from_to(first, last);
        // The lines that lie within this stretch, and not within the one that ends before its last tip.
        for line in board.lines().filter(|line| has(line.set, last) && line.set & !stretch == 0) {
            for tip in first..=last {
                if has(line.set, tip) {
                    taken[tip] += u32::from(line.quantity);
                }
            }
        }
        (last, taken)
    })
}

/// The pairs of a stretch when its tip c is chosen: those on c and the most of the two stretches beside it.
fn pairs_choosing(taken: &Taken, table: &[u32], rack: usize, a: usize, b: usize, c: usize) -> u32 {
    let on_tip = taken[c] * taken[c].saturating_sub(1) / 2;
    let below = if c > a { table[a * rack + c - 1] } else { 0 };
    let above = if c < b { table[(c + 1) * rack + b] } else { 0 };
    on_tip + below + above
}

/// Of tied tips, the lowest first, the mounted one where it is among them, else the lowest.
pub(crate) fn chosen_of(tied: &[usize], mounted: Option<usize>) -> usize {
    match mounted {
        Some(tip) if tied.contains(&tip) => tip,
        _ => tied[0],
    }
}

/// What laying a best plan needs.
struct Laying<'a> {
    board: &'a Board,
    mounted: Option<usize>,
    /// The tips that some line names.
    named: u64,
    /// The most pairs of each stretch.
    table: &'a [u32],
}

/// Lays the lines lying within the stretch a to b: first those on its tip, then the two stretches beside it.
fn lay_stretch(laying: &Laying, plan: &mut [u8], a: usize, b: usize) {
    let &Laying { board, mounted, named, table } = laying;
    let stretch = tips_from_to(a, b);
    if named & stretch == 0 {
        return;
    }
    let taken = stretches_from(board, a).find(|&(last, _)| last == b).expect("a stretch of the rack").1;
    let mut tied = Vec::new();
    for c in a..=b {
        if has(named, c) && pairs_choosing(&taken, table, board.rack, a, b, c) == table[a * board.rack + b] {
            tied.push(c);
        }
    }
    let c = chosen_of(&tied, mounted);
    for line in 0..board.count {
        if board.sets[line] & !stretch == 0 && has(board.sets[line], c) {
            plan[line] = c as u8;
        }
    }
    if c > a {
        lay_stretch(laying, plan, a, c - 1);
    }
    if c < b {
        lay_stretch(laying, plan, c + 1, b);
    }
}

impl Board {
    /// The refusal of a plan for the board's state, then for the mounted tip, then for the plan buffer; 0 for none.
    pub(crate) fn refusal_of_plan(&self, mounted: Option<usize>, plan: &[u8]) -> (u32, usize) {
        let (number, place) = self.refusal_in(Stage::Closed);
        if number != refusal::ACCEPTED {
            return (number, place);
        }
        if mounted.is_some_and(|tip| tip >= self.rack) {
            return (refusal::MOUNTED_OUTSIDE, 0);
        }
        if plan.len() < self.count {
            return (refusal::SHORT_PLAN, 0);
        }
        (refusal::ACCEPTED, 0)
    }

    /// The first line that misses a named tip between its lowest and its highest.
    pub(crate) fn first_no_run(&self) -> Option<usize> {
        let named = self.named_tips();
        (0..self.count).find(|&line| !is_run(self.sets[line], named))
    }

    /// Quick sharing: each round plans all lines of the tip that most unplanned placements allow.
    pub fn quick(self, mounted: Option<usize>, plan: &mut [u8]) -> Answer<u32> {
        let (number, place) = self.refusal_of_plan(mounted, plan);
        if number != refusal::ACCEPTED {
            return Answer::refused_at(self, number, place);
        }
        let mut planned = vec![false; self.count];
        while planned.contains(&false) {
            let mut tied = Vec::new();
            let mut most = 0;
            for tip in 0..self.rack {
                let mut allowing = 0;
                for line in 0..self.count {
                    if !planned[line] && has(self.sets[line], tip) {
                        allowing += u32::from(self.quantities[line]);
                    }
                }
                if allowing > most {
                    most = allowing;
                    tied.clear();
                }
                if allowing == most {
                    tied.push(tip);
                }
            }
            let chosen = chosen_of(&tied, mounted);
            for line in 0..self.count {
                if !planned[line] && has(self.sets[line], chosen) {
                    planned[line] = true;
                    plan[line] = chosen as u8;
                }
            }
        }
        let pairs = pairs_in(&self.placed(plan));
        Answer::accepted(self, pairs)
    }

    /// Best sharing of lines that are runs among the named tips; the table ends with the most pairs of each stretch.
    pub fn best(self, mounted: Option<usize>, plan: &mut [u8], table: &mut [u32]) -> Answer<u32> {
        let (number, place) = self.refusal_of_plan(mounted, plan);
        if number != refusal::ACCEPTED {
            return Answer::refused_at(self, number, place);
        }
        let m = self.rack;
        if table.len() < m * m {
            return Answer::refused(self, refusal::SHORT_TABLE);
        }
        if let Some(line) = self.first_no_run() {
            return Answer::refused_at(self, refusal::NO_RUN, line);
        }
        let named = self.named_tips();
        for place in 0..m * m {
            table[place] = 0;
        }
        // A stretch rests on those beside its tip, which begin later or end sooner.
        for a in (0..m).rev() {
            for (b, taken) in stretches_from(&self, a) {
                let mut most = 0;
                for c in a..=b {
                    if has(named, c) {
                        most = most.max(pairs_choosing(&taken, table, m, a, b, c));
                    }
                }
                table[a * m + b] = most;
            }
        }
        lay_stretch(&Laying { board: &self, mounted, named, table }, plan, 0, m - 1);
        let pairs = table[m - 1];
        Answer::accepted(self, pairs)
    }
}
