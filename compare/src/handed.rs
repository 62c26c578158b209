//! Plans as other software hands them over, with a claimed number of pairs and a table: our own, and changed ones.

use second::{pairs_in, Board};

use crate::check::Outcome;
use crate::random::Random;

/// A plan with its claimed pairs and its table.
#[derive(Clone, PartialEq)]
pub struct Handed {
    pub plan: Vec<u8>,
    pub claim: u32,
    pub table: Vec<u32>,
}

/// The ways to change what is handed over.
pub const WAYS: usize = 18;
/// One for each refusal: a foreign tip, a wrong claim, a table that fails.
pub const REFUSED_WAYS: [usize; 3] = [0, 3, 9];

/// What an entry keeps, given itself, the pairs on a tip, and the entries of the stretches beside the tip.
pub type Rule = fn(u32, u32, u32, u32) -> bool;

/// Whether the table has the claim for the whole rack, and every other rule of it holds at these tips.
pub fn keeps(board: &Board, handed: &Handed, tips: u64, rule: Rule) -> bool {
    let rack = board.rack;
    let entry = |a: usize, b: usize| handed.table[a * rack + b];
    let of_row = |a: usize| {
        let mut taken = [0_u32; 64];
        (a..rack).all(|b| {
            let beyond = !(u64::MAX >> (63 - b) & u64::MAX << a);
            for line in board.lines().filter(|line| line.set & beyond == 0 && line.set >> b & 1 == 1) {
                (a..=b).for_each(|tip| taken[tip] += u32::from(line.quantity) * (line.set >> tip & 1) as u32);
            }
            let mut asked = (a..=b).filter(|tip| tips >> tip & 1 == 1);
            asked.all(|tip| {
                let pairs = taken[tip] * taken[tip].saturating_sub(1) / 2;
                let below = if tip > a { entry(a, tip - 1) } else { 0 };
                let above = if tip < b { entry(tip + 1, b) } else { 0 };
                rule(entry(a, b), pairs, below, above)
            })
        })
    };
    handed.table[rack - 1] == handed.claim && (0..rack).all(of_row)
}

/// Sums that wrap in 32 bits.
pub fn wrapping(entry: u32, pairs: u32, below: u32, above: u32) -> bool {
    entry >= pairs.wrapping_add(below).wrapping_add(above)
}

/// Sums that stop at the largest number of 32 bits.
pub fn stopping(entry: u32, pairs: u32, below: u32, above: u32) -> bool {
    entry >= pairs.saturating_add(below).saturating_add(above)
}

impl Handed {
    /// What best sharing gave; junk where it was refused.
    pub fn of(best: &Outcome) -> Handed {
        Handed { plan: best.bytes.clone(), claim: best.answer[1] as u32, table: best.table.clone() }
    }

    /// The pairs that the plan has.
    pub fn pairs(&self, board: &Board) -> u32 {
        pairs_in(&board.placed(&self.plan))
    }

    /// The same, changed in this way where it can be; a seeded choice settles the details.
    pub fn changed(&self, random: &mut Random, board: &Board, way: usize) -> Handed {
        let mut handed = self.clone();
        handed.change(random, board, way);
        handed
    }

    fn change(&mut self, random: &mut Random, board: &Board, way: usize) {
        let (rack, count) = (board.rack, board.count);
        let (named, whole) = (board.named_tips(), rack - 1);
        let is_named = |tip: usize| named >> tip & 1 == 1;
        // A stretch, and its place in the table.
        let first = random.below(rack);
        let place = first * rack + random.from_to(first, rack - 1);
        match way {
            // A tip of another line, of no line, or of no rack.
            0 if count > 0 => {
                let line = random.below(count);
                let foreign: Vec<u8> = (0..64).filter(|tip| board.sets[line] >> tip & 1 == 0).collect();
                self.plan[line] = if foreign.is_empty() { 64 } else { random.one_of(&foreign) };
            }
            // A tip of the line's own, but for the bits above the sixth.
            1 if count > 0 => {
                let line = random.below(count);
                self.plan[line] = self.plan[line] % 64 + random.one_of(&[64, 128, 192]);
            }
            2 if count > 0 => self.plan[random.below(count)] = random.number() as u8,
            // Another claim: by 1, by what fewer bits do not show, or any number.
            3 => self.claim = self.claim.wrapping_add(random.one_of(&[1, u32::MAX])),
            4 => {
                let any = random.number() as u32;
                self.claim = self.claim.wrapping_add(random.one_of(&[1 << 16, 1 << 24, 1 << 31, any]));
            }
            // Another plan with a true claim, which the table may have for the whole rack.
            5 | 6 => {
                for line in 0..count {
                    if random.once_in(3) {
                        self.plan[line] = own_tip(random, board, line);
                    }
                }
                self.claim = self.pairs(board);
                if way == 6 {
                    self.table[whole] = self.claim;
                }
            }
            // Another plan with as many pairs.
            7 => {
                for _ in 0..count.min(40) {
                    let line = random.below(count);
                    let tip = std::mem::replace(&mut self.plan[line], own_tip(random, board, line));
                    if self.pairs(board) != self.claim {
                        self.plan[line] = tip;
                    }
                }
            }
            // One entry by 1, below 0 too.
            8 => self.table[place] = self.table[place].wrapping_add(1),
            9 => self.table[place] = self.table[place].wrapping_sub(1),
            10 => self.table[whole] = self.table[whole].wrapping_add(random.one_of(&[1, u32::MAX])),
            // Huge entries: one beside a tip of the whole rack, all but that of the whole rack, a row behind a tip that is
            // not named, and one bit.
            11 => {
                let tip = random.below(rack);
                let huge = random.one_of(&[u32::MAX, u32::MAX - 1, 1 << 31]);
                if tip > 0 && (random.once_in(2) || tip + 1 == rack) {
                    self.table[tip - 1] = huge;
                } else if tip + 1 < rack {
                    self.table[(tip + 1) * rack + rack - 1] = huge;
                }
            }
            12 => {
                let claimed = self.table[whole];
                self.table.fill(u32::MAX);
                self.table[whole] = claimed;
            }
            13 => {
                let behind: Vec<usize> = (1..rack).filter(|&tip| !is_named(tip - 1)).collect();
                let row = if behind.is_empty() { first } else { random.one_of(&behind) };
                self.table[row * rack + row..(row + 1) * rack].fill(u32::MAX);
            }
            14 => self.table[place] ^= 1 << random.below(32),
            // A larger entry that no named tip asks about.
            15 => {
                let free = |&(a, b): &(usize, usize)| {
                    a <= b && (a, b) != (0, whole) && (a == 0 || !is_named(a - 1)) && (b == whole || !is_named(b + 1))
                };
                let stretches = (0..rack).flat_map(|a| (a..rack).map(move |b| (a, b)));
                let free: Vec<(usize, usize)> = stretches.filter(free).collect();
                if !free.is_empty() {
                    let (a, b) = random.one_of(&free);
                    let more = random.one_of(&[1, 1, 1000]);
                    self.table[a * rack + b] = self.table[a * rack + b].saturating_add(more);
                }
            }
            // Junk where nothing is asked about, or everywhere.
            16 => {
                for (a, b) in (1..rack).flat_map(|a| (0..a).map(move |b| (a, b))) {
                    self.table[a * rack + b] = random.number() as u32;
                }
            }
            17 => {
                self.table.iter_mut().for_each(|entry| *entry = random.number() as u32 >> 8);
                self.table[whole] = self.claim;
            }
            _ => {}
        }
    }
}

/// A tip of the line.
fn own_tip(random: &mut Random, board: &Board, line: usize) -> u8 {
    let own: Vec<u8> = (0..64).filter(|tip| board.sets[line] >> tip & 1 == 1).collect();
    random.one_of(&own)
}
