//! Mistakes in best sharing.

use super::changes::{at_refusal, board_of, mirrored, missed, on_best, on_sets, placements_with, refusal};
use super::Mistake;
use crate::boards::is_unbroken;
use crate::check::{call_library, Buffers, Call};
use crate::refusal;
use second::interface::ANSWER_PLACES;
use second::Board;

pub(super) const OF_BEST: &[Mistake] = &[
    ("lines that reach outside a stretch of one tip are counted in it", |call, lent| {
        on_best(call, lent, |board, lent| {
            for tip in 0..board.rack {
                let placements = placements_with(board, tip) as u32;
                lent.table.inside()[tip * board.rack + tip] = placements * placements.saturating_sub(1) / 2;
            }
        })
    }),
    ("a tie goes to the highest tip in best sharing", |call, lent| on_best_mirrored(call, lent, |_| true)),
    ("a tie goes to the highest tip in best sharing with a rack of 64", |call, lent| {
        on_best_mirrored(call, lent, |board| board.rack == 64)
    }),
    ("a tie goes to the highest tip in best sharing with more than 300 lines", |call, lent| {
        on_best_mirrored(call, lent, |board| board.count > 300)
    }),
    ("the table has 16 bits", |call, lent| {
        on_best(call, lent, |board, lent| {
            lent.table.inside()[..board.rack * board.rack].iter_mut().for_each(|pairs| *pairs &= 0xFFFF);
        })
    }),
    ("a set of all 64 tips is taken for no run", |call, lent| {
        on_no_run(call, lent, |board| board.lines().position(|line| line.set == u64::MAX))
    }),
    ("the last line that is no run is named", |call, lent| {
        at_refusal(call, lent, &[refusal::NO_RUN], |lent| {
            let board = board_of(lent).expect("a good file");
            let named = board.named_tips();
            let last = board.lines().rposition(|line| missed(line.set, named) != 0);
            lent.answer.inside()[0] = last.expect("a line that is no run") as u64;
        })
    }),
    ("the table is looked at before the plan buffer", |call, lent| {
        let returned = call_library(call, lent);
        let places = lent.table.length;
        match (call, returned, board_of(lent)) {
            (Call::Best { .. }, 4, Some(board)) if places < board.rack * board.rack => 5,
            _ => returned,
        }
    }),
    ("the runs are looked at before the table", |call, lent| {
        let returned = call_library(call, lent);
        let no_run = |board: Board| {
            let named = board.named_tips();
            board.lines().position(|line| missed(line.set, named) != 0)
        };
        if let (refusal::SHORT_TABLE, Some(line)) = (refusal(call, returned), board_of(lent).and_then(no_run)) {
            lent.answer.inside()[0] = line as u64;
            return 25;
        }
        returned
    }),
    ("lines that are no runs are accepted", |call, lent| on_missed_tips(call, lent, |missed| missed)),
    ("refusal 25 clears the table", |call, lent| {
        at_refusal(call, lent, &[refusal::NO_RUN], |lent| lent.table.inside().fill(0))
    }),
    ("the table below the diagonal is not written", |call, lent| {
        let junk = lent.table.clone().inside().to_vec();
        on_best(call, lent, |board, lent| {
            for a in 1..board.rack {
                let row = a * board.rack..a * board.rack + a;
                lent.table.inside()[row.clone()].copy_from_slice(&junk[row]);
            }
        })
    }),
    ("table places from m * m on are cleared", |call, lent| {
        on_best(call, lent, |board, lent| {
            lent.table.inside()[board.rack * board.rack..].fill(0);
        })
    }),
    ("plan bytes from n on are cleared in best sharing", |call, lent| {
        on_best(call, lent, |board, lent| {
            lent.bytes.inside()[board.count..].fill(0);
        })
    }),
];

pub(super) const OF_NAMED_TIPS: &[Mistake] = &[
    ("a run has every tip between its ends, named or not", |call, lent| {
        on_no_run(call, lent, |board| board.lines().position(|line| !is_unbroken(line.set)))
    }),
    ("refusal 25 names the first line that lacks any tip between its ends", |call, lent| {
        at_refusal(call, lent, &[refusal::NO_RUN], |lent| {
            let board = board_of(lent).expect("a good file");
            let first = board.lines().position(|line| !is_unbroken(line.set));
            lent.answer.inside()[0] = first.expect("a line that lacks a tip") as u64;
        })
    }),
    ("refusal 25 goes by the tips named up to the line", |call, lent| {
        at_refusal(call, lent, &[refusal::NO_RUN], |lent| {
            let board = board_of(lent).expect("a good file");
            let mut named = 0;
            let first = board.lines().position(|line| {
                named |= line.set;
                missed(line.set, named) != 0
            });
            lent.answer.inside()[0] = first.map_or(lent.answer.inside()[0], |line| line as u64);
        })
    }),
    ("tips from 32 on are not missed", |call, lent| on_missed_tips(call, lent, |missed| missed >> 32 << 32)),
    ("the lowest missed tip is not looked at", |call, lent| {
        on_missed_tips(call, lent, |missed| missed & missed.wrapping_neg())
    }),
    ("ranks are left in the plan", |call, lent| {
        on_best(call, lent, |board, lent| {
            let named = board.named_tips();
            let plan = &mut lent.bytes.inside()[..board.count];
            plan.iter_mut().for_each(|tip| *tip = (named & ((1 << *tip) - 1)).count_ones() as u8);
        })
    }),
    ("tips above the last absent one are laid as ranks", |call, lent| {
        on_best(call, lent, |board, lent| {
            let absent = !board.named_tips() & u64::MAX >> (64 - board.rack);
            let highest = 63 - (absent | 1).leading_zeros() as u8;
            let plan = &mut lent.bytes.inside()[..board.count];
            plan.iter_mut().filter(|tip| **tip > highest).for_each(|tip| *tip -= absent.count_ones() as u8);
        })
    }),
    ("the table of the ranks is not spread over the rack", |call, lent| {
        on_table(call, lent, |places, table, _| {
            let of_ranks = places.of_ranks(table);
            table.fill(0);
            of_ranks.iter().for_each(|&(a, b, pairs)| table[a * places.rack + b] = pairs);
        })
    }),
    ("the table of the ranks stands at the beginning, and the rest is not written", |call, lent| {
        on_table(call, lent, |places, table, given| {
            let of_ranks = places.of_ranks(table);
            table.copy_from_slice(given);
            of_ranks.iter().for_each(|&(a, b, pairs)| table[a * places.tips.len() + b] = pairs);
        })
    }),
    ("rows of tips that no line names are 0", |call, lent| {
        on_table(call, lent, |places, table, _| places.in_rows().for_each(|place| table[place] = 0))
    }),
    ("columns of tips that no line names are 0", |call, lent| {
        on_table(call, lent, |places, table, _| places.in_columns().for_each(|place| table[place] = 0))
    }),
    ("rows of tips that no line names are not written", |call, lent| {
        on_table(call, lent, |places, table, given| places.in_rows().for_each(|place| table[place] = given[place]))
    }),
    ("columns of tips that no line names are not written", |call, lent| {
        on_table(call, lent, |places, table, given| places.in_columns().for_each(|place| table[place] = given[place]))
    }),
    ("a column of a tip that no line names is the one behind it", |call, lent| {
        on_table(call, lent, |places, table, _| {
            for place in (0..table.len()).rev().filter(|place| (place + 1) % places.rack != 0) {
                if !places.tips.contains(&(place % places.rack)) {
                    table[place] = table[place + 1];
                }
            }
        })
    }),
    ("without lines the table is not written", |call, lent| {
        on_table(call, lent, |places, table, given| {
            if places.tips.is_empty() {
                table.copy_from_slice(given);
            }
        })
    }),
];

/// Best sharing of lines that have, of the named tips that they miss, those that stay after the edit.
fn on_missed_tips(call: &Call, lent: &mut Buffers, edit: fn(u64) -> u64) -> u64 {
    match (call, board_of(lent)) {
        (Call::Best { .. }, Some(board)) => {
            let named = board.named_tips();
            on_sets(call, lent, |_, set| set | edit(missed(set, named)))
        }
        _ => call_library(call, lent),
    }
}

/// Best sharing that refuses the line found, where there is one and the buffers are long enough.
fn on_no_run(call: &Call, lent: &mut Buffers, line_in: impl FnOnce(&Board) -> Option<usize>) -> u64 {
    let given = lent.clone();
    let returned = call_library(call, lent);
    match (call, returned, board_of(lent).and_then(|board| line_in(&board))) {
        (Call::Best { .. }, 0 | 25, Some(line)) => {
            *lent = given;
            lent.answer.inside()[..ANSWER_PLACES].copy_from_slice(&[line as u64, 0, 0, 0]);
            25
        }
        _ => returned,
    }
}

/// Best sharing with another table, given the lent one as well; only where some tip of the rack is not named.
fn on_table(call: &Call, lent: &mut Buffers, change: fn(&Places, &mut [u32], &[u32])) -> u64 {
    let given = lent.table.clone().inside().to_vec();
    on_best(call, lent, |board, lent| {
        let named = board.named_tips();
        let tips: Vec<usize> = (0..board.rack).filter(|tip| named >> tip & 1 == 1).collect();
        if tips.len() < board.rack {
            let places = board.rack * board.rack;
            let table = &mut lent.table.inside()[..places];
            change(&Places { rack: board.rack, tips }, table, &given[..places]);
        }
    })
}

/// The places of a table: the rack, and the named tips.
struct Places {
    rack: usize,
    tips: Vec<usize>,
}

impl Places {
    /// The table of the named tips alone, by their ranks.
    fn of_ranks(&self, table: &[u32]) -> Vec<(usize, usize, u32)> {
        let ranks = 0..self.tips.len();
        let of_row = |a: usize| ranks.clone().map(move |b| (a, b, table[self.tips[a] * self.rack + self.tips[b]]));
        ranks.clone().flat_map(of_row).collect()
    }

    /// The places in the row of a tip that no line names.
    fn in_rows(&self) -> impl Iterator<Item = usize> + '_ {
        (0..self.rack * self.rack).filter(|place| !self.tips.contains(&(place / self.rack)))
    }

    /// The places in the column of a tip that no line names.
    fn in_columns(&self) -> impl Iterator<Item = usize> + '_ {
        (0..self.rack * self.rack).filter(|place| !self.tips.contains(&(place % self.rack)))
    }
}

fn on_best_mirrored(call: &Call, lent: &mut Buffers, applies: fn(&Board) -> bool) -> u64 {
    let board = match (call, board_of(lent)) {
        (Call::Best { .. }, Some(board)) if applies(&board) => board,
        _ => return call_library(call, lent),
    };
    let returned = mirrored(call, lent, &board);
    if returned == 0 {
        let places = board.rack * board.rack;
        let table = &mut lent.table.inside()[..places];
        let of_mirror = table.to_vec();
        for a in 0..board.rack {
            for b in 0..board.rack {
                // The stretch a to b is, seen from the other end, the stretch from b to a.
                table[a * board.rack + b] = of_mirror[(board.rack - 1 - b) * board.rack + board.rack - 1 - a];
            }
        }
    }
    returned
}
