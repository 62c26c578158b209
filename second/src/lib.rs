//! Tip sharing in plain loops: the second implementation, written from the rules alone.
//!
//! A line of a parts list has a set of tips that can pick its part, bit t for tip t, and stands for so many placements
//! as its quantity says, all on one tip. Every call takes a board and hands one back in its answer.

mod along;
mod board;
mod by_tips;
mod checking;
mod common;
mod exact;
mod file;
mod goal;
mod junior;
mod mending;
mod panel;
mod placing;
pub mod refusal;
mod report;
mod sharing;
mod trying;
mod windows;

pub mod interface;

pub use along::Along;
pub use board::{Answer, Board, Line, Stage, MOST_LINES, MOST_PLACEMENTS, MOST_TIPS};
pub use by_tips::{order_by_tips, try_every_order_by_tips, ByTips};
pub use common::CommonTip;
pub use exact::{Exact, EXACT_TIPS};
pub use file::{read, Version, LONGEST_FILE};
pub use junior::{Junior, JUNIOR_LINES, JUNIOR_TIPS};
pub use mending::{mend, mended, Change, Mended, Mending, What, CHANGE};
pub use panel::{Alone, Merged};
pub use placing::{order_parts, try_every_order, Ordered, Part, Placing, Rule, MOST_PARTS};
pub use report::{report, LONGEST_INPUT};
pub use sharing::pairs_in;
pub use trying::{number_of_plans, try_every_plan, Tried};
pub use windows::{find_windows, try_every_order_for_windows};
