//! The numbers of refusals, from section 4 of docs/RULES.md: those of reading a job file, and those that `parts` names.

/// The rack size is 0 or above 64; for the Junior, above 8.
pub const RACK_SIZE: u32 = 1;
/// A line has no tip.
pub const EMPTY_LINE: u32 = 2;
/// A line has a tip outside the rack.
pub const TIP_OUTSIDE: u32 = 3;
/// The file has fewer than 8 bytes.
pub const SHORT_FILE: u32 = 6;
/// The file does not begin with TIP.
pub const WRONG_MARK: u32 = 7;
/// The version is neither 1 nor 2.
pub const WRONG_VERSION: u32 = 8;
/// The file names more than 512 lines.
pub const FILE_LINES: u32 = 9;
/// The file is not as long as its version and its number of lines need.
pub const FILE_LENGTH: u32 = 10;
/// A line has quantity 0.
pub const ZERO_QUANTITY: u32 = 15;
/// The lines, or those of both boards of a panel, have more than 2,048 placements.
pub const TOO_MANY_PLACEMENTS: u32 = 30;

/// The placing order: there are over 128 parts, or a part has no position.
pub const BAD_WINDOW: u32 = 12;
/// The mounted tip is outside the rack.
pub const MOUNTED_OUTSIDE: u32 = 16;
/// Merge: the two racks differ.
pub const RACKS_DIFFER: u32 = 17;
/// Check: a line is on a tip that it does not have.
pub const FOREIGN_TIP: u32 = 19;
/// Check: the plan does not have as many pairs as it claims.
pub const WRONG_CLAIM: u32 = 20;
/// The Junior: there are more than 64 lines. Merge: there are more than 512 together.
pub const TOO_MANY_LINES: u32 = 24;
/// Best sharing, a goal or a check: a line is no run.
pub const NO_RUN: u32 = 25;
/// Keep: no plan is within the bound.
pub const NO_PLAN: u32 = 26;
/// The placing order: no order obeys.
pub const NO_ORDER: u32 = 29;
/// The Junior: no two tips serve every line.
pub const NO_TWO_TIPS: u32 = 31;
/// Check: the table does not show that no plan has more pairs.
pub const WRONG_TABLE: u32 = 33;
/// A goal: no plan has as many pairs.
pub const GOAL_MISSED: u32 = 34;
/// Exact sharing: more than 20 tips are named.
pub const TOO_MANY_NAMED: u32 = 35;
