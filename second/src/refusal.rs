//! The numbers of refused calls.

/// The call was accepted.
pub const ACCEPTED: u32 = 0;

/// The rack size is 0 or above 64, or for the Junior above 8.
pub const RACK_SIZE: u32 = 1;
/// A line's set is empty.
pub const EMPTY_LINE: u32 = 2;
/// A line's set has a tip outside the rack; in an order by tips, a part's tip is 64 or above.
pub const TIP_OUTSIDE: u32 = 3;
/// The plan is shorter than the number of lines, of both boards where each is planned alone, or of parts.
pub const SHORT_PLAN: u32 = 4;
/// The table is shorter than the square of the rack size, or for exact sharing than twice the number of sets of named tips.
pub const SHORT_TABLE: u32 = 5;
/// The file is shorter than its head of 8 bytes.
pub const SHORT_FILE: u32 = 6;
/// The file's mark is not TIP.
pub const WRONG_MARK: u32 = 7;
/// The file's version is neither 1 nor 2.
pub const WRONG_VERSION: u32 = 8;
/// The file's number of lines is above 512.
pub const FILE_LINES: u32 = 9;
/// The file's length is not the one for its version and number of lines.
pub const FILE_LENGTH: u32 = 10;
/// The output is too short for the file in the version that is written, or for the report of a mending.
pub const SHORT_OUTPUT: u32 = 11;
/// An order, and there are over 128 parts, or a part's first position is after its last, or its last is none.
pub const BAD_WINDOW: u32 = 12;
/// An order, and a rule names a part that is absent, or the same part twice.
pub const BAD_RULE: u32 = 13;
/// The order buffer, or one for the positions of the parts, is shorter than the number of parts.
pub const SHORT_ORDER: u32 = 14;
/// A line's quantity is 0.
pub const ZERO_QUANTITY: u32 = 15;
/// The mounted tip is outside the rack, or in an order by tips 64 or above.
pub const MOUNTED_OUTSIDE: u32 = 16;
/// Merging, and the racks differ.
pub const RACKS_DIFFER: u32 = 17;
/// A checked plan has a line on a tip that is not its own.
pub const FOREIGN_TIP: u32 = 19;
/// The claim is not the number of pairs of the checked plan.
pub const WRONG_CLAIM: u32 = 20;

/// The board's rack size or number of lines is out of range.
pub const UNSOUND_BOARD: u32 = 21;
/// Add or close on a closed board.
pub const BOARD_CLOSED: u32 = 22;
/// Common tip, keep, a plan or write on an open board.
pub const BOARD_OPEN: u32 = 23;
/// Add on a board of 512 lines, the Junior on one of more than 64, or merging with more than 512 together.
pub const TOO_MANY_LINES: u32 = 24;
/// Best sharing, a goal or a check, and some line misses a named tip between its lowest and its highest.
pub const NO_RUN: u32 = 25;
/// Keep, and the margin is below zero.
pub const NO_PLAN: u32 = 26;
/// A line of the board has no tip, one outside the rack, quantity 0, or passes 2,048 placements.
pub const UNSOUND_LINE: u32 = 27;
/// After the last line of the board a set is not empty or a quantity not 0.
pub const HELD_BEHIND: u32 = 28;
/// No order of the parts obeys.
pub const NO_ORDER: u32 = 29;
/// The lines stand for more than 2,048 placements, those of both boards where they are merged.
pub const TOO_MANY_PLACEMENTS: u32 = 30;
/// The Junior, and no two tips serve every line.
pub const NO_TWO_TIPS: u32 = 31;
/// The table does not show that the checked plan has the most pairs.
pub const WRONG_TABLE: u32 = 33;
/// A goal of pairs, and no plan has so many.
pub const GOAL_MISSED: u32 = 34;
/// Exact sharing, and lines name more than 20 tips.
pub const TOO_MANY_NAMED: u32 = 35;

/// The answer of a call of the C interface has fewer than 4 places.
pub const SHORT_ANSWER: u32 = 100;
/// The numbers of the parts are no fours, or those of the rules no pairs.
pub const BROKEN_RECORD: u32 = 101;
