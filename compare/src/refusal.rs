//! The numbers of refusals, as wide as what a call returns: the report returns a length.

use second::refusal;

macro_rules! widened {
    ($($name:ident)*) => {
        $(pub const $name: u64 = refusal::$name as u64;)*
    };
}

widened! {
    ACCEPTED RACK_SIZE EMPTY_LINE TIP_OUTSIDE SHORT_PLAN SHORT_TABLE SHORT_FILE WRONG_MARK WRONG_VERSION FILE_LINES FILE_LENGTH
    SHORT_OUTPUT BAD_WINDOW BAD_RULE SHORT_ORDER ZERO_QUANTITY MOUNTED_OUTSIDE RACKS_DIFFER FOREIGN_TIP WRONG_CLAIM
    TOO_MANY_LINES NO_RUN NO_PLAN NO_ORDER TOO_MANY_PLACEMENTS NO_TWO_TIPS WRONG_TABLE GOAL_MISSED TOO_MANY_NAMED
    SHORT_ANSWER BROKEN_RECORD
}
