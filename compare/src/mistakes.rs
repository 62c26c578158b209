//! Ways in which a library can be wrong: the comparison must find each of them.
//!
//! Every one is the linked library with another file, bound or buffer lent to it, or with something changed in what it
//! wrote, so that nothing is worked out a third time.

use crate::check::Caller;
use crate::sought;

mod along;
mod best;
mod changes;
mod checking;
mod common;
mod exact;
mod goal;
mod junior;
mod mending;
mod mounted;
mod outputs;
mod panels;
mod placements;
mod quick;
mod reading;

pub type Mistake = sought::Mistake<Caller>;

/// Mistakes of the calls on one board.
pub fn mistakes() -> impl Iterator<Item = &'static Mistake> {
    let of_calls = [
        reading::OF_READING,
        common::OF_COMMON,
        common::OF_KEEP,
        quick::OF_QUICK,
        best::OF_BEST,
        outputs::OF_ANSWERS,
        outputs::OF_REPORTS,
    ];
    let of_quantities = [
        reading::OF_READING_QUANTITIES,
        placements::OF_COUNTING_PLACEMENTS,
        common::OF_KEEPING_PLACEMENTS,
        reading::OF_VERSIONS,
    ];
    let of_tips = [best::OF_NAMED_TIPS, mounted::OF_REFUSED_MOUNTED_TIPS, mounted::OF_MOUNTED_TIPS];
    let of_later_calls = [goal::OF_GOALS, junior::OF_JUNIOR, along::OF_ALONG, exact::OF_EXACT, exact::OF_TABLES];
    let of_checks = [checking::OF_CHECKED_PLANS, checking::OF_CHECKED_TABLES, checking::OF_ORDER_IN_CHECKS];
    of_calls.into_iter().chain(of_quantities).chain(of_tips).chain(of_checks).chain(of_later_calls).flatten()
}

/// Mistakes of the calls on two boards, and of mending.
pub fn mistakes_of_panels_and_mendings() -> impl Iterator<Item = &'static Mistake> {
    let of_panels = [panels::OF_MERGING, panels::OF_PLANNING_ALONE, panels::OF_TWO_FILES];
    let of_mending = [mending::OF_MENDED_LINES, mending::OF_MENDED_FILES, mending::OF_MENDING_OUTPUTS];
    of_panels.into_iter().chain(of_mending).flatten()
}
