//! What was compared, counted by call and refusal number, and what must have occurred.

use second::refusal;
use std::collections::BTreeMap;
use std::fmt;

use crate::check::CALL_NAMES;

/// The row of a report whose output was too short.
pub const SHORT_REPORT: u32 = u32::MAX;

/// The refusals of reading a file; the last two are of the second version alone.
pub const OF_READING: [u32; 10] = [
    refusal::RACK_SIZE,
    refusal::EMPTY_LINE,
    refusal::TIP_OUTSIDE,
    refusal::SHORT_FILE,
    refusal::WRONG_MARK,
    refusal::WRONG_VERSION,
    refusal::FILE_LINES,
    refusal::FILE_LENGTH,
    refusal::ZERO_QUANTITY,
    refusal::TOO_MANY_PLACEMENTS,
];

/// Things that must occur beside the refusals.
#[derive(Clone, Copy, PartialEq, Eq, PartialOrd, Ord, Debug)]
pub enum Event {
    RackOf1,
    RackOf64,
    NoLines,
    Lines512,
    SeveralCommonTips,
    PrunedAtMarginZero,
    SameAtMarginZero,
    LineLacksCommonTip,
    SameAboveMarginZero,
    KAbovePlacements,
    BestAboveQuick,
    BestOtherPlanSamePairs,
    PairsAbove16Bits,
    EveryPlanTried,
    Counted,
    SingleInVersion2,
    MostPlacements,
    Quantity255,
    PairsAboveThoseOfLines,
    FirstRoundByQuantities,
    BestByQuantities,
    PrunedAboveMarginZero,
    SparedForQuantity,
    KeptMoreThanCommon,
    WrittenAsVersion1,
    WrittenAsVersion2,
    PassedBeforeLastLine,
    BadLineAfterPassing,
    AbsentTip,
    RunWithAbsentTip,
    AbsentTipBeforeNoRun,
    NamedEndsAlone,
    QuickByMounted,
    QuickPairsByMounted,
    BestByMounted,
    MountedNotNamed,
    MountedOutsideAndShortPlan,
    MountedOutsideAndShortTable,
    MountedOutsideAndNoRun,
    CheckedOtherPlan,
    CheckedOtherTable,
    CheckedJunkBelow,
    ForeignTipAndClaim,
    ForeignTipByHighBits,
    ClaimAndTable,
    TableByWrapping,
    TableByStopping,
    GoalStrikes,
    GoalStrikesNone,
    GoalLeavesSeveral,
    GoalLeavesAGap,
    GoalByOtherLines,
    GoalByQuantity,
    GoalWithAbsentTip,
    GoalMissedByOne,
    GoalMissedAndShortOutput,
    GoalMissedAndNoRun,
    JuniorOfOneTip,
    JuniorOfTwoTips,
    JuniorToTheFirst,
    JuniorToTheSecond,
    JuniorEqualSides,
    JuniorSeveralChoices,
    JuniorLaterChoice,
    JuniorByQuantities,
    JuniorFewerThanQuick,
    JuniorOf64Lines,
    JuniorOfRack8,
    JuniorManyLinesAndRack,
    JuniorRackAndShortPlan,
    JuniorShortPlanAndNoTips,
    AlongOnOneTip,
    AlongManyChanges,
    AlongFewerThanQuick,
    AlongFewerPairs,
    AlongSeveralTips,
    AlongByMounted,
    AlongChangeBefore,
    AlongMountedNotNamed,
    AlongMountedAndShortPlan,
    ExactWithoutRuns,
    ExactAboveQuick,
    ExactAsBest,
    ExactWithoutLines,
    ExactWithAbsentTip,
    ExactOf20Tips,
    ExactByMounted,
    ExactByPrice,
    ExactFewestTips,
    ExactPriceTooHigh,
    ExactTipWithoutLine,
    ShortPlanAndManyTips,
    MountedAndManyTips,
    ManyTipsAndShortTable,
    FirstBoardBad,
    SecondBoardBad,
    BothBoardsBad,
    EmptyFirstBoard,
    EmptySecondBoard,
    PanelOf512Lines,
    PanelOf2048Placements,
    PanelOfBothVersions,
    PanelAsVersion1,
    RacksDifferAndLines,
    LinesAndPlacements,
    AloneInTwoRacks,
    FirstPlanAloneFits,
    NothingMended,
    TipsCleared,
    DroppedAsEmpty,
    QuantityRaised,
    DroppedForTotal,
    CountChangedAlone,
    BytesBehindAlone,
    CountAndBytes,
    ClearedAndDropped,
    RaisedAndDropped,
    ThreeOfALine,
    DroppedAfterTotal,
    MendedOnesInVersion2,
    MendedInVersion1,
    MendedMoreThan512,
    MendedWithoutALine,
    LongChanges,
    MendedRackOf64,
    ShortFileAlone,
    ShortReportAlone,
}

const EVENTS: [(Event, &str); 127] = [
    (Event::RackOf1, "boards with rack 1"),
    (Event::RackOf64, "boards with rack 64"),
    (Event::NoLines, "boards without lines"),
    (Event::Lines512, "boards with 512 lines"),
    (Event::SeveralCommonTips, "boards with several common tips"),
    (Event::PrunedAtMarginZero, "keep at margin 0, some line loses tips"),
    (Event::SameAtMarginZero, "keep at margin 0, no line changes"),
    (Event::LineLacksCommonTip, "keep at margin 0, a line has only some common tips"),
    (Event::SameAboveMarginZero, "keep above margin 0, no line changes"),
    (Event::KAbovePlacements, "keep with k above the number of placements"),
    (Event::BestAboveQuick, "boards where best has more pairs than quick"),
    (Event::BestOtherPlanSamePairs, "boards where best has another plan of equal pairs"),
    (Event::PairsAbove16Bits, "boards where quick has more than 65,535 pairs"),
    (Event::EveryPlanTried, "boards solved by trying every plan"),
    (Event::Counted, "boards whose quantities are not all 1"),
    (Event::SingleInVersion2, "boards of quantities 1 in a file of version 2"),
    (Event::MostPlacements, "boards with 2,048 placements"),
    (Event::Quantity255, "boards with a quantity of 255"),
    (Event::PairsAboveThoseOfLines, "boards where quick has more than 130,816 pairs"),
    (Event::FirstRoundByQuantities, "boards where quick begins with another tip than with quantities 1"),
    (Event::BestByQuantities, "boards where best has another plan than with quantities 1"),
    (Event::PrunedAboveMarginZero, "keep above margin 0, some line loses tips"),
    (Event::SparedForQuantity, "keep above margin 0, a line with fewer placements loses none"),
    (Event::KeptMoreThanCommon, "keep above margin 0, a line that loses tips keeps others than common ones"),
    (Event::WrittenAsVersion1, "keep writes version 1 for a file of version 2"),
    (Event::WrittenAsVersion2, "keep writes version 2"),
    (Event::PassedBeforeLastLine, "files with too many placements before the last line"),
    (Event::BadLineAfterPassing, "files with too many placements before a bad line"),
    (Event::AbsentTip, "boards of lines with a tip that no line names"),
    (Event::RunWithAbsentTip, "boards where best takes a line that lacks a tip which no line names"),
    (Event::AbsentTipBeforeNoRun, "boards where such a line stands before the first one that is no run"),
    (Event::NamedEndsAlone, "boards whose named tips are the two ends of the rack"),
    (Event::QuickByMounted, "quick with a mounted tip, which changes the plan"),
    (Event::QuickPairsByMounted, "quick with a mounted tip, which changes the pairs"),
    (Event::BestByMounted, "best with a mounted tip, which changes the plan"),
    (Event::MountedNotNamed, "best with a mounted tip that no line names"),
    (Event::MountedOutsideAndShortPlan, "a mounted tip outside the rack, and a short plan"),
    (Event::MountedOutsideAndShortTable, "a mounted tip outside the rack, and a short table"),
    (Event::MountedOutsideAndNoRun, "a mounted tip outside the rack, and a line that is no run"),
    (Event::CheckedOtherPlan, "check of another plan than best lays, accepted"),
    (Event::CheckedOtherTable, "check with another table than best writes, accepted"),
    (Event::CheckedJunkBelow, "check with junk below the diagonal of the table, accepted"),
    (Event::ForeignTipAndClaim, "check of a plan with a foreign tip and a wrong claim"),
    (Event::ForeignTipByHighBits, "check of a plan that is foreign by bits above the sixth alone"),
    (Event::ClaimAndTable, "check with a wrong claim and a table that fails"),
    (Event::TableByWrapping, "check with a table that fails but for sums that wrap in 32 bits"),
    (Event::TableByStopping, "check with a table that fails but for sums that stop at 32 bits"),
    (Event::GoalStrikes, "goal of a best plan's pairs, some line loses tips"),
    (Event::GoalStrikesNone, "goal above 0, no line changes"),
    (Event::GoalLeavesSeveral, "goal of a best plan's pairs, a line keeps several tips"),
    (Event::GoalLeavesAGap, "goal that leaves a line which is no run"),
    (Event::GoalByOtherLines, "goal that is met on a tip only where other lines move too"),
    (Event::GoalByQuantity, "goal that leaves other tips of an equal set with another quantity"),
    (Event::GoalWithAbsentTip, "goal that strikes from a line that lacks a tip which no line names"),
    (Event::GoalMissedByOne, "goal of one pair more than a best plan has"),
    (Event::GoalMissedAndShortOutput, "goal that no plan meets, and a short output"),
    (Event::GoalMissedAndNoRun, "goal that no plan meets, and a line that is no run"),
    (Event::JuniorOfOneTip, "junior with one tip for several lines"),
    (Event::JuniorOfTwoTips, "junior with two tips"),
    (Event::JuniorToTheFirst, "junior with lines that have both tips on the lower one, which gives more pairs"),
    (Event::JuniorToTheSecond, "junior with lines that have both tips on the higher one"),
    (Event::JuniorEqualSides, "junior with lines that have both tips, which give equal pairs"),
    (Event::JuniorSeveralChoices, "junior where other tips give as many pairs"),
    (Event::JuniorLaterChoice, "junior where lower tips serve every line with fewer pairs"),
    (Event::JuniorByQuantities, "junior with another plan than with quantities 1"),
    (Event::JuniorFewerThanQuick, "junior with fewer pairs than quick"),
    (Event::JuniorOf64Lines, "junior with 64 lines"),
    (Event::JuniorOfRack8, "junior with a rack of 8 and its last tip"),
    (Event::JuniorManyLinesAndRack, "junior with too many lines, and too large a rack"),
    (Event::JuniorRackAndShortPlan, "junior with too large a rack, and a short plan"),
    (Event::JuniorShortPlanAndNoTips, "junior with a short plan, and lines that no two tips serve"),
    (Event::AlongOnOneTip, "along with several lines and no change"),
    (Event::AlongManyChanges, "along with more than 255 changes"),
    (Event::AlongFewerThanQuick, "along with fewer changes than quick"),
    (Event::AlongFewerPairs, "along with fewer pairs than quick"),
    (Event::AlongSeveralTips, "along with several tips for a segment"),
    (Event::AlongByMounted, "along with a mounted tip, which changes the plan"),
    (Event::AlongChangeBefore, "along with a mounted tip that does not suit the first line"),
    (Event::AlongMountedNotNamed, "along with a mounted tip that no line names"),
    (Event::AlongMountedAndShortPlan, "along with a mounted tip outside the rack, and a short plan"),
    (Event::ExactWithoutRuns, "exact where a line is no run"),
    (Event::ExactAboveQuick, "exact with more pairs than quick, where a line is no run"),
    (Event::ExactAsBest, "exact with the plan of best, of several lines"),
    (Event::ExactWithoutLines, "exact without lines"),
    (Event::ExactWithAbsentTip, "exact with a tip of the rack that no line names"),
    (Event::ExactOf20Tips, "exact with 20 named tips"),
    (Event::ExactByMounted, "exact with a mounted tip, which changes the plan"),
    (Event::ExactByPrice, "exact with a price, which takes a tip off the plan"),
    (Event::ExactFewestTips, "exact with the highest price, which costs pairs"),
    (Event::ExactPriceTooHigh, "exact with a price above the highest that counts"),
    (Event::ExactTipWithoutLine, "exact with a price, and a named tip that no line is on"),
    (Event::ShortPlanAndManyTips, "exact with a short plan, and too many named tips"),
    (Event::MountedAndManyTips, "exact with a mounted tip outside the rack, and too many named tips"),
    (Event::ManyTipsAndShortTable, "exact with too many named tips, and a short table"),
    (Event::FirstBoardBad, "two boards, the first refused and the second good"),
    (Event::SecondBoardBad, "two boards, the first good and the second refused"),
    (Event::BothBoardsBad, "two boards, both refused, with different numbers"),
    (Event::EmptyFirstBoard, "panels whose first board has no lines"),
    (Event::EmptySecondBoard, "panels whose second board has no lines"),
    (Event::PanelOf512Lines, "panels of 512 lines"),
    (Event::PanelOf2048Placements, "panels of 2,048 placements"),
    (Event::PanelOfBothVersions, "panels of files of both versions, written as version 2"),
    (Event::PanelAsVersion1, "panels with a file of version 2, written as version 1"),
    (Event::RacksDifferAndLines, "merge with racks that differ and too many lines or placements"),
    (Event::LinesAndPlacements, "merge with too many lines and too many placements"),
    (Event::AloneInTwoRacks, "two boards in two racks, each planned alone"),
    (Event::FirstPlanAloneFits, "two boards, and a plan that does for the first and not for both"),
    (Event::NothingMended, "files mended in which nothing changes"),
    (Event::TipsCleared, "files mended, tips cleared"),
    (Event::DroppedAsEmpty, "files mended, a line dropped as empty"),
    (Event::QuantityRaised, "files mended, a quantity raised"),
    (Event::DroppedForTotal, "files mended, a line dropped for the total"),
    (Event::CountChangedAlone, "files mended, another count and no bytes behind"),
    (Event::BytesBehindAlone, "files mended, bytes behind and the same count"),
    (Event::CountAndBytes, "files mended, another count and bytes behind"),
    (Event::ClearedAndDropped, "files mended, a line cleared and then dropped as empty"),
    (Event::RaisedAndDropped, "files mended, a quantity raised and the line dropped for the total"),
    (Event::ThreeOfALine, "files mended, three changes of one line"),
    (Event::DroppedAfterTotal, "files mended, several lines dropped for the total"),
    (Event::MendedOnesInVersion2, "files of version 2 mended, and every quantity written is 1"),
    (Event::MendedInVersion1, "files of version 1 mended"),
    (Event::MendedMoreThan512, "files mended that say and hold more than 512 lines"),
    (Event::MendedWithoutALine, "files mended that hold a part of a line alone"),
    (Event::LongChanges, "files mended with more than 256 changes"),
    (Event::MendedRackOf64, "files with rack 64 mended"),
    (Event::ShortFileAlone, "mend with room for the report and not for the file"),
    (Event::ShortReportAlone, "mend with room for the file and not for the report"),
];

/// The counts of a run.
#[derive(Default)]
pub struct Tally {
    /// Cases: one call on one file with one set of buffers.
    pub cases: u64,
    /// Job files, good and damaged.
    pub files: u64,
    /// Good job files.
    pub boards: u64,
    calls: BTreeMap<(u32, usize), u64>,
    events: BTreeMap<Event, u64>,
}

impl Tally {
    pub fn count_call(&mut self, number: u32, column: usize) {
        self.cases += 1;
        *self.calls.entry((number, column)).or_default() += 1;
    }

    pub fn count_event(&mut self, event: Event) {
        *self.events.entry(event).or_default() += 1;
    }

    fn calls(&self, number: u32, column: usize) -> u64 {
        self.calls.get(&(number, column)).copied().unwrap_or(0)
    }

    fn events(&self, event: Event) -> u64 {
        self.events.get(&event).copied().unwrap_or(0)
    }

    /// What must occur and did not.
    pub fn missing(&self) -> Vec<String> {
        let mut missing = Vec::new();
        for (column, name) in CALL_NAMES.iter().enumerate() {
            for number in needed(column) {
                if self.calls(number, column) == 0 {
                    missing.push(format!("{name} with {}", row_name(number)));
                }
            }
        }
        for (event, name) in EVENTS {
            if self.events(event) == 0 {
                missing.push(name.to_string());
            }
        }
        missing
    }
}

/// The numbers that a call must have given.
fn needed(column: usize) -> Vec<u32> {
    let mut numbers = vec![0];
    // A mending reads the first 8 bytes alone.
    if CALL_NAMES[column] != "mend" {
        numbers.extend(OF_READING);
    }
    let own: &[u32] = match CALL_NAMES[column] {
        "keep" => &[refusal::SHORT_OUTPUT, refusal::NO_PLAN, refusal::SHORT_ANSWER],
        "goal" => &[refusal::SHORT_OUTPUT, refusal::NO_RUN, refusal::GOAL_MISSED, refusal::SHORT_ANSWER],
        "quick" => &[refusal::SHORT_PLAN, refusal::MOUNTED_OUTSIDE, refusal::SHORT_ANSWER],
        "best" => &[
            refusal::SHORT_PLAN,
            refusal::SHORT_TABLE,
            refusal::MOUNTED_OUTSIDE,
            refusal::NO_RUN,
            refusal::SHORT_ANSWER,
        ],
        "along" => &[refusal::SHORT_PLAN, refusal::MOUNTED_OUTSIDE, refusal::SHORT_ANSWER],
        "exact" => &[
            refusal::SHORT_PLAN,
            refusal::SHORT_TABLE,
            refusal::MOUNTED_OUTSIDE,
            refusal::TOO_MANY_NAMED,
            refusal::SHORT_ANSWER,
        ],
        "check" => &[
            refusal::SHORT_PLAN,
            refusal::SHORT_TABLE,
            refusal::FOREIGN_TIP,
            refusal::WRONG_CLAIM,
            refusal::NO_RUN,
            refusal::WRONG_TABLE,
            refusal::SHORT_ANSWER,
        ],
        "junior" => &[refusal::SHORT_PLAN, refusal::TOO_MANY_LINES, refusal::NO_TWO_TIPS, refusal::SHORT_ANSWER],
        "merge" => &[refusal::SHORT_OUTPUT, refusal::RACKS_DIFFER, refusal::TOO_MANY_LINES, refusal::SHORT_ANSWER],
        "alone" => &[refusal::SHORT_PLAN, refusal::SHORT_ANSWER],
        "mend" => &[
            refusal::RACK_SIZE,
            refusal::SHORT_FILE,
            refusal::WRONG_MARK,
            refusal::WRONG_VERSION,
            refusal::SHORT_OUTPUT,
            refusal::SHORT_ANSWER,
        ],
        "report" => &[SHORT_REPORT],
        _ => &[refusal::SHORT_ANSWER],
    };
    numbers.extend(own);
    numbers
}

fn row_name(number: u32) -> String {
    if number == SHORT_REPORT {
        "short out".to_string()
    } else {
        number.to_string()
    }
}

impl fmt::Display for Tally {
    fn fmt(&self, to: &mut fmt::Formatter) -> fmt::Result {
        write!(to, "{:>9}", "number")?;
        for name in CALL_NAMES {
            write!(to, "{name:>10}")?;
        }
        writeln!(to)?;
        let mut rows: Vec<u32> = (0..CALL_NAMES.len()).flat_map(needed).collect();
        rows.extend(self.calls.keys().map(|&(number, _)| number));
        rows.sort_unstable();
        rows.dedup();
        for number in rows {
            write!(to, "{:>9}", row_name(number))?;
            for column in 0..CALL_NAMES.len() {
                let calls = self.calls(number, column);
                if calls == 0 && !needed(column).contains(&number) {
                    write!(to, "{:>10}", "")?;
                } else {
                    write!(to, "{calls:>10}")?;
                }
            }
            writeln!(to)?;
        }
        for (event, name) in EVENTS {
            writeln!(to, "{:>9} {name}", self.events(event))?;
        }
        Ok(())
    }
}

#[cfg(test)]
mod tests {
    use super::*;

    #[test]
    fn what_never_occurred_is_missing() {
        let mut tally = Tally::default();
        let all = tally.missing().len();
        // 0 and reading's 10 for 13 calls, 100 for 12, the short report; keep's 11, 26, quick's 4, 16, best's 4, 5, 16, 25,
        // along's 4, 16, exact's 4, 5, 16, 35, the check's 4, 5, 19, 20, 25, 33, the goal's 11, 25, 34, the Junior's 4, 24, 31, merge's 11, 17, 24,
        // alone's 4; mend's 0, 1, 6, 7, 8, 11, 100.
        assert_eq!(all, 13 * 11 + 12 + 1 + 8 + 2 + 4 + 6 + 3 + 3 + 4 + 7 + EVENTS.len());
        tally.count_call(25, 5);
        tally.count_event(Event::NoLines);
        assert_eq!(tally.missing().len(), all - 2);
        assert!(!tally.missing().contains(&"best with 25".to_string()));
    }
}
