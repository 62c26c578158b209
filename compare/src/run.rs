//! The whole comparison: fixed boards, every small board, then seeded ones, in files of both versions.

use std::io::Write;
use std::path::PathBuf;
use std::process::{Command, Output, Stdio};
use std::{fs, io, thread};

use job_file::{Job, Version, MOST_PLACEMENTS};
use second::interface::{ANSWER_PLACES, NO_TIP, REPORT_SPACE};
use second::{number_of_plans, pairs_in, refusal, try_every_plan, Board, JUNIOR_LINES, JUNIOR_TIPS};

use crate::boards::{every_board, fixed_boards, is_counted, is_unbroken, seeded_board, seeded_file, single, Size};
use crate::check::{Call, Caller, Difference, Expected, Given, Outcome};
use crate::damage::{damage, damaged, first_to_pass, quantities_in, KINDS, TOO_MANY_PLACEMENTS};
use crate::files::{board_in, file_in, file_of};
use crate::handed::{keeps, stopping, wrapping, Handed, REFUSED_WAYS, WAYS};
use crate::random::Random;
use crate::record::Record;
use crate::sought::{all_found, look, Sought};
use crate::tally::{Event, Tally, SHORT_REPORT};

mod along;
mod exact;
mod goal;
mod junior;
mod mending;
mod panels;

pub use along::changes_in;

/// Boards with at most this many plans are solved by trying every plan.
const MOST_PLANS_TRIED: u64 = 1000;

/// Rack sizes with the quantities and the most lines up to which every board is compared.
const EVERY_BOARD_UP_TO: [(usize, &[u8], usize); 8] = [
    (1, &[1], 6),
    (2, &[1], 5),
    (3, &[1], 4),
    (4, &[1], 3),
    (5, &[1], 2),
    (1, &[1, 2, 255], 3),
    (2, &[1, 2, 3], 2),
    (3, &[1, 3], 2),
];

/// Among so many fixed files each pair of kinds of damage has its turn once.
const TURNS: usize = 8;

pub struct Run {
    /// Mistakes that are to show beside it.
    pub sought: Vec<Sought<Caller>>,
    /// Where some of the calls are put, if asked for.
    pub record: Option<Record>,
    random: Random,
    /// Seeded boards are added until this many cases are done, or each mistake that is looked for has shown.
    least_cases: u64,
    /// Where each file is written before its calls, to find one that ends the program.
    last_file: Option<PathBuf>,
    pub tally: Tally,
}

impl Run {
    pub fn new(seed: u64, least_cases: u64, last_file: Option<PathBuf>) -> Run {
        let (sought, record, tally) = (Vec::new(), None, Tally::default());
        Run { sought, record, random: Random::new(seed), least_cases, last_file, tally }
    }

    /// The same run, in which these mistakes are looked for.
    pub fn seeking(self, sought: Vec<Sought<Caller>>) -> Run {
        Run { sought, ..self }
    }

    fn is_over(&self) -> bool {
        self.tally.cases >= self.least_cases || all_found(&self.sought)
    }

    /// Compares until enough cases are done; the fixed boards always are.
    pub fn all(&mut self) -> Result<(), Difference> {
        self.fixed_panels()?;
        self.fixed_mendings()?;
        self.fixed_boards()?;
        for (rack, quantities, most_lines) in EVERY_BOARD_UP_TO {
            for lines in 0..=most_lines {
                every_board(rack, quantities, lines, &mut |board| {
                    if !self.is_over() {
                        self.small_board(&board)?;
                    }
                    Ok(())
                })?;
            }
        }
        self.seeded_boards()
    }

    /// The same without the small boards.
    pub fn seeded(&mut self) -> Result<(), Difference> {
        self.fixed_boards()?;
        self.seeded_boards()
    }

    /// The same with the fixed panels and mendings before it.
    pub fn panels_and_mendings(&mut self) -> Result<(), Difference> {
        self.fixed_panels()?;
        self.fixed_mendings()?;
        self.seeded()
    }

    /// Mendings alone: the fixed ones, then those of seeded boards until enough cases are done.
    pub fn mendings(&mut self) -> Result<(), Difference> {
        self.fixed_mendings()?;
        while !self.is_over() {
            let size = self.seeded_size();
            let board = seeded_board(&mut self.random, size);
            let file = seeded_file(&mut self.random, &board);
            self.seeded_mendings(&file)?;
        }
        Ok(())
    }

    fn seeded_size(&mut self) -> Size {
        match self.random.below(100) {
            0 => Size::Large,
            1..=4 => Size::Long,
            5..=24 => Size::Middle,
            25..=39 => Size::Junior,
            _ => Size::Small,
        }
    }

    /// Each fixed board in each version that it can have.
    fn fixed_boards(&mut self) -> Result<(), Difference> {
        let mut turn = 0;
        for board in fixed_boards() {
            let in_second = file_in(&board, Version::Two);
            let files = if is_counted(&board) { vec![in_second] } else { vec![file_of(&board), in_second] };
            for file in files {
                self.fixed_file(&board, &file, turn)?;
                turn += 1;
            }
        }
        Ok(())
    }

    fn seeded_boards(&mut self) -> Result<(), Difference> {
        while !self.is_over() {
            self.seeded_board()?;
        }
        Ok(())
    }

    /// Every buffer length and every kind of damage on a good file, and seeded lengths on a bad one.
    pub fn one_file(&mut self, file: &[u8]) -> Result<(), Difference> {
        self.each_mending(file)?;
        match board_in(file) {
            Ok(board) => (0..TURNS).try_for_each(|turn| self.fixed_file(&board, file, turn)),
            Err(_) => (0..100).try_for_each(|_| self.damaged_file(file, 0, 1)),
        }
    }

    /// A good file with every buffer length, cut, and damaged in the pairs of kinds whose turn it is.
    fn fixed_file(&mut self, board: &Board, file: &[u8], turn: usize) -> Result<(), Difference> {
        self.good_file(board, file)?;
        self.each_length(board, file)?;
        self.each_check(board, file, turn)?;
        self.each_goal(board, file)?;
        self.each_junior(board, file)?;
        self.each_along(board, file)?;
        self.each_exact(board, file)?;
        self.try_plans(board, file)?;
        let is_short = file.len() < 100;
        // Every cut of a short file, and some of a long one.
        for length in (0..file.len()).filter(|length| is_short || length % 197 < 3) {
            self.damaged_file(&file[..length], board.count, board.rack)?;
        }
        // Two kinds of damage together on a short file, to see the order of refusals, and one alone on a long one.
        for kind in 0..KINDS {
            let in_turn = (0..KINDS).filter(|other| (kind + other) % TURNS == turn % TURNS);
            let others = if is_short { in_turn.collect() } else { vec![kind; 2] };
            for other in others {
                let mut copy = file.to_vec();
                damage(&mut self.random, &mut copy, kind);
                if other != kind {
                    damage(&mut self.random, &mut copy, other);
                }
                self.damaged_file(&copy, board.count, board.rack)?;
            }
        }
        Ok(())
    }

    /// Every buffer length from 0 up to one past a short need, else those around the need.
    fn each_length(&mut self, board: &Board, file: &[u8]) -> Result<(), Difference> {
        let least_off = board.clone().common_tip().value.off;
        let written = file_of(board).len();
        let lengths = |needed: usize| (0..=needed + 1).filter(move |length| needed <= 100 || *length + 2 >= needed);
        for answer in 0..=5 {
            self.case(file, Call::Read { answer })?;
            self.case(file, Call::Common { answer })?;
            self.case(file, Call::Keep { k: least_off as u16, out: written, answer })?;
            let (mounted, table) = (NO_TIP, board.rack * board.rack);
            self.case(file, Call::Quick { mounted, plan: board.count, answer })?;
            self.case(file, Call::Best { mounted, plan: board.count, table, answer })?;
        }
        self.each_mounted(board, file)?;
        for out in lengths(written) {
            for k in [least_off.saturating_sub(1), least_off] {
                self.case(file, Call::Keep { k: k as u16, out, answer: ANSWER_PLACES })?;
            }
        }
        for plan in lengths(board.count) {
            self.case(file, Call::Quick { mounted: NO_TIP, plan, answer: ANSWER_PLACES })?;
        }
        let places = board.rack * board.rack;
        for table in lengths(places) {
            self.case(file, Call::Best { mounted: NO_TIP, plan: board.count, table, answer: ANSWER_PLACES })?;
        }
        for plan in [board.count.saturating_sub(1), board.count + 1] {
            for table in places - 1..=places + 1 {
                self.case(file, Call::Best { mounted: NO_TIP, plan, table, answer: ANSWER_PLACES })?;
            }
        }
        for out in [0, 1, REPORT_SPACE - 1, REPORT_SPACE, REPORT_SPACE + 1] {
            self.case(file, Call::Report { out })?;
        }
        Ok(())
    }

    /// Both plans with every tip of a small rack mounted, with some of a large one, and with numbers outside the rack,
    /// in buffers that do and that do not.
    fn each_mounted(&mut self, board: &Board, file: &[u8]) -> Result<(), Difference> {
        let (count, rack) = (board.count, board.rack);
        let tips = (0..rack).filter(|tip| rack <= 9 || tip % 9 == 0 || tip + 2 > rack);
        for mounted in tips {
            let (plan, table, answer) = (count, rack * rack, ANSWER_PLACES);
            self.case(file, Call::Quick { mounted, plan, answer })?;
            self.case(file, Call::Best { mounted, plan, table, answer })?;
        }
        let short = [(count, rack * rack), (count.saturating_sub(1), rack * rack), (count, rack * rack - 1)];
        for mounted in numbers_outside(rack) {
            for (plan, table) in short {
                self.case(file, Call::Quick { mounted, plan, answer: ANSWER_PLACES })?;
                let call = Call::Best { mounted, plan, table, answer: ANSWER_PLACES };
                self.case(file, call)?;
                // On short files alone, for it takes long.
                if file.len() < 100 {
                    self.count_outside(board, call);
                }
            }
        }
        Ok(())
    }

    /// What is handed over for a check, changed in each way, in two that are refused, and in buffers around the needed
    /// lengths; of a long file a part, whose turn it is.
    fn each_check(&mut self, board: &Board, file: &[u8], turn: usize) -> Result<(), Difference> {
        let (count, places) = (board.count, board.rack * board.rack);
        let exact = [count, places, ANSWER_PLACES];
        let call = Call::Best { mounted: NO_TIP, plan: count, table: places, answer: ANSWER_PLACES };
        let own = Handed::of(&self.case(file, call)?);
        let is_short = file.len() < 100;
        for way in (0..WAYS).filter(|way| is_short || way % TURNS == turn % TURNS) {
            let changed = own.changed(&mut self.random, board, way);
            self.check(board, file, &changed, exact)?;
        }
        for (first, second) in [(0, 1), (0, 2), (1, 2)].map(|(i, j)| (REFUSED_WAYS[i], REFUSED_WAYS[j])) {
            let changed = own.changed(&mut self.random, board, first).changed(&mut self.random, board, second);
            self.check(board, file, &changed, exact)?;
        }
        let foreign = own.changed(&mut self.random, board, REFUSED_WAYS[0]);
        for (plan, table) in [(1, 0), (1, 1), (0, 1)] {
            let lengths = [count.saturating_sub(plan), places - table, ANSWER_PLACES];
            self.check(board, file, &own, lengths)?;
            self.check(board, file, &foreign, lengths)?;
        }
        let longer = (0..=5).map(|answer| [count, places, answer]).chain([[count + 9, places + 9, ANSWER_PLACES]]);
        longer.into_iter().try_for_each(|lengths| self.check(board, file, &own, lengths).map(|_| ()))
    }

    fn small_board(&mut self, board: &Board) -> Result<(), Difference> {
        let file = file_of(board);
        self.good_file(board, &file)?;
        self.try_plans(board, &file)
    }

    fn seeded_board(&mut self) -> Result<(), Difference> {
        let size = self.seeded_size();
        let board = seeded_board(&mut self.random, size);
        let file = seeded_file(&mut self.random, &board);
        self.good_file(&board, &file)?;
        if self.random.once_in(4) {
            self.try_plans(&board, &file)?;
        }
        for _ in 0..2 {
            let copy = damaged(&mut self.random, &file);
            self.damaged_file(&copy, board.count, board.rack)?;
        }
        if board.count >= 9 {
            let kind = self.random.one_of(&TOO_MANY_PLACEMENTS);
            let mut copy = file_in(&board, Version::Two);
            damage(&mut self.random, &mut copy, kind);
            self.damaged_file(&copy, board.count, board.rack)?;
        }
        self.seeded_panel(&board, &file)?;
        self.seeded_mendings(&file)
    }

    /// Every call on a good file, with every k around the margin and buffers around the needed lengths.
    fn good_file(&mut self, board: &Board, file: &[u8]) -> Result<(), Difference> {
        self.begin_file(file);
        self.count_board(board, file);
        let (count, places) = (board.count, board.rack * board.rack);
        let written = file_of(board).len();

        let answer = self.answer_length();
        self.case(file, Call::Read { answer })?;
        let answer = self.answer_length();
        self.case(file, Call::Common { answer })?;

        let common = board.clone().common_tip().value;
        let any = self.random.number() as u16;
        let mut ks = around(common.off);
        ks.extend([0, u16::MAX, count as u16, any]);
        ks.extend(self.bounds_of_quantities(board, common.off));
        ks.sort_unstable();
        ks.dedup();
        for k in ks {
            let out = self.length_around(written);
            let answer = self.answer_length();
            self.case(file, Call::Keep { k, out, answer })?;
            self.count_events(&[(usize::from(k) > common.top + common.off, Event::KAbovePlacements)]);
        }
        let mut ks = vec![common.off as u16, common.off as u16 + 1];
        ks.extend(self.bounds_of_quantities(board, common.off));
        for k in ks {
            let kept = self.case(file, Call::Keep { k, out: written, answer: ANSWER_PLACES })?;
            self.count_keep(board, common.tips, &kept, file);
        }

        let (mounted, plan) = (self.mounted_number(board.rack), self.length_around(count));
        let answer = self.answer_length();
        self.case(file, Call::Quick { mounted, plan, answer })?;
        let (plan, answer) = (count, ANSWER_PLACES);
        let quick = self.case(file, Call::Quick { mounted: NO_TIP, plan, answer })?;

        let mounted = self.mounted_number(board.rack);
        let (plan, table) = (self.length_around(count), self.length_around(places));
        let answer = self.answer_length();
        let call = Call::Best { mounted, plan, table, answer };
        self.case(file, call)?;
        self.count_outside(board, call);
        let (plan, table, answer) = (count, places, ANSWER_PLACES);
        let best = self.case(file, Call::Best { mounted: NO_TIP, plan, table, answer })?;
        self.count_plans(board, &quick, &best);

        let mounted = self.random.below(board.rack);
        let quick_with = self.case(file, Call::Quick { mounted, plan, answer })?;
        let best_with = self.case(file, Call::Best { mounted, plan, table, answer })?;
        self.count_events(&[
            (quick_with.bytes != quick.bytes, Event::QuickByMounted),
            (quick_with.answer != quick.answer, Event::QuickPairsByMounted),
            (best_with.returned == 0 && best_with.bytes != best.bytes, Event::BestByMounted),
            (best.returned == 0 && count > 0 && board.named_tips() >> mounted & 1 == 0, Event::MountedNotNamed),
        ]);

        // Our own plan and table, and changed ones.
        let own = Handed::of(&best_with);
        self.check(board, file, &own, [plan, table, answer])?;
        for lengths in [[plan, table, answer], self.check_lengths(count, places)] {
            let way = self.random.below(WAYS);
            let changed = own.changed(&mut self.random, board, way);
            self.check(board, file, &changed, lengths)?;
        }

        self.goals(board, file, &best)?;
        self.juniors(board, file, &quick)?;
        self.alongs(board, file, &quick)?;
        self.exacts(board, file, &quick, &best)?;

        let any = self.random.below(100);
        let out = self.random.one_of(&[REPORT_SPACE, REPORT_SPACE, REPORT_SPACE + any, REPORT_SPACE - 1, any]);
        self.case(file, Call::Report { out })?;
        Ok(())
    }

    /// Every call on a file that may be damaged, with buffers for the board it came from.
    fn damaged_file(&mut self, file: &[u8], count: usize, rack: usize) -> Result<(), Difference> {
        self.begin_file(file);
        self.count_placements(file);
        let answer = self.answer_length();
        self.case(file, Call::Read { answer })?;
        let answer = self.answer_length();
        self.case(file, Call::Common { answer })?;
        let k = self.random.number() as u16;
        let out = self.length_around(file.len());
        let answer = self.answer_length();
        self.case(file, Call::Keep { k, out, answer })?;
        // Nearly always more than any plan has, for a file that is good has a board of any size.
        let goal = self.random.number() as u32;
        let out = self.length_around(file.len());
        let answer = self.answer_length();
        self.case(file, Call::Goal { goal, out, answer })?;
        let (mounted, plan) = (self.mounted_number(rack), self.length_around(count));
        let answer = self.answer_length();
        self.case(file, Call::Quick { mounted, plan, answer })?;
        let mounted = self.mounted_number(rack);
        let (plan, table) = (self.length_around(count), self.length_around(rack * rack));
        let answer = self.answer_length();
        self.case(file, Call::Best { mounted, plan, table, answer })?;
        let claim = self.random.number() as u32;
        let [plan, table, answer] = self.check_lengths(count, rack * rack);
        self.case(file, Call::Check { claim, plan, table, answer })?;
        let (plan, answer) = (self.length_around(count), self.answer_length());
        self.case(file, Call::Junior { plan, answer })?;
        let (mounted, plan, answer) = (self.mounted_number(rack), self.length_around(count), self.answer_length());
        self.case(file, Call::Along { mounted, plan, answer })?;
        let (mounted, plan, answer) = (self.mounted_number(rack), self.length_around(count), self.answer_length());
        let (price, table) = (self.price(), self.length_around(32));
        self.case(file, Call::Exact { mounted, price, plan, table, answer })?;
        let out = self.random.one_of(&[REPORT_SPACE, REPORT_SPACE, REPORT_SPACE, REPORT_SPACE - 1]);
        self.case(file, Call::Report { out })?;
        Ok(())
    }

    /// One call in both implementations, on buffers of junk.
    fn case(&mut self, file: &[u8], call: Call) -> Result<Outcome, Difference> {
        self.case_with(file, call, Given::default())
    }

    /// The check of what is handed over for a good file, with these lengths of plan, table and answer.
    fn check(
        &mut self,
        board: &Board,
        file: &[u8],
        handed: &Handed,
        [plan, table, answer]: [usize; 3],
    ) -> Result<Outcome, Difference> {
        let call = Call::Check { claim: handed.claim, plan, table, answer };
        let given = Given { plan: &handed.plan, table: &handed.table, ..Given::default() };
        let checked = self.case_with(file, call, given)?;
        self.count_check(board, handed, checked.returned);
        Ok(checked)
    }

    fn case_with(&mut self, file: &[u8], call: Call, given: Given) -> Result<Outcome, Difference> {
        let expected = Expected::of_call(file, &call, given, self.random.number());
        let outcome = expected.compare()?;
        let number = match call {
            Call::Report { out } if out < REPORT_SPACE => SHORT_REPORT,
            Call::Report { .. } => refusal_in(&outcome.bytes),
            _ => outcome.returned as u32,
        };
        self.tally.count_call(number, call.column());
        if let Some(record) = &mut self.record {
            expected.record(record, number).expect("writing the file asked for with --record");
        }
        look(&mut self.sought, self.tally.cases, |caller| !expected.is_met_by(caller));
        Ok(outcome)
    }

    /// The second implementation against every plan of the board, where these are few.
    fn try_plans(&mut self, board: &Board, file: &[u8]) -> Result<(), Difference> {
        if number_of_plans(board, MOST_PLANS_TRIED + 1) > MOST_PLANS_TRIED {
            return Ok(());
        }
        self.tally.count_event(Event::EveryPlanTried);
        against_every_plan(board).map_err(|what| Difference {
            file: file.to_vec(),
            other: Vec::new(),
            what: format!("second implementation against every plan: {what}"),
        })
    }

    fn begin_file(&mut self, file: &[u8]) {
        self.tally.files += 1;
        if let Some(path) = &self.last_file {
            fs::write(path, file).expect("writing the file asked for with --last");
        }
    }

    /// Mostly the needed length of an answer, sometimes less or more.
    fn answer_length(&mut self) -> usize {
        let any = self.random.below(9);
        self.random.one_of(&[4, 4, 4, 4, 4, 4, 5, any])
    }

    /// Mostly the needed length, else one near it or far from it.
    fn length_around(&mut self, needed: usize) -> usize {
        let any = self.random.below(needed + 20);
        let less = needed.saturating_sub(1);
        self.random.one_of(&[needed, needed, needed, needed, needed + 1, needed + 9, less, any])
    }

    /// Lengths of plan, table and answer, mostly those needed.
    fn check_lengths(&mut self, count: usize, places: usize) -> [usize; 3] {
        [self.length_around(count), self.length_around(places), self.answer_length()]
    }

    /// None, a tip of the rack, or sometimes a number outside it.
    fn mounted_number(&mut self, rack: usize) -> usize {
        let tip = self.random.below(rack);
        let outside = self.random.one_of(&numbers_outside(rack));
        self.random.one_of(&[NO_TIP, NO_TIP, NO_TIP, tip, tip, tip, tip, outside])
    }

    /// What else a call of best sharing with a tip outside the rack is refused for.
    fn count_outside(&mut self, board: &Board, call: Call) {
        let Call::Best { mounted, plan, table, answer } = call else { return };
        if mounted == NO_TIP || mounted < board.rack || answer < ANSWER_PLACES {
            return;
        }
        let no_run = board.clone().best(None, &mut [0; 512], &mut [0; 4096]).number == refusal::NO_RUN;
        self.count_events(&[
            (plan < board.count, Event::MountedOutsideAndShortPlan),
            (table < board.rack * board.rack, Event::MountedOutsideAndShortTable),
            (no_run, Event::MountedOutsideAndNoRun),
        ]);
    }

    /// The bounds with which the margin is a quantity of the board or one less, for the largest and one other.
    fn bounds_of_quantities(&mut self, board: &Board, least_off: usize) -> Vec<u16> {
        let quantities = &board.quantities[..board.count];
        let Some(&largest) = quantities.iter().max().filter(|&&largest| largest > 1) else {
            return Vec::new();
        };
        let other = self.random.one_of(quantities);
        let margins = [largest - 1, largest, other - 1, other];
        margins.iter().map(|&margin| (least_off + usize::from(margin)) as u16).collect()
    }

    fn count_board(&mut self, board: &Board, file: &[u8]) {
        let common = board.clone().common_tip().value;
        let counted = is_counted(board);
        let other_first_tip = || lowest(common.tips) != lowest(single(board).common_tip().value.tips);
        let (named, rack) = (board.named_tips(), u64::MAX >> (64 - board.rack));
        let events = [
            (board.rack == 1, Event::RackOf1),
            (board.rack == 64, Event::RackOf64),
            (board.count == 0, Event::NoLines),
            (board.count == 512, Event::Lines512),
            (common.tips.count_ones() > 1, Event::SeveralCommonTips),
            (counted, Event::Counted),
            (!counted && file.len() > Version::One.length_of(board.count), Event::SingleInVersion2),
            (common.top + common.off == MOST_PLACEMENTS, Event::MostPlacements),
            (board.quantities.contains(&255), Event::Quantity255),
            (counted && other_first_tip(), Event::FirstRoundByQuantities),
            (named != 0 && named != rack, Event::AbsentTip),
            (board.rack > 2 && named == 1 | 1 << (board.rack - 1), Event::NamedEndsAlone),
        ];
        self.tally.boards += 1;
        self.count_events(&events);
    }

    fn count_keep(&mut self, board: &Board, common: u64, kept: &Outcome, file: &[u8]) {
        let margin = kept.answer[1] as i64;
        let after = board_in(&kept.bytes).expect("a good file");
        let same = after == *board;
        let lacks = board.lines().any(|line| line.set & common != 0 && line.set & common != common);
        // The lines that lose tips, before and after.
        let pruned: Vec<(u64, u64)> = (0..board.count)
            .map(|line| (board.sets[line], after.sets[line]))
            .filter(|(before, after)| before != after)
            .collect();
        let spared =
            |line: usize| pruned.contains(&(board.sets[line], pruned[0].1)) && board.sets[line] == after.sets[line];
        let above = margin > 0 && !pruned.is_empty();
        let first_version = file[4] == 2 && kept.bytes[4] == 1;
        self.count_events(&[
            (margin == 0 && !same, Event::PrunedAtMarginZero),
            (margin == 0 && same, Event::SameAtMarginZero),
            (margin == 0 && lacks, Event::LineLacksCommonTip),
            (margin > 0 && same, Event::SameAboveMarginZero),
            (above, Event::PrunedAboveMarginZero),
            (above && (0..board.count).any(spared), Event::SparedForQuantity),
            (above && pruned.iter().any(|(_, after)| after & !common != 0), Event::KeptMoreThanCommon),
            (first_version, Event::WrittenAsVersion1),
            (kept.bytes[4] == 2, Event::WrittenAsVersion2),
        ]);
    }

    fn count_plans(&mut self, board: &Board, quick: &Outcome, best: &Outcome) {
        let (quick_pairs, best_pairs) = (quick.answer[1], best.answer[1]);
        let both = best.returned == 0;
        let other_plan = || {
            let mut plan = vec![0; board.count];
            single(board).best(None, &mut plan, &mut [0; 4096]);
            plan != best.bytes
        };
        // Best sharing of the second implementation takes long on large boards.
        let is_small = board.count <= 48;
        let first_broken = board.lines().position(|line| !is_unbroken(line.set));
        let before_no_run = |line| best.returned == crate::refusal::NO_RUN && (line as u64) < best.answer[0];
        self.count_events(&[
            (quick_pairs > 65_535, Event::PairsAbove16Bits),
            (quick_pairs > 130_816, Event::PairsAboveThoseOfLines),
            (both && best_pairs > quick_pairs, Event::BestAboveQuick),
            (both && best_pairs == quick_pairs && best.bytes != quick.bytes, Event::BestOtherPlanSamePairs),
            (both && is_small && is_counted(board) && other_plan(), Event::BestByQuantities),
            (both && first_broken.is_some(), Event::RunWithAbsentTip),
            (first_broken.is_some_and(before_no_run), Event::AbsentTipBeforeNoRun),
        ]);
    }

    /// What was checked; the table that our best plan comes with is worked out for small boards alone.
    fn count_check(&mut self, board: &Board, handed: &Handed, number: u64) {
        // On small boards alone, for it takes long.
        if board.count > 48
            || !matches!(
                number,
                crate::refusal::ACCEPTED
                    | crate::refusal::FOREIGN_TIP
                    | crate::refusal::WRONG_CLAIM
                    | crate::refusal::WRONG_TABLE
            )
        {
            return;
        }
        let (rack, named) = (board.rack, board.named_tips());
        let (mut plan, mut table) = (vec![0; board.count], vec![0; rack * rack]);
        board.clone().best(None, &mut plan, &mut table);
        let differs = |below: bool| {
            let mut places = (0..rack * rack).filter(|place| (place / rack > place % rack) == below);
            places.any(|place| table[place] != handed.table[place])
        };
        let (accepted, refused) = (number == 0, number == crate::refusal::WRONG_TABLE);
        let is_own = |line: usize, tip: u8| tip < 64 && board.sets[line] >> tip & 1 == 1;
        let own_but_for_bits = || (0..board.count).all(|line| is_own(line, handed.plan[line] % 64));
        self.count_events(&[
            (accepted && plan != handed.plan, Event::CheckedOtherPlan),
            (accepted && differs(false), Event::CheckedOtherTable),
            (accepted && differs(true), Event::CheckedJunkBelow),
            (number == crate::refusal::FOREIGN_TIP && handed.pairs(board) != handed.claim, Event::ForeignTipAndClaim),
            (number == crate::refusal::FOREIGN_TIP && own_but_for_bits(), Event::ForeignTipByHighBits),
            (
                number == crate::refusal::WRONG_CLAIM && !board.table_shows(handed.claim, &handed.table),
                Event::ClaimAndTable,
            ),
            (refused && keeps(board, handed, named, wrapping), Event::TableByWrapping),
            (refused && keeps(board, handed, named, stopping), Event::TableByStopping),
        ]);
    }

    /// Whether a file has too many placements, and lines after those.
    fn count_placements(&mut self, file: &[u8]) {
        let quantities = quantities_in(file);
        if let (Some(line), Err(refusal)) = (first_to_pass(&quantities), Job::read(file)) {
            self.count_events(&[
                (
                    refusal.number == refusal::TOO_MANY_PLACEMENTS && line + 1 < quantities.len(),
                    Event::PassedBeforeLastLine,
                ),
                (
                    matches!(refusal.number, refusal::EMPTY_LINE | refusal::TIP_OUTSIDE | refusal::ZERO_QUANTITY)
                        && refusal.line > line,
                    Event::BadLineAfterPassing,
                ),
            ]);
        }
    }

    fn count_events(&mut self, events: &[(bool, Event)]) {
        for &(occurred, event) in events {
            if occurred {
                self.tally.count_event(event);
            }
        }
    }
}

/// The lowest tip of the set, 64 where it has none.
fn lowest(set: u64) -> u32 {
    set.trailing_zeros()
}

/// The bounds around the least one that some plan meets.
fn around(least_off: usize) -> Vec<u16> {
    (least_off.saturating_sub(2)..=least_off + 2).map(|k| k as u16).collect()
}

/// Numbers of no tip of a rack: the next ones, those that other widths take for a tip, and the largest but none.
fn numbers_outside(rack: usize) -> [usize; 8] {
    [rack, rack + 1, 64, 255, 256, 256 + rack / 2, 1 << 32, NO_TIP - 1]
}

/// The refusal number in a report, 0 for none.
fn refusal_in(report: &[u8]) -> u32 {
    let Some(rest) = report.strip_prefix(b"refused ") else {
        return 0;
    };
    let digits = rest.iter().take_while(|byte| byte.is_ascii_digit());
    digits.fold(0, |number, &digit| 10 * number + u32::from(digit - b'0'))
}

/// The calls of the second implementation against every plan of the board.
fn against_every_plan(board: &Board) -> Result<(), String> {
    let tried = try_every_plan(board);
    let count = board.count;
    let (placements, least_off) = (board.placements().len(), tried.least_off());
    let common = board.clone().common_tip().value;
    if (common.top, common.off, common.tips) != (placements - least_off, least_off, tried.common_tips()) {
        return Err(format!("common tip {common:?}, every plan {tried:?}"));
    }
    // With a margin above every quantity each line can be off, so that nothing more can change.
    let most = least_off + board.quantities.iter().map(|&quantity| usize::from(quantity)).max().unwrap_or(0);
    for k in [0].into_iter().chain(least_off.saturating_sub(2)..=most + 1).chain([placements]) {
        let kept = board.clone().keep_within(k as u16);
        let right = match tried.used_within(k) {
            None => kept.number == refusal::NO_PLAN && kept.board == *board,
            Some(used) => {
                let mut expected = board.clone();
                expected.sets[..count].copy_from_slice(&used);
                kept.number == 0 && kept.board == expected
            }
        };
        if !right || kept.value != k as i64 - least_off as i64 {
            return Err(format!("keep within {k}, every plan {tried:?}"));
        }
    }
    for goal in tried.numbers_of_pairs().flat_map(|pairs| [pairs, pairs + 1]) {
        let kept = board.clone().goal(goal);
        let right = match (kept.number, tried.used_with(goal)) {
            (refusal::NO_RUN, _) => {
                board.clone().best(None, &mut vec![0; count], &mut [0; 4096]).number == refusal::NO_RUN
            }
            (refusal::GOAL_MISSED, None) => kept.board == *board,
            (0, Some(used)) => kept.board.sets[..count] == used && kept.board.quantities == board.quantities,
            _ => false,
        };
        if !right {
            return Err(format!("goal of {goal} pairs, every plan {tried:?}"));
        }
    }
    let mut plan = vec![0; count];
    let junior = board.clone().junior(&mut plan);
    let (pairs, tips) = (junior.value.pairs, (junior.value.u, junior.value.v));
    let right = match tried.with_two_tips() {
        Some(most) => {
            let has_both = |line: usize| [tips.0, tips.1].iter().all(|tip| board.sets[line] >> tip & 1 == 1);
            let on_one = |tip: usize| (0..count).all(|line| !has_both(line) || usize::from(plan[line]) == tip);
            (pairs, tips) == most
                && is_own_plan(board, &plan)
                && pairs_in(&board.placed(&plan)) == pairs
                && (on_one(tips.0) || on_one(tips.1))
        }
        None => matches!((junior.number, count), (refusal::NO_TWO_TIPS, _) | (refusal::ACCEPTED, 0)),
    };
    if board.rack <= JUNIOR_TIPS && count <= JUNIOR_LINES && !right {
        return Err(format!("junior {plan:?} with {pairs} pairs on {tips:?}, every plan {tried:?}"));
    }
    for mounted in [None].into_iter().chain((0..board.rack).map(Some)) {
        let mut plan = vec![0; count];
        let along = board.clone().along(mounted, &mut plan).value;
        let changes = changes_in(&plan, mounted);
        if !is_own_plan(board, &plan)
            || pairs_in(&board.placed(&plan)) != along.pairs
            || along.changes as usize != changes
            || changes != tried.least_changes(mounted)
        {
            return Err(format!("along {plan:?} with {along:?}, {mounted:?}, every plan {tried:?}"));
        }
    }
    exact::against_every_plan(board, &tried)?;
    // Both rules, whichever tip is mounted.
    for mounted in [None].into_iter().chain((0..board.rack).map(Some)) {
        let mut plan = vec![0; count];
        let quick = board.clone().quick(mounted, &mut plan).value;
        if !is_own_plan(board, &plan)
            || pairs_in(&board.placed(&plan)) != quick
            || quick > tried.most_pairs
            || 2 * quick < tried.most_pairs
        {
            return Err(format!("quick {plan:?} with {quick} pairs, {mounted:?}, most {}", tried.most_pairs));
        }
        let mut table = vec![0; board.rack * board.rack];
        let best = board.clone().best(mounted, &mut plan, &mut table);
        let pairs = pairs_in(&board.placed(&plan));
        let right = is_own_plan(board, &plan)
            && pairs == best.value
            && best.value == tried.most_pairs
            && board.clone().check(&plan, best.value, &table).number == 0;
        if best.number == 0 && !right {
            return Err(format!("best {plan:?} with {} pairs, {mounted:?}, most {}", best.value, tried.most_pairs));
        }
    }
    Ok(())
}

/// Whether each line is on a tip of its own set.
fn is_own_plan(board: &Board, plan: &[u8]) -> bool {
    plan.iter().zip(board.lines()).all(|(&tip, line)| tip < 64 && line.set >> tip & 1 == 1)
}

/// The exit status of the program for every file that it can read and whose text it can write, a refused one too.
const PROGRAM_STATUS: i32 = 0;

/// Compares what a program prints for good and damaged files with the second implementation's report, and how it ends.
pub fn compare_program(program: &str, seed: u64, files: u64) -> Result<(), Difference> {
    let mut random = Random::new(seed);
    let fixed_boards = fixed_boards();
    let in_both = |board: &Board| [file_of(board), file_in(board, Version::Two)];
    let fixed: Vec<Vec<u8>> = fixed_boards.iter().flat_map(in_both).collect();
    for number in 0..files {
        let mut file = match fixed.get(number as usize) {
            Some(file) => file.clone(),
            None => {
                let size = random.one_of(&[Size::Small, Size::Middle, Size::Long, Size::Large]);
                let board = seeded_board(&mut random, size);
                seeded_file(&mut random, &board)
            }
        };
        if number % 3 == 2 {
            file = damaged(&mut random, &file);
        }
        let failed = |what: String| Difference { file: file.clone(), other: Vec::new(), what };
        let output = output_of(program, &file).map_err(|error| failed(format!("program {program}: {error}")))?;
        let expected = second::report(&file);
        if output.stdout != expected {
            let (printed, expected) = (String::from_utf8_lossy(&output.stdout), String::from_utf8_lossy(&expected));
            return Err(failed(format!("program {program} printed\n{printed}\nsecond implementation\n{expected}")));
        }
        if output.status.code() != Some(PROGRAM_STATUS) {
            let ended = output.status;
            return Err(failed(format!(
                "program {program} ended with {ended}, expected exit status: {PROGRAM_STATUS}"
            )));
        }
    }
    Ok(())
}

/// What a program prints for a file on its standard input, and how it ends.
fn output_of(program: &str, file: &[u8]) -> io::Result<Output> {
    let mut child = Command::new(program).stdin(Stdio::piped()).stdout(Stdio::piped()).spawn()?;
    let mut input = child.stdin.take().expect("the input is a pipe");
    let bytes = file.to_vec();
    // The program may stop reading early, so a broken pipe is no fault.
    let writer = thread::spawn(move || drop(input.write_all(&bytes)));
    let output = child.wait_with_output()?;
    writer.join().expect("the writer ends");
    Ok(output)
}
