//! The calls on parts and rules, fixed and seeded ones, in both implementations and against every order of few parts.

use std::collections::{BTreeMap, BTreeSet};
use std::fmt;

use library::on_slices;
use second::interface::{self, ANSWER_PLACES, NO_TIP, PART_PLACES, RULE_PLACES};
use second::{
    refusal, try_every_order, try_every_order_by_tips, try_every_order_for_windows, Part, Placing, Rule, MOST_PARTS,
};

use crate::check::{first_difference, Lent};
use crate::random::Random;
use crate::record::Record;
use crate::run::changes_in;
use crate::sought::{all_found, look, Sought};

/// With at most this many parts every order is tried.
const MOST_PARTS_TRIED: usize = 6;
/// Numbers of no mounted tip: the next one, those that other widths take for a tip, and the largest but none.
const MOUNTED_OUTSIDE: [usize; 6] = [64, 65, 255, 256, 1 << 32, NO_TIP - 1];
/// With more numbers of rules than these not every length is tried.
const MOST_RULES_OF_EACH_LENGTH: usize = 10_000;
/// With more parts than these not every length is tried where the positions are found.
const MOST_PARTS_OF_EACH_LENGTH: usize = 16;
/// The numbers that each call must give, and those that orders by tips must give too.
const NEEDED: [u32; 7] = [
    refusal::ACCEPTED,
    refusal::BAD_WINDOW,
    refusal::BAD_RULE,
    refusal::SHORT_ORDER,
    refusal::NO_ORDER,
    refusal::SHORT_ANSWER,
    refusal::BROKEN_RECORD,
];
const NEEDED_BY_TIPS: [u32; 3] = [refusal::TIP_OUTSIDE, refusal::SHORT_PLAN, refusal::MOUNTED_OUTSIDE];

/// A call on parts and rules, with the lengths of the buffers that it is lent.
#[derive(Clone, Copy, PartialEq, Eq, Debug)]
pub enum Call {
    Order { order: usize, answer: usize },
    Windows { first: usize, last: usize, answer: usize },
    ByTips { mounted: usize, plan: usize, order: usize, answer: usize },
}

/// The names of the calls, in the order of their columns.
pub const CALL_NAMES: [&str; 3] = ["order", "windows", "order_by_tips"];

impl Call {
    /// The place of the call among the names.
    pub fn column(&self) -> usize {
        match self {
            Call::Order { .. } => 0,
            Call::Windows { .. } => 1,
            Call::ByTips { .. } => 2,
        }
    }

    /// Whether a buffer that is written is too short for this many parts.
    fn is_short(&self, count: usize) -> bool {
        match *self {
            Call::Order { order, .. } | Call::ByTips { order, .. } => order < count,
            Call::Windows { first, last, .. } => first.min(last) < count,
        }
    }
}

/// What is handed over, as numbers: 4 a part and 2 a rule; and for an order by tips the tip of each part.
#[derive(Clone, PartialEq, Eq, Debug, Default)]
pub struct Handed {
    pub parts: Vec<u32>,
    pub rules: Vec<u32>,
    pub tips: Vec<u8>,
}

/// A call, and everything that it can reach.
#[derive(Clone, PartialEq)]
pub struct Buffers {
    pub(crate) call: Call,
    pub(crate) parts: Lent<u32>,
    pub(crate) rules: Lent<u32>,
    /// The tip of each part.
    pub(crate) plan: Lent<u8>,
    pub(crate) order: Lent<u8>,
    /// The first and the last position of each part.
    pub(crate) first: Lent<u8>,
    pub(crate) last: Lent<u8>,
    pub(crate) answer: Lent<u64>,
}

/// What makes the call on lent buffers, and gives the returned number.
pub type Caller = fn(&mut Buffers) -> u32;

impl Buffers {
    fn new(handed: &Handed, call: Call, junk: u64) -> Buffers {
        let mut random = Random::new(junk);
        let halves = |number: u64| [number as u32, (number >> 32) as u32];
        let (plan, order, [first, last], answer) = match call {
            Call::Order { order, answer } => (0, order, [0, 0], answer),
            Call::Windows { first, last, answer } => (0, 0, [first, last], answer),
            Call::ByTips { plan, order, answer, .. } => (plan, order, [0, 0], answer),
        };
        let mut buffers = Buffers {
            call,
            parts: Lent::junk(&mut random, handed.parts.len(), halves),
            rules: Lent::junk(&mut random, handed.rules.len(), halves),
            plan: Lent::junk(&mut random, plan, u64::to_le_bytes),
            order: Lent::junk(&mut random, order, u64::to_le_bytes),
            first: Lent::junk(&mut random, first, u64::to_le_bytes),
            last: Lent::junk(&mut random, last, u64::to_le_bytes),
            answer: Lent::junk(&mut random, answer, |number| [number]),
        };
        buffers.parts.begin_with(&handed.parts);
        buffers.rules.begin_with(&handed.rules);
        buffers.plan.begin_with(&handed.tips);
        buffers
    }
}

/// A call made by the functions of one module.
macro_rules! made_by {
    ($module:ident, $lent:expr) => {{
        let (parts, rules) = ($lent.parts.inside(), $lent.rules.inside());
        let answer = $lent.answer.inside();
        match $lent.call {
            Call::Order { .. } => $module::order(parts, rules, $lent.order.inside(), answer),
            Call::Windows { .. } => $module::windows(parts, rules, $lent.first.inside(), $lent.last.inside(), answer),
            Call::ByTips { mounted, .. } => {
                let (plan, order) = ($lent.plan.inside(), $lent.order.inside());
                $module::order_by_tips(parts, rules, plan, mounted, order, answer)
            }
        }
    }};
}

/// The call of the linked library.
pub fn call_library(lent: &mut Buffers) -> u32 {
    made_by!(on_slices, lent)
}

fn call_second(lent: &mut Buffers) -> u32 {
    made_by!(interface, lent)
}

/// A difference, with all that is needed to see it again.
pub struct Difference {
    handed: Handed,
    what: String,
}

impl fmt::Display for Difference {
    fn fmt(&self, to: &mut fmt::Formatter) -> fmt::Result {
        writeln!(to, "DIFFERENCE: {}", self.what)?;
        writeln!(to, "parts {:?}", self.handed.parts)?;
        writeln!(to, "rules {:?}", self.handed.rules)?;
        write!(to, "tips {:?}", self.handed.tips)
    }
}

/// Things that must occur beside the refusals.
#[derive(Clone, Copy, PartialEq, Eq, PartialOrd, Ord, Debug)]
enum Event {
    NoParts,
    OnePart,
    MostParts,
    TooManyParts,
    ManyRules,
    RuleTwice,
    LookedAhead,
    FineDecides,
    TallDecides,
    RulesDecide,
    RulesGoRound,
    FlagsGoRound,
    TooFewPositions,
    FineAndTall,
    HeightDecides,
    SeveralRefusals,
    ManyMoreRules,
    EveryOrderTried,
    WindowsAsGiven,
    WindowsByRules,
    WindowsByFlags,
    WindowsByOthers,
    WindowsOfOne,
    PositionBetween,
    ShortFirstAlone,
    ShortLastAlone,
    ByTipsOther,
    ByTipsByMounted,
    FewerTipChanges,
    TipChangeForced,
    TipChangeBefore,
    TipsBehindTheParts,
    ShortOrderAndPlan,
    ShortPlanAndTip,
    TipAndMounted,
    MountedAndNoOrder,
}

const EVENTS: [(Event, &str); 36] = [
    (Event::NoParts, "orders without parts"),
    (Event::OnePart, "orders of one part"),
    (Event::MostParts, "orders of 128 parts, accepted"),
    (Event::TooManyParts, "orders of more than 128 parts"),
    (Event::ManyRules, "orders by more than 1,000 rules, accepted"),
    (Event::RuleTwice, "orders by a rule that stands twice, accepted"),
    (Event::LookedAhead, "orders that last positions behind decide"),
    (Event::FineDecides, "orders that fine parts decide"),
    (Event::TallDecides, "orders that tall parts decide"),
    (Event::RulesDecide, "orders that rules decide"),
    (Event::RulesGoRound, "no order by rules alone"),
    (Event::FlagsGoRound, "no order but without flags"),
    (Event::TooFewPositions, "no order but with all positions"),
    (Event::FineAndTall, "parts that are fine and tall beside plain ones"),
    (Event::HeightDecides, "orders that would be others with the fine flag of a tall part"),
    (Event::SeveralRefusals, "orders refused for several reasons"),
    (Event::ManyMoreRules, "orders by more than 65,535 rules, accepted"),
    (Event::EveryOrderTried, "orders found by trying every order"),
    (Event::WindowsAsGiven, "windows as they are given, of several parts"),
    (Event::WindowsByRules, "windows that rules narrow"),
    (Event::WindowsByFlags, "windows that flags narrow"),
    (Event::WindowsByOthers, "windows that the positions of other parts narrow, without flags and rules"),
    (Event::WindowsOfOne, "windows of one position, of parts that are given several"),
    (Event::PositionBetween, "windows with a position that the part has in no order"),
    (Event::ShortFirstAlone, "windows with the buffer of the first positions alone too short"),
    (Event::ShortLastAlone, "windows with the buffer of the last positions alone too short"),
    (Event::ByTipsOther, "orders by tips that are not the least order"),
    (Event::ByTipsByMounted, "orders by tips that the mounted tip decides"),
    (Event::FewerTipChanges, "orders by tips with fewer changes than the least order"),
    (Event::TipChangeForced, "orders by tips that change a tip on which parts are left"),
    (Event::TipChangeBefore, "orders by tips with a change before the first part"),
    (Event::TipsBehindTheParts, "orders by tips with bytes of the plan behind the parts that are no tips"),
    (Event::ShortOrderAndPlan, "orders by tips with order and plan too short"),
    (Event::ShortPlanAndTip, "orders by tips with a plan too short, and a byte of it that is no tip"),
    (Event::TipAndMounted, "orders by tips with a byte and a mounted tip that are no tips"),
    (Event::MountedAndNoOrder, "orders by tips with a mounted tip that is none, and no order"),
];

/// The counts of a run.
#[derive(Default)]
pub struct Tally {
    pub calls: u64,
    numbers: BTreeMap<(u32, usize), u64>,
    events: BTreeMap<Event, u64>,
}

impl Tally {
    fn count_events(&mut self, events: &[(bool, Event)]) {
        for &(_, event) in events.iter().filter(|(occurred, _)| *occurred) {
            *self.events.entry(event).or_default() += 1;
        }
    }

    /// What must occur and did not.
    pub fn missing(&self) -> Vec<String> {
        let mut missing = Vec::new();
        for (column, name) in CALL_NAMES.iter().enumerate() {
            let own = if *name == "order_by_tips" { &NEEDED_BY_TIPS[..] } else { &[] };
            let needed = NEEDED.iter().chain(own);
            let numbers = needed.filter(|&&number| !self.numbers.contains_key(&(number, column)));
            missing.extend(numbers.map(|number| format!("{name} with {number}")));
        }
        let events = EVENTS.iter().filter(|(event, _)| !self.events.contains_key(event));
        missing.extend(events.map(|(_, name)| name.to_string()));
        missing
    }
}

impl fmt::Display for Tally {
    fn fmt(&self, to: &mut fmt::Formatter) -> fmt::Result {
        write!(to, "{:>9}", "number")?;
        for name in CALL_NAMES {
            write!(to, "{name:>14}")?;
        }
        writeln!(to)?;
        let numbers: BTreeSet<u32> = self.numbers.keys().map(|&(number, _)| number).collect();
        for number in numbers {
            write!(to, "{number:>9}")?;
            for column in 0..CALL_NAMES.len() {
                write!(to, "{:>14}", self.numbers.get(&(number, column)).copied().unwrap_or(0))?;
            }
            writeln!(to)?;
        }
        for (event, name) in EVENTS {
            writeln!(to, "{:>9} {name}", self.events.get(&event).copied().unwrap_or(0))?;
        }
        write!(to, "{} orders, windows and orders by tips", self.calls)
    }
}

/// The comparison of orders.
pub struct Orders {
    /// Mistakes that are to show beside it, for each call by its column.
    pub sought: [Vec<Sought<Caller>>; CALL_NAMES.len()],
    /// Where some of the calls are put, if asked for.
    pub record: Option<Record>,
    random: Random,
    least_calls: u64,
    pub tally: Tally,
}

impl Orders {
    pub fn new(seed: u64, least_calls: u64) -> Orders {
        let (sought, record, tally) = (Default::default(), None, Tally::default());
        Orders { sought, record, random: Random::new(seed), least_calls, tally }
    }

    /// The same run, in which these mistakes are looked for.
    pub fn seeking(self, sought: [Vec<Sought<Caller>>; CALL_NAMES.len()]) -> Orders {
        Orders { sought, ..self }
    }

    /// Compares the fixed cases of few parts, then seeded ones until enough calls are made, or each mistake that is looked for
    /// has shown, and then the fixed cases of many parts, which take longest.
    pub fn all(&mut self) -> Result<(), Difference> {
        let (few, many): (Vec<Handed>, Vec<Handed>) =
            fixed().into_iter().partition(|handed| handed.parts.len() <= PART_PLACES * MOST_PARTS_OF_EACH_LENGTH);
        few.iter().try_for_each(|handed| self.each_length(handed))?;
        while self.tally.calls < self.least_calls && !self.sought.iter().all(|sought| all_found(sought)) {
            let handed = seeded(&mut self.random);
            self.good(&handed)?;
            if self.random.once_in(3) {
                let mut changed = handed;
                for _ in 0..self.random.from_to(1, 2) {
                    damage(&mut self.random, &mut changed);
                }
                self.in_any_buffers(&changed)?;
            }
        }
        many.iter().try_for_each(|handed| self.each_length(handed))
    }

    /// Every length of each buffer up to one past the need, and of the answer; and parts and rules cut within a record.
    fn each_length(&mut self, handed: &Handed) -> Result<(), Difference> {
        let count = handed.parts.len() / PART_PLACES;
        self.good(handed)?;
        if handed.rules.len() > MOST_RULES_OF_EACH_LENGTH {
            return Ok(());
        }
        let answer = ANSWER_PLACES;
        // The positions of many parts take long.
        let is_short = count <= MOST_PARTS_OF_EACH_LENGTH;
        for length in (0..=count + 1).filter(|length| count <= 8 || length + 2 >= count || *length == 0) {
            self.case(handed, Call::Order { order: length, answer })?;
            for (plan, order) in [(length, count), (count, length), (length, length)] {
                let mounted = self.mounted_number(handed);
                self.case(handed, Call::ByTips { mounted, plan, order, answer })?;
            }
            for (first, last) in [(length, count), (count, length), (length, length)] {
                if is_short || first.min(last) < count || first > last {
                    self.case(handed, Call::Windows { first, last, answer })?;
                }
            }
        }
        for answer in 0..=8 {
            for length in [count, 0] {
                self.case(handed, Call::Order { order: length, answer })?;
                let mounted = self.mounted_number(handed);
                self.case(handed, Call::ByTips { mounted, plan: count, order: length, answer })?;
                if is_short || length == 0 || answer < ANSWER_PLACES {
                    self.case(handed, Call::Windows { first: length, last: length, answer })?;
                }
            }
        }
        for mounted in MOUNTED_OUTSIDE {
            for (plan, order) in [(count, count), (count.saturating_sub(1), count)] {
                self.case(handed, Call::ByTips { mounted, plan, order, answer })?;
            }
        }
        for cut in 1..PART_PLACES.min(handed.parts.len() + 1) {
            let parts = handed.parts[..handed.parts.len() - cut].to_vec();
            self.in_exact_buffers(&Handed { parts, ..handed.clone() }, count)?;
        }
        let mut rules = handed.rules.clone();
        rules.push(0);
        self.in_exact_buffers(&Handed { rules, ..handed.clone() }, count)
    }

    /// Each call in buffers for this many parts.
    fn in_exact_buffers(&mut self, handed: &Handed, count: usize) -> Result<(), Difference> {
        self.case(handed, Call::Order { order: count, answer: ANSWER_PLACES })?;
        self.case(handed, Call::Windows { first: count, last: count, answer: ANSWER_PLACES })?;
        for mounted in [NO_TIP, self.mounted_number(handed)] {
            self.case(handed, Call::ByTips { mounted, plan: count, order: count, answer: ANSWER_PLACES })?;
        }
        Ok(())
    }

    /// Each call in buffers around the lengths that it needs.
    fn in_any_buffers(&mut self, handed: &Handed) -> Result<(), Difference> {
        let count = handed.parts.len() / PART_PLACES;
        let (order, answer) = (self.length_around(count), self.answer_length());
        self.case(handed, Call::Order { order, answer })?;
        let (first, last) = (self.length_around(count), self.length_around(count));
        let answer = self.answer_length();
        self.case(handed, Call::Windows { first, last, answer })?;
        let (plan, order) = (self.length_around(count), self.length_around(count));
        let (mounted, answer) = (self.mounted_number(handed), self.answer_length());
        self.case(handed, Call::ByTips { mounted, plan, order, answer })
    }

    /// None, the tip of a part, any tip, or sometimes a number that is none.
    fn mounted_number(&mut self, handed: &Handed) -> usize {
        let of_part = handed.tips.get(self.random.below(handed.tips.len() + 1)).copied().unwrap_or(63);
        let (any, outside) = (self.random.below(64), self.random.one_of(&MOUNTED_OUTSIDE));
        let of_part = usize::from(of_part);
        self.random.one_of(&[NO_TIP, NO_TIP, of_part, of_part, of_part, of_part, any, outside])
    }

    /// Parts and rules as they are, in buffers that do, and sometimes in others; few parts against every order.
    fn good(&mut self, handed: &Handed) -> Result<(), Difference> {
        let count = handed.parts.len() / PART_PLACES;
        self.in_exact_buffers(handed, count)?;
        if self.random.once_in(4) {
            self.in_any_buffers(handed)?;
        }
        let (parts, rules) = records_of(handed);
        let placing = Placing { parts: &parts, rules: &rules };
        if count <= MOST_PARTS_TRIED && placing.refusal().0 == 0 {
            self.tally.count_events(&[(true, Event::EveryOrderTried)]);
            let (least, tried) = (placing.least_order(), try_every_order(&placing));
            if least != tried {
                let what = format!("second implementation {least:?}, every order {tried:?}");
                return Err(Difference { handed: handed.clone(), what });
            }
            let (windows, tried) = (placing.windows(), try_every_order_for_windows(&placing));
            if windows != tried {
                let what = format!("second implementation, windows {windows:?}, every order {tried:?}");
                return Err(Difference { handed: handed.clone(), what });
            }
            if handed.tips.len() >= count {
                let mounted = handed.tips.first().map(|&tip| usize::from(tip)).filter(|_| self.random.once_in(2));
                let by_tips = placing.order_by_tips(&handed.tips, mounted);
                let tried = try_every_order_by_tips(&placing, &handed.tips, mounted);
                if by_tips != tried {
                    let what = format!("second implementation, by tips {by_tips:?}, every order {tried:?}");
                    return Err(Difference { handed: handed.clone(), what });
                }
            }
        }
        Ok(())
    }

    /// One call in both implementations, on buffers of junk.
    fn case(&mut self, handed: &Handed, call: Call) -> Result<(), Difference> {
        let junk = self.random.number();
        let before = Buffers::new(handed, call, junk);
        let (mut of_library, mut of_second) = (before.clone(), before.clone());
        let library = call_library(&mut of_library);
        let second = call_second(&mut of_second);
        self.tally.calls += 1;
        *self.tally.numbers.entry((second, call.column())).or_default() += 1;
        if library != second || of_library != of_second {
            let mut what = format!("{call:?}, junk {junk}\n");
            what += &format!("returned: library {library}, second {second}");
            what += &first_difference("parts", &of_library.parts, &of_second.parts);
            what += &first_difference("rules", &of_library.rules, &of_second.rules);
            what += &first_difference("plan", &of_library.plan, &of_second.plan);
            what += &first_difference("order", &of_library.order, &of_second.order);
            what += &first_difference("first positions", &of_library.first, &of_second.first);
            what += &first_difference("last positions", &of_library.last, &of_second.last);
            what += &first_difference("answer", &of_library.answer, &of_second.answer);
            return Err(Difference { handed: handed.clone(), what });
        }
        if let Some(record) = &mut self.record {
            record.order(call, second, &before, &of_second).expect("writing the file asked for with --record");
        }
        look(&mut self.sought[call.column()], self.tally.calls, |caller| {
            let mut lent = before.clone();
            caller(&mut lent) != second || lent != of_second
        });
        let count = handed.parts.len() / PART_PLACES;
        match (call, second) {
            (Call::Order { .. }, refusal::ACCEPTED | refusal::NO_ORDER) => self.count_decided(handed, second == 0),
            (Call::Windows { .. }, 0) => self.count_windows(handed, &mut of_second),
            (Call::ByTips { mounted, .. }, 0) => self.count_by_tips(handed, mounted, &mut of_second),
            (
                Call::ByTips { mounted, plan, .. },
                refusal::TIP_OUTSIDE | refusal::SHORT_PLAN | refusal::MOUNTED_OUTSIDE,
            ) => {
                let no_order = order_of(handed).is_none();
                let bad_tip = handed.tips.iter().take(plan.min(count)).any(|&tip| tip > 63);
                self.tally.count_events(&[
                    (second == 4 && bad_tip, Event::ShortPlanAndTip),
                    (second == 3 && mounted > 63 && mounted != NO_TIP, Event::TipAndMounted),
                    (second == refusal::MOUNTED_OUTSIDE && no_order, Event::MountedAndNoOrder),
                ]);
            }
            (_, refusal::BAD_WINDOW | refusal::BAD_RULE | refusal::SHORT_ORDER) => {
                self.count_refused(handed, count, call, second)
            }
            _ => {}
        }
        Ok(())
    }

    /// What the tips of parts decided, beside the least order.
    fn count_by_tips(&mut self, handed: &Handed, mounted: usize, found: &mut Buffers) {
        let (parts, rules) = records_of(handed);
        let count = parts.len();
        let order = found.order.inside()[..count].to_vec();
        let (tips, behind) = found.plan.inside().split_at(count);
        let behind = behind.iter().any(|&byte| byte > 63);
        let placed = |order: &[u8]| -> Vec<u8> { order.iter().map(|&part| tips[usize::from(part)]).collect() };
        let changes = |placed: &[u8]| changes_in(placed, Some(mounted).filter(|&tip| tip != NO_TIP));
        let by_tips = placed(&order);
        // Of few parts alone, for it takes long.
        let placing = Placing { parts: &parts, rules: &rules };
        let is_small = count <= 12 && rules.len() <= 40;
        let least = if is_small { placing.least_order() } else { None };
        let without = if is_small { placing.order_by_tips(tips, None) } else { None };
        let left_on_tip =
            (1..count).any(|at| by_tips[at - 1] != by_tips[at] && by_tips[at..].contains(&by_tips[at - 1]));
        self.tally.count_events(&[
            (least.as_ref().is_some_and(|least| *least != order), Event::ByTipsOther),
            (without.is_some_and(|without| without != order), Event::ByTipsByMounted),
            (least.is_some_and(|least| changes(&placed(&least)) > changes(&by_tips)), Event::FewerTipChanges),
            (left_on_tip, Event::TipChangeForced),
            (changes(&by_tips) > changes_in(&by_tips, None), Event::TipChangeBefore),
            (behind, Event::TipsBehindTheParts),
        ]);
    }

    /// What narrowed the positions of few parts.
    fn count_windows(&mut self, handed: &Handed, found: &mut Buffers) {
        let (parts, rules) = records_of(handed);
        let count = parts.len();
        if count > 12 || rules.len() > 40 {
            return;
        }
        let windows: Vec<(u8, u8)> =
            found.first.inside()[..count].iter().copied().zip(found.last.inside()[..count].iter().copied()).collect();
        let given: Vec<(u8, u8)> = parts.iter().map(|part| (part.first as u8, part.last as u8)).collect();
        let plain: Vec<Part> = parts.iter().map(|part| Part { fine: false, tall: false, ..*part }).collect();
        let differs = |parts: &[Part], rules: &[Rule]| Placing { parts, rules }.windows().as_ref() != Some(&windows);
        let lacks = |part: usize, position: u8| {
            let mut parts = parts.clone();
            (parts[part].first, parts[part].last) = (position.into(), position.into());
            Placing { parts: &parts, rules: &rules }.least_order().is_none()
        };
        let between =
            || (0..count).any(|part| (windows[part].0..windows[part].1).any(|position| lacks(part, position)));
        self.tally.count_events(&[
            (count > 1 && windows == given, Event::WindowsAsGiven),
            (differs(&parts, &[]), Event::WindowsByRules),
            (differs(&plain, &rules), Event::WindowsByFlags),
            (
                Placing { parts: &plain, rules: &[] }.windows().is_some_and(|alone| alone != given),
                Event::WindowsByOthers,
            ),
            (
                (0..count).any(|part| given[part].0 < given[part].1 && windows[part].0 == windows[part].1),
                Event::WindowsOfOne,
            ),
            (between(), Event::PositionBetween),
        ]);
    }

    /// What decided an order, or that there is none, on few parts alone; sizes on any.
    fn count_decided(&mut self, handed: &Handed, accepted: bool) {
        let (parts, mut rules) = records_of(handed);
        let count = parts.len();
        let number = rules.len();
        let least = |parts: &[Part], rules: &[Rule]| Placing { parts, rules }.least_order();
        if count <= 12 && number <= 40 {
            let most = count.saturating_sub(1) as u32;
            let without = |change: fn(&mut Part, u32)| {
                let mut parts = parts.clone();
                parts.iter_mut().for_each(|part| change(part, most));
                parts
            };
            let given = least(&parts, &rules);
            let differs = |parts: Vec<Part>, rules: &[Rule]| least(&parts, rules) != given;
            let exists = |parts: Vec<Part>, rules: &[Rule]| least(&parts, rules).is_some();
            let free = without(|part, most| (part.first, part.last, part.fine, part.tall) = (0, most, false, false));
            let all_positions = without(|part, most| (part.first, part.last) = (0, most));
            let no_flags = without(|part, _| (part.fine, part.tall) = (false, false));
            let plain = parts.iter().any(|part| !part.fine && !part.tall);
            // By these a part that is fine and tall precedes each part that is not fine.
            let numbered = || (0..).zip(&parts);
            let both = numbered().filter(|(_, part)| part.fine && part.tall).map(|(number, _)| number);
            let not_fine: Vec<u32> = numbered().filter(|(_, part)| !part.fine).map(|(number, _)| number).collect();
            let with_fine = both.flat_map(|one| not_fine.iter().map(move |&other| (one, other)));
            let with_fine: Vec<Rule> = rules.iter().copied().chain(with_fine).collect();
            self.tally.count_events(&[
                (accepted && differs(without(|part, most| part.last = most), &rules), Event::LookedAhead),
                (accepted && differs(without(|part, _| part.fine = false), &rules), Event::FineDecides),
                (accepted && differs(without(|part, _| part.tall = false), &rules), Event::TallDecides),
                (accepted && differs(parts.clone(), &[]), Event::RulesDecide),
                (!accepted && !exists(free, &rules), Event::RulesGoRound),
                (!accepted && exists(no_flags, &rules), Event::FlagsGoRound),
                (!accepted && exists(all_positions, &rules), Event::TooFewPositions),
                (plain && parts.iter().any(|part| part.fine && part.tall), Event::FineAndTall),
                (accepted && differs(parts.clone(), &with_fine), Event::HeightDecides),
            ]);
        }
        rules.sort_unstable();
        rules.dedup();
        self.tally.count_events(&[
            (count == 0, Event::NoParts),
            (count == 1, Event::OnePart),
            (accepted && count == MOST_PARTS, Event::MostParts),
            (accepted && number > 1000, Event::ManyRules),
            (accepted && number > 65_535, Event::ManyMoreRules),
            (accepted && rules.len() < number, Event::RuleTwice),
        ]);
    }

    /// What else a refused call could be refused for.
    fn count_refused(&mut self, handed: &Handed, count: usize, call: Call, number: u32) {
        let (parts, rules) = records_of(handed);
        let bad_rule = rules.iter().any(|&(one, other)| one.max(other) as usize >= count || one == other);
        let several = match number {
            refusal::BAD_WINDOW => bad_rule && call.is_short(count),
            refusal::BAD_RULE => call.is_short(count),
            _ => Placing { parts: &parts, rules: &rules }.least_order().is_none(),
        };
        let short_alone = |one: usize, other: usize| number == refusal::SHORT_ORDER && one < count && other >= count;
        let (first, last) = match call {
            Call::Windows { first, last, .. } => (first, last),
            _ => (count, count),
        };
        let short_plan = matches!(call, Call::ByTips { plan, .. } if plan < count);
        self.tally.count_events(&[
            (several, Event::SeveralRefusals),
            (count > MOST_PARTS, Event::TooManyParts),
            (short_alone(first, last), Event::ShortFirstAlone),
            (short_alone(last, first), Event::ShortLastAlone),
            (number == refusal::SHORT_ORDER && short_plan, Event::ShortOrderAndPlan),
        ]);
    }

    /// Mostly the needed length of an answer, sometimes less or more.
    fn answer_length(&mut self) -> usize {
        let any = self.random.below(9);
        self.random.one_of(&[4, 4, 4, 4, 4, 4, 5, any])
    }

    /// Mostly the needed length, else one near it or far from it.
    fn length_around(&mut self, needed: usize) -> usize {
        let any = self.random.below(needed + 20);
        let less = needed.saturating_sub(1);
        self.random.one_of(&[needed, needed, needed, needed + 1, needed + 9, less, less, any])
    }
}

/// Parts and rules of whole records.
fn records_of(handed: &Handed) -> (Vec<Part>, Vec<Rule>) {
    let part = |of: &[u32]| Part { first: of[0], last: of[1], fine: of[2] != 0, tall: of[3] != 0 };
    let rule = |of: &[u32]| (of[0], of[1]);
    (handed.parts.chunks(PART_PLACES).map(part).collect(), handed.rules.chunks(RULE_PLACES).map(rule).collect())
}

/// The least order of parts and rules, if any obeys.
fn order_of(handed: &Handed) -> Option<Vec<u8>> {
    let (parts, rules) = records_of(handed);
    Placing { parts: &parts, rules: &rules }.least_order()
}

/// The numbers of parts given as first and last position, fine and tall, and of rules; tips that take turns.
fn handed(parts: &[[u32; PART_PLACES]], rules: &[[u32; RULE_PLACES]]) -> Handed {
    let tips = (0..parts.len()).map(|part| [5, 63, 0, 5][part % 4]).collect();
    Handed { parts: parts.concat(), rules: rules.concat(), tips }
}

/// The rows of the rules, and the sizes at the limits.
fn fixed() -> Vec<Handed> {
    let plain = |last: u32| [0, last, 0, 0];
    let chain = |count: u32| (1..count).map(|part| [part, part - 1]).collect::<Vec<[u32; RULE_PLACES]>>();
    let every = |count: u32| {
        let pairs = (0..count).flat_map(|one| (0..one).map(move |other| [one, other]));
        pairs.collect::<Vec<[u32; RULE_PLACES]>>()
    };
    // Each part at one position alone, the last part first.
    let fixed: Vec<[u32; PART_PLACES]> = (0..128).map(|part| [127 - part, 127 - part, 0, 0]).collect();
    // A fine part in four and a tall one in four, none of them both.
    let flagged: Vec<[u32; PART_PLACES]> =
        (0..128).map(|part| [0, 127, u32::from(part % 4 == 3), u32::from(part % 4 == 1)]).collect();
    vec![
        handed(&[], &[]),
        handed(&[[0, 0, 1, 1]], &[]),
        handed(&[plain(0)], &[[0, 0]]),
        handed(&[], &[[0, 0]]),
        handed(&[[1, 0, 0, 0]; 129], &[[0, 0]]),
        handed(&[plain(128); 129], &[]),
        handed(&[plain(255); 256], &[]),
        handed(&[plain(256); 257], &[[256, 0]]),
        handed(&[plain(127); 128], &[]),
        handed(&[plain(127); 128], &chain(128)),
        handed(&[plain(127); 128], &every(128)),
        handed(&[plain(127); 128], &[&every(128)[..], &[[0, 127]]].concat()),
        handed(&[plain(127); 128], &[[127, 128]]),
        handed(&fixed, &[]),
        handed(&fixed, &chain(128)),
        handed(&flagged, &[]),
        handed(&flagged, &[[125, 1], [7, 3], [3, 127]]),
        handed(&[plain(1), [1, 0, 0, 0]], &[]),
        handed(&[plain(3), plain(2), [2, 1, 0, 0]], &[[5, 5]]),
        handed(&[plain(1); 2], &[[0, 1], [1, 2]]),
        handed(&[plain(1); 2], &[[0, 1], [2, 1]]),
        handed(&[plain(1); 2], &[[1, 1], [0, 2]]),
        handed(&[plain(1); 2], &[[0, 1], [1, 0]]),
        handed(&[plain(2); 3], &[[0, 1], [1, 2], [2, 0]]),
        handed(&[[0, 1, 1, 1], plain(1)], &[]),
        handed(&[[1, 1, 0, 0], plain(2), [1, 1, 0, 0]], &[]),
        handed(&[plain(1), plain(0)], &[]),
        handed(&[plain(0), plain(0), plain(2)], &[]),
        handed(&[plain(2); 3], &[]),
        handed(&[[0, 3, 0, 1], plain(3), [0, 3, 1, 0], plain(3)], &[[3, 1]]),
        handed(&[[0, 3, 0, 1], plain(3), [0, 3, 1, 0], plain(3)], &[[3, 1], [3, 1]]),
        handed(&[[0, 1, 0, 1], [0, 1, 1, 1]], &[]),
        handed(&[[0, 2, 1, 1], plain(2), [0, 2, 1, 0]], &[]),
        handed(&[[0, 2, 256, 0], [0, 2, 0, 1 << 31], [0, 2, 2, 2]], &[]),
        handed(&[plain(127); 128], &every(128).repeat(2)),
        handed(&[plain(127); 128], &[&[[1, 2]].repeat(65_536)[..], &[[127, 0]]].concat()),
    ]
}

/// Parts whose windows and rules mostly leave an order: they are laid around one, and then sometimes made narrower.
fn seeded(random: &mut Random) -> Handed {
    let any = random.from_to(0, 7);
    let count = match random.below(100) {
        0 => random.from_to(100, MOST_PARTS),
        1..=9 => random.from_to(10, 40),
        10..=39 => random.from_to(6, 9),
        _ => any,
    };
    if count == 0 {
        return Handed::default();
    }
    let (slack, flags) = (random.below(count) + 1, random.below(4));
    // Each part has a position, by its flags, and a window around it.
    let mut places: Vec<usize> = (0..count).collect();
    for at in (1..count).rev() {
        places.swap(at, random.below(at + 1));
    }
    let (fine, not_tall) = (random.below(count + 1), random.below(count + 1));
    let mut parts = Vec::new();
    for &place in &places {
        let first = place.saturating_sub(random.below(slack + 1));
        let last = (place + random.below(slack + 1)).min(count - 1);
        let mut part = [first as u32, last as u32, 0, 0];
        if flags & 1 == 1 && place < fine {
            part[2] = yes(random);
        }
        if flags & 2 == 2 && place >= not_tall.max(if flags & 1 == 1 { fine } else { 0 }) {
            part[3] = yes(random);
            // Of a tall part the other flag is ignored.
            if random.once_in(3) {
                part[2] = yes(random);
            }
        }
        if random.once_in(40) {
            part[2 + random.below(2)] = yes(random);
        }
        parts.push(part);
    }
    let most = if random.once_in(20) { 1200 } else { 2 * count };
    let number = if random.once_in(3) { 0 } else { random.below(most + 1) };
    let mut rules = Vec::new();
    for _ in 0..number {
        let (one, other) = (random.below(count), random.below(count));
        if one == other {
            continue;
        }
        let with_order = (places[one] < places[other]) != random.once_in(6 * most);
        let (one, other) = if with_order { (one, other) } else { (other, one) };
        rules.push([one as u32, other as u32]);
    }
    let tips = seeded_tips(random, count);
    Handed { tips, ..handed(&parts, &rules) }
}

/// Tips of which there are few or many.
fn seeded_tips(random: &mut Random, count: usize) -> Vec<u8> {
    let most = random.one_of(&[1, 2, 2, 3, 4, 64]);
    let first = random.below(65 - most);
    (0..count).map(|_| (first + random.below(most)) as u8).collect()
}

/// A number that is yes.
fn yes(random: &mut Random) -> u32 {
    let any = (random.number() as u32).max(1);
    random.one_of(&[1, 1, 1, 2, 256, 1 << 16, 1 << 31, u32::MAX, any])
}

/// One fault: bad positions, a bad rule, too many parts or numbers that make no records; or one that is none.
fn damage(random: &mut Random, handed: &mut Handed) {
    let count = handed.parts.len() / PART_PLACES;
    let far = |random: &mut Random| {
        let any = random.number() as u32;
        random.one_of(&[count as u32, count as u32 + 1, 256, 1 << 16, 1 << 31, u32::MAX - 1, u32::MAX, any])
    };
    let inside = random.below(count.max(1)) as u32;
    let near = inside.wrapping_add(random.one_of(&[256, 1 << 16, 1 << 31]));
    match random.below(11) {
        // A last position that is none, also one that is within in fewer bits; a first behind the last.
        0 if count > 0 => {
            handed.parts[PART_PLACES * random.below(count) + 1] = if random.once_in(2) { near } else { far(random) }
        }
        1 if count > 0 => {
            handed.parts[PART_PLACES * random.below(count)] = if random.once_in(2) { near } else { far(random) }
        }
        2 if count > 0 => {
            let part = PART_PLACES * random.below(count);
            handed.parts.swap(part, part + 1);
        }
        // A rule with a part that is not there, first or second, or with one part twice.
        3 | 4 => {
            let absent = if random.once_in(2) { near } else { far(random) };
            let rule = random.one_of(&[[inside, absent], [absent, inside], [absent, absent]]);
            put_rule(random, handed, rule);
        }
        5 => put_rule(random, handed, [inside, inside]),
        6 => {
            let more = random.one_of(&[129, 130, 255, 256, 257]) - count.min(129);
            let part = [0, count as u32, 0, 0];
            handed.parts.extend(part.repeat(more));
            handed.tips.extend(vec![0; more]);
        }
        7 => {
            let length = handed.parts.len().saturating_sub(random.from_to(1, 3));
            handed.parts.truncate(length);
        }
        8 => handed.rules.push(random.number() as u32),
        // A part on a tip that is none.
        9 | 10 if count > 0 => {
            let any = random.from_to(64, 255) as u8;
            handed.tips[random.below(count)] = random.one_of(&[64, 64, 65, 128, 255, any]);
        }
        _ => {}
    }
}

/// Puts a rule among the others.
fn put_rule(random: &mut Random, handed: &mut Handed, rule: [u32; RULE_PLACES]) {
    let at = RULE_PLACES * random.below(handed.rules.len() / RULE_PLACES + 1);
    handed.rules.splice(at..at, rule);
}
