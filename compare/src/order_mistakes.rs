//! Ways in which a call on parts and rules can be wrong: the comparison must find each of them.
//!
//! Every one is the linked library with other parts, rules or buffers lent to it, or with something changed in what it
//! wrote. What each call does with parts, rules and its answer is tried on every call.

use second::interface::{ANSWER_PLACES, PART_PLACES, RULE_PLACES};
use second::refusal;
use second::MOST_PARTS;

use crate::check::Lent;
use crate::orders::{call_library, Buffers, Caller, CALL_NAMES};
use crate::sought;

mod by_tips;
mod orders;
mod windows;

pub type OrderMistake = sought::Mistake<Caller>;

/// The mistakes that each call is tried with, in the order of the names of the calls.
pub fn order_mistakes() -> [Vec<&'static OrderMistake>; CALL_NAMES.len()] {
    let of_every_call = [OF_PARTS, OF_RULES, OF_RECORDS, OF_ANSWERS];
    let of_one = [
        [orders::OF_ORDERS, orders::OF_BUFFERS],
        [windows::OF_WINDOWS, windows::OF_BUFFERS],
        [by_tips::OF_ORDERS_BY_TIPS, by_tips::OF_BUFFERS],
    ];
    of_one.map(|own| of_every_call.into_iter().chain(own).flatten().collect())
}

const OF_PARTS: &[OrderMistake] = &[
    ("128 parts are refused", |lent| refused_where(lent, |parts, _| parts == MOST_PARTS, refusal::BAD_WINDOW)),
    ("of more than 128 parts the first 128 are ordered", |lent| {
        on_parts(lent, |parts| parts.truncate(PART_PLACES * MOST_PARTS))
    }),
    ("the number of parts has 8 bits", |lent| {
        on_parts(lent, |parts| parts.truncate(parts.len() / PART_PLACES % 256 * PART_PLACES))
    }),
    ("an order without parts is refused", |lent| refused_where(lent, |parts, _| parts == 0, refusal::NO_ORDER)),
    ("first positions are not looked at", |lent| on_good(lent, |_, part| part[0] = 0)),
    ("last positions are not looked at", |lent| on_good(lent, |count, part| part[1] = count - 1)),
    ("a first position after the last is taken for the last", |lent| {
        on_part(lent, |count, part| {
            if part[0] > part[1] && part[0] < count {
                part.swap(0, 1)
            }
        })
    }),
    ("a last position of n is taken for n - 1", |lent| {
        on_part(lent, |count, part| {
            if part[1] == count {
                part[1] -= 1
            }
        })
    }),
    ("last positions have 8 bits", |lent| on_part(lent, |_, part| part[1] &= 0xFF)),
    ("last positions have 16 bits", |lent| on_part(lent, |_, part| part[1] &= 0xFFFF)),
    ("last positions have 31 bits", |lent| on_part(lent, |_, part| part[1] &= 0x7FFF_FFFF)),
    ("first positions have 8 bits", |lent| on_part(lent, |_, part| part[0] &= 0xFF)),
    ("first positions have 16 bits", |lent| on_part(lent, |_, part| part[0] &= 0xFFFF)),
    ("first positions have 31 bits", |lent| on_part(lent, |_, part| part[0] &= 0x7FFF_FFFF)),
    ("fine is not looked at", |lent| on_part(lent, |_, part| part[2] = 0)),
    ("tall is not looked at", |lent| on_part(lent, |_, part| part[3] = 0)),
    ("fine and tall are taken for each other", |lent| on_part(lent, |_, part| part.swap(2, 3))),
    ("only 1 is fine", |lent| on_part(lent, |_, part| part[2] = u32::from(part[2] == 1))),
    ("only 1 is tall", |lent| on_part(lent, |_, part| part[3] = u32::from(part[3] == 1))),
    ("fine has 8 bits", |lent| on_part(lent, |_, part| part[2] &= 0xFF)),
    ("tall has 31 bits", |lent| on_part(lent, |_, part| part[3] &= 0x7FFF_FFFF)),
    ("the fine flag of a tall part is looked at", |lent| {
        if !is_whole(lent) {
            return call_library(lent);
        }
        // Behind the rules lent, so that the first bad one is told.
        with(lent, |parts, rules| {
            let (both, not_fine) = both_and_not_fine(parts);
            rules.extend(both.iter().flat_map(|&one| not_fine.iter().flat_map(move |&other| [one, other])));
        })
    }),
    ("a tall part that is fine comes before the other tall ones", |lent| {
        if !is_whole(lent) {
            return call_library(lent);
        }
        with(lent, |parts, rules| {
            let (both, not_fine) = both_and_not_fine(parts);
            let tall: Vec<u32> =
                not_fine.into_iter().filter(|&other| parts[PART_PLACES * other as usize + 3] != 0).collect();
            rules.extend(both.iter().flat_map(|&one| tall.iter().flat_map(move |&other| [one, other])));
        })
    }),
    ("the tall flag of a fine part is not looked at", |lent| {
        on_part(lent, |_, part| {
            if part[2] != 0 {
                part[3] = 0
            }
        })
    }),
    ("the last part's positions are not looked at", |lent| {
        on_parts(lent, |parts| {
            let count = (parts.len() / PART_PLACES) as u32;
            if let Some(part) = parts.chunks_exact_mut(PART_PLACES).next_back() {
                if part[0] <= part[1] && part[1] < count {
                    (part[0], part[1]) = (0, count - 1)
                }
            }
        })
    }),
];

const OF_RULES: &[OrderMistake] = &[
    ("rules are not looked at", |lent| on_rules(lent, |_, rules| rules.clear())),
    ("rules are read the other way round", |lent| {
        on_rules(lent, |_, rules| rules.chunks_exact_mut(RULE_PLACES).for_each(|rule| rule.swap(0, 1)))
    }),
    ("the first rule is passed over", |lent| {
        on_rules(lent, |_, rules| {
            if !rules.is_empty() {
                rules.drain(..RULE_PLACES);
            }
        })
    }),
    ("the last rule is passed over", |lent| {
        on_rules(lent, |_, rules| rules.truncate(rules.len().saturating_sub(RULE_PLACES)))
    }),
    ("only 128 rules are looked at", |lent| on_rules(lent, |_, rules| rules.truncate(128 * RULE_PLACES))),
    ("the number of rules has 16 bits", |lent| {
        on_rules(lent, |_, rules| rules.truncate(rules.len() / RULE_PLACES % 65_536 * RULE_PLACES))
    }),
    ("only 1,024 rules are looked at", |lent| on_rules(lent, |_, rules| rules.truncate(1024 * RULE_PLACES))),
    ("more than 8,128 rules are refused", |lent| refused_where(lent, |_, rules| rules > 8128, refusal::BAD_RULE)),
    ("a rule that stands twice is refused", |lent| {
        let mut rules: Vec<Vec<u32>> = lent.rules.inside().chunks_exact(RULE_PLACES).map(<[u32]>::to_vec).collect();
        rules.sort_unstable();
        if rules.windows(2).any(|pair| pair[0] == pair[1]) {
            return refused_where(lent, |_, _| true, refusal::BAD_RULE);
        }
        call_library(lent)
    }),
    ("the parts of a rule have 8 bits", |lent| {
        on_rules(lent, |_, rules| rules.iter_mut().for_each(|part| *part &= 0xFF))
    }),
    ("the parts of a rule have 16 bits", |lent| {
        on_rules(lent, |_, rules| rules.iter_mut().for_each(|part| *part &= 0xFFFF))
    }),
    ("the parts of a rule have 31 bits", |lent| {
        on_rules(lent, |_, rules| rules.iter_mut().for_each(|part| *part &= 0x7FFF_FFFF))
    }),
    ("a rule with a part twice is passed over", |lent| {
        on_rules(lent, |_, rules| *rules = kept(rules, |rule| rule[0] != rule[1]))
    }),
    ("a rule with a part that is not there is passed over", |lent| {
        on_rules(lent, |count, rules| *rules = kept(rules, |rule| rule[0].max(rule[1]) < count))
    }),
    ("only the first part of a rule is looked for", |lent| {
        on_rules(lent, |count, rules| *rules = kept(rules, |rule| rule[0] >= count || rule[1] < count))
    }),
    ("only the second part of a rule is looked for", |lent| {
        on_rules(lent, |count, rules| *rules = kept(rules, |rule| rule[0] < count || rule[1] >= count))
    }),
    ("a rule may name part n", |lent| {
        on_rules(lent, |count, rules| *rules = kept(rules, |rule| rule[0] != count && rule[1] != count))
    }),
];

/// Refusals of parts, rules and a short answer.
const OF_RECORDS: &[OrderMistake] = &[
    ("the last part with bad positions is told", |lent| {
        let returned = call_library(lent);
        let parts = lent.parts.inside();
        let count = parts.len() / PART_PLACES;
        let is_bad = |part: &[u32]| part[0] > part[1] || part[1] as usize >= count;
        let last = parts.chunks_exact(PART_PLACES).rposition(|part| part.len() == PART_PLACES && is_bad(part));
        if let (refusal::BAD_WINDOW, true, Some(part)) = (returned, count <= MOST_PARTS, last) {
            lent.answer.inside()[0] = part as u64;
        }
        returned
    }),
    ("the number of parts is told where there are over 128", |lent| {
        let returned = call_library(lent);
        let count = lent.parts.inside().len() / PART_PLACES;
        if returned == refusal::BAD_WINDOW && count > MOST_PARTS {
            lent.answer.inside()[0] = count as u64;
        }
        returned
    }),
    ("of more than 128 parts the first with bad positions is told", |lent| {
        let returned = call_library(lent);
        let parts = lent.parts.inside();
        let count = parts.len() / PART_PLACES;
        let is_bad = |part: &[u32]| part[0] > part[1] || part[1] as usize >= count;
        if returned == refusal::BAD_WINDOW && count > MOST_PARTS {
            let bad = parts.chunks_exact(PART_PLACES).position(is_bad);
            lent.answer.inside()[0] = bad.unwrap_or(0) as u64;
        }
        returned
    }),
    ("the place of 12 is always 0", |lent| at_refusal(lent, refusal::BAD_WINDOW, |answer| answer[0] = 0)),
    ("the place of 13 is always 0", |lent| at_refusal(lent, refusal::BAD_RULE, |answer| answer[0] = 0)),
    ("the place of 13 is the number", |lent| {
        at_refusal(lent, refusal::BAD_RULE, |answer| answer[0] *= RULE_PLACES as u64)
    }),
    ("rules are looked at before positions", |lent| {
        let returned = call_library(lent);
        let count = (lent.parts.inside().len() / PART_PLACES) as u32;
        let is_bad = |rule: &[u32]| rule[0].max(rule[1]) >= count || rule[0] == rule[1];
        match (returned, lent.rules.inside().chunks_exact(RULE_PLACES).position(is_bad)) {
            (refusal::BAD_WINDOW, Some(rule)) => {
                lent.answer.inside()[0] = rule as u64;
                refusal::BAD_RULE
            }
            _ => returned,
        }
    }),
    ("numbers behind the last whole part are passed over", |lent| {
        with(lent, |parts, _| parts.truncate(parts.len() / PART_PLACES * PART_PLACES))
    }),
    ("a number behind the last whole rule is passed over", |lent| {
        with(lent, |_, rules| rules.truncate(rules.len() / RULE_PLACES * RULE_PLACES))
    }),
    ("too many parts are looked at before broken records", |lent| {
        let returned = call_library(lent);
        if returned == refusal::BROKEN_RECORD && lent.parts.inside().len() / PART_PLACES > MOST_PARTS {
            return refusal::BAD_WINDOW;
        }
        returned
    }),
    ("broken records are looked at before a short answer", |lent| {
        let broken = !is_whole(lent);
        match call_library(lent) {
            refusal::SHORT_ANSWER if broken => refusal::BROKEN_RECORD,
            returned => returned,
        }
    }),
];

const OF_ANSWERS: &[OrderMistake] = &[
    ("the number of parts is not told", |lent| at_refusal(lent, refusal::ACCEPTED, |answer| answer[1] = 0)),
    ("the number of parts is told with 29", |lent| {
        let count = lent.parts.inside().len() / PART_PLACES;
        let returned = call_library(lent);
        if returned == refusal::NO_ORDER {
            lent.answer.inside()[1] = count as u64;
        }
        returned
    }),
    ("the last place of the answer is left as it was", |lent| {
        let before = lent.answer.inside().get(3).copied();
        let returned = call_library(lent);
        if let Some(before) = before {
            lent.answer.inside()[3] = before;
        }
        returned
    }),
    ("the answer has five places", |lent| {
        let returned = call_library(lent);
        if let Some(place) = lent.answer.inside().get_mut(4) {
            *place = 0;
        }
        returned
    }),
    ("last positions are settled in the parts lent", |lent| {
        let returned = call_library(lent);
        if returned == 0 {
            let mut parts = lent.parts.inside().chunks_exact_mut(PART_PLACES);
            if let Some(part) = parts.find(|part| part[0] < part[1]) {
                part[1] -= 1;
            }
        }
        returned
    }),
    ("the rules lent are sorted", |lent| {
        let returned = call_library(lent);
        if returned == refusal::ACCEPTED || returned == refusal::NO_ORDER {
            lent.rules.inside().sort_unstable();
        }
        returned
    }),
];

/// The parts with both flags, and those without the fine one.
fn both_and_not_fine(parts: &[u32]) -> (Vec<u32>, Vec<u32>) {
    let numbered = || (0..).zip(parts.chunks_exact(PART_PLACES));
    let both = numbered().filter(|(_, part)| part[2] != 0 && part[3] != 0).map(|(number, _)| number);
    let not_fine = numbered().filter(|(_, part)| part[2] == 0).map(|(number, _)| number);
    (both.collect(), not_fine.collect())
}

/// The rules for which this holds.
fn kept(rules: &[u32], keep: impl Fn(&[u32]) -> bool) -> Vec<u32> {
    rules.chunks_exact(RULE_PLACES).filter(|rule| keep(rule)).flatten().copied().collect()
}

/// The library on changed parts and rules; those lent stay.
fn with(lent: &mut Buffers, change: impl Fn(&mut Vec<u32>, &mut Vec<u32>)) -> u32 {
    let (mut parts, mut rules) = (lent.parts.inside().to_vec(), lent.rules.inside().to_vec());
    change(&mut parts, &mut rules);
    let given = (lent.parts.clone(), lent.rules.clone());
    (lent.parts, lent.rules) = (Lent::of(parts), Lent::of(rules));
    let returned = call_library(lent);
    (lent.parts, lent.rules) = given;
    returned
}

/// Whether parts and rules are whole records.
fn is_whole(lent: &mut Buffers) -> bool {
    lent.parts.inside().len().is_multiple_of(PART_PLACES) && lent.rules.inside().len().is_multiple_of(RULE_PLACES)
}

/// The library on changed parts, where parts and rules are whole records.
fn on_parts(lent: &mut Buffers, change: impl Fn(&mut Vec<u32>)) -> u32 {
    if !is_whole(lent) {
        return call_library(lent);
    }
    with(lent, |parts, _| change(parts))
}

/// The library on parts each of which is changed, knowing their number.
fn on_part(lent: &mut Buffers, change: fn(u32, &mut [u32])) -> u32 {
    on_parts(lent, |parts| {
        let count = (parts.len() / PART_PLACES) as u32;
        parts.chunks_exact_mut(PART_PLACES).for_each(|part| change(count, part));
    })
}

/// The same where all positions are good.
fn on_good(lent: &mut Buffers, change: fn(u32, &mut [u32])) -> u32 {
    on_parts(lent, |parts| {
        let count = (parts.len() / PART_PLACES) as u32;
        if parts.chunks_exact(PART_PLACES).all(|part| part[0] <= part[1] && part[1] < count) {
            parts.chunks_exact_mut(PART_PLACES).for_each(|part| change(count, part));
        }
    })
}

/// The library on changed rules, knowing the number of parts.
fn on_rules(lent: &mut Buffers, change: impl Fn(u32, &mut Vec<u32>)) -> u32 {
    if !is_whole(lent) {
        return call_library(lent);
    }
    with(lent, |parts, rules| change((parts.len() / PART_PLACES) as u32, rules))
}

/// Refuses an accepted call with this number, given the numbers of its parts and rules.
fn refused_where(lent: &mut Buffers, is_refused: impl Fn(usize, usize) -> bool, number: u32) -> u32 {
    let lengths = (lent.parts.inside().len() / PART_PLACES, lent.rules.inside().len() / RULE_PLACES);
    let before = lent.clone();
    let returned = call_library(lent);
    if returned != 0 || !is_refused(lengths.0, lengths.1) {
        return returned;
    }
    *lent = before;
    lent.answer.inside()[..ANSWER_PLACES].fill(0);
    number
}

/// Changes the answer of a call that gives this number.
fn at_refusal(lent: &mut Buffers, number: u32, change: fn(&mut [u64])) -> u32 {
    let returned = call_library(lent);
    if returned == number {
        change(lent.answer.inside());
    }
    returned
}
