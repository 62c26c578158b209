//! Mistakes in the placing order by tips.

use library::on_slices;
use second::interface::{ANSWER_PLACES, NO_TIP, PART_PLACES};
use second::MOST_PARTS;

use super::{at_refusal, call_library, refused_where, OrderMistake};
use crate::check::Lent;
use crate::orders::{Buffers, Call};
use crate::run::changes_in;

pub(super) const OF_ORDERS_BY_TIPS: &[OrderMistake] = &[
    ("the tips of the parts are not looked at", |lent| {
        on_order(lent, |parts, rules, _, _, order| {
            least_order(parts, rules, order);
        })
    }),
    ("parts on one tip follow one another, whatever rules say", |lent| {
        on_order(lent, |_, _, tips, _, order| {
            // Each tip where its first part is.
            let order_of_tips: Vec<u8> = order.iter().map(|&part| tips[usize::from(part)]).collect();
            order.sort_by_key(|&part| order_of_tips.iter().position(|&tip| tip == tips[usize::from(part)]));
        })
    }),
    ("the highest part on the tip is taken", |lent| {
        on_order(lent, |_, _, tips, _, order| {
            for turn in order.chunk_by_mut(|&one, &other| tips[usize::from(one)] == tips[usize::from(other)]) {
                turn.reverse();
            }
        })
    }),
    ("the mounted tip is not looked at", |lent| {
        with_mounted(lent, |mounted| if mounted < 64 { NO_TIP } else { mounted })
    }),
    ("without a mounted tip tip 0 is mounted", |lent| {
        with_mounted(lent, |mounted| if mounted == NO_TIP { 0 } else { mounted })
    }),
    ("the mounted tip decides at position 0 alone where a part is on it", |lent| {
        on_order(lent, |parts, rules, tips, mounted, order| {
            // Bound to its position, the first part is followed by the least order of the others.
            let first = order.first().copied().filter(|&part| Some(usize::from(tips[usize::from(part)])) == mounted);
            if let Some(part) = first {
                let mut bound = parts.to_vec();
                bound[PART_PLACES * usize::from(part)..][..2].fill(0);
                least_order(&bound, rules, order);
            }
        })
    }),
    ("the tip of the part before is that of the first part", |lent| {
        on_order(lent, |parts, rules, tips, mounted, order| {
            let Some(&first) = order.first().filter(|_| mounted.is_none()) else { return };
            // Every other tip is taken for a tip of its own.
            let tip = tips[usize::from(first)];
            let own = (0..).zip(tips).map(|(part, &other)| if other == tip { 63 } else { part % 63 });
            let own: Vec<u8> = own.collect();
            let mut answer = [0; ANSWER_PLACES];
            on_slices::order_by_tips(parts, rules, &own, NO_TIP, order, &mut answer);
        })
    }),
    ("only five bits of a tip are looked at", |lent| with_tips(lent, |tip| if tip < 64 { tip % 32 } else { tip })),
    ("tips have six bits", |lent| with_tips(lent, |tip| tip % 64)),
    ("tips have seven bits", |lent| with_tips(lent, |tip| tip % 128)),
    ("a tip of 64 is taken", |lent| with_tips(lent, |tip| if tip == 64 { 63 } else { tip })),
    ("a tip of 63 is refused", |lent| with_tips(lent, |tip| if tip == 63 { 64 } else { tip })),
    ("a mounted tip of 63 is refused", |lent| with_mounted(lent, |mounted| if mounted == 63 { 64 } else { mounted })),
    ("a mounted tip of 64 is taken for none", |lent| {
        with_mounted(lent, |mounted| if mounted == 64 { NO_TIP } else { mounted })
    }),
    ("the mounted tip has 8 bits", |lent| with_mounted(lent, |mounted| mounted & 0xFF)),
    ("the mounted tip has 32 bits", |lent| with_mounted(lent, |mounted| mounted & 0xFFFF_FFFF)),
    ("the largest number but none is taken for none", |lent| {
        with_mounted(lent, |mounted| if mounted == NO_TIP - 1 { NO_TIP } else { mounted })
    }),
    ("a change before the first part is not counted", |lent| {
        on_changes(lent, |placed, mounted, changes| changes - u64::from(changes_before(placed, mounted)))
    }),
    ("the first part is a change without a mounted tip", |lent| {
        on_changes(lent, |placed, mounted, changes| changes + u64::from(mounted.is_none() && !placed.is_empty()))
    }),
    ("without parts a mounted tip is a change", |lent| {
        on_changes(lent, |placed, mounted, changes| changes + u64::from(mounted.is_some() && placed.is_empty()))
    }),
    ("different tips are counted and not changes", |lent| {
        on_changes(lent, |placed, _, _| {
            let mut tips = placed.to_vec();
            tips.sort_unstable();
            tips.dedup();
            tips.len() as u64
        })
    }),
    ("changes are counted by the numbers of the parts", |lent| {
        let tips = lent.plan.inside().to_vec();
        let returned = call_library(lent);
        let mounted = mounted_tip(lent);
        if returned == 0 {
            let count = lent.answer.inside()[1] as usize;
            lent.answer.inside()[2] = changes_in(&tips[..count], mounted) as u64;
        }
        returned
    }),
    ("the changes are returned in the place of the parts", |lent| at_refusal(lent, 0, |answer| answer.swap(1, 2))),
    ("the changes are not returned", |lent| at_refusal(lent, 0, |answer| answer[2] = 0)),
];

pub(super) const OF_BUFFERS: &[OrderMistake] = &[
    ("the place of 3 is always 0", |lent| at_refusal(lent, 3, |answer| answer[0] = 0)),
    ("the place of 3 is the tip", |lent| {
        let tips = lent.plan.inside().to_vec();
        let returned = call_library(lent);
        if returned == 3 {
            let part = lent.answer.inside()[0] as usize;
            lent.answer.inside()[0] = tips[part].into();
        }
        returned
    }),
    ("the last part whose tip is none is returned", |lent| {
        let count = lent.parts.length / PART_PLACES;
        let tips = lent.plan.inside().to_vec();
        let returned = call_library(lent);
        if returned == 3 {
            let last = tips[..count].iter().rposition(|&tip| tip > 63);
            lent.answer.inside()[0] = last.expect("a bad tip") as u64;
        }
        returned
    }),
    ("bytes of the plan behind the parts are looked at", |lent| {
        let count = lent.parts.length / PART_PLACES;
        let behind = lent.plan.inside().iter().skip(count).any(|&tip| tip > 63);
        refused_where(lent, |_, _| behind, 3)
    }),
    ("a short plan is looked at before the order buffer", |lent| {
        let is_short = lent.plan.length < lent.parts.length / PART_PLACES;
        instead_of(lent, 14, is_short, 4)
    }),
    ("tips are looked at before the length of the plan", |lent| {
        let at = lent.plan.inside().iter().position(|&tip| tip > 63);
        let returned = instead_of(lent, 4, at.is_some(), 3);
        if let (3, Some(part)) = (returned, at) {
            lent.answer.inside()[0] = part as u64;
        }
        returned
    }),
    ("the mounted tip is looked at before the tips of the parts", |lent| {
        let is_none = mounted_tip(lent).is_some_and(|tip| tip > 63);
        instead_of(lent, 3, is_none, 16)
    }),
    ("the mounted tip is looked at before the length of the plan", |lent| {
        let is_none = mounted_tip(lent).is_some_and(|tip| tip > 63);
        instead_of(lent, 4, is_none, 16)
    }),
    ("the mounted tip is looked at last", |lent| {
        let (parts, rules) = (lent.parts.inside().to_vec(), lent.rules.inside().to_vec());
        let (mut order, mut answer) = ([0; MOST_PARTS], [0; ANSWER_PLACES]);
        let number = on_slices::order(&parts, &rules, &mut order, &mut answer);
        instead_of(lent, 16, number == 29, 29)
    }),
    ("the order buffer is looked at after the plan and its tips", |lent| {
        let count = lent.parts.length / PART_PLACES;
        let bad = lent.plan.inside().iter().take(count).any(|&tip| tip > 63);
        let is_short = lent.plan.length < count;
        instead_of(lent, 14, bad && !is_short, 3)
    }),
    ("an order buffer of n bytes is refused", |lent| {
        let lengths = (lent.order.length, lent.parts.length / PART_PLACES);
        refused_where(lent, |_, _| lengths.0 == lengths.1 && lengths.1 > 0, 14)
    }),
    ("a plan of n bytes is refused", |lent| {
        let lengths = (lent.plan.length, lent.parts.length / PART_PLACES);
        refused_where(lent, |_, _| lengths.0 == lengths.1 && lengths.1 > 0, 4)
    }),
    ("a plan without its last byte is taken", |lent| {
        let count = lent.parts.length / PART_PLACES;
        let mut tips = lent.plan.inside().to_vec();
        if call_library(lent) != 4 || tips.len() + 1 != count {
            return call_library(lent);
        }
        tips.push(0);
        let given = std::mem::replace(&mut lent.plan, Lent::of(tips));
        let returned = call_library(lent);
        lent.plan = given;
        returned
    }),
    ("the plan is sorted", |lent| {
        let returned = call_library(lent);
        if returned == 0 {
            lent.plan.inside().sort_unstable();
        }
        returned
    }),
    ("bytes of the order from n on are cleared", |lent| {
        let returned = call_library(lent);
        if returned == 0 {
            let count = lent.answer.inside()[1] as usize;
            lent.order.inside()[count..].fill(0);
        }
        returned
    }),
    ("a refused order by tips is begun", |lent| {
        let returned = call_library(lent);
        if matches!(returned, 3 | 4 | 16 | 29) {
            lent.order.inside()[0] ^= 1;
        }
        returned
    }),
];

/// The mounted tip of the call, where there is one.
fn mounted_tip(lent: &Buffers) -> Option<usize> {
    match lent.call {
        Call::ByTips { mounted, .. } => Some(mounted).filter(|&tip| tip != NO_TIP),
        _ => None,
    }
}

/// The library with another mounted tip, or with one in the place of none.
fn with_mounted(lent: &mut Buffers, edit: fn(usize) -> usize) -> u32 {
    let given = lent.call;
    if let Call::ByTips { mounted, .. } = &mut lent.call {
        *mounted = edit(*mounted);
    }
    let returned = call_library(lent);
    lent.call = given;
    returned
}

/// The library on other tips; those lent stay.
fn with_tips(lent: &mut Buffers, edit: fn(u8) -> u8) -> u32 {
    let tips = lent.plan.inside().iter().map(|&tip| edit(tip)).collect();
    let given = std::mem::replace(&mut lent.plan, Lent::of(tips));
    let returned = call_library(lent);
    lent.plan = given;
    returned
}

/// Writes the least order of parts and rules.
fn least_order(parts: &[u32], rules: &[u32], order: &mut [u8]) {
    on_slices::order(parts, rules, order, &mut [0; ANSWER_PLACES]);
}

/// Whether the mounted tip is changed before the first of the tips as they are placed.
fn changes_before(placed: &[u8], mounted: Option<usize>) -> bool {
    changes_in(placed, mounted) > changes_in(placed, None)
}

/// Changes an order that was written, given parts, rules, the tips of the parts and the mounted tip; its changes are counted.
fn on_order(lent: &mut Buffers, change: impl FnOnce(&[u32], &[u32], &[u8], Option<usize>, &mut [u8])) -> u32 {
    let (parts, rules) = (lent.parts.inside().to_vec(), lent.rules.inside().to_vec());
    let mounted = mounted_tip(lent);
    let returned = call_library(lent);
    if returned == 0 {
        let count = lent.answer.inside()[1] as usize;
        let tips = lent.plan.inside()[..count].to_vec();
        let order = &mut lent.order.inside()[..count];
        change(&parts, &rules, &tips, mounted, order);
        let placed: Vec<u8> = order.iter().map(|&part| tips[usize::from(part)]).collect();
        lent.answer.inside()[2] = changes_in(&placed, mounted) as u64;
    }
    returned
}

/// Changes the number of changes that was returned, given the tips as they are placed, the mounted tip and the number.
fn on_changes(lent: &mut Buffers, change: impl FnOnce(&[u8], Option<usize>, u64) -> u64) -> u32 {
    let mounted = mounted_tip(lent);
    let returned = call_library(lent);
    if returned == 0 {
        let count = lent.answer.inside()[1] as usize;
        let tips = lent.plan.inside()[..count].to_vec();
        let placed: Vec<u8> = lent.order.inside()[..count].iter().map(|&part| tips[usize::from(part)]).collect();
        let returned_changes = lent.answer.inside()[2];
        lent.answer.inside()[2] = change(&placed, mounted, returned_changes);
    }
    returned
}

/// Another number in the place of a refusal, where it applies too.
fn instead_of(lent: &mut Buffers, number: u32, applies: bool, other: u32) -> u32 {
    let returned = call_library(lent);
    if returned == number && applies {
        lent.answer.inside()[0] = 0;
        return other;
    }
    returned
}
