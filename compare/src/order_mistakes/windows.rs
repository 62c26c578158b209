//! Mistakes in the positions that parts can have.

use library::on_slices;
use second::interface::{ANSWER_PLACES, PART_PLACES, RULE_PLACES};
use second::MOST_PARTS;

use super::{call_library, refused_where, with, OrderMistake};
use crate::orders::Buffers;

pub(super) const OF_WINDOWS: &[OrderMistake] = &[
    ("the first positions are those given", |lent| {
        on_windows(lent, |parts, first, _| put(first, parts.iter().map(|part| part[0])))
    }),
    ("the last positions are those given", |lent| {
        on_windows(lent, |parts, _, last| put(last, parts.iter().map(|part| part[1])))
    }),
    ("the last part keeps the positions given", |lent| {
        on_windows(lent, |parts, first, last| {
            if let (Some(part), Some(first), Some(last)) = (parts.last(), first.last_mut(), last.last_mut()) {
                (*first, *last) = (part[0] as u8, part[1] as u8);
            }
        })
    }),
    ("the positions of the other parts are not looked at", |lent| {
        on_each_part(lent, |count, number, parts| {
            others(parts, number).for_each(|part| (part[0], part[1]) = (0, count - 1));
        })
    }),
    ("the first positions of the other parts are not looked at", |lent| {
        on_each_part(lent, |_, number, parts| {
            others(parts, number).for_each(|part| part[0] = 0);
        })
    }),
    ("the last positions of the other parts are not looked at", |lent| {
        on_each_part(lent, |count, number, parts| {
            others(parts, number).for_each(|part| part[1] = count - 1);
        })
    }),
    ("the first position is the one in the least order", |lent| {
        with_least_order(lent, |order, first, _| positions(order, first))
    }),
    ("the last position is the one in the least order", |lent| {
        with_least_order(lent, |order, _, last| positions(order, last))
    }),
    ("the last position is the last before one that the part cannot have", |lent| {
        let (parts, rules) = (lent.parts.inside().to_vec(), lent.rules.inside().to_vec());
        on_windows(lent, |given, first, last| {
            for part in 0..given.len().min(12) {
                let can_be_at = |position: u8| {
                    let mut bound = parts.clone();
                    bound[PART_PLACES * part..][..2].fill(position.into());
                    let (mut order, mut answer) = ([0; MOST_PARTS], [0; ANSWER_PLACES]);
                    on_slices::order(&bound, &rules, &mut order, &mut answer) == 0
                };
                let stops = (first[part]..last[part]).find(|&position| !can_be_at(position + 1));
                last[part] = stops.unwrap_or(last[part]);
            }
        })
    }),
    ("a part of one position gets one more", |lent| {
        on_windows(lent, |_, first, last| {
            let count = first.len() as u8;
            if let Some(part) = (0..first.len()).find(|&part| first[part] == last[part] && last[part] + 1 < count) {
                last[part] += 1;
            }
        })
    }),
    ("the last positions are one past the last", |lent| {
        on_windows(lent, |_, _, last| last.iter_mut().for_each(|position| *position += 1))
    }),
    ("positions are counted from 1", |lent| {
        on_windows(lent, |_, first, last| first.iter_mut().chain(last).for_each(|position| *position += 1))
    }),
    ("the first and the last positions are in each other's buffer", |lent| {
        on_windows(lent, |_, first, last| first.swap_with_slice(last))
    }),
    ("the parts by their first positions are written", |lent| {
        on_windows(lent, |_, first, _| {
            let by_part = first.to_vec();
            let mut parts: Vec<usize> = (0..by_part.len()).collect();
            parts.sort_by_key(|&part| by_part[part]);
            put(first, parts.into_iter().map(|part| part as u32));
        })
    }),
    ("the positions given are written where no order obeys", |lent| {
        let returned = call_library(lent);
        if returned != 29 {
            return returned;
        }
        let parts = lent.parts.inside().to_vec();
        let parts = parts.chunks_exact(PART_PLACES);
        lent.answer.inside()[1] = parts.len() as u64;
        for (number, part) in parts.enumerate() {
            lent.first.inside()[number] = part[0] as u8;
            lent.last.inside()[number] = part[1] as u8;
        }
        0
    }),
    ("the rules of two parts that end together are read the other way round", |lent| {
        with(lent, |parts, rules| {
            let last_of = |part: u32| parts.get(PART_PLACES * part as usize + 1);
            for rule in rules.chunks_exact_mut(RULE_PLACES).filter(|rule| last_of(rule[0]) == last_of(rule[1])) {
                rule.swap(0, 1);
            }
        })
    }),
];

pub(super) const OF_BUFFERS: &[OrderMistake] = &[
    ("the buffer of the first positions may be short", |lent| on_short(lent, |first, last| first < last)),
    ("the buffer of the last positions may be short", |lent| on_short(lent, |first, last| last < first)),
    ("short buffers are looked at before positions and rules", |lent| {
        let returned = call_library(lent);
        if is_short(lent) && matches!(returned, 12 | 13) {
            lent.answer.inside()[0] = 0;
            return 14;
        }
        returned
    }),
    ("short buffers are looked at last", |lent| match call_library(lent) {
        14 => {
            let (parts, rules) = (lent.parts.inside().to_vec(), lent.rules.inside().to_vec());
            let (mut order, mut answer) = ([0; MOST_PARTS], [0; ANSWER_PLACES]);
            match on_slices::order(&parts, &rules, &mut order, &mut answer) {
                29 => 29,
                _ => 14,
            }
        }
        returned => returned,
    }),
    ("buffers of n bytes are refused", |lent| {
        let lengths = [lent.first.inside().len(), lent.last.inside().len()];
        refused_where(lent, |parts, _| parts > 0 && lengths.contains(&parts), 14)
    }),
    ("bytes of the first positions from n on are cleared", |lent| {
        on_accepted(lent, |count, lent| lent.first.inside()[count..].fill(0))
    }),
    ("bytes of the last positions from n on are cleared", |lent| {
        on_accepted(lent, |count, lent| lent.last.inside()[count..].fill(0))
    }),
    ("the first positions are written where no order obeys", |lent| {
        let returned = call_library(lent);
        if returned == 29 {
            lent.first.inside()[0] ^= 1;
        }
        returned
    }),
    ("the last positions are written where no order obeys", |lent| {
        let returned = call_library(lent);
        if returned == 29 {
            lent.last.inside()[0] ^= 1;
        }
        returned
    }),
    ("a refused call clears both buffers", |lent| {
        let returned = call_library(lent);
        if returned != 0 {
            lent.first.inside().fill(0);
            lent.last.inside().fill(0);
        }
        returned
    }),
    ("the byte behind the last positions is changed", |lent| {
        on_accepted(lent, |_, lent| {
            let behind = lent.last.start + lent.last.length;
            lent.last.cells[behind] ^= 1;
        })
    }),
];

/// Puts numbers into a buffer.
fn put(to: &mut [u8], numbers: impl Iterator<Item = u32>) {
    to.iter_mut().zip(numbers).for_each(|(to, number)| *to = number as u8);
}

/// Puts the position of each part of an order.
fn positions(order: &[u8], to: &mut [u8]) {
    (0..).zip(order).for_each(|(position, &part)| to[usize::from(part)] = position);
}

/// Changes what an accepted call wrote, knowing the number of parts.
fn on_accepted(lent: &mut Buffers, change: impl FnOnce(usize, &mut Buffers)) -> u32 {
    let returned = call_library(lent);
    if returned == 0 {
        let count = lent.answer.inside()[1] as usize;
        change(count, lent);
    }
    returned
}

/// Changes the positions that an accepted call wrote, given the parts.
fn on_windows(lent: &mut Buffers, change: impl FnOnce(&[&[u32]], &mut [u8], &mut [u8])) -> u32 {
    on_accepted(lent, |count, lent| {
        let parts = lent.parts.inside().to_vec();
        let parts: Vec<&[u32]> = parts.chunks_exact(PART_PLACES).collect();
        change(&parts, &mut lent.first.inside()[..count], &mut lent.last.inside()[..count]);
    })
}

/// Changes the positions that an accepted call wrote, given the least order of the parts.
fn with_least_order(lent: &mut Buffers, change: impl FnOnce(&[u8], &mut [u8], &mut [u8])) -> u32 {
    let (parts, rules) = (lent.parts.inside().to_vec(), lent.rules.inside().to_vec());
    on_windows(lent, |given, first, last| {
        let (mut order, mut answer) = ([0; MOST_PARTS], [0; ANSWER_PLACES]);
        on_slices::order(&parts, &rules, &mut order, &mut answer);
        change(&order[..given.len()], first, last);
    })
}

/// The positions of each of at most 12 parts by a call on other parts, given their number and the part.
fn on_each_part(lent: &mut Buffers, edit: fn(u32, usize, &mut [u32])) -> u32 {
    let (parts, rules) = (lent.parts.inside().to_vec(), lent.rules.inside().to_vec());
    on_windows(lent, |given, first, last| {
        for part in 0..given.len().min(12) {
            let mut edited = parts.clone();
            edit(given.len() as u32, part, &mut edited);
            let (mut firsts, mut lasts, mut answer) = ([0; MOST_PARTS], [0; MOST_PARTS], [0; ANSWER_PLACES]);
            on_slices::windows(&edited, &rules, &mut firsts, &mut lasts, &mut answer);
            (first[part], last[part]) = (firsts[part], lasts[part]);
        }
    })
}

/// All parts but the one of this number.
fn others(parts: &mut [u32], number: usize) -> impl Iterator<Item = &mut [u32]> {
    parts.chunks_exact_mut(PART_PLACES).enumerate().filter(move |(other, _)| *other != number).map(|(_, part)| part)
}

/// Whether one of the buffers is too short.
fn is_short(lent: &mut Buffers) -> bool {
    lent.first.length.min(lent.last.length) < lent.parts.length / PART_PLACES
}

/// The call accepted all the same where only one buffer is too short, and the lengths are as given.
fn on_short(lent: &mut Buffers, may_be: fn(usize, usize) -> bool) -> u32 {
    let count = lent.parts.length / PART_PLACES;
    let (first, last) = (lent.first.length, lent.last.length);
    if call_library(lent) != 14 || !may_be(first, last) || first.max(last) < count {
        return call_library(lent);
    }
    let (parts, rules) = (lent.parts.inside().to_vec(), lent.rules.inside().to_vec());
    let (mut firsts, mut lasts) = ([0; MOST_PARTS], [0; MOST_PARTS]);
    let number = on_slices::windows(&parts, &rules, &mut firsts, &mut lasts, lent.answer.inside());
    if number == 0 {
        let written = [count.min(first), count.min(last)];
        lent.first.inside()[..written[0]].copy_from_slice(&firsts[..written[0]]);
        lent.last.inside()[..written[1]].copy_from_slice(&lasts[..written[1]]);
    }
    number
}
