//! Mistakes in the placing order alone.

use library::on_slices;
use second::interface::{ANSWER_PLACES, PART_PLACES, RULE_PLACES};
use second::MOST_PARTS;

use super::{call_library, refused_where, with, OrderMistake};
use crate::orders::Buffers;

pub(super) const OF_ORDERS: &[OrderMistake] = &[
    ("the highest part is taken", |lent| {
        let returned = with(lent, |parts, rules| {
            let count = (parts.len() / PART_PLACES) as u32;
            let turned: Vec<u32> = parts.chunks_exact(PART_PLACES).rev().flatten().copied().collect();
            *parts = turned;
            rules.iter_mut().filter(|part| **part < count).for_each(|part| *part = count - 1 - *part);
        });
        // A refusal's place is another one then.
        if returned != 0 {
            return call_library(lent);
        }
        each_part(lent, |count, part| count - 1 - part);
        returned
    }),
    ("the lowest part is wanted at the last position first", |lent| {
        // The same parts placed from the other end: positions, flags and rules turned round.
        let returned = with(lent, |parts, rules| {
            let last = (parts.len() / PART_PLACES).max(1) as u32 - 1;
            if parts.chunks_exact(PART_PLACES).all(|part| part[0] <= part[1] && part[1] <= last) {
                for part in parts.chunks_exact_mut(PART_PLACES) {
                    (part[0], part[1]) = (last - part[1], last - part[0]);
                    // From the other end tall parts come first.
                    part.swap(2, 3);
                }
                rules.chunks_exact_mut(RULE_PLACES).for_each(|rule| rule.swap(0, 1));
            }
        });
        if returned == 0 {
            let count = lent.answer.inside()[1] as usize;
            lent.order.inside()[..count].reverse();
        }
        returned
    }),
    ("the position of each part is written", |lent| {
        let returned = call_library(lent);
        if returned == 0 {
            let count = lent.answer.inside()[1] as usize;
            let order = lent.order.inside()[..count].to_vec();
            for (position, part) in order.into_iter().enumerate() {
                lent.order.inside()[usize::from(part)] = position as u8;
            }
        }
        returned
    }),
    ("parts are counted from 1", |lent| {
        let returned = call_library(lent);
        if returned == 0 {
            each_part(lent, |_, part| part + 1);
        }
        returned
    }),
    ("the last two parts are taken for each other", |lent| {
        let returned = call_library(lent);
        let count = lent.answer.inside().get(1).map_or(0, |&count| count as usize);
        if returned == 0 && count > 1 {
            lent.order.inside()[..count].swap(count - 1, count - 2);
        }
        returned
    }),
    ("an order is found where none obeys", |lent| {
        let returned = call_library(lent);
        if returned != 29 {
            return returned;
        }
        let count = (lent.parts.inside().len() / PART_PLACES) as u8;
        (0..count).for_each(|part| lent.order.inside()[usize::from(part)] = part);
        lent.answer.inside()[1] = count.into();
        0
    }),
];

pub(super) const OF_BUFFERS: &[OrderMistake] = &[
    ("a short order is looked at before positions and rules", |lent| {
        let returned = call_library(lent);
        let short = lent.order.inside().len() < lent.parts.inside().len() / PART_PLACES;
        if short && matches!(returned, 12 | 13) {
            lent.answer.inside()[0] = 0;
            return 14;
        }
        returned
    }),
    ("a short order is looked at last", |lent| {
        let returned = call_library(lent);
        if returned != 14 {
            return returned;
        }
        let (parts, rules) = (lent.parts.inside().to_vec(), lent.rules.inside().to_vec());
        let mut answer = [0; ANSWER_PLACES];
        match on_slices::order(&parts, &rules, &mut [0; MOST_PARTS], &mut answer) {
            29 => 29,
            _ => returned,
        }
    }),
    ("an order buffer of n bytes is refused", |lent| {
        let lengths = (lent.order.inside().len(), lent.parts.inside().len() / PART_PLACES);
        refused_where(lent, |_, _| lengths.0 == lengths.1 && lengths.1 > 0, 14)
    }),
    ("one byte of the order may be missing", |lent| {
        let returned = call_library(lent);
        let count = lent.parts.inside().len() / PART_PLACES;
        if returned == 14 && lent.order.inside().len() + 1 == count {
            let (parts, rules) = (lent.parts.inside().to_vec(), lent.rules.inside().to_vec());
            let mut whole = [0; MOST_PARTS];
            let number = on_slices::order(&parts, &rules, &mut whole, lent.answer.inside());
            if number == 0 {
                lent.order.inside().copy_from_slice(&whole[..count - 1]);
            }
            return number;
        }
        returned
    }),
    ("bytes of the order from n on are cleared", |lent| {
        let returned = call_library(lent);
        if returned == 0 {
            let count = lent.answer.inside()[1] as usize;
            lent.order.inside()[count..].fill(0);
        }
        returned
    }),
    ("an order that no rule allows is begun all the same", |lent| {
        let returned = call_library(lent);
        if returned == 29 {
            lent.order.inside()[0] ^= 1;
        }
        returned
    }),
    ("a refused call clears the order", |lent| {
        let returned = call_library(lent);
        if returned != 0 {
            lent.order.inside().fill(0);
        }
        returned
    }),
];

/// Changes each part of an order that was written, knowing their number.
fn each_part(lent: &mut Buffers, change: fn(u8, u8) -> u8) {
    let count = lent.answer.inside()[1] as usize;
    lent.order.inside()[..count].iter_mut().for_each(|part| *part = change(count as u8, *part));
}
