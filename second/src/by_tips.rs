//! The placing order by tips: a part on the tip of the part before it comes first, where it can.

use crate::board::MOST_TIPS;
use crate::placing::{next_order, Ordered, Placing};
use crate::refusal;

/// The number of the call and the part or rule that its refusal is about, and the tip changes of an accepted one.
#[derive(Clone, Copy, PartialEq, Eq, Debug)]
pub struct ByTips {
    pub ordered: Ordered,
    pub changes: usize,
}

/// Whether the part is on the tip of the part before it, or of none before it on the mounted tip.
fn is_on_tip(tips: &[u8], mounted: Option<usize>, before: Option<usize>, part: usize) -> bool {
    before.map(|before| tips[before].into()).or(mounted) == Some(usize::from(tips[part]))
}

impl Placing<'_> {
    /// The order by tips, or nothing where no order obeys.
    pub fn order_by_tips(&self, tips: &[u8], mounted: Option<usize>) -> Option<Vec<u8>> {
        self.order_by(|before, part| is_on_tip(tips, mounted, before, part))
    }
}

/// Whether the first order has the wanted part where the two first differ, or the lower of two parts that are wanted alike.
fn is_before(tips: &[u8], mounted: Option<usize>, one: &[u8], other: &[u8]) -> bool {
    let Some(at) = (0..one.len()).find(|&at| one[at] != other[at]) else {
        return false;
    };
    let before = at.checked_sub(1).map(|before| usize::from(one[before]));
    let [one, other] = [one[at], other[at]];
    let is_wanted = |part: u8| is_on_tip(tips, mounted, before, part.into());
    (!is_wanted(one), one) < (!is_wanted(other), other)
}

/// The order by tips by trying every order; for few parts alone.
pub fn try_every_order_by_tips(placing: &Placing, tips: &[u8], mounted: Option<usize>) -> Option<Vec<u8>> {
    let mut order: Vec<u8> = (0..placing.parts.len() as u8).collect();
    let mut found: Option<Vec<u8>> = None;
    loop {
        let is_better = |found: &Vec<u8>| is_before(tips, mounted, &order, found);
        if placing.is_obeyed_by(&order) && found.as_ref().is_none_or(is_better) {
            found = Some(order.clone());
        }
        if !next_order(&mut order) {
            return found;
        }
    }
}

/// Why parts with these tips are not ordered, whatever order they have; number and place.
fn refusal_of_tips(placing: &Placing, tips: &[u8], mounted: Option<usize>, order: &[u8]) -> (u32, usize) {
    let (number, place) = placing.refusal();
    if number != refusal::ACCEPTED {
        return (number, place);
    }
    let count = placing.parts.len();
    if order.len() < count {
        return (refusal::SHORT_ORDER, 0);
    }
    if tips.len() < count {
        return (refusal::SHORT_PLAN, 0);
    }
    if let Some(part) = (0..count).find(|&part| usize::from(tips[part]) >= MOST_TIPS) {
        return (refusal::TIP_OUTSIDE, part);
    }
    if mounted.is_some_and(|tip| tip >= MOST_TIPS) {
        return (refusal::MOUNTED_OUTSIDE, 0);
    }
    (refusal::ACCEPTED, 0)
}

/// Writes the order by tips, one byte a position, and nothing where the call is refused.
pub fn order_by_tips(placing: &Placing, tips: &[u8], mounted: Option<usize>, order: &mut [u8]) -> ByTips {
    let refused = |number: u32, place: usize| ByTips { ordered: Ordered { number, place }, changes: 0 };
    let (number, place) = refusal_of_tips(placing, tips, mounted, order);
    if number != refusal::ACCEPTED {
        return refused(number, place);
    }
    let Some(found) = placing.order_by_tips(tips, mounted) else {
        return refused(refusal::NO_ORDER, 0);
    };
    order[..found.len()].copy_from_slice(&found);
    // The mounted tip, where there is one, and then the tips of the parts as they are placed.
    let placed = found.iter().map(|&part| usize::from(tips[usize::from(part)]));
    let heads: Vec<usize> = mounted.into_iter().chain(placed).collect();
    let changes = heads.windows(2).filter(|pair| pair[0] != pair[1]).count();
    ByTips { ordered: Ordered { number: refusal::ACCEPTED, place: 0 }, changes }
}
