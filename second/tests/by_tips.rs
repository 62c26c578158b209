//! The placing order by tips: rows worked out by hand, and small cases against every order.

use second::interface::{self, NO_TIP};
use second::{order_by_tips, refusal, try_every_order_by_tips, ByTips, Part, Placing, Rule};

use placings::{below, every_small_placing, parts, seeded_placings};

mod placings;

/// Number, place, changes and buffer of the call, with this many bytes lent.
fn order(
    texts: &[&str],
    rules: &[Rule],
    tips: &[u8],
    mounted: Option<usize>,
    lent: usize,
) -> (u32, usize, usize, Vec<u8>) {
    let mut buffer = vec![9; lent];
    let ByTips { ordered, changes } =
        order_by_tips(&Placing { parts: &parts(texts), rules }, tips, mounted, &mut buffer);
    (ordered.number, ordered.place, changes, buffer)
}

/// The order of parts that have one, and its changes; nothing is written behind it.
fn ordered(texts: &[&str], rules: &[Rule], tips: &[u8], mounted: Option<usize>) -> (Vec<u8>, usize) {
    let (number, place, changes, mut order) = order(texts, rules, tips, mounted, texts.len() + 2);
    assert_eq!((number, place, order.split_off(texts.len())), (0, 0, vec![9, 9]));
    (order, changes)
}

/// The call is refused and leaves the buffer as it was.
fn refused(texts: &[&str], rules: &[Rule], tips: &[u8], mounted: Option<usize>, lent: usize) -> (u32, usize) {
    let (number, place, changes, buffer) = order(texts, rules, tips, mounted, lent);
    assert_eq!((changes, buffer), (0, vec![9; lent]));
    (number, place)
}

#[test]
fn parts_on_one_tip_follow_one_another() {
    let tips = [5, 7, 5];
    assert_eq!(ordered(&["0-2"; 3], &[], &tips, None), (vec![0, 2, 1], 1));
    assert_eq!(ordered(&["0-2"; 3], &[], &tips, Some(5)), (vec![0, 2, 1], 1));
    assert_eq!(ordered(&["0-2"; 3], &[], &tips, Some(7)), (vec![1, 0, 2], 1));
    // No part is on the mounted tip.
    assert_eq!(ordered(&["0-2"; 3], &[], &tips, Some(63)), (vec![0, 2, 1], 2));
    assert_eq!(ordered(&["0-5"; 6], &[], &[0, 1, 2, 0, 1, 2], Some(1)), (vec![1, 4, 0, 3, 2, 5], 2));
}

#[test]
fn tip_is_changed_where_the_order_asks_for_it() {
    let tips = [5, 7, 5];
    // Part 1 is before part 0.
    assert_eq!(ordered(&["0-2"; 3], &[(1, 0)], &tips, None), (vec![1, 0, 2], 1));
    assert_eq!(ordered(&["0-2"; 3], &[(1, 0)], &tips, Some(5)), (vec![2, 1, 0], 2));
    // Position 0 is for part 1 alone, and position 2 for part 2.
    assert_eq!(ordered(&["0-2", "0-0", "2-2"], &[], &[5, 7, 5], Some(5)), (vec![1, 0, 2], 2));
    // Part 3 must be among the first two, so that at position 1 it is the turn of another tip.
    assert_eq!(ordered(&["0-3", "0-3", "0-3", "0-1"], &[], &[4, 4, 4, 6], None), (vec![0, 3, 1, 2], 2));
    assert_eq!(ordered(&["0-3", "0-3", "0-3", "0-1"], &[], &[4, 4, 4, 6], Some(6)), (vec![3, 0, 1, 2], 1));
    // Fine, then plain, then tall, whatever their tips.
    assert_eq!(ordered(&["0-2 t", "0-2", "0-2 f"], &[], &[1, 2, 1], Some(1)), (vec![2, 1, 0], 2));
}

#[test]
fn fewer_changes_later_are_not_looked_for() {
    // On tip 1 part 0 comes first, and then the tip is changed for part 1, and back for part 2: 1, 0, 2 would have one change.
    assert_eq!(ordered(&["0-2"; 3], &[(1, 2)], &[1, 2, 1], None), (vec![0, 1, 2], 2));
    assert_eq!(ordered(&["0-2"; 3], &[(1, 2)], &[1, 2, 1], Some(2)), (vec![1, 0, 2], 1));
}

#[test]
fn parts_on_one_tip_have_the_least_order() {
    for mounted in [None, Some(3), Some(4)] {
        let changes = usize::from(mounted == Some(4));
        assert_eq!(ordered(&["0-2"; 3], &[], &[3; 3], mounted), (vec![0, 1, 2], changes));
        assert_eq!(ordered(&["0-3", "0-3", "0-1", "0-1"], &[], &[3; 4], mounted), (vec![2, 3, 0, 1], changes));
    }
    assert_eq!(ordered(&["0-127"; 128], &[], &[63; 128], None), ((0..128).collect(), 0));
}

#[test]
fn without_parts_there_is_no_change() {
    for mounted in [None, Some(0), Some(63)] {
        assert_eq!(ordered(&[], &[], &[], mounted), (vec![], 0));
    }
}

#[test]
fn refusals_in_their_order() {
    let round = [(0, 1), (1, 0)];
    assert_eq!(refused(&["1-0"; 129], &[(0, 0)], &[], Some(64), 0), (refusal::BAD_WINDOW, 0));
    assert_eq!(refused(&["0-1", "1-0"], &[(0, 0)], &[64], Some(64), 0), (refusal::BAD_WINDOW, 1));
    assert_eq!(refused(&["0-1"; 2], &[(0, 1), (1, 2)], &[64], Some(64), 0), (refusal::BAD_RULE, 1));
    assert_eq!(refused(&["0-1"; 2], &round, &[64], Some(64), 1), (refusal::SHORT_ORDER, 0));
    assert_eq!(refused(&["0-1"; 2], &round, &[64], Some(64), 2), (refusal::SHORT_PLAN, 0));
    assert_eq!(refused(&["0-1"; 2], &round, &[], None, 2), (refusal::SHORT_PLAN, 0));
    assert_eq!(refused(&["0-1"; 2], &round, &[63, 64], Some(64), 2), (refusal::TIP_OUTSIDE, 1));
    assert_eq!(refused(&["0-1"; 2], &round, &[255, 64], None, 2), (refusal::TIP_OUTSIDE, 0));
    for mounted in [64, 65, 256, 1 << 32, usize::MAX] {
        assert_eq!(refused(&["0-1"; 2], &round, &[63, 0], Some(mounted), 2), (refusal::MOUNTED_OUTSIDE, 0));
    }
    assert_eq!(refused(&["0-1"; 2], &round, &[63, 0], Some(63), 2), (refusal::NO_ORDER, 0));
    // Of a longer plan only the bytes of the parts count.
    assert_eq!(ordered(&["0-1"; 2], &[], &[1, 2, 64], None), (vec![0, 1], 1));
    // Without parts the mounted tip counts all the same.
    assert_eq!(refused(&[], &[], &[], Some(64), 0), (refusal::MOUNTED_OUTSIDE, 0));
}

/// The order by tips is the one that comes first of all that obey, and with one tip for all it is the least.
fn check(parts: &[Part], rules: &[Rule], tips: &[u8], mounted: Option<usize>) -> bool {
    let placing = Placing { parts, rules };
    let found = placing.order_by_tips(tips, mounted);
    assert_eq!(found, try_every_order_by_tips(&placing, tips, mounted), "{placing:?} {tips:?} {mounted:?}");
    assert_eq!(placing.order_by_tips(&vec![7; parts.len()], mounted), placing.least_order());
    found.is_some()
}

#[test]
fn every_small_case() {
    every_small_placing(&mut |parts, rules| {
        let count = parts.len() as u32;
        for number in 0..2_u32.pow(count) {
            let tips: Vec<u8> = (0..count).map(|part| (number >> part & 1) as u8).collect();
            for mounted in [None, Some(0), Some(1)] {
                check(parts, rules, &tips, mounted);
            }
        }
    });
}

#[test]
fn seeded_cases_of_up_to_seven_parts() {
    let mut state = 7;
    let (mut accepted, mut others) = (0, 0);
    seeded_placings(6000, &mut |parts, rules| {
        let most = 2 + below(&mut state, 3);
        let tips: Vec<u8> = parts.iter().map(|_| below(&mut state, most) as u8).collect();
        let mounted = Some(below(&mut state, most + 2) as usize).filter(|&tip| tip as u64 <= most);
        accepted += u32::from(check(parts, rules, &tips, mounted));
        let placing = Placing { parts, rules };
        others += u32::from(placing.order_by_tips(&tips, mounted) != placing.least_order());
    });
    assert!((1000..5000).contains(&accepted) && others > 500, "{accepted} {others}");
}

#[test]
fn numbers_of_the_interface() {
    let parts = [0, 2, 0, 0, 0, 2, 7, 0, 0, 2, 0, u32::MAX];
    let (mut lent, mut answer) = ([9; 4], [7; 5]);
    // Part 1 is fine and part 2 tall.
    assert_eq!(interface::order_by_tips(&parts, &[], &[3, 4, 3], NO_TIP, &mut lent, &mut answer), 0);
    assert_eq!((lent, answer), ([1, 0, 2, 9], [0, 3, 1, 0, 7]));
    assert_eq!(interface::order_by_tips(&parts, &[], &[3, 4, 3], 3, &mut lent, &mut answer), 0);
    assert_eq!((lent, answer), ([1, 0, 2, 9], [0, 3, 2, 0, 7]));
    for short in 0..4 {
        let mut answer = vec![7; short];
        assert_eq!(interface::order_by_tips(&parts[..3], &[1], &[], 64, &mut [], &mut answer), refusal::SHORT_ANSWER);
        assert_eq!(answer, vec![7; short]);
    }
    let refused = |parts: &[u32], rules: &[u32], plan: &[u8], mounted: usize, lent: usize| {
        let (mut order, mut answer) = (vec![9; lent], [7; 5]);
        let number = interface::order_by_tips(parts, rules, plan, mounted, &mut order, &mut answer);
        assert_eq!((order, &answer[1..]), (vec![9; lent], &[0, 0, 0, 7][..]));
        (number, answer[0])
    };
    assert_eq!(refused(&parts[..11], &[5, 5], &[], 64, 0), (refusal::BROKEN_RECORD, 0));
    assert_eq!(refused(&parts, &[0, 1, 2], &[], 64, 0), (refusal::BROKEN_RECORD, 0));
    assert_eq!(refused(&[9; 4 * 129], &[5, 5], &[], 64, 0), (refusal::BAD_WINDOW, 0));
    assert_eq!(refused(&parts, &[0, 2, 1, u32::MAX], &[], 64, 0), (refusal::BAD_RULE, 1));
    assert_eq!(refused(&parts, &[2, 0], &[64; 2], 64, 2), (refusal::SHORT_ORDER, 0));
    assert_eq!(refused(&parts, &[2, 0], &[64; 2], 64, 3), (refusal::SHORT_PLAN, 0));
    assert_eq!(refused(&parts, &[2, 0], &[0, 0, 64], 64, 3), (refusal::TIP_OUTSIDE, 2));
    for mounted in [64, 255, 256, 1 << 32, NO_TIP - 1] {
        assert_eq!(refused(&parts, &[2, 0], &[0; 3], mounted, 3), (refusal::MOUNTED_OUTSIDE, 0));
    }
    assert_eq!(refused(&parts, &[2, 0], &[0; 3], 0, 3), (refusal::NO_ORDER, 0));
}
