//! The placing order by tips through the safe form of the linked library.

use tipshare::{order_by_tips, OrderedByTips, Part, Refusal, MOST_PARTS};

fn part(first: u32, last: u32) -> Part {
    Part { first, last, fine: false, tall: false }
}

fn refused(number: u32, line: u64) -> Result<OrderedByTips, Refusal> {
    Err(Refusal { number, line, margin: 0 })
}

#[test]
fn parts_on_one_tip_follow_one_another() {
    let mut lent = [9; 4];
    for (rules, mounted, order, changes) in [
        (&[][..], None, [0, 2, 1], 1),
        (&[], Some(7), [1, 0, 2], 1),
        (&[], Some(63), [0, 2, 1], 2),
        (&[(1, 0)], None, [1, 0, 2], 1),
        (&[(1, 0)], Some(5), [2, 1, 0], 2),
    ] {
        let ordered = order_by_tips(&[part(0, 2); 3], rules, &[5, 7, 5], mounted, &mut lent);
        assert_eq!(ordered, Ok(OrderedByTips { parts: 3, changes }));
        assert_eq!((&lent[..3], lent[3]), (&order[..], 9));
    }
    assert_eq!(order_by_tips(&[], &[], &[], Some(0), &mut []), Ok(OrderedByTips { parts: 0, changes: 0 }));
    // Every other part is on tip 0.
    let tips: Vec<u8> = (0..128).map(|part| part % 2).collect();
    let mut lent = [9; MOST_PARTS];
    let ordered = order_by_tips(&[part(0, 127); MOST_PARTS], &[], &tips, Some(1), &mut lent);
    assert_eq!(ordered, Ok(OrderedByTips { parts: 128, changes: 1 }));
    assert!((0..64).all(|place| (lent[place], lent[64 + place]) == (2 * place as u8 + 1, 2 * place as u8)));
}

#[test]
fn refusals_carry_part_and_rule() {
    let (two, round) = ([part(0, 1); 2], [(0, 1), (1, 0)]);
    let mut lent = [9; 2];
    assert_eq!(order_by_tips(&[part(0, 1); 129], &[(0, 0)], &[], Some(64), &mut []), refused(12, 0));
    assert_eq!(order_by_tips(&[two[0], part(1, 0)], &[(0, 0)], &[], Some(64), &mut []), refused(12, 1));
    assert_eq!(order_by_tips(&two, &[(0, 1), (1, 2)], &[], Some(64), &mut []), refused(13, 1));
    assert_eq!(order_by_tips(&two, &round, &[], Some(64), &mut [9]), refused(14, 0));
    assert_eq!(order_by_tips(&two, &round, &[64], Some(64), &mut lent), refused(4, 0));
    assert_eq!(order_by_tips(&two, &round, &[0, 64], Some(64), &mut lent), refused(3, 1));
    for mounted in [64, 256, usize::MAX] {
        assert_eq!(order_by_tips(&two, &round, &[0, 63], Some(mounted), &mut lent), refused(16, 0));
    }
    assert_eq!(order_by_tips(&two, &round, &[0, 63], None, &mut lent), refused(29, 0));
    assert_eq!(lent, [9; 2]);
}
