//! The positions that parts can have, through the safe form of the linked library.

use tipshare::{windows, Part, Refusal, MOST_PARTS};

fn part(first: u32, last: u32) -> Part {
    Part { first, last, fine: false, tall: false }
}

/// What the call refuses, with nothing written.
fn refused(parts: &[Part], rules: &[(u32, u32)], lent: [usize; 2]) -> (u32, u64) {
    let [mut first, mut last] = lent.map(|bytes| vec![9; bytes]);
    let Refusal { number, line, margin } = windows(parts, rules, &mut first, &mut last).unwrap_err();
    assert_eq!((margin, [first, last]), (0, lent.map(|bytes| vec![9; bytes])));
    (number, line)
}

#[test]
fn first_and_last_positions_are_written() {
    let (fine, tall) = (Part { fine: true, ..part(0, 3) }, Part { tall: true, ..part(0, 3) });
    let (mut first, mut last) = ([9; 5], [9; 6]);
    assert_eq!(windows(&[tall, part(0, 3), fine, part(0, 3)], &[], &mut first, &mut last), Ok(4));
    assert_eq!((first, last), ([3, 1, 0, 1, 9], [3, 2, 0, 2, 9, 9]));
    // Part 1 fills position 0.
    assert_eq!(windows(&[part(0, 1), part(0, 0)], &[], &mut first, &mut last), Ok(2));
    assert_eq!((first, last), ([1, 0, 0, 1, 9], [1, 0, 0, 2, 9, 9]));
    assert_eq!(windows(&[], &[], &mut [], &mut []), Ok(0));
    // Each of 128 parts behind the one before it.
    let chain: Vec<(u32, u32)> = (1..128).map(|part| (part - 1, part)).collect();
    let (mut first, mut last) = ([9; MOST_PARTS], [9; MOST_PARTS]);
    assert_eq!(windows(&[part(0, 127); MOST_PARTS], &chain, &mut first, &mut last), Ok(128));
    assert!(first == last && first.iter().enumerate().all(|(part, &position)| usize::from(position) == part));
    assert_eq!(windows(&[part(0, 127); MOST_PARTS], &[], &mut first, &mut last), Ok(128));
    assert_eq!((first, last), ([0; MOST_PARTS], [127; MOST_PARTS]));
}

#[test]
fn refusals_carry_part_and_rule() {
    let two = [part(0, 1); 2];
    assert_eq!(refused(&[part(0, 1); 129], &[(0, 0)], [0, 0]), (12, 0));
    assert_eq!(refused(&[two[0], part(1, 0)], &[(0, 0)], [0, 0]), (12, 1));
    assert_eq!(refused(&two, &[(0, 1), (1, u32::MAX)], [0, 0]), (13, 1));
    for lent in [[1, 2], [2, 1], [0, 0]] {
        assert_eq!(refused(&two, &[(0, 1), (1, 0)], lent), (14, 0));
    }
    assert_eq!(refused(&two, &[(0, 1), (1, 0)], [2, 2]), (29, 0));
}
