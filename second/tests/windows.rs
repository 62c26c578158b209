//! The positions that each part can have: rows worked out by hand, and small cases against every order.

use second::interface;
use second::{find_windows, refusal, try_every_order_for_windows, Part, Placing, Rule};

use placings::{every_small_placing, parts, seeded_placings};

mod placings;

/// Number, place and both buffers of the call, with these numbers of bytes lent.
fn find(texts: &[&str], rules: &[Rule], lent: [usize; 2]) -> (u32, usize, [Vec<u8>; 2]) {
    let [mut first, mut last] = lent.map(|bytes| vec![9; bytes]);
    let found = find_windows(&Placing { parts: &parts(texts), rules }, &mut first, &mut last);
    (found.number, found.place, [first, last])
}

/// The first and the last position of each part; nothing is written behind the parts.
fn windows(texts: &[&str], rules: &[Rule]) -> Vec<(u8, u8)> {
    let count = texts.len();
    let (number, place, [first, last]) = find(texts, rules, [count + 1, count + 2]);
    assert_eq!((number, place, &first[count..], &last[count..]), (0, 0, &[9][..], &[9, 9][..]));
    first.into_iter().zip(last).take(count).collect()
}

/// The call is refused and leaves both buffers as they were.
fn refused(texts: &[&str], rules: &[Rule], lent: [usize; 2]) -> (u32, usize) {
    let (number, place, buffers) = find(texts, rules, lent);
    assert_eq!(buffers, lent.map(|bytes| vec![9; bytes]));
    (number, place)
}

#[test]
fn rows() {
    assert_eq!(windows(&[], &[]), []);
    assert_eq!(windows(&["0-0 ft"], &[]), [(0, 0)]);
    assert_eq!(windows(&["0-2"; 3], &[]), [(0, 2); 3]);
    // One behind the other.
    assert_eq!(windows(&["0-2"; 3], &[(0, 1), (1, 2)]), [(0, 0), (1, 1), (2, 2)]);
    assert_eq!(windows(&["0-2"; 3], &[(2, 0)]), [(1, 2), (0, 2), (0, 1)]);
    assert_eq!(windows(&["0-1", "0-0"], &[]), [(1, 1), (0, 0)]);
    // A part between two positions of another: 1 is the first and the last of none but part 1.
    assert_eq!(windows(&["0-2", "1-1", "0-2"], &[]), [(0, 2), (1, 1), (0, 2)]);
    // The fine part is first, the tall one last.
    assert_eq!(windows(&["0-3 t", "0-3", "0-3 f", "0-3"], &[]), [(3, 3), (1, 2), (0, 0), (1, 2)]);
    assert_eq!(windows(&["0-3 t", "0-3", "0-3 f", "0-3"], &[(3, 1)]), [(3, 3), (2, 2), (0, 0), (1, 1)]);
    // Height decides.
    assert_eq!(windows(&["0-2 ft", "0-2", "0-2 f"], &[]), [(2, 2), (1, 1), (0, 0)]);
    assert_eq!(windows(&["0-127"; 128], &[]), [(0, 127); 128]);
}

#[test]
fn parts_that_fill_positions_shut_others_out() {
    // Parts 2 and 3 fill 0 and 1.
    assert_eq!(windows(&["0-3", "0-3", "0-1", "0-1"], &[]), [(2, 3), (2, 3), (0, 1), (0, 1)]);
    assert_eq!(windows(&["0-3", "0-3", "0-1", "0-1"], &[(0, 1)]), [(2, 2), (3, 3), (0, 1), (0, 1)]);
    // Part 1 is before part 2, which ends at 1: so part 1 is at 0 and part 2 at 1, and the others are behind them.
    assert_eq!(windows(&["0-3", "0-3", "0-1", "0-3"], &[(1, 2)]), [(2, 3), (0, 0), (1, 1), (2, 3)]);
    // Part 3 is behind parts 1 and 2: at 2 where part 0 is behind it, else at 3.
    assert_eq!(windows(&["1-3", "0-3", "0-3", "0-3"], &[(1, 3), (2, 3)]), [(1, 3), (0, 2), (0, 2), (2, 3)]);
}

#[test]
fn refusals_in_their_order() {
    assert_eq!(refused(&["1-0"; 129], &[(0, 0)], [0, 0]), (refusal::BAD_WINDOW, 0));
    assert_eq!(refused(&["0-1", "1-0"], &[(0, 0)], [0, 0]), (refusal::BAD_WINDOW, 1));
    assert_eq!(refused(&["0-1", "0-2"], &[], [2, 2]), (refusal::BAD_WINDOW, 1));
    assert_eq!(refused(&["0-1"; 2], &[(0, 1), (1, 2)], [0, 0]), (refusal::BAD_RULE, 1));
    assert_eq!(refused(&["0-1"; 2], &[(1, 1), (0, 2)], [2, 2]), (refusal::BAD_RULE, 0));
    // Either buffer, before it is known that no order obeys.
    for lent in [[1, 2], [2, 1], [0, 0], [1, 1], [0, 9], [9, 0]] {
        assert_eq!(refused(&["0-1"; 2], &[(0, 1), (1, 0)], lent), (refusal::SHORT_ORDER, 0));
    }
    assert_eq!(refused(&["0-1"; 2], &[(0, 1), (1, 0)], [2, 2]), (refusal::NO_ORDER, 0));
    assert_eq!(refused(&["1-1", "0-2", "1-1"], &[], [3, 3]), (refusal::NO_ORDER, 0));
    assert_eq!(refused(&["0-1 ft", "0-1"], &[(0, 1)], [2, 3]), (refusal::NO_ORDER, 0));
    // Without parts every rule names one that is absent.
    assert_eq!(refused(&[], &[(0, 1)], [1, 1]), (refusal::BAD_RULE, 0));
}

/// The positions are those that orders have, among all orders that obey.
fn check(parts: &[Part], rules: &[Rule]) -> bool {
    let placing = Placing { parts, rules };
    let windows = placing.windows();
    assert_eq!(windows, try_every_order_for_windows(&placing), "{placing:?}");
    windows.is_some()
}

#[test]
fn every_small_case() {
    every_small_placing(&mut |parts, rules| {
        check(parts, rules);
    });
}

#[test]
fn seeded_cases_of_up_to_seven_parts() {
    let mut accepted = 0;
    seeded_placings(6000, &mut |parts, rules| accepted += u32::from(check(parts, rules)));
    assert!((1000..5000).contains(&accepted), "{accepted}");
}

#[test]
fn numbers_of_the_interface() {
    let parts = [0, 2, 0, 0, 0, 2, 7, 0, 0, 2, 0, u32::MAX];
    let (mut first, mut last, mut answer) = ([9; 4], [9; 5], [7; 5]);
    assert_eq!(interface::windows(&parts, &[], &mut first, &mut last, &mut answer), 0);
    assert_eq!((first, last, answer), ([1, 0, 2, 9], [1, 0, 2, 9, 9], [0, 3, 0, 0, 7]));
    for short in 0..4 {
        let mut answer = vec![7; short];
        assert_eq!(interface::windows(&parts[..3], &[1], &mut [], &mut [], &mut answer), refusal::SHORT_ANSWER);
        assert_eq!(answer, vec![7; short]);
    }
    let refused = |parts: &[u32], rules: &[u32], lent: usize| {
        let (mut first, mut last, mut answer) = (vec![9; lent], vec![9; 4], [7; 5]);
        let number = interface::windows(parts, rules, &mut first, &mut last, &mut answer);
        assert_eq!((first, last, &answer[1..]), (vec![9; lent], vec![9; 4], &[0, 0, 0, 7][..]));
        (number, answer[0])
    };
    // 101 comes before 12 and 13.
    for length in [1, 2, 3, 5, 6, 7, 11] {
        assert_eq!(refused(&[9; 12][..length], &[5, 5], 0), (refusal::BROKEN_RECORD, 0));
    }
    assert_eq!(refused(&parts, &[0, 1, 2], 0), (refusal::BROKEN_RECORD, 0));
    assert_eq!(refused(&[9; 4 * 129], &[5], 0), (refusal::BROKEN_RECORD, 0));
    assert_eq!(refused(&[9; 4 * 129], &[5, 5], 0), (refusal::BAD_WINDOW, 0));
    assert_eq!(refused(&parts, &[0, 2, 1, u32::MAX], 0), (refusal::BAD_RULE, 1));
    assert_eq!(refused(&parts, &[2, 0], 2), (refusal::SHORT_ORDER, 0));
    assert_eq!(refused(&parts, &[2, 0], 3), (refusal::NO_ORDER, 0));
}
