//! The placing order: rows worked out by hand, and small cases against every order.

use second::interface;
use second::{order_parts, refusal, try_every_order, Part, Placing, Rule};

use placings::{every_small_placing, parts, seeded_placings};

mod placings;

/// Number, place and buffer of the call, with this many bytes lent.
fn order(texts: &[&str], rules: &[Rule], lent: usize) -> (u32, usize, Vec<u8>) {
    let mut buffer = vec![9; lent];
    let ordered = order_parts(&Placing { parts: &parts(texts), rules }, &mut buffer);
    (ordered.number, ordered.place, buffer)
}

/// The order of parts that have one.
fn ordered(texts: &[&str], rules: &[Rule]) -> Vec<u8> {
    let (number, place, order) = order(texts, rules, texts.len());
    assert_eq!((number, place), (0, 0));
    order
}

/// The call is refused and leaves the buffer as it was.
fn refused(texts: &[&str], rules: &[Rule], lent: usize) -> (u32, usize) {
    let (number, place, buffer) = order(texts, rules, lent);
    assert_eq!(buffer, vec![9; lent]);
    (number, place)
}

#[test]
fn rows_of_the_rules() {
    // B90 to B92.
    assert_eq!(order(&[], &[], 1), (0, 0, vec![9]));
    assert_eq!(order(&[], &[], 0), (0, 0, vec![]));
    assert_eq!(order(&["0-0 ft"], &[], 2), (0, 0, vec![0, 9]));
    assert_eq!(ordered(&["0-127"; 128], &[]), (0..128).collect::<Vec<u8>>());
    // B93 to B98.
    assert_eq!(refused(&["1-0"; 129], &[(0, 0)], 0), (refusal::BAD_WINDOW, 0));
    assert_eq!(refused(&["0-1", "1-0"], &[], 2), (refusal::BAD_WINDOW, 1));
    assert_eq!(refused(&["0-3", "0-2", "2-1"], &[(5, 5)], 0), (refusal::BAD_WINDOW, 0));
    assert_eq!(refused(&["0-1", "0-1"], &[(0, 1), (1, 2)], 0), (refusal::BAD_RULE, 1));
    assert_eq!(refused(&["0-1", "0-1"], &[(0, 1), (2, 1)], 0), (refusal::BAD_RULE, 1));
    assert_eq!(refused(&["0-1", "0-1"], &[(1, 1), (0, 2)], 0), (refusal::BAD_RULE, 0));
    assert_eq!(refused(&["0-1", "0-1"], &[(0, 1), (1, 0)], 1), (refusal::SHORT_ORDER, 0));
    // B99 to B104.
    assert_eq!(refused(&["0-2"; 3], &[(0, 1), (1, 2), (2, 0)], 3), (refusal::NO_ORDER, 0));
    assert_eq!(ordered(&["0-1 ft", "0-1"], &[]), [1, 0]);
    assert_eq!(refused(&["1-1", "0-2", "1-1"], &[], 3), (refusal::NO_ORDER, 0));
    assert_eq!(order(&["0-1", "0-0"], &[], 3), (0, 0, vec![1, 0, 9]));
    assert_eq!(ordered(&["0-2"; 3], &[]), [0, 1, 2]);
    assert_eq!(ordered(&["0-3 t", "0-3", "0-3 f", "0-3"], &[(3, 1)]), [2, 3, 1, 0]);
    assert_eq!(ordered(&["0-3 t", "0-3", "0-3 f", "0-3"], &[(3, 1), (3, 1)]), [2, 3, 1, 0]);
    // B105 and B106.
    assert_eq!(ordered(&["0-1 t", "0-1 ft"], &[]), [0, 1]);
    assert_eq!(ordered(&["0-2 ft", "0-2", "0-2 f"], &[]), [2, 1, 0]);
}

#[test]
fn height_decides() {
    // The connector is among the tall parts, by its number.
    assert_eq!(ordered(&["0-3 ft", "0-3", "0-3 t", "0-3 f"], &[]), [3, 1, 0, 2]);
    assert_eq!(ordered(&["0-3 ft", "0-3", "0-3 t", "0-3 f"], &[(2, 0)]), [3, 1, 2, 0]);
    // Nothing puts it before a plain part.
    assert_eq!(refused(&["0-1 ft", "0-1"], &[(0, 1)], 2), (refusal::NO_ORDER, 0));
    assert_eq!(refused(&["0-0 ft", "0-1"], &[], 2), (refusal::NO_ORDER, 0));
    assert_eq!(ordered(&["0-1 ft", "0-1 ft"], &[]), [0, 1]);
}

#[test]
fn parts_behind_are_looked_at_too() {
    assert_eq!(ordered(&["0-3", "0-3", "0-1", "0-1"], &[]), [2, 3, 0, 1]);
    assert_eq!(ordered(&["0-2", "0-2", "0-1"], &[(2, 0)]), [1, 2, 0]);
    // Part 3 is behind part 1, which begins at 2, and ends at 2.
    assert_eq!(refused(&["0-3", "2-3", "0-3", "0-2"], &[(1, 3)], 4), (refusal::NO_ORDER, 0));
    // Part 2 ends at 2 and part 1 is before it: part 0 cannot be at 0 with part 3, which is at 1 alone.
    assert_eq!(ordered(&["0-3", "0-3", "0-2", "1-1"], &[(1, 2)]), [1, 3, 2, 0]);
}

/// The least order is the lowest that obeys among all.
fn check(parts: &[Part], rules: &[Rule]) -> bool {
    let placing = Placing { parts, rules };
    let least = placing.least_order();
    assert_eq!(least, try_every_order(&placing), "{placing:?}");
    least.is_some()
}

/// The rules, and those by which each part that is fine and tall precedes each part that is not fine: with them orders are
/// as they were before height decided.
fn with_both_flags(parts: &[Part], rules: &[Rule]) -> Vec<Rule> {
    let mut both = rules.to_vec();
    for (one, _) in parts.iter().enumerate().filter(|(_, part)| part.fine && part.tall) {
        for (other, _) in parts.iter().enumerate().filter(|(_, part)| !part.fine) {
            both.push((one as u32, other as u32));
        }
    }
    both
}

/// Only parts with one that is fine and tall have another order than before, and then a lower one, or one where there was
/// none.
fn check_before(parts: &[Part], rules: &[Rule]) {
    let (now, before) = (Placing { parts, rules }, with_both_flags(parts, rules));
    let before = Placing { parts, rules: &before };
    match (now.least_order(), before.least_order()) {
        (now, before) if parts.iter().all(|part| !part.fine || !part.tall) => assert_eq!(now, before),
        (now, Some(before)) => assert!(now.is_some_and(|now| now <= before)),
        (_, None) => {}
    }
}

#[test]
fn every_small_case() {
    every_small_placing(&mut |parts, rules| {
        check(parts, rules);
        if rules.is_empty() {
            check_before(parts, rules);
        }
    });
}

#[test]
fn seeded_cases_of_up_to_seven_parts() {
    let mut accepted = 0;
    seeded_placings(6000, &mut |parts, rules| {
        accepted += u32::from(check(parts, rules));
        check_before(parts, rules);
    });
    assert!((1000..5000).contains(&accepted), "{accepted}");
}

#[test]
fn numbers_of_the_interface() {
    let parts = [0, 2, 0, 0, 0, 2, 7, 0, 0, 2, 0, u32::MAX];
    let mut lent = [9; 4];
    let mut answer = [7; 5];
    assert_eq!(interface::order(&parts, &[], &mut lent, &mut answer), 0);
    assert_eq!((lent, answer), ([1, 0, 2, 9], [0, 3, 0, 0, 7]));
    for short in 0..4 {
        let mut answer = vec![7; short];
        assert_eq!(interface::order(&parts[..3], &[1], &mut [], &mut answer), refusal::SHORT_ANSWER);
        assert_eq!(answer, vec![7; short]);
    }
    let mut call = |parts: &[u32], rules: &[u32]| {
        let mut lent = [9; 4];
        answer = [7; 5];
        let number = interface::order(parts, rules, &mut lent, &mut answer);
        assert!(number == 0 || lent == [9; 4] && answer[1..] == [0, 0, 0, 7]);
        (number, answer[0])
    };
    // 101 comes before 12 and 13.
    for length in [1, 2, 3, 5, 6, 7, 11] {
        assert_eq!(call(&[9; 12][..length], &[5, 5]), (refusal::BROKEN_RECORD, 0));
    }
    assert_eq!(call(&parts, &[0, 1, 2]), (refusal::BROKEN_RECORD, 0));
    assert_eq!(call(&[9; 4 * 129], &[5]), (refusal::BROKEN_RECORD, 0));
    assert_eq!(call(&[9; 4 * 129], &[5, 5]), (refusal::BAD_WINDOW, 0));
    assert_eq!(call(&[0, u32::MAX, 0, 0], &[]), (refusal::BAD_WINDOW, 0));
    assert_eq!(call(&[u32::MAX, u32::MAX, 0, 0], &[]), (refusal::BAD_WINDOW, 0));
    assert_eq!(call(&parts, &[0, 2, 1, u32::MAX]), (refusal::BAD_RULE, 1));
    assert_eq!(call(&parts, &[0, 2, 256, 1]), (refusal::BAD_RULE, 1));
    assert_eq!(call(&parts, &[2, 0]), (refusal::NO_ORDER, 0));
}
