//! Every sort of a list of eight lines through the linked library: the common tip's answer stays, each line keeps its tip
//! in both plans and its set in keep. The law for all boards is `sort_hidden` (crates/any_order_rules); these are three of them.

use std::collections::HashSet;

/// One value for each of the eight lines.
type Lines = [u64; 8];

/// What the calls answer for a list: the common tip's off count and tips, the sets kept, and the pairs and tips of both
/// plans; no best plan where some line is no run.
#[derive(Clone, Debug, PartialEq)]
struct Answers {
    off: u64,
    tips: u64,
    kept: Lines,
    quick: (u64, Lines),
    best: Option<(u64, Lines)>,
}

/// The number of orders of eight lines.
const SORTS: usize = 8 * 7 * 6 * 5 * 4 * 3 * 2;

/// The values in the order of the code: its digits choose, for each place, among the values not yet placed.
fn sorted(values: Lines, code: usize) -> Lines {
    let mut order = values;
    let mut code = code;
    for place in 0..8 {
        let left = 8 - place;
        order.swap(place, place + code % left);
        code /= left;
    }
    order
}

fn file_of(rack: u8, sets: Lines) -> [u8; 72] {
    let mut file = *b"TIP\0\x01\0\0\x08................................................................";
    file[5] = rack;
    for (line, set) in sets.iter().enumerate() {
        file[8 + 8 * line..16 + 8 * line].copy_from_slice(&set.to_be_bytes());
    }
    file
}

fn answers(rack: u8, sets: Lines, k: u16) -> Answers {
    let file = file_of(rack, sets);
    let common = tipshare::common(&file).expect("a list that is read");
    let mut out = [0; 72];
    tipshare::keep(&file, k, &mut out).expect("a bound that some plan meets");
    let set_at = |line: usize| u64::from_be_bytes(out[8 + 8 * line..16 + 8 * line].try_into().expect("eight bytes"));
    let (mut quick, mut best, mut table) = ([0; 8], [0; 8], [0; 64]);
    let pairs = tipshare::quick(&file, None, &mut quick).expect("quick takes any lines");
    let most = tipshare::best(&file, None, &mut best, &mut table).ok();
    Answers {
        off: common.off,
        tips: common.tips,
        kept: std::array::from_fn(set_at),
        quick: (pairs, quick.map(u64::from)),
        best: most.map(|most| (most, best.map(u64::from))),
    }
}

/// The answers with one value for each line in another order.
fn in_order(given: &Answers, code: usize) -> Answers {
    Answers {
        kept: sorted(given.kept, code),
        quick: (given.quick.0, sorted(given.quick.1, code)),
        best: given.best.map(|(pairs, tips)| (pairs, sorted(tips, code))),
        ..given.clone()
    }
}

fn assert_sorts(rack: u8, sets: Lines, k: u16, given: &Answers) {
    for code in 0..SORTS {
        assert_eq!(answers(rack, sorted(sets, code), k), in_order(given, code), "order {code}");
    }
}

#[test]
fn sorts_are_all_different() {
    let orders: HashSet<_> = (0..SORTS).map(|code| sorted([0, 1, 2, 3, 4, 5, 6, 7], code)).collect();
    assert_eq!(orders.len(), SORTS);
}

#[test]
fn ties_between_two_plans() {
    let given = Answers {
        off: 4,
        tips: 10,
        kept: [3, 10, 8, 28, 3, 48, 10, 32],
        quick: (8, [1, 1, 3, 3, 1, 5, 1, 5]),
        best: Some((8, [0, 3, 3, 3, 0, 5, 3, 5])),
    };
    assert_sorts(6, [3, 14, 8, 28, 3, 48, 30, 32], 4, &given);
}

#[test]
fn best_above_quick() {
    let given = Answers {
        off: 3,
        tips: 2,
        kept: [1, 1, 2, 2, 2, 2, 2, 4],
        quick: (11, [0, 0, 1, 1, 1, 1, 1, 2]),
        best: Some((12, [0, 0, 0, 0, 2, 2, 2, 2])),
    };
    assert_sorts(3, [1, 1, 3, 3, 6, 6, 6, 4], 3, &given);
}

#[test]
fn lines_with_gaps() {
    let given = Answers {
        off: 4,
        tips: 4,
        kept: [4, 34, 4, 65, 2, 40, 4, 4],
        quick: (7, [2, 1, 2, 0, 1, 3, 2, 2]),
        best: None,
    };
    assert_sorts(7, [5, 34, 76, 65, 2, 40, 20, 5], 4, &given);
}
