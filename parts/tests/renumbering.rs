//! Orders of the tips in which every part is a run.

use parts::job::{Job, Line};
use parts::renumbering::Renumbering;

fn job(sets: &[u64]) -> Job {
    Job { rack: 64, lines: sets.iter().map(|&set| Line { set, quantity: 1 }).collect() }
}

/// Whether the tips of a set are next to one another in this order.
fn is_run(set: u64, order: &[usize]) -> bool {
    let places: Vec<usize> = (0..order.len()).filter(|&place| set >> order[place] & 1 == 1).collect();
    places.windows(2).all(|pair| pair[1] == pair[0] + 1)
}

/// Every order of these tips, the lowest first.
fn orders(tips: &[usize]) -> Vec<Vec<usize>> {
    if tips.is_empty() {
        return vec![Vec::new()];
    }
    let beginning = |at: usize| {
        let rest: Vec<usize> = tips.iter().enumerate().filter(|&(other, _)| other != at).map(|(_, &tip)| tip).collect();
        orders(&rest).into_iter().map(move |order| [&[tips[at]], &order[..]].concat())
    };
    (0..tips.len()).flat_map(beginning).collect()
}

#[test]
fn first_order_of_all_is_found() {
    // Every third list of three sets of four tips, which stand far apart in the rack.
    let tips = [0, 7, 8, 63];
    let spread =
        |small: u64| tips.iter().enumerate().filter(|(bit, _)| small >> bit & 1 == 1).map(|(_, tip)| 1 << tip).sum();
    let mut found = [0, 0];
    for list in (0..15 * 15 * 15).step_by(3) {
        let sets: Vec<u64> = [list / 225, list / 15 % 15, list % 15].map(|small| spread(small + 1)).to_vec();
        let named: Vec<usize> = tips.into_iter().filter(|tip| sets.iter().any(|set| set >> tip & 1 == 1)).collect();
        let first = orders(&named).into_iter().find(|order| sets.iter().all(|&set| is_run(set, order)));
        found[usize::from(first.is_some())] += 1;
        let expected = first.map_or(Renumbering::Impossible, Renumbering::Order);
        assert_eq!(Renumbering::of(&job(&sets)), expected, "{sets:?}");
    }
    assert!(found[0] > 0 && found[1] > 0, "{found:?}");
}

#[test]
fn ten_tips_are_tried_and_eleven_are_not() {
    // A path through all ten tips, and a triangle among the last three, which no order serves.
    let path: Vec<u64> = (0..9).map(|tip| 1 << tip | 1 << (tip + 1)).collect();
    assert_eq!(Renumbering::of(&job(&path)), Renumbering::Order((0..10).collect()));
    let triangle =
        [&(0..10).map(|tip| 1 << tip).collect::<Vec<u64>>()[..], &[0b11 << 7, 0b11 << 8, 0b101 << 7]].concat();
    assert_eq!(Renumbering::of(&job(&triangle)), Renumbering::Impossible);
    let eleven = [&path[..], &[1 << 60]].concat();
    assert_eq!(Renumbering::of(&job(&eleven)), Renumbering::TooMany(11));
    assert_eq!(Renumbering::of(&job(&[])), Renumbering::Order(Vec::new()));
}

#[test]
fn words_say_what_to_do() {
    let words = |sets: &[u64]| Renumbering::of(&job(sets)).in_words();
    assert_eq!(words(&[0b101, 0b010]), "with the tips in the order 0 2 1 every part is a run");
    assert_eq!(words(&[0b011, 0b110, 0b101]), "no order of the tips makes every part a run");
    assert_eq!(words(&[0xFFF]), "orders are tried for up to 10 tips, and parts have 12");
}
