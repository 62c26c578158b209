//! Why there is no placing order: reasons worked out by hand, and small and seeded cases beside the linked library.

use library::Part;
use parts::no_order::{Because, OrderFault, Placing, Rule, Window};

/// A part from `first-last`, with `f` behind it where it is fine and `t` where it is tall.
fn part(text: &str) -> Part {
    let (window, flags) = text.split_at(text.find(['f', 't']).unwrap_or(text.len()));
    let (first, last) = window.trim().split_once('-').expect("a window");
    let number = |digits: &str| digits.parse().expect("a number");
    Part { first: number(first), last: number(last), fine: flags.contains('f'), tall: flags.contains('t') }
}

fn fault(texts: &[&str], rules: &[Rule]) -> Option<OrderFault> {
    let parts: Vec<Part> = texts.iter().map(|text| part(text)).collect();
    Placing::new(&parts, rules).fault()
}

#[test]
fn cycles_are_told() {
    let cycle = |steps: &[(usize, Because)]| Some(OrderFault::Cycle(steps.to_vec()));
    assert_eq!(fault(&["0-2"; 3], &[(0, 1), (1, 2)]), None);
    let steps = [(0, Because::Rule(0)), (1, Because::Rule(1)), (2, Because::Rule(2))];
    assert_eq!(fault(&["0-2"; 3], &[(0, 1), (1, 2), (2, 0)]), cycle(&steps));
    let steps = [(0, Because::Rule(0)), (1, Because::Fine)];
    assert_eq!(fault(&["0-2", "0-2 f", "0-2"], &[(0, 1)]), cycle(&steps));
    let steps = [(0, Because::Rule(0)), (1, Because::Tall)];
    assert_eq!(fault(&["0-2 ft", "0-2", "0-2 t"], &[(0, 1)]), cycle(&steps));
    assert_eq!(fault(&["0-2 ft", "0-2", "0-2 t"], &[]), None);
    // Of two cycles the shorter one, with the first of equal rules; a cycle comes before a part without a position.
    let rules = [(0, 1), (1, 2), (2, 0), (3, 4), (4, 3), (3, 4)];
    assert_eq!(fault(&["0-4"; 5], &rules), cycle(&[(3, Because::Rule(3)), (4, Because::Rule(4))]));
    let steps = [(1, Because::Rule(1)), (2, Because::Rule(2))];
    assert_eq!(fault(&["2-2", "0-1", "0-2"], &[(0, 1), (1, 2), (2, 1)]), cycle(&steps));
}

#[test]
fn parts_without_a_position_are_told() {
    let none = |part: usize, first: i64, last: i64, after: Option<usize>, before: Option<usize>| {
        Some(OrderFault::NoPosition { part, window: Window { first, last, after, before } })
    };
    assert_eq!(fault(&["2-3", "0-3", "0-2", "0-3"], &[(0, 2), (2, 1)]), none(0, 2, 1, None, Some(2)));
    assert_eq!(fault(&["0-1", "1-1", "1-1"], &[(1, 0)]), none(0, 2, 1, Some(1), None));
    // Before position 0, and behind the last one.
    assert_eq!(fault(&["0-1", "0-0"], &[(0, 1)]), none(0, 0, -1, None, Some(1)));
    assert_eq!(fault(&["1-1", "0-1"], &[(0, 1)]), none(0, 1, 0, None, Some(1)));
    // Part 2 is behind both others, which begin at 1: the lower number is named.
    assert_eq!(fault(&["1-2", "1-2", "0-1"], &[(0, 2), (1, 2)]), none(0, 1, 0, None, Some(2)));
    assert_eq!(fault(&["0-0", "1-1", "1-1", "0-1"], &[(1, 3), (2, 3)]), none(1, 1, 0, None, Some(3)));
}

#[test]
fn positions_that_are_too_few_are_told() {
    let few = |texts: &[&str], rules: &[Rule]| match fault(texts, rules) {
        Some(OrderFault::TooFewPositions { first, last, parts }) => {
            (first, last, parts.into_iter().map(|(part, _)| part).collect::<Vec<usize>>())
        }
        other => panic!("{other:?}"),
    };
    assert_eq!(few(&["0-1", "0-3", "1-1", "1-1"], &[(0, 2)]), (1, 1, vec![2, 3]));
    assert_eq!(few(&["1-1", "0-2", "1-1"], &[]), (1, 1, vec![0, 2]));
    assert_eq!(few(&["0-1", "0-3", "0-1", "0-1"], &[]), (0, 1, vec![0, 2, 3]));
    // The fewest positions come first, though 0 to 1 are too few too.
    assert_eq!(few(&["0-1", "0-1", "0-1", "3-3", "3-3"], &[]), (3, 3, vec![3, 4]));
    // Part 0 begins at 0 by itself, and is behind part 1.
    let window = |first: i64, last: i64, after: Option<usize>| Window { first, last, after, before: None };
    let parts = vec![(0, window(1, 1, Some(1))), (2, window(1, 1, None))];
    let told = Some(OrderFault::TooFewPositions { first: 1, last: 1, parts });
    assert_eq!(fault(&["0-1", "0-0", "1-1"], &[(1, 0)]), told);
}

/// A seeded number below the limit.
fn below(state: &mut u64, limit: u64) -> u64 {
    *state = state.wrapping_mul(6_364_136_223_846_793_005).wrapping_add(1_442_695_040_888_963_407);
    (*state >> 33) % limit
}

/// Whether one part is before another by this reason.
fn holds(parts: &[Part], rules: &[Rule], one: usize, other: usize, because: Because) -> bool {
    let is_fine = |part: usize| parts[part].fine && !parts[part].tall;
    match because {
        Because::Rule(rule) => rules[rule] == (one as u32, other as u32),
        Because::Fine => is_fine(one) && !is_fine(other),
        Because::Tall => !parts[one].tall && parts[other].tall,
    }
}

/// `parts` gives a reason exactly where the library finds no order, and each step of the reason holds.
fn check(parts: &[Part], rules: &[Rule]) -> bool {
    let number = library::order(parts, rules, &mut vec![0; parts.len()]).err().map_or(0, |refusal| refusal.number);
    let placing = Placing::new(parts, rules);
    let fault = placing.fault();
    assert_eq!(number, if fault.is_some() { 29 } else { 0 }, "{parts:?} {rules:?}");
    let is_step = |one: usize, other: usize, because: Because| holds(parts, rules, one, other, because);
    let is_window = |part: usize, window: &Window| {
        let step = |one: usize, other: usize| placing.because(one, other).is_some_and(|by| is_step(one, other, by));
        let own = parts[part];
        window.after.map_or(window.first == own.first.into(), |one| step(one, part))
            && window.before.map_or(window.last == own.last.into(), |other| step(part, other))
    };
    match &fault {
        None => {}
        Some(OrderFault::Cycle(cycle)) => {
            let steps = cycle.iter().zip(cycle.iter().cycle().skip(1));
            assert!(
                cycle.len() > 1 && steps.clone().all(|(&(one, because), &(other, _))| is_step(one, other, because))
            );
        }
        Some(OrderFault::NoPosition { part, window }) => {
            assert!(window.first > window.last && is_window(*part, window));
        }
        Some(OrderFault::TooFewPositions { first, last, parts }) => {
            let is_within = |window: &Window| first <= &window.first && &window.last <= last;
            assert!(parts.len() as i64 > last - first + 1);
            assert!(parts.iter().all(|(part, window)| is_within(window) && is_window(*part, window)));
        }
    }
    fault.is_none()
}

#[test]
fn every_small_case_has_a_reason_or_an_order() {
    for count in 0..=3_u32 {
        let windows = (0..count).flat_map(|first| (first..count).map(move |last| (first, last)));
        let part = |(first, last): (u32, u32), flags: u32| Part { first, last, fine: flags & 1 == 1, tall: flags > 1 };
        let choices: Vec<Part> = windows.flat_map(|window| (0..4).map(move |flags| part(window, flags))).collect();
        let rules = (0..count).flat_map(|one| (0..count).map(move |other| (one, other)));
        let rules: Vec<Rule> = rules.filter(|(one, other)| one != other).collect();
        for number in 0..choices.len().pow(count) {
            let parts: Vec<Part> =
                (0..count).map(|place| choices[number / choices.len().pow(place) % choices.len()]).collect();
            check(&parts, &[]);
            for &rule in &rules {
                check(&parts, &[rule]);
            }
            check(&parts, &rules[..rules.len() / 2]);
        }
    }
}

#[test]
fn seeded_cases_have_a_reason_or_an_order() {
    let mut state = 1;
    let mut accepted = 0;
    for round in 0..6000 {
        let count = if round % 300 == 0 { 128 } else { 2 + below(&mut state, 9) };
        let (wide, flags) = (below(&mut state, 4), below(&mut state, 3));
        let parts: Vec<Part> = (0..count)
            .map(|_| {
                let (one, other) = (below(&mut state, count), below(&mut state, count));
                let (one, other) = if wide == 0 { (one, other) } else { (one / 2, count - 1 - other / 2) };
                let fine = flags > 0 && below(&mut state, 4) == 0;
                let tall = flags > 1 && below(&mut state, 4) == 0;
                Part { first: one.min(other) as u32, last: one.max(other) as u32, fine, tall }
            })
            .collect();
        let rising = below(&mut state, 4) > 0;
        let rules: Vec<Rule> = (0..below(&mut state, count))
            .map(|_| {
                let (one, other) = (below(&mut state, count) as u32, below(&mut state, count - 1) as u32);
                let (one, other) = (one, if other >= one { other + 1 } else { other });
                if rising {
                    (one.min(other), one.max(other))
                } else {
                    (one, other)
                }
            })
            .collect();
        accepted += u32::from(check(&parts, &rules));
    }
    assert!((1000..5000).contains(&accepted), "{accepted}");
}
