//! Parts and rules to place: written down, every small case, and seeded ones.

use second::{Part, Rule};

/// A part from `first-last`, with `f` behind it where it is fine and `t` where it is tall.
fn part(text: &str) -> Part {
    let (window, flags) = text.split_at(text.find(['f', 't']).unwrap_or(text.len()));
    let (first, last) = window.trim().split_once('-').expect("a window");
    let number = |digits: &str| digits.parse().expect("a number");
    Part { first: number(first), last: number(last), fine: flags.contains('f'), tall: flags.contains('t') }
}

pub fn parts(texts: &[&str]) -> Vec<Part> {
    texts.iter().map(|text| part(text)).collect()
}

/// A seeded number below the limit.
pub fn below(state: &mut u64, limit: u64) -> u64 {
    *state = state.wrapping_mul(6_364_136_223_846_793_005).wrapping_add(1_442_695_040_888_963_407);
    (*state >> 33) % limit
}

/// Hands on all parts of up to three, without a rule, with each one, and sometimes with several.
pub fn every_small_placing(hand_on: &mut dyn FnMut(&[Part], &[Rule])) {
    for count in 0..=3_u32 {
        let windows = (0..count).flat_map(|first| (first..count).map(move |last| (first, last)));
        let part = |(first, last): (u32, u32), flags: u32| Part { first, last, fine: flags & 1 == 1, tall: flags > 1 };
        let choices: Vec<Part> = windows.flat_map(|window| (0..4).map(move |flags| part(window, flags))).collect();
        let rules = (0..count).flat_map(|one| (0..count).map(move |other| (one, other)));
        let rules: Vec<Rule> = rules.filter(|(one, other)| one != other).collect();
        for number in 0..choices.len().pow(count) {
            let parts: Vec<Part> =
                (0..count).map(|place| choices[number / choices.len().pow(place) % choices.len()]).collect();
            hand_on(&parts, &[]);
            for &rule in &rules {
                hand_on(&parts, &[rule]);
            }
            if number % 5 == 0 && rules.len() > 1 {
                hand_on(&parts, &rules[..rules.len() / 2]);
            }
        }
    }
}

/// Hands on this many seeded cases of four to seven parts.
pub fn seeded_placings(cases: u32, hand_on: &mut dyn FnMut(&[Part], &[Rule])) {
    let mut state = 1;
    for round in 0..cases {
        let count = 4 + below(&mut state, if round % 8 == 0 { 4 } else { 3 });
        let wide = below(&mut state, 4);
        let flags = below(&mut state, 3);
        let parts: Vec<Part> = (0..count)
            .map(|_| {
                let (one, other) = (below(&mut state, count), below(&mut state, count));
                let (first, last) =
                    if wide == 0 { (one.min(other), one.max(other)) } else { (one / 2, count - 1 - other / 2) };
                let (first, last) = (first.min(last) as u32, last as u32);
                let fine = flags > 0 && below(&mut state, 4) == 0;
                Part { first, last, fine, tall: flags > 1 && below(&mut state, 4) == 0 }
            })
            .collect();
        let any = below(&mut state, 4);
        let number = below(&mut state, 2 + any * any);
        let rules: Vec<Rule> = (0..number)
            .map(|_| {
                let (one, other) = (below(&mut state, count) as u32, below(&mut state, count - 1) as u32);
                (one, if other >= one { other + 1 } else { other })
            })
            .map(|(one, other)| if any > 0 { (one.min(other), one.max(other)) } else { (one, other) })
            .collect();
        hand_on(&parts, &rules);
    }
}
