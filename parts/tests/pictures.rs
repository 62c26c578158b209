//! The drawing of a list and its plans.

use parts::list::List;
use parts::planning::Named;

fn named(text: &str) -> Named {
    Named::of_list(List::read(text.as_bytes()).unwrap_or_else(|faults| panic!("{text:?}: {faults:?}")))
}

fn picture(text: &str) -> String {
    named(text).picture().expect("a picture")
}

fn count(picture: &str, words: &str) -> usize {
    picture.matches(words).count()
}

#[test]
fn worked_example_is_drawn_as_kept() {
    let list = include_str!("../../docs/example.txt");
    let kept = include_str!("../../docs/example.svg");
    assert!(picture(list) == kept, "docs/example.svg differs; `parts picture docs/example.txt > docs/example.svg`");
}

#[test]
fn every_part_has_its_tips_and_its_marks() {
    // Quick and best put A and B on tip 0, C on tip 2.
    let picture = picture("rack 3\nA : 0\nB : 0-1 # both\nC : 2\n");
    // The tips of the parts in both plans and the key: 2 * 4 + 1. A mark a part and plan, and one in the key: 3 + 1.
    assert_eq!(count(&picture, "fill=\"#dfe6ec\""), 9);
    assert_eq!(count(&picture, "<circle "), 4);
    assert_eq!(count(&picture, "height=\"22\" fill=\"#b8480b\""), 4);
    assert_eq!(count(&picture, "</tspan> 1 pair on 2 tips</text>"), 2);
    assert_eq!(count(&picture, ">both</text>"), 1);
    // Quick begins at 24 + 14 + 10 + 166 = 214: the discs of A and B in column 0, that of C in column 2.
    for (x, y) in [(233, 103), (233, 141), (309, 179)] {
        assert_eq!(count(&picture, &format!("<circle cx=\"{x}\" cy=\"{y}\" r=\"11\"")), 1, "{x} {y}");
    }
    // Best begins at 214 + 228 + 56 = 498, and its squares 8 further.
    for (x, y) in [(506, 92), (506, 130), (582, 168)] {
        assert_eq!(count(&picture, &format!("<rect x=\"{x}\" y=\"{y}\" width=\"22\"")), 1, "{x} {y}");
    }
}

#[test]
fn quantities_stand_behind_the_names_and_placements_below() {
    // Both plans put A and B on tip 0: 13 placements and 78 pairs; C is alone on tip 2.
    let drawn = picture("rack 3\nA x10 : 0\nB x3 : 0-1 # both\nC : 2\n");
    assert_eq!((count(&drawn, ">A x10</text>"), count(&drawn, ">B x3</text>"), count(&drawn, ">C</text>")), (1, 1, 1));
    assert_eq!(count(&drawn, "</tspan> 78 pairs on 2 tips</text>"), 2);
    assert_eq!((count(&drawn, ">placements on the tip</text>"), count(&drawn, ">parts on the tip</text>")), (1, 0));
    assert_eq!((count(&drawn, ">13</text>"), count(&drawn, ">78</text>")), (2, 2));
    let without = picture("rack 3\nA : 0\nB x1 : 0-1 # both\nC : 2\n");
    assert_eq!((count(&without, ">placements on the tip</text>"), count(&without, ">parts on the tip</text>")), (0, 1));
}

#[test]
fn large_numbers_are_as_wide_as_their_cell() {
    let drawn = picture(&("rack 2\nB x140 : 1\n".to_string() + &"x255 : 0\n".repeat(7)));
    // 140 placements at full size; more digits are smaller, so that 3 are left beside them: 32 * 9 / 5 / digits.
    for (number, size) in [("140", 15), ("1785", 14), ("9730", 14), ("1592220", 8)] {
        let words = format!(" font-size=\"{size}\" text-anchor=\"middle\"");
        let lines: Vec<&str> = drawn.lines().filter(|line| line.ends_with(&format!(">{number}</text>"))).collect();
        assert_eq!(lines.len(), 2, "{number}");
        assert!(lines.iter().all(|line| line.contains(&words)), "{lines:?}");
    }
}

#[test]
fn list_without_a_best_plan_has_the_exact_one() {
    let gap = picture("rack 3\nA : 1\nB : 0 2\n");
    assert_eq!(
        (count(&gap, "exact:</tspan> 0 pairs on 2 tips</text>"), count(&gap, "its tip in the exact plan")),
        (1, 1)
    );
    // Two parts and the key, in each plan.
    assert_eq!(count(&gap, "<circle "), 3);
    assert_eq!(count(&gap, "height=\"22\" fill=\"#b8480b\""), 3);
    // With too many tips for it there is the quick plan alone: 22 parts and the key, and the key for best.
    let wide: String = (0..21).map(|tip| format!(": {tip}\n")).collect();
    let wide = picture(&format!("rack 21\n{wide}: 0 2\n"));
    assert_eq!(count(&wide, "best:</tspan> none</text>"), 1);
    assert_eq!(count(&wide, "<circle "), 23);
    assert_eq!(count(&wide, "height=\"22\" fill=\"#b8480b\""), 1);
}

#[test]
fn tips_that_no_part_has_are_numbered_in_grey() {
    let picture = picture("rack 4\nA : 1 3\nB : 3\n");
    // Once in each plan, above its column.
    for (tip, colour) in [(0, "#66727f"), (1, "#1f2933"), (2, "#66727f"), (3, "#1f2933")] {
        assert_eq!(count(&picture, &format!("fill=\"{colour}\" font-weight=\"bold\">{tip}</text>")), 2, "{tip}");
    }
    assert_eq!(count(&picture, "</tspan> 1 pair on 1 tip</text>"), 2);
}

#[test]
fn names_and_comments_are_text_of_the_drawing() {
    let picture = picture("rack 1\na&<b> : 0 # \"c\" 'd'\n");
    assert_eq!(count(&picture, ">a&amp;&lt;b&gt;</text>"), 1);
    assert_eq!(count(&picture, ">&quot;c&quot; &#x27;d&#x27;</text>"), 1);
}

#[test]
fn long_comment_gets_its_room() {
    // 24 + 14 + 10 for the name; 166 for up to 18 letters of comment, 22 + 8 * 30 for 30. An m is as wide as it is high, 14.
    for (letter, letters, left) in
        [("e", 0, 214), ("e", 18, 214), ("e", 30, 310), ("m", 10, 214), ("m", 30, 48 + 22 + 420)]
    {
        let picture = picture(&format!("rack 1\nA : 0 # {}\n", letter.repeat(letters)));
        assert_eq!(count(&picture, &format!("<text x=\"{left}\" y=\"34\"")), 1, "{letters} {letter}");
    }
}

#[test]
fn job_file_is_drawn_with_line_numbers() {
    let picture = Named { file: named("rack 1\nA : 0\n: 0\n").file, list: None }.picture().unwrap();
    assert_eq!((count(&picture, ">line 0</text>"), count(&picture, ">line 1</text>")), (1, 1));
    assert_eq!(count(&picture, ">A</text>"), 0);
}

#[test]
fn long_names_end_before_the_drawing() {
    // 40 letters of which each is as wide as it is high, and a quantity behind them.
    let name = "W".repeat(60);
    let drawn = picture(&format!("rack 1\n{name} x10 : 0\n"));
    assert_eq!(count(&drawn, &format!(">{}… x10</text>", "W".repeat(39))), 1);
    let first = drawn.split("<circle cx=\"").nth(1).and_then(|rest| rest.split('"').next()).unwrap();
    // Name, then the least room for comments; the disc stands in the middle of its cell.
    assert!(first.parse::<usize>().unwrap() >= 24 + 39 * 15 + 166 + 19, "{first}");
}
