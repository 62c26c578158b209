//! Tips struck by a goal of pairs, by part name.

use parts::job::{list_in_words, Job};
use parts::list::List;
use parts::planning::Named;

fn named(text: &str) -> Named {
    let list = List::read(text.as_bytes()).unwrap_or_else(|faults| panic!("{text:?}: {faults:?}"));
    Named::of_list(list)
}

/// B23 of the rules, whose plans have 20, 17, 14 and 14 pairs.
const LIST: &str = "rack 3\nA x2 : 0\nB x3 : 0-1\nx3 : 1-2\nD x2 : 2\n";

#[test]
fn goals_name_what_is_struck_and_count_the_others() {
    for goal in [0, 14, 17] {
        let kept = named(LIST).goal(goal).unwrap();
        assert_eq!(kept.text, format!("best 20 goal {goal}\nno tip struck from 4 parts\n"));
        assert_eq!((kept.list, kept.file), (LIST.into(), named(LIST).file));
    }
    for goal in [18, 20] {
        let kept = named(LIST).goal(goal).unwrap();
        let text = "B x3 keeps 0 struck 1\nline 2 x3 keeps 2 struck 1\nno tip struck from 2 parts\n";
        assert_eq!(kept.text, format!("best 20 goal {goal}\n{text}"));
        assert_eq!(kept.list, "rack 3\nA x2 : 0\nB x3 : 0\nx3 : 2\nD x2 : 2\n");
        let left = Job::read(&kept.file).unwrap();
        assert_eq!(list_in_words(&left), "rack 3\n0 x2 : 0\n1 x3 : 0\n2 x3 : 2\n3 x2 : 2\n");
    }
}

#[test]
fn goals_that_no_plan_meets_are_refused_with_the_most() {
    let why = |goal: u32| format!("refused 34: no plan has {goal} pairs; the most is 20, name a goal from 0 to 20");
    for goal in [21, u32::MAX] {
        assert_eq!(named(LIST).goal(goal).err(), Some(why(goal)));
    }
    let why = "refused 34: no plan has 1 pairs; the most is 0, name a goal from 0 to 0";
    assert_eq!(named("rack 2\n").goal(1).err(), Some(why.into()));
    assert_eq!(named("rack 2\n").goal(0).unwrap().text, "best 0 goal 0\nno tip struck from 0 parts\n");
}

#[test]
fn gaps_that_are_left_are_told() {
    let kept = named("rack 3\nA x255 : 0-2\nB x2 : 0\nC : 1\nD x2 : 2\n").goal(32_643).unwrap();
    let text = "best 32897 goal 32643\nA x255 keeps 0 2 struck 1\nno tip struck from 3 parts\n\
                then best none, A is no run: it lacks tip 1, which C has (with the tips in the order 0 2 1 every part is a run)\n";
    assert_eq!(kept.text, text);
    // Without C no part has tip 1 any more.
    let kept = named("rack 3\nA x255 : 0-2\nB x2 : 0\nD x2 : 2\n").goal(32_643).unwrap();
    assert_eq!(kept.text, "best 32897 goal 32643\nA x255 keeps 0 2 struck 1\nno tip struck from 2 parts\n");
}

#[test]
fn lists_without_a_best_plan_are_refused() {
    let board = named("rack 3\nA : 1\nB : 0 2\n");
    for goal in [0, u32::MAX] {
        let why = "refused 25: B is no run: it lacks tip 1, which A has (with the tips in the order 0 2 1 every part is a run); give B that tip to strike by a goal";
        assert_eq!(board.goal(goal).err(), Some(why.into()));
    }
    let bad = Named { file: b"TIP\0\x01\x41\0\0".to_vec(), list: None };
    assert_eq!(bad.goal(0).err(), Some("refused 1: the rack size is 65; put 1 to 64 in byte 5".into()));
}
