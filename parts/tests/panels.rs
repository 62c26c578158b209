//! Two boards on one panel, by the names of their parts.

use parts::job::{list_in_words, Job};
use parts::list::List;
use parts::panel::{Merged, Panel};
use parts::planning::Named;

fn named(text: &str) -> Named {
    Named::of_list(List::read(text.as_bytes()).unwrap_or_else(|faults| panic!("{text:?}: {faults:?}")))
}

fn panel_of(first: &str, second: &str) -> Panel {
    Panel::of(&[&named(first), &named(second)]).unwrap()
}

const FIRST: &str = "rack 3\nC1 : 0\nC2 x2 : 0-1\n";

#[test]
fn parts_have_their_tips_alone_and_on_the_panel() {
    let panel = panel_of(FIRST, "rack 3\nC1 : 1-2\n: 2\n");
    assert_eq!(panel.alone, "first lines 2 rack 3 alone 3\nsecond lines 2 rack 3 alone 1\n");
    let Merged { text, file, .. } = panel.merged.unwrap();
    let lines: Vec<&str> = text.lines().take(9).collect();
    assert_eq!(
        lines,
        [
            "panel lines 4 rack 3",
            "off 2 tips 0 1",
            "quick 4",
            "best 4",
            "first C1 alone 0 quick 0 best 0",
            "first C2 x2 alone 0 quick 0 best 0",
            "second C1 alone 2 quick 2 best 2",
            "second line 1 alone 2 quick 2 best 2",
            "",
        ]
    );
    let table = "\nplan   pairs  tips  changes in the list's order  changes in the order by tips\n\
                quick      4     2                            1                             1\n\
                best       4     2                            1                             1\n";
    assert!(text.ends_with(table), "{text}");
    let job = Job::read(&file).unwrap();
    assert_eq!(list_in_words(&job), "rack 3\n0 : 0\n1 x2 : 0-1\n2 : 1-2\n3 : 2\n");
}

#[test]
fn lines_that_are_no_runs_are_named_with_their_board() {
    // Alone the second board's line is a run; the first board names the tip that it lacks.
    let text = panel_of("rack 3\nA : 1\n", "rack 3\nA : 0 2\n").merged.unwrap().text;
    assert!(text.contains("best none, second A is no run: it lacks tip 1, which first A has (with the tips in the order 0 2 1 every part is a run)\n"), "{text}");
    assert!(text.contains("\nexact 0\n") && text.contains("\nsecond A alone 0 quick 0 exact 0\n"), "{text}");
}

#[test]
fn boards_that_make_no_panel_are_planned_alone() {
    let panel = panel_of(FIRST, "rack 1\nA : 0\n");
    let alone = "first lines 2 rack 3 alone 3\nsecond lines 1 rack 1 alone 0\n\
                 first C1 alone 0\nfirst C2 x2 alone 0\nsecond A alone 0\n";
    assert_eq!(panel.alone, alone);
    let why = "refused 17: the first rack has 3 tips and the second 1 tip; name one rack in both";
    assert_eq!(panel.merged, Err(why.into()));
    let long = "rack 3\n".to_string() + &": 0\n".repeat(257);
    let why = "refused 24: 514 lines together; a panel has 512 at most, make two panels";
    assert_eq!(panel_of(&long, &long).merged, Err(why.into()));
    let heavy = "rack 3\n".to_string() + &"x255 : 0\n".repeat(8);
    let why = "refused 30: 2049 placements together; a panel has 2048 at most, make two panels";
    assert_eq!(panel_of(&heavy, "rack 3\nx9 : 1\n").merged, Err(why.into()));
    assert!(panel_of(&heavy, "rack 3\nx8 : 1\n").merged.is_ok());
}

#[test]
fn boards_without_parts_make_a_panel() {
    for (first, second) in [(FIRST, "rack 3\n"), ("rack 3\n", FIRST)] {
        let Merged { text, file, .. } = panel_of(first, second).merged.unwrap();
        assert!(text.starts_with("panel lines 2 rack 3\n"), "{text}");
        assert_eq!(file, named(FIRST).file);
    }
    let Merged { text, file, .. } = panel_of("rack 3\n", "rack 3\n").merged.unwrap();
    assert!(text.starts_with("panel lines 0 rack 3\noff 0 tips\nquick 0\nbest 0\n"), "{text}");
    assert_eq!(file.len(), 8);
}

#[test]
fn panel_of_three_boards_keeps_names() {
    let third =
        "rack 3\nC1 x2 h=1 tall at=0 : 2 # P 1k: C1 C9\n: 1 # free\nU1 fine : 0 # its place: left\nbefore U1 C1\n";
    let job = Named { file: named("rack 3\nX : 1\nY x3 : 0\n").file, list: None };
    let panel = Panel::of(&[&named(FIRST), &job, &named(third)]).unwrap();
    assert_eq!(
        panel.alone,
        "first lines 2 rack 3 alone 3\nsecond lines 2 rack 3 alone 3\nthird lines 3 rack 3 alone 1\n"
    );
    let merged = panel.merged.unwrap();
    assert!(merged.text.contains("\nsecond line 1 x3 alone 0 quick 0 best 0\n"), "{}", merged.text);
    assert!(merged.text.contains("\nthird C1 x2 alone 2 quick 2 best 2\n"), "{}", merged.text);
    let list = "rack 3\nC1-1 : 0\nC2-1 x2 : 0-1\n0-2 : 1\n1-2 x3 : 0\n\
                C1-3 x2 h=1 tall : 2 # P 1k: C1-3 C9-3\n: 1 # free\nU1-3 fine : 0 # its place: left\n\
                before U1-3 C1-3\n";
    assert_eq!(merged.list, list);
    // The list and the job file are the same panel.
    assert_eq!(named(&merged.list).file, merged.file);
}

#[test]
fn boards_that_make_no_panel_are_told_by_their_places() {
    let panel = |boards: &[&str]| {
        let boards: Vec<Named> = boards.iter().map(|text| named(text)).collect();
        let panel = Panel::of(&boards.iter().collect::<Vec<_>>()).unwrap();
        (panel.alone.lines().count(), panel.merged.err())
    };
    let why = "refused 17: the first rack has 3 tips and the third 4 tips; name one rack in all";
    assert_eq!(panel(&[FIRST, FIRST, "rack 4\nA : 3\n", FIRST]), (4 + 7, Some(why.into())));
    let half = "rack 1\n".to_string() + &": 0\n".repeat(200);
    let why = "refused 24: 600 lines together; a panel has 512 at most, make two panels";
    assert_eq!(panel(&[&half, &half, &half]), (3 + 600, Some(why.into())));
    // So many boards have no words of their own.
    let twelve = panel(&["rack 1\nA : 0\n"; 12]);
    assert_eq!(twelve, (12, None));
}
