//! The placing order: how parts and rules are read, what is printed, and why there is no order.

use parts::list::{Before, Fault, List, What};
use parts::planning::{Which, Wish, FEWEST_TIPS};

fn list_of(text: &str) -> List {
    List::read(text.as_bytes()).unwrap_or_else(|faults| panic!("{text:?}: {faults:?}"))
}

fn order(text: &str) -> Result<String, String> {
    list_of(text).order()
}

/// The only fault of a list whose second line this is.
fn fault_of(line: &str) -> What {
    let faults = List::read(format!("rack 3\n{line}\nA : 0\nB : 1\n").as_bytes()).expect_err(line);
    let [Fault { line: 2, what }] = &faults[..] else { panic!("{line:?}: {faults:?}") };
    what.clone()
}

const LIST: &str = "rack 4\nJ1 tall : 3\nR1 : 0-1\nU1 fine : 2\nR2 x10 : 0-1\nbefore R2 R1\n";

#[test]
fn order_is_printed_by_name() {
    let text = "parts 4 rules 1\nposition 0 U1 fine\nposition 1 R2\nposition 2 R1\nposition 3 J1 tall\n";
    assert_eq!(order(LIST), Ok(text.into()));
    // A part without a name by its number, and positions as they are written.
    let text = "parts 3 rules 0\nposition 0 B at=0\nposition 1 line 0 at=0-1\nposition 2 line 2\n";
    assert_eq!(order("rack 1\nat=0-1 : 0\nB at=0 : 0\n: 0\n"), Ok(text.into()));
    assert_eq!(order("rack 1\n"), Ok("parts 0 rules 0\n".into()));
    assert_eq!(
        order("rack 1\nfine tall at=0-0 : 0\n"),
        Ok("parts 1 rules 0\nposition 0 line 0 fine tall at=0\n".into())
    );
}

/// Without their tips the parts are placed as U1, C1, R1, R2, C2 and J1.
const MIXED: &str = "rack 3\nJ1 tall : 2\nR1 : 0\nC1 : 1\nR2 : 0\nC2 : 1\nU1 fine : 1\nbefore C1 R1\n";

#[test]
fn order_by_tips_is_printed_with_them() {
    let by_tips = |list: &str, which, mounted| list_of(list).order_by_plan(which, Wish::mounted(mounted));
    let text = "parts 6 rules 1\ntips of the quick plan, 2 changes in this order\nposition 0 U1 fine tip 1\n\
                position 1 C1 tip 1\nposition 2 C2 tip 1\nposition 3 R1 tip 0\nposition 4 R2 tip 0\n\
                position 5 J1 tall tip 2\n";
    assert_eq!(by_tips(MIXED, Which::Quick, None), Ok(text.into()));
    // U1 is first whatever is mounted.
    let mounted =
        text.replace("quick plan, 2 changes in this order", "best plan, 3 changes in this order, tip 0 mounted");
    assert_eq!(by_tips(MIXED, Which::Best, Some(0)), Ok(mounted));
    assert_eq!(
        by_tips("rack 1\n", Which::Best, None),
        Ok("parts 0 rules 0\ntips of the best plan, 0 changes in this order\n".into())
    );
    let why = by_tips("rack 3\nA : 1\nB : 0 2\n", Which::Best, None).unwrap_err();
    assert!(why.starts_with("refused 25: B is no run") && why.ends_with("; take the exact plan"), "{why}");
    // Exact has A and B1 on tip 0 with the fewest tips, and B1 on tip 1 without a price.
    let list = list_of("rack 3\nA : 0\nB1 : 0-1\nB2 : 0-1\nB3 : 0-1\nC1 : 1-2\nC2 : 1-2\nC3 : 1-2\nD : 2\n");
    let second = |price| list.order_by_plan(Which::Exact, Wish { price: Some(price), ..Wish::default() }).unwrap();
    assert!(second(FEWEST_TIPS)
        .contains("\ntips of the exact plan, 1 change in this order\nposition 0 A tip 0\nposition 1 B1 tip 0\n"));
    assert!(second(0)
        .contains("\ntips of the exact plan, 2 changes in this order\nposition 0 A tip 0\nposition 1 B1 tip 1\n"));
    let round = "rack 1\nA : 0\nB : 0\nbefore A B\nbefore B A\n";
    assert_eq!(by_tips(round, Which::Quick, None), order(round));
}

#[test]
fn windows_are_printed_by_name() {
    // The fine part is first, the tall one last, and R2 before R1.
    let text = "parts 4 rules 1\nJ1 tall position 3\nR1 position 2\nU1 fine position 0\nR2 position 1\n";
    assert_eq!(list_of(LIST).windows(), Ok(text.into()));
    // The only order of parts 0 and 2 beside part 1; and part 2 behind two that share the first positions.
    let text = "parts 3 rules 0\nline 0 positions 0 to 2\nB at=1 position 1\nC positions 0 to 2\n";
    assert_eq!(list_of("rack 1\n: 0\nB at=1 : 0\nC : 0\n").windows(), Ok(text.into()));
    let text = "parts 3 rules 0\nA at=0-1 positions 0 to 1\nB at=0-1 positions 0 to 1\nC position 2\n";
    assert_eq!(list_of("rack 1\nA at=0-1 : 0\nB at=0-1 : 0\nC : 0\n").windows(), Ok(text.into()));
    assert_eq!(list_of("rack 1\n").windows(), Ok("parts 0 rules 0\n".into()));
    for list in ["rack 1\nA : 0\nB : 0\nbefore A B\nbefore B A\n", "rack 1\nA at=0-5 : 0\n"] {
        let why = list_of(list).windows().unwrap_err();
        assert_eq!(Err(why), order(list));
    }
}

#[test]
fn tall_counts_where_a_part_is_fine_too() {
    let text = "parts 4 rules 0\nposition 0 U1 fine\nposition 1 R1\nposition 2 J1 fine tall\nposition 3 J2 tall\n";
    assert_eq!(order("rack 1\nJ1 fine tall : 0\nR1 : 0\nJ2 tall : 0\nU1 fine : 0\n"), Ok(text.into()));
    let text = "parts 2 rules 0\nposition 0 J2 tall\nposition 1 J1 fine tall\n";
    assert_eq!(order("rack 1\nJ2 tall : 0\nJ1 tall fine : 0\n"), Ok(text.into()));
}

#[test]
fn words_of_the_order_are_read() {
    let list = list_of("rack 3\nbefore B A\nA at=0-2 fine height=1 x2 : 0\nB tall : 1 # before\nbefore A B\n");
    assert_eq!(list.rules, [Before { earlier: 1, later: 0, line: 2 }, Before { earlier: 0, later: 1, line: 5 }]);
    let [a, b] = &list.parts[..] else { panic!("{list:?}") };
    assert_eq!((a.fine, a.tall, a.at, a.quantity, a.columns.len()), (true, false, Some((0, 2)), 2, 1));
    assert_eq!((b.fine, b.tall, b.at), (false, true, None));
    // Other spellings are names, and a part called before has a colon.
    let list = list_of("rack 3\nFine : 0\nbefore : 1\nbefore Fine before\n");
    assert_eq!(list.rules, [Before { earlier: 0, later: 1, line: 4 }]);
    assert_eq!(list.parts[0].name.as_deref(), Some("Fine"));
    // Numbers that are too large are positions that no part has.
    assert_eq!(list_of("rack 1\nA at=7-99999999999999999999 : 0\n").parts[0].at, Some((7, u32::MAX)));
}

#[test]
fn faults_are_told() {
    for (line, what, text) in [
        ("A1 fine fine : 0", What::FlagAgain("fine".into()), "a second fine; write it once"),
        ("tall A1 : 0", What::UnknownWord("A1".into()), ""),
        (
            "A1 at= : 0",
            What::Positions("at=".into()),
            "no positions in `at=`; write the first and the last, counted from 0, as at=0-3",
        ),
        ("A1 at=1-2-3 : 0", What::Positions("at=1-2-3".into()), ""),
        ("A1 at=-1 : 0", What::Positions("at=-1".into()), ""),
        ("A1 at=0.5 : 0", What::Positions("at=0.5".into()), ""),
        (
            "A1 at=3-1 : 0",
            What::PositionsBackwards { first: "3".into(), last: "1".into() },
            "the positions 3-1 run backwards; write at=1-3",
        ),
        (
            "A1 at=1 at=1 : 0",
            What::PositionsAgain("at=1".into()),
            "a second `at=1`; give each part one first and last position",
        ),
        (
            "before A",
            What::BeforeWords("before A".into()),
            "unknown words in `before A`; write `before A B`, A being placed before B",
        ),
        ("before", What::BeforeWords("before".into()), ""),
        ("before A B C", What::BeforeWords("before A B C".into()), ""),
        (
            "before A C",
            What::BeforeUnknown("C".into()),
            "the list has no part C; take the rule out, or correct the name",
        ),
        ("before C A", What::BeforeUnknown("C".into()), ""),
        ("before B B", What::BeforeItself("B".into()), "B cannot be before itself; name two parts"),
    ] {
        assert_eq!(fault_of(line), what);
        assert!(text.is_empty() || what.to_string() == text, "{what}");
    }
    // A name whose own line is wrong is not missing too.
    let faults = List::read(b"rack 1\nbefore A B\nA : 0\nB : 1\n").expect_err("a fault");
    assert_eq!(faults.len(), 1);
}

#[test]
fn other_commands_take_such_lists() {
    let list = list_of(LIST);
    assert_eq!(list.job(), list_of("rack 4\nJ1 : 3\nR1 : 0-1\nU1 : 2\nR2 x10 : 0-1\n").job());
    // A rule goes with the part below it, and stays below the last one.
    let sorted =
        list_of("rack 2\nA h=2 fine : 0\nbefore C A\nB at=1-2 h=1 : 1\nC h=3 : 0\nbefore A B\n").sorted_by("h");
    let text = "rack 2\nbefore C A\nB at=1-2 h=1 : 1\nA h=2 fine : 0\nC h=3 : 0\nbefore A B\n";
    assert_eq!(sorted, Ok(text.into()));
    let sorted = list_of("rack 2\nA at=1-2 : 0\nB at=0-2 : 1\nC at=1 : 0\n").sorted_by("at");
    assert_eq!(sorted, Ok("rack 2\nB at=0-2 : 1\nA at=1-2 : 0\nC at=1 : 0\n".into()));
}

/// Why the list has no order.
fn why(text: &str) -> String {
    order(text).expect_err(text)
}

#[test]
fn cycles_are_told_by_their_parts() {
    assert_eq!(
        why("rack 1\nA : 0\nB : 0\nC : 0\nD : 0\nbefore A C\nbefore D A\nbefore C B\nbefore B A\n"),
        "refused 29: no order obeys: A before C (rule on line 6), C before B (rule on line 8), \
         B before A (rule on line 9); take out one of these rules"
    );
    assert_eq!(
        why("rack 1\nA : 0\nB tall : 0\nC : 0\nbefore B C\n"),
        "refused 29: no order obeys: B before C (rule on line 5), C before B (tall last); \
         take out one of these rules, or a word fine or tall"
    );
    assert_eq!(
        why("rack 1\nJ1 fine tall : 0\nR1 : 0\nbefore J1 R1\n"),
        "refused 29: no order obeys: J1 before R1 (rule on line 4), R1 before J1 (tall last); \
         take out one of these rules, or a word fine or tall"
    );
}

#[test]
fn positions_that_are_too_few_are_told() {
    assert_eq!(
        why("rack 1\nA at=1 : 0\nB : 0\n: 0\nC at=1-1 : 0\n"),
        "refused 29: no order obeys: 2 parts must share the position 1: A at=1, C at=1; \
         give one of them other positions, or take out what keeps it there"
    );
    assert_eq!(
        why("rack 1\nA at=0-1 : 0\nB : 0\nC at=0-2 : 0\nD at=0-1 : 0\nbefore B C\n"),
        "refused 29: no order obeys: 3 parts must share the positions 0-1: A at=0-1, \
         B before C at=0-2 (rule on line 6), D at=0-1; \
         give one of them other positions, or take out what keeps it there"
    );
    assert_eq!(
        why("rack 1\nA tall : 0\nB at=3 : 0\nC : 0\n: 0\n"),
        "refused 29: no order obeys: A tall must be at 4 or later, behind B at=3 (tall last), and at 3 or earlier; \
         give them more positions, or take out what keeps them"
    );
    assert_eq!(
        why("rack 1\nA at=0 : 0\nB fine : 0\n"),
        "refused 29: no order obeys: A at=0 must be at 1 or later, behind B fine (fine first), and at 0 or earlier; \
         give them more positions, or take out what keeps them"
    );
    assert_eq!(
        why("rack 1\nA : 0\nB at=0 : 0\nbefore A B\n"),
        "refused 29: no order obeys: A must be at 0 or later, and before B at=0 (rule on line 4); \
         give them more positions, or take out what keeps them"
    );
}

#[test]
fn bad_positions_and_too_many_parts_are_refused() {
    let text = "refused 12: B at=0-4 reaches past 2, the last position of 3 parts; correct its at=";
    assert_eq!(why("rack 1\nA : 0\nB at=0-4 : 0\nC at=9 : 0\n"), text);
    let text = "refused 12: line 0 at=1 reaches past 0, the last position of 1 part; correct its at=";
    assert_eq!(why("rack 1\nat=1 : 0\n"), text);
    let many = "rack 1\n".to_string() + &": 0\n".repeat(128);
    assert_eq!(order(&many).map(|text| text.lines().count()), Ok(129));
    assert_eq!(why(&(many + ": 0\n")), "refused 12: 129 parts; an order has 128 at most, split the list");
}
