//! Plans from other software: how they are read, and what the linked library says of them.

use parts::checking::Refused;
use parts::handed::{Handed, What};
use parts::list::List;
use parts::planning::Named;

fn list_of(text: &str) -> List {
    List::read(text.as_bytes()).unwrap_or_else(|faults| panic!("{text:?}: {faults:?}"))
}

/// What a check prints, or why it is refused.
fn check(list: &str, plan: &str) -> Result<String, Refused> {
    let list = list_of(list);
    let handed = Handed::read(plan.as_bytes(), &list).unwrap_or_else(|faults| panic!("{plan:?}: {faults:?}"));
    Named::of_list(list).check(&handed)
}

fn of_plan(why: &str) -> Result<String, Refused> {
    Err(Refused::Plan(why.into()))
}

/// B6 of the rules, its best plan and its table.
const LIST: &str = "rack 3\nA : 0\nB : 2\nC : 0-1\n: 1-2\n";
const PLAN: &str = "pairs 2\nA : 0\nB : 2\nC : 0\n: 2\n";
const TABLE: &str = "table\n0 1 2\n0 0 1\n0 0 0\n";

/// The plan with its table.
fn whole() -> String {
    PLAN.to_string() + TABLE
}

#[test]
fn plan_with_its_table_is_accepted() {
    let text = "lines 4 rack 3\npairs 2 as claimed, each part on a tip of its own\n\
                table accepted: no plan has more pairs\nbest 2, the plan has as many\n";
    assert_eq!(check(LIST, &whole()), Ok(text.into()));
    // In any order, with comments, and with anything below the diagonal.
    let plan = "# theirs\n\npairs 2 # counted\n: 2\nC:0\nB : 2\nA : 0\n\ntable\n0 1 2\n9 0 1\n9 4294967295 0\n";
    assert_eq!(check(LIST, plan), Ok(text.into()));
}

#[test]
fn plan_without_a_table_is_compared_with_the_best() {
    let text = "lines 4 rack 3\npairs 2 as claimed, each part on a tip of its own\n\
                no table: only the tips and the pairs are checked\nbest 2, the plan has as many\n";
    assert_eq!(check(LIST, PLAN), Ok(text.into()));
    let text = "lines 4 rack 3\npairs 1 as claimed, each part on a tip of its own\n\
                no table: only the tips and the pairs are checked\nbest 2, the plan has 1 fewer\n";
    assert_eq!(check(LIST, "pairs 1\nA : 0\nB : 2\nC : 1\n: 1\n"), Ok(text.into()));
    assert_eq!(check("rack 1\n", "pairs 0\n").map(|text| text.lines().count()), Ok(4));
}

#[test]
fn list_without_a_best_plan_is_checked_without_a_table() {
    let list = "rack 3\nA : 1\nB : 0 2\n";
    let text = "lines 2 rack 3\npairs 0 as claimed, each part on a tip of its own\n\
                no table: only the tips and the pairs are checked\n\
                best none, B is no run: it lacks tip 1, which A has (with the tips in the order 0 2 1 every part is a run)\n\
                exact 0, the plan has as many\n";
    assert_eq!(check(list, "pairs 0\nA : 1\nB : 2\n"), Ok(text.into()));
    // C with A and D with B are two pairs; here C and D are one.
    let fewer = check("rack 3\nA : 1\nB : 2\nC : 0-1\nD : 0 2\n", "pairs 1\nA : 1\nB : 2\nC : 0\nD : 0\n").unwrap();
    assert!(fewer.ends_with("\nexact 2, the plan has 1 fewer\n"), "{fewer}");
    let why = "refused 19: B is on tip 1 and has only 0 2; give it a tip of its own";
    assert_eq!(check(list, "pairs 1\nA : 1\nB : 1\n"), of_plan(why));
    let why = "refused 20: the plan has 0 pairs and says 1; write pairs 0";
    assert_eq!(check(list, "pairs 1\nA : 1\nB : 2\n"), of_plan(why));
    let why = "refused 25: B is no run: it lacks tip 1, which A has (with the tips in the order 0 2 1 every part is a run); take the table out to check tips and pairs";
    let plan = "pairs 9\nA : 9\nB : 9\ntable\n9 9 9\n9 9 9\n9 9 9\n";
    assert_eq!(check(list, plan), Err(Refused::List(why.into())));
}

#[test]
fn foreign_tips_are_refused_first() {
    for tip in ["1", "2", "3", "64", "66", "255", "256", "258", "99999999999999999999"] {
        let plan = whole().replace("A : 0", &format!("A : {tip}")).replace("pairs 2", "pairs 9");
        let tip = if tip.len() > 3 { usize::MAX.to_string() } else { tip.into() };
        let why = format!("refused 19: A is on tip {tip} and has only 0; give it a tip of its own");
        assert_eq!(check(LIST, &plan), of_plan(&why));
        assert_eq!(check(LIST, plan.split("table").next().unwrap()), of_plan(&why));
    }
    let why = "refused 19: line 3 is on tip 0 and has only 1-2; give it a tip of its own";
    assert_eq!(check(LIST, &whole().replace("\n: 2", "\n: 0")), of_plan(why));
}

#[test]
fn wrong_claims_are_refused_before_the_table() {
    for claim in [0, 1, 3, u32::MAX] {
        let plan = whole().replace("pairs 2", &format!("pairs {claim}"));
        let why = format!("refused 20: the plan has 2 pairs and says {claim}; write pairs 2");
        assert_eq!(check(LIST, &plan), of_plan(&why));
        assert_eq!(check(LIST, plan.split("table").next().unwrap()), of_plan(&why));
    }
    // Placements are counted.
    let why = "refused 20: the plan has 3 pairs and says 1; write pairs 3";
    assert_eq!(check("rack 2\nA x2 : 0\nB : 0-1\n", "pairs 1\nA : 0\nB : 0\n"), of_plan(why));
}

#[test]
fn tables_that_fail_are_told() {
    for (row, what) in [
        ("0 1 3", "the table has 3 for the whole rack, and the plan 2 pairs; correct the table or the plan"),
        ("0 0 2", "the table has 0 for the tips 0 to 1, which need 1 with tip 0; correct the table"),
        (
            "4294967295 4294967295 2",
            "the table has 2 for the tips 0 to 2, which need 4294967296 with tip 1; correct the table",
        ),
    ] {
        assert_eq!(check(LIST, &whole().replace("0 1 2", row)), of_plan(&format!("refused 33: {what}")));
    }
}

/// The faults of a plan for the list, each with its line.
fn faults(plan: &[u8]) -> Vec<(usize, What)> {
    let faults = Handed::read(plan, &list_of(LIST)).expect_err("a plan with faults");
    faults.into_iter().map(|fault| (fault.line, fault.what)).collect()
}

#[test]
fn faults_are_told_by_line() {
    assert_eq!(faults(b""), [(1, What::NoPairs)]);
    assert_eq!(faults(b"\n# nothing\n"), [(2, What::NoPairs)]);
    assert_eq!(faults(b"A : 0\n"), [(1, What::NoPairs)]);
    assert_eq!(faults(b"pairs\n"), [(1, What::PairsWords("pairs".into()))]);
    assert_eq!(faults(b"pairs -1\n"), [(1, What::PairsWords("pairs -1".into()))]);
    assert_eq!(faults(b"pairs 4294967296\n"), [(1, What::PairsSize("4294967296".into()))]);
    let plan = b"pairs 2\nA 0\nA : x\nA :\nA B : 0\nE : 0\nA : 0\nA : 0\n: 1\n: 1\nB : 1 : 2\npairs 2\ntable 3\n\xFF\nB\x07 : 1\n";
    let expected = [
        (2, What::NoColon),
        (3, What::UnknownTip("x".into())),
        (4, What::UnknownTip("".into())),
        (5, What::NameWords("A B".into())),
        (6, What::UnknownPart("E".into())),
        (8, What::PartAgain { name: "A".into(), line: 7 }),
        (10, What::TooManyWithoutName),
        (11, What::ColonAgain),
        (12, What::PairsAgain),
        (13, What::TableWords("table 3".into())),
        (14, What::NotText),
        (15, What::ControlCharacter),
    ];
    assert_eq!(faults(plan), expected);
}

#[test]
fn what_is_missing_is_told_at_the_end() {
    assert_eq!(faults(b"pairs 2\nA : 0\n: 2\n"), [(3, What::NoTip("B".into()))]);
    assert_eq!(faults(b"pairs 2\nA : 0\nB : 2\nC : 0\n"), [(4, What::NoTip("line 3".into()))]);
    let table = |rows: &str| faults((PLAN.to_string() + "table\n" + rows).as_bytes());
    assert_eq!(table(""), [(6, What::Rows { rows: 0, rack: 3 })]);
    assert_eq!(table("0 1 2\n0 0 1\n"), [(8, What::Rows { rows: 2, rack: 3 })]);
    assert_eq!(table("0 1 2\n0 0 1\n0 0 0\n0 0 0\n"), [(10, What::Rows { rows: 4, rack: 3 })]);
    let lengths = [(8, What::RowLength { entries: 2, rack: 3 }), (9, What::RowLength { entries: 4, rack: 3 })];
    assert_eq!(table("0 1 2\n0 0\n0 0 0 0\n"), lengths);
    assert_eq!(table("0 -1 2\n"), [(7, What::UnknownEntry("-1".into()))]);
    assert_eq!(table("0 1 4294967296\n"), [(7, What::UnknownEntry("4294967296".into()))]);
    assert_eq!(table("A : 0\n"), [(7, What::UnknownEntry("A".into()))]);
}
