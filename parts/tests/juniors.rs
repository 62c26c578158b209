//! Plans for the Junior, by part name.

use parts::list::List;
use parts::planning::Named;

fn junior(text: &str) -> Result<String, String> {
    let list = List::read(text.as_bytes()).unwrap_or_else(|faults| panic!("{text:?}: {faults:?}"));
    Named::of_list(list).junior()
}

#[test]
fn both_holders_and_each_part_are_told() {
    // B57 of the rules: tips 0 and 2 serve every part too, with 2 pairs.
    let text = "lines 3 rack 3\nholders tip 1 and tip 2\npairs 3\nA x2 tip 1\nline 1 tip 1\nC tip 2\n";
    assert_eq!(junior("rack 3\nA x2 : 0-1\n: 1-2\nC : 2\n"), Ok(text.into()));
    // B58: C on the lower tip where both suit equally, else where more placements are.
    for (b, tip, pairs) in [("B", 0, 1), ("B x2", 1, 3)] {
        let text = format!("lines 3 rack 2\nholders tip 0 and tip 1\npairs {pairs}\nA tip 0\n{b} tip 1\nC tip {tip}\n");
        assert_eq!(junior(&format!("rack 2\nA : 0\n{b} : 1\nC : 0-1\n")), Ok(text));
    }
}

#[test]
fn one_tip_that_serves_every_part_is_told_once() {
    let text = "lines 2 rack 3\nholders tip 2, which serves every part\npairs 1\nA tip 2\nB tip 2\n";
    assert_eq!(junior("rack 3\nA : 2\nB : 1-2\n"), Ok(text.into()));
    assert_eq!(junior("rack 8\n"), Ok("lines 0 rack 8\nholders none, there is no part\npairs 0\n".into()));
}

#[test]
fn what_the_junior_cannot_do_is_refused() {
    let why =
        "refused 31: no two tips serve every part: A has 0, B has 1, C has 2; split the list, or give a part more tips";
    assert_eq!(junior("rack 3\nA : 0\nB : 1\nC : 2\n"), Err(why.into()));
    let why = "refused 31: no two tips serve every part; split the list, or give a part more tips";
    assert_eq!(junior("rack 4\nA : 0-1\nB : 1-2\nC : 0 2\nD : 3\n"), Err(why.into()));
    let why = "refused 1: a rack of 9; the Junior takes 8 tips at most, name a smaller rack";
    assert_eq!(junior("rack 9\n"), Err(why.into()));
    let many = |rack: usize, parts: usize| format!("rack {rack}\n{}", ": 0\n".repeat(parts));
    let why = "refused 24: 65 parts; the Junior takes 64 at most, split the list";
    assert_eq!(junior(&many(9, 65)), Err(why.into()));
    assert_eq!(junior(&many(8, 64)).map(|text| text.lines().count()), Ok(67));
}
