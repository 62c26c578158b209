//! What the linked library says of parts lists, by name.

use parts::changes::tip_by_tip;
use parts::job::{list_in_words, Job};
use parts::list::List;
use parts::planning::{Along, Named, Which, Wish, FEWEST_TIPS};

fn named(text: &str) -> Named {
    let list = List::read(text.as_bytes()).unwrap_or_else(|faults| panic!("{text:?}: {faults:?}"));
    Named::of_list(list)
}

/// B1 of the rules.
const FIGURE: &str = "rack 9\nA : 1-3\nB : 3-7\n: 0-8\nD : 5-6\n";

#[test]
fn keep_names_what_is_struck_and_counts_the_others() {
    let kept = named(FIGURE).keep(1).unwrap();
    let text = "off 1 tips 3 5 6\nk 1 margin 0\nB keeps 3 5-6 struck 4 7\nline 2 keeps 3 5-6 struck 0-2 4 7-8\n\
                no tip struck from 2 parts\n";
    assert_eq!(kept.text, text);
    let left = Job::read(&kept.file).unwrap();
    assert_eq!(list_in_words(&left), "rack 9\n0 : 1-3\n1 : 3 5-6\n2 : 3 5-6\n3 : 5-6\n");
}

#[test]
fn kept_list_has_the_names_and_the_kept_tips() {
    let kept = named(FIGURE).keep(1).unwrap();
    assert_eq!(kept.list, "rack 9\nA : 1-3\nB : 3 5-6\n: 3 5-6\nD : 5-6\n");
    assert_eq!(named(&kept.list).file, kept.file);
    let without_names = Named { file: named(FIGURE).file, list: None }.keep(1).unwrap();
    assert_eq!(without_names.list, "rack 9\n0 : 1-3\n1 : 3 5-6\n2 : 3 5-6\n3 : 5-6\n");
}

#[test]
fn keep_above_margin_0_strikes_nothing() {
    let board = named(FIGURE);
    let kept = board.keep(2).unwrap();
    assert_eq!(kept.text, "off 1 tips 3 5 6\nk 2 margin 1\nno tip struck from 4 parts\n");
    assert_eq!((kept.file, kept.list), (board.file, FIGURE.into()));
}

#[test]
fn keep_above_margin_0_strikes_where_the_quantity_is_larger() {
    // B1 with quantities: of 8 placements tips 5 and 6 can take 7, tip 3 can take 6, and tips 4 and 7 can take 5.
    let board = named("rack 9\nA : 1-3\nB x2 : 3-7\nx3 : 0-8\nD x2 : 5-6\n");
    // Within 2, tips 3, 5 and 6 can be the most used one; a line of 2 or 3 that has all of them must be on one.
    let kept = board.keep(2).unwrap();
    let text = "off 1 tips 5 6\nk 2 margin 1\nB x2 keeps 3 5-6 struck 4 7\n\
                line 2 x3 keeps 3 5-6 struck 0-2 4 7-8\nno tip struck from 2 parts\n";
    assert_eq!(kept.text, text);
    assert_eq!(kept.list, "rack 9\nA : 1-3\nB x2 : 3 5-6\nx3 : 3 5-6\nD x2 : 5-6\n");
    assert_eq!(named(&kept.list).file, kept.file);
    let without_names = Named { file: board.file.clone(), list: None }.keep(2).unwrap();
    assert_eq!(without_names.list, "rack 9\n0 : 1-3\n1 x2 : 3 5-6\n2 x3 : 3 5-6\n3 x2 : 5-6\n");
    // Within 3 only the line of 3 is struck, tips 4 and 7 being common too; within 4 none is.
    let text = "off 1 tips 5 6\nk 3 margin 2\nline 2 x3 keeps 3-7 struck 0-2 8\nno tip struck from 3 parts\n";
    assert_eq!(board.keep(3).unwrap().text, text);
    assert_eq!(board.keep(4).unwrap().text, "off 1 tips 5 6\nk 4 margin 3\nno tip struck from 4 parts\n");
    let why = "refused 26: margin -1, no plan is within k 0; the least k is 1";
    assert_eq!(board.keep(0).err(), Some(why.into()));
}

#[test]
fn quantities_of_1_are_kept_as_version_1() {
    let plain = named(FIGURE);
    let job = Job::read(&plain.file).unwrap();
    let mut file = [b"TIP\x00\x02", &plain.file[5..8]].concat();
    for line in &job.lines {
        file.extend([&line.set.to_be_bytes()[..], &[1]].concat());
    }
    let longer = Named { file, list: None };
    for k in [1, 2] {
        assert_eq!(longer.keep(k).unwrap().file, plain.keep(k).unwrap().file);
    }
    assert!(longer.plan(Wish::default()).unwrap().contains("\nline 3 quick 5 best 5\n\nparts on tip "));
}

#[test]
fn keep_below_margin_0_is_refused() {
    let why = named(FIGURE).keep(0).err().unwrap();
    assert_eq!(why, "refused 26: margin -1, no plan is within k 0; the least k is 1");
}

#[test]
fn keep_takes_a_large_k_and_no_lines() {
    let large = "off 0 tips 0\nk 65535 margin 65535\nno tip struck from 1 part\n";
    assert_eq!(named("rack 1\n: 0\n").keep(65_535).unwrap().text, large);
    assert_eq!(named("rack 1\n").keep(0).unwrap().text, "off 0 tips\nk 0 margin 0\nno tip struck from 0 parts\n");
}

#[test]
fn plan_names_both_tips_and_sums_up() {
    let text =
        "lines 4 rack 3\noff 2 tips 0 1 2\nquick 2\nbest 2\nA quick 0 best 0\nB quick 2 best 2\nC quick 0 best 0\n\
         line 3 quick 2 best 2\n\n\
         parts on tip 0 quick 2 best 2\nparts on tip 2 quick 2 best 2\n\
         plan   pairs  tips  changes in the list's order  changes in the order by tips\n\
         quick      2     2                            3                             1\n\
         best       2     2                            3                             1\n";
    assert_eq!(named("rack 3\nA : 0\nB : 2\nC : 0-1\n: 1-2\n").plan(Wish::default()), Ok(text.into()));
}

#[test]
fn plan_names_the_line_that_is_no_run_and_has_the_exact_plan_beside_quick() {
    // Exact has C with A on tip 1 and D with B on tip 2, where quick has C and D on tip 0.
    let text =
        "lines 4 rack 3\noff 2 tips 0 1 2\nquick 1\nbest none, D is no run: it lacks tip 1, which A has (with the tips in the order 1 0 2 every part is a run)\n\
         exact 2\nA quick 1 exact 1\nB quick 2 exact 2\nC quick 0 exact 1\nD quick 0 exact 2\n\n\
         parts on tip 0 quick 2 exact 0\nparts on tip 1 quick 1 exact 2\nparts on tip 2 quick 1 exact 2\n\
         plan   pairs  tips  changes in the list's order  changes in the order by tips\n\
         quick      1     3                            2                             2\n\
         exact      2     2                            3                             1\n";
    assert_eq!(named("rack 3\nA : 1\nB : 2\nC : 0-1\nD : 0 2\n").plan(Wish::default()), Ok(text.into()));
}

/// The most pairs are on three tips, 15. Two tips would do, with 12.
const TWO_WOULD_DO: &str = "rack 3\nA : 0\nB1 : 0-1\nB2 : 0-1\nB3 : 0-1\nC1 : 1-2\nC2 : 1-2\nC3 : 1-2\nD : 2\n";

#[test]
fn exact_plan_goes_by_the_price_of_a_tip() {
    let board = named(TWO_WOULD_DO);
    let plan = |mounted, price| board.plan(Wish { mounted, price: Some(price), along: None }).unwrap();
    let fewest = plan(None, FEWEST_TIPS);
    assert!(fewest.contains("\nbest 15\nexact 12, fewest tips\nA quick 0 best 0 exact 0\nB1 quick 1 best 1 exact 0\n"));
    assert_eq!(numbers(&fewest, "exact"), ["12", "2", "1", "1"]);
    assert_eq!(numbers(&fewest, "best"), ["15", "3", "2", "2"]);
    // 15 less 3 · 2 is more than 12 less 2 · 2; with a price of 3 both are 6, and tip 0 or the mounted one is taken first.
    assert!(plan(None, 2).contains("\nexact 15, price 2 a tip\n"));
    assert!(plan(None, 3).contains("\nexact 12, price 3 a tip\n"));
    assert_eq!(numbers(&plan(Some(1), 3), "exact"), ["15", "3", "3", "2"]);
    assert_eq!(numbers(&plan(Some(1), 4), "exact"), ["12", "2", "2", "2"]);
    assert!(plan(None, 0).contains("\nexact 15\n"));
    assert!(plan(None, FEWEST_TIPS - 1).contains("\nexact 12, price 2096128 a tip\n"));
    assert!(plan(None, u32::MAX).contains("\nexact 12, fewest tips\n"));
}

/// A part for each tip of this many, and one for tips 0 and 2, which is no run.
fn wide(tips: usize) -> String {
    let parts: String = (0..tips).map(|tip| format!(": {tip}\n")).collect();
    format!("rack 64\n{parts}: 0 2\n")
}

#[test]
fn exact_plan_of_too_many_tips_is_refused() {
    let exact = |tips, price| named(&wide(tips)).plan(Wish { price, ..Wish::default() });
    assert!(exact(20, None).unwrap().contains("\nexact 1\nline 0 quick 0 exact 0\n"));
    let why = "refused 35: 21 tips are named and 20 is the most; take out tips that few parts need, or split the list by tips";
    let plan = exact(21, None).unwrap();
    assert!(plan.contains(&format!("\nexact none, {why}\nline 0 quick 0 best -\n")), "{plan}");
    assert_eq!(numbers(&plan, "best"), ["-"; 4]);
    assert_eq!(exact(21, Some(0)), Err(why.into()));
}

#[test]
fn tip_that_no_part_has_may_be_missing() {
    let board = "rack 5\nA : 2 4\nB : 2\nC : 4\nD : 4\n";
    let text = "lines 4 rack 5\noff 1 tips 4\nquick 3\nbest 3\nA quick 4 best 4\nB quick 2 best 2\nC quick 4 best 4\n\
                D quick 4 best 4\n\n\
                parts on tip 2 quick 1 best 1\nparts on tip 4 quick 3 best 3\n\
                plan   pairs  tips  changes in the list's order  changes in the order by tips\n\
                quick      3     2                            2                             1\n\
                best       3     2                            2                             1\n";
    assert_eq!(named(board).plan(Wish::default()), Ok(text.into()));
    // The first part that is no run, the lowest tip that it lacks, and the first part that has it.
    for (more, why) in [
        ("E : 3\n", "A is no run: it lacks tip 3, which E has (with the tips in the order 2 4 3 every part is a run)"),
        (": 1 4\nF : 3\nG : 3\n", "A is no run: it lacks tip 3, which F has (with the tips in the order 1 4 2 3 every part is a run)"),
        (": 0-1\n: 0 4\n", "line 5 is no run: it lacks tip 1, which line 4 has (with the tips in the order 1 0 4 2 every part is a run)"),
    ] {
        let plan = named(&(board.to_string() + more)).plan(Wish::default()).unwrap();
        assert!(plan.contains(&format!("\nbest none, {why}\nexact ")), "{plan}");
    }
}

#[test]
fn plan_counts_parts_and_placements() {
    // Without the quantities quick begins with tip 1, which can pick B, C and D; with them tip 0 takes A and B first.
    let text = "lines 4 rack 3\noff 2 tips 0\nquick 79\nbest 79\nA x10 quick 0 best 0\nB x3 quick 0 best 0\n\
                C quick 1 best 1\nline 3 quick 1 best 1\n\n\
                parts 4 placements 15\nparts on tip 0 quick 2 best 2\n\
                placements on tip 0 quick 13 best 13\nparts on tip 1 quick 2 best 2\n\
                placements on tip 1 quick 2 best 2\n\
                plan   pairs  tips  changes in the list's order  changes in the order by tips\n\
                quick     79     2                            1                             1\n\
                best      79     2                            1                             1\n";
    let board = "rack 3\nA x10 : 0\nB x3 : 0-1\nC : 1-2\n: 1\n";
    assert_eq!(named(board).plan(Wish::default()), Ok(text.into()));
    let without = named(&board.replace(" x10", "").replace(" x3", "")).plan(Wish::default()).unwrap();
    assert!(without.contains("\nB quick 1 best 1\n") && !without.contains("placements"), "{without}");
}

#[test]
fn most_placements_on_one_tip_are_planned() {
    let text = "lines 1 rack 1\noff 0 tips 0\nquick 32385\nbest 32385\nA x255 quick 0 best 0\n\n\
                parts 1 placements 255\nparts on tip 0 quick 1 best 1\n\
                placements on tip 0 quick 255 best 255\n\
                plan   pairs  tips  changes in the list's order  changes in the order by tips\n\
                quick  32385     1                            0                             0\n\
                best   32385     1                            0                             0\n";
    assert_eq!(named("rack 1\nA x255 : 0\n").plan(Wish::default()), Ok(text.into()));
    let most = "rack 64\n".to_string() + &"x255 : 0-63\n".repeat(8) + "x8 : 5\n";
    let summary = "parts 9 placements 2048\nparts on tip 5 quick 9 best 9\n\
                   placements on tip 5 quick 2048 best 2048\n\
                   plan     pairs  tips  changes in the list's order  changes in the order by tips\n\
                   quick  2096128     1                            0                             0\n\
                   best   2096128     1                            0                             0\n";
    assert_eq!(summary_of(&most), summary);
}

/// What stands below the empty line of a plan.
fn summary_of(text: &str) -> String {
    let plan = named(text).plan(Wish::default()).unwrap();
    plan.split_once("\n\n").expect("a summary").1.into()
}

#[test]
fn summary_counts_the_tips_of_either_plan() {
    // Quick: tip 3 takes C1, D1, Q1, U1 and U2, tip 1 R1 and R2, tip 4 J1. Best: four parts each on tips 1 and 4.
    let board = "rack 6\nR1 : 0-1\nR2 : 1-2\nC1 : 1-3\nD1 : 1-3\nQ1 : 3-4\nU1 : 3-4\nU2 : 3-5\nJ1 : 4-5\n";
    let expected = "parts on tip 1 quick 2 best 4\nparts on tip 3 quick 5 best 0\n\
                    parts on tip 4 quick 1 best 4\n\
                    plan   pairs  tips  changes in the list's order  changes in the order by tips\n\
                    quick     11     3                            2                             2\n\
                    best      12     2                            1                             1\n";
    assert_eq!(summary_of(board), expected);
    let expected = "parts on tip 0 quick 1 best 1\nparts on tip 1 quick 6 best 6\n\
                    parts on tip 2 quick 1 best 1\n\
                    plan   pairs  tips  changes in the list's order  changes in the order by tips\n\
                    quick     15     3                            2                             2\n\
                    best      15     3                            2                             2\n";
    assert_eq!(summary_of(TWO_WOULD_DO), expected);
}

/// The numbers of a plan in the table at the end, behind its name: pairs, tips, and the changes in each order.
fn numbers(plan: &str, name: &str) -> Vec<String> {
    let (_, table) = plan.split_once("\n\n").expect("a table");
    let row = table.lines().map(|line| line.split_whitespace()).find(|row| row.clone().next() == Some(name));
    row.unwrap_or_else(|| panic!("no {name}: {plan}")).skip(1).map(String::from).collect()
}

#[test]
fn mounted_tip_wins_a_tie_and_is_changed_where_the_first_part_is_on_another() {
    let board = named("rack 3\nA : 0\nB : 1-2\n");
    for (mounted, tip, changes) in [(None, 1, "1"), (Some(0), 1, "1"), (Some(1), 1, "2"), (Some(2), 2, "2")] {
        let plan = board.plan(Wish::mounted(mounted)).unwrap();
        assert!(plan.contains(&format!("\nA quick 0 best 0\nB quick {tip} best {tip}\n\n")), "{plan}");
        let said = mounted.map_or(String::new(), |tip| format!("tip {tip} mounted\n"));
        assert!(plan.contains(&format!("quick 1 best 1\n{said}plan ")), "{plan}");
        assert_eq!(numbers(&plan, "quick"), ["0", "2", changes, "1"]);
        assert_eq!(numbers(&plan, "best"), ["0", "2", changes, "1"]);
    }
    // No part uses tip 1, so that it is changed at the start, unless there is no part.
    let plan = named("rack 3\nA : 0\nB : 2\n").plan(Wish::mounted(Some(1))).unwrap();
    assert_eq!(numbers(&plan, "quick"), ["0", "2", "2", "2"]);
    let plan = named("rack 3\n").plan(Wish::mounted(Some(1))).unwrap();
    assert_eq!(numbers(&plan, "best"), ["0", "0", "0", "0"]);
    // The exact plan takes the mounted tip too.
    let plan = named("rack 3\nA : 1\nB : 0 2\n").plan(Wish::mounted(Some(2))).unwrap();
    assert!(plan.contains("\nA quick 1 exact 1\nB quick 2 exact 2\n"), "{plan}");
    assert_eq!(numbers(&plan, "exact"), ["0", "2", "2", "1"]);
}

/// In the order of the list A and B can share tip 1, then C and D tip 0. Quick and best have A, C and D on tip 0.
const BETWEEN: &str = "rack 3\nA : 0-1\nB : 1-2\nC : 0\nD : 0-1\n";

#[test]
fn plan_along_the_list_has_fewer_changes() {
    let along = |mounted| named(BETWEEN).plan(Wish { mounted, along: Some(Along::List), ..Wish::default() }).unwrap();
    let text = "lines 4 rack 3\noff 1 tips 0 1\nquick 3\nbest 3\nalong 2, 1 change in the list's order\n\
                A quick 0 best 0 along 1\nB quick 1 best 1 along 1\nC quick 0 best 0 along 0\n\
                D quick 0 best 0 along 0\n\n\
                parts on tip 0 quick 3 best 3 along 2\nparts on tip 1 quick 1 best 1 along 2\n\
                plan   pairs  tips  changes in the list's order  changes in the order by tips\n\
                quick      3     2                            2                             1\n\
                best       3     2                            2                             1\n\
                along      2     2                            1                             1\n";
    assert_eq!(along(None), text);
    // Tip 1 stays on the head for A and B; tip 2 serves B alone, so that it is changed before A.
    assert_eq!(numbers(&along(Some(1)), "along"), ["2", "2", "1", "1"]);
    assert_eq!(numbers(&along(Some(2)), "along"), ["2", "2", "2", "2"]);
}

#[test]
fn plan_along_the_placing_order_has_fewer_changes_there() {
    // D, A and B can share tip 1, and C is on tip 0; in the order of the list that is tip 1, 1, 0 and 1.
    let board = named(&BETWEEN.replace("D :", "D fine :"));
    let plan = board.plan(Wish { along: Some(Along::PlacingOrder), ..Wish::default() }).unwrap();
    assert!(plan.contains("\nalong 3, 1 change in the placing order\nA quick 0 best 0 along 1\n"), "{plan}");
    let heads = "\nplan   pairs  tips  changes in the list's order  changes in the placing order  changes in the order by tips\n";
    assert!(plan.contains(heads), "{plan}");
    // D, A, B and C: quick and best have tips 0, 0, 1 and 0. By tips C comes before B.
    assert_eq!(numbers(&plan, "quick"), ["3", "2", "2", "2", "1"]);
    assert_eq!(numbers(&plan, "along"), ["3", "2", "2", "1", "1"]);
    let round = named("rack 1\nA fine tall : 0\nB : 0\nbefore A B\n");
    let why = round.plan(Wish { along: Some(Along::PlacingOrder), ..Wish::default() }).unwrap_err();
    assert!(why.starts_with("refused 29: no order obeys: A before B (rule on line 4)"), "{why}");
    assert!(round.plan(Wish { along: Some(Along::List), ..Wish::default() }).is_ok());
}

/// Each part has one tip. By tips U1, C1, C2, R1, R2 and J1; without their tips U1, C1, R1, R2, C2 and J1.
const MIXED: &str = "rack 3\nJ1 tall : 2\nR1 : 0\nC1 : 1\nR2 : 0\nC2 : 1\nU1 fine : 1\nbefore C1 R1\n";

#[test]
fn changes_are_those_of_the_order_that_the_list_allows() {
    let placed = Wish { along: Some(Along::PlacingOrder), ..Wish::default() };
    assert_eq!(numbers(&named(MIXED).plan(placed).unwrap(), "best"), ["4", "3", "4", "3", "2"]);
    // U1 is first whatever is mounted.
    let plan = |list: &str, mounted| named(list).plan(Wish::mounted(mounted)).unwrap();
    assert_eq!(numbers(&plan(MIXED, Some(0)), "quick"), ["4", "3", "5", "3"]);
    // R2 at position 1: tips 1, 0, 1, 1, 0 and 2.
    assert_eq!(numbers(&plan(&MIXED.replace("R2 :", "R2 at=1 :"), None), "quick"), ["4", "3", "4", "4"]);
    let round = plan(&(MIXED.to_string() + "before R1 C1\n"), None);
    assert_eq!(numbers(&round, "quick"), ["4", "3", "4", "-"]);
    let why = "\nno changes in the order by tips: refused 29: no order obeys: R1 before C1 (rule on line 9), \
               C1 before R1 (rule on line 8); take out one of these rules\n";
    assert!(round.ends_with(why), "{round}");
}

/// The changes along these tips, the first of them after the mounted one.
fn walk(tips: &[&str], mounted: Option<usize>) -> String {
    let begin = mounted.map(|tip| tip.to_string());
    let all: Vec<&str> = begin.as_deref().into_iter().chain(tips.iter().copied()).collect();
    all.windows(2).filter(|pair| pair[0] != pair[1]).count().to_string()
}

#[test]
fn printed_changes_hold_for_the_printed_orders() {
    let mut compared = 0;
    for list in
        [MIXED, TWO_WOULD_DO, BETWEEN, FIGURE, "rack 3\nA tall : 1\nB at=0-1 : 2\nC : 0-1\nD fine : 0 2\nbefore B C\n"]
    {
        for mounted in [None, Some(0), Some(2)] {
            let text = named(list).plan(Wish { mounted, price: Some(0), along: None }).unwrap();
            let (rows, _) = text.split_once("\n\n").unwrap();
            for (name, which) in [("quick", Which::Quick), ("best", Which::Best), ("exact", Which::Exact)] {
                if !text.contains(&format!("\n{name} ")) || text.contains(&format!("\n{name} none")) {
                    continue;
                }
                let tip_of = |row: &'_ str| row.split(' ').skip_while(|word| *word != name).nth(1).map(String::from);
                let tips: Vec<String> = rows.lines().filter(|row| row.contains(" quick ")).filter_map(tip_of).collect();
                let tips: Vec<&str> = tips.iter().map(String::as_str).collect();
                let numbers = numbers(&text, name);
                assert_eq!(numbers[2], walk(&tips, mounted), "{name} {mounted:?} {text}");
                let used: std::collections::BTreeSet<&&str> = tips.iter().collect();
                assert_eq!(numbers[1], used.len().to_string(), "{name} {text}");
                let list = List::read(list.as_bytes()).unwrap();
                let price = (which == Which::Exact).then_some(0);
                let order = list.order_by_plan(which, Wish { mounted, price, along: None }).unwrap();
                let placed = order.lines().filter_map(|line| line.strip_prefix("position ")?.rsplit(' ').next());
                let placed: Vec<&str> = placed.collect();
                assert_eq!(numbers[3], walk(&placed, mounted), "{name} {mounted:?} {order}");
                let changes = if numbers[3] == "1" { "1 change ".into() } else { format!("{} changes ", numbers[3]) };
                assert!(order.contains(&format!("\ntips of the {name} plan, {changes}in this order")), "{order}");
                compared += 1;
            }
        }
    }
    // The last list has no best plan.
    assert_eq!(compared, 42);
}

#[test]
fn free_parts_are_placed_tip_by_tip_whatever_their_number() {
    let free = "rack 2\n".to_string() + &": 0\n: 1\n".repeat(65);
    let plan = |list: &str| named(list).plan(Wish::default()).unwrap();
    assert_eq!(numbers(&plan(&free), "quick"), ["4160", "2", "129", "1"]);
    let fine = plan(&(free + "fine : 0\n"));
    assert_eq!(numbers(&fine, "quick"), ["4225", "2", "130", "-"]);
    assert!(fine.ends_with("by tips: refused 12: 131 parts; an order has 128 at most, split the list\n"), "{fine}");
    // Where the library orders them, it is the same order.
    let tips = [4, 2, 4, 0, 2, 2];
    let list = List::read(("rack 5\n".to_string() + &": 0-4\n".repeat(6)).as_bytes()).unwrap();
    for mounted in [None, Some(2), Some(3)] {
        assert_eq!(list.order_by_tips(&tips, mounted), Ok(tip_by_tip(&tips, mounted)), "{mounted:?}");
    }
}

#[test]
fn mounted_tip_may_change_the_pairs_of_quick_alone() {
    let board = named("rack 3\nA : 0\nB : 2\nC : 0-1\nD : 1-2\n");
    let pairs = |mounted| {
        board.plans(Wish::mounted(mounted)).map(|plans| (plans.quick.pairs, plans.best.map(|best| best.pairs)))
    };
    assert_eq!(pairs(None), Ok((2, Ok(2))));
    assert_eq!(pairs(Some(1)), Ok((1, Ok(2))));
    assert_eq!(pairs(Some(2)), Ok((2, Ok(2))));
}

#[test]
fn mounted_tip_outside_the_rack_is_refused_in_words() {
    let why = "refused 16: the mounted tip 3 is outside the rack of 3; name a tip from 0 to 2, or none";
    assert_eq!(named("rack 3\nA : 0\n").plan(Wish::mounted(Some(3))), Err(why.into()));
    // A bad file is told first.
    let damaged = Named { file: b"TIP\x00\x01\x03\x00\x02\x00".to_vec(), list: None };
    assert!(damaged.plan(Wish::mounted(Some(3))).unwrap_err().starts_with("refused 10: "));
}

#[test]
fn summary_without_parts_has_no_tip_change() {
    let expected = "plan   pairs  tips  changes in the list's order  changes in the order by tips\n\
                    quick      0     0                            0                             0\n\
                    best       0     0                            0                             0\n";
    assert_eq!(summary_of("rack 5\n"), expected);
}

#[test]
fn damaged_files_are_refused_in_words() {
    let damaged = Named { file: b"TIP\x00\x01\x03\x00\x02\x00".to_vec(), list: None };
    let why =
        "refused 10: the file names 2 lines, which take 24 bytes, and has 9; hand over the whole file and no more, or mend it: parts mend";
    assert_eq!(damaged.keep(1).err(), Some(why.into()));
    assert_eq!(damaged.plan(Wish::default()), Err(why.into()));
    assert_eq!(damaged.picture(), Err(why.into()));
}
