//! Plans by reference designator, and what `parts check` reads of them.

use parts::exporting::Format;
use parts::handed::Handed;
use parts::list::List;
use parts::planning::{Named, Which, Wish};

/// Best: R1, C1 and the part without a name on tip 1, which makes 36 pairs, and D1 on tip 2, which makes 3.
const LIST: &str = "rack 3\n\
    R1 x4 : 0-1 # R_0402 10k: R1 R2 R3 R4\n\
    C1 x4 : 1 # C_0402: C1 C2\n\
    : 1-2 # a \"fuse\"\n\
    D1 x3 : 2 # see: the note\n";

fn list() -> List {
    List::read(LIST.as_bytes()).unwrap()
}

fn exported(format: Format, which: Which) -> String {
    Named::of_list(list()).exported(format, which, Wish::default()).unwrap()
}

#[test]
fn each_reference_has_a_row() {
    let csv = "reference,part,placements,plan,tip\nR1,R1,1,best,1\nR2,R1,1,best,1\nR3,R1,1,best,1\nR4,R1,1,best,1\n\
               C1,C1,2,best,1\nC2,C1,2,best,1\n\"line 2\",\"line 2\",1,best,1\nD1,D1,3,best,2\n";
    assert_eq!(exported(Format::Csv, Which::Best), csv);
    assert_eq!(exported(Format::Csv, Which::Quick), csv.replace("best", "quick"));
    let text = "# the best plan\npairs 39\nR1 : 1\nR2 : 1\nR3 : 1\nR4 : 1\nC1 : 1\nC2 : 1\n: 1\nD1 : 2\n";
    assert_eq!(exported(Format::Text, Which::First), text);
    let json = exported(Format::Json, Which::Best);
    let begins =
        "{\n  \"plan\": \"best\",\n  \"pairs\": 39,\n  \"rack\": 3,\n  \"tips used\": 2,\n  \"changes in the list's order\": 1,\n  \"changes in the order by tips\": 1,\n  \
                  \"placements\": [\n    {\"reference\": \"R1\", \"part\": \"R1\", \"placements\": 1, \"tip\": 1},\n";
    assert!(json.starts_with(begins) && json.ends_with("\"placements\": 3, \"tip\": 2}\n  ]\n}\n"), "{json}");
    assert_eq!(json.matches("\"reference\"").count(), 8);
}

#[test]
fn each_form_is_read_again() {
    for format in [Format::Text, Format::Csv, Format::Json] {
        for which in [Which::Quick, Which::Best] {
            let handed = Handed::read(exported(format, which).as_bytes(), &list()).unwrap();
            assert_eq!(handed.tips, [1, 1, 1, 2], "{format:?}");
            assert_eq!(handed.claim, (format != Format::Csv).then_some(39), "{format:?}");
            let checked = Named::of_list(list()).check(&handed).unwrap();
            assert!(checked.ends_with("best 39, the plan has as many\n"), "{checked}");
        }
    }
}

#[test]
fn list_without_a_best_plan_has_its_exact_plan() {
    // Quick has C and D on tip 0; exact has C with A, and D with B.
    let gap = || Named::of_list(List::read(b"rack 3\nA : 1\nB : 2\nC : 0-1\nD : 0 2\n").unwrap());
    let text = gap().exported(Format::Text, Which::First, Wish::default()).unwrap();
    assert_eq!(text, "# the exact plan\npairs 2\nA : 1\nB : 2\nC : 1\nD : 2\n");
    assert_eq!(gap().exported(Format::Text, Which::Exact, Wish::default()), Ok(text));
    let why =
        "refused 25: D is no run: it lacks tip 1, which A has (with the tips in the order 1 0 2 every part is a run); \
               take the exact plan";
    assert_eq!(gap().exported(Format::Csv, Which::Best, Wish::default()), Err(why.into()));
    // With a price the exact plan is asked for.
    let priced =
        |which| Named::of_list(list()).exported(Format::Text, which, Wish { price: Some(1), ..Wish::default() });
    assert!(priced(Which::First).unwrap().starts_with("# the exact plan\n"));
    assert!(priced(Which::Best).unwrap().starts_with("# the best plan\n"));
    // Too many tips: the quick plan.
    let wide: String = (0..21).map(|tip| format!(": {tip}\n")).collect();
    let wide = Named::of_list(List::read(format!("rack 21\n{wide}: 0 2\n").as_bytes()).unwrap());
    assert!(wide.exported(Format::Text, Which::First, Wish::default()).unwrap().starts_with("# the quick plan\n"));
    let why = wide.exported(Format::Text, Which::Exact, Wish::default()).unwrap_err();
    assert!(why.starts_with("refused 35: 21 tips are named"), "{why}");
    let why = wide.exported(Format::Text, Which::Best, Wish::default()).unwrap_err();
    assert!(why.starts_with("refused 25: ") && why.ends_with("; take the quick plan"), "{why}");
    let gap = || Named::of_list(List::read(b"rack 3\nA : 1\nB : 0 2\n").unwrap());
    let job = Named { file: gap().file, list: None };
    assert_eq!(
        job.exported(Format::Csv, Which::Quick, Wish::mounted(Some(2))).unwrap().lines().nth(2),
        Some("\"line 1\",\"line 1\",1,quick,2")
    );
    assert!(job
        .exported(Format::Json, Which::Quick, Wish::mounted(Some(2)))
        .unwrap()
        .contains("\n  \"mounted\": 2,\n"));
}

#[test]
fn mistakes_in_a_plan_are_told() {
    let told = |plan: &str| {
        let faults = Handed::read(plan.as_bytes(), &list()).unwrap_err();
        faults.iter().map(|fault| format!("{}: {}", fault.line, fault.what)).collect::<Vec<_>>()
    };
    let csv = exported(Format::Csv, Which::Best);
    let why = "3: R2 is on tip 0 and R1 on tip 1, and both are part R1; give all of a part one tip";
    assert_eq!(told(&csv.replace("R2,R1,1,best,1", "R2,R1,1,best,0")), [why]);
    assert_eq!(told(&csv.replace("R2,R1,1,best,1\n", "")), ["8: no tip for R2; give every part of the list one"]);
    let why = [
        "3: the list has no part R9; take it out, or correct its name",
        "4: `x` is no tip; write one number after the colon",
    ];
    assert_eq!(told(&csv.replace("R2,R1", "R9,R1").replace("R3,R1,1,best,1", "R3,R1,1,best,x")), why);
    assert_eq!(told(&csv.replace("R2,R1", "R1,R1")), ["3: R1 is on line 2 already; give each part one tip"]);
    assert_eq!(told("{\"placements\": [{\"part\": \"R1\"}]}"), ["1: `` is no tip; write one number after the colon"]);
    assert_eq!(told("{\n\"placements\": ["), ["2: the file is cut; copy it again"]);
    assert_eq!(told("{}"), ["1: no tip for R1; give every part of the list one"]);
    // The name of a part stands for all of its references, also from other programs, with other columns.
    let short = "Tip;Designator\n1;R1\n1;C1\n2;D1\n1;line 2\n";
    assert_eq!(Handed::read(short.as_bytes(), &list()).unwrap().tips, [1, 1, 1, 2]);
}
