//! What the page is answered: the fields in their order.

use parts::exporting::Format;
use parts::list::List;
use parts::planning::{Named, Which, Wish};
use web::answer_to;

/// The fields of an answer, `ok` or `refused` first.
fn answer_in_bytes(fields: &[&[u8]]) -> Vec<Vec<u8>> {
    let mut request = Vec::new();
    for field in fields {
        request.extend((field.len() as u32).to_le_bytes());
        request.extend(*field);
    }
    let (mut rest, mut answer) = (&answer_to(&request)[..], Vec::new());
    while let Some((length, behind)) = rest.split_first_chunk::<4>() {
        let (field, behind) = behind.split_at(u32::from_le_bytes(*length) as usize);
        answer.push(field.to_vec());
        rest = behind;
    }
    answer
}

/// The same as text.
fn answer(fields: &[&str]) -> Vec<String> {
    let fields: Vec<&[u8]> = fields.iter().map(|field| field.as_bytes()).collect();
    answer_in_bytes(&fields).into_iter().map(|field| String::from_utf8_lossy(&field).into_owned()).collect()
}

/// The most pairs, 15, are on three tips. Two tips would do, with 12.
const LIST: &str = "rack 3\nA : 0\nB1 : 0-1\nB2 : 0-1\nB3 : 0-1\nC1 : 1-2\nC2 : 1-2\nC3 : 1-2\nD : 2\n";

/// 21 tips, and a part that is no run.
fn wide() -> String {
    "rack 21\n".to_string() + &(0..21).map(|tip| format!(": {tip}\n")).collect::<String>() + ": 0 2\n"
}

#[test]
fn plans_have_their_numbers_in_both_orders() {
    let plan = answer(&["plan", LIST, "", ""]);
    assert_eq!(plan[..5], ["ok", "3", "8", "8", "2"]);
    assert_eq!(plan[5..17], ["15", "3", "2", "2"].repeat(3));
    assert_eq!((plan[17].as_str(), plan[18].as_str(), plan.len()), ("", "", 23));
    assert!(plan[19].starts_with("<svg ") && plan[20].starts_with("TIP"));
    assert!(plan[21]
        .starts_with("part,quantity,tips,quick,best,exact,comment\r\n\"A\",\"1\",\"0\",\"0\",\"0\",\"0\",\"\"\r\n"));
    let named = Named::of_list(List::read(LIST.as_bytes()).unwrap());
    assert_eq!(Ok(&plan[22]), named.plan(Wish::default()).as_ref());
    // Both plans are worth as much with a price of 3, and the mounted tip is taken first.
    let priced = answer(&["plan", LIST, "", "3"]);
    assert_eq!((&priced[9..13], &priced[13..17]), (&plan[9..13], &["12", "2", "1", "1"].map(String::from)[..]));
    assert!(priced[22].contains("\nexact 12, price 3 a tip\n"));
    assert_eq!(answer(&["plan", LIST, "1", "3"])[13..17], ["15", "3", "3", "2"]);
    assert_eq!(answer(&["text", LIST, "3"]), ["ok".into(), priced[22].clone()]);
}

#[test]
fn missing_plans_have_their_reasons() {
    for price in ["", "0"] {
        let plan = answer(&["plan", &wide(), "", price]);
        assert_eq!(plan[9..17], ["-"; 8]);
        assert!(plan[17].starts_with("line 21 is no run: it lacks tip 1"), "{}", plan[17]);
        assert!(plan[18].starts_with("refused 35: 21 tips are named and 20 is the most"), "{}", plan[18]);
        assert!(plan[22].contains("\nexact none, refused 35"), "{}", plan[22]);
    }
    let gap = answer(&["plan", "rack 3\nA : 1\nB : 2\nC : 0-1\nD : 0 2\n", "", ""]);
    assert_eq!(gap[9..17], ["-", "-", "-", "-", "2", "2", "3", "1"]);
}

#[test]
fn orders_and_positions_are_told() {
    let list = "rack 3\nA tall : 0\nB : 1\nC : 0\n";
    assert_eq!(
        answer(&["order", list, "", "", ""])[1],
        "parts 3 rules 0\nposition 0 B\nposition 1 C\nposition 2 A tall\n"
    );
    let by_tips = "parts 3 rules 0\ntips of the exact plan, 1 change in this order\n\
                   position 0 B tip 1\nposition 1 C tip 0\nposition 2 A tall tip 0\n";
    assert_eq!(answer(&["order", list, "exact", "", ""])[1], by_tips);
    assert!(answer(&["order", list, "best", "0", ""])[1].contains("\nposition 0 C tip 0\n"));
    assert_eq!(answer(&["order", list, "slow", "", ""]), ["refused", "a plan is quick, best or exact, and not slow"]);
    let windows = "parts 3 rules 0\nA tall position 2\nB positions 0 to 1\nC positions 0 to 1\n";
    assert_eq!(answer(&["windows", list])[1], windows);
}

#[test]
fn what_if_has_three_plans_before_and_after() {
    // With tip 1 the part A makes C and D the only ones off it: six more pairs.
    let changed = answer(&["changed", LIST, "0", "1"]);
    assert_eq!(changed.len(), 26);
    assert_eq!(changed[1..13], ["15", "3", "2", "2"].repeat(3));
    assert_eq!(changed[13..25], ["21", "2", "1", "1"].repeat(3));
    for words in ["best before:</tspan> 15 pairs on 3 tips<", "best after:</tspan> 21 pairs on 2 tips<"] {
        assert_eq!(changed[25].matches(words).count(), 1, "{words}");
    }
    // Several parts, and a tip that is new to the rack: all eight parts are on it. There is no best plan then: A lacks tips 1 and 2.
    let changed = answer(&["changed", LIST, "0 1 2 3 4 5 6 7", "3"]);
    assert_eq!([&changed[13..17], &changed[21..25]].concat(), ["28", "1", "0", "0"].repeat(2));
    assert_eq!(changed[17..21], ["-"; 4]);
    // What changes nothing is not drawn.
    assert_eq!(answer(&["changed", LIST, "0", "0"])[25], "");
    assert_eq!(answer(&["changed", LIST, "8", "0"]), ["refused", "the list has no line of this number"]);
    assert_eq!(answer(&["changed", LIST, "0", "64"]), ["refused", "no rack has this tip"]);
}

#[test]
fn plans_that_are_the_same_are_drawn_once() {
    let drawn = |list: &str| answer(&["plan", list, "", ""]).swap_remove(19);
    // All three plans of this list are the same.
    assert_eq!(drawn(LIST).matches("</tspan>").count(), 1);
    assert!(drawn(LIST).contains("quick, best and exact:</tspan> 15 pairs on 3 tips<"));
    // Quick and exact, as there is no best plan; and quick apart from both others.
    let gap = drawn("rack 3\nA : 1\nB : 2\nC : 0-1\nD : 0 2\n");
    assert!(
        gap.contains("quick:</tspan>") && gap.contains("exact:</tspan>") && !gap.contains("best:</tspan>"),
        "{gap}"
    );
    let example = drawn(include_str!("../../docs/example.txt"));
    assert!(example.contains("quick:</tspan> 11 pairs") && example.contains("best and exact:</tspan> 12 pairs"));
    assert!(example.contains("its tip in the quick plan") && example.contains("its tip in the best and exact plan"));
}

/// Three parts of two packages, and a mark.
const BOARD: &str =
    "Ref,Val,Package,PosX,PosY,Rot,Side\n\"R1\",\"1k\",\"R_0402\",1,1,0,top\n\"R2\",\"2k\",\"R_0402\",1,1,0,top\n\
    \"U1\",\"x\",\"SOIC 8\",1,1,0,top\n\"F1\",\"\",\"Fiducial_1mm\",1,1,0,top\n";

#[test]
fn packages_without_a_row_are_told() {
    let packages = |table: &str| answer(&["packages", "board", BOARD, table, "", ""]).swap_remove(1);
    let [resistors, amplifier, mark] =
        ["R_0402\t2 placements: R1 R2\t\n", "SOIC?8\t1 placement: U1\t\n", "Fiducial_1mm\t1 placement: F1\tskip\n"];
    assert_eq!(packages(""), [resistors, amplifier, mark].concat());
    assert_eq!(packages("rack ?\nskip Fid*\n"), [resistors, amplifier].concat());
    // A row whose tips are still to be written counts, and so does one of another board.
    for row in ["R_0402 height=1 : # none yet", "R_0402:", "R_0402 :", "R_0402 : 0-1"] {
        assert_eq!(packages(&format!("# mine\n{row}\nother :\n")), [amplifier, mark].concat(), "{row}");
    }
    assert!(packages("rack 2\nR : x\n").starts_with("tips:2: "));
    let start = |table: &str| answer(&["start", "board", BOARD, table, "", ""]).swap_remove(1);
    assert!(start("\n").ends_with(
        "rack ?\nR_0402 : # 2 placements: R1 R2\nSOIC?8 : # 1 placement: U1\nskip Fiducial_1mm # 1 placement: F1\n"
    ));
    assert_eq!(start("rack 4\n* : 0\n"), "# every package has a row\n");
    assert_eq!(start("SOIC* :\nskip F*\n"), "R_0402 : # 2 placements: R1 R2\n");
}

#[test]
fn files_are_told_apart() {
    for (bytes, kind) in [
        ("TIP", "job"),
        ("\n <openpnp-board>", "xml"),
        (BOARD, "placements"),
        ("### Module positions - made by KiCad", "placements"),
        ("(kicad_pcb (version 20211014)", "placements"),
        ("rack 4\nR_* : 0\n", "table"),
        ("rack 4\nR1 : 0\n", "list"),
        ("rack\n", "list"),
    ] {
        assert_eq!(answer(&["kind", "board.txt", bytes]), ["ok", kind]);
    }
    // What is left of the mark of a job file is told by the name of the file.
    for (name, bytes, kind) in [
        ("board.job", "", "job"),
        ("BOARD.JOB", "TI", "job"),
        ("board.txt", "TI", "list"),
        ("job", "TI", "list"),
        ("board.job", "rack 1\n", "list"),
    ] {
        assert_eq!(answer(&["kind", name, bytes]), ["ok", kind], "{name}");
    }
}

#[test]
fn files_that_a_beginner_may_open_are_told_what_to_do() {
    let list = |bytes: &[u8]| answer_in_bytes(&[b"list", b"board", bytes, b"rack 1\n* : 0\n", b"", b""]);
    let refused = |why: &str| [b"refused".to_vec(), why.into()];
    let why =
        "board:1: KiCad's own file and no position file; in KiCad's PCB editor choose File, Fabrication Outputs, \
               Component Placement, and take the file that this writes";
    assert_eq!(list(b"(kicad_pcb (version 20211014)\n"), refused(why));
    let why = "board: this is packed, as files of spreadsheets are; save it as CSV there, and open that";
    assert_eq!(list(b"PK\x03\x04\x14\0\x06\0"), refused(why));
    assert_eq!(list(b"\xd0\xcf\x11\xe0\xa1\xb1\x1a\xe1"), refused(why));
}

/// The example of the rules: tip 0, and tip 1 or 2.
const JOB: &[u8; 24] = b"TIP\0\x01\x03\0\x02\0\0\0\0\0\0\0\x01\0\0\0\0\0\0\0\x06";

/// That a job file is refused with these words, and what mending it gives: its words, the file, the warning.
fn mended(file: &[u8], refused: &str) -> [Vec<u8>; 3] {
    let list = answer_in_bytes(&[b"list", b"board.job", file, b"", b"", b""]);
    assert_eq!(list, [b"refused".to_vec(), refused.into()], "{}", String::from_utf8_lossy(&list[1]));
    let answer = answer_in_bytes(&[b"mend", b"board.job", file]);
    assert_eq!(answer[0], b"ok");
    answer[1..].to_vec().try_into().expect("three fields")
}

#[test]
fn damaged_job_files_are_mended() {
    // Four lines are named: tip 3 of a rack of 3 beside tip 0, no tip, tips 1 and 2, and three bytes.
    let lines: [&[u8]; 4] = [b"\0\0\0\0\0\0\0\x09", &[0; 8], b"\0\0\0\0\0\0\0\x06", &[0; 3]];
    let damaged = [b"TIP\0\x01\x03\0\x04", &lines.concat()[..]].concat();
    let refused = "refused 10: the file names 4 lines, which take 40 bytes, and has 35; \
                   hand over the whole file and no more, or mend it: parts mend";
    let text = "line 0: tip 3 cleared, outside the rack of 3\n\
                line 1: dropped, it has no tip\n\
                the file: 4 lines said, 2 written\n\
                the file: 3 bytes after line 2 left out\n\
                lines 2 rack 3, 4 changes, 2 PARTS LOST\n";
    let warning = "board.job: 2 PARTS LOST; copy the file again, or make it again from its list\n";
    assert_eq!(mended(&damaged, refused), [text.into(), JOB.to_vec(), warning.into()]);
    let list = answer_in_bytes(&[b"list", b"board.job", JOB, b"", b"", b""]);
    assert_eq!(list, [b"ok".to_vec(), b"rack 3\n0 : 0\n1 : 1-2\n".to_vec()]);

    // No part is lost with a byte too many, and there is no warning.
    let refused = "refused 10: the file names 2 lines, which take 24 bytes, and has 25; \
                   hand over the whole file and no more, or mend it: parts mend";
    let text = "the file: 1 byte after line 1 left out\nlines 2 rack 3, 1 change\n";
    assert_eq!(mended(&[&JOB[..], b"!"].concat(), refused), [text.into(), JOB.to_vec(), Vec::new()]);

    // Other refusals of reading can be mended too: a quantity of 0 in version 2.
    let of_quantity = |quantity: u8| [b"TIP\0\x02\x01\0\x01\0\0\0\0\0\0\0\x01", &[quantity][..]].concat();
    let refused = "refused 15: line 0 has quantity 0; write 1 to 255, or take the line out";
    let text = "line 0: quantity 0 raised to 1\nlines 1 rack 1, 1 change\n";
    assert_eq!(mended(&of_quantity(0), refused), [text.into(), of_quantity(1), Vec::new()]);
}

#[test]
fn files_without_a_good_head_are_not_mended() {
    let refused = |file: &[u8], why: &str| {
        let commands: [&[&[u8]]; 2] = [&[b"mend", b"board.job", file], &[b"list", b"board.job", file, b"", b"", b""]];
        for command in commands {
            assert_eq!(answer_in_bytes(command), [b"refused".to_vec(), why.into()], "{why}");
        }
    };
    for length in [0, 2, 7] {
        let why = format!("refused 6: the file has {length} bytes and needs 8 at least; hand over the whole file");
        refused(&JOB[..length], &why);
    }
    refused(b"TIP\0\x01\x41\0\0", "refused 1: the rack size is 65; put 1 to 64 in byte 5");
    refused(b"TIP\0\x03\x01\0\0", "refused 8: the version is 3; write the file as version 1 or 2");
    let large = [&b"TIP"[..], &vec![0; 16 << 20]].concat();
    let why = b"more than 16 MB; name another file, or split it".to_vec();
    assert_eq!(answer_in_bytes(&[b"mend", b"board.job", &large]), [b"refused".to_vec(), why]);
}

#[test]
fn plans_go_to_other_programs() {
    let named = Named::of_list(List::read(LIST.as_bytes()).unwrap());
    for (which, plan, price) in
        [("quick", Which::Quick, None), ("best", Which::Best, None), ("exact", Which::Exact, Some(3))]
    {
        for (form, format) in [("csv", Format::Csv), ("json", Format::Json), ("text", Format::Text)] {
            let wish = Wish { mounted: Some(1), price, along: None };
            let told = answer(&["export", form, LIST, which, "1", "3"]);
            assert_eq!(Ok(&told[1]), named.exported(format, plan, wish).as_ref());
        }
    }
}
