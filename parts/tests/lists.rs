//! The grammar of a parts list: what is read, every fault, and sorting.

use parts::job::Line;
use parts::list::{Fault, List, What};

fn list(text: &str) -> List {
    List::read(text.as_bytes()).unwrap_or_else(|faults| panic!("{text:?}: {faults:?}"))
}

fn faults(text: &[u8]) -> Vec<Fault> {
    List::read(text).err().unwrap_or_default()
}

/// The only fault of a list whose lines are `rack 9` and this one, which is on line 2.
fn fault_of(line: &str) -> What {
    match &faults(format!("rack 9\n{line}\nlast : 0\n").as_bytes())[..] {
        [Fault { line: 2, what }] => what.clone(),
        other => panic!("{line:?}: {other:?}"),
    }
}

/// The only fault of a text, with its line.
fn only_fault(text: &[u8]) -> (usize, What) {
    match &faults(text)[..] {
        [Fault { line, what }] => (*line, what.clone()),
        other => panic!("{text:?}: {other:?}"),
    }
}

#[test]
fn names_columns_tips_and_comments_are_read() {
    let list = list(
        "# a board\n\n  rack 9 # nine tips\n\nC1 height=0.9 pitch=-0.50 : 1-3\nU1: 0 2 4-6 8# no space needed\n : 7\n\
         \tµF-1\tx=3\t:\t0-0\t\nheight=12:8\n",
    );
    assert_eq!(list.rack, 9);
    let parts: Vec<(Option<&str>, u64, usize)> =
        list.parts.iter().map(|part| (part.name.as_deref(), part.tips, part.line)).collect();
    let expected = [
        (Some("C1"), 0b1110, 5),
        (Some("U1"), 0b1_0111_0101, 6),
        (None, 0b1000_0000, 7),
        (Some("µF-1"), 0b1, 8),
        (None, 0b1_0000_0000, 9),
    ];
    assert_eq!(parts, expected);
    assert_eq!(list.parts[0].columns, [("height".to_string(), 0.9), ("pitch".to_string(), -0.5)]);
    assert_eq!(list.parts[1].columns, []);
    assert_eq!(list.parts[4].columns, [("height".to_string(), 12.0)]);
}

#[test]
fn list_without_parts_is_read() {
    for text in ["rack 1", "rack 1\n", "# c\nrack 1 # c\n# c\n", "\u{FEFF}rack 1\r\n", "\n\nrack 01\n\n"] {
        assert_eq!((list(text).rack, list(text).parts.len()), (1, 0), "{text:?}");
    }
}

#[test]
fn line_ends_of_other_systems_are_read() {
    let windows = list("rack 3\r\nA : 0\r\nB : 1-2\r\n");
    assert_eq!(windows.parts.iter().map(|part| part.tips).collect::<Vec<u64>>(), [1, 6]);
    assert_eq!(list("rack 3\nA : 0\nB : 1-2").job(), windows.job());
}

#[test]
fn racks_from_1_to_64_and_their_last_tips_are_read() {
    for rack in 1..=64 {
        let last = rack - 1;
        assert_eq!(list(&format!("rack {rack}\n: {last}\n")).parts[0].tips, 1 << last);
        let all = list(&format!("rack {rack}\n: 0-{last}\n")).parts[0].tips;
        assert_eq!((all.count_ones(), all.trailing_zeros()), (rack, 0));
        let outside = What::TipOutside { tip: rack.to_string(), rack: rack as usize };
        assert_eq!(only_fault(format!("rack {rack}\n: 0-{rack}\n").as_bytes()), (2, outside));
    }
}

#[test]
fn missing_or_wrong_rack_is_named() {
    assert_eq!(only_fault(b""), (1, What::NoRack));
    assert_eq!(only_fault(b"# only\n\n# comments\n"), (3, What::NoRack));
    assert_eq!(only_fault(b"\nC1 : 1-3\nC2 : 63\n"), (2, What::NoRack));
    assert_eq!(only_fault(b"rack : 1\n"), (1, What::RackWords("rack : 1".into())));
    assert_eq!(only_fault(b"racks 3\n"), (1, What::NoRack));
    for line in ["rack", "rack x", "rack -3", "rack 3 4", "rack 3.0", "rack +3"] {
        assert_eq!(only_fault(line.as_bytes()), (1, What::RackWords(line.into())));
    }
    for size in ["0", "65", "00", "256", "99999999999999999999999"] {
        assert_eq!(only_fault(format!("rack {size}\nA : 63\n").as_bytes()), (1, What::RackSize(size.into())));
    }
    assert_eq!(fault_of("rack 9"), What::RackAgain);
    assert_eq!(fault_of("rack"), What::RackAgain);
}

#[test]
fn wrong_words_before_the_colon_are_named() {
    assert_eq!(fault_of("C1 1-3"), What::NoColon);
    assert_eq!(fault_of("1 2"), What::NoColon);
    assert_eq!(fault_of("C1 # : 1"), What::NoColon);
    assert_eq!(fault_of("C1 : 1 : 2"), What::ColonAgain);
    assert_eq!(fault_of("C1 :: 2"), What::ColonAgain);
    assert_eq!(fault_of("C1 100nF : 1"), What::UnknownWord("100nF".into()));
    assert_eq!(fault_of("height=1 C1 : 1"), What::UnknownWord("C1".into()));
    assert_eq!(fault_of("C1 =0.9 : 1"), What::ColumnName("=0.9".into()));
    for value in ["", "tall", "0,9", ".9", "1.", "0.9mm", "1e3", "inf", "--1", "-", "+1", "1.2.3", "1=2"] {
        let word = format!("height={value}");
        assert_eq!(fault_of(&format!("C1 {word} : 1")), What::ColumnValue(word));
    }
    assert_eq!(fault_of("C1 height=1 height=1 : 1"), What::ColumnAgain("height".into()));
}

#[test]
fn quantities_are_read_before_the_colon() {
    let list = list(
        "rack 2\nR1 x10 height=0.5 : 0-1\nR2 : 0\nx3 : 1\nR4 height=1 x255:0 # x9\nx1 height=2 : 0\nR6 x007 : 0\n\
         X2 : 0\nx=2 : 0\nx : 0\nxtal2 : 0\n",
    );
    let parts: Vec<(Option<&str>, u8)> = list.parts.iter().map(|part| (part.name.as_deref(), part.quantity)).collect();
    let expected = [
        (Some("R1"), 10),
        (Some("R2"), 1),
        (None, 3),
        (Some("R4"), 255),
        (None, 1),
        (Some("R6"), 7),
        (Some("X2"), 1),
        (None, 1),
        (Some("x"), 1),
        (Some("xtal2"), 1),
    ];
    assert_eq!(parts, expected);
    assert_eq!(list.parts[0].columns, [("height".to_string(), 0.5)]);
    assert_eq!(list.parts[7].columns, [("x".to_string(), 2.0)]);
    assert_eq!(list.job().lines[3], Line { set: 1, quantity: 255 });
}

#[test]
fn wrong_quantities_are_named() {
    for word in ["x0", "x00"] {
        assert_eq!(fault_of(&format!("R1 {word} : 1")), What::NoPlacement(word.into()));
    }
    for word in ["x256", "x257", "x512", "x65537", "x99999999999999999999999"] {
        assert_eq!(fault_of(&format!("R1 height=1 {word} : 1")), What::TooManyOfPart(word.into()));
    }
    for word in ["x3", "x10", "x0", "x256"] {
        assert_eq!(fault_of(&format!("R1 x10 height=1 {word} : 1")), What::QuantityAgain(word.into()));
        assert_eq!(fault_of(&format!("x10 {word} : 1")), What::QuantityAgain(word.into()));
    }
    for word in ["X10", "10x", "x", "10", "x1.5", "x-1", "x+1", "×10", "x10,"] {
        assert_eq!(fault_of(&format!("R1 {word} : 1")), What::UnknownWord(word.into()));
    }
    assert_eq!(fault_of("x10 R1 : 1"), What::UnknownWord("R1".into()));
    assert_eq!(fault_of("R1 : x10"), What::UnknownTip("x10".into()));
}

#[test]
fn placements_2048_are_read_and_2049_are_not() {
    let eight = "rack 2\n".to_string() + &"x255 : 0\n".repeat(8);
    let total = |text: &str| list(text).job().placements();
    assert_eq!((total(&eight), total(&(eight.clone() + "x8 : 0\n"))), (2040, 2048));
    assert_eq!(only_fault((eight.clone() + "x9 : 0\n").as_bytes()), (10, What::TooManyPlacements(2049)));
    // Only the first part to pass is told, whatever follows.
    let more = eight.clone() + "\nx8 : 0\nx5 : 0\n: 1\nx255 : 1\n";
    assert_eq!(only_fault(more.as_bytes()), (12, What::TooManyPlacements(2053)));
    // A part with a fault of its own places nothing yet.
    let faulty = eight.replacen("x255 : 0", "x255 : 2", 1) + "x255 : 0\nx9 : 0\n";
    let outside = What::TipOutside { tip: "2".into(), rack: 2 };
    let expected = [Fault { line: 2, what: outside }, Fault { line: 11, what: What::TooManyPlacements(2049) }];
    assert_eq!(faults(faulty.as_bytes()), expected);
    assert_eq!(total(&("rack 64\n".to_string() + &"x4 : 0\n".repeat(512))), 2048);
}

#[test]
fn columns_called_quantities_are_refused_and_others_are_not() {
    for column in ["qty", "Qty", "QTY", "quantity", "count", "amount", "pieces", "pcs", "n", "N"] {
        for value in ["40", "1", "many"] {
            let word = format!("{column}={value}");
            assert_eq!(fault_of(&format!("R1 height=1 {word} : 0-1")), What::QuantityColumn(word));
        }
    }
    let columns = ["x", "y", "pin", "no", "counter", "nn", "height"];
    let words: Vec<String> = columns.iter().map(|column| format!("{column}=1")).collect();
    let list = list(&format!("rack 2\nqty {} : 0-1 # qty=2\n", words.join(" ")));
    assert_eq!(list.parts[0].name.as_deref(), Some("qty"));
    assert_eq!(list.parts[0].columns, columns.map(|column| (column.to_string(), 1.0)));
}

#[test]
fn wrong_tips_are_named() {
    assert_eq!(fault_of("C1 :"), What::NoTip);
    assert_eq!(fault_of(":"), What::NoTip);
    assert_eq!(fault_of("C1 : # 1"), What::NoTip);
    for word in ["x", "1,2", "-", "1-", "-1", "1--2", "1-2-3", "+1", "1.0", "1–3", "0x1"] {
        assert_eq!(fault_of(&format!("C1 : 0 {word}")), What::UnknownTip(word.into()));
    }
    assert_eq!(fault_of("C1 : 4 - 6"), What::UnknownTip("-".into()));
    assert_eq!(fault_of("C1 : 6-4"), What::RangeBackwards { first: "6".into(), last: "4".into() });
    assert_eq!(fault_of("C1 : 12-10"), What::RangeBackwards { first: "12".into(), last: "10".into() });
    assert_eq!(fault_of("C1 : 9"), What::TipOutside { tip: "9".into(), rack: 9 });
    assert_eq!(fault_of("C1 : 0-9"), What::TipOutside { tip: "9".into(), rack: 9 });
    let long = "99999999999999999999999";
    assert_eq!(fault_of(&format!("C1 : {long}")), What::TipOutside { tip: long.into(), rack: 9 });
    assert_eq!(fault_of("C1 : 1 2 1"), What::TipAgain(1));
    assert_eq!(fault_of("C1 : 2-4 1-2"), What::TipAgain(2));
}

#[test]
fn names_stand_once() {
    let text = b"rack 2\nC1 : 0\n: 1\n: 1\nC2 : 0\nC1 : 1\n";
    assert_eq!(only_fault(text), (6, What::NameAgain { name: "C1".into(), line: 2 }));
    assert_eq!(list("rack 2\nC1 : 0\nc1 : 0\n").parts.len(), 2);
}

#[test]
fn bytes_that_are_no_text_are_named() {
    assert_eq!(only_fault(b"rack 2\nC1 : 0\n\xFF : 1\n"), (3, What::NotText));
    assert_eq!(only_fault(b"rack 2\n# \xFF\n"), (2, What::NotText));
    // A list in UTF-16 is refused once, and not line by line.
    let utf_16 =
        |text: &str| [0xFEFF].into_iter().chain(text.encode_utf16()).flat_map(u16::to_le_bytes).collect::<Vec<u8>>();
    assert_eq!(only_fault(&utf_16("rack 2\nC1 : 0\n")), (1, What::NotText));
    assert_eq!(only_fault(b"rack 2\nC1 : 0\0\n"), (2, What::ControlCharacter));
    assert_eq!(only_fault(b"rack 2\nC1\x1B[2J : 0\n"), (2, What::ControlCharacter));
    let without_line_feeds = b"rack 2\rC1 : 0\r";
    assert_eq!(faults(without_line_feeds)[0], Fault { line: 1, what: What::ControlCharacter });
}

#[test]
fn parts_512_are_read_and_513_are_not() {
    let mut text = "# long\nrack 64\n".to_string() + &": 0\n".repeat(512);
    assert_eq!(list(&text).parts.len(), 512);
    text += "\n: 0\n: 1\n: x\n";
    assert_eq!(faults(text.as_bytes())[0], Fault { line: 516, what: What::TooManyParts });
    // A part with a fault of its own counts too.
    let text = "rack 64\n: x\n".to_string() + &": 0\n".repeat(512);
    let expected =
        [Fault { line: 2, what: What::UnknownTip("x".into()) }, Fault { line: 514, what: What::TooManyParts }];
    assert_eq!(faults(text.as_bytes()), expected);
}

#[test]
fn every_wrong_line_is_named() {
    let text = b"rack 70\nA : 1\nB 2\nC : 4-3\nD : 5\nA : 3\n";
    let lines: Vec<usize> = faults(text).iter().map(|fault| fault.line).collect();
    assert_eq!(lines, [1, 3, 4, 6]);
}

#[test]
fn every_fault_says_what_to_do() {
    let name = || "x".to_string();
    let all = [
        (What::NotText, "not UTF-8 text; save the file as UTF-8 text"),
        (What::ControlCharacter, "a control character; save the file as plain text"),
        (What::NoRack, "no rack; begin the list with `rack M`, M being the number of tips, 1 to 64"),
        (What::RackWords("rack x".into()), "unknown words in `rack x`; write `rack M`, M being the number of tips"),
        (What::RackSize("65".into()), "rack 65 is out of range; a rack has 1 to 64 tips"),
        (What::RackAgain, "a second rack; name it once, at the beginning of the list"),
        (What::NoColon, "no colon; write `NAME : TIPS`, or `: TIPS` without a name"),
        (What::ColonAgain, "a second colon; write one part a line"),
        (
            What::UnknownWord(name()),
            "unknown word `x`; write the name first, then only a quantity, as x10, columns, as height=0.9, fine and tall",
        ),
        (What::ColumnName("=1".into()), "no column name in `=1`; write it as height=0.9"),
        (What::ColumnValue("height=x".into()), "no number in `height=x`; write it as height=0.9"),
        (What::ColumnAgain(name()), "a second x; give each column once"),
        (What::QuantityColumn("qty=40".into()), "`qty=40` is a quantity; write x40 in its place"),
        (What::QuantityColumn("Pcs=255".into()), "`Pcs=255` is a quantity; write x255 in its place"),
        (What::QuantityColumn("qty=0".into()), "`qty=0` is a quantity; write x1 to x255 in its place"),
        (What::QuantityColumn("n=256".into()), "`n=256` is a quantity; write x1 to x255 in its place"),
        (What::QuantityColumn("qty=many".into()), "`qty=many` is a quantity; write x1 to x255 in its place"),
        (What::NoPlacement("x0".into()), "`x0` is no placement at all; write x1 to x255, or take the part out"),
        (
            What::TooManyOfPart("x256".into()),
            "`x256` is above x255; write the rest as another part with the same tips and its own name",
        ),
        (What::QuantityAgain("x3".into()), "a second quantity `x3`; give each part one"),
        (What::TooManyPlacements(2049), "2049 placements with this part; a list has 2048 at most, split it"),
        (What::NameAgain { name: name(), line: 7 }, "the name x is on line 7 already; give each part its own name"),
        (
            What::UnknownTip(name()),
            "unknown word `x`; write tips as numbers and ranges with spaces between, as 0 2 4-6",
        ),
        (What::RangeBackwards { first: "6".into(), last: "4".into() }, "the range 6-4 runs backwards; write 4-6"),
        (
            What::TipOutside { tip: "9".into(), rack: 9 },
            "tip 9 is outside the rack, whose tips are 0 to 8; take it out, or name a larger rack",
        ),
        (What::TipAgain(3), "tip 3 stands twice; name each tip once"),
        (What::NoTip, "no tip after the colon; name one at least"),
        (What::TooManyParts, "part 513; a list has 512 at most, split it"),
        (What::NoColumn(name()), "no x; give every part a x to sort by it"),
    ];
    for (what, words) in all {
        assert_eq!(what.to_string(), words);
    }
}

#[test]
fn parts_are_sorted_by_a_column() {
    let text = "# board\nrack 3 # tips\n# first\nA height=2 : 0\nB height=10 : 1 # b\n\n# above C\nC height=0.5 : 2\n\
                D height=-1 : 0-1\n# end\n";
    let sorted = "# board\nrack 3 # tips\n# first\nD height=-1 : 0-1\n\n# above C\nC height=0.5 : 2\nA height=2 : 0\n\
                  B height=10 : 1 # b\n# end\n";
    assert_eq!(list(text).sorted_by("height"), Ok(sorted.into()));
    assert_eq!(list(sorted).sorted_by("height"), Ok(sorted.into()));
}

#[test]
fn equal_numbers_keep_their_order() {
    let text = "rack 1\nA h=1 p=2 : 0\nB h=1.0 p=1 : 0\nC h=01 p=2.00 : 0\nD h=0 p=1 : 0\n";
    let by_h = list(text).sorted_by("h").unwrap();
    assert_eq!(names(&by_h), ["D", "A", "B", "C"]);
    assert_eq!(names(&list(&by_h).sorted_by("p").unwrap()), ["D", "B", "A", "C"]);
    assert_eq!(names(&list(text).sorted_by("p").unwrap()), ["B", "D", "A", "C"]);
}

#[test]
fn parts_are_sorted_by_their_quantity() {
    let text = "rack 1\nA x10 h=1 : 0\nB : 0 # one\nC x2 : 0\nD h=1 x10 : 0\nE x1 : 0\n";
    let sorted = "rack 1\nB : 0 # one\nE x1 : 0\nC x2 : 0\nA x10 h=1 : 0\nD h=1 x10 : 0\n";
    for column in ["quantity", "Qty", "count", "n"] {
        assert_eq!(list(text).sorted_by(column), Ok(sorted.into()), "{column}");
    }
    // Another column takes the quantities along.
    let text = "rack 1\nA x10 h=2 : 0\nB h=1 x3 : 0\n";
    assert_eq!(list(text).sorted_by("h"), Ok("rack 1\nB h=1 x3 : 0\nA x10 h=2 : 0\n".into()));
}

fn names(text: &str) -> Vec<String> {
    list(text).parts.into_iter().filter_map(|part| part.name).collect()
}

#[test]
fn sorting_changes_the_order_alone() {
    let list_of_two = list("rack 1\r\nA h=1 : 0\r\nB h=0 : 0");
    assert_eq!(list_of_two.sorted_by("h"), Ok("rack 1\nB h=0 : 0\nA h=1 : 0\n".into()));
    assert_eq!(list("rack 1\n# none\n").sorted_by("h"), Ok("rack 1\n# none\n".into()));
}

#[test]
fn other_tips_leave_the_rest_of_the_list() {
    let text =
        "# top\nrack 9 # nine\n\nA x2 h=1 :  1-3   # a: comment\n# above B\nB:0 1 2#b\n: 4-6\t\nC : 0-8 # 5\n# end\n";
    // A's comment stays in its column, C's moves on.
    let other =
        "# top\nrack 9 # nine\n\nA x2 h=1 :  2     # a: comment\n# above B\nB:0 1 2#b\n: 4 6\nC : 3 5-6 # 5\n# end\n";
    let single = |set| Line { set, quantity: 1 };
    assert_eq!(list(text).with_tips(&[0b100, 0b111, 0b101_0000, 0b110_1000].map(single)), other);
    assert_eq!(list(text).with_tips(&list(text).job().lines), text);
    // Longer words take the spaces before the comment, but for one.
    for (written, other) in [("0-8   # c", "3 5-6 # c"), ("0-8# c", "3 5-6 # c"), ("0-8     # c", "3 5-6   # c")] {
        let text = list(&format!("rack 9\nA : {written}\n")).with_tips(&[single(0b110_1000)]);
        assert_eq!(text, format!("rack 9\nA : {other}\n"));
    }
}

#[test]
fn comment_is_what_stands_behind_the_part() {
    let list = list("rack 1 # rack\n# above\nA : 0 #  0402 # resistor \nB : 0\nC : 0 #\n");
    let comments: Vec<&str> = list.parts.iter().map(|part| part.comment()).collect();
    assert_eq!(comments, ["0402 # resistor", "", ""]);
}

#[test]
fn part_without_the_column_is_named() {
    let list = list("rack 1\nA h=1 : 0\nB p=1 : 0\nC : 0\n");
    let no_column = |line| Fault { line, what: What::NoColumn("h".into()) };
    assert_eq!(list.sorted_by("h"), Err(vec![no_column(3), no_column(4)]));
}
