//! Parts lists from the files of KiCad, OpenPnP and others.

use parts::import::csv::{self, Columns};
use parts::import::kicad;
use parts::import::openpnp::{Board, Packages, Parts};
use parts::import::table::Table;
use parts::import::xml::Element;
use parts::import::{is_foreign, Faults, Placement, Sides};
use parts::list::List;

const CSV: &str = include_str!("../../checklist/101-import-kicad/board-top-pos.csv");
const POS: &str = include_str!("../../checklist/101-import-kicad/board-top.pos");
const TIPS: &str = include_str!("../../checklist/101-import-kicad/tips.txt");
const PACKAGES: &str = include_str!("../../checklist/103-import-openpnp/packages.xml");
const PARTS: &str = include_str!("../../checklist/103-import-openpnp/parts.xml");
const BOARD: &str = include_str!("../../checklist/103-import-openpnp/demo.board.xml");

/// Faults as a reader sees them.
fn told(faults: Faults) -> Vec<String> {
    faults.iter().map(|fault| format!("{}: {}", fault.line, fault.what)).collect()
}

fn table(text: &str) -> Table {
    Table::read(text.as_bytes()).unwrap_or_else(|faults| panic!("{:?}", told(faults)))
}

fn kicad_list(file: &str, tips: &str, sides: Sides) -> Result<String, Vec<String>> {
    kicad::placements_of(file.as_bytes()).and_then(|placements| table(tips).list(placements, sides)).map_err(told)
}

/// Placements of one package and value with these references.
fn placed(references: impl Iterator<Item = String>) -> Vec<Placement> {
    let placement =
        |(line, reference)| Placement { reference, package: "P".into(), value: "V".into(), side: None, line };
    (2..).zip(references).map(placement).collect()
}

#[test]
fn both_forms_of_kicad_give_the_same_list() {
    let list = "rack 6\n\
        # left out: Fiducial_1mm_Mask2mm Fiducial: FID1\n\
        C1 x2 height=0.5 : 0-1 # C_0402_1005Metric 100nF: C1 C2\n\
        C3 height=0.8 : 1-2 # C_0603_1608Metric 10uF\n\
        J1 height=8.5 tall : 4-5 # PinHeader_1x04_P2.54mm_Vertical_SMD Conn_01x04\n\
        Q1 x2 height=1.1 : 2-3 # SOT-23 BSS138: Q1 Q2\n\
        R1 x3 height=0.4 : 0-1 # R_0402_1005Metric 10k: R1 R2 R4\n\
        R3 height=0.4 : 0-1 # R_0402_1005Metric 4k7\n\
        U1 height=0.9 fine : 3-5 # QFN-32-1EP_5x5mm_P0.5mm_EP3.45x3.45mm STM32G031K8U6\n\
        U2 height=1.75 : 3-4 # SOIC-8_3.9x4.9mm_P1.27mm LM358\n";
    assert_eq!(kicad_list(CSV, TIPS, Sides::Unsaid), Ok(list.into()));
    assert_eq!(kicad_list(POS, TIPS, Sides::Unsaid), Ok(list.into()));
    assert_eq!(kicad_list(&CSV.replace('\n', "\r\n"), TIPS, Sides::Unsaid), Ok(list.into()));
    assert_eq!(kicad_list(&POS.replace("\n", "\r\n"), TIPS, Sides::Unsaid), Ok(list.into()));
    // The text of older versions differs in its head alone.
    let old = POS.replace("Footprint positions", "Module positions").replace("by KiCad", "by Pcbnew");
    assert_eq!(kicad_list(&old, TIPS, Sides::Unsaid), Ok(list.into()));
    let read = List::read(list.as_bytes()).unwrap();
    assert_eq!(read.parts.iter().map(|part| usize::from(part.quantity)).sum::<usize>(), 12);
}

#[test]
fn package_without_a_row_is_told_with_its_parts() {
    let tips = TIPS.replace("SOT-23 ", "SOT-23-5 ").replace("skip Fiducial*\n", "");
    let why = [
        "5: no row matches Fiducial_1mm_Mask2mm, the package of FID1; \
         add `Fiducial_1mm_Mask2mm : TIPS` or `skip Fiducial_1mm_Mask2mm` to the table",
        "7: no row matches SOT-23, the package of Q1 Q2; add `SOT-23 : TIPS` or `skip SOT-23` to the table",
    ];
    assert_eq!(kicad_list(CSV, &tips, Sides::Unsaid), Err(why.map(String::from).into()));
    // What a row cannot name stands for any letter.
    let file = "Ref,Val,Package,PosX,PosY,Rot,Side\nX1,1,\"Lib:A B\",0,0,0,top\n";
    let why = "2: no row matches Lib:A B, the package of X1; add `Lib?A?B : TIPS` or `skip Lib?A?B` to the table";
    assert_eq!(kicad_list(file, TIPS, Sides::Unsaid), Err(vec![why.into()]));
    let list = "rack 2\nX1 : 0 # Lib:A B 1\n";
    assert_eq!(kicad_list(file, "rack 2\nLib?A?B : 0\n", Sides::Unsaid), Ok(list.into()));
}

#[test]
fn row_that_is_told_can_be_written() {
    // Whatever a package is called, the row that is told matches it and can be read.
    for package in ["x10", "fine", "Lib:A B", "R\u{200b}1", "A=1#2", "skip", "rack", "before"] {
        let file = format!("Ref,Val,Package,PosX,PosY,Rot,Side\nX1,1,\"{package}\",0,0,0,top\n");
        let why = kicad_list(&file, "rack 1\n", Sides::Unsaid).unwrap_err().remove(0);
        let row = why.split('`').nth(1).unwrap().replace("TIPS", "0");
        let list = kicad_list(&file, &format!("rack 1\n{row}\n"), Sides::Unsaid);
        assert_eq!(list.as_deref().map(|list| list.lines().nth(1).unwrap().starts_with("X1 : 0")), Ok(true), "{why}");
    }
}

#[test]
fn table_has_512_lines_that_leave_out() {
    let table =
        |count: usize| Table::read(("rack 1\n".to_string() + &"skip A\n".repeat(count)).as_bytes()).map_err(told);
    assert!(table(512).is_ok());
    assert_eq!(table(513), Err(vec!["514: more than 512 lines `skip`; a * stands for any letters".into()]));
}

#[test]
fn first_row_that_matches_counts() {
    let file = "Ref,Val,Package,PosX,PosY,Rot,Side\nA,1,AB,0,0,0,top\nB,1,AC,0,0,0,top\nC,1,B,0,0,0,top\n";
    let list = |tips: &str| kicad_list(file, tips, Sides::Unsaid).unwrap();
    assert_eq!(list("rack 3\nAB : 0\nA* : 1\n* : 2\n"), "rack 3\nA : 0 # AB 1\nB : 1 # AC 1\nC : 2 # B 1\n");
    assert_eq!(list("rack 3\n* : 2\nAB : 0\n"), "rack 3\nA : 2 # AB 1\nB : 2 # AC 1\nC : 2 # B 1\n");
    assert_eq!(
        list("skip AB\nrack 3\nA* : 1\nskip *\n"),
        "rack 3\n# left out: AB 1: A\n# left out: B 1: C\nB : 1 # AC 1\n"
    );
    assert_eq!(
        list("rack 3\nA* at=1-2 tall fine h=-0.50 : 1\n* at=0 : 0\n").lines().nth(1),
        Some("A h=-0.5 fine tall at=1-2 : 1 # AB 1")
    );
}

#[test]
fn sides_are_told_apart() {
    let file = "Ref,Val,Package,PosX,PosY,Rot,Side\nA,1,P,0,0,0,top\nB,1,P,0,0,0,bottom\n";
    let list = |sides| kicad_list(file, "rack 1\n* : 0\n", sides);
    let why = "3: B is on the bottom and A on the top; add --side top, --side bottom or --side both";
    assert_eq!(list(Sides::Unsaid), Err(vec![why.into()]));
    assert_eq!(list(Sides::of(Some("top")).unwrap()), Ok("rack 1\nA : 0 # P 1\n".into()));
    assert_eq!(list(Sides::of(Some("bottom")).unwrap()), Ok("rack 1\nB : 0 # P 1\n".into()));
    assert_eq!(list(Sides::of(Some("both")).unwrap()), Ok("rack 1\nA x2 : 0 # P 1: A B\n".into()));
    assert_eq!(Sides::of(Some("left")), Err("a side is top, bottom or both, and not left".into()));
    let unsided = table("rack 1\n* : 0\n").list(placed(["A".into()].into_iter()), Sides::of(Some("top")).unwrap());
    assert_eq!(unsided.map_err(told), Err(vec!["2: no side; take --side out, or name the sides".into()]));
}

#[test]
fn side_without_a_placement_is_told() {
    let file = "Ref,Val,Package,PosX,PosY,Rot,Side\nA,1,P,0,0,0,top\n";
    let list = |file: &str, side| kicad_list(file, "rack 1\n* : 0\n", Sides::of(Some(side)).unwrap());
    let why = |line, side| {
        Err(vec![format!("{line}: no placement is on the {side}; take --side {side} out, or name another file")])
    };
    assert_eq!(list(file, "bottom"), why(2, "bottom"));
    assert_eq!(list(&file.replace("top", "bottom"), "Top"), why(2, "top"));
    assert_eq!(list("Ref,Val,Package,PosX,PosY,Rot,Side\n", "bottom"), why(1, "bottom"));
    assert_eq!(list(file, "BOTH"), Ok("rack 1\nA : 0 # P 1\n".into()));
}

#[test]
fn values_are_left_out_wherever_their_row_stands() {
    let file = "Ref,Val,Package,PosX,PosY,Rot,Side\nA,1k,P,0,0,0,top\nB,DNP,P,0,0,0,top\nC,1k DNP,Q,0,0,0,top\n";
    let list = |tips: &str| kicad_list(file, tips, Sides::Unsaid);
    let left = "rack 1\n# left out: P DNP: B\n# left out: Q 1k DNP: C\nA : 0 # P 1k\n";
    assert_eq!(list("rack 1\n* : 0\nskip value *DNP\n"), Ok(left.into()));
    assert_eq!(list("skip value DNP\nskip value *?DNP\nrack 1\nP : 0\n"), Ok(left.into()));
    // A package whose parts are all left out needs no row, and a part that is left out is not told with the others.
    let why = "2: no row matches P, the package of A; add `P : TIPS` or `skip P` to the table";
    assert_eq!(list("rack 1\nskip value *DNP\n"), Err(vec![why.into()]));
    assert_eq!(list("rack 1\nP : 0\nskip value dnp\nskip Q\n").unwrap().lines().count(), 4);
    // `value` alone is a package.
    assert_eq!(list("rack 1\n* : 0\nskip value\n").unwrap().lines().count(), 4);
    let unvalued = file.replace("1k DNP", "").replace("1k", "").replace("DNP", "");
    let why = "2: no placement has a value, and the table leaves values out; add value=COLUMN to --columns";
    assert_eq!(kicad_list(&unvalued, "rack 1\n* : 0\nskip value DNP\n", Sides::Unsaid), Err(vec![why.into()]));
}

/// The values of a position file of KiCad with these values as KiCad 6 writes them, which escapes nothing.
fn values_of(values: &[&str]) -> Result<Vec<String>, Vec<String>> {
    let row = |value: &&str| format!("\"J1\",\"{value}\",\"Conn\",1.0,-2.5,90.0,top\n");
    let file = "Ref,Val,Package,PosX,PosY,Rot,Side\n".to_string() + &values.iter().map(row).collect::<String>();
    let placements = kicad::placements_of(file.as_bytes()).map_err(told)?;
    assert!(placements.iter().all(|placement| placement.reference == "J1" && placement.package == "Conn"));
    Ok(placements.into_iter().map(|placement| placement.value).collect())
}

#[test]
fn quotation_marks_and_commas_in_values_of_kicad_are_taken() {
    let values = ["2.2\" TFT", "1/4\"", "\"A\"", "a,b", "a\",\"b", "a\",b", "\"", ",", "1/4\",2.2\" x", "10 kΩ", ""];
    assert_eq!(values_of(&values), Ok(values.map(String::from).into()));
    // Versions that escape them write two marks.
    let file = "Ref,Val,Package,PosX,PosY,Rot,Side\n\"J1\",\"2.2\"\" TFT\",\"Conn\",1.0,-2.5,90.0,top\n";
    assert_eq!(kicad::placements_of(file.as_bytes()).unwrap()[0].value, "2.2\" TFT");
}

#[test]
fn bill_of_materials_of_kicad_is_taken() {
    let bom = "\"Id\";\"Designator\";\"Footprint\";\"Quantity\";\"Designation\";\"Supplier and ref\";\n\
               1;\"R1, R2\";\"R_0402\";2;\"10k 1/8\"W\";;;\n\
               2;\"J1\";\"Conn\";1;\"2.2\" TFT\";;;\n";
    let columns = Columns::of("ref=Designator,package=Footprint,value=Designation,quantity=Quantity").unwrap();
    let placements = csv::placements_of(bom.as_bytes(), &columns).map_err(told).unwrap();
    let read: Vec<[&str; 3]> = placements.iter().map(|at| [&at.reference[..], &at.package, &at.value]).collect();
    let expected = [["R1", "R_0402", "10k 1/8\"W"], ["R2", "R_0402", "10k 1/8\"W"], ["J1", "Conn", "2.2\" TFT"]];
    assert_eq!(read, expected);
    // A field behind the last column that is not empty is a mistake as ever.
    let why = "2: 8 fields; the first row has 7, give each row as many";
    let bom = bom.replace(" 1/8\"W", "").replace(";;;\n2", ";;;x\n2");
    assert_eq!(csv::placements_of(bom.as_bytes(), &columns).map_err(told), Err(vec![why.into()]));
}

#[test]
fn columns_attributes_and_placements_have_limits() {
    let columns = Columns::of("ref=c0,package=c1").unwrap();
    let rows = |count: usize| {
        let row = |cell: &dyn Fn(usize) -> String| (0..count).map(cell).collect::<Vec<_>>().join(",") + "\n";
        row(&|column| format!("c{column}")) + &row(&|column| format!("x{column}"))
    };
    let read = |count| csv::placements_of(rows(count).as_bytes(), &columns).map_err(told);
    assert_eq!(read(64).map(|placements| placements.len()), Ok(1));
    assert_eq!(read(65), Err(vec!["1: 65 columns; 64 is the most, take out those that nobody needs".into()]));
    let ranges = |count: usize| "c0,c1\n".to_string() + &"R1-R2000,P\n".repeat(count);
    let read = |count| csv::placements_of(ranges(count).as_bytes(), &columns).map_err(told);
    assert_eq!(read(50).map(|placements| placements.len()), Ok(100_000));
    assert_eq!(read(51), Err(vec!["52: more than 100000 placements; split the file".into()]));
    let element = |count: usize| {
        let attributes: String = (0..count).map(|number| format!(" a{number}=\"1\"")).collect();
        Element::read(format!("<a{attributes}/>").as_bytes()).map_err(|fault| told(vec![fault]))
    };
    assert!(element(64).is_ok());
    assert_eq!(element(65), Err(vec!["1: more than 64 attributes in a; OpenPnP writes fewer".into()]));
    assert!(element(200_000).is_err());
    let elements = format!("<a>{}</a>", "<b/>".repeat(500_000));
    let why = "1: more than 500000 elements; OpenPnP writes fewer";
    assert_eq!(Element::read(elements.as_bytes()).map_err(|fault| told(vec![fault])), Err(vec![why.into()]));
}

#[test]
fn parts_have_255_placements_at_most_and_lists_2048() {
    let list = |count: usize| {
        let placements = placed((0..count).map(|number| format!("R{number}")));
        table("rack 1\nP : 0\n").list(placements, Sides::Unsaid).map_err(told)
    };
    let text = list(2048).unwrap();
    let read = List::read(text.as_bytes()).unwrap();
    let quantities: Vec<u8> = read.parts.iter().map(|part| part.quantity).collect();
    assert_eq!(quantities, [255, 255, 255, 255, 255, 255, 255, 255, 8]);
    let names: Vec<&str> = read.parts.iter().map(|part| part.name.as_deref().unwrap()).collect();
    assert_eq!((names[0], names[1], names[8]), ("R0", "R255", "R2040"));
    let why = "2: 2049 placements with this part; a list has 2048 at most, split it";
    assert_eq!(list(2049), Err(vec![why.into()]));
}

#[test]
fn lists_have_512_parts_at_most() {
    let list = |count: usize| {
        let mut placements = placed((0..count).map(|number| format!("R{number}")));
        for (number, placement) in placements.iter_mut().enumerate() {
            placement.value = number.to_string();
        }
        table("rack 1\nP : 0\n").list(placements, Sides::Unsaid).map_err(told)
    };
    assert_eq!(List::read(list(512).unwrap().as_bytes()).unwrap().parts.len(), 512);
    assert_eq!(list(513), Err(vec!["514: part 513; a list has 512 at most, split it".into()]));
}

#[test]
fn references_become_names_of_a_list() {
    let text = |references: &[&str]| {
        let placements = placed(references.iter().map(|reference| reference.to_string()));
        let text = table("rack 1\nP : 0\n").list(placements, Sides::Unsaid).unwrap();
        List::read(text.as_bytes()).unwrap_or_else(|faults| panic!("{text}: {faults:?}"));
        text.lines().nth(1).unwrap().to_string()
    };
    assert_eq!(text(&["R1"]), "R1 : 0 # P V");
    // A board that stands twice on its panel.
    assert_eq!(text(&["R1", "R2", "R1", "R2"]), "R1 x4 : 0 # P V: R1 R2");
    assert_eq!(text(&["x10"]), "x10_ : 0 # P V: x10");
    assert_eq!(text(&["fine"]), "fine_ : 0 # P V: fine");
    assert_eq!(text(&["R:1=#"]), "R_1__ : 0 # P V: R:1=#");
    assert_eq!(text(&[""]), ": 0 # P V");
    assert_eq!(text(&["", ""]), "x2 : 0 # P V");
}

#[test]
fn part_whose_references_are_all_names_has_none() {
    let mut placements = placed(["R1", "R1"].iter().map(|reference| reference.to_string()));
    placements[1].value = "W".into();
    let text = table("rack 1\nP : 0\n").list(placements, Sides::Unsaid).unwrap();
    assert_eq!(text, "rack 1\nR1 : 0 # P V\n: 0 # P W: R1\n");
    assert!(List::read(text.as_bytes()).is_ok());
}

#[test]
fn mistakes_of_a_table_have_their_lines() {
    let faults = |text: &str| told(Table::read(text.as_bytes()).unwrap_err());
    assert_eq!(
        faults("rack 4\nA x2 : 0\n: 1\nskip\nskip A B\nA : 5\n"),
        [
            "4: unknown words in `skip`; write `skip PATTERN` or `skip value PATTERN`, one pattern a line",
            "5: unknown words in `skip A B`; write `skip PATTERN` or `skip value PATTERN`, one pattern a line",
            "6: tip 5 is outside the rack, whose tips are 0 to 3; take it out, or name a larger rack",
        ]
    );
    assert_eq!(
        faults("rack 4\nA x2 : 0\n: 1\nB : 0\nbefore A B\n"),
        [
            "2: a quantity x2; placements are counted, take it out",
            "3: no pattern; write one before the colon, as R_0402* : 0-1",
            "5: a rule of the placing order; write it into the parts list, which has names",
        ]
    );
    assert_eq!(faults("A* : 0\n"), ["1: no rack; begin the list with `rack M`, M being the number of tips, 1 to 64"]);
    let large = format!("rack 1\nA h={} : 0\n", "9".repeat(400));
    assert_eq!(faults(&large), ["2: too large a number for h; write fewer digits"]);
    // A pattern called skip has a colon.
    assert!(Table::read(b"rack 1\nskip : 0\n").is_ok());
}

#[test]
fn mistakes_of_the_text_of_kicad_have_their_lines() {
    let faults = |text: &str| told(kicad::placements_of(text.as_bytes()).unwrap_err());
    assert_eq!(faults(&POS.replace("## End\n", "")), ["18: no `## End`; the file is cut, export it again"]);
    let behind = faults(&POS.replace("## End", "## End\n\nC9"));
    let why = "no line `# Ref Val Package PosX PosY Rot Side` above it; export the file again";
    assert_eq!(behind, [format!("21: {why}")]);
    // Without that line anywhere it is told once.
    let why = "1: no line `# Ref Val Package PosX PosY Rot Side`; name a position file of KiCad, or export it again";
    assert_eq!(faults(&POS.replace("# Ref ", "#_Ref ")), [why]);
    assert_eq!(
        faults(
            &POS.replace("10uF  ", "10 uF ")
                .replacen("90.0000  top", "90.00.0  up ", 1)
                .replacen("-80.0000", "-8O.0000", 1)
        ),
        [
            "6: `90.00.0` is no number; a row has Ref Val Package PosX PosY Rot Side",
            "8: 8 words; a row has 7: Ref Val Package PosX PosY Rot Side",
            "13: `-8O.0000` is no number; a row has Ref Val Package PosX PosY Rot Side",
        ]
    );
    let side = POS.replacen("90.0000  top", "90.0000  up", 1);
    assert_eq!(faults(&side), ["6: `up` is no side; write top or bottom"]);
    let why = "1: no position file of KiCad; it begins with Ref,Val,Package,PosX,PosY,Rot,Side or with ###, \
               and `parts import csv` takes other files";
    assert_eq!(faults("Designator,Comment\nR1,10k\n"), [why]);
    let why = "1: KiCad's own file and no position file; in KiCad's PCB editor choose File, Fabrication Outputs, \
               Component Placement, and take the file that this writes";
    for text in ["(kicad_pcb (version 20211014) (generator pcbnew)\n", "\n(kicad_sch\n"] {
        assert_eq!(faults(text), [why]);
        assert!(is_foreign(text.as_bytes()));
    }
    assert_eq!(faults(""), ["1: no row; the first row has the names of the columns"]);
}

#[test]
fn part_without_a_value_is_read_by_its_column() {
    let text = POS.replace("10uF  ", "      ");
    let placements = kicad::placements_of(text.as_bytes()).unwrap();
    assert_eq!((placements[2].package.as_str(), placements[2].value.as_str()), ("C_0603_1608Metric", ""));
    let list = kicad_list(&text, TIPS, Sides::Unsaid).unwrap();
    assert!(list.contains("\nC3 height=0.8 : 1-2 # C_0603_1608Metric\n"), "{list}");
    // A package in the column of the values is none.
    let text = POS.replace("C_0603_1608Metric  ", "                   ");
    let why = told(kicad::placements_of(text.as_bytes()).unwrap_err());
    assert_eq!(why, ["8: 6 words; a row has 7: Ref Val Package PosX PosY Rot Side"]);
}

#[test]
fn range_of_references_has_each_of_them() {
    let columns = Columns::of("ref=1,package=2").unwrap();
    let references = |field: &str| {
        let placements = csv::placements_of(format!("R,P\n\"{field}\",P\n").as_bytes(), &columns).map_err(told)?;
        Ok(placements.into_iter().map(|placement| placement.reference).collect::<Vec<_>>())
    };
    let names = |words: &str| Ok(words.split(' ').map(String::from).collect());
    assert_eq!(references("C1, R1-R4;R9-R11"), names("C1 R1 R2 R3 R4 R9 R10 R11"));
    assert_eq!(references("R08-R11"), names("R08 R09 R10 R11"));
    let why = "2: `R1-R99999999999999999999` is more than 2048 references; correct it";
    assert_eq!(references("R1-R99999999999999999999"), Err(vec![why.to_string()]));
    // Backwards, standing still, with other signs between, and with letters in two sizes.
    assert_eq!(references("R8-R5"), names("R5 R6 R7 R8"));
    assert_eq!(references("R11-R08"), names("R08 R09 R10 R11"));
    assert_eq!(references("R1-R1"), names("R1"));
    for between in ["..", "...", "~", "\u{2013}", "\u{2014}", "\u{2011}"] {
        assert_eq!(references(&format!("R8{between}R5")), names("R5 R6 R7 R8"), "{between}");
    }
    assert_eq!(references("r1-R2"), names("r1 r2"));
    let why = "2: `-` alone is no reference; write a range as one word, as R1-R4";
    assert_eq!(references("R1 - R4"), Err(vec![why.to_string()]));
    // A part of a second board on a panel, and names with a dash.
    for field in ["R1-2", "J-A", "X1-Y2", "1-4"] {
        assert_eq!(references(field), Ok(vec![field.to_string()]));
    }
    let counted = Columns::of("ref=1,package=2,quantity=3").unwrap();
    assert_eq!(csv::placements_of(b"R,P,Q\nR1-R4 R7,P,5\n", &counted).unwrap().len(), 5);
    let why = "2: 4 references and quantity 1; correct one of them";
    assert_eq!(csv::placements_of(b"R,P,Q\nR1-R4,P,1\n", &counted).map_err(told), Err(vec![why.to_string()]));
}

#[test]
fn list_without_a_placement_says_so() {
    let head = "Ref,Val,Package,PosX,PosY,Rot,Side\n";
    let list = |rows: &str, sides| kicad_list(&format!("{head}{rows}"), "rack 1\nskip F\n* : 0\n", sides);
    let none = "rack 1\n# no placement is left\n";
    assert_eq!(list("", Sides::Unsaid), Ok(none.into()));
    let left_out = "rack 1\n# left out: F 1: A\n# no placement is left\n";
    assert_eq!(list("A,1,F,0,0,0,top\n", Sides::Unsaid), Ok(left_out.into()));
}

#[test]
fn row_of_kicad_is_one_placement_whatever_its_reference() {
    let file = "Ref,Val,Package,PosX,PosY,Rot,Side\n\"A B\",1,P,0,0,0,top\n\"C,D;E\",2,P,0,0,0,top\n";
    let list = "rack 1\nA_B : 0 # P 1: A B\nC,D;E : 0 # P 2\n";
    assert_eq!(kicad_list(file, "rack 1\n* : 0\n", Sides::Unsaid), Ok(list.into()));
}

#[test]
fn columns_are_found_by_name_or_number_whatever_separates_them() {
    let columns = Columns::of("ref=Designator, package=3 ,value=comment").unwrap();
    for separator in [",", ";", "\t"] {
        let text = "Designator,Comment,Footprint\n\"R1\",\"10k, \"\"1\"\" ; x\", A \n\nR2 R3,5k,B\n";
        let quoted = |text: &str| text.replace(',', separator).replace(&format!("10k{separator} "), "10k, ");
        let placements = csv::placements_of(quoted(text).as_bytes(), &columns).map_err(told).unwrap();
        let fields: Vec<(&str, &str, &str, usize)> =
            placements.iter().map(|p| (&p.reference[..], &p.value[..], &p.package[..], p.line)).collect();
        let first = ("R1", "10k, \"1\" ; x", "A", 2);
        assert_eq!(fields, [first, ("R2", "5k", "B", 4), ("R3", "5k", "B", 4)], "{separator:?}");
    }
}

#[test]
fn mistakes_of_rows_have_their_lines() {
    let columns = Columns::of("ref=R,package=P,quantity=Q,side=S").unwrap();
    let text = "R,P,Q,S\nA,,1,T\nA,P,0,T\nA,P,2049,T\n,P,2,left\nA,P,1\n\"A,P,1,T\n\"A\"B,P,1,T\nA B,P,3,T\n";
    let faults = told(csv::placements_of(text.as_bytes(), &columns).unwrap_err());
    assert_eq!(
        faults,
        [
            "2: no package; name it, or take the row out",
            "3: `0` is no quantity; write 1 to 2048, or take the row out",
            "4: `2049` is no quantity; write 1 to 2048, or take the row out",
            "5: `left` is no side; write top or bottom",
            "6: 3 fields; the first row has 4, give each row as many",
            "7: a quotation mark is not closed; close it on its line",
            "8: words behind a closing quotation mark; write two marks for one inside a field",
            "9: 2 references and quantity 3; correct one of them",
        ]
    );
    // Without the names of the columns nothing else can be told.
    let faults = told(csv::placements_of(b"\"R,P,Q,S\nA,,1,T\n", &columns).unwrap_err());
    assert_eq!(faults, ["1: a quotation mark is not closed; close it on its line"]);
    let named = |columns: &str| told(csv::placements_of(b"A,B\n", &Columns::of(columns).unwrap()).unwrap_err());
    assert_eq!(named("ref=A,package=C"), ["1: no column `C`; the first row has `A`, `B`"]);
    assert_eq!(named("ref=0,package=B"), ["1: no column `0`; the first row has `A`, `B`"]);
    assert_eq!(named("ref=A,package=3"), ["1: no column `3`; the first row has `A`, `B`"]);
    let twice = told(csv::placements_of(b"A,B,a\n", &Columns::of("ref=A,package=B").unwrap()).unwrap_err());
    assert_eq!(twice, ["1: columns 1 and 3 are `A`; name yours by its number"]);
    assert!(csv::placements_of(b"A,B,a\n", &Columns::of("ref=1,package=B,").unwrap()).is_ok());
    for (columns, why) in [
        ("ref=A", "--columns needs a ref and a package, as ref=Designator,package=Footprint"),
        ("ref=A,package=B,height=C", "--columns has no height; it has ref, package, value, side and quantity"),
        ("ref=A,ref=B", "--columns takes one name for ref, as ref=NAME"),
        ("ref", "--columns takes one name for ref, as ref=NAME"),
    ] {
        assert_eq!(Columns::of(columns), Err(why.into()));
    }
}

fn openpnp_list(packages: &str, board: &str, parts: Option<&str>, rack: Option<&str>) -> Result<String, Vec<String>> {
    let packages = Packages::read(packages.as_bytes(), rack).map_err(told)?;
    let parts = parts.map(|parts| Parts::read(parts.as_bytes())).transpose().map_err(told)?;
    let board = Board::read(board.as_bytes()).map_err(told)?;
    packages.list(board, parts.as_ref(), Sides::Unsaid).map_err(told)
}

#[test]
fn openpnp_boards_have_the_tips_of_their_packages() {
    let head = "# tip 0: TIP1\n# tip 1: TIP2\n# tip 2: TIP3\n# tip 3: TIP4\n\
                # left out: FID1, a fiducial\n# left out: C2, not enabled\nrack 4\n";
    let list = "R1 x2 height=0.4 : 0-1 # R0402 R0402-10k: R1 R2\nC1 height=0.8 : 1-2 # C0603 C0603-1uF\n\
                U1 height=1.753 : 3 # SOIC8 LM358\n";
    assert_eq!(openpnp_list(PACKAGES, BOARD, Some(PARTS), None), Ok(head.to_string() + list));
    let other = openpnp_list(PACKAGES, BOARD, Some(PARTS), Some("TIP4, TIP3,-,TIP2,TIP1")).unwrap();
    let head = "# tip 0: TIP4\n# tip 1: TIP3\n# tip 3: TIP2\n# tip 4: TIP1\n\
                # left out: FID1, a fiducial\n# left out: C2, not enabled\nrack 5\n";
    let list = "R1 x2 height=0.4 : 3-4 # R0402 R0402-10k: R1 R2\nC1 height=0.8 : 1 3 # C0603 C0603-1uF\n\
                U1 height=1.753 : 0 # SOIC8 LM358\n";
    assert_eq!(other, head.to_string() + list);
    // Without the parts a package is the beginning of the part's id; the longest counts.
    let why = "25: no package begins the part LM358 of U1; name OpenPnP's parts.xml with --parts";
    assert_eq!(openpnp_list(PACKAGES, BOARD, None, None), Err(vec![why.into()]));
    let packages = PACKAGES.replace("id=\"SOIC8\"", "id=\"R0402-10k\"");
    let list = openpnp_list(&packages, &BOARD.replace("LM358", "R0402-5k"), None, None).unwrap();
    assert!(
        list.contains("R1 x2 : 3 # R0402-10k R0402-10k: R1 R2\n") && list.contains("U1 : 0-1 # R0402 R0402-5k\n"),
        "{list}"
    );
}

#[test]
fn openpnp_1_boards_are_read() {
    let board = BOARD.replace("type=\"Placement\"", "type=\"Place\"").replace(" enabled=\"true\"", "");
    assert_eq!(openpnp_list(PACKAGES, &board, Some(PARTS), None), openpnp_list(PACKAGES, BOARD, Some(PARTS), None));
}

#[test]
fn what_is_left_out_is_told_of_its_own_side() {
    // FID1 on the bottom, C2 and all others on the top.
    let board = BOARD.replacen("side=\"Top\"", "side=\"Bottom\"", 1);
    let left_out = |word: Option<&str>| {
        let packages = Packages::read(PACKAGES.as_bytes(), None).unwrap();
        let parts = Parts::read(PARTS.as_bytes()).unwrap();
        let sides = Sides::of(word).unwrap();
        let list = packages.list(Board::read(board.as_bytes()).unwrap(), Some(&parts), sides).map_err(told).unwrap();
        list.lines().filter_map(|line| line.strip_prefix("# left out: ").map(String::from)).collect::<Vec<_>>()
    };
    assert_eq!(left_out(Some("top")), ["C2, not enabled"]);
    assert_eq!(left_out(Some("bottom")), ["FID1, a fiducial"]);
    assert_eq!(left_out(Some("both")).len(), 2);
    assert_eq!(left_out(None).len(), 2);
}

#[test]
fn mistakes_of_openpnp_files_have_their_lines() {
    let packages = |text: &str, rack| told(Packages::read(text.as_bytes(), rack).unwrap_err());
    let why = "1: no package has the tip TIP9 of --rack; take it out, or write - for an empty place";
    assert_eq!(packages(PACKAGES, Some("TIP1,TIP9")), [why]);
    assert_eq!(packages(PACKAGES, Some("TIP1,TIP1")), ["1: the tip TIP1 stands twice in --rack; name each tip once"]);
    let without = PACKAGES.replace("<string>", "<text>").replace("</string>", "</text>");
    assert_eq!(packages(&without, None), ["1: no package has a tip; give each its compatible nozzle tips in OpenPnP"]);
    assert_eq!(
        packages(&PACKAGES.replace("C0603", "R0402"), None),
        ["12: a second package R0402; give each its own id"]
    );
    let why = "1: this is <openpnp-board> and not <openpnp-packages>; name packages.xml of OpenPnP here";
    assert_eq!(packages(BOARD, None), [why]);
    let many: String = (0..65).map(|tip| format!("<string>T{tip}</string>")).collect();
    let many = PACKAGES.replace("<string>TIP4</string>", &many);
    let why = "1: 68 tips; a rack has 64 at most, name those of yours with --rack";
    assert_eq!(packages(&many, None), [why]);

    let board = |from: &str, to: &str| told(Board::read(BOARD.replacen(from, to, 1).as_bytes()).unwrap_err());
    assert_eq!(
        board(" side=\"Top\" part-id=\"R", " part-id=\"R"),
        ["8: a placement without side; save the file as OpenPnP writes it"]
    );
    assert_eq!(board("part-id=\"C0603-1uF\"", "part-id=\"\""), ["17: no part for C1; choose one in OpenPnP"]);
    let why = "4: FID1 has type Hole and enabled true; OpenPnP has other words";
    assert_eq!(board("type=\"Fiducial\"", "type=\"Hole\""), [why]);
    let parts = |from: &str, to: &str| told(Parts::read(PARTS.replace(from, to).as_bytes()).unwrap_err());
    assert_eq!(parts("Inches", "Feet"), ["4: heights in Feet; choose Millimeters or Inches in OpenPnP"]);
    assert_eq!(parts("0.069", "flat"), ["4: `flat` is no height; write a number"]);
    assert_eq!(parts("LM358", "R0402-10k"), ["4: a second part R0402-10k; give each its own id"]);
    let why = "25: no package SOIC8 for U1; add it, or export the parts again";
    assert_eq!(openpnp_list(&PACKAGES.replace("SOIC8", "SOIC-8"), BOARD, Some(PARTS), None), Err(vec![why.into()]));
    let why = "25: no tip of the rack picks SOIC8, the package of U1; give it one in OpenPnP";
    assert_eq!(openpnp_list(PACKAGES, BOARD, Some(PARTS), Some("TIP1,TIP2,TIP3")), Err(vec![why.into()]));
}

#[test]
fn xml_has_elements_attributes_text_entities_and_comments() {
    let text = "\u{FEFF}<?xml version='1.0'?>\n<!-- a\n-->\n<a b='1 &lt; 2' c=\"&quot;&#65;&#x3a9;\" >x<d/>&amp;y\n<e\nf=\"\"></e ></a><!--b-->\n";
    let root = Element::read(text.as_bytes()).unwrap();
    assert_eq!((root.name.as_str(), root.line, root.text.as_str()), ("a", 4, "x&y\n"));
    assert_eq!((root.attribute("b"), root.attribute("c"), root.attribute("d")), (Some("1 < 2"), Some("\"AΩ"), None));
    let children: Vec<(&str, usize)> = root.children.iter().map(|child| (child.name.as_str(), child.line)).collect();
    assert_eq!(children, [("d", 4), ("e", 5)]);
    let lines = Element::read(b"<a b='1\n2\t3&#10;4'/>").unwrap();
    assert_eq!(lines.attribute("b"), Some("1 2 3\n4"));
    assert_eq!(root.named("e").next().and_then(|child| child.attribute("f")), Some(""));
}

#[test]
fn mistakes_of_xml_have_their_lines() {
    let deep = "<a>".repeat(65);
    for (text, why) in [
        ("", "1: no element up to the end; the file is cut, copy it again"),
        ("\n<a>\n<b>\n</b>", "4: no `</a>` up to the end; the file is cut, copy it again"),
        ("<a><b></a></b>", "1: `</a>` where `</b>` must stand, for line 1"),
        ("</a>", "1: `</a>` closes nothing; take it out"),
        ("<a/>\n<b/>", "2: something follows the last element; take it out"),
        ("x<a/>", "1: `x` is in no element; save the file as XML"),
        ("<a b='1' b='2'/>", "1: a second b in a; take one out"),
        ("<a b>", "1: no `=` behind b; write b=\"..\""),
        ("<a b=1>", "1: no quotation mark behind b=; write b=\"..\""),
        ("<a b='<'>", "1: `<` in b; close its quotation mark, or write &lt;"),
        ("<a b='1>", "1: no `'` up to the end; the file is cut, copy it again"),
        ("<a>&nbsp;</a>", "1: unknown entity `&nbsp;`; write &amp; for the sign itself"),
        ("<a>&#x110000;</a>", "1: unknown entity `&#x110000;`; write &amp; for the sign itself"),
        ("<a>&#+65;</a>", "1: unknown entity `&#+65;`; write &amp; for the sign itself"),
        ("<a>a & b</a>", "1: `&` without `;`; write &amp; for the sign itself"),
        ("<a>&#7;</a>", "1: a control character; save the file as OpenPnP writes it"),
        ("<!DOCTYPE a>", "1: a declaration, which OpenPnP does not write; take it out"),
        ("<a><![CDATA[b]]></a>", "1: a declaration, which OpenPnP does not write; take it out"),
        ("<a><?b?></a>", "1: a declaration, which OpenPnP does not write; take it out"),
        ("< a/>", "1: ` ` where a name must stand; save the file as OpenPnP writes it"),
        ("<a><!-- ", "1: no `-->` up to the end; the file is cut, copy it again"),
        (&deep, "1: more than 64 elements inside one another; OpenPnP writes fewer"),
    ] {
        assert_eq!(Element::read(text.as_bytes()).map_err(|fault| told(vec![fault])), Err(vec![why.into()]), "{text}");
    }
    let bytes = b"\"\n<#&x\xff";
    let why = "2: not UTF-8 text; save the file as OpenPnP writes it";
    assert_eq!(Element::read(bytes).map_err(|fault| told(vec![fault])), Err(vec![why.into()]));
}

#[test]
fn cut_files_are_refused_wherever_they_are_cut() {
    for length in 0..BOARD.trim_end().len() {
        assert!(Board::read(&BOARD.as_bytes()[..length]).is_err(), "{length}");
    }
    for length in 0..POS.len() - 1 {
        assert!(kicad::placements_of(&POS.as_bytes()[..length]).is_err(), "{length}");
    }
}

/// The files that this one makes with another byte in one of its places, every third of them.
fn changed(text: &str) -> impl Iterator<Item = Vec<u8>> + '_ {
    let bytes = b"\"',;:=#&<>*- \t\n\r0x\0\xff";
    (0..text.len()).step_by(3).flat_map(move |place| {
        bytes.iter().map(move |&byte| {
            let mut file = text.as_bytes().to_vec();
            file[place] = byte;
            file
        })
    })
}

/// What is printed is a list that every command takes.
fn is_list(list: Result<String, Faults>) -> bool {
    list.is_ok_and(|text| {
        List::read(text.as_bytes()).unwrap_or_else(|faults| panic!("{text}: {faults:?}"));
        true
    })
}

#[test]
fn changed_files_are_refused_or_give_lists() {
    let tips = table(&TIPS.replace("skip Fiducial", "skip "));
    let mut lists = [0; 6];
    for file in changed(CSV) {
        let list = kicad::placements_of(&file).and_then(|placements| tips.list(placements, Sides::Both));
        lists[0] += usize::from(is_list(list));
    }
    for file in changed(POS) {
        let list = kicad::placements_of(&file).and_then(|placements| tips.list(placements, Sides::Both));
        lists[1] += usize::from(is_list(list));
    }
    let placements = kicad::placements_of(CSV.as_bytes()).unwrap();
    for file in changed(TIPS) {
        let list = Table::read(&file).and_then(|table| table.list(placements.clone(), Sides::Both));
        lists[2] += usize::from(is_list(list));
    }
    let (packages, parts) =
        (Packages::read(PACKAGES.as_bytes(), None).unwrap(), Parts::read(PARTS.as_bytes()).unwrap());
    for file in changed(BOARD) {
        let list = Board::read(&file).and_then(|board| packages.list(board, Some(&parts), Sides::Both));
        lists[3] += usize::from(is_list(list));
    }
    let board = Board::read(BOARD.as_bytes()).unwrap();
    for file in changed(PACKAGES) {
        let list =
            Packages::read(&file, None).and_then(|packages| packages.list(board.clone(), Some(&parts), Sides::Both));
        lists[4] += usize::from(is_list(list));
    }
    for file in changed(PARTS) {
        let list = Parts::read(&file).and_then(|parts| packages.list(board.clone(), Some(&parts), Sides::Both));
        lists[5] += usize::from(is_list(list));
    }
    // Some are lists of each kind, so that something is tried.
    assert!(lists.iter().all(|&count| count > 100), "{lists:?}");
}
