//! Position files as KiCad 6 wrote them of Debian's demonstration boards; `make check-kicad` writes them anew.

use parts::import::kicad;
use parts::import::table::Table;
use parts::import::{Placement, Side, Sides};

const BOARD_CSV: &str = include_str!("kicad/interf_u-top.csv");
const BOARD_POS: &str = include_str!("kicad/interf_u-top.pos");
const VALUES_CSV: &str = include_str!("kicad/values-top.csv");
const VALUES_POS: &str = include_str!("kicad/values-top.pos");
const BOTH_SIDES: &str = include_str!("kicad/video-both.csv");

fn placements(file: &str) -> Vec<Placement> {
    kicad::placements_of(file.as_bytes()).unwrap_or_else(|faults| panic!("{faults:?}"))
}

/// The list of these placements on one tip.
fn list(placements: Vec<Placement>) -> String {
    Table::read(b"rack 1\n* : 0\n").unwrap().list(placements, Sides::Both).unwrap()
}

#[test]
fn both_forms_of_a_board_give_the_same_list() {
    // Every row but the first is a placement; the text has five lines above them and one below.
    assert_eq!(placements(BOARD_CSV).len(), BOARD_CSV.lines().count() - 1);
    assert_eq!(placements(BOARD_POS).len(), BOARD_POS.lines().count() - 6);
    assert_eq!(list(placements(BOARD_CSV)), list(placements(BOARD_POS)));
}

#[test]
fn values_are_those_of_the_board() {
    let values = |file| placements(file).into_iter().map(|placement| placement.value).collect::<Vec<_>>();
    let on_board = ["2.2\" TFT", "1/4\"", "a,b", "a\",\"b", "\"", "10 kΩ", "", "x;y"];
    assert_eq!(values(VALUES_CSV)[..8], on_board);
    assert_eq!(values(VALUES_POS)[..8], on_board.map(|value| value.replace(' ', "_")));
}

#[test]
fn both_sides_are_told_apart() {
    let on = |side| placements(BOTH_SIDES).iter().filter(|placement| placement.side == Some(side)).count();
    let rows = |end: &str| BOTH_SIDES.lines().filter(|row| row.ends_with(end)).count();
    assert_eq!((on(Side::Top), on(Side::Bottom)), (rows(",top"), rows(",bottom")));
    assert!(on(Side::Top) > 0 && on(Side::Bottom) > 0);
}
