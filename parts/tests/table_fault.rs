//! Why a table fails: entries worked out by hand, and seeded tables beside the linked library's check.

use parts::job::{Job, Line};
use parts::table_fault::{pairs_in, table_fault, TableFault};

/// The job of these lines, set and quantity.
fn job(rack: usize, lines: &[(u64, u8)]) -> Job {
    Job { rack, lines: lines.iter().map(|&(set, quantity)| Line { set, quantity }).collect() }
}

/// B6 of the rules: {0}, {2}, {0,1}, {1,2}. Its best plan 0, 2, 0, 2 has 2 pairs.
fn b6() -> Job {
    job(3, &[(0b001, 1), (0b100, 1), (0b011, 1), (0b110, 1)])
}

const TABLE: [u32; 9] = [0, 1, 2, 0, 0, 1, 0, 0, 0];

/// What fails in the table of B6 with other entries at these places.
fn fault_with(entries: &[(usize, u32)]) -> Option<TableFault> {
    let mut table = TABLE;
    entries.iter().for_each(|&(place, entry)| table[place] = entry);
    table_fault(&b6(), 2, &table)
}

#[test]
fn pairs_are_counted_by_placements() {
    assert_eq!(pairs_in(&b6(), &[0, 2, 0, 2]), 2);
    assert_eq!(pairs_in(&b6(), &[0, 2, 1, 1]), 1);
    // Four and three placements on two tips: 6 + 3. All seven on one: 21.
    let counted = job(3, &[(0b001, 1), (0b011, 3), (0b110, 3)]);
    assert_eq!(pairs_in(&counted, &[0, 0, 2]), 9);
    assert_eq!(pairs_in(&counted, &[255, 255, 255]), 21);
    assert_eq!(pairs_in(&job(1, &[]), &[]), 0);
    assert_eq!(pairs_in(&job(1, &[[(1, 255); 8].as_slice(), &[(1, 8)]].concat()), &[0; 9]), 2_096_128);
}

#[test]
fn first_fault_is_told() {
    let too_low = |first: usize, last: usize, tip: usize, entry: u32, needed: u64| {
        Some(TableFault::TooLow { first, last, tip, entry, needed })
    };
    assert_eq!(fault_with(&[]), None);
    assert_eq!(fault_with(&[(1, 0)]), too_low(0, 1, 0, 0, 1));
    assert_eq!(fault_with(&[(5, 0)]), too_low(1, 2, 2, 0, 1));
    assert_eq!(fault_with(&[(2, 3)]), Some(TableFault::NotTheClaim { entry: 3 }));
    assert_eq!(fault_with(&[(2, 1)]), Some(TableFault::NotTheClaim { entry: 1 }));
    // What is below the diagonal is not looked at, and an entry may be larger than it must be: with 1 for 0 to 0, tip 1
    // needs 0 + 1 within 0 to 1.
    assert_eq!(fault_with(&[(3, 9), (6, u32::MAX), (7, 1), (0, 1)]), None);
    // With 1 for 0 to 0 and for 2 to 2, tip 1 needs 1 + 1 + 1 in the rack.
    assert_eq!(fault_with(&[(0, 1), (8, 1)]), too_low(0, 2, 1, 2, 3));
}

#[test]
fn sums_do_not_wrap() {
    let max = u32::MAX;
    let fault = TableFault::TooLow { first: 0, last: 2, tip: 1, entry: 2, needed: 1 + u64::from(max) };
    assert_eq!(fault_with(&[(0, max), (1, max)]), Some(fault));
    // Every entry but the claim is the largest: within 0 to 1 tip 0 has a pair, and the entry of 1 to 1 comes to it.
    let fault = TableFault::TooLow { first: 0, last: 1, tip: 0, entry: max, needed: 1 + u64::from(max) };
    assert_eq!(table_fault(&b6(), 2, &[max, max, 2, max, max, max, max, max, max]), Some(fault));
}

#[test]
fn only_tips_that_some_line_has_are_looked_at() {
    // No line has tip 1, so nothing asks for the entry of 1 to 1, nor for what is beside tip 1.
    let ends = job(3, &[(0b101, 2)]);
    assert_eq!(table_fault(&ends, 1, &[0, 0, 1, 0, 0, 0, 0, 0, 0]), None);
    let fault = TableFault::TooLow { first: 0, last: 1, tip: 0, entry: 0, needed: 7 };
    assert_eq!(table_fault(&ends, 1, &[0, 0, 1, 0, 7, 0, 0, 0, 0]), Some(fault));
    // Without lines the whole rack must have the claim, and that is all.
    assert_eq!(table_fault(&job(2, &[]), 0, &[7, 0, 9, 7]), None);
    assert_eq!(table_fault(&job(2, &[]), 1, &[7, 0, 9, 7]), Some(TableFault::NotTheClaim { entry: 0 }));
}

/// A seeded number below the limit.
fn below(state: &mut u64, limit: u64) -> u64 {
    *state = state.wrapping_mul(6_364_136_223_846_793_005).wrapping_add(1_442_695_040_888_963_407);
    (*state >> 33) % limit
}

#[test]
fn seeded_tables_fail_where_the_library_says_so() {
    let mut state = 3;
    let (mut taken, mut failed) = (0, 0);
    for round in 0..6000 {
        let rack = if round % 200 == 0 { 64 } else { 1 + below(&mut state, 6) as usize };
        let runs = (0..below(&mut state, 9)).map(|_| {
            let ends = [0; 2].map(|_| below(&mut state, rack as u64));
            let (first, last) = (ends[0].min(ends[1]), ends[0].max(ends[1]));
            (u64::MAX >> (63 - (last - first)) << first, 1 + below(&mut state, 3) as u8)
        });
        let job = job(rack, &runs.collect::<Vec<(u64, u8)>>());
        let (mut plan, mut table) = (vec![0; job.lines.len()], vec![0; rack * rack]);
        let file = job.write();
        let pairs = library::best(&file, None, &mut plan, &mut table).expect("a board of runs");
        assert_eq!(pairs_in(&job, &plan), pairs);
        for _ in 0..below(&mut state, 3) {
            let place = below(&mut state, table.len() as u64) as usize;
            table[place] = match below(&mut state, 4) {
                0 => table[place].wrapping_sub(1),
                1 => table[place].wrapping_add(1),
                2 => u32::MAX,
                _ => below(&mut state, 9) as u32,
            };
        }
        let number = library::check(&file, &plan, pairs as u32, &table).err().map_or(0, |refusal| refusal.number);
        let fault = table_fault(&job, pairs as u32, &table);
        assert_eq!(number, if fault.is_some() { 33 } else { 0 }, "{job:?} {table:?}");
        *if number == 0 { &mut taken } else { &mut failed } += 1;
    }
    assert!(taken > 1000 && failed > 1000, "{taken} {failed}");
}
