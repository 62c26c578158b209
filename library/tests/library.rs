//! The linked library through its safe form.

use tipshare::{
    alone, along, best, check, common, exact, goal, junior, keep, mend, merge, quick, read, report, Along, CommonTip,
    Exact, Job, Junior, Kept, Mended, Refusal, EXACT_PLACES, LONGEST_CHANGES, LONGEST_FILE,
};

/// The example of the rules: rack 3, lines {0} and {1,2}.
const EXAMPLE: [u8; 24] = *b"TIP\x00\x01\x03\x00\x02\x00\x00\x00\x00\x00\x00\x00\x01\x00\x00\x00\x00\x00\x00\x00\x06";

/// The same lines with 2 and 3 placements, in version 2.
const COUNTED: [u8; 26] =
    *b"TIP\x00\x02\x03\x00\x02\x00\x00\x00\x00\x00\x00\x00\x01\x02\x00\x00\x00\x00\x00\x00\x00\x06\x03";

fn refused(number: u32, line: u64, margin: i64) -> Refusal {
    Refusal { number, line, margin }
}

#[test]
fn example_is_answered() {
    assert_eq!(read(&EXAMPLE), Ok(Job { rack: 3, lines: 2 }));
    assert_eq!(common(&EXAMPLE), Ok(CommonTip { top: 1, off: 1, tips: 0b111 }));
    let mut out = [7; 25];
    assert_eq!(keep(&EXAMPLE, 2, &mut out), Ok(Kept { margin: 1, bytes: 24 }));
    assert_eq!((&out[..24], out[24]), (&EXAMPLE[..], 7));
    let mut plan = [7; 3];
    assert_eq!(quick(&EXAMPLE, None, &mut plan), Ok(0));
    assert_eq!(plan, [0, 1, 7]);
    let mut table = [7; 10];
    assert_eq!(best(&EXAMPLE, None, &mut plan, &mut table), Ok(0));
    assert_eq!((plan, table), ([0, 1, 7], [0, 0, 0, 0, 0, 0, 0, 0, 0, 7]));
    let text = "lines 2 rack 3\noff 1 tips 0 1 2\nquick 0\nbest 0\nline 0 quick 0 best 0\nline 1 quick 1 best 1\n";
    assert_eq!(report(&EXAMPLE), text.as_bytes());
}

#[test]
fn quantities_are_counted() {
    assert_eq!(read(&COUNTED), Ok(Job { rack: 3, lines: 2 }));
    assert_eq!(common(&COUNTED), Ok(CommonTip { top: 3, off: 2, tips: 0b110 }));
    let mut out = [7; LONGEST_FILE];
    assert_eq!(keep(&COUNTED, 2, &mut out), Ok(Kept { margin: 0, bytes: 26 }));
    assert_eq!((&out[..26], out[26]), (&COUNTED[..], 7));
    let mut plan = [7; 3];
    assert_eq!(quick(&COUNTED, None, &mut plan), Ok(4));
    assert_eq!(plan, [0, 1, 7]);
    let mut table = [7; 10];
    assert_eq!(best(&COUNTED, None, &mut plan, &mut table), Ok(4));
    assert_eq!((plan, table), ([0, 1, 7], [1, 1, 4, 0, 0, 3, 0, 0, 0, 7]));
    let text = "lines 2 rack 3\noff 2 tips 1 2\nquick 4\nbest 4\nline 0 quick 0 best 0\nline 1 quick 1 best 1\n";
    assert_eq!(report(&COUNTED), text.as_bytes());
}

#[test]
fn tip_that_no_line_names_is_not_missed() {
    // {0} and {0,2}: tip 0 takes both, a pair within every interval from 0 to 2.
    let mut file = EXAMPLE;
    file[23] = 0b101;
    let (mut plan, mut table) = ([7; 2], [7; 9]);
    assert_eq!(best(&file, None, &mut plan, &mut table), Ok(1));
    assert_eq!((plan, table), ([0, 0], [0, 0, 1, 0, 0, 0, 0, 0, 0]));
    let text = "lines 2 rack 3\noff 0 tips 0\nquick 1\nbest 1\nline 0 quick 0 best 0\nline 1 quick 0 best 0\n";
    assert_eq!(report(&file), text.as_bytes());
}

#[test]
fn mounted_tip_wins_a_tie() {
    // {0} and {1,2}.
    for (mounted, tip) in [(None, 1), (Some(0), 1), (Some(2), 2)] {
        let (mut plan, mut table) = ([7; 2], [7; 9]);
        assert_eq!(quick(&EXAMPLE, mounted, &mut plan), Ok(0));
        assert_eq!(plan, [0, tip]);
        assert_eq!(best(&EXAMPLE, mounted, &mut plan, &mut table), Ok(0));
        assert_eq!((plan, table), ([0, tip], [0; 9]));
    }
    // The largest number is a tip outside the rack too, although it stands for none in the header.
    for mounted in [3, 64, 256, usize::MAX - 1, usize::MAX] {
        assert_eq!(quick(&EXAMPLE, Some(mounted), &mut []), Err(refused(16, 0, 0)));
        assert_eq!(best(&EXAMPLE, Some(mounted), &mut [], &mut []), Err(refused(16, 0, 0)));
        assert_eq!(quick(&EXAMPLE[..7], Some(mounted), &mut []), Err(refused(6, 0, 0)));
    }
    assert_eq!(refused(16, 0, 0).to_string(), "refused 16: the mounted tip is outside the rack");
}

#[test]
fn fewest_changes_along_the_list() {
    // {0} of 2 placements and {1,2} of 3: one change, two where another tip is mounted.
    let mut plan = [7; 3];
    for (mounted, changes) in [(None, 1), (Some(0), 1), (Some(1), 2), (Some(2), 2)] {
        assert_eq!(along(&COUNTED, mounted, &mut plan), Ok(Along { changes, pairs: 4 }));
        assert_eq!(plan, [0, 1, 7]);
    }
    // {0,1} instead of {0}: tip 1 serves both lines.
    let mut file = COUNTED;
    file[15] = 0b011;
    assert_eq!(along(&file, None, &mut plan), Ok(Along { changes: 0, pairs: 10 }));
    assert_eq!(plan, [1, 1, 7]);
    assert_eq!(along(&file, Some(0), &mut plan), Ok(Along { changes: 1, pairs: 4 }));
    assert_eq!(plan, [0, 1, 7]);
    assert_eq!(along(b"TIP\0\x01\x40\0\0", Some(63), &mut []), Ok(Along { changes: 0, pairs: 0 }));
    for mounted in [3, 64, 256, usize::MAX - 1, usize::MAX] {
        assert_eq!(along(&COUNTED, Some(mounted), &mut []), Err(refused(16, 0, 0)));
        assert_eq!(along(&COUNTED[..7], Some(mounted), &mut []), Err(refused(6, 0, 0)));
    }
    assert_eq!(along(&COUNTED, None, &mut plan[..1]), Err(refused(4, 0, 0)));
    assert_eq!(plan, [0, 1, 7]);
}

#[test]
fn price_of_a_tip_decides_exact_sharing() {
    // {0,1} of 3 placements, {0,2} of 2, {1}, {2}: tips 0, 1 and 2 with 10 pairs, or tips 1 and 2 with 9.
    let file = tipshare::job_file(3, &[(0b011, 3), (0b101, 2), (0b010, 1), (0b100, 1)]);
    let (three, two) =
        ((Exact { pairs: 10, tips: 3 }, [0, 0, 1, 2, 7]), (Exact { pairs: 9, tips: 2 }, [1, 2, 1, 2, 7]));
    for (mounted, price, (found, tips)) in [
        (None, 0, three),
        (None, 1, three),
        (Some(2), 1, two),
        (None, 2, two),
        (Some(0), 2_096_129, two),
        (Some(0), u32::MAX, two),
    ] {
        let (mut plan, mut table) = ([7; 5], [7; 17]);
        assert_eq!(exact(&file, mounted, price, &mut plan, &mut table), Ok(found));
        assert_eq!((plan, &table[..8], table[16]), (tips, &[0, 0, 1, 4, 1, 3, 2, 7][..], 7));
    }
    // Twenty tips need the largest table.
    let mut table = vec![7; EXACT_PLACES];
    let all = tipshare::job_file(20, &[((1 << 20) - 1, 2), (1 << 19, 1)]);
    let mut plan = [7; 2];
    assert_eq!(exact(&all, None, 9, &mut plan, &mut table), Ok(Exact { pairs: 3, tips: 1 }));
    assert_eq!((plan, table[(1 << 20) - 1]), ([19, 19], 3));
    assert_eq!(exact(&all, None, 9, &mut plan, &mut table[1..]), Err(refused(5, 0, 0)));
    let many = tipshare::job_file(21, &[((1 << 21) - 1, 1)]);
    assert_eq!(exact(&many, None, 0, &mut plan, &mut []), Err(refused(35, 0, 0)));
    assert_eq!(exact(&many, None, 0, &mut [], &mut []), Err(refused(4, 0, 0)));
    for mounted in [21, 64, usize::MAX] {
        assert_eq!(exact(&many, Some(mounted), 0, &mut [], &mut []), Err(refused(16, 0, 0)));
    }
    assert_eq!(exact(&many[..7], Some(21), 0, &mut [], &mut []), Err(refused(6, 0, 0)));
    assert_eq!(refused(35, 0, 0).to_string(), "refused 35: the lines have more than 20 different tips");
}

#[test]
fn goals_strike_what_no_plan_with_so_many_pairs_uses() {
    // {0} and {0,1}: one pair where both are on tip 0.
    let mut file = EXAMPLE;
    file[23] = 0b11;
    let mut out = [7; 25];
    assert_eq!(goal(&file, 0, &mut out), Ok(24));
    assert_eq!((&out[..24], out[24]), (&file[..], 7));
    assert_eq!(goal(&file, 1, &mut out), Ok(24));
    assert_eq!((&out[..8], out[15], out[23], out[24]), (&file[..8], 0b01, 0b01, 7));
    // 2 and 3 placements, 1 + 3 pairs on two tips, whichever the second line is on.
    let mut out = [7; LONGEST_FILE];
    assert_eq!(goal(&COUNTED, 4, &mut out), Ok(26));
    assert_eq!((&out[..26], out[26]), (&COUNTED[..], 7));
    for number in [5, u32::MAX] {
        assert_eq!(goal(&COUNTED, number, &mut []), Err(refused(34, 0, 0)));
    }
    let mut out = [7; 25];
    assert_eq!(goal(&COUNTED, 4, &mut out), Err(refused(11, 0, 0)));
    assert_eq!(out, [7; 25]);
    (file[15], file[23]) = (0b010, 0b101);
    assert_eq!(goal(&file, 9, &mut []), Err(refused(25, 1, 0)));
    assert_eq!(goal(&file[..7], 9, &mut []), Err(refused(6, 0, 0)));
    assert_eq!(refused(34, 0, 0).to_string(), "refused 34: no plan has so many pairs");
}

#[test]
fn junior_has_two_tips() {
    // {0} of 2 placements and {1,2} of 3.
    let mut plan = [7; 3];
    assert_eq!(junior(&COUNTED, &mut plan), Ok(Junior { pairs: 4, u: 0, v: 1 }));
    assert_eq!(plan, [0, 1, 7]);
    // {0,1} instead of {0}: tip 1 serves both lines.
    let mut file = COUNTED;
    file[15] = 0b011;
    assert_eq!(junior(&file, &mut plan), Ok(Junior { pairs: 10, u: 1, v: 1 }));
    assert_eq!(plan, [1, 1, 7]);
    // No lines.
    let mut plan = [7; 3];
    assert_eq!(junior(b"TIP\0\x01\x08\0\0", &mut plan), Ok(Junior { pairs: 0, u: 0, v: 0 }));
    assert_eq!(junior(&COUNTED, &mut plan[..1]), Err(refused(4, 0, 0)));
    assert_eq!(junior(b"TIP\0\x01\x09\0\0", &mut plan), Err(refused(1, 0, 0)));
    // {0}, {1}, {2}.
    let mut three = EXAMPLE[..16].to_vec();
    three[7] = 3;
    three.extend(b"\0\0\0\0\0\0\0\x02\0\0\0\0\0\0\0\x04");
    assert_eq!(junior(&three, &mut plan), Err(refused(31, 0, 0)));
    let mut many = [&EXAMPLE[..8], &[0, 0, 0, 0, 0, 0, 0, 1].repeat(65)].concat();
    (many[5], many[7]) = (9, 65);
    assert_eq!(junior(&many, &mut []), Err(refused(24, 0, 0)));
    assert_eq!(plan, [7; 3]);
    assert_eq!(refused(31, 0, 0).to_string(), "refused 31: no two tips serve every line");
}

#[test]
fn plans_from_other_software_are_checked() {
    // {0} of 2 placements and {1,2} of 3: both plans have 1 + 3 pairs.
    let table = [1, 1, 4, 0, 0, 3, 0, 0, 0];
    assert_eq!(check(&COUNTED, &[0, 1], 4, &table), Ok(()));
    assert_eq!(check(&COUNTED, &[0, 2], 4, &table), Ok(()));
    // Below the diagonal, in the rest of the buffers and where no rule asks, anything may stand.
    assert_eq!(check(&COUNTED, &[0, 2, 255], 4, &[1, 1, 4, 9, 0, 3, 9, 9, 0, 9]), Ok(()));
    for (plan, claim, table, number) in [
        (&[0][..], 4, &table[..8], 4),
        (&[9, 9], 4, &table[..8], 5),
        (&[0, 0], 9, &table, 19),
        (&[0, 65], 4, &table, 19),
        (&[0, 1], 3, &table, 20),
        (&[0, 1], 4, &[1, 1, 5, 0, 0, 3, 0, 0, 0], 33),
        (&[0, 1], 4, &[1, 1, 4, 0, 0, 2, 0, 0, 0], 33),
        (&[0, 1], 4, &[u32::MAX, u32::MAX, 4, 0, 0, 3, 0, 0, 0], 33),
    ] {
        assert_eq!(check(&COUNTED, plan, claim, table), Err(refused(number, 0, 0)), "{plan:?} {claim} {table:?}");
    }
    let mut file = EXAMPLE;
    (file[15], file[23]) = (0b010, 0b101);
    assert_eq!(check(&file, &[9, 9], 9, &[9; 9]), Err(refused(25, 1, 0)));
    assert_eq!(check(&file[..7], &[], 9, &[]), Err(refused(6, 0, 0)));
    assert_eq!(refused(33, 0, 0).to_string(), "refused 33: the table does not show that the plan is a best one");
}

#[test]
fn two_boards_on_one_panel() {
    // The example and the same lines of 2 and 3 placements.
    let mut out = [7; LONGEST_FILE];
    assert_eq!(merge(&EXAMPLE, &COUNTED, &mut out), Ok(44));
    assert_eq!(out[..8], *b"TIP\x00\x02\x03\x00\x04");
    assert_eq!([16, 25, 34, 43].map(|at| out[at]), [1, 1, 2, 3]);
    assert_eq!(out[44..46], [7; 2]);
    assert_eq!(merge(&EXAMPLE, &EXAMPLE, &mut out), Ok(40));
    assert_eq!(out[..24], [&b"TIP\x00\x01\x03\x00\x04"[..], &EXAMPLE[8..]].concat());
    assert_eq!(out[24..40], EXAMPLE[8..]);
    assert_eq!(merge(&EXAMPLE, &COUNTED, &mut out[..43]), Err(refused(11, 0, 0)));
    let mut plan = [7; 5];
    assert_eq!(alone(&COUNTED, &EXAMPLE, &mut plan), Ok((4, 0)));
    assert_eq!(plan, [0, 1, 0, 1, 7]);
    assert_eq!(alone(&COUNTED, &EXAMPLE, &mut plan[..3]), Err(refused(4, 0, 0)));
    let mut other = EXAMPLE;
    other[5] = 4;
    assert_eq!(merge(&EXAMPLE, &other, &mut out), Err(refused(17, 0, 0)));
    assert_eq!(alone(&EXAMPLE, &other, &mut plan), Ok((0, 0)));
    other[23] = 0;
    assert_eq!(merge(&EXAMPLE, &other, &mut out), Err(refused(2, 1, 0)));
    assert_eq!(alone(&EXAMPLE[..7], &other, &mut plan), Err(refused(6, 0, 0)));
    assert_eq!(refused(30, 0, 0).to_string(), "refused 30: there are over 2048 placements");
    assert_eq!(refused(30, 8, 0).to_string(), "refused 30: there are over 2048 placements, line 8");
}

#[test]
fn damaged_files_are_mended() {
    let (mut out, mut told) = ([7; LONGEST_FILE], [7; LONGEST_CHANGES]);
    assert_eq!(mend(&EXAMPLE, &mut out, &mut told), Ok(Mended { file: 24, report: 0 }));
    assert_eq!((&out[..25], told[0]), (&[&EXAMPLE[..], &[7]].concat()[..], 7));
    // A tip outside the rack, a quantity of 0, and a byte behind.
    let mut file = [&COUNTED[..], &[1]].concat();
    (file[14], file[25]) = (1, 0);
    assert_eq!(mend(&file, &mut out, &mut told), Ok(Mended { file: 26, report: 9 }));
    let mut mended = COUNTED;
    mended[25] = 1;
    assert_eq!((&out[..26], &told[..10]), (&mended[..], &[0, 0, 1, 0, 1, 3, 255, 255, 6, 7][..]));
    assert_eq!(read(&out[..26]), Ok(Job { rack: 3, lines: 2 }));
    for (file_bytes, report_bytes) in [(25, 9), (26, 8)] {
        let refused = Err(refused(11, 0, 0));
        assert_eq!(mend(&file, &mut out[..file_bytes], &mut told[..report_bytes]), refused);
    }
    file[5] = 0;
    assert_eq!(mend(&file, &mut out, &mut told), Err(refused(1, 0, 0)));
    assert_eq!(mend(&file[..7], &mut [], &mut []), Err(refused(6, 0, 0)));
}

#[test]
fn quantities_of_1_are_written_as_version_1() {
    let mut file = COUNTED;
    (file[16], file[25]) = (1, 1);
    let mut out = [7; 25];
    assert_eq!(keep(&file, 2, &mut out[..23]), Err(refused(11, 0, 0)));
    assert_eq!(keep(&file, 2, &mut out), Ok(Kept { margin: 1, bytes: 24 }));
    assert_eq!((&out[..24], out[24]), (&EXAMPLE[..], 7));
}

#[test]
fn refusals_of_quantities_carry_the_line() {
    let mut file = COUNTED;
    file[25] = 0;
    assert_eq!(read(&file), Err(refused(15, 1, 0)));
    assert_eq!(report(&file), b"refused 15\n");
    assert_eq!(refused(15, 1, 0).to_string(), "refused 15: a line has quantity 0, line 1");
    let mut passing = COUNTED[..8].to_vec();
    (passing[6], passing[7]) = (0, 10);
    for _ in 0..10 {
        passing.extend(b"\x00\x00\x00\x00\x00\x00\x00\x01\xFF");
    }
    assert_eq!(common(&passing), Err(refused(30, 8, 0)));
    assert_eq!(refused(30, 8, 0).to_string(), "refused 30: there are over 2048 placements, line 8");
}

#[test]
fn refusals_carry_line_and_margin() {
    let mut file = EXAMPLE;
    assert_eq!(keep(&file, 0, &mut []), Err(refused(26, 0, -1)));
    assert_eq!(keep(&file, 1, &mut []), Err(refused(11, 0, 0)));
    assert_eq!(quick(&file, None, &mut [0]), Err(refused(4, 0, 0)));
    (file[15], file[23]) = (0b010, 0b101);
    assert_eq!(best(&file, None, &mut [0; 2], &mut [0; 9]), Err(refused(25, 1, 0)));
    file[23] = 0b1000;
    assert_eq!(read(&file), Err(refused(3, 1, 0)));
    assert_eq!(common(&file[..7]), Err(refused(6, 0, 0)));
    assert_eq!(report(&file), b"refused 3\n");
    assert_eq!(refused(3, 1, 0).to_string(), "refused 3: a line or a part has a tip outside the rack, line 1");
    assert_eq!(refused(26, 0, -1).to_string(), "refused 26: no plan meets the bound, margin -1");
    assert_eq!(refused(6, 0, 0).to_string(), "refused 6: the file is shorter than 8 bytes");
}
