//! Job files mended, with each change in words.

use parts::mending::mend;

const EXAMPLE: [u8; 24] = *b"TIP\x00\x01\x03\x00\x02\x00\x00\x00\x00\x00\x00\x00\x01\x00\x00\x00\x00\x00\x00\x00\x06";

/// A file of version 2 with this rack, count and lines, set and quantity.
fn counted(rack: u8, count: u16, lines: &[(u64, u8)]) -> Vec<u8> {
    let mut file = vec![b'T', b'I', b'P', 0, 2, rack];
    file.extend(count.to_be_bytes());
    for (set, quantity) in lines {
        file.extend(set.to_be_bytes());
        file.push(*quantity);
    }
    file
}

/// What is said of a mending, and how many bytes are left.
fn text_of(file: &[u8]) -> (String, usize) {
    let mended = mend(file).unwrap_or_else(|why| panic!("{why}"));
    (mended.text, mended.file.len())
}

#[test]
fn good_files_have_no_change() {
    assert_eq!(text_of(&EXAMPLE), ("lines 2 rack 3, no change\n".into(), 24));
    assert_eq!(mend(&EXAMPLE).map(|mended| mended.file), Ok(EXAMPLE.to_vec()));
}

#[test]
fn each_change_is_told_with_its_line() {
    let file = counted(3, 4, &[(8, 0), (2, 0), (0b1010, 3), (0, 1)]);
    let text = "line 0: tip 3 cleared, outside the rack of 3\n\
                line 0: dropped, no tip is left\n\
                line 1: quantity 0 raised to 1\n\
                line 2: tip 3 cleared, outside the rack of 3\n\
                line 3: dropped, it has no tip\n\
                the file: 4 lines said, 2 written\n\
                lines 2 rack 3, 6 changes, 2 PARTS LOST\n";
    assert_eq!(text_of(&file), (text.into(), 26));
    let all = counted(1, 1, &[(u64::MAX, 1)]);
    assert_eq!(text_of(&all).0, "line 0: tips 1-63 cleared, outside the rack of 1\nlines 1 rack 1, 1 change\n");
}

#[test]
fn lines_behind_the_placements_are_told() {
    let mut lines = vec![(1, 255); 9];
    lines.push((1, 1));
    let text = "line 8: dropped, with it there are more than 2048 placements\n\
                line 9: dropped, it comes after line 8\n\
                the file: 10 lines said, 8 written\n\
                lines 8 rack 1, 3 changes, 2 PARTS LOST\n";
    assert_eq!(text_of(&counted(1, 10, &lines)), (text.into(), 8 + 72));
}

#[test]
fn bytes_behind_are_counted() {
    let told = |file: &[u8]| text_of(file).0.lines().next().map(str::to_string);
    assert_eq!(told(&[&EXAMPLE[..], &[0]].concat()).as_deref(), Some("the file: 1 byte after line 1 left out"));
    let mut file = EXAMPLE;
    file[7] = 0;
    assert_eq!(told(&file).as_deref(), Some("the file: 16 bytes after the first 8 left out"));
    file[7] = 9;
    assert_eq!(told(&file).as_deref(), Some("the file: 9 lines said, 2 written"));
}

#[test]
fn lost_parts_are_counted() {
    let lost = |file: &[u8]| mend(file).map(|mended| mended.lost);
    assert_eq!(lost(&EXAMPLE), Ok(0));
    // Tips and quantities are changes, and no part is lost with them.
    assert_eq!(lost(&counted(3, 2, &[(0b1010, 1), (1, 0)])), Ok(0));
    // A line without a tip, and lines that are said and not there.
    assert_eq!(lost(&counted(3, 2, &[(0, 1), (1, 1)])), Ok(1));
    assert_eq!(lost(&counted(3, 9, &[(1, 1), (1, 1)])), Ok(7));
    // A whole line behind the last one is a part, unless it has no tip or one outside the rack.
    assert_eq!(lost(&counted(3, 1, &[(1, 1), (2, 1), (4, 1)])), Ok(2));
    assert_eq!(lost(&counted(3, 0, &[(1, 1), (2, 1), (4, 1)])), Ok(3));
    assert_eq!(lost(&counted(3, 1, &[(1, 1), (0, 0), (8, 1)])), Ok(0));
    assert_eq!(lost(&[&counted(3, 1, &[(1, 1)])[..], &[0; 8]].concat()), Ok(0));
}

#[test]
fn heads_that_are_wrong_are_refused() {
    let mut file = EXAMPLE;
    file[5] = 65;
    let refused = |file: &[u8]| mend(file).err();
    assert_eq!(refused(&file).as_deref(), Some("refused 1: the rack size is 65; put 1 to 64 in byte 5"));
    file[4] = 7;
    assert_eq!(refused(&file).as_deref(), Some("refused 8: the version is 7; write the file as version 1 or 2"));
    let why = "refused 6: the file has 3 bytes and needs 8 at least; hand over the whole file";
    assert_eq!(refused(&file[..3]).as_deref(), Some(why));
    assert!(refused(b"rack 3\nA : 0\n").is_some_and(|why| why.starts_with("refused 7: ")));
}
