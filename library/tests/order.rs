//! The placing order through the safe form of the linked library.

use tipshare::{order, Part, Refusal, MOST_PARTS};

fn part(first: u32, last: u32) -> Part {
    Part { first, last, fine: false, tall: false }
}

fn refused(number: u32, line: u64) -> Result<u64, Refusal> {
    Err(Refusal { number, line, margin: 0 })
}

#[test]
fn least_order_is_written() {
    let (fine, tall) = (Part { fine: true, ..part(0, 3) }, Part { tall: true, ..part(0, 3) });
    let mut lent = [9; 5];
    assert_eq!(order(&[tall, part(0, 3), fine, part(0, 3)], &[(3, 1)], &mut lent), Ok(4));
    assert_eq!(lent, [2, 3, 1, 0, 9]);
    assert_eq!(order(&[part(0, 1), part(0, 0)], &[], &mut lent), Ok(2));
    assert_eq!(lent, [1, 0, 1, 0, 9]);
    assert_eq!(order(&[], &[], &mut []), Ok(0));
    let mut lent = [9; MOST_PARTS];
    assert_eq!(order(&[part(0, 127); MOST_PARTS], &[], &mut lent), Ok(128));
    assert!(lent.iter().enumerate().all(|(position, &part)| usize::from(part) == position));
}

#[test]
fn height_decides() {
    let (plain, both) = (part(0, 1), Part { fine: true, tall: true, ..part(0, 1) });
    let mut lent = [9; 3];
    assert_eq!(order(&[both, plain], &[], &mut lent), Ok(2));
    assert_eq!(lent, [1, 0, 9]);
    assert_eq!(order(&[Part { tall: true, ..plain }, both], &[], &mut lent), Ok(2));
    assert_eq!(lent, [0, 1, 9]);
    assert_eq!(order(&[both, plain], &[(0, 1)], &mut lent), refused(29, 0));
    let parts = [both, plain, Part { fine: true, ..plain }].map(|part| Part { last: 2, ..part });
    assert_eq!(order(&parts, &[], &mut lent), Ok(3));
    assert_eq!(lent, [2, 1, 0]);
}

#[test]
fn refusals_carry_part_and_rule() {
    let two = [part(0, 1); 2];
    assert_eq!(order(&[part(0, 1); 129], &[(0, 0)], &mut []), refused(12, 0));
    assert_eq!(order(&[two[0], part(1, 0)], &[(0, 0)], &mut []), refused(12, 1));
    assert_eq!(order(&[two[0], part(0, 2)], &[], &mut []), refused(12, 1));
    assert_eq!(order(&two, &[(0, 1), (1, 1), (2, 0)], &mut []), refused(13, 1));
    assert_eq!(order(&two, &[(0, 1), (1, u32::MAX)], &mut []), refused(13, 1));
    assert_eq!(order(&two, &[(0, 1), (1, 0)], &mut [9]), refused(14, 0));
    let mut lent = [9; 2];
    assert_eq!(order(&two, &[(0, 1), (1, 0)], &mut lent), refused(29, 0));
    assert_eq!(lent, [9; 2]);
    let told = |answer: Result<u64, Refusal>| answer.map_err(|refusal| refusal.to_string());
    assert_eq!(
        told(refused(12, 1)),
        Err("refused 12: there are over 128 parts, or the positions of a part are wrong, part 1".into())
    );
    assert_eq!(told(refused(13, 7)), Err("refused 13: a rule does not name two parts, rule 7".into()));
    assert_eq!(told(refused(29, 0)), Err("refused 29: no placing order satisfies all rules".into()));
}
