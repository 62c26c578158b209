//! Small boards, and every call on them held to every plan.

use second::{pairs_in, refusal, try_every_plan, Answer, Board, Exact, Junior, Line, Tried};

/// Runs the check on every board of this many lines, each line being one of those given.
pub fn every_board(rack: usize, choices: &[Line], lines: usize, check: &mut dyn FnMut(&Board)) -> usize {
    let mut chosen = vec![0; lines];
    let mut boards = 0;
    loop {
        let lines_of_board: Vec<Line> = chosen.iter().map(|&line| choices[line]).collect();
        check(&Board::of_lines(rack, &lines_of_board));
        boards += 1;
        let Some(line) = (0..lines).find(|&line| chosen[line] + 1 < choices.len()) else {
            return boards;
        };
        chosen[..line].fill(0);
        chosen[line] += 1;
    }
}

pub fn all_sets(rack: usize) -> Vec<u64> {
    (1..1 << rack).collect()
}

pub fn all_runs(rack: usize) -> Vec<u64> {
    let mut runs = Vec::new();
    for first in 0..rack {
        for last in first..rack {
            runs.push((first..=last).fold(0, |set, tip| set | 1 << tip));
        }
    }
    runs
}

/// Each set with each quantity.
pub fn counted(sets: &[u64], quantities: &[u8]) -> Vec<Line> {
    sets.iter().flat_map(|&set| quantities.iter().map(move |&quantity| Line { set, quantity })).collect()
}

/// Each set with quantity 1.
pub fn single(sets: &[u64]) -> Vec<Line> {
    counted(sets, &[1])
}

/// Every call on the board against every plan of it.
pub fn check(board: &Board) {
    let tried = try_every_plan(board);
    check_common(board, &tried);
    for k in (0..=board.placements().len() + 2).chain([65_535]) {
        check_keep(board, &tried, k);
    }
    // At each number of pairs that a plan has, one above it, and at the ends.
    for goal in tried.numbers_of_pairs().flat_map(|pairs| [pairs, pairs + 1]).chain([0, u32::MAX]) {
        check_goal(board, &tried, goal);
    }
    check_quick(board, &tried);
    check_best(board, &tried);
    check_junior(board);
    check_along(board, &tried);
    check_exact(board, &tried);
    check_files(board);
}

/// Whether the call gives the number and place and hands the board back as given.
fn assert_answer<T>(answer: &Answer<T>, board: &Board, number: u32, place: usize) {
    assert_eq!((answer.number, answer.place), (number, place), "{board:?}");
    assert_eq!(&answer.board, board);
}

/// The board with every line put as often as its quantity says, each time with quantity 1.
fn repeated(board: &Board) -> Board {
    Board::of_sets(board.rack, &board.placements())
}

/// Whether the repeated board, made only where it has few enough lines, gives the same.
fn assert_repeated(board: &Board, check: impl Fn(Board)) {
    if board.placements().len() <= 512 {
        check(repeated(board));
    }
}

fn check_common(board: &Board, tried: &Tried) {
    let answer = board.clone().common_tip();
    assert_answer(&answer, board, 0, 0);
    let common = answer.value;
    let off = tried.least_off();
    assert_eq!((common.top, common.off), (board.placements().len() - off, off), "{board:?}");
    assert_eq!(common.tips, tried.common_tips());
    assert_repeated(board, |repeated| assert_eq!(repeated.common_tip().value, common));
}

/// The tips of the set.
fn tips_in(set: u64) -> impl Iterator<Item = usize> {
    (0..64).filter(move |tip| (set >> tip) & 1 == 1)
}

/// The placements whose line has the tip.
fn placements_with(board: &Board, tip: usize) -> usize {
    board.placements().iter().filter(|&&set| (set >> tip) & 1 == 1).count()
}

fn check_keep(board: &Board, tried: &Tried, k: usize) {
    let kept = board.clone().keep_within(k as u16);
    let margin = k as i64 - tried.least_off() as i64;
    assert_eq!(kept.value, margin);
    let Some(used) = tried.used_within(k) else {
        assert_answer(&kept, board, 26, 0);
        assert!(margin < 0 && tried.plans_within(k) == 0);
        return;
    };
    let mut expected = board.clone();
    expected.sets[..board.count].copy_from_slice(&used);
    assert_answer(&kept, &expected, 0, 0);
    // In words: V has the tips of some line that k leaves enough placements; a line of more placements than the margin
    // that has all of V keeps only V, and any other line is unchanged.
    let needed = board.placements().len().saturating_sub(k).max(1);
    let v = (0..board.rack).filter(|&tip| placements_with(board, tip) >= needed).fold(0, |set, tip| set | 1 << tip);
    for (line, given) in board.lines().enumerate() {
        let loses = margin < i64::from(given.quantity) && given.set & v == v;
        assert_eq!(kept.board.sets[line], if loses { v } else { given.set });
    }
    // The published rule, where every quantity is 1: common tips at margin zero, and nothing above.
    if board.lines().all(|line| line.quantity == 1) {
        for (line, given) in board.lines().enumerate() {
            let has_all = given.set & tried.common_tips() == tried.common_tips();
            let expected = if margin == 0 && has_all { tried.common_tips() } else { given.set };
            assert_eq!(kept.board.sets[line], expected);
        }
    }
}

fn check_goal(board: &Board, tried: &Tried, goal: u32) {
    let kept = board.clone().goal(goal);
    if let Some(line) = board.lines().position(|line| misses_a_tip(board, line)) {
        return assert_answer(&kept, board, 25, line);
    }
    let Some(used) = tried.used_with(goal) else {
        assert!(goal > tried.most_pairs);
        return assert_answer(&kept, board, 34, 0);
    };
    let mut expected = board.clone();
    expected.sets[..board.count].copy_from_slice(&used);
    assert_answer(&kept, &expected, 0, 0);
    assert!(goal <= tried.most_pairs && (goal > 0 || expected == *board));
}

/// The choice of tips against every plan with at most two: the most pairs, the lowest tips that reach them, and the lines
/// that have both tips all on one.
fn check_junior(board: &Board) {
    let mut plan = junk_plan(board);
    let answer = board.clone().junior(&mut plan);
    let mut most: Option<(u32, Vec<(usize, usize)>)> = None;
    every_plan_of(board, &mut |plan| {
        let used: Vec<usize> = (0..board.rack).filter(|&tip| plan.contains(&(tip as u8))).collect();
        if used.is_empty() || used.len() > 2 {
            return;
        }
        let (pairs, choice) = (pairs_in(&board.placed(plan)), (used[0], used[used.len() - 1]));
        match &mut most {
            Some((best, choices)) if *best == pairs => choices.push(choice),
            Some((best, _)) if *best > pairs => {}
            _ => most = Some((pairs, vec![choice])),
        }
    });
    let Some((pairs, choices)) = most else {
        assert_answer(&answer, board, if board.count == 0 { 0 } else { 31 }, 0);
        assert!(answer.value == Junior::default() && plan.iter().all(|&byte| byte == JUNK_BYTE));
        return;
    };
    assert_answer(&answer, board, 0, 0);
    check_plan(board, &plan, pairs);
    let Junior { u, v, .. } = answer.value;
    assert_eq!((answer.value.pairs, (u, v)), (pairs, *choices.iter().min().expect("a choice")));
    // All lines that have both tips are on one of them: on u, unless v gives more pairs.
    let has_both = |line: &Line| u != v && line.set >> u & 1 == 1 && line.set >> v & 1 == 1;
    let with_both_on = |tip: usize| -> Vec<u8> {
        board.lines().zip(&plan).map(|(line, &laid)| if has_both(&line) { tip as u8 } else { laid }).collect()
    };
    let [on_u, on_v] = [u, v].map(with_both_on);
    let more_on_v = pairs_in(&board.placed(&on_v)) > pairs_in(&board.placed(&on_u));
    assert_eq!(&plan[..board.count], if more_on_v { on_v } else { on_u });
}

/// No plan is worth more than the exact one, whatever the price; each score of the table is the most that the lines within its
/// set are worth, and the plan is the one that the table gives.
fn check_exact(board: &Board, tried: &Tried) {
    let named: Vec<usize> = tips_in(board.named_tips()).collect();
    let sets = 1 << named.len();
    // The lines within each set of named tips, solved alone.
    let within = |set: usize| -> Board {
        let tips = (0..named.len()).filter(|rank| set >> rank & 1 == 1).fold(0, |tips, rank| tips | 1 << named[rank]);
        let lines: Vec<Line> = board.lines().filter(|line| line.set & !tips == 0).collect();
        Board::of_lines(board.rack, &lines)
    };
    let alone: Vec<(usize, Tried)> =
        (0..sets).map(within).map(|board| (board.placements().len(), try_every_plan(&board))).collect();
    let size = |set: usize| i64::from(set.count_ones());
    for price in [0, 1, 3, 2_096_128, u32::MAX] {
        let counted = price.min(2_096_129);
        let scores: Vec<i64> =
            (0..sets).map(|set| alone[set].1.most_with_price(counted) + size(set) * i64::from(counted)).collect();
        // Every mounted tip at the prices where ties are frequent.
        let tips = if price <= 1 { 0..board.rack } else { 0..0 };
        for mounted in [None].into_iter().chain(tips.map(Some)) {
            let (mut plan, mut table) = (junk_plan(board), vec![JUNK_PAIRS; 2 * sets + 3]);
            let answer = board.clone().exact(mounted, price, &mut plan, &mut table);
            assert_answer(&answer, board, 0, 0);
            check_plan(board, &plan, answer.value.pairs);
            let laid = &plan[..board.count];
            let used = (0..board.rack).filter(|&tip| laid.contains(&(tip as u8))).count();
            let Exact { pairs, tips } = answer.value;
            assert_eq!(tips as usize, used);
            assert_eq!(i64::from(pairs) - i64::from(counted) * i64::from(tips), tried.most_with_price(counted));
            if price == 0 {
                assert_eq!(pairs, tried.most_pairs);
                // Of runs best sharing lays the same plan.
                let mut best = junk_plan(board);
                if board.clone().best(mounted, &mut best, &mut vec![0; board.rack * board.rack]).number == 0 {
                    assert_eq!(plan, best);
                }
            }
            if price > 2_096_128 {
                assert_eq!((used, pairs), tried.fewest_tips());
            }
            for set in 0..sets {
                let expected = (alone[set].0 as i64, scores[set]);
                assert_eq!((i64::from(table[set]), i64::from(table[sets + set])), expected);
            }
            assert!(table[2 * sets..].iter().all(|&place| place == JUNK_PAIRS));
            assert_eq!(laid, by_the_rule_exact(board, &named, &table[..2 * sets], counted, mounted));
        }
    }
}

/// The plan in the rule's words, given the placements and the score of each set of named tips.
fn by_the_rule_exact(board: &Board, named: &[usize], table: &[u32], price: u32, mounted: Option<usize>) -> Vec<u8> {
    let sets = table.len() / 2;
    let mut plan = vec![JUNK_BYTE; board.count];
    let mut left = sets - 1;
    while left != 0 {
        let attains = |rank: usize| {
            let without = left & !(1 << rank);
            let placements = table[left] - table[without];
            let gain = if placements == 0 { price } else { placements * (placements - 1) / 2 };
            left >> rank & 1 == 1 && gain + table[sets + without] == table[sets + left]
        };
        let tied: Vec<usize> = (0..named.len()).filter(|&rank| attains(rank)).collect();
        let rank = tied.iter().copied().find(|&rank| Some(named[rank]) == mounted).unwrap_or(tied[0]);
        for (tip, line) in plan.iter_mut().zip(board.lines()) {
            if *tip == JUNK_BYTE && line.set >> named[rank] & 1 == 1 {
                *tip = named[rank] as u8;
            }
        }
        left &= !(1 << rank);
    }
    plan
}

/// A plan of the fewest changes, which is the one that the rule says, whichever tip is mounted.
fn check_along(board: &Board, tried: &Tried) {
    for mounted in [None].into_iter().chain((0..board.rack).map(Some)) {
        let mut plan = junk_plan(board);
        let answer = board.clone().along(mounted, &mut plan);
        assert_answer(&answer, board, 0, 0);
        check_plan(board, &plan, answer.value.pairs);
        let laid = &plan[..board.count];
        let before = mounted.map(|tip| tip as u8).into_iter();
        let heads: Vec<u8> = before.chain(laid.iter().copied()).collect();
        let changes = heads.windows(2).filter(|pair| pair[0] != pair[1]).count();
        assert_eq!((answer.value.changes as usize, changes), (changes, tried.least_changes(mounted)));
        assert_eq!(laid, by_the_rule_along(board, mounted));
    }
}

/// The plan in the rule's words: what is shared so far, until a line has none of it.
fn by_the_rule_along(board: &Board, mounted: Option<usize>) -> Vec<u8> {
    let mut plan = Vec::new();
    let mut lines_of_segment = 0;
    let mut shared = mounted.map_or(u64::MAX, |tip| 1 << tip);
    for line in board.lines() {
        if shared & line.set == 0 {
            plan.resize(plan.len() + lines_of_segment, shared.trailing_zeros() as u8);
            (lines_of_segment, shared) = (0, u64::MAX);
        }
        lines_of_segment += 1;
        shared &= line.set;
    }
    plan.resize(plan.len() + lines_of_segment, shared.trailing_zeros() as u8);
    plan
}

/// Hands on every plan of the board.
fn every_plan_of(board: &Board, hand_on: &mut dyn FnMut(&[u8])) {
    let choices: Vec<Vec<usize>> = board.lines().map(|line| tips_in(line.set).collect()).collect();
    let mut chosen = vec![0; board.count];
    loop {
        let plan: Vec<u8> = chosen.iter().zip(&choices).map(|(&at, tips)| tips[at] as u8).collect();
        hand_on(&plan);
        let Some(line) = (0..board.count).find(|&line| chosen[line] + 1 < choices[line].len()) else {
            return;
        };
        chosen[..line].fill(0);
        chosen[line] += 1;
    }
}

/// No tip.
const JUNK_BYTE: u8 = 0xFF;
/// More than any number of pairs.
const JUNK_PAIRS: u32 = u32::MAX;

/// A plan buffer two bytes longer than needed.
fn junk_plan(board: &Board) -> Vec<u8> {
    vec![JUNK_BYTE; board.count + 2]
}

/// Each line on a tip of its own, these pairs of placements, and nothing written behind the lines.
fn check_plan(board: &Board, plan: &[u8], pairs: u32) {
    let (laid, behind) = plan.split_at(board.count);
    assert!(laid.iter().zip(board.lines()).all(|(&tip, line)| tips_in(line.set).any(|own| own == usize::from(tip))));
    let mut on_one_tip = 0;
    let placed = board.placed(laid);
    for (place, tip) in placed.iter().enumerate() {
        on_one_tip += placed[..place].iter().filter(|&earlier| earlier == tip).count();
    }
    assert_eq!((on_one_tip, pairs_in(&placed)), (pairs as usize, pairs));
    assert!(behind.iter().all(|&byte| byte == JUNK_BYTE));
}

/// The board with its tips in another order, the first of which becomes tip 0.
fn in_order(board: &Board, order: &[usize]) -> Board {
    let anew =
        |set: u64| (0..order.len()).filter(|&tip| (set >> order[tip]) & 1 == 1).fold(0, |set, tip| set | 1 << tip);
    let lines: Vec<Line> = board.lines().map(|Line { set, quantity }| Line { set: anew(set), quantity }).collect();
    Board::of_lines(board.rack, &lines)
}

fn check_quick(board: &Board, tried: &Tried) {
    let mut plan = junk_plan(board);
    let quick = board.clone().quick(None, &mut plan);
    assert_answer(&quick, board, 0, 0);
    check_plan(board, &plan, quick.value);
    assert!(2 * quick.value >= tried.most_pairs && quick.value <= tried.most_pairs);
    assert_repeated(board, |repeated| {
        let mut by_placement = vec![JUNK_BYTE; repeated.count];
        assert_eq!(repeated.quick(None, &mut by_placement).value, quick.value);
        assert_eq!(by_placement, board.placed(&plan));
    });
    for mounted in 0..board.rack {
        check_quick_with(board, tried, mounted);
    }
}

/// The half rule holds with a mounted tip, which wins as the lowest tip does of a board that has it first.
fn check_quick_with(board: &Board, tried: &Tried, mounted: usize) {
    let mut plan = junk_plan(board);
    let quick = board.clone().quick(Some(mounted), &mut plan);
    assert_answer(&quick, board, 0, 0);
    check_plan(board, &plan, quick.value);
    assert!(2 * quick.value >= tried.most_pairs && quick.value <= tried.most_pairs);
    let order: Vec<usize> = [mounted].into_iter().chain((0..board.rack).filter(|&tip| tip != mounted)).collect();
    let mut in_order_plan = junk_plan(board);
    assert_eq!(in_order(board, &order).quick(None, &mut in_order_plan).value, quick.value);
    in_order_plan[..board.count].iter_mut().for_each(|tip| *tip = order[usize::from(*tip)] as u8);
    assert_eq!(in_order_plan, plan);
}

/// Whether another line has a tip that this one lacks, between two of its own.
fn misses_a_tip(board: &Board, line: Line) -> bool {
    let lacks = |tip: usize| (line.set >> tip) & 1 == 0;
    let others = board.lines().flat_map(|other| tips_in(other.set));
    let mut missed = others.filter(|&tip| lacks(tip) && line.set >> tip != 0 && line.set << (63 - tip) != 0);
    missed.next().is_some()
}

fn check_best(board: &Board, tried: &Tried) {
    let mut plan = junk_plan(board);
    let mut table = vec![JUNK_PAIRS; board.rack * board.rack + 2];
    let best = board.clone().best(None, &mut plan, &mut table);
    // A line with every tip between its ends is a run, whatever the others have.
    let unbroken = all_runs(board.rack);
    assert!(best.number == 0 || board.lines().any(|line| !unbroken.contains(&line.set)));
    match board.lines().position(|line| misses_a_tip(board, line)) {
        Some(line) => {
            assert_answer(&best, board, 25, line);
            assert_eq!(best.value, 0);
            assert!(plan.iter().all(|&byte| byte == JUNK_BYTE));
            assert!(table.iter().all(|&pairs| pairs == JUNK_PAIRS));
        }
        None => {
            assert_answer(&best, board, 0, 0);
            check_plan(board, &plan, best.value);
            assert_eq!(best.value, tried.most_pairs);
            check_table(board, &table);
            assert_repeated(board, |repeated| {
                let mut by_placement = vec![JUNK_BYTE; repeated.count];
                let mut by_placement_table = vec![JUNK_PAIRS; table.len()];
                assert_eq!(repeated.best(None, &mut by_placement, &mut by_placement_table).value, best.value);
                assert_eq!((by_placement, &by_placement_table), (board.placed(&plan), &table));
            });
            // With a mounted tip the plan may be another one; pairs and table are the same.
            for mounted in 0..board.rack {
                let mut plan = junk_plan(board);
                let mut same_table = vec![JUNK_PAIRS; table.len()];
                let with_mounted = board.clone().best(Some(mounted), &mut plan, &mut same_table);
                assert_answer(&with_mounted, board, 0, 0);
                check_plan(board, &plan, best.value);
                assert_eq!((with_mounted.value, &same_table), (best.value, &table));
                // Our own plan and table are accepted, whichever tip is mounted.
                assert_answer(&board.clone().check(&plan, best.value, &table), board, 0, 0);
            }
            check_checks(board, &plan, best.value, &table);
        }
    }
}

/// Our own plan and table with one byte, the claim or one entry changed: each line must stay on a tip of its own, and no
/// entry may fall, for it is the most that the lines within it have.
fn check_checks(board: &Board, plan: &[u8], pairs: u32, table: &[u32]) {
    let number_of = |plan: &[u8], claim: u32, table: &[u32]| board.clone().check(plan, claim, table).number;
    assert_eq!(number_of(plan, pairs, table), 0);
    assert_eq!(number_of(plan, pairs + 1, table), refusal::WRONG_CLAIM);
    for (line, given) in board.lines().enumerate() {
        let mut other = plan.to_vec();
        for byte in (0..=board.rack as u8).chain([plan[line] + 64, plan[line] + 128, 255]) {
            other[line] = byte;
            let own = byte < 64 && (given.set >> byte) & 1 == 1;
            let same = pairs_in(&board.placed(&other[..board.count])) == pairs;
            assert_eq!(
                number_of(&other, pairs, table),
                if !own {
                    19
                } else if same {
                    0
                } else {
                    20
                }
            );
        }
    }
    for place in 0..board.rack * board.rack {
        let is_below = place / board.rack > place % board.rack;
        let named_within = board
            .lines()
            .any(|line| tips_in(line.set).any(|tip| place / board.rack <= tip && tip <= place % board.rack));
        for entry in [table[place].wrapping_sub(1), u32::MAX] {
            let mut other = table.to_vec();
            other[place] = entry;
            let number = number_of(plan, pairs, &other);
            let falls = entry < table[place] && named_within;
            assert!(number == refusal::ACCEPTED || number == refusal::WRONG_TABLE && !is_below);
            assert!(number == refusal::WRONG_TABLE || !falls && (place + 1 != board.rack));
        }
    }
}

/// Each stretch of the table against every plan of the lines lying within it, and nothing written behind it.
fn check_table(board: &Board, table: &[u32]) {
    let (stretches, behind) = table.split_at(board.rack * board.rack);
    for a in 0..board.rack {
        for b in 0..board.rack {
            let is_within = |line: &Line| tips_in(line.set).all(|tip| a <= tip && tip <= b);
            let within: Vec<Line> = board.lines().filter(is_within).collect();
            let most = if a > b { 0 } else { try_every_plan(&Board::of_lines(board.rack, &within)).most_pairs };
            assert_eq!(stretches[a * board.rack + b], most);
        }
    }
    assert!(behind.iter().all(|&pairs| pairs == JUNK_PAIRS));
}

/// What is written is read back, in the first version exactly where every quantity is 1.
fn check_files(board: &Board) {
    let file = board.file();
    let version = if board.lines().all(|line| line.quantity == 1) { 1 } else { 2 };
    assert_eq!((file[3], file[4], file.len()), (0, version, 8 + (7 + usize::from(version)) * board.count));
    assert_answer(&second::read(&file), board, 0, 0);
    assert_answer(&second::read(&board.file_in(second::Version::Two)), board, 0, 0);
}
