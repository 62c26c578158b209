//! The lines of the script of calls: the script as it stands, and after each of its lines what its calls answer.
//!
//! The script says in its first lines what each word means. A word that it does not name is an error here.

use std::ops::RangeInclusive;

use second::{Answer, Board, Stage};

use crate::boards::{differences, show_number};
use crate::junk::{self, show_list};
use crate::orders::Orders;

/// A number that the script does not give.
const NOT_GIVEN: u64 = u64::MAX;

/// The calls that `every` makes on a record, and with which numbers.
const EVERY_CALL: [(&str, &[u64]); 14] = [
    ("add", &[1, 1]),
    ("close", &[]),
    ("common", &[]),
    ("keep", &[5]),
    ("quick", &[]),
    ("best", &[]),
    ("write", &[]),
    ("goal", &[1]),
    ("check", &[0]),
    ("junior", &[]),
    ("along", &[]),
    ("exact", &[1]),
    ("merge", &[]),
    ("alone", &[]),
];

/// The calls that it makes once more, with the record as the second board.
const ON_TWO_BOARDS: [&str; 2] = ["merge", "alone"];

/// What a line of the script finds.
#[derive(Clone)]
struct State {
    board: Board,
    /// The board that is held beside it, the second one of a call on two.
    held: Board,
    /// The bytes of a job file.
    file: [u8; junk::FILE],
    /// What a check looks at.
    plan: [u8; junk::PLAN],
    table: [u32; junk::TABLE],
    orders: Orders,
    /// What buffers are filled with before a call.
    junk: u8,
}

fn stage_of(number: u64) -> Stage {
    match number {
        0 => Stage::Open,
        1 => Stage::Closed,
        _ => panic!("no stage {number}"),
    }
}

fn number_of(stage: Stage) -> u8 {
    match stage {
        Stage::Open => 0,
        Stage::Closed => 1,
    }
}

fn byte(number: u64) -> u8 {
    number.try_into().expect("a byte")
}

/// As much of a buffer as a call is lent.
fn room(number: u64, buffer: usize) -> usize {
    number.min(buffer as u64) as usize
}

/// The board that a call hands back, beside the one that it was given: its lines only where something differs.
fn show_board(given: &Board, back: &Board) -> String {
    let changed = differences(given, back);
    let stage = number_of(back.stage);
    let shown = format!(" board rack {} stage {stage} count {} changed {changed}", back.rack, back.count);
    if changed == 0 {
        return shown + "\n";
    }
    let sets = show_list(&back.sets, 0, back.count);
    let quantities = show_list(&back.quantities, 0, back.count);
    format!("{shown} sets{sets} quantity{quantities}\n")
}

fn show_answer(given: &Board, answer: &Answer<()>) -> String {
    format!(" {}{}", show_number(answer), show_board(given, &answer.board))
}

fn show_common(board: &Board) -> String {
    let answer = board.clone().common_tip();
    let common = answer.value;
    format!(
        " {} top {} off {} tips {}{}",
        show_number(&answer),
        common.top,
        common.off,
        common.tips,
        show_board(board, &answer.board)
    )
}

fn show_keep(board: &Board, k: u64) -> (String, Board) {
    let answer = board.clone().keep_within(k.try_into().expect("a bound"));
    let word = if answer.value < 0 { "below" } else { "margin" };
    let margin = answer.value.unsigned_abs();
    (format!(" {} {word} {margin}{}", show_number(&answer), show_board(board, &answer.board)), answer.board)
}

/// What an accepted call may write, and a refused one nothing.
fn written<T>(answer: &Answer<T>, accepted: usize) -> usize {
    if answer.number == 0 {
        accepted
    } else {
        0
    }
}

/// The tip on the head; a number that is not given stands for none.
fn mounted(number: u64) -> Option<usize> {
    (number != NOT_GIVEN).then_some(number as usize)
}

impl State {
    /// The board before the first line is an open one of rack 1 without lines, and so is the held one; buffers are junk.
    fn new() -> State {
        State {
            board: Board::open(1).board,
            held: Board::open(1).board,
            file: [junk::JUNK; junk::FILE],
            plan: [junk::JUNK; junk::PLAN],
            table: [junk::place(junk::JUNK); junk::TABLE],
            orders: Orders::new(),
            junk: junk::JUNK,
        }
    }

    fn answered(&mut self, answer: Answer<()>) -> String {
        let shown = show_answer(&self.board, &answer);
        self.board = answer.board;
        shown
    }

    /// Lines are added one by one; the answer to the last is shown, with all that they changed.
    fn fill(&mut self, times: u64, set: u64, sets: u64, quantity: u64, quantities: u64) -> String {
        let line = |i: u64, board: Board| board.add(set << (i % sets), byte(quantity + i % quantities));
        let mut answer = line(0, self.board.clone());
        for i in 1..times {
            answer = line(i, answer.board);
        }
        self.answered(answer)
    }

    /// The bytes of the file from the place on, as many as the number has.
    fn put(&mut self, at: u64, bytes: &[u8]) -> String {
        self.file[at as usize..][..bytes.len()].copy_from_slice(bytes);
        String::new()
    }

    fn quick(&mut self, plan_room: u64, tip: u64) -> String {
        self.plan.fill(self.junk);
        let room = room(plan_room, junk::PLAN);
        let answer = self.board.clone().quick(mounted(tip), &mut self.plan[..room]);
        let plan = show_list(&self.plan, self.junk, written(&answer, self.board.count));
        let board = show_board(&self.board, &answer.board);
        format!(" {} pairs {} plan{plan}{board}", show_number(&answer), answer.value)
    }

    fn best(&mut self, plan_room: u64, places: u64, tip: u64) -> String {
        let empty = junk::place(self.junk);
        self.plan.fill(self.junk);
        self.table.fill(empty);
        let (room, places) = (room(plan_room, junk::PLAN), room(places, junk::TABLE));
        let answer = self.board.clone().best(mounted(tip), &mut self.plan[..room], &mut self.table[..places]);
        let square = self.board.rack.saturating_mul(self.board.rack);
        let plan = show_list(&self.plan, self.junk, written(&answer, self.board.count));
        let table = show_list(&self.table, empty, written(&answer, square));
        let board = show_board(&self.board, &answer.board);
        format!(" {} pairs {} plan{plan} table{table}{board}", show_number(&answer), answer.value)
    }

    fn junior(&mut self, plan_room: u64) -> String {
        self.plan.fill(self.junk);
        let room = room(plan_room, junk::PLAN);
        let answer = self.board.clone().junior(&mut self.plan[..room]);
        let plan = show_list(&self.plan, self.junk, written(&answer, self.board.count));
        let board = show_board(&self.board, &answer.board);
        let found = answer.value;
        format!(" {} pairs {} u {} v {} plan{plan}{board}", show_number(&answer), found.pairs, found.u, found.v)
    }

    fn along(&mut self, plan_room: u64, tip: u64) -> String {
        self.plan.fill(self.junk);
        let room = room(plan_room, junk::PLAN);
        let answer = self.board.clone().along(mounted(tip), &mut self.plan[..room]);
        let plan = show_list(&self.plan, self.junk, written(&answer, self.board.count));
        let board = show_board(&self.board, &answer.board);
        let found = answer.value;
        format!(" {} changes {} pairs {} plan{plan}{board}", show_number(&answer), found.changes, found.pairs)
    }

    fn exact(&mut self, price: u64, plan_room: u64, places: u64, tip: u64) -> String {
        let empty = junk::place(self.junk);
        self.plan.fill(self.junk);
        self.table.fill(empty);
        let price = price.try_into().expect("a price");
        let (room, places) = (room(plan_room, junk::PLAN), room(places, junk::TABLE));
        let answer = self.board.clone().exact(mounted(tip), price, &mut self.plan[..room], &mut self.table[..places]);
        let written_places = if answer.number == 0 { 2 << self.board.named_tips().count_ones() } else { 0 };
        let plan = show_list(&self.plan, self.junk, written(&answer, self.board.count));
        let table = show_list(&self.table, empty, written_places);
        let board = show_board(&self.board, &answer.board);
        let found = answer.value;
        format!(" {} pairs {} tips {} plan{plan} table{table}{board}", show_number(&answer), found.pairs, found.tips)
    }

    fn check(&self, claim: u64, plan_room: u64, places: u64) -> String {
        let (room, places) = (room(plan_room, junk::PLAN), room(places, junk::TABLE));
        let claim = claim.try_into().expect("a claim");
        show_answer(&self.board, &self.board.clone().check(&self.plan[..room], claim, &self.table[..places]))
    }

    fn goal(&mut self, pairs: u64) -> String {
        let answer = self.board.clone().goal(pairs.try_into().expect("a goal"));
        let shown = show_answer(&self.board, &answer);
        self.held = answer.board;
        shown
    }

    /// Both boards as they come back, then the panel beside the first.
    fn merge(&self) -> String {
        let merged = self.board.clone().merge(self.held.clone());
        let first = show_board(&self.board, &merged.first);
        let second = show_board(&self.held, &merged.second);
        let panel = show_board(&self.board, &merged.panel);
        let (first, second) = (first.trim_end(), second.trim_end());
        format!(" number {} place {}{first}{second}{panel}", merged.number, merged.place)
    }

    fn alone(&self, plan_room: u64) -> String {
        let mut plan = [self.junk; junk::TWO_PLANS];
        let room = room(plan_room, plan.len());
        let alone = self.board.clone().alone(self.held.clone(), &mut plan[..room]);
        let written = if alone.number == 0 { self.board.count + self.held.count } else { 0 };
        let plan = show_list(&plan, self.junk, written);
        let first = show_board(&self.board, &alone.first);
        let second = show_board(&self.held, &alone.second);
        format!(
            " number {} place {} pairs {} {} plan{plan}{}{second}",
            alone.number,
            alone.place,
            alone.first_pairs,
            alone.second_pairs,
            first.trim_end()
        )
    }

    /// The record in a stage, then each call on it by itself, those on two boards in both orders.
    fn every(&self, stage: Stage) -> String {
        let board = Board { stage, ..self.board.clone() };
        let blank = Board::open(1).board;
        let mut shown = format!(" record{}", show_board(&blank, &board));
        let record = State { board, ..self.clone() };
        for (word, numbers) in EVERY_CALL {
            shown += &format!(" {word}{}", record.clone().run(word, numbers));
        }
        let behind = State { board: self.held.clone(), held: record.board, ..self.clone() };
        for word in ON_TWO_BOARDS {
            shown += &format!(" held {word}{}", behind.clone().run(word, &[]));
        }
        shown
    }

    /// The first bytes of the file, with others at some places.
    fn read(&mut self, length: u64, changes: &[u64]) -> String {
        let mut file = self.file;
        for change in changes.chunks(2) {
            file[change[0] as usize] = byte(change[1]);
        }
        let answer = second::read(&file[..length as usize]);
        let shown = show_answer(&self.board, &answer);
        self.held = answer.board;
        shown
    }

    fn run(&mut self, word: &str, numbers: &[u64]) -> String {
        match (word, numbers) {
            ("open", &[rack]) => self.answered(Board::open(rack as usize)),
            ("add", &[set, quantity]) => self.answered(self.board.clone().add(set, byte(quantity))),
            ("fill", &[times, set, sets, quantity, quantities]) => self.fill(times, set, sets, quantity, quantities),
            ("close", []) => self.answered(self.board.clone().close()),
            ("common", []) => show_common(&self.board),
            ("keep", &[k]) => {
                let (shown, kept) = show_keep(&self.board, k);
                self.held = kept;
                shown
            }
            ("goal", &[pairs]) => self.goal(pairs),
            ("quick", []) => self.quick(NOT_GIVEN, NOT_GIVEN),
            ("quick", &[room]) => self.quick(room, NOT_GIVEN),
            ("quick", &[room, tip]) => self.quick(room, tip),
            ("best", []) => self.best(NOT_GIVEN, NOT_GIVEN, NOT_GIVEN),
            ("best", &[room, places]) => self.best(room, places, NOT_GIVEN),
            ("best", &[room, places, tip]) => self.best(room, places, tip),
            ("check", &[claim]) => self.check(claim, NOT_GIVEN, NOT_GIVEN),
            ("check", &[claim, room]) => self.check(claim, room, NOT_GIVEN),
            ("check", &[claim, room, places]) => self.check(claim, room, places),
            ("junior", []) => self.junior(NOT_GIVEN),
            ("junior", &[room]) => self.junior(room),
            ("along", []) => self.along(NOT_GIVEN, NOT_GIVEN),
            ("along", &[room]) => self.along(room, NOT_GIVEN),
            ("along", &[room, tip]) => self.along(room, tip),
            ("exact", &[price]) => self.exact(price, NOT_GIVEN, NOT_GIVEN, NOT_GIVEN),
            ("exact", &[price, room]) => self.exact(price, room, NOT_GIVEN, NOT_GIVEN),
            ("exact", &[price, room, places]) => self.exact(price, room, places, NOT_GIVEN),
            ("exact", &[price, room, places, tip]) => self.exact(price, room, places, tip),
            ("merge", []) => self.merge(),
            ("alone", []) => self.alone(NOT_GIVEN),
            ("alone", &[room]) => self.alone(room),
            ("order", []) => self.orders.show(junk::ORDER, self.junk),
            ("order", &[at_most]) => self.orders.show(room(at_most, junk::ORDER), self.junk),
            ("tips", []) => self.by_tips(NOT_GIVEN, NOT_GIVEN, NOT_GIVEN),
            ("tips", &[at_most, count]) => self.by_tips(at_most, count, NOT_GIVEN),
            ("tips", &[at_most, count, tip]) => self.by_tips(at_most, count, tip),
            ("windows", []) => self.orders.show_windows(junk::ORDER, junk::ORDER, self.junk),
            ("windows", &[first, last]) => {
                self.orders.show_windows(room(first, junk::ORDER), room(last, junk::ORDER), self.junk)
            }
            ("write", []) => self.write(NOT_GIVEN),
            ("write", &[room]) => self.write(room),
            ("read", &[length, ref changes @ ..]) => self.read(length, changes),
            ("every", &[stage]) => self.every(stage_of(stage)),
            ("byte", &[at, number]) => self.put(at, &[byte(number)]),
            ("put", &[at, number]) => self.put(at, &number.to_be_bytes()),
            _ => {
                if !self.orders.change(word, numbers) {
                    self.change(word, numbers);
                }
                String::new()
            }
        }
    }

    fn by_tips(&self, at_most: u64, count: u64, tip: u64) -> String {
        let plan = &self.plan[..room(count, junk::PLAN)];
        self.orders.show_by_tips(room(at_most, junk::ORDER), plan, mounted(tip), self.junk)
    }

    fn write(&mut self, at_most: u64) -> String {
        self.file.fill(self.junk);
        let room = room(at_most, junk::FILE);
        let answer = self.board.clone().write(&mut self.file[..room]);
        let file = show_list(&self.file, self.junk, answer.value);
        let board = show_board(&self.board, &answer.board);
        format!(" {} bytes {} file{file}{board}", show_number(&answer), answer.value)
    }

    /// Records, buffers and plans by hand.
    fn change(&mut self, word: &str, numbers: &[u64]) {
        match (word, numbers) {
            ("hold", []) => self.held = self.board.clone(),
            ("take", []) => self.board = self.held.clone(),
            ("rack", &[rack]) => self.board.rack = rack as usize,
            ("stage", &[stage]) => self.board.stage = stage_of(stage),
            ("count", &[count]) => self.board.count = count as usize,
            ("set", &[first, last, set]) => self.board.sets[first as usize..=last as usize].fill(set),
            ("quantity", &[first, last, quantity]) => {
                self.board.quantities[first as usize..=last as usize].fill(byte(quantity));
            }
            ("plan", &[first, last, tip]) => self.plan[first as usize..=last as usize].fill(byte(tip)),
            ("table", &[first, last, number]) => {
                self.table[first as usize..=last as usize].fill(number.try_into().expect("a number of pairs"));
            }
            ("junk", &[number]) => self.junk = byte(number),
            // One number too many: nothing is changed.
            ("part", &[_, _, _, _, _, _, _]) | ("parts", &[_, _]) => {}
            _ => panic!("{word} {numbers:?}"),
        }
    }
}

fn number(digits: &str) -> u64 {
    match digits.strip_prefix('x') {
        Some(hexadecimal) => u64::from_str_radix(hexadecimal, 16).expect(digits),
        None => digits.parse().expect(digits),
    }
}

/// One number, or all from a first to a last.
fn numbers_of(word: &str) -> RangeInclusive<u64> {
    match word.split_once('-') {
        Some((first, last)) => number(first)..=number(last),
        None => number(word)..=number(word),
    }
}

/// What the calls of one line answer.
fn show_line(state: &mut State, line: &str) -> String {
    let (word, rest) = line.split_once(' ').unwrap_or((line, ""));
    let words: Vec<&str> = if rest.is_empty() { Vec::new() } else { rest.split(' ').collect() };
    let ranges: Vec<RangeInclusive<u64>> = words.iter().map(|word| numbers_of(word)).collect();
    let mut numbers: Vec<u64> = ranges.iter().map(|range| *range.start()).collect();
    let ranged: Vec<usize> = (0..words.len()).filter(|&place| words[place].contains('-')).collect();
    match ranged[..] {
        [] => state.run(word, &numbers),
        [place] => {
            let mut shown = String::new();
            for number in ranges[place].clone() {
                numbers[place] = number;
                shown += &format!("{number}{}", state.run(word, &numbers));
            }
            shown
        }
        _ => panic!("{line}: one number runs at a time"),
    }
}

pub fn lines(script: &str) -> Vec<String> {
    let mut state = State::new();
    let mut printed = Vec::new();
    for line in script.lines() {
        printed.push(line.to_string());
        if !line.is_empty() && !line.starts_with('#') {
            printed.extend(show_line(&mut state, line).lines().map(str::to_string));
        }
    }
    printed
}
