//! Boards that the test programs share, and how they differ.

use second::{Answer, Board, Line};

/// The board that open and add for each line give.
pub fn open_board(rack: usize, lines: &[Line]) -> Board {
    let mut board = Board::open(rack).board;
    for line in lines {
        board = board.add(line.set, line.quantity).board;
    }
    board
}

pub fn placed_board(rack: usize, lines: &[Line]) -> Board {
    open_board(rack, lines).close().board
}

/// How many of rack, stage, count, the 512 sets and the 512 quantities differ between two boards.
pub fn differences(a: &Board, b: &Board) -> usize {
    let fields = [a.rack != b.rack, a.stage != b.stage, a.count != b.count];
    let sets = a.sets.iter().zip(&b.sets).filter(|(a, b)| a != b);
    let quantities = a.quantities.iter().zip(&b.quantities).filter(|(a, b)| a != b);
    fields.iter().filter(|&&different| different).count() + sets.count() + quantities.count()
}

pub fn show_number<T>(answer: &Answer<T>) -> String {
    format!("number {} place {}", answer.number, answer.place)
}
