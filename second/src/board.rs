//! The board, when it is sound, and the calls that build it.

use crate::refusal;

/// The largest rack size.
pub const MOST_TIPS: usize = 64;
/// The largest number of lines.
pub const MOST_LINES: usize = 512;
/// The largest number of placements of all lines together.
pub const MOST_PLACEMENTS: usize = 2048;

/// Lines are added while the board is open; plans are made once it is closed.
#[derive(Clone, Copy, PartialEq, Eq, Debug)]
pub enum Stage {
    Open,
    Closed,
}

/// One line of a parts list.
#[derive(Clone, Copy, PartialEq, Eq, Debug)]
pub struct Line {
    /// The tips that can pick its part, bit t for tip t.
    pub set: u64,
    /// How many placements it stands for; they all share its tip.
    pub quantity: u8,
}

/// A board as a caller holds it; its fields are public, so it may be unsound.
#[derive(Clone, PartialEq, Eq, Debug)]
pub struct Board {
    /// The number of tips in the rack.
    pub rack: usize,
    pub stage: Stage,
    /// The number of lines.
    pub count: usize,
    /// The tips of each line; all empty after the last line.
    pub sets: [u64; MOST_LINES],
    /// The placements of each line; all 0 after the last line.
    pub quantities: [u8; MOST_LINES],
}

/// What a call hands back: the board, the refusal number with its place, and what was asked for.
#[derive(Clone, PartialEq, Eq, Debug)]
pub struct Answer<T> {
    pub board: Board,
    /// 0 for an accepted call, else the refusal number.
    pub number: u32,
    /// The line that a refusal is about, for 28 the place after the lines, else 0.
    pub place: usize,
    pub value: T,
}

impl<T: Default> Answer<T> {
    pub(crate) fn accepted(board: Board, value: T) -> Answer<T> {
        Answer { board, number: refusal::ACCEPTED, place: 0, value }
    }

    pub(crate) fn refused(board: Board, number: u32) -> Answer<T> {
        Answer::refused_at(board, number, 0)
    }

    pub(crate) fn refused_at(board: Board, number: u32, place: usize) -> Answer<T> {
        Answer { board, number, place, value: T::default() }
    }
}

/// Whether the set has the tip.
pub(crate) fn has(set: u64, tip: usize) -> bool {
    (set >> tip) & 1 == 1
}

/// Whether the set has a tip outside a rack of this size.
fn reaches_outside(set: u64, rack: usize) -> bool {
    (rack..MOST_TIPS).any(|tip| has(set, tip))
}

/// What is wrong with a line by itself, in a rack of this size; 0 for nothing.
pub(crate) fn refusal_of_line(line: Line, rack: usize) -> u32 {
    if line.set == 0 {
        return refusal::EMPTY_LINE;
    }
    if reaches_outside(line.set, rack) {
        return refusal::TIP_OUTSIDE;
    }
    if line.quantity == 0 {
        return refusal::ZERO_QUANTITY;
    }
    refusal::ACCEPTED
}

/// The first line with which there are more placements than a board may have.
pub(crate) fn first_to_pass(quantities: &[u8]) -> Option<usize> {
    let mut room = MOST_PLACEMENTS;
    for line in 0..quantities.len() {
        match room.checked_sub(usize::from(quantities[line])) {
            Some(rest) => room = rest,
            None => return Some(line),
        }
    }
    None
}

impl Board {
    /// An open board of the given rack size, without any check.
    pub(crate) fn without_lines(rack: usize) -> Board {
        Board { rack, stage: Stage::Open, count: 0, sets: [0; MOST_LINES], quantities: [0; MOST_LINES] }
    }

    /// The closed board of these lines, without any check.
    pub fn of_lines(rack: usize, lines: &[Line]) -> Board {
        let mut board = Board { stage: Stage::Closed, count: lines.len(), ..Board::without_lines(rack) };
        for (place, line) in lines.iter().enumerate() {
            board.sets[place] = line.set;
            board.quantities[place] = line.quantity;
        }
        board
    }

    /// The closed board of lines with these sets, each of quantity 1, without any check.
    pub fn of_sets(rack: usize, sets: &[u64]) -> Board {
        let lines: Vec<Line> = sets.iter().map(|&set| Line { set, quantity: 1 }).collect();
        Board::of_lines(rack, &lines)
    }

    /// Opens a board for a rack of this size.
    pub fn open(rack: usize) -> Answer<()> {
        if rack == 0 || rack > MOST_TIPS {
            return Answer::refused(Board::without_lines(1), refusal::RACK_SIZE);
        }
        Answer::accepted(Board::without_lines(rack), ())
    }

    /// What is held in one place of the record.
    fn held(&self, place: usize) -> Line {
        Line { set: self.sets[place], quantity: self.quantities[place] }
    }

    /// The refusal of a board that is not sound, and its place; 0 for a sound one.
    fn unsound(&self) -> (u32, usize) {
        if self.rack == 0 || self.rack > MOST_TIPS || self.count > MOST_LINES {
            return (refusal::UNSOUND_BOARD, 0);
        }
        let to_pass = first_to_pass(&self.quantities[..self.count]);
        for line in 0..self.count {
            if refusal_of_line(self.held(line), self.rack) != refusal::ACCEPTED || to_pass == Some(line) {
                return (refusal::UNSOUND_LINE, line);
            }
        }
        for place in self.count..MOST_LINES {
            if self.held(place) != (Line { set: 0, quantity: 0 }) {
                return (refusal::HELD_BEHIND, place);
            }
        }
        (refusal::ACCEPTED, 0)
    }

    /// Whether rack size, number of lines, every set and every quantity keep the rules of a board.
    pub fn is_sound(&self) -> bool {
        self.unsound() == (refusal::ACCEPTED, 0)
    }

    /// The refusal of a call that needs a sound board in the given stage, 0 for none, and its place.
    pub(crate) fn refusal_in(&self, needed: Stage) -> (u32, usize) {
        let (number, place) = self.unsound();
        if number != refusal::ACCEPTED {
            return (number, place);
        }
        match (needed, self.stage) {
            (Stage::Open, Stage::Closed) => (refusal::BOARD_CLOSED, 0),
            (Stage::Closed, Stage::Open) => (refusal::BOARD_OPEN, 0),
            _ => (refusal::ACCEPTED, 0),
        }
    }

    /// The lines of a sound board.
    pub fn lines(&self) -> impl DoubleEndedIterator<Item = Line> + ExactSizeIterator + '_ {
        (0..self.count).map(|line| self.held(line))
    }

    /// The tips that some line of a sound board names.
    pub fn named_tips(&self) -> u64 {
        self.lines().fold(0, |named, line| named | line.set)
    }

    /// The set of each placement of a sound board, line by line.
    pub fn placements(&self) -> Vec<u64> {
        self.lines().flat_map(|line| vec![line.set; line.quantity.into()]).collect()
    }

    /// The tip of each placement in a plan of a sound board, line by line.
    pub fn placed(&self, plan: &[u8]) -> Vec<u8> {
        self.lines().zip(plan).flat_map(|(line, &tip)| vec![tip; line.quantity.into()]).collect()
    }

    /// Adds one line with these tips and so many placements at the end.
    #[allow(clippy::should_implement_trait)] // the call's own name
    pub fn add(self, set: u64, quantity: u8) -> Answer<()> {
        let (number, place) = self.refusal_in(Stage::Open);
        if number != refusal::ACCEPTED {
            return Answer::refused_at(self, number, place);
        }
        if self.count == MOST_LINES {
            return Answer::refused(self, refusal::TOO_MANY_LINES);
        }
        let number = refusal_of_line(Line { set, quantity }, self.rack);
        if number != refusal::ACCEPTED {
            return Answer::refused(self, number);
        }
        let mut board = self.clone();
        board.sets[board.count] = set;
        board.quantities[board.count] = quantity;
        board.count += 1;
        if board.placements().len() > MOST_PLACEMENTS {
            return Answer::refused(self, refusal::TOO_MANY_PLACEMENTS);
        }
        Answer::accepted(board, ())
    }

    /// Closes an open board.
    pub fn close(self) -> Answer<()> {
        let (number, place) = self.refusal_in(Stage::Open);
        if number != refusal::ACCEPTED {
            return Answer::refused_at(self, number, place);
        }
        Answer::accepted(Board { stage: Stage::Closed, ..self }, ())
    }
}
