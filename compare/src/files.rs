//! Job files of boards, and boards of job files, by the codec that `parts` uses. The second implementation reads and
//! writes files with its own code only in the calls that are compared.

use job_file::{Job, Refusal, Version};
use second::{Board, Line};

/// What the job file of a board holds.
fn job_of(board: &Board) -> Job {
    let lines = board.lines().map(|Line { set, quantity }| job_file::Line { set, quantity });
    Job { rack: board.rack, lines: lines.collect() }
}

/// The job file of a board, in the version that is written.
pub fn file_of(board: &Board) -> Vec<u8> {
    job_of(board).write()
}

/// The job file of a board in this version, which is not the first if a quantity is not 1.
pub fn file_in(board: &Board, version: Version) -> Vec<u8> {
    job_of(board).write_in(version)
}

/// The version that a board is written in.
pub fn version_of(board: &Board) -> Version {
    job_of(board).version()
}

/// The closed board of a job file.
pub fn board_in(file: &[u8]) -> Result<Board, Refusal> {
    let job = Job::read(file)?;
    let lines: Vec<Line> = job.lines.iter().map(|&job_file::Line { set, quantity }| Line { set, quantity }).collect();
    Ok(Board::of_lines(job.rack, &lines))
}

/// The refusal number of a job file, 0 for a good one.
pub fn number_of(file: &[u8]) -> u32 {
    Job::read(file).err().map_or(0, |refusal| refusal.number)
}

/// A line that a file holds whole, good or not.
pub fn line_in(version: Version, file: &[u8], line: usize) -> Line {
    let job_file::Line { set, quantity } = version.line_in(file, line);
    Line { set, quantity }
}

/// Puts a line in the place of another; the first version leaves its quantity out.
pub fn put_line(version: Version, file: &mut [u8], line: usize, to: Line) {
    file[version.at_set(line)].copy_from_slice(&to.set.to_be_bytes());
    if let Some(at) = version.at_quantity(line) {
        file[at] = to.quantity;
    }
}

#[cfg(test)]
mod tests {
    use second::refusal;

    use super::*;
    use crate::boards::{fixed_boards, seeded_board, Size};
    use crate::damage::damaged;
    use crate::random::Random;
    use crate::tally::OF_READING;

    /// Both readers find the same board, or the same refusal.
    fn read_alike(file: &[u8]) -> u32 {
        let answer = second::read(file);
        match board_in(file) {
            Ok(board) => assert_eq!((0, 0, &board), (answer.number, answer.place, &answer.board)),
            Err(refusal) => assert_eq!((refusal.number, refusal.line), (answer.number, answer.place), "{file:?}"),
        }
        answer.number
    }

    #[test]
    fn both_implementations_of_job_files_agree() {
        let mut random = Random::new(11);
        let mut boards = fixed_boards();
        for size in [Size::Small, Size::Small, Size::Middle, Size::Long, Size::Large] {
            boards.extend((0..100).map(|_| seeded_board(&mut random, size)));
        }
        let mut numbers = std::collections::BTreeSet::new();
        for board in boards {
            let file = file_of(&board);
            assert_eq!((&file, version_of(&board).number()), (&board.file(), board.version().number()));
            let second = file_in(&board, Version::Two);
            assert_eq!(second, board.file_in(second::Version::Two));
            for file in [file, second] {
                assert_eq!(read_alike(&file), 0);
                numbers.extend((0..20).map(|_| read_alike(&damaged(&mut random, &file))));
            }
        }
        assert_eq!(Vec::from_iter(numbers), [&[refusal::ACCEPTED], &OF_READING[..]].concat());
    }

    #[test]
    fn lines_are_put_and_found() {
        let board = Board::of_lines(3, &[Line { set: 1, quantity: 4 }, Line { set: 2, quantity: 5 }]);
        let mut file = file_of(&board);
        assert_eq!(line_in(Version::Two, &file, 1), Line { set: 2, quantity: 5 });
        put_line(Version::Two, &mut file, 0, Line { set: 6, quantity: 0 });
        assert_eq!(file[8..17], [0, 0, 0, 0, 0, 0, 0, 6, 0]);
        assert_eq!(
            (number_of(&file), board_in(&file)),
            (refusal::ZERO_QUANTITY, Err(Refusal { number: refusal::ZERO_QUANTITY, line: 0 }))
        );
    }
}
