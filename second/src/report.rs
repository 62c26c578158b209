//! The text that the program tipshare prints for a job file.

use std::io::Write;

use crate::board::{has, MOST_LINES, MOST_TIPS};
use crate::file::{read, LONGEST_FILE};
use crate::refusal;

/// The most bytes that the program takes, one more than the longest good file.
pub const LONGEST_INPUT: usize = LONGEST_FILE + 1;

/// The report for a file, of which only the first 4,617 bytes count.
pub fn report(file: &[u8]) -> Vec<u8> {
    let taken = &file[..file.len().min(LONGEST_INPUT)];
    let mut text = Vec::new();
    write_report(taken, &mut text).expect("writing to memory");
    text
}

fn write_report(file: &[u8], text: &mut Vec<u8>) -> std::io::Result<()> {
    let job = read(file);
    if job.number != refusal::ACCEPTED {
        return writeln!(text, "refused {}", job.number);
    }
    let board = job.board;
    let (rack, count) = (board.rack, board.count);
    let common = board.clone().common_tip().value;
    let mut quick_plan = [0; MOST_LINES];
    let quick = board.clone().quick(None, &mut quick_plan);
    let mut best_plan = [0; MOST_LINES];
    let mut table = vec![0; MOST_TIPS * MOST_TIPS];
    let best = board.best(None, &mut best_plan, &mut table);
    let all_runs = best.number == refusal::ACCEPTED;

    writeln!(text, "lines {count} rack {rack}")?;
    write!(text, "off {} tips", common.off)?;
    for tip in 0..rack {
        if has(common.tips, tip) {
            write!(text, " {tip}")?;
        }
    }
    writeln!(text)?;
    writeln!(text, "quick {}", quick.value)?;
    if all_runs {
        writeln!(text, "best {}", best.value)?;
    } else {
        writeln!(text, "best none")?;
    }
    for line in 0..count {
        write!(text, "line {line} quick {} best ", quick_plan[line])?;
        if all_runs {
            writeln!(text, "{}", best_plan[line])?;
        } else {
            writeln!(text, "-")?;
        }
    }
    Ok(())
}
