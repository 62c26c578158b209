//! Job files in words.

use std::path::Path;

use job_file::MARK;
pub use job_file::{has_mark, Job, Line};

use crate::{quantity_in_words, refusal, tips_in_words};

/// Whether these are the bytes of a job file, or what is left of one that was cut before the end of its mark.
pub fn is_job(path: impl AsRef<Path>, bytes: &[u8]) -> bool {
    let is_called_job = path.as_ref().extension().is_some_and(|extension| extension.eq_ignore_ascii_case("job"));
    has_mark(bytes) || is_called_job && bytes.len() < MARK.len()
}

/// Reads a job file, or says why it is refused and what to do.
pub fn job_of(file: &[u8]) -> Result<Job, String> {
    Job::read(file).map_err(|refusal| refusal::in_words(refusal.number, refusal.line, file))
}

/// The tips that some line has.
pub(crate) fn named_tips(job: &Job) -> u64 {
    job.lines.iter().fold(0, |named, line| named | line.set)
}

/// The lowest tip that a line lacks between its ends though some line has it, and the first line that does.
pub(crate) fn missed_tip(job: &Job, line: usize) -> Option<(usize, usize)> {
    let set = job.lines[line].set;
    let missed = |tip: &usize| set >> tip & 1 == 0 && set >> tip != 0 && set & ((1 << tip) - 1) != 0;
    let has = |tip: usize| job.lines.iter().position(|other| other.set >> tip & 1 == 1);
    (0..job.rack).filter(missed).find_map(|tip| Some((tip, has(tip)?)))
}

/// The text of a parts list, each part named by its line number.
pub fn list_in_words(job: &Job) -> String {
    let mut text = format!("rack {}\n", job.rack);
    for (number, line) in job.lines.iter().enumerate() {
        text += &format!("{number}{} : {}\n", quantity_in_words(line.quantity), tips_in_words(line.set));
    }
    text
}
