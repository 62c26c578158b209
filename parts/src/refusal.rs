//! Refusal numbers of job files in plain words.

use job_file::{refusal, Head, Version};

use crate::{MOST_PLACEMENTS, MOST_QUANTITY};

/// The number of a refused job file, what is wrong with the file, and what to do. 2, 3, 15 and 30 are about this line.
pub fn in_words(number: u32, line: usize, file: &[u8]) -> String {
    let length = file.len();
    // A file without a head is refused for that alone.
    let head = Head::of(file).unwrap_or(Head { version: 0, rack: 0, count: 0 });
    let Head { version, rack, count } = head;
    let form = head.form();
    let what = match number {
        refusal::RACK_SIZE => format!("the rack size is {rack}; put 1 to 64 in byte 5"),
        refusal::EMPTY_LINE => format!("line {line} has no tip; give that line a tip"),
        refusal::TIP_OUTSIDE => format!("line {line} has a tip outside the rack of {rack}; take it out, or name a larger rack"),
        refusal::SHORT_FILE => format!("the file has {length} bytes and needs 8 at least; hand over the whole file"),
        refusal::WRONG_MARK => "the file does not begin with TIP; hand over a job file, such as `parts make` writes".into(),
        refusal::WRONG_VERSION => format!("the version is {version}; write the file as version 1 or 2"),
        refusal::FILE_LINES => format!("the file names {count} lines and 512 is the most; split the parts list"),
        refusal::FILE_LENGTH => format!(
            "the file names {count} lines{}, which take {} bytes, and has {length}; hand over the whole file and no more, or mend it: parts mend",
            if form == Version::Two { " with quantities" } else { "" },
            form.length_of(count.into())
        ),
        refusal::ZERO_QUANTITY => format!("line {line} has quantity 0; write 1 to {MOST_QUANTITY}, or take the line out"),
        refusal::TOO_MANY_PLACEMENTS => {
            let quantities = (0..=line).filter_map(|line| file.get(form.at_quantity(line)?));
            let total: usize = quantities.map(|&quantity| usize::from(quantity)).sum();
            format!("{total} placements with line {line}; {MOST_PLACEMENTS} is the most, split the parts list")
        }
        _ => "see the table of refusals in include/tipshare.h".into(),
    };
    format!("refused {number}: {what}")
}
