//! Plans for the Junior, which carries two tips at once, by the proved library.

use job_file::refusal::{NO_TWO_TIPS, RACK_SIZE, TOO_MANY_LINES};
use library::{JUNIOR_LINES, JUNIOR_TIPS};

use crate::job::{job_of, Job};
use crate::planning::Named;
use crate::tips_in_words;

impl Named {
    /// The tips of both holders, each part's tip, and the parts on each.
    pub fn junior(&self) -> Result<String, String> {
        let job = job_of(&self.file)?;
        let mut tips = vec![0; job.lines.len()];
        let planned = library::junior(&self.file, &mut tips).map_err(|refusal| match refusal.number {
            TOO_MANY_LINES => too_long(&job),
            RACK_SIZE => too_wide(&job),
            NO_TWO_TIPS => self.not_served(&job),
            _ => self.refused(refusal),
        })?;
        let mut text = format!("lines {} rack {}\n", job.lines.len(), job.rack);
        text += &match (job.lines.is_empty(), planned.u == planned.v) {
            (true, _) => "holders none, there is no part\n".to_string(),
            (_, true) => format!("holders tip {}, which serves every part\n", planned.u),
            _ => format!("holders tip {} and tip {}\n", planned.u, planned.v),
        };
        text += &format!("pairs {}\n", planned.pairs);
        for (line, tip) in tips.iter().enumerate() {
            text += &format!("{} tip {tip}\n", self.label_in(&job, line));
        }
        Ok(text)
    }

    /// That no two tips serve every part; where three parts show it, which.
    fn not_served(&self, job: &Job) -> String {
        let apart = |a: usize, b: usize| job.lines[a].set & job.lines[b].set == 0;
        let parts = 0..job.lines.len();
        let three = parts.clone().find_map(|a| {
            let mut pairs = (a + 1..parts.end).flat_map(|b| (b + 1..parts.end).map(move |c| (b, c)));
            pairs.find(|&(b, c)| apart(a, b) && apart(a, c) && apart(b, c)).map(|(b, c)| [a, b, c])
        });
        let why = three.map_or(String::new(), |three| {
            let each = three.map(|line| format!("{} has {}", self.label(line), tips_in_words(job.lines[line].set)));
            format!(": {}", each.join(", "))
        });
        format!("refused {NO_TWO_TIPS}: no two tips serve every part{why}; split the list, or give a part more tips")
    }
}

/// The refusal of a list that is too long for the Junior.
fn too_long(job: &Job) -> String {
    format!(
        "refused {TOO_MANY_LINES}: {} parts; the Junior takes {JUNIOR_LINES} at most, split the list",
        job.lines.len()
    )
}

/// The refusal of a rack that is too large for the Junior.
fn too_wide(job: &Job) -> String {
    format!(
        "refused {RACK_SIZE}: a rack of {}; the Junior takes {JUNIOR_TIPS} tips at most, name a smaller rack",
        job.rack
    )
}
