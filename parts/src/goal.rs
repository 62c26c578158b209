//! Tips struck by a goal of pairs, by the proved library.

use job_file::refusal::{GOAL_MISSED, NO_RUN};

use crate::job::job_of;
use crate::planning::{Kept, Named};

impl Named {
    /// Strikes the tips that no plan with so many pairs has.
    pub fn goal(&self, goal: u32) -> Result<Kept, String> {
        let job = job_of(&self.file)?;
        let most = match self.best(&job, None)? {
            Ok((plan, _)) => plan.pairs,
            Err(line) => {
                let (why, name) = (self.no_run(&job, line), self.label(line));
                return Err(format!("refused {NO_RUN}: {why}; give {name} that tip to strike by a goal"));
            }
        };
        // What is left has the quantities of what was read, so that it is never longer.
        let mut file = vec![0; self.file.len()];
        let bytes = library::goal(&self.file, goal, &mut file).map_err(|refusal| match refusal.number {
            GOAL_MISSED => missed(goal, most),
            _ => self.refused(refusal),
        })?;
        file.truncate(bytes as usize);
        let left = Named { file: file.clone(), list: self.list.clone() };
        let mut kept = self.kept(format!("best {most} goal {goal}\n"), file)?;
        // The tips that are left may have gaps.
        let after = job_of(&left.file)?;
        if let Err(line) = left.best(&after, None)? {
            kept.text += &format!("then {}", left.no_best(&after, line));
        }
        Ok(kept)
    }
}

/// The refusal of a goal that no plan meets.
fn missed(goal: u32, most: u64) -> String {
    format!("refused {GOAL_MISSED}: no plan has {goal} pairs; the most is {most}, name a goal from 0 to {most}")
}
