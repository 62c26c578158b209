//! Boards on one panel, merged and planned by the proved library.

use job_file::refusal::{RACKS_DIFFER, TOO_MANY_LINES, TOO_MANY_PLACEMENTS};

use crate::job::{job_of, Job};
use crate::list::List;
use crate::planning::{common_in_words, no_run_in_words, Named, Plans, Wish};
use crate::{counted, quantity_in_words, tips_in_words, MOST_LINES, MOST_PLACEMENTS};

/// Boards, each planned alone, and merged where they can be.
pub struct Panel {
    /// What is said of each board by itself.
    pub alone: String,
    /// The panel, else why there is none.
    pub merged: Result<Merged, String>,
}

/// Boards on one panel.
#[derive(Clone, PartialEq, Eq, Debug)]
pub struct Merged {
    /// What is said of the panel.
    pub text: String,
    /// Its job file.
    pub file: Vec<u8>,
    /// Its parts list: `R1-2` is R1 on the second board.
    pub list: String,
}

/// Boards with the tips that each line has alone.
struct Boards<'a> {
    named: &'a [&'a Named],
    jobs: Vec<Job>,
    tips: Vec<Vec<u8>>,
}

impl Panel {
    /// Plans each board alone, whatever its rack, and then all on one panel.
    pub fn of(named: &[&Named]) -> Result<Panel, String> {
        let jobs: Vec<Job> = named.iter().map(|board| job_of(&board.file)).collect::<Result<_, _>>()?;
        let (mut tips, mut alone) = (Vec::new(), String::new());
        for (board, (planned, pairs)) in planned_alone(named, &jobs)?.into_iter().enumerate() {
            let (name, lines, rack) = (board_in_words(board), jobs[board].lines.len(), jobs[board].rack);
            alone += &format!("{name} lines {lines} rack {rack} alone {pairs}\n");
            tips.push(planned);
        }
        let boards = Boards { named, jobs, tips };
        Ok(match boards.merged() {
            Ok(merged) => Panel { alone, merged: Ok(merged) },
            // Without a panel the plan of each board is all that there is.
            Err(why) => Panel { alone: alone + &boards.lines(&|_| String::new()), merged: Err(why) },
        })
    }
}

/// The tips of each board alone, and its pairs. The library plans two boards at once.
fn planned_alone(named: &[&Named], jobs: &[Job]) -> Result<Vec<(Vec<u8>, u64)>, String> {
    let why = |refusal: library::Refusal| format!("alone: {refusal}");
    let mut planned = Vec::new();
    for (boards, jobs) in named.chunks(2).zip(jobs.chunks(2)) {
        let mut tips = vec![0; jobs.iter().map(|job| job.lines.len()).sum()];
        if let [first, second] = boards {
            let pairs = library::alone(&first.file, &second.file, &mut tips).map_err(why)?;
            let of_second = tips.split_off(jobs[0].lines.len());
            planned.extend([(tips, pairs.0), (of_second, pairs.1)]);
        } else {
            let pairs = library::quick(&boards[0].file, None, &mut tips).map_err(why)?;
            planned.push((tips, pairs));
        }
    }
    Ok(planned)
}

/// How boards are told apart.
fn board_in_words(board: usize) -> String {
    const WORDS: [&str; 10] =
        ["first", "second", "third", "fourth", "fifth", "sixth", "seventh", "eighth", "ninth", "tenth"];
    WORDS.get(board).map_or_else(|| format!("{}th", board + 1), |word| word.to_string())
}

impl Boards<'_> {
    /// The board of a line of the panel, and the line there.
    fn line(&self, mut line: usize) -> (usize, usize) {
        let mut board = 0;
        while line >= self.jobs[board].lines.len() {
            line -= self.jobs[board].lines.len();
            board += 1;
        }
        (board, line)
    }

    /// The board and the name of a line of the panel.
    fn label(&self, line: usize) -> String {
        let (board, line) = self.line(line);
        format!("{} {}", board_in_words(board), self.named[board].label(line))
    }

    /// Each line with its tip alone, and with what is said behind it.
    fn lines(&self, behind: &dyn Fn(usize) -> String) -> String {
        let mut text = String::new();
        let mut number = 0;
        for (board, tips) in self.tips.iter().enumerate() {
            for (line, tip) in tips.iter().enumerate() {
                let label = self.named[board].label_in(&self.jobs[board], line);
                text += &format!("{} {label} alone {tip}{}\n", board_in_words(board), behind(number));
                number += 1;
            }
        }
        text
    }

    /// The panel, else why there is none.
    fn merged(&self) -> Result<Merged, String> {
        let mut merged = self.named[0].file.clone();
        for board in 1..self.named.len() {
            let mut file = vec![0; library::LONGEST_FILE];
            let bytes = library::merge(&merged, &self.named[board].file, &mut file)
                .map_err(|refusal| format!("refused {}: {}", refusal.number, self.no_panel(refusal.number, board)))?;
            file.truncate(bytes as usize);
            merged = file;
        }
        // The words and rules of its list say in which orders its parts may be placed.
        let panel = Named { file: merged, list: List::read(self.list().as_bytes()).ok() };
        let plans = panel.plans(Wish::default())?;
        let (lines, rack) = (plans.job.lines.len(), plans.job.rack);
        let mut text = format!("panel lines {lines} rack {rack}\n{}", common_in_words(plans.common));
        text += &format!("quick {}\n{}", plans.quick.pairs, self.best_in_words(&plans));
        text += &plans.exact_in_words(None);
        text += &self.lines(&|line| format!(" {}", plans.each(|plan| plan.tips[line])));
        text += &format!("\n{}", plans.summary());
        Ok(Merged { text, list: self.list(), file: panel.file })
    }

    /// The parts list of the panel. Positions in the order are those of one board, and left out.
    fn list(&self) -> String {
        let mut text = format!("rack {}\n", self.jobs[0].rack);
        for (number, (named, job)) in (1..).zip(self.named.iter().zip(&self.jobs)) {
            let behind = format!("-{number}");
            let Some(list) = &named.list else {
                for (part, line) in job.lines.iter().enumerate() {
                    let quantity = quantity_in_words(line.quantity);
                    text += &format!("{part}{behind}{quantity} : {}\n", tips_in_words(line.set));
                }
                continue;
            };
            text += &list.parts.iter().map(|part| part.on_panel(&behind)).collect::<String>();
            // Only parts with a name have a rule.
            let label = |part: usize| list.parts[part].name.clone().unwrap_or_default() + &behind;
            for rule in &list.rules {
                text += &format!("before {} {}\n", label(rule.earlier), label(rule.later));
            }
        }
        text
    }

    fn best_in_words(&self, plans: &Plans) -> String {
        match &plans.best {
            Ok(best) => format!("best {}\n", best.pairs),
            Err(line) => format!("best none, {}\n", no_run_in_words(&plans.job, *line, |line| self.label(line))),
        }
    }

    /// Why the boards up to this one make no panel, and what to do.
    fn no_panel(&self, number: u32, board: usize) -> String {
        let all = if self.jobs.len() == 2 { "both" } else { "all" };
        match number {
            RACKS_DIFFER => {
                let [first, other] = [0, board].map(|board| counted(self.jobs[board].rack as u64, "tip"));
                let name = board_in_words(board);
                format!("the first rack has {first} and the {name} {other}; name one rack in {all}")
            }
            TOO_MANY_LINES => {
                let lines: usize = self.jobs.iter().map(|job| job.lines.len()).sum();
                format!("{lines} lines together; a panel has {MOST_LINES} at most, make two panels")
            }
            TOO_MANY_PLACEMENTS => {
                let placements: usize = self.jobs.iter().map(Job::placements).sum();
                format!("{placements} placements together; a panel has {MOST_PLACEMENTS} at most, make two panels")
            }
            _ => "see the table of refusals in include/tipshare.h".into(),
        }
    }
}
