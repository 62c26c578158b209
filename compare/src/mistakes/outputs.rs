//! Mistakes in what a call writes: answers and reports.

use super::changes::{after, at_refusal, on_report, refusal, touch};
use super::Mistake;
use crate::check::{call_library, Call, Lent};
use crate::refusal;
use job_file::HEAD;
use second::interface::{ANSWER_PLACES, REPORT_SPACE};

pub(super) const OF_ANSWERS: &[Mistake] = &[
    ("an answer of 4 places is refused", |call, lent| {
        let whole = lent.answer.length;
        if whole == ANSWER_PLACES {
            lent.answer.length = 3;
        }
        let returned = call_library(call, lent);
        lent.answer.length = whole;
        returned
    }),
    ("refusal 100 writes to the answer", |call, lent| {
        at_refusal(call, lent, &[refusal::SHORT_ANSWER], |lent| {
            if let Some(first) = lent.answer.inside().first_mut() {
                *first ^= 1;
            }
        })
    }),
    ("a refusal of the file comes before 100", |call, lent| {
        let returned = call_library(call, lent);
        match library::read(lent.file.inside()) {
            Err(refused) if refusal(call, returned) == refusal::SHORT_ANSWER => refused.number.into(),
            _ => returned,
        }
    }),
    ("with a short answer the other buffers are written", |call, lent| {
        let returned = call_library(call, lent);
        if refusal(call, returned) == 100 {
            let short = std::mem::replace(&mut lent.answer, Lent::of(vec![0; ANSWER_PLACES]));
            call_library(call, lent);
            lent.answer = short;
        }
        returned
    }),
    ("the fifth place of the answer is cleared", |call, lent| {
        after(call, lent, |_, lent| {
            if let Some(fifth) = lent.answer.inside().get_mut(4) {
                *fifth = 0;
            }
        })
    }),
    ("read leaves the fourth place of the answer as it was", |call, lent| {
        let fourth = lent.answer.inside().get(3).copied();
        let returned = call_library(call, lent);
        if let (Call::Read { .. }, 0, Some(fourth)) = (call, returned, fourth) {
            lent.answer.inside()[3] = fourth;
        }
        returned
    }),
    ("a byte of the file is changed", |call, lent| {
        after(call, lent, |_, lent| {
            if let Some(byte) = lent.file.inside().get_mut(HEAD) {
                *byte ^= 1;
            }
        })
    }),
];

pub(super) const OF_REPORTS: &[Mistake] = &[
    ("the report gives top for off", |call, lent| {
        on_report(call, lent, |board, text| {
            let common = board.clone().common_tip().value;
            text.replacen(&format!("\noff {} ", common.off), &format!("\noff {} ", common.top), 1)
        })
    }),
    ("the common tips are printed from the highest down", |call, lent| {
        on_report(call, lent, |_, text| {
            let line = text.lines().nth(1).expect("a second line");
            let words: Vec<&str> = line.split(' ').collect();
            let tips: Vec<&str> = words[3..].iter().rev().copied().collect();
            text.replacen(line, &[&words[..3], &tips].concat().join(" "), 1)
        })
    }),
    ("a space follows tips where there is none", |call, lent| {
        on_report(call, lent, |_, text| text.replacen("tips\n", "tips \n", 1))
    }),
    ("the report prints best - without runs", |call, lent| {
        on_report(call, lent, |_, text| text.replacen("best none\n", "best -\n", 1))
    }),
    ("the last line of the report has no end", |call, lent| {
        on_report(call, lent, |_, text| text[..text.len() - 1].to_string())
    }),
    ("an output of 16383 bytes is accepted", |call, lent| {
        if !matches!(call, Call::Report { .. }) || lent.bytes.length != REPORT_SPACE - 1 {
            return call_library(call, lent);
        }
        let text = library::report(lent.file.inside());
        lent.bytes.inside()[..text.len()].copy_from_slice(&text);
        text.len() as u64
    }),
    ("an output of 16384 bytes is refused", |call, lent| match *call {
        Call::Report { out: REPORT_SPACE } => 0,
        _ => call_library(call, lent),
    }),
    ("a too short output is written", |call, lent| {
        let returned = call_library(call, lent);
        if matches!(call, Call::Report { .. }) && returned == 0 {
            touch(lent);
        }
        returned
    }),
    ("a zero byte follows the report", |call, lent| {
        let returned = call_library(call, lent);
        if matches!(call, Call::Report { .. }) && returned > 0 {
            lent.bytes.inside()[returned as usize] = 0;
        }
        returned
    }),
];
