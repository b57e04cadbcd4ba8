//! What a comparison has run.

use sheet::{Answer, Job, MOST_ITEMS};
use supplied::Ran;

#[derive(Default)]
pub struct Summary {
    /// Accepted jobs: proposals, none of kind 1, none of kind 2.
    answers: [u64; 3],
    /// Calls with lent tables.
    pub runs: u64,
    pub damaged: u64,
    /// Damaged jobs and split points by the number that refuses them.
    pub refused: [u64; 14],
    pub points: u64,
    pub fired: u64,
    pub differences: u64,
    /// The most rows: seven tables of a job, then links, uses, gaps, gap segments.
    largest: [usize; 11],
    /// Jobs with a table of 4,096 items.
    at_limit: u64,
}

impl Summary {
    pub fn add(&mut self, job: &Job, ran: &Ran) {
        let kind = match ran.answer {
            Answer::Proposed(..) => 0,
            Answer::None(kind) => kind as usize,
            Answer::Refused(..) => unreachable!(),
        };
        self.answers[kind] += 1;
        let t = &ran.tables;
        let filled = [t.links.len(), t.uses.len(), t.gaps.len(), t.gap_segments.len()];
        for (largest, rows) in self.largest.iter_mut().zip(job.sizes().into_iter().chain(filled)) {
            *largest = rows.max(*largest);
        }
        self.at_limit += job.sizes().contains(&MOST_ITEMS) as u64;
    }

    pub fn agrees(&self) -> bool {
        self.differences == 0
    }

    pub fn print(&self, seed: u64) {
        let [proposals, none_1, none_2] = self.answers;
        let jobs = proposals + none_1 + none_2;
        println!(
            "seed {seed}: {jobs} accepted jobs, {proposals} proposals, {none_1} none of kind 1, {none_2} none of kind 2"
        );
        let [b, v, s, u, w, e, f, links, uses, gaps, out] = self.largest;
        println!(
            "largest tables: {b} blocks, {v} values, {s} segments, {u} uses, {w} weights, {e} reservations, {f} fixed uses;"
        );
        println!(
            "  filled {links} links, {uses} uses, {gaps} gaps, {out} gap segments; {} jobs with a table of 4096",
            self.at_limit
        );
        let refused: Vec<String> =
            (1..14).filter(|n| self.refused[*n] > 0).map(|n| format!("{n}: {}", self.refused[n])).collect();
        println!(
            "{} damaged jobs, {} split points; refused by number: {}",
            self.damaged,
            self.points,
            refused.join(", ")
        );
        println!(
            "{} calls with lent tables, {} assertions fired, {} differences",
            self.runs, self.fired, self.differences
        );
    }
}
