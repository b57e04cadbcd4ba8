//! What a job covers of the corners that the generator aims at.

use std::collections::{BTreeMap, BTreeSet};

use model::{Outcome, Read, Side};
use sheet::{ABSENT, Answer, FIXED_DEF, Job, LIVE_OUT};

/// Counts of features over a stream.
#[derive(Default)]
pub struct Cover {
    jobs: u64,
    counts: BTreeMap<String, u64>,
}

impl Cover {
    pub fn add(&mut self, job: &Job, read: &Read) {
        self.jobs += 1;
        for feature in features(job, read) {
            *self.counts.entry(feature).or_default() += 1;
        }
    }

    pub fn print(&self) {
        println!("covered, of {} jobs:", self.jobs);
        for (feature, count) in &self.counts {
            println!("{count:>9}  {feature}");
        }
    }
}

fn is_subnormal(bits: u32) -> bool {
    bits > 0 && bits < 0x0080_0000
}

/// The features of a job, each once.
pub fn features(job: &Job, read: &Read) -> BTreeSet<String> {
    let mut found = BTreeSet::new();
    let mut when = |holds: bool, feature: &str| {
        if holds && !found.contains(feature) {
            found.insert(feature.to_string());
        }
    };
    when(true, &format!("units {}", job.units));
    when(job.k == 0, "k 0");
    when(job.k == 65_536, "k 65,536");
    for code in 0..4 {
        when(job.segments.iter().any(|s| job.values[s.value as usize] == code), &format!("value code {code}"));
    }
    for kind in 0..10 {
        when(job.uses.iter().any(|u| u.kind == kind), &format!("use kind {kind}"));
    }
    blocks(job, &mut when);
    segments(job, read, &mut when);
    rows(job, read, &mut when);
    growth(read, &mut when);
    let most = *job.sizes().iter().max().unwrap();
    when(most <= 4, "size: no table above 4 items");
    when(job.fits_sheet() && most >= 128, "size: a sheet with 128 lines of a kind or more");
    when(!job.fits_sheet(), "size: above a sheet's limits");
    when(most == 4096, "size: a table of 4,096 items");
    when(job.last_end() == 262_144, "size: 262,144 instructions");
    found
}

fn blocks(job: &Job, when: &mut impl FnMut(bool, &str)) {
    let freqs: Vec<u32> = job.blocks.iter().map(|b| b.freq).collect();
    when(freqs.windows(2).any(|w| w[0] == w[1]), "frequencies: equal neighbours");
    when(freqs.contains(&0), "frequencies: zero");
    when(freqs.iter().any(|f| is_subnormal(*f)), "frequencies: subnormal");
    when(freqs.iter().any(|f| *f >= 0x7f00_0000), "frequencies: huge");
}

fn segments(job: &Job, read: &Read, when: &mut impl FnMut(bool, &str)) {
    let segments = &job.segments;
    when(segments[0].flags & FIXED_DEF != 0, "fixed def: of the first segment");
    when(segments[1..].iter().any(|s| s.flags & FIXED_DEF != 0), "fixed def: of a later segment");
    let steps_back = segments.windows(2).any(|w| {
        let (last, next) = (job.uses[..w[0].end_use as usize].last(), job.uses.get(w[1].first_use as usize));
        let def = w[1].flags & FIXED_DEF != 0 && w[0].first_use < w[0].end_use;
        def && last.zip(next).is_some_and(|(l, n)| n.pos < l.pos && n.cost == 0)
    });
    when(steps_back, "fixed def: before a use at the end of the segment before");
    when(read.tables.uses.iter().any(|u| u.left > 0), "a use at a segment's very end counted");
    when(read.tables.uses.iter().any(|u| u.right > 0), "a fixed def counted");
    let shared = |n: usize| segments.windows(n).any(|w| w[0].end.div_ceil(4) > w[n - 1].start / 4);
    when(segments.len() >= 2 && shared(2), "two segments in one instruction");
    when(segments.len() >= 3 && shared(3), "three segments in one instruction");
    let last = segments.last().unwrap();
    when(last.flags & LIVE_OUT != 0, "live-out: the last segment");
    when(segments[..segments.len() - 1].iter().any(|s| s.flags & LIVE_OUT != 0), "live-out: an earlier segment");
    when(job.uses.is_empty(), "no uses");
    when(segments.iter().any(|s| s.first_use == s.end_use), "a segment without uses");
    when(segments.windows(2).any(|w| w[0].value != w[1].value), "values: two in a row unequal");
}

fn rows(job: &Job, read: &Read, when: &mut impl FnMut(bool, &str)) {
    for r in &job.rows {
        let met = read.tables.gap_segments.iter().filter(|s| r.start < s.to && s.from < r.end);
        for s in met {
            when(r.kind == 0 && r.fixed == ABSENT, "rows met: kind 0 without a fixed row");
            when(r.kind == 1, "rows met: kind 1");
            when(r.kind == 2 && r.index == s.value, "rows met: kind 2, equal value");
            when(r.kind == 2 && r.index != s.value, "rows met: kind 2, unequal value");
            if r.kind == 0 {
                let w = job.weights[r.index as usize];
                when(w == 0, "weight met: zero");
                when(is_subnormal(w), "weight met: subnormal");
                when((0x7000_0000..0x7f80_0000).contains(&w), "weight met: huge");
                when(w == 0x7f80_0000, "weight met: infinite");
            }
            if r.kind == 0 && r.fixed != ABSENT {
                let unit = job.fixed.iter().filter(|f| f.unit == r.unit).skip(r.fixed as usize);
                for f in unit.filter(|f| f.point < s.to && s.from < f.point + 2) {
                    let differs = f.value != s.value;
                    when(f.point < r.start && differs, "fixed use: before the row's start, unequal value");
                    when(f.point >= r.end && differs, "fixed use: past the row's end, unequal value");
                    when(!differs, "fixed use: equal value");
                    when(differs, "fixed use: unequal value");
                }
            }
        }
    }
}

fn growth(read: &Read, when: &mut impl FnMut(bool, &str)) {
    match read.answer {
        Answer::None(1) => {
            when(read.tables.uses.len() == 1, "none 1: a table of one row");
            when(read.tables.uses.len() > 1, "none 1: no main weight");
        }
        Answer::None(_) => {
            when(read.tries[0].outcome == Outcome::Fixed, "none 2: fixed");
            when(read.tries[0].outcome == Outcome::Weight, "none 2: weight");
        }
        Answer::Proposed(p, _) => {
            let ends = (p.left.is_some(), p.right.is_some());
            when(ends == (false, false), "proposal: all of the register");
            when(ends == (true, false), "proposal: left end");
            when(ends == (false, true), "proposal: right end");
            when(ends == (true, true), "proposal: both ends");
            when(p.use_weight == 0x7f80_0000, "use weight infinite");
            when(p.split_cost == 0x7f80_0000, "split cost infinite");
            when(p.interference_weight > 0, "proposal: with interference");
        }
        Answer::Refused(..) => {}
    }
    for t in &read.tries {
        let side = match t.side {
            Side::Own => "own",
            Side::Left => "left",
            Side::Right => "right",
        };
        let outcome = match t.outcome {
            Outcome::Grown => "grown",
            Outcome::Fixed => "barred by a fixed one",
            Outcome::Weight => "barred by weight",
        };
        when(true, &format!("try: {side} {outcome}"));
        when(t.equal_freq, "try: equal frequencies");
        when(t.equal_live, "try: equal frequencies and live instructions");
        when(t.heaviest > 0.0 && t.tested == t.heaviest, "try: exactly at the threshold");
        when(t.heaviest > 0.0 && t.tested.to_bits() == t.heaviest.to_bits() + 1, "try: one bit above the threshold");
        when(t.tested.to_bits() + 1 == t.heaviest.to_bits(), "try: one bit below the threshold");
    }
    let grown_after = |side: Side| {
        let barred = read.tries.iter().position(|t| t.side == side && t.outcome != Outcome::Grown);
        barred.is_some_and(|at| read.tries[at..].iter().any(|t| t.outcome == Outcome::Grown))
    };
    when(grown_after(Side::Left), "growth goes on with the left side barred");
    when(grown_after(Side::Right), "growth goes on with the right side barred");
    when(read.tries.len() >= 20, "growth: 20 tries or more");
    when(read.tries.len() >= 1000, "growth: 1,000 tries or more");
    let gaps = &read.tables.gaps;
    when(gaps.len() > read.tables.uses.len(), "gaps: cut at a block");
    when(gaps.iter().any(|g| g.live_insts == 0), "gaps: one without live instructions");
    when(gaps.len() >= 4096, "gaps: 4,096 or more");
    when(gaps.windows(3).any(|w| w[1].weight == 0), "gaps: one of weight zero between");
}
