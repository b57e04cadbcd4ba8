//! Links, use table, gaps and gap segments, each by its definition.

use crate::{Reading, Slip};
use sheet::{ABSENT, FIXED_DEF, Gap, GapSegment, LIVE_OUT, Link, Segment, Use, UseRow};

/// A row of the use table.
#[derive(Clone, Copy)]
pub struct UseWeights {
    pub inst: u32,
    pub main: f32,
    pub left: f32,
    pub right: f32,
}

impl UseWeights {
    fn at(inst: u32) -> Self {
        Self { inst, main: 0.0, left: 0.0, right: 0.0 }
    }

    pub fn row(&self) -> UseRow {
        let [main, left, right] = [self.main, self.left, self.right].map(f32::to_bits);
        UseRow { inst: self.inst, main, left, right }
    }
}

/// A use that counts: where, how much, and on which side of its segment.
struct Counted {
    inst: u32,
    cost: f32,
    freq: f32,
    place: Place,
}

enum Place {
    Main,
    Left,
    Right,
}

impl Reading<'_> {
    fn freq(&self, block: usize) -> f32 {
        f32::from_bits(self.job.blocks[block].freq)
    }

    /// The block of an instruction.
    fn block_of(&self, inst: u32) -> usize {
        self.job.blocks.partition_point(|b| b.end <= inst)
    }

    /// For each block the nearest block of strictly lower frequency on either side.
    pub fn links(&self) -> Vec<Link> {
        let blocks = self.job.blocks.len();
        let link = |found: Option<usize>| found.map_or(ABSENT, |b| b as u32);
        let lower = |b: usize, other: usize| {
            self.freq(other) < self.freq(b) || (self.slips(Slip::LinkEqual) && self.freq(other) == self.freq(b))
        };
        let of_block = |b: usize| Link {
            prev: link((0..b).rev().find(|other| lower(b, *other))),
            next: link((b + 1..blocks).find(|other| lower(b, *other))),
        };
        (0..blocks).map(of_block).collect()
    }

    /// A use's cost, scaled by its value's code.
    fn cost(&self, u: &Use, value: u32) -> f32 {
        let (reload, moved) = (1.0, 0.5);
        let cost = match u.kind {
            0 | 1 => {
                let memory = (u.cost == 1) != self.slips(Slip::MemoryExchanged);
                if memory { 0.0 } else { reload }
            }
            2 | 3 if self.slips(Slip::TiedFull) => reload,
            2 | 3 => reload - moved,
            4..=7 => f32::from_bits(u.cost),
            _ => 0.0,
        };
        let code = match self.job.values[value as usize] {
            1 if self.slips(Slip::ScalesExchanged) => 2,
            2 if self.slips(Slip::ScalesExchanged) => 1,
            3 if self.slips(Slip::IndirectUnscaled) => 0,
            code => code,
        };
        match code {
            0 => cost,
            code => cost * f32::from_bits(self.job.scales[code as usize - 1]),
        }
    }

    /// A segment's uses that count, in order.
    fn counted<'s>(&'s self, s: &'s Segment) -> impl Iterator<Item = Counted> + 's {
        let uses = &self.job.uses[s.first_use as usize..s.end_use as usize];
        uses.iter().filter_map(move |u| {
            let cost = self.cost(u, s.value);
            let freq = self.freq(self.block_of(u.pos));
            if cost == 0.0 && !self.slips(Slip::ZeroCostRow) || self.slips(Slip::ZeroFreqNoRow) && cost * freq == 0.0
            {
                return None;
            }
            let place = if 4 * (u.pos + 1) == s.start && !self.slips(Slip::DefInside) {
                Place::Right
            } else if 4 * u.pos == s.end && !self.slips(Slip::EndInside) {
                Place::Left
            } else {
                Place::Main
            };
            Some(Counted { inst: u.pos, cost, freq, place })
        })
    }

    fn first_inst(&self) -> u32 {
        let s = self.job.segments[0];
        s.start / 4 - (s.flags & FIXED_DEF != 0 && !self.slips(Slip::FirstWithoutDef)) as u32
    }

    fn last_inst(&self) -> u32 {
        let s = self.job.segments.last().unwrap();
        if s.flags & LIVE_OUT != 0 || self.slips(Slip::LastCovered) {
            s.end.div_ceil(4) - 1
        } else {
            self.job.uses.last().unwrap().pos
        }
    }

    /// One row for each instruction with a use that counts, and for the first and the last.
    pub fn use_table(&self) -> Vec<UseWeights> {
        let mut counted: Vec<Counted> = self.job.segments.iter().flat_map(|s| self.counted(s)).collect();
        if self.slips(Slip::DefBehind) {
            for i in 1..counted.len() {
                counted[i].inst = counted[i].inst.max(counted[i - 1].inst);
            }
        }
        if self.slips(Slip::NeverBack) {
            for i in 1..counted.len() {
                if counted[i].inst < counted[i - 1].inst {
                    counted[i].freq = counted[i - 1].freq;
                }
            }
        }
        let mut insts: Vec<u32> = counted.iter().map(|c| c.inst).collect();
        insts.push(self.first_inst());
        insts.push(self.last_inst());
        insts.sort_unstable();
        insts.dedup();
        let mut rows: Vec<UseWeights> = insts.iter().map(|inst| UseWeights::at(*inst)).collect();
        if self.slips(Slip::AddUsesBackwards) {
            counted.reverse();
        }
        for c in counted {
            let row = &mut rows[insts.binary_search(&c.inst).unwrap()];
            let sum = match c.place {
                Place::Main => &mut row.main,
                Place::Left => &mut row.left,
                Place::Right => &mut row.right,
            };
            *sum = if self.slips(Slip::AddFused) { c.cost.mul_add(c.freq, *sum) } else { *sum + c.cost * c.freq };
        }
        rows
    }

    /// The row of the largest main weight above zero, the earliest on ties; none in a table of one row.
    pub fn best_use(&self, rows: &[UseWeights]) -> Option<usize> {
        if rows.len() == 1 && !self.slips(Slip::BestOneRow) {
            return None;
        }
        let weight = |r: &UseWeights| {
            if self.slips(Slip::BestAnySide) { r.main + r.left + r.right } else { r.main }
        };
        let largest = rows.iter().map(weight).fold(0.0, f32::max);
        let mut best = (0..rows.len()).filter(|i| largest > 0.0 && weight(&rows[*i]) == largest);
        if self.slips(Slip::BestLatest) { best.next_back() } else { best.next() }
    }

    /// The ends of the blocks that links lead to from the later of two uses towards the earlier.
    fn left_cuts(&self, links: &[Link], earlier: u32, later: u32) -> Vec<u32> {
        let far = self.block_of(earlier) as u32 + self.slips(Slip::ChainShort) as u32;
        let near = if self.slips(Slip::ChainFromUse) { later } else { later - 1 };
        let mut block = links[self.block_of(near)].prev;
        let mut cuts = vec![];
        while block != ABSENT && block >= far {
            let b = self.job.blocks[block as usize];
            let cut = if self.slips(Slip::CutLeftStart) { b.first } else { b.end };
            if earlier < cut && cut < *cuts.last().unwrap_or(&later) {
                cuts.push(cut);
            }
            block = if self.slips(Slip::ChainOne) { ABSENT } else { links[block as usize].prev };
        }
        cuts.reverse();
        cuts
    }

    /// The starts of the blocks that links lead to from the earlier of two uses towards the later.
    fn right_cuts(&self, links: &[Link], earlier: u32, later: u32) -> Vec<u32> {
        let far = (self.block_of(later) as u32).wrapping_sub(self.slips(Slip::ChainShort) as u32);
        let near = if self.slips(Slip::ChainFromUse) { earlier } else { earlier + 1 };
        let mut block = links[self.block_of(near)].next;
        let mut cuts = vec![];
        while block != ABSENT && far != ABSENT && block <= far {
            let b = self.job.blocks[block as usize];
            let cut = if self.slips(Slip::CutRightEnd) { b.end } else { b.first };
            if *cuts.last().unwrap_or(&(earlier + 1)) < cut && cut <= later {
                cuts.push(cut);
            }
            block = if self.slips(Slip::ChainOne) { ABSENT } else { links[block as usize].next };
        }
        cuts
    }

    /// The least frequency among the blocks that a gap meets.
    fn least_freq(&self, from: u32, to: u32, left: bool) -> f32 {
        let (first, last) = (self.block_of(from), self.block_of(to - 1));
        if self.slips(Slip::FreqOtherEnd) {
            return self.freq(if left { first } else { last });
        }
        (first..=last).map(|b| self.freq(b)).fold(f32::INFINITY, f32::min)
    }

    /// The gaps, and which one is the best use's own.
    pub fn gaps(&self, links: &[Link], rows: &[UseWeights], best: usize) -> (Vec<Gap>, usize) {
        let mut gaps = vec![];
        let mut put = |from: u32, to: u32, weight: f32, left: bool| {
            let freq = self.least_freq(from, to, left).to_bits();
            gaps.push(Gap { from, to, weight: weight.to_bits(), live_insts: 0, freq, block: ABSENT });
            gaps.len() - 1
        };
        let side = |near: usize, far: usize| if self.slips(Slip::NearWeightFar) { far } else { near };
        let mut own = 0;
        for i in 0..rows.len() {
            if i > 0 && i <= best {
                let (earlier, later) = (&rows[i - 1], &rows[i]);
                let mut ends = self.left_cuts(links, earlier.inst, later.inst);
                ends.insert(0, earlier.inst);
                ends.push(later.inst);
                let near = ends.len() - 2;
                for g in 0..=near {
                    let mut weight = if g == side(near, 0) { later.left } else { 0.0 };
                    if g == 0 && self.slips(Slip::AddLeftGap) {
                        weight += earlier.right + earlier.main;
                    } else if g == 0 {
                        weight = weight + earlier.right + earlier.main;
                    }
                    put(ends[g], ends[g + 1], weight, true);
                }
            }
            if i == best {
                own = put(rows[i].inst, rows[i].inst + 1, rows[i].main, true);
            }
            if i > best {
                let (earlier, later) = (&rows[i - 1], &rows[i]);
                let mut ends = self.right_cuts(links, earlier.inst, later.inst);
                ends.insert(0, earlier.inst + 1);
                ends.push(later.inst + 1);
                let far = ends.len() - 2;
                for g in 0..=far {
                    let mut weight = if g == side(0, far) { earlier.right } else { 0.0 };
                    if g == far && self.slips(Slip::AddRightGap) {
                        weight += later.left + later.main;
                    } else if g == far {
                        weight = weight + later.left + later.main;
                    }
                    put(ends[g], ends[g + 1], weight, false);
                }
            }
        }
        self.count_live(&mut gaps);
        self.name_blocks(&mut gaps, rows[best].inst);
        (gaps, own)
    }

    /// The block behind each gap's frequency, from the gap's bounds and the best use's instruction alone: the gap's last block left of
    /// it, the first otherwise.
    pub fn name_blocks(&self, gaps: &mut [Gap], best: u32) {
        for g in gaps {
            let left = (g.to <= best) != self.slips(Slip::BlockOtherEnd);
            let beside = g.to == best || g.from == best + 1;
            let inst = if beside && self.slips(Slip::BlockOfBest) {
                best
            } else if left {
                g.to - 1
            } else {
                g.from
            };
            g.block = self.block_of(inst) as u32;
        }
    }

    /// Whether each gap's block carries its frequency, and no block that the gap meets has a lower one.
    pub fn blocks_carry(&self, gaps: &[Gap]) -> bool {
        gaps.iter().all(|g| {
            let met = self.block_of(g.from)..=self.block_of(g.to - 1);
            let freq = f32::from_bits(g.freq);
            met.contains(&(g.block as usize))
                && self.freq(g.block as usize) == freq
                && met.clone().all(|b| self.freq(b) >= freq)
        })
    }

    /// An instruction is live if a segment covers part of it; each counts once.
    fn count_live(&self, gaps: &mut [Gap]) {
        let mut before = 0;
        let mut covered: Vec<(u32, u32)> = vec![];
        for s in &self.job.segments {
            let counted_to = match covered.last() {
                Some(last) if !self.slips(Slip::LiveTwice) => last.1,
                _ => 0,
            };
            covered.push(((s.start / 4).max(counted_to), s.end.div_ceil(4)));
        }
        for g in gaps {
            let first = covered.partition_point(|c| c.1 <= g.from);
            let met = covered[first..].iter().take_while(|c| c.0 < g.to);
            let met = met.take(if self.slips(Slip::LiveLeftBehind) { 1 } else { usize::MAX });
            g.live_insts = met.map(|c| c.1.min(g.to).saturating_sub(c.0.max(g.from))).sum();
            if self.slips(Slip::LiveWhole) {
                g.live_insts = g.to - g.from;
            }
            if self.slips(Slip::LiveNeighbour) {
                std::mem::swap(&mut g.live_insts, &mut before);
            }
        }
    }

    /// All nonempty overlaps of segment and gap, in order.
    pub fn gap_segments(&self, gaps: &[Gap]) -> Vec<GapSegment> {
        let mut overlaps = vec![];
        for s in &self.job.segments {
            let first = gaps.partition_point(|g| 4 * g.to <= s.start);
            for (i, g) in gaps.iter().enumerate().skip(first) {
                let (from, to) = (s.start.max(4 * g.from), s.end.min(4 * g.to));
                if from >= to {
                    break;
                }
                overlaps.push(GapSegment { from, to, value: s.value, gap: i as u32 });
            }
        }
        overlaps
    }
}
