//! What a gap meets, and the growth of the region.

use crate::{Reading, Slip};
use sheet::{ABSENT, Answer, FixedUse, Gap, GapSegment, Proposal, Row};

/// A gap tried, and what came of it.
#[derive(Clone, Copy, Debug)]
pub struct Try {
    pub side: Side,
    pub gap: usize,
    pub outcome: Outcome,
    /// The normalised weight tried times 2007/2048, and the heaviest weight met.
    pub tested: f32,
    pub heaviest: f32,
    /// Whether both sides were open with equal frequencies, and with equal live instructions too.
    pub equal_freq: bool,
    pub equal_live: bool,
}

#[derive(Clone, Copy, Debug, PartialEq, Eq)]
pub enum Side {
    Own,
    Left,
    Right,
}

#[derive(Clone, Copy, Debug, PartialEq, Eq)]
pub enum Outcome {
    Grown,
    Fixed,
    Weight,
}

/// What a gap's segments meet: whether anything counts as fixed, and the heaviest weight.
#[derive(Clone, Copy)]
struct Met {
    fixed: bool,
    heaviest: f32,
}

/// The rows and fixed uses of one unit.
struct UnitRows<'a> {
    rows: &'a [Row],
    fixed: &'a [FixedUse],
}

impl<'a> Reading<'a> {
    fn units(&self) -> Vec<UnitRows<'a>> {
        let units = if self.slips(Slip::FirstUnitOnly) { 1 } else { self.job.units };
        let of_unit = |unit: u32| {
            let (rows, fixed) = (&self.job.rows, &self.job.fixed);
            let rows_from = rows.partition_point(|r| r.unit < unit);
            let rows_to = rows.partition_point(|r| r.unit <= unit);
            let fixed_from = fixed.partition_point(|f| f.unit < unit);
            let fixed_to = fixed.partition_point(|f| f.unit <= unit);
            UnitRows { rows: &rows[rows_from..rows_to], fixed: &fixed[fixed_from..fixed_to] }
        };
        (0..units).map(of_unit).collect()
    }

    /// Whether a row of kind 0 brings a fixed use that counts against a segment.
    fn fixed_use_counts(&self, unit: &UnitRows, row: &Row, s: &GapSegment) -> bool {
        if row.fixed == ABSENT {
            return false;
        }
        let lasts = if self.slips(Slip::FixedLong) { 4 } else { 2 };
        let listed = if self.slips(Slip::FixedFromFirst) { unit.fixed } else { &unit.fixed[row.fixed as usize..] };
        let first = listed.partition_point(|f| f.point + lasts <= s.from);
        listed[first..].iter().take_while(|f| f.point < s.to).any(|f| {
            let left_out = self.slips(Slip::FixedStopAtEnd) && f.point >= row.end
                || self.slips(Slip::FixedFromStart) && f.point < row.start;
            !left_out && (f.value != s.value || self.slips(Slip::FixedSameValue))
        })
    }

    /// What a gap segment meets in all units.
    fn meets(&self, units: &[UnitRows], s: &GapSegment) -> Met {
        let mut met = Met { fixed: false, heaviest: 0.0 };
        let (from, to) = match self.slips(Slip::TouchMeets) {
            true => (s.from.saturating_sub(1), s.to + 1),
            false => (s.from, s.to),
        };
        for unit in units {
            let first = unit.rows.partition_point(|r| r.end <= from);
            for row in unit.rows[first..].iter().take_while(|r| r.start < to) {
                match row.kind {
                    0 => {
                        met.heaviest = met.heaviest.max(f32::from_bits(self.job.weights[row.index as usize]));
                        met.fixed |= self.fixed_use_counts(unit, row, s);
                    }
                    1 => met.fixed |= !self.slips(Slip::Kind1Free),
                    _ => {
                        let counts = row.index != s.value || self.slips(Slip::Kind2Always);
                        met.fixed |= counts && !self.slips(Slip::Kind2Never);
                    }
                }
            }
        }
        met
    }

    fn gap_meets(&self, units: &[UnitRows], gap_segments: &[GapSegment], gap: usize) -> Met {
        let first = gap_segments.partition_point(|s| (s.gap as usize) < gap);
        let of_gap = gap_segments[first..].iter().take_while(|s| s.gap as usize == gap);
        let nothing = Met { fixed: false, heaviest: 0.0 };
        of_gap
            .map(|s| self.meets(units, s))
            .fold(nothing, |a, b| Met { fixed: a.fixed || b.fixed, heaviest: a.heaviest.max(b.heaviest) })
    }

    /// weight / (instructions + k), at most the largest finite weight.
    fn normalised(&self, weight: f32, insts: u32, gaps: u32) -> f32 {
        let k = match self.slip {
            Some(Slip::KLeftOut) => 0,
            Some(Slip::KTwice) => self.job.k * gaps,
            _ => self.job.k,
        };
        let normalised = weight / (insts + k) as f32;
        if self.slips(Slip::NoCap) { normalised } else { normalised.min(f32::MAX) }
    }

    fn margin(&self, normalised: f32) -> f32 {
        if self.slips(Slip::NoMargin) { normalised } else { normalised * (2007.0 / 2048.0) }
    }

    fn passes(&self, tested: f32, heaviest: f32) -> bool {
        tested > heaviest || self.slips(Slip::GrowEqual) && tested == heaviest
    }

    /// Growth from the best use's own gap until both sides are barred or used up.
    pub fn grow(&self, gaps: &[Gap], own: usize, gap_segments: &[GapSegment]) -> (Answer, Vec<Try>) {
        let units = self.units();
        let freq = |gap: usize| f32::from_bits(gaps[gap].freq);
        let gap_weight = |gap: usize| f32::from_bits(gaps[gap].weight);
        let last = gaps.len() - 1;

        let mut tries = vec![];
        let met = self.gap_meets(&units, gap_segments, own);
        let (mut weight, mut insts, mut heaviest) = (gap_weight(own), 1, met.heaviest);
        if self.slips(Slip::OwnLive) {
            insts += 1;
        }
        let tested = self.margin(self.normalised(weight, insts, 1));
        let untested = self.slips(Slip::OwnUntested) && heaviest == 0.0;
        let outcome = match met.fixed {
            true => Outcome::Fixed,
            false if self.passes(tested, heaviest) || untested => Outcome::Grown,
            false => Outcome::Weight,
        };
        let (equal_freq, equal_live) = (false, false);
        tries.push(Try { side: Side::Own, gap: own, outcome, tested, heaviest, equal_freq, equal_live });
        if outcome != Outcome::Grown {
            return (Answer::None(2), tries);
        }

        let (mut left, mut right) = (own, own);
        let (mut left_barred, mut right_barred) = (false, false);
        loop {
            let left_open = left > 0 && !left_barred;
            let right_open = right < last && !right_barred;
            let (mut equal_freq, mut equal_live) = (false, false);
            let to_left = match (left_open, right_open) {
                (false, false) => break,
                (true, false) => true,
                (false, true) => false,
                (true, true) => {
                    let (l, r) = (left - 1, right + 1);
                    equal_freq = freq(l) == freq(r);
                    equal_live = equal_freq && gaps[l].live_insts == gaps[r].live_insts;
                    self.takes_left(freq(l), freq(r), gaps[l].live_insts, gaps[r].live_insts)
                }
            };
            let gap = if to_left { left - 1 } else { right + 1 };
            let new_weight = match self.slips(Slip::AddRegion) {
                true => (left.min(gap)..=right.max(gap)).map(gap_weight).fold(0.0, |a, b| a + b),
                false => weight + gap_weight(gap),
            };
            let new_insts = insts + gaps[gap].live_insts;
            let met = self.gap_meets(&units, gap_segments, gap);
            let new_heaviest = heaviest.max(met.heaviest);
            let tested = self.margin(self.normalised(new_weight, new_insts, (right - left + 2) as u32));
            let outcome = match met.fixed {
                true => Outcome::Fixed,
                false if self.passes(tested, new_heaviest) => Outcome::Grown,
                false => Outcome::Weight,
            };
            let side = if to_left { Side::Left } else { Side::Right };
            tries.push(Try { side, gap, outcome, tested, heaviest: new_heaviest, equal_freq, equal_live });
            if outcome == Outcome::Grown {
                (weight, insts, heaviest) = (new_weight, new_insts, new_heaviest);
                (left, right) = (left.min(gap), right.max(gap));
                if self.slips(Slip::RetryBarred) {
                    (left_barred, right_barred) = (false, false);
                }
            } else {
                left_barred |= to_left;
                right_barred |= !to_left;
                if self.slips(Slip::BarredWeightKept) {
                    heaviest = new_heaviest;
                }
            }
        }

        let outside = if self.slips(Slip::CostOfOwnGap) { 0 } else { 1 };
        let left_cost = if left > 0 { freq(left - outside) } else { 0.0 };
        let right_cost = if right < last && !self.slips(Slip::CostOneSide) { freq(right + outside) } else { 0.0 };
        let proposal = Proposal {
            left: (left > 0).then(|| gaps[left].from),
            right: (right < last).then(|| gaps[right].to),
            use_weight: weight.to_bits(),
            live_insts: insts,
            interference_weight: heaviest.to_bits(),
            split_cost: (left_cost + right_cost).to_bits(),
        };
        let normalised = self.normalised(weight, insts, (right - left + 1) as u32);
        (Answer::Proposed(proposal, normalised.to_bits()), tries)
    }

    /// With both sides open: the higher frequency; on equal ones left if its live instructions are at least the right's.
    fn takes_left(&self, left_freq: f32, right_freq: f32, left_live: u32, right_live: u32) -> bool {
        if left_freq != right_freq {
            return (left_freq > right_freq) != self.slips(Slip::LowerFirst);
        }
        match self.slip {
            Some(Slip::TieEqualLive) => left_live > right_live,
            Some(Slip::TieFewerLive) => left_live <= right_live,
            Some(Slip::TieIgnoresLive) => true,
            _ => left_live >= right_live,
        }
    }
}
