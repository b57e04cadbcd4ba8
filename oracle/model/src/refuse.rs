//! The refusals 1 to 13, in the order of document 01's table, each at its first place.

use crate::CheckSlip;
use crate::slips::Clause;
use sheet::{ABSENT, Block, FIXED_DEF, Job, LIVE_OUT, MOST_ITEMS, Segment, Use};

/// Rows of the lent work tables: uses, gaps, gap segments, links.
pub type Rooms = [usize; 4];

pub const ROOMY: Rooms = [usize::MAX; 4];

/// The refusal of a job whose work tables are long enough.
pub fn refusal(job: &Job) -> Option<(u32, u32)> {
    refusal_with(job, ROOMY, None)
}

/// The refusal of a job with these work tables; with at most one slip.
pub fn refusal_with(job: &Job, rooms: Rooms, slip: Option<CheckSlip>) -> Option<(u32, u32)> {
    Checks { job, rooms, slip }.first_of(1..13)
}

/// The refusal of a call for the lower-cost split point: 2 and 3 for the blocks, then 13.
pub fn split_point_refusal(list: &[Block], after: u32, before: u32, slip: Option<CheckSlip>) -> Option<(u32, u32)> {
    let job = Job { blocks: list.to_vec(), ..Job::default() };
    let checks = Checks { job: &job, rooms: ROOMY, slip };
    let sizes_are_bad = checks.holds(Clause::NoBlock, list.is_empty())
        || checks.over(Clause::Items, list.len() as u64, MOST_ITEMS as u64);
    if sizes_are_bad {
        return Some((2, 0));
    }
    checks.first_of(3..4).or_else(|| {
        let bad = checks.over(Clause::AfterBefore, after as u64 + 1, before as u64)
            || checks.over(Clause::BeforeEnd, before as u64, job.last_end() as u64);
        bad.then_some((13, 0))
    })
}

struct Checks<'a> {
    job: &'a Job,
    rooms: Rooms,
    slip: Option<CheckSlip>,
}

impl Checks<'_> {
    /// The first of these checks that fails, and where.
    fn first_of(&self, numbers: std::ops::Range<u32>) -> Option<(u32, u32)> {
        let mut order: Vec<u32> = numbers.collect();
        for at in 1..order.len() {
            if self.slip == Some(CheckSlip::Later(order[at - 1])) {
                order.swap(at - 1, at);
                break;
            }
        }
        order.iter().find_map(|n| {
            let mut places = (0..self.places(*n)).filter(|place| self.fails(*n, *place));
            let last = self.slip == Some(CheckSlip::LastPlace(*n));
            let place = if last { places.next_back() } else { places.next() };
            place.map(|place| (*n, place as u32))
        })
    }

    /// A condition that is a fault, unless its clause is left out.
    fn holds(&self, clause: Clause, fault: bool) -> bool {
        fault && self.slip != Some(CheckSlip::LeftOut(clause))
    }

    /// A value above its limit.
    fn over(&self, clause: Clause, value: u64, limit: u64) -> bool {
        match self.slip {
            Some(CheckSlip::LeftOut(c)) if c == clause => false,
            Some(CheckSlip::Looser(c)) if c == clause => value > limit.saturating_add(1),
            Some(CheckSlip::Tighter(c)) if c == clause => value + 1 > limit,
            _ => value > limit,
        }
    }

    fn places(&self, number: u32) -> usize {
        let job = self.job;
        match number {
            1 | 2 => 1,
            3 => job.blocks.len(),
            4 => job.values.len(),
            5 | 6 | 8 => job.segments.len(),
            7 => job.uses.len(),
            9 => job.weights.len(),
            10 => job.rows.len(),
            11 => job.fixed.len(),
            _ => 4,
        }
    }

    fn fails(&self, number: u32, i: usize) -> bool {
        let job = self.job;
        match number {
            1 => self.parameters(),
            2 => self.sizes(),
            3 => self.block(i),
            4 => self.over(Clause::Code, job.values[i] as u64, 3),
            5 => self.segment(i),
            6 => self.fixed_def(&job.segments[i]),
            7 => self.use_at(i),
            8 => self.segment_end(i),
            9 => self.over(Clause::Weight, job.weights[i] as u64, 2_139_095_040),
            10 => self.row(i),
            11 => self.fixed_use(i),
            _ => self.too_short(i),
        }
    }

    fn parameters(&self) -> bool {
        let job = self.job;
        self.over(Clause::K, job.k as u64, 65_536)
            || self.over(Clause::Scale1, job.scales[0] as u64, 1_199_570_944)
            || self.over(Clause::Scale2, job.scales[1] as u64, 1_199_570_944)
            || self.over(Clause::Scale3, job.scales[2] as u64, 1_199_570_944)
    }

    fn sizes(&self) -> bool {
        let job = self.job;
        self.holds(Clause::NoBlock, job.blocks.is_empty())
            || self.holds(Clause::NoSegment, job.segments.is_empty())
            || self.holds(Clause::NoUnit, job.units == 0)
            || self.over(Clause::Units, job.units as u64, 8)
            || job.sizes().iter().any(|n| self.over(Clause::Items, *n as u64, MOST_ITEMS as u64))
    }

    fn block(&self, i: usize) -> bool {
        let b = self.job.blocks[i];
        let from = if i == 0 { 0 } else { self.job.blocks[i - 1].end };
        self.holds(Clause::Hole, b.first > from)
            || self.holds(Clause::Overlap, b.first < from)
            || self.holds(Clause::EmptyBlock, b.end <= b.first)
            || self.over(Clause::BlockEnd, b.end as u64, 262_144)
            || self.over(Clause::Frequency, b.freq as u64, 2_139_095_039)
    }

    fn segment(&self, i: usize) -> bool {
        let job = self.job;
        let s = job.segments[i];
        let (last_end, last_use) = match i {
            0 => (0, 0),
            _ => (job.segments[i - 1].end, job.segments[i - 1].end_use),
        };
        let is_last = i + 1 == job.segments.len();
        let uses = job.uses.len() as u64;
        self.over(Clause::SegmentEmpty, s.start as u64 + 1, s.end as u64)
            || self.holds(Clause::StartSlot, s.start % 4 == 3)
            || self.holds(Clause::EndSlot, s.end % 4 == 3)
            || self.over(Clause::SegmentEnd, s.end as u64, 4 * job.last_end() as u64)
            || self.over(Clause::SegmentOrder, last_end as u64, s.start as u64)
            || self.over(Clause::SegmentValue, s.value as u64 + 1, job.values.len() as u64)
            || self.over(Clause::Flags, s.flags as u64, 15)
            || self.holds(Clause::ListStart, s.first_use != last_use)
            || self.holds(Clause::ListFalls, s.end_use < s.first_use)
            || self.over(Clause::ListPast, s.end_use as u64, uses)
            || self.holds(Clause::ListShort, is_last && (s.end_use as u64) < uses)
    }

    fn uses_of(&self, s: &Segment) -> &[Use] {
        self.job.uses.get(s.first_use as usize..s.end_use as usize).unwrap_or(&[])
    }

    fn fixed_def(&self, s: &Segment) -> bool {
        if s.flags & FIXED_DEF == 0 {
            return false;
        }
        let first = self.uses_of(s).first();
        self.holds(Clause::DefBoundary, !s.start.is_multiple_of(4))
            || self.holds(Clause::DefInst, s.start < 4)
            || self.holds(Clause::DefMissing, first.is_none())
            || first.is_some_and(|u| {
                self.holds(Clause::DefKind, u.kind != 0)
                    || self.holds(Clause::DefPosition, u.pos.wrapping_add(1) != s.start / 4)
            })
    }

    fn use_at(&self, i: usize) -> bool {
        let job = self.job;
        let u = job.uses[i];
        // Lists follow one another.
        let Some(s) = job.segments.get(job.segments.partition_point(|s| s.end_use as usize <= i)) else {
            return false;
        };
        let last = i.checked_sub(1).map(|last| job.uses[last]);
        let is_first = i == s.first_use as usize;
        let is_fixed_def = is_first && s.flags & FIXED_DEF != 0;
        let (p, start, end) = (u.pos as u64, s.start as u64, s.end as u64);
        let bad_cost = match u.kind {
            0 | 1 => self.over(Clause::MemoryField, u.cost as u64, 1),
            4..=7 => self.over(Clause::ClassCost, u.cost as u64, 1_199_570_944),
            _ => self.holds(Clause::NoCostField, u.cost != 0),
        };
        self.over(Clause::UseKind, u.kind as u64, 9)
            || bad_cost
            || self.holds(Clause::UseFalls, !is_first && last.is_some_and(|last| u.pos < last.pos))
            || self.over(Clause::UsePastBlocks, p + 1, job.last_end() as u64)
            || (!is_fixed_def
                && (self.over(Clause::UseBefore, start / 4, p) || self.over(Clause::UseBehind, p, end / 4)))
    }

    fn segment_end(&self, i: usize) -> bool {
        let s = &self.job.segments[i];
        let uses = self.uses_of(s);
        if s.flags & LIVE_OUT != 0 {
            return self.holds(Clause::OutBoundary, !s.end.is_multiple_of(4))
                || self.holds(Clause::OutUse, uses.iter().any(|u| u.pos == s.end / 4));
        }
        let is_last = i + 1 == self.job.segments.len();
        let end = s.end.div_ceil(4) as u64;
        is_last
            && match uses.last() {
                None => self.holds(Clause::LastNoUse, true),
                Some(u) => self.over(Clause::LastEnd, end, u.pos as u64 + 1),
            }
    }

    fn row(&self, i: usize) -> bool {
        let job = self.job;
        let r = job.rows[i];
        let last = i.checked_sub(1).map(|last| job.rows[last]);
        let falls = last.is_some_and(|last| r.unit < last.unit);
        let last_end = last.filter(|last| last.unit == r.unit).map_or(0, |last| last.end);
        if self.over(Clause::RowUnit, r.unit as u64 + 1, job.units as u64)
            || self.holds(Clause::RowUnitFalls, falls)
            || self.over(Clause::RowOrder, last_end as u64, r.start as u64)
            || self.over(Clause::RowEmpty, r.start as u64 + 1, r.end as u64)
            || self.holds(Clause::RowStartSlot, r.start % 4 == 3)
            || self.holds(Clause::RowEndSlot, r.end % 4 == 3)
            || self.over(Clause::RowEnd, r.end as u64, 4 * job.last_end() as u64)
        {
            return true;
        }
        let (weights, values) = (job.weights.len() as u64, job.values.len() as u64);
        match r.kind {
            0 => {
                let fixed_uses = job.fixed.iter().filter(|f| r.fixed != ABSENT && f.unit == r.unit).count();
                self.over(Clause::RowWeight, r.index as u64 + 1, weights)
                    || (r.fixed != ABSENT && self.over(Clause::RowFixed, r.fixed as u64 + 1, fixed_uses as u64))
            }
            1 => self.holds(Clause::Kind1Fields, r.index != 0 || r.fixed != 0),
            2 => {
                self.over(Clause::RowValue, r.index as u64 + 1, values)
                    || self.holds(Clause::Kind2Fixed, r.fixed != 0)
            }
            _ => self.holds(Clause::RowKind, true),
        }
    }

    fn fixed_use(&self, i: usize) -> bool {
        let job = self.job;
        let f = job.fixed[i];
        let last = i.checked_sub(1).map(|last| job.fixed[last]);
        let last_point = last.filter(|last| last.unit == f.unit).map_or(0, |last| last.point);
        self.over(Clause::FixedUnit, f.unit as u64 + 1, job.units as u64)
            || self.holds(Clause::FixedUnitFalls, last.is_some_and(|last| f.unit < last.unit))
            || self.holds(Clause::FixedBoundary, !f.point.is_multiple_of(4))
            || self.over(Clause::FixedPoint, f.point as u64 / 4 + 1, job.last_end() as u64)
            || self.over(Clause::FixedOrder, last_point as u64 / 4, f.point as u64 / 4)
            || self.over(Clause::FixedValue, f.value as u64 + 1, job.values.len() as u64)
    }

    fn too_short(&self, i: usize) -> bool {
        let job = self.job;
        let (u, b, s) = (job.uses.len(), job.blocks.len(), job.segments.len());
        let needs = [u + 2, u + b + 2, u + b + s + 2, b];
        let clause = [Clause::UseRoom, Clause::GapRoom, Clause::GapSegmentRoom, Clause::LinkRoom][i];
        self.over(clause, needs[i] as u64, self.rooms[i] as u64)
    }
}
