//! Jobs that no check refuses, aimed at the corners.

use model::{Read, Reading};
use sheet::{ABSENT, Answer, Block, FIXED_DEF, FixedUse, GapSegment, Job, LIVE_OUT, Row, Segment, Tables, Use};

use crate::Rng;
use crate::limit::limit;

const ONE: u32 = 0x3f80_0000;
const HALF: u32 = 0x3f00_0000;
const MOST_COST: u32 = 1_199_570_944;
const MOST_FREQ: u32 = 2_139_095_039;
const INFINITE: u32 = 2_139_095_040;
const MOST_INSTS: u32 = 262_144;

/// How large a job may become.
#[derive(Clone, Copy, PartialEq, Eq)]
pub enum Size {
    /// A handful of items.
    Tiny,
    /// Up to some twenty items a table.
    Small,
    /// Up to a sheet's limits.
    Sheet,
    /// Up to 4,096 items a table.
    Full,
    /// 4,096 items in every table.
    Limit,
}

impl Size {
    /// The size of a stream's job: mostly small, some at a sheet's limits, few at 4,096 items.
    pub fn of_stream(rng: &mut Rng) -> Self {
        match rng.below(2000) {
            0 => Size::Full,
            1..=40 => Size::Sheet,
            41..=1200 => Size::Small,
            _ => Size::Tiny,
        }
    }
}

/// A number of items: up to `tiny`, `small`, `sheet`, or 4,096, the greatest one often for the two large sizes.
fn count(rng: &mut Rng, size: Size, tiny: u32, small: u32, sheet: u32) -> u32 {
    let (most, often) = match size {
        Size::Tiny => (tiny, false),
        Size::Small => (small, false),
        Size::Sheet => (sheet, true),
        Size::Full | Size::Limit => (4096, true),
    };
    if often && rng.chance(1, 2) { most } else { rng.within(1, most) }
}

pub fn accepted(rng: &mut Rng, size: Size) -> Job {
    if size == Size::Limit {
        return limit(rng);
    }
    let mut job = Job { k: pick_k(rng), units: pick_units(rng), ..Job::default() };
    job.scales = [pick_scale(rng), pick_scale(rng), pick_scale(rng)];
    job.blocks = blocks(rng, size);
    let values = count(rng, size, 2, 4, 128);
    job.values = (0..values).map(|_| if rng.chance(1, 2) { 0 } else { rng.below(4) }).collect();
    // A job without a best use says little: most are tried again.
    let mut free;
    loop {
        segments(rng, size, &mut job);
        free = Reading::of(&job).read();
        if free.answer != Answer::None(1) || rng.chance(1, 3) {
            break;
        }
        job.segments.clear();
        job.uses.clear();
    }
    reservations(rng, size, &mut job, &free);
    debug_assert_eq!(model::refusal(&job), None);
    job
}

fn pick_k(rng: &mut Rng) -> u32 {
    let any = rng.within(0, 65_536);
    rng.pick(&[0, 0, 0, 0, 1, 1, 2, 5, 10, 65_536, 65_535, any])
}

fn pick_units(rng: &mut Rng) -> u32 {
    if rng.chance(1, 2) { 1 } else { rng.within(1, 8) }
}

fn pick_scale(rng: &mut Rng) -> u32 {
    let any = rng.within(0, MOST_COST);
    rng.pick(&[ONE, ONE, HALF, 0x3e80_0000, 0x4000_0000, 0x3dcc_cccd, 0, 1, 0x0080_0000, MOST_COST, any])
}

fn blocks(rng: &mut Rng, size: Size) -> Vec<Block> {
    let blocks = count(rng, size, 4, 20, 128);
    let longest = match size {
        Size::Full => MOST_INSTS / blocks,
        _ => rng.pick(&[1, 2, 3, 6, if size == Size::Tiny { 4 } else { 40 }]),
    };
    let style = rng.below(9);
    let mut freq = ONE;
    let mut end = 0;
    let mut list: Vec<Block> = (0..blocks)
        .map(|i| {
            freq = pick_freq(rng, style, freq, i);
            let first = end;
            end += rng.within(1, longest);
            Block { freq, first, end }
        })
        .collect();
    // Now and then the list ends at the limit.
    if size != Size::Tiny && rng.chance(1, 12) {
        list.last_mut().unwrap().end = MOST_INSTS;
    }
    list
}

fn pick_freq(rng: &mut Rng, style: u32, last: u32, i: u32) -> u32 {
    match style {
        // All equal.
        0 => ONE,
        1 => rng.pick(&[ONE, 0x4000_0000, 0x4080_0000, 0x4100_0000]),
        // Loops entered and left.
        2 | 3 => {
            let step = rng.pick(&[-3i32, 0, 0, 3]) << 23;
            (last as i32 + step).clamp(0x3000_0000, 0x6000_0000) as u32
        }
        // Falling, then rising, so that links form chains.
        4 => ONE + (((i % 64) as i32 - rng.within(0, 6) as i32).unsigned_abs() << 20),
        // Numbers whose sums are rounded.
        5 => rng.pick(&[0x3dcc_cccd, 0x3eaa_aaab, 0x3f99_999a, 0x4b80_0001, 0x3380_0001]),
        6 => rng.pick(&[0, 0, 1, 2, 3, 5, 0x007f_ffff, 0x0080_0000, 0x0080_0001, ONE]),
        7 => rng.pick(&[MOST_FREQ, MOST_FREQ - 1, 0x7f00_0000, 0x7e80_0000, 0x7d00_0000, ONE]),
        _ => rng.within(0, MOST_FREQ),
    }
}

/// The next point whose slot isn't 3.
fn sound_point(point: u32) -> u32 {
    if point % 4 == 3 { point + 1 } else { point }
}

fn segments(rng: &mut Rng, size: Size, job: &mut Job) {
    let insts = job.last_end();
    let last_point = 4 * insts;
    let wanted = count(rng, size, 3, 12, 128);
    let most_uses = count(rng, size, 6, 30, 256).max(wanted.min(4096));
    let most_uses = if size == Size::Sheet { most_uses.min(256) } else { most_uses };
    let spread = (last_point / wanted).max(1);
    let longest = rng.pick(&[2, 4, 9, 16, spread, spread]).max(1);
    let apart = rng.pick(&[0, 0, 1, 3, 8, spread]);
    let density = rng.pick(&[1, 3, 4, 6]);
    let costs = Costs::pick(rng);
    if matches!(size, Size::Sheet | Size::Full) && rng.chance(1, 5) {
        return long_segment(rng, job, most_uses, &costs);
    }

    let mut at = sound_point(if rng.chance(1, 2) { 0 } else { rng.below(spread.min(last_point - 1).max(1)) });
    for i in 0..wanted {
        let room = most_uses.saturating_sub(job.uses.len() as u32);
        let last = i + 1 == wanted || room < 4 || at + longest + apart + 8 > last_point;
        let Some(s) = segment(rng, job, at, longest, apart, last) else {
            break;
        };
        put_segment(rng, job, s, density.min(room.saturating_sub(3)), &costs, last);
        at = s.end;
        if last {
            break;
        }
        at = sound_point(at + if rng.chance(1, 2) { 0 } else { rng.within(0, apart) });
        if at >= last_point {
            break;
        }
    }
    if job.segments.is_empty() {
        let s = Segment { start: 0, end: 1, value: 0, first_use: 0, end_use: 0, flags: 0 };
        put_segment(rng, job, s, density, &costs, true);
    }
    mend_last(rng, job, &costs);
}

/// One segment over all instructions, its uses spread over them.
fn long_segment(rng: &mut Rng, job: &mut Job, uses: u32, costs: &Costs) {
    let insts = job.last_end();
    let value = rng.below(job.values.len() as u32);
    let spread = |i: u32| (i as u64 * insts as u64 / uses as u64) as u32;
    job.uses = (0..uses).map(|i| costs.pick_use(rng, spread(i))).collect();
    job.segments = vec![Segment { start: 0, end: 4 * insts, value, first_use: 0, end_use: uses, flags: LIVE_OUT }];
}

/// A segment from `at` on, without its uses.
fn segment(rng: &mut Rng, job: &Job, at: u32, longest: u32, apart: u32, last: bool) -> Option<Segment> {
    let last_point = 4 * job.last_end();
    let mut start = at;
    let mut flags = rng.below(2) | (4 * rng.below(2));
    // A fixed def, often right behind a use at the end of the segment before.
    if rng.chance(1, 4) && start.div_ceil(4) >= 1 && start.next_multiple_of(4) < last_point {
        start = start.next_multiple_of(4);
        flags |= FIXED_DEF;
    }
    if start >= last_point {
        return None;
    }
    let mut end = sound_point(start + rng.within(1, longest)).min(last_point);
    if last && rng.chance(1, 6) {
        end = last_point;
    }
    if rng.chance(1, 3) {
        end = end.next_multiple_of(4);
    }
    if end.is_multiple_of(4) && rng.chance(1, if apart == 0 { 4 } else { 3 }) {
        flags |= LIVE_OUT;
    }
    let value = rng.below(job.values.len() as u32);
    let uses = job.uses.len() as u32;
    Some(Segment { start, end, value, first_use: uses, end_use: uses, flags })
}

fn put_segment(rng: &mut Rng, job: &mut Job, s: Segment, density: u32, costs: &Costs, last: bool) {
    let insts = job.last_end();
    let low = s.start / 4;
    let high = if s.flags & LIVE_OUT != 0 { s.end / 4 - 1 } else { (s.end / 4).min(insts - 1) };
    let mut positions = vec![];
    let span = high - low + 1;
    let wanted = rng.below(density.min(4 * span) + 1);
    for _ in 0..wanted {
        let any = rng.within(low, high);
        positions.push(rng.pick(&[any, any, any, low, high, high]));
    }
    let liveout = s.flags & LIVE_OUT != 0;
    if last && !liveout {
        positions.push(rng.within(s.end.div_ceil(4) - 1, high));
    }
    positions.sort_unstable();
    let mut uses: Vec<Use> = positions.iter().map(|pos| costs.pick_use(rng, *pos)).collect();
    if s.flags & FIXED_DEF != 0 {
        uses.insert(0, Use { pos: s.start / 4 - 1, kind: 0, cost: rng.chance(1, 8) as u32 });
    }
    job.uses.extend(uses);
    job.segments.push(Segment { end_use: job.uses.len() as u32, ..s });
}

/// The last segment written may not have been meant to be the last: give it a last use where it needs one.
fn mend_last(rng: &mut Rng, job: &mut Job, costs: &Costs) {
    let s = *job.segments.last().unwrap();
    if s.flags & LIVE_OUT != 0 {
        return;
    }
    let needed = s.end.div_ceil(4) - 1;
    let has = s.end_use > s.first_use && job.uses.last().unwrap().pos >= needed;
    if !has {
        let u = costs.pick_use(rng, needed);
        job.uses.push(u);
        job.segments.last_mut().unwrap().end_use += 1;
    }
}

/// A job's style of uses.
struct Costs {
    kinds: &'static [u32],
    class: &'static [u32],
    any: bool,
}

impl Costs {
    fn pick(rng: &mut Rng) -> Self {
        let kinds: &[u32] = match rng.below(5) {
            0 => &[4, 5],
            1 => &[0, 1, 2, 3, 4, 5, 6, 7, 8, 9],
            2 => &[0, 1, 4, 5, 8, 9],
            3 => &[1, 2, 3],
            _ => &[4, 4, 5, 5, 6, 7, 1, 2],
        };
        let class: &[u32] = match rng.below(6) {
            0 => &[ONE],
            1 => &[ONE, HALF, 0x4000_0000, 0x4040_0000],
            2 => &[0x3dcc_cccd, 0x3eaa_aaab, 0x4700_0001, 0x3380_0001, ONE],
            3 => &[0, 1, 3, 0x007f_ffff, 0x0080_0000, ONE],
            4 => &[MOST_COST, MOST_COST - 1, ONE],
            _ => &[ONE, 0, 0x3f99_999a],
        };
        Self { kinds, class, any: rng.chance(1, 4) }
    }

    fn pick_use(&self, rng: &mut Rng, pos: u32) -> Use {
        let kind = rng.pick(self.kinds);
        let cost = match kind {
            0 | 1 => rng.chance(1, 4) as u32,
            4..=7 if self.any && rng.chance(1, 2) => rng.within(0, MOST_COST),
            4..=7 => rng.pick(self.class),
            _ => 0,
        };
        Use { pos, kind, cost }
    }
}

/// Weights, rows and fixed uses, aimed at what the job meets when it grows freely.
fn reservations(rng: &mut Rng, size: Size, job: &mut Job, free: &Read) {
    let tested: Vec<f32> = free.tries.iter().map(|t| t.tested).collect();
    let weights = count(rng, size, 4, 10, 128);
    // A calm job has light rows, so that its region grows far.
    let calm = rng.chance(1, 3);
    let lightest = tested.iter().copied().fold(f32::INFINITY, f32::min);
    let weight = |rng: &mut Rng| match calm && rng.chance(9, 10) {
        true => (lightest.min(f32::MAX) * rng.pick(&[0.0, 0.1, 0.5, 0.9])).to_bits(),
        false => pick_weight(rng, &tested),
    };
    job.weights = (0..weights).map(|_| weight(rng)).collect();
    if rng.chance(1, 12) {
        job.weights.clear();
    }

    let most_rows = count(rng, size, 3, 16, 256);
    let most_fixed = count(rng, size, 3, 10, 128);
    let own = free.tries.first().map(|t| t.gap as u32);
    let style = Style {
        per_unit: most_rows.div_ceil(job.units).max(1),
        fixed_per_unit: most_fixed.div_ceil(job.units).max(1),
        light_own: rng.chance(4, 5),
        fixed_rows: if calm { 0 } else { rng.pick(&[0, 1, 4]) },
        strange: if calm { rng.below(2) } else { rng.pick(&[1, 3, 6]) },
    };
    for unit in 0..job.units {
        fixed_uses(rng, job, &free.tables, unit, most_fixed, &style);
        rows(rng, job, &free.tables, unit, most_rows, own, &style);
    }
}

struct Style {
    per_unit: u32,
    fixed_per_unit: u32,
    /// Rows on the best use's own gap are light, so that growth begins.
    light_own: bool,
    /// Of twelve rows so many are of kind 1 or 2.
    fixed_rows: u32,
    /// Of eight fixed uses so many have a value of their own.
    strange: u32,
}

fn pick_weight(rng: &mut Rng, tested: &[f32]) -> u32 {
    let any = rng.within(0, INFINITE);
    if tested.is_empty() || rng.chance(1, 4) {
        return rng.pick(&[0, 1, 2, 0x007f_ffff, 0x0080_0000, ONE, MOST_FREQ, INFINITE, 0x7f00_0000, any]);
    }
    // Near the value that a try of the free growth is tested with.
    let t = rng.pick(tested);
    let part = (t * rng.pick(&[0.1, 0.5, 0.9])).to_bits();
    let t = t.to_bits();
    rng.pick(&[t, t, t.saturating_sub(1), t + 1, part, part, 0]).min(INFINITE)
}

/// A gap segment of the free growth, or one made up where there is none.
fn some_segment(rng: &mut Rng, job: &Job, tables: &Tables) -> GapSegment {
    if tables.gap_segments.is_empty() {
        let s = rng.pick(&job.segments);
        return GapSegment { from: s.start, to: s.end, value: s.value, gap: ABSENT };
    }
    rng.pick(&tables.gap_segments)
}

fn fixed_uses(rng: &mut Rng, job: &mut Job, tables: &Tables, unit: u32, most: u32, style: &Style) {
    let wanted = if rng.chance(1, 3) { 0 } else { rng.within(1, style.fixed_per_unit.max(2)) };
    let room = most.saturating_sub(job.fixed.len() as u32);
    let insts = job.last_end();
    let values = job.values.len() as u32;
    let mut list: Vec<FixedUse> = (0..wanted.min(room))
        .map(|_| {
            let s = some_segment(rng, job, tables);
            let inst = if rng.chance(1, 8) { rng.below(insts) } else { rng.within(s.from / 4, s.to / 4) };
            let value = if rng.chance(style.strange, 8) { rng.below(values) } else { s.value };
            FixedUse { unit, point: 4 * inst.min(insts - 1), value }
        })
        .collect();
    list.sort_by_key(|f| f.point);
    job.fixed.extend(list);
}

fn rows(rng: &mut Rng, job: &mut Job, tables: &Tables, unit: u32, most: u32, own: Option<u32>, style: &Style) {
    let wanted = if rng.chance(1, 6) { 0 } else { rng.within(0, style.per_unit) };
    let room = most.saturating_sub(job.rows.len() as u32);
    let mut ranges: Vec<(u32, u32, GapSegment)> = (0..wanted.min(room))
        .map(|_| {
            let s = some_segment(rng, job, tables);
            let (start, end) = row_range(rng, job, &s);
            (start, end, s)
        })
        .collect();
    ranges.sort_by_key(|r| (r.0, r.1));
    let fixed: Vec<FixedUse> = job.fixed.iter().copied().filter(|f| f.unit == unit).collect();
    let mut free_from = 0;
    for (start, end, s) in ranges {
        let start = start.max(free_from);
        if start >= end {
            continue;
        }
        free_from = end;
        let is_own = own == Some(s.gap) && style.light_own;
        let row =
            pick_row(rng, job, &fixed, Row { unit, start, end, kind: 0, index: 0, fixed: 0 }, &s, is_own, style);
        job.rows.push(row);
    }
}

/// A range on a segment, around it, beside it, or anywhere.
fn row_range(rng: &mut Rng, job: &Job, s: &GapSegment) -> (u32, u32) {
    let last_point = 4 * job.last_end();
    let some = rng.within(1, 9);
    let (start, end) = match rng.below(7) {
        0 => (s.from, s.to),
        1 => (s.from.saturating_sub(some), s.from),
        2 => (s.to, s.to + some),
        3 => (s.from.saturating_sub(some), s.from + 1),
        4 => (s.to - 1, s.to + some),
        5 => {
            let start = rng.below(last_point);
            (start, start + rng.within(1, 40))
        }
        _ => {
            let start = rng.within(s.from, s.to - 1);
            (start, start + some)
        }
    };
    let start = sound_point(start).min(last_point - 1);
    let end = sound_point(end).min(last_point);
    let start = if start % 4 == 3 { start - 1 } else { start };
    (start, end.max(sound_point(start + 1)))
}

fn pick_row(
    rng: &mut Rng,
    job: &Job,
    fixed: &[FixedUse],
    row: Row,
    s: &GapSegment,
    light: bool,
    style: &Style,
) -> Row {
    let values = job.values.len() as u32;
    let kind = match rng.chance(style.fixed_rows, 12) {
        _ if job.weights.is_empty() => rng.within(1, 2),
        true if !light => rng.within(1, 2),
        _ => 0,
    };
    match kind {
        1 => Row { kind, ..row },
        2 => {
            let index = if rng.chance(3, 4) { s.value } else { rng.below(values) };
            Row { kind, index, ..row }
        }
        _ => {
            let mut index = rng.below(job.weights.len() as u32);
            if light {
                for _ in 0..3 {
                    let other = rng.below(job.weights.len() as u32);
                    if job.weights[other as usize] < job.weights[index as usize] {
                        index = other;
                    }
                }
            }
            // As the Rust would set it, earlier, later, or none.
            let first = fixed.partition_point(|f| f.point < row.start) as u32;
            let any = rng.below(fixed.len() as u32 + 1);
            let mut at = rng.pick(&[ABSENT, first, first, any, 0]);
            if at as usize >= fixed.len() {
                at = ABSENT;
            }
            Row { kind, index, fixed: at, ..row }
        }
    }
}

/// A sound call for the lower-cost split point: blocks, after, before, and whether early.
pub fn point_call(rng: &mut Rng) -> (Vec<Block>, u32, u32, bool) {
    let size = if rng.chance(1, 3) { Size::Small } else { Size::Tiny };
    let mut list = blocks(rng, size);
    let last = list.len() - 1;
    list[last].end = list[last].end.min(list[last].first + 50);
    let end = list[last].end;
    let before = if rng.chance(1, 3) { end } else { rng.within(1, end) };
    let after = if rng.chance(1, 3) { 0 } else { rng.below(before) };
    (list, after, before, rng.chance(1, 2))
}
