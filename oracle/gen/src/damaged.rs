//! Accepted jobs damaged, for the refusals: at a limit, one past it, and with two faults at once.

use sheet::{ABSENT, FIXED_DEF, FixedUse, Job, LIVE_OUT, Row, Segment, Use, write_sheet};

use crate::{Rng, Size, accepted};

const MOST_COST: u32 = 1_199_570_944;

/// A damage: its name, and what it does; false where the job has no place for it.
type Damage = (&'static str, fn(&mut Rng, &mut Job) -> bool);

/// An index into a table, or none if it is empty.
fn some<T>(rng: &mut Rng, items: &[T]) -> Option<usize> {
    if items.is_empty() { None } else { Some(rng.below(items.len() as u32) as usize) }
}

/// Changes one item of a table.
macro_rules! one {
    ($rng:ident, $job:ident, $table:ident, $item:ident => $change:expr) => {{
        let Some(i) = some($rng, &$job.$table) else {
            return false;
        };
        let $item = &mut $job.$table[i];
        $change;
        true
    }};
}

/// Changes one item that passes a test.
macro_rules! one_of {
    ($rng:ident, $job:ident, $table:ident, $item:ident if $test:expr => $change:expr) => {{
        let places: Vec<usize> = $job.$table.iter().enumerate().filter(|(_, $item)| $test).map(|(i, _)| i).collect();
        let Some(i) = some($rng, &places) else {
            return false;
        };
        let $item = &mut $job.$table[places[i]];
        $change;
        true
    }};
}

/// Changes one item behind the first, knowing the one before it.
macro_rules! later {
    ($rng:ident, $job:ident, $table:ident, $last:ident $item:ident => $change:expr) => {{
        if $job.$table.len() < 2 {
            return false;
        }
        let i = $rng.within(1, $job.$table.len() as u32 - 1) as usize;
        let $last = $job.$table[i - 1];
        let $item = &mut $job.$table[i];
        $change;
        true
    }};
}

fn always(_: &mut Rng, _: &mut Job) -> bool {
    true
}

/// The segment of a use.
fn segment_of(job: &Job, use_at: usize) -> Segment {
    *job.segments.iter().find(|s| use_at < s.end_use as usize).unwrap()
}

/// The last segment, its last use made to carry it.
fn last_with_use(job: &mut Job, end_of: impl Fn(u32) -> u32) -> bool {
    let last_end = job.last_end();
    let Some(u) = job.uses.last().copied() else {
        return false;
    };
    let s = job.segments.last_mut().unwrap();
    if s.first_use == s.end_use {
        return false;
    }
    s.flags &= !LIVE_OUT;
    s.end = end_of(u.pos);
    s.end > s.start && s.end <= 4 * last_end
}

/// A row with room in front, behind or on all sides, as the sheet has it.
const NEW_ROW: Row = Row { unit: 0, start: 0, end: 1, kind: 1, index: 0, fixed: 0 };

/// Puts a row in front of its unit's others.
fn put_row(job: &mut Job, row: Row) {
    job.rows.retain(|r| r.unit != row.unit);
    let at = job.rows.partition_point(|r| r.unit < row.unit);
    job.rows.insert(at, row);
}

fn put_fixed(job: &mut Job, f: FixedUse) {
    let at = job.fixed.partition_point(|g| (g.unit, g.point) <= (f.unit, f.point));
    job.fixed.insert(at, f);
}

/// In the order of document 01's table.
#[rustfmt::skip]
const DAMAGES: &[Damage] = &[
    ("none", always),
    // 1
    ("k at its limit", |_, j| { j.k = 65_536; true }),
    ("k one past", |_, j| { j.k = 65_537; true }),
    ("k largest", |_, j| { j.k = u32::MAX; true }),
    ("scale 1 at its limit", |_, j| { j.scales[0] = MOST_COST; true }),
    ("scale 2 at its limit", |_, j| { j.scales[1] = MOST_COST; true }),
    ("scale 3 at its limit", |_, j| { j.scales[2] = MOST_COST; true }),
    ("scale 1 one past", |_, j| { j.scales[0] = MOST_COST + 1; true }),
    ("scale 2 one past", |_, j| { j.scales[1] = MOST_COST + 1; true }),
    ("scale 3 one past", |_, j| { j.scales[2] = MOST_COST + 1; true }),
    ("scale minus zero", |_, j| { j.scales[1] = 0x8000_0000; true }),
    // 2
    ("no block", |_, j| { j.blocks.clear(); true }),
    ("no segment", |_, j| { j.segments.clear(); true }),
    ("no segment, no use", |_, j| { j.segments.clear(); j.uses.clear(); true }),
    ("no unit", |_, j| { j.units = 0; true }),
    ("8 units", |_, j| { j.units = 8; true }),
    ("9 units", |_, j| { j.units = 9; true }),
    ("units largest", |_, j| { j.units = u32::MAX; true }),
    // 3
    ("block: hole", |r, j| one!(r, j, blocks, b => b.first += 1)),
    ("block: overlap", |r, j| later!(r, j, blocks, _l b => b.first = b.first.saturating_sub(1))),
    ("block: empty", |r, j| one!(r, j, blocks, b => b.end = b.first)),
    ("block: ends before it starts", |r, j| later!(r, j, blocks, _l b => b.end = b.first.saturating_sub(1))),
    ("blocks end at their limit", |_, j| { j.blocks.last_mut().unwrap().end = 262_144; true }),
    ("blocks end one past", |_, j| { j.blocks.last_mut().unwrap().end = 262_145; true }),
    ("block: end largest", |r, j| one!(r, j, blocks, b => b.end = u32::MAX)),
    ("frequency at its limit", |r, j| one!(r, j, blocks, b => b.freq = 2_139_095_039)),
    ("frequency one past", |r, j| one!(r, j, blocks, b => b.freq = 2_139_095_040)),
    ("frequency minus zero", |r, j| one!(r, j, blocks, b => b.freq = 0x8000_0000)),
    ("frequency not a number", |r, j| one!(r, j, blocks, b => b.freq = 0x7fc0_0000)),
    // 4
    ("code 3", |r, j| one!(r, j, values, v => *v = 3)),
    ("code 4", |r, j| one!(r, j, values, v => *v = 4)),
    ("code largest", |r, j| one!(r, j, values, v => *v = u32::MAX)),
    ("no value", |_, j| { j.values.clear(); true }),
    // 5
    ("segment: start is end", |r, j| one!(r, j, segments, s => s.start = s.end)),
    ("segment: start above end", |r, j| one!(r, j, segments, s => s.start = s.end.saturating_add(1))),
    ("segment: one point long", |r, j| one_of!(r, j, segments, s if s.end % 4 > 0 => s.start = s.end - 1)),
    ("segment: start slot 3", |r, j| one!(r, j, segments, s => s.start |= 3)),
    ("segment: end slot 3", |r, j| one!(r, j, segments, s => s.end |= 3)),
    ("segment: end at the blocks' end", |_, j| { j.segments.last_mut().unwrap().end = 4 * j.last_end(); true }),
    ("segment: end one past the blocks", |_, j| { j.segments.last_mut().unwrap().end = 4 * j.last_end() + 1; true }),
    ("segment: end largest", |r, j| one!(r, j, segments, s => s.end = u32::MAX - 3)),
    ("segment: start at the previous end", |r, j| later!(r, j, segments, l s => s.start = l.end)),
    ("segment: start before the previous end", |r, j| later!(r, j, segments, l s => s.start = l.end.wrapping_sub(1))),
    ("segment: last value", |r, j| { let n = j.values.len() as u32; one!(r, j, segments, s => s.value = n - 1) }),
    ("segment: unknown value", |r, j| { let n = j.values.len() as u32; one!(r, j, segments, s => s.value = n) }),
    ("segment: value largest", |r, j| one!(r, j, segments, s => s.value = u32::MAX)),
    ("segment: flags 7", |r, j| one!(r, j, segments, s => s.flags = 7)),
    ("segment: flags 15", |r, j| one!(r, j, segments, s => s.flags = 15)),
    ("segment: flags 15, sound", |r, j| {
        one_of!(r, j, segments, s if s.flags & (FIXED_DEF | LIVE_OUT) == FIXED_DEF | LIVE_OUT => s.flags = 15)
    }),
    ("segment: flags 16", |r, j| one!(r, j, segments, s => s.flags += 16)),
    ("segment: list starts late", |r, j| one!(r, j, segments, s => s.first_use = s.first_use.wrapping_add(1))),
    ("segment: list starts early", |r, j| later!(r, j, segments, _l s => s.first_use = s.first_use.wrapping_sub(1))),
    ("segment: list ends before it starts", |r, j| {
        one_of!(r, j, segments, s if s.first_use > 0 => s.end_use = s.first_use - 1)
    }),
    ("segment: list past the uses", |_, j| { let s = j.segments.last_mut().unwrap(); s.end_use = s.end_use.wrapping_add(1); true }),
    ("segment: list end largest", |r, j| one!(r, j, segments, s => s.end_use = u32::MAX)),
    ("segment: list short of the uses", |_, j| {
        let s = j.segments.last_mut().unwrap();
        if s.first_use >= s.end_use {
            return false;
        }
        s.end_use -= 1;
        true
    }),
    ("a use too many", |_, j| { j.uses.push(Use { pos: 0, kind: 8, cost: 0 }); true }),
    // 6
    ("fixed def: no Boundary", |r, j| one_of!(r, j, segments, s if s.flags & FIXED_DEF != 0 => s.start += 1)),
    ("fixed def: instruction 0", |_, j| {
        let s = &mut j.segments[0];
        (s.start, s.flags) = (0, s.flags | FIXED_DEF);
        true
    }),
    ("fixed def: instruction 0, position wraps", |_, j| {
        let s = &mut j.segments[0];
        (s.start, s.flags) = (0, s.flags | FIXED_DEF);
        let first = s.first_use < s.end_use;
        if first {
            j.uses[0] = Use { pos: u32::MAX, kind: 0, cost: 0 };
        }
        first
    }),
    ("fixed def: no use", |r, j| {
        one_of!(r, j, segments, s if s.first_use == s.end_use && s.start % 4 == 0 && s.start > 0
            => s.flags |= FIXED_DEF)
    }),
    ("fixed def: flag set", |r, j| {
        one_of!(r, j, segments, s if s.first_use < s.end_use && s.start % 4 == 0 && s.start > 0
            => s.flags |= FIXED_DEF)
    }),
    ("fixed def: kind 1", |r, j| first_use(r, j, |u| u.kind = 1)),
    ("fixed def: kind 99", |r, j| first_use(r, j, |u| u.kind = 99)),
    ("fixed def: an instruction later", |r, j| first_use(r, j, |u| u.pos = u.pos.wrapping_add(1))),
    ("fixed def: an instruction earlier", |r, j| first_use(r, j, |u| u.pos = u.pos.wrapping_sub(1))),
    ("fixed def: position largest", |r, j| first_use(r, j, |u| u.pos = u32::MAX)),
    ("fixed def: cost 2", |r, j| first_use(r, j, |u| u.cost = 2)),
    // 7
    ("use: kind 9", |r, j| one!(r, j, uses, u => (u.kind, u.cost) = (9, 0))),
    ("use: kind 10", |r, j| one!(r, j, uses, u => (u.kind, u.cost) = (10, 0))),
    ("use: kind largest", |r, j| one!(r, j, uses, u => u.kind = u32::MAX)),
    ("use: memory field 1", |r, j| one_of!(r, j, uses, u if u.kind < 2 => u.cost = 1)),
    ("use: memory field 2", |r, j| one_of!(r, j, uses, u if u.kind < 2 => u.cost = 2)),
    ("use: class cost at its limit", |r, j| one_of!(r, j, uses, u if (4..8).contains(&u.kind) => u.cost = MOST_COST)),
    ("use: class cost one past", |r, j| one_of!(r, j, uses, u if (4..8).contains(&u.kind) => u.cost = MOST_COST + 1)),
    ("use: cost where none is", |r, j| one_of!(r, j, uses, u if ![0, 1, 4, 5, 6, 7].contains(&u.kind) => u.cost = 1)),
    ("use: class cost with kind 2", |r, j| one_of!(r, j, uses, u if u.kind > 1 => (u.kind, u.cost) = (2, 1))),
    ("use: falls", |r, j| within_list(r, j, |last, u| u.pos = last.pos.wrapping_sub(1))),
    ("use: stays", |r, j| within_list(r, j, |last, u| u.pos = last.pos)),
    ("use: at the blocks' end", |r, j| { let n = j.last_end(); one!(r, j, uses, u => u.pos = n) }),
    ("use: at the blocks' last instruction", |_, j| {
        let n = j.last_end();
        let Some(u) = j.uses.last_mut() else {
            return false;
        };
        u.pos = n - 1;
        true
    }),
    ("use: at the blocks' end, inside its segment", |_, j| {
        let n = j.last_end();
        let s = j.segments.last_mut().unwrap();
        if s.first_use == s.end_use {
            return false;
        }
        (s.end, s.flags) = (4 * n, s.flags & !LIVE_OUT);
        j.uses.last_mut().unwrap().pos = n;
        true
    }),
    ("use: before its segment", |r, j| on_segment(r, j, |s, u| u.pos = (s.start / 4).wrapping_sub(1))),
    ("use: at its segment's start", |r, j| on_segment(r, j, |s, u| u.pos = s.start / 4)),
    ("use: at its segment's end", |r, j| on_segment(r, j, |s, u| u.pos = s.end / 4)),
    ("use: behind its segment", |r, j| on_segment(r, j, |s, u| u.pos = s.end / 4 + 1)),
    ("use: position largest", |r, j| one!(r, j, uses, u => u.pos = u32::MAX)),
    // 8
    ("live-out: no Boundary", |r, j| one_of!(r, j, segments, s if s.end % 4 != 0 => s.flags |= LIVE_OUT)),
    ("live-out: flag set", |r, j| one!(r, j, segments, s => s.flags |= LIVE_OUT)),
    ("live-out: use at the end", |r, j| {
        let places: Vec<usize> = (0..j.uses.len())
            .filter(|i| segment_of(j, *i).end == 4 * j.uses[*i].pos)
            .collect();
        let Some(i) = some(r, &places) else {
            return false;
        };
        let s = j.segments.iter_mut().find(|s| places[i] < s.end_use as usize).unwrap();
        s.flags |= LIVE_OUT;
        true
    }),
    ("last segment: not live-out", |_, j| { j.segments.last_mut().unwrap().flags &= !LIVE_OUT; true }),
    ("last segment: ends behind its last use", |_, j| last_with_use(j, |p| 4 * p + 4)),
    ("last segment: ends one later", |_, j| last_with_use(j, |p| 4 * p + 5)),
    ("last segment: without a use", |_, j| {
        let uses = j.uses.len() as u32;
        let last = *j.segments.last().unwrap();
        let s = Segment { start: last.end, end: 4 * j.last_end(), first_use: uses, end_use: uses, flags: 0, ..last };
        j.segments.push(s);
        true
    }),
    ("last segment: without a use, live-out", |_, j| {
        let uses = j.uses.len() as u32;
        let last = *j.segments.last().unwrap();
        let end = 4 * j.last_end();
        let s = Segment { start: last.end, end, first_use: uses, end_use: uses, flags: LIVE_OUT, ..last };
        j.segments.push(s);
        true
    }),
    // 9
    ("weight at its limit", |r, j| one!(r, j, weights, w => *w = 2_139_095_040)),
    ("weight one past", |r, j| one!(r, j, weights, w => *w = 2_139_095_041)),
    ("weight minus zero", |r, j| one!(r, j, weights, w => *w = 0x8000_0000)),
    // 10
    ("row: last unit", |_, j| { put_row(j, Row { unit: j.units - 1, ..NEW_ROW }); true }),
    ("row: unknown unit", |_, j| { put_row(j, Row { unit: j.units, ..NEW_ROW }); true }),
    ("row: unit largest", |_, j| { put_row(j, Row { unit: u32::MAX, ..NEW_ROW }); true }),
    ("row: unit falls", |r, j| later!(r, j, rows, l e => e.unit = l.unit.wrapping_sub(1))),
    ("row: unit falls, still known", |_, j| {
        (j.units, j.rows) = (8, vec![Row { unit: 7, ..NEW_ROW }, Row { unit: 6, ..NEW_ROW }]);
        true
    }),
    ("row: start at the previous end", |_, j| { j.rows = vec![NEW_ROW, Row { start: 1, end: 2, ..NEW_ROW }]; true }),
    ("row: start before the previous end", |_, j| {
        j.rows = vec![Row { end: 2, ..NEW_ROW }, Row { start: 1, end: 4, ..NEW_ROW }];
        true
    }),
    ("row: empty", |r, j| one!(r, j, rows, e => e.end = e.start)),
    ("row: ends before it starts", |r, j| one_of!(r, j, rows, e if e.start % 4 > 0 => e.end = e.start - 1)),
    ("row: one point long", |r, j| one_of!(r, j, rows, e if e.end % 4 > 0 => e.start = e.end - 1)),
    ("row: start slot 3", |r, j| one!(r, j, rows, e => e.start |= 3)),
    ("row: start slot 3 alone", |_, j| { put_row(j, Row { start: 3, end: 4, ..NEW_ROW }); true }),
    ("row: end slot 3", |r, j| one!(r, j, rows, e => e.end |= 3)),
    ("row: end slot 3 alone", |_, j| { put_row(j, Row { end: 3, ..NEW_ROW }); true }),
    ("row: at the blocks' end", |_, j| { put_row(j, Row { end: 4 * j.last_end(), ..NEW_ROW }); true }),
    ("row: one past the blocks", |_, j| { put_row(j, Row { end: 4 * j.last_end() + 1, ..NEW_ROW }); true }),
    ("row: end largest", |r, j| one!(r, j, rows, e => e.end = u32::MAX - 3)),
    ("row: kind 3", |r, j| one!(r, j, rows, e => (e.kind, e.index, e.fixed) = (3, 0, 0))),
    ("row: kind largest", |r, j| one!(r, j, rows, e => e.kind = u32::MAX)),
    ("row: last weight", |_, j| {
        let n = j.weights.len() as u32;
        put_row(j, Row { kind: 0, index: n.max(1) - 1, fixed: ABSENT, ..NEW_ROW });
        n > 0
    }),
    ("row: unknown weight", |_, j| {
        let index = j.weights.len() as u32;
        put_row(j, Row { kind: 0, index, fixed: ABSENT, ..NEW_ROW });
        true
    }),
    ("row: weight largest", |_, j| { put_row(j, Row { kind: 0, index: ABSENT, fixed: ABSENT, ..NEW_ROW }); true }),
    ("row: last fixed row", |_, j| {
        put_fixed(j, FixedUse { unit: 0, point: 0, value: 0 });
        let n = j.fixed.iter().filter(|f| f.unit == 0).count() as u32;
        put_row(j, Row { kind: 0, fixed: n - 1, ..NEW_ROW });
        !j.weights.is_empty()
    }),
    ("row: unknown fixed row", |_, j| {
        let n = j.fixed.iter().filter(|f| f.unit == 0).count() as u32;
        put_row(j, Row { kind: 0, fixed: n, ..NEW_ROW });
        !j.weights.is_empty()
    }),
    ("row: fixed row of another unit", |_, j| {
        (j.units, j.fixed) = (2, vec![FixedUse { unit: 1, point: 0, value: 0 }]);
        put_row(j, Row { kind: 0, fixed: 0, ..NEW_ROW });
        !j.weights.is_empty()
    }),
    ("row: fixed row almost absent", |_, j| {
        put_row(j, Row { kind: 0, fixed: ABSENT - 1, ..NEW_ROW });
        !j.weights.is_empty()
    }),
    ("row: fixed row counted from unsorted fixed uses", |_, j| {
        let f = |unit| FixedUse { unit, point: 0, value: 0 };
        (j.units, j.fixed) = (2, vec![f(0), f(1), f(0)]);
        put_row(j, Row { kind: 0, fixed: 1, ..NEW_ROW });
        !j.weights.is_empty()
    }),
    ("row: kind 1 with an index", |_, j| { put_row(j, Row { index: 1, ..NEW_ROW }); true }),
    ("row: kind 1 with a fixed row", |_, j| { put_row(j, Row { fixed: 1, ..NEW_ROW }); true }),
    ("row: kind 1 without a fixed row", |_, j| { put_row(j, Row { fixed: ABSENT, ..NEW_ROW }); true }),
    ("row: kind 2, last value", |_, j| {
        let n = j.values.len() as u32;
        put_row(j, Row { kind: 2, index: n.max(1) - 1, ..NEW_ROW });
        true
    }),
    ("row: kind 2, unknown value", |_, j| {
        let index = j.values.len() as u32;
        put_row(j, Row { kind: 2, index, ..NEW_ROW });
        true
    }),
    ("row: kind 2 with a fixed row", |_, j| { put_row(j, Row { kind: 2, fixed: 1, ..NEW_ROW }); true }),
    // 11
    ("fixed use: last unit", |_, j| { put_fixed(j, FixedUse { unit: j.units - 1, point: 0, value: 0 }); true }),
    ("fixed use: unknown unit", |_, j| { put_fixed(j, FixedUse { unit: j.units, point: 0, value: 0 }); true }),
    ("fixed use: unit largest", |_, j| { put_fixed(j, FixedUse { unit: u32::MAX, point: 0, value: 0 }); true }),
    ("fixed use: unit falls", |_, j| {
        let f = |unit| FixedUse { unit, point: 0, value: 0 };
        (j.units, j.fixed) = (2, vec![f(1), f(0)]);
        j.rows.clear();
        true
    }),
    ("fixed use: slot 1", |r, j| one!(r, j, fixed, f => f.point = f.point.wrapping_add(1))),
    ("fixed use: slot 2", |r, j| one!(r, j, fixed, f => f.point = f.point.wrapping_add(2))),
    ("fixed use: last instruction", |_, j| {
        let point = 4 * (j.last_end() - 1);
        put_fixed(j, FixedUse { unit: 0, point, value: 0 });
        true
    }),
    ("fixed use: at the blocks' end", |_, j| {
        let point = 4 * j.last_end();
        put_fixed(j, FixedUse { unit: 0, point, value: 0 });
        true
    }),
    ("fixed use: point falls", |r, j| later!(r, j, fixed, l f => (f.unit, f.point) = (l.unit, l.point.wrapping_sub(4)))),
    ("fixed use: point stays", |r, j| later!(r, j, fixed, l f => (f.unit, f.point) = (l.unit, l.point))),
    ("fixed use: last value", |_, j| {
        let value = (j.values.len() as u32).max(1) - 1;
        put_fixed(j, FixedUse { unit: 0, point: 0, value });
        true
    }),
    ("fixed use: unknown value", |_, j| {
        let value = j.values.len() as u32;
        put_fixed(j, FixedUse { unit: 0, point: 0, value });
        true
    }),
];

/// Changes the first use of a segment with a fixed def.
fn first_use(rng: &mut Rng, job: &mut Job, change: impl Fn(&mut Use)) -> bool {
    let places: Vec<usize> =
        (job.segments.iter()).filter(|s| s.flags & FIXED_DEF != 0).map(|s| s.first_use as usize).collect();
    let Some(i) = some(rng, &places) else {
        return false;
    };
    change(&mut job.uses[places[i]]);
    true
}

/// Changes a use that isn't its list's first, knowing the one before it.
fn within_list(rng: &mut Rng, job: &mut Job, change: impl Fn(Use, &mut Use)) -> bool {
    let places: Vec<usize> = (1..job.uses.len()).filter(|i| segment_of(job, *i).first_use as usize != *i).collect();
    let Some(i) = some(rng, &places) else {
        return false;
    };
    let last = job.uses[places[i] - 1];
    change(last, &mut job.uses[places[i]]);
    true
}

/// Changes a list's only or last use, knowing its segment.
fn on_segment(rng: &mut Rng, job: &mut Job, change: impl Fn(&Segment, &mut Use)) -> bool {
    let Some(i) = some(rng, &job.uses) else {
        return false;
    };
    let s = segment_of(job, i);
    change(&s, &mut job.uses[i]);
    true
}

/// How many kinds of damage there are.
pub fn damages() -> usize {
    DAMAGES.len()
}

/// The number of a damage by its name.
pub fn damage_named(name: &str) -> usize {
    DAMAGES.iter().position(|damage| damage.0 == name).unwrap()
}

/// A small job with one damage, by its number, and the damage's name.
pub fn damaged(rng: &mut Rng, damage: usize) -> Option<(&'static str, Job)> {
    let size = if rng.chance(1, 3) { Size::Small } else { Size::Tiny };
    let mut job = accepted(rng, size);
    let (name, change) = DAMAGES[damage];
    change(rng, &mut job).then_some((name, job))
}

/// A small job with one to three damages, those of the later tables made first.
pub fn damaged_often(rng: &mut Rng) -> Job {
    let size = if rng.chance(1, 3) { Size::Small } else { Size::Tiny };
    let mut job = accepted(rng, size);
    let mut chosen: Vec<u32> = (0..rng.within(1, 3)).map(|_| rng.below(DAMAGES.len() as u32)).collect();
    chosen.sort_unstable();
    for at in chosen.iter().rev() {
        DAMAGES[*at as usize].1(rng, &mut job);
    }
    job
}

/// A sheet's text damaged, or filled to its limits.
pub fn damaged_text(rng: &mut Rng) -> (&'static str, Vec<u8>) {
    let job = accepted(rng, Size::Tiny);
    let text = write_sheet(&job);
    let mut lines: Vec<String> = text.lines().map(str::to_string).collect();
    let at = rng.below(lines.len() as u32) as usize;
    let (name, damage) = TEXT_DAMAGES[rng.below(TEXT_DAMAGES.len() as u32) as usize];
    damage(rng, &mut lines, at);
    let mut text = lines.join("\n").into_bytes();
    if !name.starts_with("no line feed") && !lines.is_empty() {
        text.push(b'\n');
    }
    (name, text)
}

type TextDamage = (&'static str, fn(&mut Rng, &mut Vec<String>, usize));

/// Replaces a field of a line, counted modulo its fields, by 11 characters.
fn put_field(line: &mut String, field: u32, text: &str) {
    let fields = (line.len() - 1) / 11;
    let from = 1 + 11 * (field as usize % fields);
    line.replace_range(from..from + 11, &format!("{text:>11}"));
}

/// Adds lines of a kind until there are `n`.
fn fill(lines: &mut Vec<String>, letter: char, n: usize) {
    let order = "PBVSUWEF";
    let rank = |line: &str| order.find(line.chars().next().unwrap());
    let have = lines.iter().filter(|l| l.starts_with(letter)).count();
    let fields = match letter {
        'S' | 'E' => 6,
        'V' | 'W' => 1,
        _ => 3,
    };
    let new = format!("{letter}{}", format!("{:>11}", 0).repeat(fields));
    let at = lines.iter().take_while(|l| rank(l) <= order.find(letter)).count();
    for _ in have..n {
        lines.insert(at, new.clone());
    }
}

#[rustfmt::skip]
const TEXT_DAMAGES: &[TextDamage] = &[
    ("sound", |_, _, _| {}),
    ("empty", |_, l, _| l.clear()),
    ("no P", |_, l, _| { l.remove(0); }),
    ("two P", |_, l, at| { let p = l[0].clone(); l.insert(at + 1, p); }),
    ("P alone", |_, l, _| l.truncate(1)),
    ("a line gone", |_, l, at| { l.remove(at); }),
    ("E before W", |_, l, _| { fill(l, 'W', 1); let w = l.iter().position(|x| x.starts_with('W')).unwrap();
        let line = l.remove(w); l.push(format!("E{}", format!("{:>11}", 0).repeat(6))); l.push(line) }),
    ("two lines exchanged", |r, l, at| { let b = r.below(l.len() as u32) as usize; l.swap(at, b); }),
    ("unknown letter", |r, l, at| {
        let letter = r.pick(&["G", "A", "Q", "b", "u", " ", "0", "\0"]);
        l[at].replace_range(0..1, letter)
    }),
    ("lower-case letter", |_, l, at| { let letter = l[at][..1].to_lowercase(); l[at].replace_range(0..1, &letter) }),
    ("leading zero", |r, l, at| { let f = r.below(6); put_field(&mut l[at], f, "07") }),
    ("two zeros", |r, l, at| { let f = r.below(6); put_field(&mut l[at], f, "00") }),
    ("zero", |r, l, at| { let f = r.below(6); put_field(&mut l[at], f, "0") }),
    ("largest number", |r, l, at| { let f = r.below(6); put_field(&mut l[at], f, "4294967295") }),
    ("number one too large", |r, l, at| { let f = r.below(6); put_field(&mut l[at], f, "4294967296") }),
    ("eleven digits", |r, l, at| { let f = r.below(6); put_field(&mut l[at], f, "10000000000") }),
    ("wraps to 0 in 64 bits", |r, l, at| { let f = r.below(6); put_field(&mut l[at], f, "99999999999") }),
    ("plus sign", |r, l, at| { let f = r.below(6); put_field(&mut l[at], f, "+1") }),
    ("minus sign", |r, l, at| { let f = r.below(6); put_field(&mut l[at], f, "-1") }),
    ("absent sign", |r, l, at| { let f = r.below(6); put_field(&mut l[at], f, "-") }),
    ("no digit", |r, l, at| { let f = r.below(6); put_field(&mut l[at], f, "") }),
    ("left-justified", |r, l, at| { let f = r.below(6); put_field(&mut l[at], f, "1          ") }),
    ("space within", |r, l, at| { let f = r.below(6); put_field(&mut l[at], f, "1 1") }),
    ("tab", |r, l, at| { let f = r.below(6); put_field(&mut l[at], f, "\t1") }),
    ("letter within", |r, l, at| { let f = r.below(6); put_field(&mut l[at], f, "1a") }),
    ("hexadecimal", |r, l, at| { let f = r.below(6); put_field(&mut l[at], f, "0x1") }),
    ("a column too narrow", |_, l, at| { l[at].remove(1); }),
    ("a column too wide", |_, l, at| l[at].insert(1, ' ')),
    ("trailing space", |_, l, at| l[at].push(' ')),
    ("carriage return", |_, l, at| l[at].push('\r')),
    ("a field too many", |_, l, at| l[at] += "          0"),
    ("a field too few", |_, l, at| { let n = l[at].len() - 11; l[at].truncate(n) }),
    ("letter alone", |_, l, at| l[at].truncate(1)),
    ("empty line", |_, l, at| l.insert(at + 1, String::new())),
    ("empty line first", |_, l, _| l.insert(0, String::new())),
    ("no line feed at the end", |_, _, _| {}),
    ("no line feed at the end, one line", |_, l, _| l.truncate(1)),
    ("128 B", |_, l, _| fill(l, 'B', 128)),
    ("129 B", |_, l, _| fill(l, 'B', 129)),
    ("128 V", |_, l, _| fill(l, 'V', 128)),
    ("129 V", |_, l, _| fill(l, 'V', 129)),
    ("128 S", |_, l, _| fill(l, 'S', 128)),
    ("129 S", |_, l, _| fill(l, 'S', 129)),
    ("256 U", |_, l, _| fill(l, 'U', 256)),
    ("257 U", |_, l, _| fill(l, 'U', 257)),
    ("128 W", |_, l, _| fill(l, 'W', 128)),
    ("129 W", |_, l, _| fill(l, 'W', 129)),
    ("256 E", |_, l, _| fill(l, 'E', 256)),
    ("257 E", |_, l, _| fill(l, 'E', 257)),
    ("128 F", |_, l, _| fill(l, 'F', 128)),
    ("129 F", |_, l, _| fill(l, 'F', 129)),
    ("129 V, then a broken line", |_, l, _| { fill(l, 'V', 129); l.last_mut().unwrap().push(' ') }),
    ("a broken line, then 129 W", |_, l, _| { fill(l, 'W', 129); l[1].push(' ') }),
    ("130 W, the last broken", |_, l, _| {
        fill(l, 'W', 130);
        let at = l.iter().rposition(|x| x.starts_with('W')).unwrap();
        l[at].push(' ')
    }),
    ("129 W, the last broken", |_, l, _| {
        fill(l, 'W', 129);
        let at = l.iter().rposition(|x| x.starts_with('W')).unwrap();
        l[at].push(' ')
    }),
    ("no line feed at the end, 129 W", |_, l, _| { l.retain(|x| !"EF".contains(&x[..1])); fill(l, 'W', 129) }),
    ("k one past", |_, l, _| put_field(&mut l[0], 0, "65537")),
];

/// How many kinds of damaged text there are.
pub fn text_damages() -> usize {
    TEXT_DAMAGES.len()
}
