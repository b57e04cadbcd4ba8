//! Jobs whose seven tables all have the same number of rows, up to the 4,096 that are the limit.

use sheet::{ABSENT, Block, FixedUse, Job, LIVE_OUT, Row, Segment, Use};

use crate::Rng;

const ONE: u32 = 0x3f80_0000;

/// Each table at its limit.
pub fn limit(rng: &mut Rng) -> Job {
    even(rng, 4096)
}

/// A segment and a use in every block, and for each unit in turn a reservation and a fixed use; `rows`, a multiple of 8, of each.
pub fn even(rng: &mut Rng, rows: u32) -> Job {
    let units = rng.pick(&[1, 1, 2, 4, 8]);
    let scales = [ONE, ONE, rng.pick(&[ONE, 0])];
    let mut job = Job { k: rng.pick(&[0, 1, 10]), scales, units, ..Job::default() };
    let longest = rng.pick(&[1, 2, 5, 64]);
    // Of so many fixed things one is against the region.
    let strange = rng.pick(&[0, 4000, 300]);
    let mut end = 0;
    for _ in 0..rows {
        let first = end;
        end += rng.within(1, longest);
        job.blocks.push(Block { freq: ONE + (rng.below(8) << 20), first, end });
    }
    job.values = (0..rows).map(|_| rng.pick(&[0, 0, 0, 1, 2, 3])).collect();
    job.weights = (0..rows).map(|_| (rng.below(1000) as f32 / 1e7).to_bits()).collect();
    for i in 0..rows {
        let b = job.blocks[i as usize];
        let (start, end) = (4 * b.first, 4 * b.end);
        job.segments.push(Segment { start, end, value: i, first_use: i, end_use: i + 1, flags: LIVE_OUT });
        job.uses.push(Use { pos: rng.within(b.first, b.end - 1), kind: rng.pick(&[4, 5, 6, 8]), cost: 0 });
    }
    for u in job.uses.iter_mut().filter(|u| u.kind != 8) {
        u.cost = ONE + rng.below(1 << 22);
    }
    for i in 0..rows {
        // A unit's rows stand in every so many blocks.
        let (unit, at) = (i / (rows / units), i % (rows / units) * units);
        let b = job.blocks[at as usize];
        let fixed_row = |rng: &mut Rng| if rng.chance(1, 3) { ABSENT } else { i % (rows / units) };
        let against = strange > 0 && rng.chance(1, strange);
        let row = Row { unit, start: 4 * b.first, end: 4 * b.end - 2, kind: 0, index: rng.below(rows), fixed: 0 };
        job.rows.push(match rng.below(8) {
            0 => Row { kind: 2, index: if against { rng.below(rows) } else { at }, ..row },
            _ if against => Row { kind: 1, index: 0, ..row },
            _ => Row { fixed: fixed_row(rng), ..row },
        });
        let value = if strange > 0 && rng.chance(1, strange) { rng.below(rows) } else { at };
        job.fixed.push(FixedUse { unit, point: 4 * rng.within(b.first, b.end - 1), value });
    }
    job
}

#[cfg(test)]
mod tests {
    use super::*;

    #[test]
    fn every_table_is_full_and_none_is_refused() {
        for item in 0..20 {
            let job = limit(&mut Rng::of(1, item));
            assert_eq!(job.sizes(), [4096; 7]);
            assert_eq!(model::refusal(&job), None, "item {item}");
            assert_eq!(model::refusal(&even(&mut Rng::of(1, item), 8)), None, "item {item}");
        }
    }
}
