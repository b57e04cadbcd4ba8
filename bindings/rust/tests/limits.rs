//! Jobs whose tables all have 4,096 rows, and one row more.

use gelduvra::{
    ABSENT, Answer, Blocks, Error, FixedUses, Job, MOST_ITEMS, Parameters, Refusal, Reservations, Scratch, Segments,
    Uses, find_optimal_split_point, use_kind,
};

/// A job with a segment, a use, a reservation and a fixed use in each of its one-instruction blocks.
struct Full {
    freq: Vec<f32>,
    rows: Vec<u32>,
    next: Vec<u32>,
    point: Vec<u32>,
    next_point: Vec<u32>,
    zero: Vec<u32>,
    kind: Vec<u32>,
    cost: Vec<u32>,
    absent: Vec<u32>,
    weights: Vec<f32>,
}

impl Full {
    fn of(items: usize) -> Self {
        let rows: Vec<u32> = (0..items as u32).collect();
        Self {
            freq: rows.iter().map(|i| 1.0 + (i % 7) as f32).collect(),
            next: rows.iter().map(|i| i + 1).collect(),
            point: rows.iter().map(|i| 4 * i).collect(),
            next_point: rows.iter().map(|i| 4 * i + 4).collect(),
            zero: vec![0; items],
            kind: vec![use_kind::CLASS_USE; items],
            cost: vec![1.0f32.to_bits(); items],
            absent: vec![ABSENT; items],
            weights: rows.iter().map(|i| *i as f32 / 1e9).collect(),
            rows,
        }
    }

    fn job(&self) -> Job<'_> {
        Job {
            parameters: Parameters { units: 1, ..Parameters::default() },
            blocks: Blocks { freq: &self.freq, first: &self.rows, end: &self.next },
            codes: &self.zero,
            segments: Segments {
                start: &self.point,
                end: &self.next_point,
                value: &self.rows,
                first_use: &self.rows,
                end_use: &self.next,
                flags: &self.zero,
            },
            uses: Uses { position: &self.rows, kind: &self.kind, cost: &self.cost },
            spill_weights: &self.weights,
            reservations: Reservations {
                unit: &self.zero,
                start: &self.point,
                end: &self.next_point,
                kind: &self.zero,
                index: &self.rows,
                fixed: &self.absent,
            },
            fixed_uses: FixedUses { unit: &self.zero, point: &self.point, value: &self.rows },
        }
    }
}

const TOO_MANY: Result<Answer, Error> = Err(Error::Refused(Refusal { number: 2, place: 0 }));

#[test]
fn every_table_at_its_limit() {
    let full = Full::of(MOST_ITEMS);
    let mut scratch = Scratch::new();
    let Ok(Answer::Proposal(p)) = scratch.propose_split(&full.job()) else { panic!("no proposal") };
    // Light weights and no fixed row: all of the live range.
    assert_eq!((p.left, p.right, p.live_insts), (None, None, 4096));
    assert_eq!(p.interference_weight, 4095.0 / 1e9);
    assert_eq!(scratch.uses().inst.len(), 4096);
    assert_eq!(scratch.links().next_lower_freq.len(), 4096);
    assert_eq!(scratch.gap_segments().value, full.rows);
    // The sum of live instructions is that of the segments.
    assert_eq!(scratch.gaps().live.iter().sum::<u32>(), 4096);
}

/// One table at a time, which would be sound but for its number of rows.
#[test]
fn one_row_too_many() {
    let (full, more) = (Full::of(MOST_ITEMS), Full::of(MOST_ITEMS + 1));
    let (job, long) = (full.job(), more.job());
    let mut scratch = Scratch::new();
    for longer in [
        Job { blocks: long.blocks, ..job },
        Job { codes: long.codes, ..job },
        Job { segments: long.segments, ..job },
        Job { uses: long.uses, ..job },
        Job { spill_weights: long.spill_weights, ..job },
        Job { reservations: long.reservations, ..job },
        Job { fixed_uses: long.fixed_uses, ..job },
        long,
    ] {
        assert_eq!(scratch.propose_split(&longer), TOO_MANY);
        assert!(scratch.links().prev_lower_freq.is_empty());
    }
    // And the scratch still serves.
    assert!(scratch.propose_split(&job).is_ok());
}

#[test]
fn other_limits() {
    let full = Full::of(3);
    let job = full.job();
    let mut scratch = Scratch::new();
    let mut with = |parameters| scratch.propose_split(&Job { parameters, ..job }).map(|_| ());
    let refused = |number| Err(Error::Refused(Refusal { number, place: 0 }));
    let sound = job.parameters;
    assert_eq!(with(Parameters { k: 65_536, ..sound }), Ok(()));
    assert_eq!(with(Parameters { k: 65_537, ..sound }), refused(1));
    assert_eq!(with(Parameters { indirect: 65_536.0, ..sound }), Ok(()));
    for scale in [65_536.01, -0.0, f32::NAN, f32::INFINITY] {
        assert_eq!(with(Parameters { cheaper_than_load: scale, ..sound }), refused(1));
    }
    assert_eq!(with(Parameters { units: 8, ..sound }), Ok(()));
    assert_eq!(with(Parameters { units: 9, ..sound }), refused(2));
    assert_eq!(with(Parameters { units: 0, ..sound }), refused(2));
    let weights = [f32::INFINITY; 3];
    assert!(scratch.propose_split(&Job { spill_weights: &weights, ..job }).is_ok());
    let weights = [1.0, 1.0, f32::NAN];
    let refused = Err(Error::Refused(Refusal { number: 9, place: 2 }));
    assert_eq!(scratch.propose_split(&Job { spill_weights: &weights, ..job }), refused);
}

#[test]
fn split_points_at_the_limit() {
    let (full, more) = (Full::of(MOST_ITEMS), Full::of(MOST_ITEMS + 1));
    let found = find_optimal_split_point(&full.job().blocks, 0, 4096, true);
    assert_eq!(found, Ok(7));
    let refused = |number| Err(Error::Refused(Refusal { number, place: 0 }));
    assert_eq!(find_optimal_split_point(&full.job().blocks, 0, 4097, true), refused(13));
    assert_eq!(find_optimal_split_point(&full.job().blocks, 4095, 4095, true), refused(13));
    assert_eq!(find_optimal_split_point(&more.job().blocks, 0, 4096, true), refused(2));
}
