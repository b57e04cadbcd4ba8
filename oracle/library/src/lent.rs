//! Work tables lent with a pattern in every row, so that a row that is written where none should be is seen.

use gelduvra::WorkTables;
use sheet::{Gap, GapSegment, Job, Link, Tables, UseRow};

/// Rows of the use table, the gaps, the gap segments, the links.
pub type Rooms = [usize; 4];

/// The rows that refusal 12 asks for.
pub fn rooms_of(job: &Job) -> Rooms {
    let (u, b, s) = (job.uses.len(), job.blocks.len(), job.segments.len());
    [u + 2, u + b + 2, u + b + s + 2, b]
}

const PATTERN: u32 = 0xdead_beef;

/// The columns of the four tables: uses, gaps, gap segments, links.
pub struct Lent {
    inst: Vec<u32>,
    weights: [Vec<f32>; 3],
    gaps: [Vec<u32>; 4],
    gap_weights: [Vec<f32>; 2],
    segments: [Vec<u32>; 4],
    links: [Vec<u32>; 2],
}

impl Lent {
    pub fn new() -> Self {
        Self {
            inst: vec![],
            weights: Default::default(),
            gaps: Default::default(),
            gap_weights: Default::default(),
            segments: Default::default(),
            links: Default::default(),
        }
    }

    /// So many rows, all with the pattern.
    pub fn fill(&mut self, rooms: Rooms) {
        let [uses, gaps, segments, links] = rooms;
        refill(std::slice::from_mut(&mut self.inst), uses, PATTERN);
        refill(&mut self.weights, uses, f32::from_bits(PATTERN));
        refill(&mut self.gaps, gaps, PATTERN);
        refill(&mut self.gap_weights, gaps, f32::from_bits(PATTERN));
        refill(&mut self.segments, segments, PATTERN);
        refill(&mut self.links, links, PATTERN);
    }

    pub fn lend(&mut self) -> WorkTables<'_> {
        self.lend_links(self.links[0].len())
    }

    /// All tables, of the links so many rows alone.
    pub fn lend_links(&mut self, links: usize) -> WorkTables<'_> {
        let [prev_lower_freq, next_lower_freq] = self.links.each_mut().map(|column| &mut column[..links]);
        let [weight, left_weight, right_weight] = &mut self.weights;
        let [gap_from, gap_to, live, gap_block] = &mut self.gaps;
        let [gap_weight, min_freq] = &mut self.gap_weights;
        let [segment_from, segment_to, segment_value, segment_gap] = &mut self.segments;
        WorkTables {
            prev_lower_freq,
            next_lower_freq,
            inst: &mut self.inst,
            weight,
            left_weight,
            right_weight,
            gap_from,
            gap_to,
            gap_weight,
            live,
            min_freq,
            gap_block,
            segment_from,
            segment_to,
            segment_value,
            segment_gap,
        }
    }

    /// The first difference from the tables that `by` tells, every later row being the pattern; nothing if there is none.
    pub fn differs(&self, told: &Tables, by: &str) -> Option<String> {
        let links = |i| [self.links[0][i], self.links[1][i]];
        first_of("links", self.links[0].len(), &told.links, links, |l: &Link| [l.prev, l.next], by)
            .or_else(|| {
                let row = |i: usize| {
                    let [main, left, right] = [0, 1, 2].map(|c: usize| self.weights[c][i].to_bits());
                    [self.inst[i], main, left, right]
                };
                let told_row = |u: &UseRow| [u.inst, u.main, u.left, u.right];
                first_of("the use table", self.inst.len(), &told.uses, row, told_row, by)
            })
            .or_else(|| {
                let row = |i: usize| {
                    let [weight, freq] = [0, 1].map(|c: usize| self.gap_weights[c][i].to_bits());
                    [self.gaps[0][i], self.gaps[1][i], weight, self.gaps[2][i], freq, self.gaps[3][i]]
                };
                let told_row = |g: &Gap| [g.from, g.to, g.weight, g.live_insts, g.freq, g.block];
                first_of("gaps", self.gaps[0].len(), &told.gaps, row, told_row, by)
            })
            .or_else(|| {
                let row = |i: usize| [0, 1, 2, 3].map(|c: usize| self.segments[c][i]);
                let told_row = |o: &GapSegment| [o.from, o.to, o.value, o.gap];
                first_of("gap segments", self.segments[0].len(), &told.gap_segments, row, told_row, by)
            })
    }
}

impl Default for Lent {
    fn default() -> Self {
        Self::new()
    }
}

fn refill<T: Copy>(columns: &mut [Vec<T>], rows: usize, pattern: T) {
    for column in columns {
        column.clear();
        column.resize(rows, pattern);
    }
}

/// The first row of a table that is not the one told, or not the pattern behind those.
fn first_of<T, const N: usize>(
    table: &str,
    rows: usize,
    told: &[T],
    row: impl Fn(usize) -> [u32; N],
    told_row: impl Fn(&T) -> [u32; N],
    by: &str,
) -> Option<String> {
    for i in 0..rows {
        let found = row(i);
        let (expected, by) = match told.get(i) {
            Some(told) => (told_row(told), by),
            None => ([PATTERN; N], "as it was"),
        };
        if found != expected {
            return Some(format!("{table}, row {i}: the library {found:?}, {by} {expected:?}"));
        }
    }
    (told.len() > rows).then(|| format!("{table}: {} rows told, {rows} lent", told.len()))
}
