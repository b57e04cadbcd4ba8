//! A job in columns.

use gelduvra::{Blocks, FixedUses, Job, Parameters, Reservations, Segments, Uses};

/// A job's tables, a vector for each column.
#[derive(Clone, Default)]
pub struct Columns {
    pub parameters: Parameters,
    freq: Vec<f32>,
    blocks: [Vec<u32>; 2],
    codes: Vec<u32>,
    segments: [Vec<u32>; 6],
    uses: [Vec<u32>; 3],
    spill_weights: Vec<f32>,
    reservations: [Vec<u32>; 6],
    fixed_uses: [Vec<u32>; 3],
}

impl Columns {
    pub fn of(job: &sheet::Job) -> Self {
        let mut columns = Self::default();
        columns.put(job);
        columns
    }

    /// Takes another job's rows in place of those that were there.
    pub fn put(&mut self, job: &sheet::Job) {
        let [cheaper_than_move, cheaper_than_load, indirect] = job.scales.map(f32::from_bits);
        self.parameters = Parameters { k: job.k, cheaper_than_move, cheaper_than_load, indirect, units: job.units };
        put_floats(&mut self.freq, job.blocks.iter().map(|b| b.freq));
        put(&mut self.blocks, job.blocks.iter().map(|b| [b.first, b.end]));
        put(std::array::from_mut(&mut self.codes), job.values.iter().map(|v| [*v]));
        let segments = job.segments.iter();
        put(&mut self.segments, segments.map(|s| [s.start, s.end, s.value, s.first_use, s.end_use, s.flags]));
        put(&mut self.uses, job.uses.iter().map(|u| [u.pos, u.kind, u.cost]));
        put_floats(&mut self.spill_weights, job.weights.iter().copied());
        put(&mut self.reservations, job.rows.iter().map(|r| [r.unit, r.start, r.end, r.kind, r.index, r.fixed]));
        put(&mut self.fixed_uses, job.fixed.iter().map(|f| [f.unit, f.point, f.value]));
    }

    pub fn job(&self) -> Job<'_> {
        let [start, end, value, first_use, end_use, flags] = &self.segments;
        let [unit, r_start, r_end, kind, index, fixed] = &self.reservations;
        let [position, u_kind, cost] = &self.uses;
        let [f_unit, point, f_value] = &self.fixed_uses;
        Job {
            parameters: self.parameters,
            blocks: self.blocks(),
            codes: &self.codes,
            segments: Segments { start, end, value, first_use, end_use, flags },
            uses: Uses { position, kind: u_kind, cost },
            spill_weights: &self.spill_weights,
            reservations: Reservations { unit, start: r_start, end: r_end, kind, index, fixed },
            fixed_uses: FixedUses { unit: f_unit, point, value: f_value },
        }
    }

    pub fn blocks(&self) -> Blocks<'_> {
        let [first, end] = &self.blocks;
        Blocks { freq: &self.freq, first, end }
    }
}

fn put<const N: usize>(columns: &mut [Vec<u32>; N], rows: impl Iterator<Item = [u32; N]>) {
    columns.iter_mut().for_each(Vec::clear);
    for row in rows {
        for (column, field) in columns.iter_mut().zip(row) {
            column.push(field);
        }
    }
}

fn put_floats(column: &mut Vec<f32>, bits: impl Iterator<Item = u32>) {
    column.clear();
    column.extend(bits.map(f32::from_bits));
}
