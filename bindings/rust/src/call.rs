//! The calls into the static library: slices passed on as pointer and length. The one module with unsafe code.

use crate::job::{Blocks, Job};
use crate::work::WorkTables;

#[rustfmt::skip]
unsafe extern "C" {
    /// Rattle: crates/exports. A column is a pointer and a number of items; frequencies, weights and scales are bits.
    #[link_name = symbol!("gelduvra_propose_split")]
    fn gelduvra_propose_split(
        prev_lower_freq: *mut u32, prev_lower_freq_len: usize,
        next_lower_freq: *mut u32, next_lower_freq_len: usize,
        inst: *mut u32, inst_len: usize,
        weight: *mut f32, weight_len: usize,
        left_weight: *mut f32, left_weight_len: usize,
        right_weight: *mut f32, right_weight_len: usize,
        gap_from: *mut u32, gap_from_len: usize,
        gap_to: *mut u32, gap_to_len: usize,
        gap_weight: *mut f32, gap_weight_len: usize,
        live: *mut u32, live_len: usize,
        min_freq: *mut f32, min_freq_len: usize,
        gap_block: *mut u32, gap_block_len: usize,
        segment_from: *mut u32, segment_from_len: usize,
        segment_to: *mut u32, segment_to_len: usize,
        segment_value: *mut u32, segment_value_len: usize,
        segment_gap: *mut u32, segment_gap_len: usize,
        freq: *const u32, freq_len: usize,
        first: *const u32, first_len: usize,
        end: *const u32, end_len: usize,
        code: *const u32, code_len: usize,
        s_start: *const u32, s_start_len: usize,
        s_end: *const u32, s_end_len: usize,
        s_value: *const u32, s_value_len: usize,
        s_first_use: *const u32, s_first_use_len: usize,
        s_end_use: *const u32, s_end_use_len: usize,
        s_flags: *const u32, s_flags_len: usize,
        position: *const u32, position_len: usize,
        u_kind: *const u32, u_kind_len: usize,
        cost: *const u32, cost_len: usize,
        spill_weight: *const u32, spill_weight_len: usize,
        r_unit: *const u32, r_unit_len: usize,
        r_start: *const u32, r_start_len: usize,
        r_end: *const u32, r_end_len: usize,
        r_kind: *const u32, r_kind_len: usize,
        r_index: *const u32, r_index_len: usize,
        r_fixed: *const u32, r_fixed_len: usize,
        f_unit: *const u32, f_unit_len: usize,
        f_point: *const u32, f_point_len: usize,
        f_value: *const u32, f_value_len: usize,
        k: u32, cheaper_than_move: u32, cheaper_than_load: u32, indirect: u32, units: u32,
        answer: *mut [u64; 10],
    );

    /// The same for the lower-cost split point.
    #[link_name = symbol!("gelduvra_find_optimal_split_point")]
    fn gelduvra_find_optimal_split_point(
        freq: *const u32, freq_len: usize,
        first: *const u32, first_len: usize,
        end: *const u32, end_len: usize,
        after: u32, before: u32, prefer_early: bool,
        answer: *mut [u64; 3],
    );

    /// A normalised weight's bits, from those of a use weight. Numbers alone: nothing is asked of a caller.
    #[link_name = symbol!("gelduvra_normalised_weight")]
    safe fn gelduvra_normalised_weight(use_weight: u32, live_insts: u32, k: u32) -> u32;
}

/// Calls the library for a job, and answers its ten words.
#[rustfmt::skip]
pub(crate) fn propose_split(job: &Job<'_>, work: &mut WorkTables<'_>) -> [u64; 10] {
    let mut answer = [0; 10];
    let parameters = &job.parameters;
    // SAFETY: each column is passed as a slice's pointer and its length in elements, so it can be read, or written, for that whole
    // length during the call. The columns that are written come from exclusive borrows, so none overlaps another or one that is
    // read. An f32 column is read as u32: same size and alignment, and all bits are numbers. All bits that the library writes are
    // f32 or u32. `answer` has the ten words that are written. The library keeps no pointer, calls nothing back and has no requirement
    // on what the columns hold: its contract has none.
    unsafe {
        gelduvra_propose_split(
            work.prev_lower_freq.as_mut_ptr(), work.prev_lower_freq.len(),
            work.next_lower_freq.as_mut_ptr(), work.next_lower_freq.len(),
            work.inst.as_mut_ptr(), work.inst.len(),
            work.weight.as_mut_ptr(), work.weight.len(),
            work.left_weight.as_mut_ptr(), work.left_weight.len(),
            work.right_weight.as_mut_ptr(), work.right_weight.len(),
            work.gap_from.as_mut_ptr(), work.gap_from.len(),
            work.gap_to.as_mut_ptr(), work.gap_to.len(),
            work.gap_weight.as_mut_ptr(), work.gap_weight.len(),
            work.live.as_mut_ptr(), work.live.len(),
            work.min_freq.as_mut_ptr(), work.min_freq.len(),
            work.gap_block.as_mut_ptr(), work.gap_block.len(),
            work.segment_from.as_mut_ptr(), work.segment_from.len(),
            work.segment_to.as_mut_ptr(), work.segment_to.len(),
            work.segment_value.as_mut_ptr(), work.segment_value.len(),
            work.segment_gap.as_mut_ptr(), work.segment_gap.len(),
            job.blocks.freq.as_ptr().cast(), job.blocks.freq.len(),
            job.blocks.first.as_ptr(), job.blocks.first.len(),
            job.blocks.end.as_ptr(), job.blocks.end.len(),
            job.codes.as_ptr(), job.codes.len(),
            job.segments.start.as_ptr(), job.segments.start.len(),
            job.segments.end.as_ptr(), job.segments.end.len(),
            job.segments.value.as_ptr(), job.segments.value.len(),
            job.segments.first_use.as_ptr(), job.segments.first_use.len(),
            job.segments.end_use.as_ptr(), job.segments.end_use.len(),
            job.segments.flags.as_ptr(), job.segments.flags.len(),
            job.uses.position.as_ptr(), job.uses.position.len(),
            job.uses.kind.as_ptr(), job.uses.kind.len(),
            job.uses.cost.as_ptr(), job.uses.cost.len(),
            job.spill_weights.as_ptr().cast(), job.spill_weights.len(),
            job.reservations.unit.as_ptr(), job.reservations.unit.len(),
            job.reservations.start.as_ptr(), job.reservations.start.len(),
            job.reservations.end.as_ptr(), job.reservations.end.len(),
            job.reservations.kind.as_ptr(), job.reservations.kind.len(),
            job.reservations.index.as_ptr(), job.reservations.index.len(),
            job.reservations.fixed.as_ptr(), job.reservations.fixed.len(),
            job.fixed_uses.unit.as_ptr(), job.fixed_uses.unit.len(),
            job.fixed_uses.point.as_ptr(), job.fixed_uses.point.len(),
            job.fixed_uses.value.as_ptr(), job.fixed_uses.value.len(),
            parameters.k,
            parameters.cheaper_than_move.to_bits(), parameters.cheaper_than_load.to_bits(), parameters.indirect.to_bits(),
            parameters.units,
            &mut answer,
        );
    }
    answer
}

/// Calls the library for the lower-cost split point, and answers its three words.
#[rustfmt::skip]
pub(crate) fn find_optimal_split_point(blocks: &Blocks<'_>, after: u32, before: u32, prefer_early: bool) -> [u64; 3] {
    let mut answer = [0; 3];
    // SAFETY: as above; the three columns are only read, and `answer` has the three words that are written.
    unsafe {
        gelduvra_find_optimal_split_point(
            blocks.freq.as_ptr().cast(), blocks.freq.len(),
            blocks.first.as_ptr(), blocks.first.len(),
            blocks.end.as_ptr(), blocks.end.len(),
            after, before, prefer_early,
            &mut answer,
        );
    }
    answer
}

/// Calls the library for a normalised weight.
pub(crate) fn normalised_weight(use_weight: f32, live_insts: u32, k: u32) -> f32 {
    f32::from_bits(gelduvra_normalised_weight(use_weight.to_bits(), live_insts, k))
}
