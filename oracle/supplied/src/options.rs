//! The options that the supplied files read.

pub struct Options {
    pub spill_weight_adjust: u32,
    pub direct_remat_cheaper_than_move_cost_scale: f32,
    pub direct_remat_cheaper_than_load_cost_scale: f32,
    pub indirect_remat_cost_scale: f32,
    pub split_strategy: SplitStrategy,
}

#[derive(PartialEq, Eq)]
pub enum SplitStrategy {
    Split,
    Spill,
}

/// No statistics are kept.
#[derive(Default)]
pub struct Stats;
