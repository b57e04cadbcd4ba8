//! The normalised weight of a proposal: against the recorded H lines, and against the same computation in f32.

mod common;

use common::{Sheet, recorded, records};
use gelduvra::{Answer, Job, Parameters, Reservations, Scratch, SplitProposal};

fn with_k(k: u32) -> Parameters {
    Parameters { k, ..Parameters::default() }
}

fn proposal(use_weight: f32, live_insts: u32) -> SplitProposal {
    SplitProposal { left: None, right: None, use_weight, live_insts, interference_weight: 0.0, split_cost: 0.0 }
}

/// The H figure of a weight: times 1000 to the nearest, ties to even; above zero at least 1. An f64 has room for the product.
fn figure(weight: f32) -> u32 {
    let least = if weight > 0.0 { 1.0 } else { 0.0 };
    (f64::from(weight) * 1000.0).round_ties_even().clamp(least, 999_999_999.0) as u32
}

#[test]
fn recorded_figures() {
    let mut scratch = Scratch::new();
    let (mut proposals, mut rounded_up) = (0, 0);
    for (at, record) in records("answers.txt").iter().enumerate() {
        let sheet = record.sheet();
        let job = sheet.job();
        let Ok(Answer::Proposal(p)) = scratch.propose_split(&job) else {
            continue;
        };
        let weight = p.normalised_weight(&job.parameters);
        let h = figure(weight);
        assert_eq!(record.answer.lines().nth(1), Some(&*format!("H{h:>11}")), "record {at}");
        proposals += 1;
        rounded_up += u32::from(f64::from(h) > f64::from(weight) * 1000.0);
    }
    assert!(proposals > 100 && rounded_up > 50, "{proposals} proposals, {rounded_up} figures above the weight");
}

/// Weights of all sizes over numbers of all sizes, bit for bit as one division of floats, the divisor rounded once.
#[test]
fn computed_again() {
    let mut state = 7u64;
    let mut next = || {
        state = state.wrapping_mul(6364136223846793005).wrapping_add(1442695040888963407);
        (state >> 33) as u32
    };
    let edges = [0, 1, 0x007f_ffff, 0x0080_0000, 1.0f32.to_bits(), f32::MAX.to_bits(), f32::INFINITY.to_bits()];
    for round in 0..100_000 {
        let bits = if round % 8 == 0 { edges[next() as usize % 7] } else { next() % (f32::INFINITY.to_bits() + 1) };
        let [insts, k] = [0, 1].map(|_| (next() << 1) >> (next() % 32));
        let divisor = (u64::from(insts) + u64::from(k)) as f32;
        let expected = f32::from_bits(bits) / divisor;
        let expected = if expected > f32::MAX { f32::MAX } else { expected };
        let found = proposal(f32::from_bits(bits), insts).normalised_weight(&with_k(k));
        assert!(found.to_bits() == expected.to_bits() || found.is_nan() && expected.is_nan(), "{bits} {insts} {k}");
    }
}

#[test]
fn odd_ones() {
    let of = |use_weight, live_insts, k| proposal(use_weight, live_insts).normalised_weight(&with_k(k));
    // Above the limit, and over nothing: the largest.
    assert_eq!(of(f32::INFINITY, 1, 0), f32::MAX);
    assert_eq!(of(1.0, 0, 0), f32::MAX);
    assert!(of(0.0, 0, 0).is_nan());
    // The sum of instructions and k does not wrap.
    assert_eq!(of(2.0f32.powi(33), u32::MAX, u32::MAX), 1.0);
    // What is no weight counts as zero.
    for no_weight in [-1.0, -0.0, f32::NEG_INFINITY, f32::NAN] {
        assert_eq!(of(no_weight, 3, 0).to_bits(), 0);
    }
}

/// Case A's own weight, entered on 8 to 12, is not evicted by case A; at twice the frequency it is.
#[test]
fn entered() {
    let mut sheet = Sheet::read(&recorded("cases/A.sheet"));
    let mut scratch = Scratch::new();
    let first = scratch.propose_split(&sheet.job()).unwrap().proposal().unwrap();
    let entered = [first.normalised_weight(&sheet.job().parameters)];
    let row = Reservations { unit: &[0], start: &[8], end: &[12], kind: &[0], index: &[0], fixed: &[u32::MAX] };
    let mut evicted = |sheet: &Sheet| {
        let job = Job { spill_weights: &entered, reservations: row, ..sheet.job() };
        scratch.propose_split(&job).unwrap().proposal().unwrap().interference_weight
    };
    assert_eq!(evicted(&sheet), 0.0);
    sheet.freq = vec![2.0];
    assert_eq!(evicted(&sheet), 0.5);
}
