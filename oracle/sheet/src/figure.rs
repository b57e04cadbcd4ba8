//! The H figure by the words of document 02 (E3), over whole numbers, and slips in it.

use std::cmp::Ordering;

use crate::Proposal;

/// What a port could do instead. That the ceiling be looked at before rounding is none of them: no weight shows it, since no binary32
/// value times 1000 lies between 999999999.5 and 1000000000.
#[derive(Clone, Copy, Debug, PartialEq, Eq)]
pub enum FigureSlip {
    /// Cut off to a whole number.
    CutOff,
    /// Ties away from zero.
    TiesAway,
    /// Ties towards zero.
    TiesDown,
    /// 0 for a small weight.
    SmallIsZero,
    /// No ceiling.
    NoCeiling,
    /// From the use weight over the instructions and k, not rounded to a binary32.
    ExactQuotient,
    /// From the normalised weight times 1000, rounded to a binary32.
    RoundedProduct,
}

impl FigureSlip {
    pub const ALL: [Self; 7] = [
        Self::CutOff,
        Self::TiesAway,
        Self::TiesDown,
        Self::SmallIsZero,
        Self::NoCeiling,
        Self::ExactQuotient,
        Self::RoundedProduct,
    ];
}

/// The H figure of a normalised weight.
pub fn h_figure(bits: u32) -> u32 {
    let (dividend, divisor) = fraction(bits);
    shown(1000 * dividend, divisor, None)
}

/// The H figure of a proposal in a job of this k, its normalised weight being given, with a slip.
pub fn h_figure_with(p: &Proposal, k: u32, normalised: u32, slip: FigureSlip) -> u32 {
    let (dividend, divisor) = match slip {
        FigureSlip::ExactQuotient => {
            let (dividend, divisor) = fraction(p.use_weight);
            (1000 * dividend, divisor * (u128::from(p.live_insts) + u128::from(k)))
        }
        FigureSlip::RoundedProduct => fraction((f32::from_bits(normalised) * 1000.0).to_bits()),
        _ => {
            let (dividend, divisor) = fraction(normalised);
            (1000 * dividend, divisor)
        }
    };
    shown(dividend, divisor, Some(slip))
}

/// A weight as a fraction of whole numbers. One below 2 to the power -40 or above 2 to the power 63 is taken as one there: its
/// thousandths are far below a half, or far above the ceiling, all the same.
fn fraction(bits: u32) -> (u128, u128) {
    let exponent = (bits >> 23).max(1);
    let significand = u128::from(bits & 0x7f_ffff | if bits >> 23 == 0 { 0 } else { 0x80_0000 });
    // The weight is significand times 2 to the power exponent - 150.
    match exponent {
        ..=150 => (significand, 1 << (150 - exponent).min(64)),
        _ => (significand << (exponent - 150).min(40), 1),
    }
}

/// A fraction to the nearest whole number, ties to even; 1 if it is above zero and would round to 0; at most 999999999.
fn shown(dividend: u128, divisor: u128, slip: Option<FigureSlip>) -> u32 {
    let is = |s| slip == Some(s);
    let (low, high) = (dividend / divisor, dividend / divisor + 1);
    let nearest = match (dividend - low * divisor).cmp(&(high * divisor - dividend)) {
        _ if is(FigureSlip::CutOff) => low,
        Ordering::Less => low,
        Ordering::Greater => high,
        Ordering::Equal if is(FigureSlip::TiesAway) => high,
        Ordering::Equal if is(FigureSlip::TiesDown) => low,
        Ordering::Equal => low + low % 2,
    };
    let least = if dividend > 0 && !is(FigureSlip::SmallIsZero) { 1 } else { 0 };
    let most = if is(FigureSlip::NoCeiling) { u128::from(u32::MAX) } else { 999_999_999 };
    nearest.max(least).min(most) as u32
}

#[cfg(test)]
mod tests {
    use super::h_figure;

    /// A weight times 1000 is exact in 53 bits.
    #[test]
    fn nearest() {
        let exact = |bits: u32| {
            let nearest = (f64::from(f32::from_bits(bits)) * 1000.0).round_ties_even();
            nearest.max(if bits == 0 { 0.0 } else { 1.0 }).min(999_999_999.0) as u32
        };
        let mut bits = 0u32;
        while bits <= f32::INFINITY.to_bits() {
            assert_eq!(h_figure(bits), exact(bits), "{bits}");
            bits += 97;
        }
    }

    #[test]
    fn worked() {
        let worked = [
            (0.0, 0),
            (0.5, 500),
            (1.0 / 16.0, 62),
            (3.0 / 16.0, 188),
            (0.009, 9),
            (0.0009, 1),
            (0.0004, 1),
            (f32::from_bits(1), 1),
            (999_999.94, 999_999_938),
            (1e6, 999_999_999),
            (f32::MAX, 999_999_999),
            (f32::INFINITY, 999_999_999),
        ];
        for (weight, figure) in worked {
            assert_eq!(h_figure(f32::to_bits(weight)), figure, "{weight}");
        }
    }
}
