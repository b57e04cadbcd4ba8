//! A sheet's text read line by line: refusals 14 and 15.

use crate::{Block, FixedUse, Job, Row, Segment, Use};

/// Whether 15 is asked. Without it a sheet may hold a job of any size.
#[derive(Clone, Copy, PartialEq, Eq)]
pub enum Limits {
    Sheet,
    Off,
}

/// Slips in the reading of a sheet.
#[derive(Clone, Copy, Debug, PartialEq, Eq)]
pub enum ReadSlip {
    LeadingZero,
    NumberWraps,
    PlusSign,
    NoDigitIsZero,
    LeftJustified,
    TabIsSpace,
    ReturnBeforeFeed,
    TrailingSpace,
    NoLastFeed,
    EmptyLine,
    NoSheet,
    NoP,
    TwoP,
    AnyOrder,
    LowerCase,
    /// A kind of line (1 to 7 in sheet order) may stand once more.
    OneMore(usize),
    /// A kind of line may stand once less.
    OneLess(usize),
    /// On one line 15 precedes 14.
    CountFirst,
    /// 15 is asked when all lines are read.
    CountLast,
}

impl ReadSlip {
    pub fn all() -> Vec<ReadSlip> {
        use ReadSlip::*;
        let mut all = vec![LeadingZero, NumberWraps, PlusSign, NoDigitIsZero, LeftJustified, TabIsSpace];
        all.extend([ReturnBeforeFeed, TrailingSpace, NoLastFeed, EmptyLine, NoSheet, NoP, TwoP, AnyOrder, LowerCase]);
        all.extend((1..8).flat_map(|kind| [OneMore(kind), OneLess(kind)]));
        all.extend([CountFirst, CountLast]);
        all
    }
}

/// Letter and fields of each kind of line, in sheet order.
const KINDS: [(u8, usize); 8] =
    [(b'P', 5), (b'B', 3), (b'V', 1), (b'S', 6), (b'U', 3), (b'W', 1), (b'E', 6), (b'F', 3)];

/// The most lines of each kind after P.
pub(crate) const MOST_LINES: [usize; 7] = [128, 128, 128, 256, 128, 256, 128];

/// The number in a field: right-justified, no leading zero, below 2 to the power 32.
pub fn number_at(field: &[u8]) -> Option<u32> {
    Reader { slip: None }.number(field)
}

/// The job that a sheet tells, or the refusal (14 or 15) and its line.
pub fn read_sheet(text: &[u8], limits: Limits) -> Result<Job, (u32, u32)> {
    Reader { slip: None }.sheet(text, limits)
}

/// The same with a slip.
pub fn read_sheet_with(text: &[u8], slip: ReadSlip) -> Result<Job, (u32, u32)> {
    Reader { slip: Some(slip) }.sheet(text, Limits::Sheet)
}

struct Reader {
    slip: Option<ReadSlip>,
}

impl Reader {
    fn slips(&self, slip: ReadSlip) -> bool {
        self.slip == Some(slip)
    }

    fn number(&self, field: &[u8]) -> Option<u32> {
        let is_space = |c: &u8| *c == b' ' || (*c == b'\t' && self.slips(ReadSlip::TabIsSpace));
        let Some(first) = field.iter().position(|c| !is_space(c)) else {
            return self.slips(ReadSlip::NoDigitIsZero).then_some(0);
        };
        let mut digits = &field[first..];
        if self.slips(ReadSlip::LeftJustified) {
            digits = digits.trim_ascii_end();
        }
        if self.slips(ReadSlip::PlusSign) {
            digits = digits.strip_prefix(b"+").unwrap_or(digits);
        }
        let leading_zero = digits.first() == Some(&b'0') && digits.len() > 1 && !self.slips(ReadSlip::LeadingZero);
        if digits.is_empty() || !digits.iter().all(u8::is_ascii_digit) || leading_zero {
            return None;
        }
        let number: u64 = std::str::from_utf8(digits).ok()?.parse().ok()?;
        if self.slips(ReadSlip::NumberWraps) { Some(number as u32) } else { number.try_into().ok() }
    }

    /// The kind of a line by its letter.
    fn kind(&self, line: &[u8]) -> Option<usize> {
        let mut letter = *line.first()?;
        if self.slips(ReadSlip::LowerCase) {
            letter = letter.to_ascii_uppercase();
        }
        KINDS.iter().position(|kind| kind.0 == letter)
    }

    /// The kind and the fields of a line without its line feed.
    fn line(&self, mut line: &[u8]) -> Option<(usize, Vec<u32>)> {
        if self.slips(ReadSlip::ReturnBeforeFeed) {
            line = line.strip_suffix(b"\r").unwrap_or(line);
        }
        if self.slips(ReadSlip::TrailingSpace) {
            line = line.trim_ascii_end();
        }
        let kind = self.kind(line)?;
        if line.len() != 1 + 11 * KINDS[kind].1 {
            return None;
        }
        let fields: Option<Vec<u32>> = line[1..].chunks(11).map(|field| self.number(field)).collect();
        Some((kind, fields?))
    }

    /// The most lines of a kind after P.
    fn most(&self, kind: usize) -> usize {
        match self.slip {
            Some(ReadSlip::OneMore(k)) if k == kind => MOST_LINES[kind - 1] + 1,
            Some(ReadSlip::OneLess(k)) if k == kind => MOST_LINES[kind - 1] - 1,
            _ => MOST_LINES[kind - 1],
        }
    }

    fn sheet(&self, text: &[u8], limits: Limits) -> Result<Job, (u32, u32)> {
        let mut job = Job::default();
        let mut lines = [0usize; 8];
        let mut last_kind = None;
        let mut number = 0;
        let mut counted_late = None;
        for line in text.split_inclusive(|c| *c == b'\n') {
            number += 1;
            let stripped = line.strip_suffix(b"\n");
            if self.slips(ReadSlip::CountFirst) {
                let kind = self.kind(line).filter(|kind| *kind > 0);
                if kind.is_some_and(|kind| lines[kind] == self.most(kind)) {
                    return Err((15, number));
                }
            }
            let stripped = if self.slips(ReadSlip::NoLastFeed) { Some(stripped.unwrap_or(line)) } else { stripped };
            if stripped == Some(b"") && self.slips(ReadSlip::EmptyLine) {
                continue;
            }
            let Some((kind, f)) = stripped.and_then(|line| self.line(line)) else {
                return Err((14, number));
            };
            let in_order = match last_kind {
                None => kind == 0 || self.slips(ReadSlip::NoP),
                Some(0) if kind == 0 => self.slips(ReadSlip::TwoP),
                Some(last) => kind >= last || (kind > 0 && self.slips(ReadSlip::AnyOrder)),
            };
            if !in_order {
                return Err((14, number));
            }
            last_kind = Some(kind);
            lines[kind] += 1;
            if limits == Limits::Sheet && kind > 0 && lines[kind] > self.most(kind) {
                if !self.slips(ReadSlip::CountLast) {
                    return Err((15, number));
                }
                counted_late = counted_late.or(Some(number));
            }
            put(&mut job, kind, &f);
        }
        if let Some(number) = counted_late {
            return Err((15, number));
        }
        if last_kind.is_none() && !self.slips(ReadSlip::NoSheet) {
            return Err((14, 1));
        }
        Ok(job)
    }
}

fn put(job: &mut Job, kind: usize, f: &[u32]) {
    match kind {
        0 => {
            job.k = f[0];
            job.scales = [f[1], f[2], f[3]];
            job.units = f[4];
        }
        1 => job.blocks.push(Block { freq: f[0], first: f[1], end: f[2] }),
        2 => job.values.push(f[0]),
        3 => job.segments.push(Segment {
            start: f[0],
            end: f[1],
            value: f[2],
            first_use: f[3],
            end_use: f[4],
            flags: f[5],
        }),
        4 => job.uses.push(Use { pos: f[0], kind: f[1], cost: f[2] }),
        5 => job.weights.push(f[0]),
        6 => job.rows.push(Row { unit: f[0], start: f[1], end: f[2], kind: f[3], index: f[4], fixed: f[5] }),
        _ => job.fixed.push(FixedUse { unit: f[0], point: f[1], value: f[2] }),
    }
}
