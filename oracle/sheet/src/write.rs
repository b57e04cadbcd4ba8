//! Jobs, answers and tables as text.

use std::fmt::Write;

use crate::{Answer, Job, Tables, h_figure};

/// A letter and fields of 11 columns, with a line feed.
pub fn fields(letter: char, numbers: &[u32]) -> String {
    let mut line = String::from(letter);
    for n in numbers {
        write!(line, "{n:>11}").unwrap();
    }
    line.push('\n');
    line
}

pub fn write_sheet(job: &Job) -> String {
    let [a, b, c] = job.scales;
    let mut text = fields('P', &[job.k, a, b, c, job.units]);
    for b in &job.blocks {
        text += &fields('B', &[b.freq, b.first, b.end]);
    }
    for v in &job.values {
        text += &fields('V', &[*v]);
    }
    for s in &job.segments {
        text += &fields('S', &[s.start, s.end, s.value, s.first_use, s.end_use, s.flags]);
    }
    for u in &job.uses {
        text += &fields('U', &[u.pos, u.kind, u.cost]);
    }
    for w in &job.weights {
        text += &fields('W', &[*w]);
    }
    for r in &job.rows {
        text += &fields('E', &[r.unit, r.start, r.end, r.kind, r.index, r.fixed]);
    }
    for f in &job.fixed {
        text += &fields('F', &[f.unit, f.point, f.value]);
    }
    text
}

pub fn write_answer(answer: &Answer) -> String {
    match answer {
        Answer::Proposed(p, normalised) => {
            let end = |e: Option<u32>| e.map_or("-".to_string(), |i| i.to_string());
            format!(
                "Q{:>11}{:>11}{:>11}{:>11}{:>11}{:>11}\n{}",
                end(p.left),
                end(p.right),
                p.use_weight,
                p.live_insts,
                p.interference_weight,
                p.split_cost,
                fields('H', &[h_figure(*normalised)])
            )
        }
        Answer::None(kind) => fields('N', &[*kind]),
        Answer::Refused(number, place) => fields('R', &[*number, *place]),
    }
}

/// The rows used: `l` links, `u` uses, `g` gaps, `o` gap segments.
pub fn write_tables(tables: &Tables) -> String {
    let mut text = String::new();
    for l in &tables.links {
        text += &fields('l', &[l.prev, l.next]);
    }
    for u in &tables.uses {
        text += &fields('u', &[u.inst, u.main, u.left, u.right]);
    }
    for g in &tables.gaps {
        text += &fields('g', &[g.from, g.to, g.weight, g.live_insts, g.freq, g.block]);
    }
    for o in &tables.gap_segments {
        text += &fields('o', &[o.from, o.to, o.value, o.gap]);
    }
    text
}
