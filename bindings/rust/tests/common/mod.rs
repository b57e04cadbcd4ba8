//! Jobs in columns of their own, read from the repository's recorded sheets.

#![allow(dead_code)]

use std::fs;
use std::path::PathBuf;

use gelduvra::{Answer, Blocks, FixedUses, Job, Parameters, Refusal, Reservations, Scratch, Segments, Uses};

/// A job that owns its columns, in sheet order.
#[derive(Clone, Default)]
pub struct Sheet {
    pub parameters: [u32; 5],
    pub freq: Vec<f32>,
    pub blocks: [Vec<u32>; 2],
    pub codes: Vec<u32>,
    pub segments: [Vec<u32>; 6],
    pub uses: [Vec<u32>; 3],
    pub spill_weights: Vec<f32>,
    pub reservations: [Vec<u32>; 6],
    pub fixed_uses: [Vec<u32>; 3],
}

impl Sheet {
    /// Reads a sheet whose lines are well formed.
    pub fn read(text: &[u8]) -> Self {
        let mut sheet = Self::default();
        for line in std::str::from_utf8(text).unwrap().lines() {
            sheet.put(line.as_bytes()[0], &fields(line));
        }
        sheet
    }

    fn put(&mut self, letter: u8, fields: &[u32]) {
        match letter {
            b'P' => self.parameters = fields.try_into().unwrap(),
            b'B' => {
                self.freq.push(f32::from_bits(fields[0]));
                push(&mut self.blocks, &fields[1..]);
            }
            b'V' => self.codes.push(fields[0]),
            b'S' => push(&mut self.segments, fields),
            b'U' => push(&mut self.uses, fields),
            b'W' => self.spill_weights.push(f32::from_bits(fields[0])),
            b'E' => push(&mut self.reservations, fields),
            b'F' => push(&mut self.fixed_uses, fields),
            _ => panic!("a line {}", letter as char),
        }
    }

    /// Repeats the last row of a table (0 to 6 in sheet order) until it has so many.
    pub fn lengthen(&mut self, table: usize, items: usize) {
        match table {
            0 => {
                self.freq.resize(items, *self.freq.last().unwrap());
                fill(&mut self.blocks, items);
            }
            1 => fill(std::slice::from_mut(&mut self.codes), items),
            2 => fill(&mut self.segments, items),
            3 => fill(&mut self.uses, items),
            4 => self.spill_weights.resize(items, *self.spill_weights.last().unwrap()),
            5 => fill(&mut self.reservations, items),
            _ => fill(&mut self.fixed_uses, items),
        }
    }

    pub fn job(&self) -> Job<'_> {
        let [k, cheaper_than_move, cheaper_than_load, indirect, units] = self.parameters;
        let scale = f32::from_bits;
        let [start, end, value, first_use, end_use, flags] = &self.segments;
        let [unit, r_start, r_end, kind, index, fixed] = &self.reservations;
        Job {
            parameters: Parameters {
                k,
                cheaper_than_move: scale(cheaper_than_move),
                cheaper_than_load: scale(cheaper_than_load),
                indirect: scale(indirect),
                units,
            },
            blocks: Blocks { freq: &self.freq, first: &self.blocks[0], end: &self.blocks[1] },
            codes: &self.codes,
            segments: Segments { start, end, value, first_use, end_use, flags },
            uses: Uses { position: &self.uses[0], kind: &self.uses[1], cost: &self.uses[2] },
            spill_weights: &self.spill_weights,
            reservations: Reservations { unit, start: r_start, end: r_end, kind, index, fixed },
            fixed_uses: FixedUses {
                unit: &self.fixed_uses[0],
                point: &self.fixed_uses[1],
                value: &self.fixed_uses[2],
            },
        }
    }
}

fn push(columns: &mut [Vec<u32>], fields: &[u32]) {
    assert_eq!(columns.len(), fields.len());
    for (column, field) in columns.iter_mut().zip(fields) {
        column.push(*field);
    }
}

fn fill(columns: &mut [Vec<u32>], items: usize) {
    for column in columns {
        column.resize(items, *column.last().unwrap());
    }
}

/// The fields behind a line's letter.
pub fn fields(line: &str) -> Vec<u32> {
    line.as_bytes()[1..].chunks(11).map(|c| std::str::from_utf8(c).unwrap().trim().parse().unwrap()).collect()
}

/// The text of a folder's file in recorded/.
pub fn recorded(name: &str) -> Vec<u8> {
    let path = PathBuf::from(env!("CARGO_MANIFEST_DIR")).join("../../recorded").join(name);
    fs::read(&path).unwrap_or_else(|error| panic!("{}: {error}", path.display()))
}

/// The line of an answer as a sheet's answer has it, without H: the library does not print.
pub fn line_of(answer: &Result<Answer, Refusal>) -> String {
    let end = |at: Option<u32>| at.map_or(format!("{:>11}", '-'), |at| format!("{at:>11}"));
    match answer {
        Ok(Answer::Proposal(p)) => {
            let weights = [p.use_weight, p.interference_weight, p.split_cost].map(f32::to_bits);
            let [left, right] = [p.left, p.right].map(end);
            format!("Q{left}{right}{:>11}{:>11}{:>11}{:>11}\n", weights[0], p.live_insts, weights[1], weights[2])
        }
        Ok(Answer::NoBestUse) => format!("N{:>11}\n", 1),
        Ok(Answer::NoRegion) => format!("N{:>11}\n", 2),
        Err(refusal) => format!("R{:>11}{:>11}\n", refusal.number, refusal.place),
    }
}

/// The tables of the latest job as recorded/README.md has them.
pub fn tables_of(scratch: &Scratch) -> String {
    let mut text = String::new();
    let mut put = |letter: char, fields: &[u32]| {
        text.push(letter);
        for field in fields {
            text += &format!("{field:>11}");
        }
        text.push('\n');
    };
    let links = scratch.links();
    for (prev, next) in links.prev_lower_freq.iter().zip(links.next_lower_freq) {
        put('l', &[*prev, *next]);
    }
    let uses = scratch.uses();
    for i in 0..uses.inst.len() {
        let weights = [uses.weight[i], uses.left_weight[i], uses.right_weight[i]].map(f32::to_bits);
        put('u', &[uses.inst[i], weights[0], weights[1], weights[2]]);
    }
    let gaps = scratch.gaps();
    for i in 0..gaps.from.len() {
        let [weight, freq] = [gaps.weight[i], gaps.min_freq[i]].map(f32::to_bits);
        put('g', &[gaps.from[i], gaps.to[i], weight, gaps.live[i], freq, gaps.block[i]]);
    }
    let out = scratch.gap_segments();
    for i in 0..out.from.len() {
        put('o', &[out.from[i], out.to[i], out.value[i], out.gap[i]]);
    }
    text
}

/// A recorded file being read.
pub struct Text {
    bytes: Vec<u8>,
    at: usize,
}

impl Text {
    pub fn open(name: &str) -> Self {
        Self { bytes: recorded(name), at: 0 }
    }

    pub fn letter(&self) -> char {
        self.bytes.get(self.at).map_or('.', |c| *c as char)
    }

    pub fn take(&mut self, length: usize) -> Vec<u8> {
        self.at += length;
        self.bytes[self.at - length..self.at].to_vec()
    }

    pub fn lines(&mut self, number: u32) -> String {
        let from = self.at;
        for _ in 0..number {
            self.at += self.bytes[self.at..].iter().position(|c| *c == b'\n').unwrap() + 1;
        }
        String::from_utf8(self.bytes[from..self.at].to_vec()).unwrap()
    }

    /// The fields of a line with this letter.
    pub fn line(&mut self, letter: char) -> Vec<u32> {
        assert_eq!(self.letter(), letter, "byte {}", self.at);
        fields(self.lines(1).trim_end())
    }

    pub fn ended(&self) -> bool {
        self.at == self.bytes.len()
    }
}

/// A recorded sheet: rows lent, a table lengthened, and what it is answered.
pub struct Record {
    pub rooms: Option<[usize; 4]>,
    pub long: Option<(usize, usize)>,
    pub text: Vec<u8>,
    pub answer: String,
    pub tables: String,
}

impl Record {
    /// The answer's first line: Q, N or R.
    pub fn first_line(&self) -> &str {
        self.answer.split_inclusive('\n').next().unwrap()
    }

    /// Whether the sheet's text itself is refused, which the library never sees.
    pub fn refuses_text(&self) -> bool {
        self.answer.starts_with('R') && fields(self.answer.trim_end())[0] >= 14
    }

    pub fn sheet(&self) -> Sheet {
        let mut sheet = Sheet::read(&self.text);
        if let Some((table, items)) = self.long {
            sheet.lengthen(table, items);
        }
        sheet
    }
}

pub fn records(name: &str) -> Vec<Record> {
    let mut text = Text::open(name);
    let count = text.line('c')[0];
    let records = (0..count).map(|_| {
        let rooms = (text.letter() == 't').then(|| text.line('t'));
        let long = (text.letter() == 'n').then(|| text.line('n'));
        let head = text.line('s');
        let sheet = text.take(head[0] as usize);
        let answer = String::from_utf8(text.take(head[1] as usize)).unwrap();
        let tables = text.lines(head[2..6].iter().sum());
        text.line('=');
        Record {
            rooms: rooms.map(|r| [r[0], r[1], r[2], r[3]].map(|n| n as usize)),
            long: long.map(|n| (n[0] as usize, n[1] as usize)),
            text: sheet,
            answer,
            tables,
        }
    });
    let records = records.collect();
    assert!(text.ended());
    records
}
