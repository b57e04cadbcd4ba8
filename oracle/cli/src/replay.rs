//! The recorded files read back: the Rust and the reading against them, and the slips that they notice.

use std::fs;
use std::process::ExitCode;

use model::{CheckSlip, PointSlip, ROOMY, Reading, Rooms, Slip};
use sheet::{Answer, Block, FigureSlip, Job, Limits, ReadSlip};
use sheet::{number_at, read_sheet, read_sheet_with, write_answer, write_tables};

use crate::cases::recorded;
use crate::record::{figures_noticed, lengthened};
use crate::rust;

/// A recorded sheet with its answer and tables as text.
struct Record {
    rooms: Rooms,
    /// A table whose last line is repeated, and up to how many.
    long: Option<(usize, usize)>,
    sheet: Vec<u8>,
    answer: String,
    tables: String,
    by_rust: bool,
}

impl Record {
    fn job(&self) -> Result<Job, (u32, u32)> {
        let job = read_sheet(&self.sheet, Limits::Sheet)?;
        Ok(self.long.map_or(job.clone(), |(table, items)| lengthened(&job, table, items)))
    }
}

/// A recorded call for the lower-cost split point, and the point or the refusal.
struct PointCall {
    blocks: Vec<Block>,
    after: u32,
    before: u32,
    early: bool,
    result: Result<u32, (u32, u32)>,
}

/// A recorded file being read.
struct Text {
    bytes: Vec<u8>,
    at: usize,
}

impl Text {
    fn open(name: &str) -> Self {
        let path = recorded().join(name);
        let bytes = fs::read(&path).unwrap_or_else(|error| panic!("{}: {error}", path.display()));
        Self { bytes, at: 0 }
    }

    fn take(&mut self, length: usize) -> Vec<u8> {
        self.at += length;
        self.bytes[self.at - length..self.at].to_vec()
    }

    fn letter(&self) -> char {
        self.bytes.get(self.at).map_or('.', |c| *c as char)
    }

    /// A line with this letter and its fields.
    fn line(&mut self, letter: char) -> Vec<u32> {
        let length = self.bytes[self.at..].iter().position(|c| *c == b'\n').unwrap();
        let line = self.take(length + 1);
        assert_eq!(line[0] as char, letter, "byte {}", self.at);
        line[1..length].chunks(11).map(|field| number_at(field).unwrap()).collect()
    }

    fn lines(&mut self, number: u32) -> String {
        let from = self.at;
        for _ in 0..number {
            self.at += self.bytes[self.at..].iter().position(|c| *c == b'\n').unwrap() + 1;
        }
        String::from_utf8(self.bytes[from..self.at].to_vec()).unwrap()
    }
}

fn read_records(name: &str) -> Vec<Record> {
    let mut text = Text::open(name);
    let count = text.line('c')[0];
    let mut records = vec![];
    for _ in 0..count {
        let mut rooms = ROOMY;
        if text.letter() == 't' {
            let told = text.line('t');
            rooms = [told[0], told[1], told[2], told[3]].map(|n| n as usize);
        }
        let mut long = None;
        if text.letter() == 'n' {
            let told = text.line('n');
            long = Some((told[0] as usize, told[1] as usize));
        }
        let head = text.line('s');
        let sheet = text.take(head[0] as usize);
        let answer = String::from_utf8(text.take(head[1] as usize)).unwrap();
        let tables = text.lines(head[2..6].iter().sum());
        text.line('=');
        records.push(Record { rooms, long, sheet, answer, tables, by_rust: head[6] == 1 });
    }
    assert_eq!(text.at, text.bytes.len());
    records
}

fn read_points() -> Vec<PointCall> {
    let mut text = Text::open("points.txt");
    let count = text.line('c')[0];
    let mut calls = vec![];
    for _ in 0..count {
        let head = text.line('b');
        let blocks: Vec<Block> =
            (0..head[0]).map(|_| text.line('B')).map(|b| Block { freq: b[0], first: b[1], end: b[2] }).collect();
        for _ in 0..head[1] {
            let (line, result) = match text.letter() {
                'p' => {
                    let line = text.line('p');
                    let point = line[3];
                    (line, Ok(point))
                }
                _ => {
                    let line = text.line('x');
                    let refusal = (line[3], line[4]);
                    (line, Err(refusal))
                }
            };
            let blocks = blocks.clone();
            calls.push(PointCall { blocks, after: line[0], before: line[1], early: line[2] == 1, result });
        }
        text.line('=');
    }
    calls
}

/// The reading's answer and tables to a sheet with these rooms, with at most one slip of each sort.
fn read_text(record: &Record, slip: Option<Slip>, check: Option<CheckSlip>) -> (String, String) {
    let refused = match record.job() {
        Err(refusal) => Err(refusal),
        Ok(job) => model::refusal_with(&job, record.rooms, check).map_or(Ok(job), Err),
    };
    match refused {
        Err((number, place)) => (write_answer(&Answer::Refused(number, place)), String::new()),
        // A job that only a slip accepts may not be read further.
        Ok(job) if model::refusal(&job).is_some() => ("accepted".to_string(), String::new()),
        Ok(job) => {
            let reading = slip.map_or(Reading::of(&job), |slip| Reading::with_slip(&job, slip));
            let read = reading.read();
            (write_answer(&read.answer), write_tables(&read.tables))
        }
    }
}

fn rust_text(job: &Job) -> (String, String) {
    match rust(job) {
        Ok(ran) => (write_answer(&ran.answer), write_tables(&ran.tables)),
        Err(said) => (said, String::new()),
    }
}

pub fn replay() -> ExitCode {
    let mut differing = 0;
    for name in ["answers.txt", "refusals.txt", "rooms.txt", "long.txt"] {
        let records = read_records(name);
        let mut by_rust = 0;
        for (at, record) in records.iter().enumerate() {
            let told = (record.answer.clone(), record.tables.clone());
            let mut agrees = read_text(record, None, None) == told;
            if record.by_rust {
                by_rust += 1;
                agrees &= rust_text(&record.job().unwrap()) == told;
            } else {
                agrees &= record.answer.starts_with('R');
            }
            if !agrees {
                println!("{name}: record {at} differs");
                differing += 1;
            }
        }
        println!("{name}: {} records, {by_rust} of them the Rust's", records.len());
    }
    let calls = read_points();
    for (at, call) in calls.iter().enumerate() {
        let PointCall { blocks, after, before, early, result } = call;
        let read = match model::split_point_refusal(blocks, *after, *before, None) {
            Some(refusal) => Err(refusal),
            None => Ok(model::split_point(blocks, *after, *before, *early, None)),
        };
        let by_rust = read.is_err() || supplied::split_point(blocks, *after, *before, *early).ok() == result.ok();
        if read != *result || !by_rust {
            println!("points.txt: call {at} differs");
            differing += 1;
        }
    }
    println!("points.txt: {} calls", calls.len());
    println!("{differing} differ");
    if differing == 0 { ExitCode::SUCCESS } else { ExitCode::FAILURE }
}

/// For each slip the number of recorded sheets that notice it.
pub fn slips() -> ExitCode {
    let answers = read_records("answers.txt");
    let mut unnoticed = 0;
    println!("slips in the routine, of {} sheets in answers.txt (of these by the answer alone):", answers.len());
    for slip in Slip::ALL {
        let texts = answers.iter().map(|record| (record, read_text(record, Some(*slip), None)));
        let (mut all, mut by_answer) = (0, 0);
        for (record, (answer, tables)) in texts {
            all += (answer != record.answer || tables != record.tables) as u32;
            by_answer += (answer != record.answer) as u32;
        }
        unnoticed += (all == 0) as u32;
        println!("{all:>5} {by_answer:>5}  {}", slip.what());
    }

    println!("slips in the H figure, of {} sheets in answers.txt:", answers.len());
    let figures: Vec<Vec<FigureSlip>> = answers
        .iter()
        .map(|record| {
            let job = record.job().unwrap();
            figures_noticed(&job, &Reading::of(&job).read().answer)
        })
        .collect();
    for slip in FigureSlip::ALL {
        let noticed = figures.iter().filter(|of_sheet| of_sheet.contains(&slip)).count();
        unnoticed += (noticed == 0) as u32;
        println!("{noticed:>5}        {slip:?}");
    }

    let mut checked = read_records("refusals.txt");
    checked.extend(read_records("rooms.txt"));
    checked.extend(read_records("long.txt"));
    let calls = read_points();
    println!(
        "slips in the checks, of {} sheets in refusals.txt, rooms.txt and long.txt and {} calls:",
        checked.len(),
        calls.len()
    );
    for slip in CheckSlip::all() {
        let sheets = checked.iter().filter(|r| read_text(r, None, Some(slip)).0 != r.answer).count();
        let refused = |c: &PointCall| model::split_point_refusal(&c.blocks, c.after, c.before, Some(slip));
        let points = calls.iter().filter(|c| refused(c) != c.result.err()).count();
        unnoticed += (sheets + points == 0) as u32;
        println!("{:>5}        {slip:?}", sheets + points);
    }

    println!("slips in the reading of sheets, of {} sheets in refusals.txt:", read_records("refusals.txt").len());
    for slip in ReadSlip::all() {
        let refused = |r: &Record| match read_sheet_with(&r.sheet, slip) {
            Err(refusal) => Some(refusal),
            Ok(job) => model::refusal(&job),
        };
        let told = |r: &Record| {
            let told = r.answer.strip_prefix('R')?.as_bytes();
            Some((number_at(&told[..11]).unwrap(), number_at(&told[11..22]).unwrap()))
        };
        let noticed =
            checked.iter().filter(|r| r.long.is_none() && r.rooms == ROOMY && refused(r) != told(r)).count();
        unnoticed += (noticed == 0) as u32;
        println!("{noticed:>5}        {slip:?}");
    }

    println!("slips in the split point, of {} calls:", calls.len());
    for slip in PointSlip::ALL {
        let sound = calls.iter().filter(|c| c.result.is_ok());
        let point = |c: &&PointCall| model::split_point(&c.blocks, c.after, c.before, c.early, Some(slip));
        let noticed = sound.filter(|c| Ok(point(c)) != c.result).count();
        unnoticed += (noticed == 0) as u32;
        println!("{noticed:>5}        {slip:?}");
    }
    println!("{unnoticed} slips unnoticed");
    if unnoticed == 0 { ExitCode::SUCCESS } else { ExitCode::FAILURE }
}
