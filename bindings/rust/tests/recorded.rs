//! Document 01's cases and the recorded answers of the Rust, through the interface.

mod common;

use std::fs;

use common::{Sheet, Text, line_of, recorded, records, tables_of};
use gelduvra::{Answer, Blocks, Error, Refusal, Rows, Scratch, WorkTables, find_optimal_split_point, propose_split};

fn refusal_of<T>(result: Result<T, Error>) -> Result<T, Refusal> {
    result.map_err(|error| match error {
        Error::Refused(refusal) => refusal,
        Error::Lengths(error) => panic!("{error}"),
    })
}

#[test]
fn cases_of_the_document() {
    let folder = concat!(env!("CARGO_MANIFEST_DIR"), "/../../recorded/cases");
    let mut scratch = Scratch::new();
    let mut cases = 0;
    for entry in fs::read_dir(folder).unwrap() {
        let file = entry.unwrap().file_name().into_string().unwrap();
        let Some(name) = file.strip_suffix(".sheet") else {
            continue;
        };
        let sheet = Sheet::read(&recorded(&format!("cases/{file}")));
        let answer = refusal_of(scratch.propose_split(&sheet.job()));
        let told = |what: &str| fs::read_to_string(format!("{folder}/{name}.{what}")).ok();
        let (expected, links) = (told("answer"), told("links"));
        assert!(expected.is_some() || links.is_some(), "{name}");
        if let Some(expected) = expected {
            assert_eq!(line_of(&answer), expected.split_inclusive('\n').next().unwrap(), "{name}");
        }
        if let Some(links) = links {
            let tables = tables_of(&scratch);
            let filled: String = tables.split_inclusive('\n').filter(|line| line.starts_with('l')).collect();
            assert_eq!(filled, links, "{name}");
        }
        cases += 1;
    }
    assert_eq!(cases, 17);
}

/// Every recorded sheet through one scratch, so that each job finds the rows of the ones before it.
fn replay(name: &str) -> usize {
    let mut scratch = Scratch::new();
    let records: Vec<_> = records(name).into_iter().filter(|record| !record.refuses_text()).collect();
    for (at, record) in records.iter().enumerate() {
        let sheet = record.sheet();
        let answer = refusal_of(scratch.propose_split(&sheet.job()));
        assert_eq!(line_of(&answer), record.first_line(), "{name}, record {at}");
        assert_eq!(tables_of(&scratch), record.tables, "{name}, record {at}");
    }
    records.len()
}

#[test]
fn answers_and_tables() {
    assert_eq!(replay("answers.txt"), 300);
}

#[test]
fn refusals() {
    assert!(replay("refusals.txt") > 300);
}

#[test]
fn tables_at_their_limit_and_one_past_it() {
    assert_eq!(replay("long.txt"), 14);
}

/// Lent tables of just enough rows, and of one row less.
#[test]
fn rooms() {
    const PATTERN: u32 = 0xa5a5_a5a5;
    let (mut refused, mut answered) = (0, 0);
    for (at, record) in records("rooms.txt").iter().enumerate() {
        let sheet = record.sheet();
        let [u, g, o, l] = record.rooms.unwrap();
        let numbers = |rows: usize| vec![PATTERN; rows];
        let floats = |rows: usize| vec![f32::from_bits(PATTERN); rows];
        let mut links = [numbers(l), numbers(l)];
        let (mut inst, mut uses) = (numbers(u), [floats(u), floats(u), floats(u)]);
        let (mut gaps, mut gap_floats) = ([0, 1, 2, 3].map(|_| numbers(g)), [floats(g), floats(g)]);
        let mut segments = [numbers(o), numbers(o), numbers(o), numbers(o)];
        let [prev_lower_freq, next_lower_freq] = &mut links;
        let [weight, left_weight, right_weight] = &mut uses;
        let [gap_from, gap_to, live, gap_block] = &mut gaps;
        let [gap_weight, min_freq] = &mut gap_floats;
        let [segment_from, segment_to, segment_value, segment_gap] = &mut segments;
        let mut work = WorkTables {
            prev_lower_freq,
            next_lower_freq,
            inst: &mut inst,
            weight,
            left_weight,
            right_weight,
            gap_from,
            gap_to,
            gap_weight,
            live,
            min_freq,
            gap_block,
            segment_from,
            segment_to,
            segment_value,
            segment_gap,
        };
        let answer = refusal_of(propose_split(&sheet.job(), &mut work));
        let rows = answer.map_or(Rows::default(), |proposed| proposed.rows);
        assert_eq!(line_of(&answer.map(|proposed| proposed.answer)), record.first_line(), "record {at}");
        if answer.is_err() {
            refused += 1;
            assert!(links.iter().chain(&gaps).chain(&segments).all(|column| column.iter().all(|n| *n == PATTERN)));
        } else {
            answered += 1;
        }
        // Rows past those used are as they were.
        let rest = |column: &[f32], used: usize| column[used..].iter().all(|n| n.to_bits() == PATTERN);
        assert!(inst[rows.uses..].iter().all(|n| *n == PATTERN));
        assert!(uses.iter().all(|column| rest(column, rows.uses)));
        assert!(gap_floats.iter().all(|column| rest(column, rows.gaps)));
        assert!(gaps.iter().all(|column| column[rows.gaps..].iter().all(|n| *n == PATTERN)));
        assert!(segments.iter().all(|column| column[rows.gap_segments..].iter().all(|n| *n == PATTERN)));
    }
    assert_eq!((refused, answered), (58, 5));
}

#[test]
fn split_points() {
    let mut text = Text::open("points.txt");
    let mut calls = 0;
    for _ in 0..text.line('c')[0] {
        let head = text.line('b');
        let rows: Vec<_> = (0..head[0]).map(|_| text.line('B')).collect();
        let freq: Vec<f32> = rows.iter().map(|row| f32::from_bits(row[0])).collect();
        let [first, end] = [1, 2].map(|at| rows.iter().map(|row| row[at]).collect::<Vec<u32>>());
        let blocks = Blocks { freq: &freq, first: &first, end: &end };
        for _ in 0..head[1] {
            let letter = text.letter();
            let line = text.line(letter);
            let expected = match letter {
                'p' => Ok(line[3]),
                _ => Err(Refusal { number: line[3], place: line[4] }),
            };
            let found = refusal_of(find_optimal_split_point(&blocks, line[0], line[1], line[2] == 1));
            assert_eq!(found, expected, "{line:?}");
            calls += 1;
        }
        text.line('=');
    }
    assert!(text.ended());
    assert_eq!(calls, 480);
}

/// Case A, answer and views by name.
#[test]
fn case_a_by_name() {
    let sheet = Sheet::read(&recorded("cases/A.sheet"));
    let mut scratch = Scratch::new();
    let answer = scratch.propose_split(&sheet.job()).unwrap();
    let proposal = answer.proposal().unwrap();
    assert_eq!((proposal.left, proposal.right, proposal.use_weight), (None, None, 2.0));
    assert_eq!(scratch.links().prev_lower_freq, [u32::MAX]);
    assert_eq!(scratch.uses().weight, [1.0, 1.0]);
    assert_eq!(scratch.gaps().live.iter().sum::<u32>(), 4);
    assert_eq!(scratch.gap_segments().from[0], 2);
    assert_ne!(answer, Answer::NoRegion);
}
