//! Scratch kept between jobs, columns of different lengths, and errors in words.

mod common;

use common::{Sheet, line_of, recorded, records, tables_of};
use gelduvra::{
    Answer, Blocks, Error, FixedUses, Job, LengthMismatch, Refusal, Reservations, Scratch, Segments, Table, Uses,
    WorkTables, find_optimal_split_point, propose_split,
};

fn case(name: &str) -> Sheet {
    Sheet::read(&recorded(&format!("cases/{name}.sheet")))
}

fn text_of(scratch: &mut Scratch, sheet: &Sheet) -> String {
    let answer = scratch.propose_split(&sheet.job());
    let refused = answer.map_err(|error| match error {
        Error::Refused(refusal) => refusal,
        Error::Lengths(error) => panic!("{error}"),
    });
    line_of(&refused) + &tables_of(scratch)
}

/// A job's answer does not depend on what the scratch held: forward, backward, and each with a fresh one.
#[test]
fn nothing_is_kept() {
    let records = records("answers.txt");
    let sheets: Vec<Sheet> = records.iter().map(|record| record.sheet()).collect();
    let (mut one, mut other) = (Scratch::new(), Scratch::for_any_job());
    let forward: Vec<String> = sheets.iter().map(|sheet| text_of(&mut one, sheet)).collect();
    let mut backward: Vec<String> = sheets.iter().rev().map(|sheet| text_of(&mut other, sheet)).collect();
    backward.reverse();
    assert_eq!(forward, backward);
    let fresh: Vec<String> = sheets.iter().map(|sheet| text_of(&mut Scratch::new(), sheet)).collect();
    assert_eq!(forward, fresh);
}

/// Two threads, each with a scratch of its own.
#[test]
fn threads() {
    let sheets: Vec<Sheet> = records("answers.txt").iter().map(|record| record.sheet()).collect();
    let run = || {
        let mut scratch = Scratch::new();
        sheets.iter().map(|sheet| text_of(&mut scratch, sheet)).collect::<Vec<String>>()
    };
    let (one, other) = std::thread::scope(|scope| {
        let (one, other) = (scope.spawn(run), scope.spawn(run));
        (one.join().unwrap(), other.join().unwrap())
    });
    assert_eq!(one, other);
}

#[test]
fn views_by_answer() {
    let mut scratch = Scratch::new();
    let sizes = |scratch: &Scratch| {
        let gaps = scratch.gaps().from.len();
        [scratch.links().prev_lower_freq.len(), scratch.uses().inst.len(), gaps, scratch.gap_segments().gap.len()]
    };
    assert_eq!(sizes(&scratch), [0; 4]);
    assert!(matches!(scratch.propose_split(&case("A").job()), Ok(Answer::Proposal(_))));
    assert_eq!(sizes(&scratch), [1, 2, 2, 2]);
    assert_eq!(scratch.propose_split(&case("I").job()), Ok(Answer::NoBestUse));
    assert_eq!(sizes(&scratch), [1, 2, 0, 0]);
    assert_eq!(scratch.propose_split(&case("G-on-2-to-4").job()), Ok(Answer::NoRegion));
    assert_eq!(sizes(&scratch), [1, 2, 2, 2]);
    assert!(scratch.propose_split(&case("M-end-17").job()).is_err());
    assert_eq!(sizes(&scratch), [0; 4]);
    scratch.propose_split(&case("A").job()).unwrap();
    let sheet = case("A");
    let job = sheet.job();
    let ragged = Job { blocks: Blocks { first: &[], ..job.blocks }, ..job };
    assert!(matches!(scratch.propose_split(&ragged), Err(Error::Lengths(_))));
    assert_eq!(sizes(&scratch), [0; 4]);
}

/// A column more or less, in each column of each table, is an error before the call.
#[test]
fn columns_of_different_lengths() {
    let mut sheet = case("A");
    sheet.spill_weights = vec![0.0];
    sheet.reservations = [0, 8, 12, 0, 0, u32::MAX].map(|field| vec![field]);
    sheet.fixed_uses = [0, 8, 0].map(|field| vec![field]);
    let job = sheet.job();
    let mut scratch = Scratch::new();
    assert!(scratch.propose_split(&job).is_ok());
    let (short, long): (&[u32], &[u32]) = (&[], &[0; 5]);
    let (blocks, segments, uses) = (job.blocks, job.segments, job.uses);
    let (rows, fixed) = (job.reservations, job.fixed_uses);
    let mut tried = 0;
    let mut refuses = |table, job: Job<'_>| {
        let Err(Error::Lengths(LengthMismatch { table: named, shortest, longest })) = scratch.propose_split(&job)
        else {
            panic!("{table:?} was taken");
        };
        assert_eq!(named, table);
        assert!(shortest < longest);
        tried += 1;
    };
    for c in [short, long] {
        let floats: &[f32] = if c.is_empty() { &[] } else { &[0.0; 5] };
        for blocks in [Blocks { freq: floats, ..blocks }, Blocks { first: c, ..blocks }, Blocks { end: c, ..blocks }]
        {
            refuses(Table::Blocks, Job { blocks, ..job });
        }
        for segments in [
            Segments { start: c, ..segments },
            Segments { end: c, ..segments },
            Segments { value: c, ..segments },
            Segments { first_use: c, ..segments },
            Segments { end_use: c, ..segments },
            Segments { flags: c, ..segments },
        ] {
            refuses(Table::Segments, Job { segments, ..job });
        }
        for uses in [Uses { position: c, ..uses }, Uses { kind: c, ..uses }, Uses { cost: c, ..uses }] {
            refuses(Table::Uses, Job { uses, ..job });
        }
        for reservations in [
            Reservations { unit: c, ..rows },
            Reservations { start: c, ..rows },
            Reservations { end: c, ..rows },
            Reservations { kind: c, ..rows },
            Reservations { index: c, ..rows },
            Reservations { fixed: c, ..rows },
        ] {
            refuses(Table::Reservations, Job { reservations, ..job });
        }
        for fixed_uses in
            [FixedUses { unit: c, ..fixed }, FixedUses { point: c, ..fixed }, FixedUses { value: c, ..fixed }]
        {
            refuses(Table::FixedUses, Job { fixed_uses, ..job });
        }
    }
    assert_eq!(tried, 42);
    let ragged = Blocks { first: short, ..blocks };
    assert!(matches!(find_optimal_split_point(&ragged, 0, 4, true), Err(Error::Lengths(_))));
}

/// The same for lent work tables.
#[test]
fn lent_columns_of_different_lengths() {
    let sheet = case("A");
    let mut tried = 0;
    for short in 0..=16 {
        let mut columns: Vec<Vec<u32>> = (0..11).map(|_| vec![0; 9]).collect();
        let mut floats: Vec<Vec<f32>> = (0..5).map(|_| vec![0.0; 9]).collect();
        match short {
            0..11 => columns[short].truncate(8),
            11..16 => floats[short - 11].truncate(8),
            _ => {}
        }
        let mut columns = columns.iter_mut().map(|column| &mut column[..]);
        let mut floats = floats.iter_mut().map(|column| &mut column[..]);
        let (mut column, mut float) = (|| columns.next().unwrap(), || floats.next().unwrap());
        let mut work = WorkTables {
            prev_lower_freq: column(),
            next_lower_freq: column(),
            inst: column(),
            gap_from: column(),
            gap_to: column(),
            live: column(),
            gap_block: column(),
            segment_from: column(),
            segment_to: column(),
            segment_value: column(),
            segment_gap: column(),
            weight: float(),
            left_weight: float(),
            right_weight: float(),
            gap_weight: float(),
            min_freq: float(),
        };
        let answer = propose_split(&sheet.job(), &mut work);
        match short {
            16 => assert!(answer.is_ok()),
            _ => {
                let Err(Error::Lengths(error)) = answer else { panic!("column {short} was taken") };
                assert_eq!((error.shortest, error.longest), (8, 9));
                tried += 1;
            }
        }
    }
    assert_eq!(tried, 16);
}

/// Each refusal is a sentence of its own and names what it is about.
#[test]
fn refusals_in_words() {
    let text = |number, place| Refusal { number, place }.to_string();
    assert!(text(5, 12).starts_with("refusal 5, segment 12: its start is not below its end"));
    assert!(text(10, 3).starts_with("refusal 10, reservation 3: "));
    assert_eq!(text(12, 2), "refusal 12, the gap segments: this work table has too few rows");
    assert!(text(13, 0).starts_with("refusal 13, the split point: "));
    let mut texts: Vec<String> = (1..=13).map(|number| text(number, 0)).collect();
    assert!(texts.iter().all(|text| text.len() > 40 && !text.contains("unknown:")));
    texts.sort();
    texts.dedup();
    assert_eq!(texts.len(), 13);
    for number in 1..=13 {
        let refusal = Refusal { number, place: 1 };
        assert_eq!(refusal.row().is_some(), (3..=11).contains(&number));
        assert_eq!(refusal.table().is_some(), (3..=12).contains(&number));
    }
    let error = Error::from(LengthMismatch { table: Table::Uses, shortest: 1, longest: 2 });
    assert_eq!(error.to_string(), "the columns of the uses differ in length: the shortest has 1, the longest 2");
    let boxed: Box<dyn std::error::Error + Send + Sync> = Box::new(Error::from(Refusal { number: 4, place: 0 }));
    assert!(boxed.to_string().contains("value 0"));
}
