//! Streams of jobs: the supplied Rust against the second reading, bit for bit.

use std::process::ExitCode;
use std::time::Instant;

use gen_jobs::{Cover, Options};
use model::{Reading, name_blocks};
use sheet::{write_answer, write_sheet, write_tables};

/// Prints the first differing jobs and goes on.
const SHOWN: u64 = 5;

pub fn jobs(options: Options) -> ExitCode {
    let started = Instant::now();
    let mut cover = Cover::default();
    let (mut differing, mut fired) = (0u64, 0u64);
    for (item, mut rng) in options.items() {
        let job = options.job(&mut rng);
        if let Some(refusal) = model::refusal(&job) {
            println!("item {item}: the generator made a job that is refused: {refusal:?}");
            return ExitCode::FAILURE;
        }
        let read = Reading::of(&job).read();
        cover.add(&job, &read);
        match supplied::run_job(&job) {
            Err(said) => {
                fired += 1;
                if fired <= SHOWN {
                    println!("item {item}: assertion fired: {said}\n{}", write_sheet(&job));
                }
            }
            Ok(mut ran) => {
                let carry = name_blocks(&job, &mut ran.tables);
                if carry && ran.answer == read.answer && ran.tables == read.tables {
                    continue;
                }
                differing += 1;
                if differing <= SHOWN {
                    println!("item {item} differs\n{}", write_sheet(&job));
                    println!("the Rust:\n{}{}", write_answer(&ran.answer), write_tables(&ran.tables));
                    println!("the reading:\n{}{}", write_answer(&read.answer), write_tables(&read.tables));
                }
            }
        }
    }
    cover.print();
    let seconds = started.elapsed().as_secs_f64();
    println!(
        "{} jobs, seed {}: {differing} differ, {fired} assertions fired, {seconds:.1} s",
        options.count, options.seed
    );
    if differing + fired == 0 { ExitCode::SUCCESS } else { ExitCode::FAILURE }
}

pub fn points(options: Options) -> ExitCode {
    let mut differing = 0;
    let mut moved = 0u64;
    for (item, mut rng) in options.items() {
        let (blocks, after, before, early) = gen_jobs::point_call(&mut rng);
        let read = model::split_point(&blocks, after, before, early, None);
        moved += (read != if early { after + 1 } else { before }) as u64;
        let ran = supplied::split_point(&blocks, after, before, early);
        if ran != Ok(read) {
            differing += 1;
            println!("item {item}: {after} {before} early {early}: the Rust {ran:?}, the reading {read}\n{blocks:?}");
        }
    }
    println!(
        "{} split points, seed {}: {moved} moved to a lower block, {differing} differ or fired",
        options.count, options.seed
    );
    if differing == 0 { ExitCode::SUCCESS } else { ExitCode::FAILURE }
}
