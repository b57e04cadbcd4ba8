//! Chooses and writes the recorded answers: recorded/README.md has their form.

use std::collections::{BTreeMap, BTreeSet};
use std::fs;
use std::process::ExitCode;

use gen_jobs::{Options, Rng, Size};
use model::{CheckSlip, Outcome, PointSlip, ROOMY, Reading, Rooms, Slip};
use sheet::{
    Answer, Block, FigureSlip, Job, Limits, Tables, fields, h_figure, h_figure_with, read_sheet, write_answer,
    write_sheet, write_tables,
};

use crate::cases::{recorded, replayed};
use crate::{print, rust};

const SEED: u64 = 20_261_115;
const ONE: u32 = 1_065_353_216;

/// How many sheets are kept, how many of them are to notice each slip, and how many have each feature.
const SHEETS: usize = 300;
const NOTICED: u32 = 12;
const FEATURED: u32 = 4;

/// The answer and the tables as they stand in a record.
fn text_of(answer: &Answer, tables: &Tables) -> String {
    write_answer(answer) + &write_tables(tables)
}

/// A record: a sheet's bytes, the answer, the tables filled, and whether the Rust gave them.
fn record(sheet: &[u8], answer: &Answer, tables: &Tables, by_rust: bool) -> Vec<u8> {
    let answer = write_answer(answer);
    let sizes = [
        sheet.len(),
        answer.len(),
        tables.links.len(),
        tables.uses.len(),
        tables.gaps.len(),
        tables.gap_segments.len(),
        by_rust as usize,
    ];
    let mut text = fields('s', &sizes.map(|n| n as u32)).into_bytes();
    text.extend(sheet);
    text.extend(answer.bytes());
    text.extend(write_tables(tables).bytes());
    text.extend(b"=\n");
    text
}

fn save(name: &str, records: &[Vec<u8>]) {
    let mut text = fields('c', &[records.len() as u32]).into_bytes();
    text.extend(records.concat());
    for folder in [recorded(), replayed()] {
        fs::write(folder.join(name), &text).unwrap();
    }
    println!("{name}: {} records, {} bytes", records.len(), text.len());
}

pub fn write() -> ExitCode {
    save("answers.txt", &answers());
    save("refusals.txt", &refusals());
    save("rooms.txt", &rooms());
    save("points.txt", &points());
    save("long.txt", &long());
    ExitCode::SUCCESS
}

/// The Rust's answer to an accepted job as a record.
fn rust_record(job: &Job) -> Vec<u8> {
    let ran = rust(job).unwrap();
    record(write_sheet(job).as_bytes(), &ran.answer, &ran.tables, true)
}

/// Prints accepted jobs as records. A job on which an assertion fires stands as its text behind `!` on standard error.
pub fn stream(options: Options) -> ExitCode {
    let mut records = vec![];
    for (item, mut rng) in options.items() {
        let job = options.job(&mut rng);
        match rust(&job) {
            Ok(ran) => records.push(record(write_sheet(&job).as_bytes(), &ran.answer, &ran.tables, true)),
            Err(said) => eprintln!("! item {item}: {said}"),
        }
    }
    print_records(&records)
}

/// Prints damaged jobs and damaged texts as records.
pub fn damage(options: Options) -> ExitCode {
    let made = options.items().map(|(item, mut rng)| match item % 4 {
        0 => gen_jobs::damaged_text(&mut rng).1,
        _ => write_sheet(&gen_jobs::damaged_often(&mut rng)).into_bytes(),
    });
    print_records(&made.map(|text| sheet_record(&text)).collect::<Vec<_>>())
}

fn print_records(records: &[Vec<u8>]) -> ExitCode {
    print(fields('c', &[records.len() as u32]).as_bytes());
    for record in records {
        print(record);
    }
    ExitCode::SUCCESS
}

/// The slips that a job notices: in the answer, and in answer or tables.
fn noticed(job: &Job) -> Vec<(Slip, bool)> {
    let read = Reading::of(job).read();
    let (answer, all) = (write_answer(&read.answer), text_of(&read.answer, &read.tables));
    let notices = |slip: &Slip| {
        let other = Reading::with_slip(job, *slip).read();
        let differs = text_of(&other.answer, &other.tables) != all;
        differs.then(|| (*slip, write_answer(&other.answer) != answer))
    };
    Slip::ALL.iter().filter_map(notices).collect()
}

/// The slips in the H figure that a job's answer notices.
pub fn figures_noticed(job: &Job, answer: &Answer) -> Vec<FigureSlip> {
    let Answer::Proposed(p, normalised) = answer else {
        return vec![];
    };
    let notices = |slip: &FigureSlip| h_figure_with(p, job.k, *normalised, *slip) != h_figure(*normalised);
    FigureSlip::ALL.into_iter().filter(notices).collect()
}

/// What a job has: its features and the slips that it notices.
fn had(job: &Job) -> Vec<String> {
    let read = Reading::of(job).read();
    let mut has: Vec<String> = gen_jobs::features(job, &read).into_iter().collect();
    has.extend(figures_noticed(job, &read.answer).iter().map(|slip| format!("figure {slip:?}")));
    for (slip, in_answer) in noticed(job) {
        has.push(format!("slip {slip:?}"));
        if in_answer {
            has.push(format!("slip {slip:?} in the answer"));
        }
    }
    has
}

/// The sheets that best serve what slips and features still want for their length; then others up to the number.
fn answers() -> Vec<Vec<u8>> {
    let job_of = |item| {
        let size = match item % 300 {
            0 => Size::Sheet,
            n if n % 3 == 0 => Size::Tiny,
            _ => Size::Small,
        };
        gen_jobs::accepted(&mut Rng::of(SEED, item), size)
    };
    let mut pool: Vec<Job> = (0..24_000).map(job_of).collect();
    // Rare ones, looked for by themselves.
    let rare = (1_000_000..1_400_001).map(job_of).filter(|job| {
        let answer = Reading::of(job).read().answer;
        let slips = [Slip::AddLeftGap, Slip::AddRightGap];
        job.fits_sheet() && slips.iter().any(|slip| Reading::with_slip(job, *slip).read().answer != answer)
    });
    pool.extend(rare.take(40));
    let lengths: Vec<usize> = pool.iter().map(|job| write_sheet(job).len()).collect();
    let mut wanted: Vec<(String, u32)> = vec![];
    for slip in Slip::ALL {
        wanted.push((format!("slip {slip:?}"), NOTICED));
        if !matches!(slip, Slip::BlockOtherEnd | Slip::BlockOfBest) {
            wanted.push((format!("slip {slip:?} in the answer"), NOTICED / 2));
        }
    }
    let mut ids: BTreeMap<String, usize> = wanted.iter().enumerate().map(|(i, w)| (w.0.clone(), i)).collect();
    let mut has: Vec<Vec<usize>> = vec![];
    for job in &pool {
        let of_job = had(job).into_iter().map(|what| {
            *ids.entry(what.clone()).or_insert_with(|| {
                wanted.push((what, FEATURED));
                wanted.len() - 1
            })
        });
        has.push(of_job.collect());
    }
    let mut kept: BTreeSet<usize> = BTreeSet::new();
    while kept.len() < SHEETS {
        let gain = |at: usize| has[at].iter().filter(|id| wanted[**id].1 > 0).count();
        let score = |at: usize| gain(at) as f64 / (300 + lengths[at]) as f64;
        let best = (0..pool.len()).filter(|at| !kept.contains(at)).max_by(|a, b| score(*a).total_cmp(&score(*b)));
        let Some(best) = best.filter(|best| gain(*best) > 0) else {
            break;
        };
        kept.insert(best);
        for id in &has[best] {
            wanted[*id].1 = wanted[*id].1.saturating_sub(1);
        }
    }
    for (what, left) in wanted.iter().filter(|w| w.1 > 0) {
        println!("answers.txt: {left} more wanted with: {what}");
    }
    println!("answers.txt: {} sheets chosen for a slip or a feature", kept.len());
    // The rest from all over the pool: short ones that grow and are barred.
    let mut rng = Rng::of(SEED, u64::MAX);
    while kept.len() < SHEETS {
        let at = rng.below(pool.len() as u32) as usize;
        let tries = Reading::of(&pool[at]).read().tries;
        let barred = tries.iter().any(|t| t.outcome != Outcome::Grown);
        if lengths[at] < 800 && tries.len() >= 3 && barred {
            kept.insert(at);
        }
    }
    kept.iter().map(|at| rust_record(&pool[*at])).collect()
}

/// A sheet that no Rust stands behind: its answer rests on document 01 alone, unless the job is accepted.
fn sheet_record(text: &[u8]) -> Vec<u8> {
    let refused = match read_sheet(text, Limits::Sheet) {
        Err(refusal) => Some(refusal),
        Ok(job) => model::refusal(&job),
    };
    match refused {
        Some((number, place)) => record(text, &Answer::Refused(number, place), &Tables::default(), false),
        None => rust_record(&read_sheet(text, Limits::Sheet).unwrap()),
    }
}

/// Every damage, every damaged text, and faults in twos so that each slip in the checks is noticed.
fn refusals() -> Vec<Vec<u8>> {
    let mut records = vec![];
    let mut slips: BTreeMap<String, u32> = CheckSlip::all().iter().map(|s| (format!("{s:?}"), 0)).collect();
    // Whether a job notices a slip that fewer than `least` have noticed.
    let mut count = |job: &Job, least: u32| {
        let refusal = model::refusal(job);
        let mut useful = false;
        for slip in CheckSlip::all() {
            if model::refusal_with(job, ROOMY, Some(slip)) != refusal {
                let seen = slips.get_mut(&format!("{slip:?}")).unwrap();
                useful |= *seen < least;
                *seen += 1;
            }
        }
        useful
    };
    for damage in 0..gen_jobs::damages() {
        let made = (0..500).filter_map(|item| gen_jobs::damaged(&mut Rng::of(SEED + 1, item), damage));
        let Some((_, job)) = made.min_by_key(|(_, job)| write_sheet(job).len()) else {
            println!("refusals.txt: no job for damage {damage}");
            continue;
        };
        count(&job, 0);
        records.push(sheet_record(write_sheet(&job).as_bytes()));
    }
    for item in 0..200_000 {
        let job = gen_jobs::damaged_often(&mut Rng::of(SEED + 2, item));
        if write_sheet(&job).len() < 900 && count(&job, 3) {
            records.push(sheet_record(write_sheet(&job).as_bytes()));
        }
    }
    // Of every damaged text the shortest ones with different answers, the long ones once.
    let mut texts: BTreeMap<&str, Vec<Vec<u8>>> = BTreeMap::new();
    for item in 0..20_000 {
        let (name, text) = gen_jobs::damaged_text(&mut Rng::of(SEED + 3, item));
        texts.entry(name).or_default().push(text);
    }
    assert_eq!(texts.len(), gen_jobs::text_damages());
    for list in texts.values_mut() {
        list.sort_by_key(|text| text.len());
        let most = if list[0].len() > 6000 { 1 } else { 3 };
        let mut kept: BTreeMap<String, &[u8]> = BTreeMap::new();
        for text in list.iter() {
            let answer = format!("{:?}", read_sheet(text, Limits::Sheet).map(|job| model::refusal(&job)));
            if kept.len() < most {
                kept.entry(answer).or_insert(text);
            }
        }
        records.extend(kept.values().map(|text| sheet_record(text)));
    }
    records
}

/// Work tables of exactly the rows asked for, one less in each place, and faults before them.
fn rooms() -> Vec<Vec<u8>> {
    let mut records = vec![];
    for item in 0..9 {
        let mut rng = Rng::of(SEED + 4, item);
        let mut damage = |name| gen_jobs::damaged(&mut rng, gen_jobs::damage_named(name)).unwrap().1;
        let job = match item {
            5 => damage("k one past"),
            6 => damage("row: unknown unit"),
            7 => damage("fixed use: unknown value"),
            8 => damage("fixed use: at the blocks' end"),
            _ => gen_jobs::accepted(&mut rng, Size::Tiny),
        };
        let (u, b, s) = (job.uses.len(), job.blocks.len(), job.segments.len());
        let needs = [u + 2, u + b + 2, u + b + s + 2, b];
        let mut asked: Vec<Rooms> = vec![needs];
        for short in 0..4 {
            let mut rooms = needs;
            rooms[short] -= 1;
            asked.push(rooms);
        }
        asked.push([needs[0] - 1, needs[1] - 1, 0, 0]);
        asked.push([needs[0], 0, 0, needs[3] - 1]);
        for rooms in asked {
            let mut text = fields('t', &rooms.map(|n| n as u32)).into_bytes();
            text.extend(match model::refusal_with(&job, rooms, None) {
                Some((number, place)) => {
                    let answer = Answer::Refused(number, place);
                    record(write_sheet(&job).as_bytes(), &answer, &Tables::default(), false)
                }
                None => rust_record(&job),
            });
            records.push(text);
        }
    }
    records
}

/// Tables of 4,096 and 4,097 items, told by a sheet and how often a table's last line stands in the job.
fn long() -> Vec<Vec<u8>> {
    let mut records = vec![];
    let sheet = [
        fields('P', &[0, ONE, ONE, ONE, 1]),
        fields('B', &[ONE, 0, 4]),
        fields('V', &[0]),
        fields('S', &[2, 14, 0, 0, 2, 0]),
        fields('U', &[0, 5, ONE]),
        fields('U', &[3, 4, ONE]),
        fields('W', &[0]),
        fields('E', &[0, 8, 12, 0, 0, 0]),
        fields('F', &[0, 8, 0]),
    ]
    .concat();
    let job = read_sheet(sheet.as_bytes(), Limits::Sheet).unwrap();
    for table in 0..7 {
        for items in [4096, 4097] {
            let longer = lengthened(&job, table, items);
            let (answer, tables) = match model::refusal(&longer) {
                Some((number, place)) => (Answer::Refused(number, place), Tables::default()),
                None => rust(&longer).map(|ran| (ran.answer, ran.tables)).unwrap(),
            };
            let by_rust = !matches!(answer, Answer::Refused(..));
            let mut text = fields('n', &[table as u32, items as u32]).into_bytes();
            text.extend(record(sheet.as_bytes(), &answer, &tables, by_rust));
            records.push(text);
        }
    }
    records
}

/// The job with the last row of a table (in sheet order, from 0) repeated until it has so many.
pub fn lengthened(job: &Job, table: usize, items: usize) -> Job {
    fn fill<T: Copy>(rows: &mut Vec<T>, items: usize) {
        rows.resize(items, *rows.last().unwrap());
    }
    let mut job = job.clone();
    match table {
        0 => fill(&mut job.blocks, items),
        1 => fill(&mut job.values, items),
        2 => fill(&mut job.segments, items),
        3 => fill(&mut job.uses, items),
        4 => fill(&mut job.weights, items),
        5 => fill(&mut job.rows, items),
        _ => fill(&mut job.fixed, items),
    }
    job
}

/// Block lists with calls for the lower-cost split point.
fn points() -> Vec<Vec<u8>> {
    let mut records = vec![];
    let mut item = 0;
    while records.len() < 40 {
        let mut rng = Rng::of(SEED + 5, item);
        item += 1;
        let (blocks, _, _, _) = gen_jobs::point_call(&mut rng);
        let end = blocks.last().unwrap().end;
        if blocks.len() > 12 || end > 60 {
            continue;
        }
        let mut calls = vec![];
        for after in 0..end {
            for before in after + 1..=end {
                calls.push((after, before, true));
                calls.push((after, before, false));
            }
        }
        // Those that notice a slip first, then any.
        let notices = |call: &(u32, u32, bool)| {
            let (after, before, early) = *call;
            let right = model::split_point(&blocks, after, before, early, None);
            let slips = PointSlip::ALL.iter();
            slips.filter(|s| model::split_point(&blocks, after, before, early, Some(**s)) != right).count()
        };
        calls.sort_by_key(|call| std::cmp::Reverse(notices(call)));
        calls.truncate(6);
        calls.push((0, end, true));
        calls.push((0, end, false));
        calls.push((end - 1, end, rng.chance(1, 2)));
        // At the limits of 13 and past them.
        calls.push((end, end, true));
        calls.push((0, end + 1, false));
        records.push(point_record(&blocks, &calls));
    }
    // Block lists refused by 2 and 3, where 13 would hold too.
    let b = |freq, first, end| Block { freq, first, end };
    for blocks in [
        vec![],
        vec![b(ONE, 1, 4)],
        vec![b(ONE, 0, 4), b(ONE, 5, 6)],
        vec![b(ONE, 0, 4), b(ONE, 4, 4)],
        vec![b(ONE, 0, 262_144)],
        vec![b(ONE, 0, 262_145)],
        vec![b(2_139_095_039, 0, 4)],
        vec![b(ONE, 0, 1), b(2_139_095_040, 1, 4)],
    ] {
        let calls =
            [(0, 4, true), (0, 4, false), (3, 3, true), (5, 2, false), (0, u32::MAX, true), (u32::MAX, 0, true)];
        records.push(point_record(&blocks, &calls));
    }
    records
}

fn point_record(blocks: &[Block], calls: &[(u32, u32, bool)]) -> Vec<u8> {
    let mut text = fields('b', &[blocks.len() as u32, calls.len() as u32]);
    for b in blocks {
        text += &fields('B', &[b.freq, b.first, b.end]);
    }
    for (after, before, early) in calls {
        text += &match model::split_point_refusal(blocks, *after, *before, None) {
            Some((number, place)) => fields('x', &[*after, *before, *early as u32, number, place]),
            None => {
                let point = supplied::split_point(blocks, *after, *before, *early).unwrap();
                fields('p', &[*after, *before, *early as u32, point])
            }
        };
    }
    text += "=\n";
    text.into_bytes()
}
