//! The oracle: sheets answered by the supplied Rust, and streams of jobs compared with the second reading.

mod cases;
mod compare;
mod record;
mod replay;

use std::io::{Read, Write};
use std::process::ExitCode;

use gen_jobs::Options;
use sheet::{Job, Limits, read_sheet, write_answer, write_sheet, write_tables};
use supplied::Ran;

const USAGE: &str = "\
usage: oracle/run COMMAND
  answer SHEET             the answer to a sheet (- for standard input)
  tables SHEET             the answer and the tables filled
  unchecked SHEET          the same without the checks 1 to 11: shows which assertion a refused job would fire
  cases                    document 01's cases A to M
  generate [OPTIONS]       accepted jobs as sheets, an empty line after each
  stream [OPTIONS]         the same as records with the Rust's answers and tables (recorded/README.md)
  damage [OPTIONS]         damaged jobs and texts as records; refusals rest on the second reading
  compare [OPTIONS]        the Rust against the second reading on accepted jobs
  points [OPTIONS]         the same for the lower-cost split point
  record                   writes recorded/*.txt again, and the copies in crates/replay/data
  replay                   the Rust and the second reading against recorded/*.txt
  slips                    for each slip the recorded sheets that notice it
  library [OPTIONS]        the Rust against the proved static library on accepted and damaged jobs and split points
OPTIONS: --seed N (1), --count N (1000), --from N (0), --size tiny|small|sheet|full|limit|stream (stream)";

fn main() -> ExitCode {
    let args: Vec<String> = std::env::args().skip(1).collect();
    let Some((command, rest)) = args.split_first() else {
        return usage();
    };
    match (command.as_str(), rest) {
        ("answer", [path]) => answer(path, Wanted::Answer),
        ("tables", [path]) => answer(path, Wanted::Tables),
        ("unchecked", [path]) => answer(path, Wanted::Unchecked),
        ("cases", []) => cases::cases(),
        ("record", []) => record::write(),
        ("replay", []) => replay::replay(),
        ("slips", []) => replay::slips(),
        ("generate", rest) => with(rest, generate),
        ("stream", rest) => with(rest, record::stream),
        ("damage", rest) => with(rest, record::damage),
        ("compare", rest) => with(rest, compare::jobs),
        ("points", rest) => with(rest, compare::points),
        _ => usage(),
    }
}

fn usage() -> ExitCode {
    eprintln!("{USAGE}");
    ExitCode::from(2)
}

/// Prints, and ends quietly where nobody reads.
pub fn print(text: &[u8]) {
    if std::io::stdout().write_all(text).is_err() {
        std::process::exit(0);
    }
}

fn with(args: &[String], run: impl FnOnce(Options) -> ExitCode) -> ExitCode {
    Options::read(args).map_or_else(usage, run)
}

/// What is printed of a sheet.
#[derive(Clone, Copy, PartialEq, Eq)]
pub enum Wanted {
    Answer,
    Tables,
    /// Answer and tables, and the Rust is asked whatever the checks say.
    Unchecked,
}

fn answer(path: &str, wanted: Wanted) -> ExitCode {
    let mut text = Vec::new();
    let read = match path {
        "-" => std::io::stdin().read_to_end(&mut text).map(|_| ()),
        _ => std::fs::read(path).map(|bytes| text = bytes),
    };
    if let Err(error) = read {
        eprintln!("oracle: {path}: {error}");
        return ExitCode::from(2);
    }
    let text = answer_text(&text, wanted);
    print(text.as_bytes());
    if text.starts_with('!') { ExitCode::FAILURE } else { ExitCode::SUCCESS }
}

/// The answer to a sheet as text, with the tables if they are wanted; `!` and an assertion that fired.
///
/// Refusals rest on the second reading: the Rust is asked only about accepted jobs.
pub fn answer_text(text: &[u8], wanted: Wanted) -> String {
    let job = read_sheet(text, Limits::Sheet);
    let refused = match &job {
        Ok(_) if wanted == Wanted::Unchecked => None,
        Ok(job) => model::refusal(job),
        Err(refusal) => Some(*refusal),
    };
    if let Some((number, place)) = refused {
        return write_answer(&sheet::Answer::Refused(number, place));
    }
    let job = job.unwrap();
    let ran = if wanted == Wanted::Unchecked { supplied::run_job(&job) } else { rust(&job) };
    match ran {
        Ok(ran) if wanted == Wanted::Answer => write_answer(&ran.answer),
        Ok(ran) => write_answer(&ran.answer) + &write_tables(&ran.tables),
        Err(said) => format!("! {said}\n"),
    }
}

/// What the Rust answers an accepted job. Its gaps name the blocks of the second reading.
pub fn rust(job: &Job) -> Result<Ran, String> {
    let mut ran = supplied::run_job(job)?;
    assert!(model::name_blocks(job, &mut ran.tables), "a gap's block does not carry its frequency");
    Ok(ran)
}

fn generate(options: Options) -> ExitCode {
    for (_, mut rng) in options.items() {
        let job = options.job(&mut rng);
        print((write_sheet(&job) + "\n").as_bytes());
    }
    ExitCode::SUCCESS
}
