//! What was measured, as Markdown.

use crate::sets::Set;
use crate::sides::Times;

/// An edition: 900 programs with 5,000 jobs each.
const EDITION: f64 = 900.0 * 5_000.0;

fn what(name: &str) -> &str {
    match name {
        "tiny" => "a few rows",
        "small" => "some dozens",
        "sheet" => "some hundreds",
        "full" => "thousands",
        _ => "a stream's mixture",
    }
}

pub fn by_size(timed: &[(Set, Times)], rounds: u32) {
    println!("Nanoseconds a job, the best of {rounds} rounds; the rounds of both sides alternate.\n");
    println!(
        "| jobs | number | proposals | rows a job | the Rust | with a table | the port | its checks | its work | port / Rust | work / Rust |"
    );
    println!("|---|--:|--:|--:|--:|--:|--:|--:|--:|--:|--:|");
    for (set, t) in timed {
        let work = t.port - t.checks;
        println!(
            "| {} (`{}`) | {} | {} | {:.0} | {:.0} | {:.0} | {:.0} | {:.0} | {:.0} | {:.2} | {:.2} |",
            what(&set.name),
            set.name,
            set.jobs.len(),
            set.proposals,
            set.rows(),
            t.rust,
            t.rust_with_table,
            t.port,
            t.checks,
            work,
            t.port / t.rust,
            work / t.rust
        );
    }
    println!("\nAn edition of 900 programs with 5,000 jobs each, if all its jobs were of that size:\n");
    println!("| jobs | the Rust | the port | difference |");
    println!("|---|--:|--:|--:|");
    for (set, t) in timed {
        let seconds = |ns: f64| ns * EDITION / 1e9;
        let (rust, port) = (seconds(t.rust), seconds(t.port));
        println!("| {} (`{}`) | {rust:.1} s | {port:.1} s | {:.1} s |", what(&set.name), set.name, port - rust);
    }
}

/// Time by the rows of each table, with the exponent since the line before: 1 is linear.
pub fn by_rows(timed: &[(Set, Times)]) {
    println!(
        "\nJobs of one make with so many rows in each of the seven tables; nanoseconds a row of one table, and how the time of a"
    );
    println!("job grew since the line before, as a power of the rows:\n");
    println!(
        "| rows of each | jobs | the Rust | a row | power | the port | a row | power | its checks | power | port / Rust |"
    );
    println!("|--:|--:|--:|--:|--:|--:|--:|--:|--:|--:|--:|");
    let mut last: Option<(f64, &Times)> = None;
    for (set, t) in timed {
        let rows = set.rows() / 7.0;
        let power = |now: f64, of: fn(&Times) -> f64| match last {
            Some((before, times)) => format!("{:.2}", (now / of(times)).ln() / (rows / before).ln()),
            None => "-".to_string(),
        };
        println!(
            "| {rows:.0} | {} | {:.0} | {:.1} | {} | {:.0} | {:.1} | {} | {:.0} | {} | {:.2} |",
            set.jobs.len(),
            t.rust,
            t.rust / rows,
            power(t.rust, |t| t.rust),
            t.port,
            t.port / rows,
            power(t.port, |t| t.port),
            t.checks,
            power(t.checks, |t| t.checks),
            t.port / t.rust
        );
        last = Some((rows, t));
    }
}
