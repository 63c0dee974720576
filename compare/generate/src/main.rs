//! Writes event logs into a folder and says which rules of 01 they reach.
//!
//! `generate OUT --events N --seed S` makes OUT/domain (logs of the differential
//! domain), OUT/beyond (all other good logs) and OUT/damaged (bad logs and some that are
//! only just good), and OUT/coverage.txt, the report, which is also printed. N is the
//! number of events in random runs, half for each of the first two folders; the written
//! logs come on top. The same N and S give the same bytes.
//!
//! `generate --day FILE --exchanges N --seed S` makes one log instead: a Slave's day of N
//! Sync exchanges.
//!
//! Exit codes: 0 all is well; 1 something could not be read or written; 3 a row of the
//! report is empty; 4 the report and the steered port disagree on an answer or a log.

use generate::coverage::Coverage;
use generate::domain::Part;
use generate::random::Random;
use generate::stage::{Folder, Sink};
use generate::{damage, day, exhaustive, extremes, extremes_peer, extremes_sent, fields, guards};
use generate::{limits, orders, timers, tour, walk, window, wraps};
use std::error::Error;
use std::fs::File;
use std::io::{BufWriter, Write};
use std::path::{Path, PathBuf};
use std::process::ExitCode;

const USAGE: &str = "usage: generate OUT [--events N] [--seed S]
       generate --day FILE [--exchanges N] [--seed S]";
const FAILED: u8 = 1;
const EMPTY: u8 = 3;
const DISPUTED: u8 = 4;

struct Options {
    out: PathBuf,
    events: usize,
    seed: u64,
    /// The file of a day, and the exchanges in it.
    day: Option<PathBuf>,
    exchanges: u64,
}

fn options() -> Result<Options, Box<dyn Error>> {
    let mut arguments = std::env::args().skip(1);
    let mut options = Options {
        out: PathBuf::new(),
        events: 1_000_000,
        seed: 1,
        day: None,
        exchanges: 1_000_000,
    };
    let mut named = false;
    while let Some(argument) = arguments.next() {
        match argument.as_str() {
            "--events" => options.events = arguments.next().ok_or(USAGE)?.parse()?,
            "--seed" => options.seed = arguments.next().ok_or(USAGE)?.parse()?,
            "--day" => options.day = Some(arguments.next().ok_or(USAGE)?.into()),
            "--exchanges" => options.exchanges = arguments.next().ok_or(USAGE)?.parse()?,
            _ if named || argument.starts_with('-') => return Err(USAGE.into()),
            _ => (options.out, named) = (argument.into(), true),
        }
    }
    if named != options.day.is_some() {
        Ok(options)
    } else {
        Err(USAGE.into())
    }
}

/// How long a random log is: short ones are many, the longest near 20,000 events. In
/// whole numbers, as powers of floats are not the same on every machine.
fn length(random: &mut Random) -> usize {
    let most = if random.chance(35) { 14 } else { 11 };
    20 + random.of_bits(most) as usize * 5 / 4
}

fn walks(part: Part, seed: u64, events: usize, sink: &mut Sink) {
    let mut lengths = Random::stream(seed, "lengths", part as u64);
    let mut left = events;
    for number in 0.. {
        if left == 0 {
            break;
        }
        let wanted = length(&mut lengths).min(left);
        walk::write(part, seed, number, wanted, sink);
        left -= wanted;
    }
}

/// Makes a folder, and takes out the logs of an earlier run: they would be judged too.
fn prepare(folder: &Path) -> std::io::Result<()> {
    std::fs::create_dir_all(folder)?;
    for entry in std::fs::read_dir(folder)? {
        let path = entry?.path();
        if path.extension().is_some_and(|extension| extension == "log") {
            std::fs::remove_file(path)?;
        }
    }
    Ok(())
}

/// The logs that are the same whatever the size asked for.
fn written(seed: u64, sink: &mut Sink) {
    tour::write(sink);
    orders::write(sink);
    timers::write(sink);
    fields::write(sink);
    limits::write(sink);
    guards::write(sink);
    for edges in [
        extremes::edges(),
        extremes_peer::edges(),
        extremes_sent::edges(),
    ] {
        extremes::write(&edges, sink);
    }
    exhaustive::write(sink);
    window::write(sink);
    damage::write(seed, sink);
}

fn write_day(file: &Path, options: &Options) -> std::io::Result<()> {
    let mut sink = BufWriter::new(File::create(file)?);
    day::write(options.seed, options.exchanges, &mut sink)?;
    sink.flush()
}

fn run() -> Result<ExitCode, Box<dyn Error>> {
    let options = options()?;
    if let Some(file) = &options.day {
        write_day(file, &options)?;
        return Ok(ExitCode::SUCCESS);
    }
    for folder in [Folder::Domain, Folder::Beyond, Folder::Damaged] {
        prepare(&options.out.join(folder.name()))?;
    }
    let mut coverage = Coverage::new();
    let mut failure = None;
    let mut sink = |folder: Folder, name: &str, bytes: &[u8]| {
        coverage.log(folder, name, bytes);
        let path = options.out.join(folder.name()).join(format!("{name}.log"));
        if let Err(error) = std::fs::write(path, bytes) {
            failure = Some(error);
        }
    };
    written(options.seed, &mut sink);
    // The logs of the id generators count as random ones where there is room for them.
    let half = options.events / 2;
    let wraps = wraps::write(&mut sink);
    let domain = if half >= 2 * wraps {
        half - wraps
    } else {
        half
    };
    walks(Part::Domain, options.seed, domain, &mut sink);
    walks(Part::Beyond, options.seed, half, &mut sink);
    if let Some(error) = failure {
        return Err(error.into());
    }
    let report = coverage.report();
    std::fs::write(options.out.join("coverage.txt"), &report)?;
    print!("{report}");
    // A port that answers wrongly may well leave rows empty: the answers are the news.
    Ok(match (coverage.surprises(), coverage.empty()) {
        (0, 0) => ExitCode::SUCCESS,
        (0, _) => EMPTY.into(),
        _ => DISPUTED.into(),
    })
}

fn main() -> ExitCode {
    run().unwrap_or_else(|error| {
        eprintln!("generate: {error}");
        FAILED.into()
    })
}
