//! Runs the judges on the same logs and holds their answers against each other.
//!
//! `judge check` compares; `judge store` writes the stored answers anew. compare/run calls
//! both and says how. `judge samples FOLDER` writes the logs of samples/, for compare/samples.

mod check;
mod compare;
mod cover;
mod fields;
mod hex;
mod judges;
mod predict;
mod program;
mod samples;
mod shrink;
mod store;
mod stored;
mod table;
mod tasks;

use std::{io, path::PathBuf, process::ExitCode, time::Duration};

use judges::Judges;

const USAGE: &str = "usage: judge check|store --built FOLDER --statime PROGRAM --logs FOLDER \
                     --vectors FOLDER [--programs FOLDER] [--share N] [--limit SECONDS] \
                     [--no-smallest]\n       judge samples FOLDER";

pub struct Options {
    built: PathBuf,
    statime: PathBuf,
    logs: PathBuf,
    vectors: PathBuf,
    programs: Option<PathBuf>,
    /// The programs are put to one in so many of the generated logs.
    share: usize,
    /// How long any program may take for a log.
    limit: Duration,
    /// Whether logs that show a difference are made small.
    smallest: bool,
}

fn options(mut args: impl Iterator<Item = String>) -> Option<Options> {
    let mut found = [const { None::<PathBuf> }; 5];
    let (mut smallest, mut share, mut limit) = (true, 1, 60);
    while let Some(name) = args.next() {
        match name.as_str() {
            "--no-smallest" => smallest = false,
            "--share" => share = args.next()?.parse().ok()?,
            "--limit" => limit = args.next()?.parse().ok()?,
            _ => {
                let names = ["--built", "--statime", "--logs", "--vectors", "--programs"];
                let at = names.iter().position(|known| *known == name)?;
                found[at] = Some(args.next()?.into());
            }
        }
    }
    let [built, statime, logs, vectors, programs] = found;
    Some(Options {
        built: built?,
        statime: statime?,
        logs: logs?,
        vectors: vectors?,
        programs,
        share: (share > 0).then_some(share)?,
        limit: Duration::from_secs(limit),
        smallest,
    })
}

/// Whether all is well.
fn judged(command: &str, options: &Options) -> io::Result<bool> {
    let judges = Judges::new(options)?;
    match command {
        "check" => check::check(&judges, options),
        "store" => store::store(&judges, options).map(|()| true),
        _ => Err(io::Error::other(USAGE)),
    }
}

fn main() -> ExitCode {
    let mut args = std::env::args().skip(1);
    let command = args.next().unwrap_or_default();
    let usage = || io::Error::other(USAGE);
    let done = match command.as_str() {
        "samples" => args
            .next()
            .ok_or_else(usage)
            .and_then(|folder| samples::write(folder.as_ref()).map(|()| true)),
        _ => options(args)
            .ok_or_else(usage)
            .and_then(|options| judged(&command, &options)),
    };
    match done {
        Ok(true) => ExitCode::SUCCESS,
        Ok(false) => ExitCode::from(1),
        Err(error) => {
            eprintln!("judge: {error}");
            ExitCode::from(2)
        }
    }
}
