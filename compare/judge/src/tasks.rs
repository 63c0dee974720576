//! What there is to judge: one log each, with the answers that are known of it beforehand.

use std::{
    collections::BTreeMap,
    fs, io,
    path::{Path, PathBuf},
};

use crate::{program, stored, Options};

pub struct Task {
    /// Where the log is from, for the table.
    pub folder: &'static str,
    pub log: PathBuf,
    /// In the differential domain, so that the supplied Rust is held to it.
    pub domain: bool,
    /// Lines that plain has to write, and where they come from.
    pub known: Option<(&'static str, Vec<String>)>,
    /// Lines that the supplied Rust wrote when they were stored.
    pub rust: Option<Vec<String>>,
    /// Whether the programs that were given are put to it: slow ones take a share.
    pub programs: bool,
}

/// All of them: the cases made by hand, the stored answers, the generated logs.
pub fn all(options: &Options) -> io::Result<Vec<Task>> {
    let mut tasks = Vec::new();
    for case in cases::all().into_iter().chain(cases::wrap()) {
        tasks.push(Task {
            folder: "cases",
            log: written(&options.logs, "cases", case.name, &case.log)?,
            domain: case.domain,
            known: Some(("plain trace = cases, by hand", case.lines)),
            rust: None,
            programs: true,
        });
    }
    for file in some(&options.vectors, "txt")? {
        add_stored(&file, options, &mut tasks)?;
    }
    cases_are_stored(&tasks)?;
    for (folder, domain) in [("domain", true), ("beyond", false), ("damaged", false)] {
        let logs = some(&options.logs.join(folder), "log")?;
        for (at, log) in logs.into_iter().enumerate() {
            tasks.push(Task {
                folder,
                log,
                domain,
                known: None,
                rust: None,
                programs: at.is_multiple_of(options.share),
            });
        }
    }
    Ok(tasks)
}

fn add_stored(file: &Path, options: &Options, tasks: &mut Vec<Task>) -> io::Result<()> {
    let all = stored::parse(&fs::read_to_string(file)?)
        .map_err(|line| io::Error::other(format!("{}: line {line}", file.display())))?;
    for stored in all {
        tasks.push(Task {
            folder: "stored",
            log: written(&options.logs, "stored", &stored.name, &stored.log)?,
            domain: stored.rust.is_some(),
            known: Some(("plain trace = stored answers", stored.trace)),
            rust: stored.rust,
            programs: true,
        });
    }
    Ok(())
}

/// Every case must be among the stored answers as it is now: its name and its bytes.
fn cases_are_stored(tasks: &[Task]) -> io::Result<()> {
    let mut stored = BTreeMap::new();
    for task in tasks.iter().filter(|task| task.folder == "stored") {
        stored.insert(program::name(&task.log), fs::read(&task.log)?);
    }
    for case in cases::all() {
        if stored.get(case.name) != Some(&case.log) {
            let text = format!(
                "case {} is not stored as it is: compare/run --store",
                case.name
            );
            return Err(io::Error::other(text));
        }
    }
    Ok(())
}

/// The files of a folder. None at all would be a comparison of nothing.
fn some(folder: &Path, extension: &str) -> io::Result<Vec<PathBuf>> {
    let files = program::files(folder, extension)?;
    match files.is_empty() {
        true => Err(io::Error::other(format!(
            "{}: no .{extension} there",
            folder.display()
        ))),
        false => Ok(files),
    }
}

/// A log in a file of its own beside the generated ones.
pub fn written(logs: &Path, folder: &str, name: &str, log: &[u8]) -> io::Result<PathBuf> {
    let folder = logs.join(folder);
    fs::create_dir_all(&folder)?;
    let file = folder.join(format!("{name}.log"));
    fs::write(&file, log)?;
    Ok(file)
}
