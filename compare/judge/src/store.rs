//! Writes the stored answers anew: the hand-made cases, a file for each group of them, and of the
//! generated logs some random ones and the few that reach what the others leave out.

use std::{
    collections::BTreeMap,
    fs, io,
    path::{Path, PathBuf},
};

use generate::stage::Folder;

use crate::{
    cover::{self, Reached},
    judges::Judges,
    program::{files, name, Failure},
    stored::Stored,
    Options,
};

const FOLDERS: [Folder; 3] = [Folder::Domain, Folder::Beyond, Folder::Damaged];

/// Larger logs are not kept: with them the id wraps, of some 65,000 events each.
const LARGEST: u64 = 16_000;

/// Random runs that are kept of each folder, whatever they reach.
const RANDOM: usize = 6;

type Groups = BTreeMap<String, String>;

pub fn store(judges: &Judges, options: &Options) -> io::Result<()> {
    let mut groups = Groups::new();
    let mut covered = Reached::new();
    store_cases(judges, options, &mut groups, &mut covered)?;
    for (folder, log) in kept(options, &mut covered)? {
        let name = format!("{}-{}", folder.name(), name(&log));
        let about = format!("generated, {}", folder.name());
        let stored = answer(judges, &log, &name, &about, folder == Folder::Domain)?;
        let group = format!("generated-{}", folder.name());
        groups.entry(group).or_default().push_str(&stored.to_text());
    }
    // Only now, when every answer is there.
    for old in files(&options.vectors, "txt")? {
        fs::remove_file(old)?;
    }
    for (group, text) in groups {
        fs::write(options.vectors.join(group).with_extension("txt"), text)?;
    }
    for row in cover::missing(&covered) {
        println!("no stored log reaches: {row}");
    }
    Ok(())
}

fn store_cases(
    judges: &Judges,
    options: &Options,
    groups: &mut Groups,
    covered: &mut Reached,
) -> io::Result<()> {
    let file = options.logs.join("case.log");
    for (group, cases) in cases::groups() {
        for case in cases {
            fs::write(&file, &case.log)?;
            let stored = answer(judges, &file, case.name, case.about, case.domain)?;
            groups
                .entry(group.to_string())
                .or_default()
                .push_str(&stored.to_text());
            let folder = if case.domain {
                Folder::Domain
            } else {
                Folder::Beyond
            };
            cover::add(covered, &cover::reached(folder, case.name, &case.log));
        }
    }
    Ok(())
}

/// The generated logs to keep.
fn kept(options: &Options, covered: &mut Reached) -> io::Result<Vec<(Folder, PathBuf)>> {
    let mut all = Vec::new();
    let mut kept = Vec::new();
    for folder in FOLDERS {
        let mut random = 0;
        for log in files(&options.logs.join(folder.name()), "log")? {
            if fs::metadata(&log)?.len() > LARGEST {
                continue;
            }
            let bytes = fs::read(&log)?;
            let rows = cover::reached(folder, &name(&log), &bytes);
            if name(&log).starts_with("walk") && random < RANDOM {
                random += 1;
                cover::add(covered, &rows);
                kept.push((folder, log));
            } else {
                all.push((folder, log, (bytes.len(), rows)));
            }
        }
    }
    let rows: Vec<_> = all.iter().map(|(.., rows)| rows.clone()).collect();
    let few = cover::few(covered, &rows);
    kept.extend(few.into_iter().map(|at| (all[at].0, all[at].1.clone())));
    kept.sort_by(|a, b| a.1.cmp(&b.1));
    Ok(kept)
}

fn answer(
    judges: &Judges,
    log: &Path,
    name: &str,
    about: &str,
    domain: bool,
) -> io::Result<Stored> {
    let failed = |failure: Failure| io::Error::other(failure.to_string());
    let lines = |text: String| text.lines().map(str::to_string).collect::<Vec<_>>();
    let trace = lines(judges.trace.output(log)?.map_err(failed)?);
    let rust = match domain {
        true => Some(lines(judges.statime.output(log)?.map_err(failed)?)),
        false => None,
    };
    Ok(Stored {
        name: name.into(),
        about: about.into(),
        log: fs::read(log)?,
        trace,
        rust,
    })
}
