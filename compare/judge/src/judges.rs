//! The programs, and all comparisons of one log.

use std::{fs, io, path::Path};

use crate::{
    compare::{self, Difference},
    predict::Rule,
    program::{self, Failure, Output, Program},
    shrink,
    tasks::{written, Task},
    Options,
};

pub struct Judges {
    pub trace: Program,
    replay: Program,
    pub statime: Program,
    programs: Vec<Program>,
}

/// Who is held to something.
#[derive(Clone, Copy, Debug, PartialEq, Eq)]
pub enum Judge {
    Plain,
    Statime,
    /// One of those in the folder that was given.
    Program(usize),
}

/// One comparison of one log.
pub struct Outcome {
    pub judge: Judge,
    /// The row of the table that it counts in.
    pub what: String,
    pub lines: usize,
    /// Lines that a listed rule changed, and the rules that did.
    pub predicted: usize,
    pub used: Vec<Rule>,
    pub difference: Option<Difference>,
}

impl Outcome {
    fn new(judge: Judge, what: String, expected: &[String], got: &Output) -> Outcome {
        Outcome {
            judge,
            what,
            lines: expected.len(),
            predicted: 0,
            used: Vec::new(),
            difference: compare::difference(expected, got),
        }
    }
}

impl Judges {
    pub fn new(options: &Options) -> io::Result<Judges> {
        Ok(Judges {
            trace: Program::new("plain trace", options.built.join("trace"), options.limit),
            replay: Program::new("plain replay", options.built.join("replay"), options.limit),
            statime: Program::new("statime", &options.statime, options.limit),
            programs: match &options.programs {
                Some(folder) => program::in_folder(folder, options.limit)?,
                None => Vec::new(),
            },
        })
    }

    /// One log, on all programs.
    pub fn compare(&self, task: &Task) -> io::Result<Vec<Outcome>> {
        let mut outcomes = Vec::new();
        let ours = self.trace.output(&task.log)?;
        if let Some((what, lines)) = &task.known {
            outcomes.push(Outcome::new(Judge::Plain, what.to_string(), lines, &ours));
        }
        let ours = match ours {
            Ok(ours) => ours,
            Err(_) => {
                let what = format!("plain trace ends well, {}", task.folder);
                outcomes.push(Outcome::new(Judge::Plain, what, &[], &ours));
                return Ok(outcomes);
            }
        };
        let replayed = compare::replay_of_trace(&ours);
        let what = format!("plain replay = its trace, {}", task.folder);
        let got = self.replay.output(&task.log)?;
        outcomes.push(Outcome::new(Judge::Plain, what, &replayed, &got));
        let theirs = match task.domain {
            true => Some(self.compare_rust(task, &ours, &mut outcomes)?),
            false => None,
        };
        if task.programs {
            let known = (&*ours, &*replayed, theirs.as_ref());
            self.compare_programs(task, known, &mut outcomes)?;
        }
        Ok(outcomes)
    }

    /// Tells what the Rust wrote.
    fn compare_rust(&self, task: &Task, ours: &str, to: &mut Vec<Outcome>) -> io::Result<Output> {
        let theirs = self.statime.output(&task.log)?;
        if let Some(lines) = &task.rust {
            let what = "statime = stored answers".to_string();
            to.push(Outcome::new(Judge::Statime, what, lines, &theirs));
        }
        let (expected, predicted, used) = compare::expected_of_rust(&fs::read(&task.log)?, ours);
        let what = format!("statime = plain by the rules, {}", task.folder);
        let outcome = Outcome::new(Judge::Statime, what, &expected, &theirs);
        to.push(Outcome {
            predicted,
            used,
            ..outcome
        });
        Ok(theirs)
    }

    /// Each program with plain and, in the domain, what it traced with what the Rust wrote.
    fn compare_programs(
        &self,
        task: &Task,
        (ours, replayed, theirs): (&str, &[String], Option<&Output>),
        to: &mut Vec<Outcome>,
    ) -> io::Result<()> {
        let traced: Vec<String> = ours.lines().map(str::to_string).collect();
        for (at, program) in self.programs.iter().enumerate() {
            let judge = Judge::Program(at);
            let (own, expected) = match program.traces() {
                true => ("trace", traced.as_slice()),
                false => ("replay", replayed),
            };
            let what = format!("{} = plain {own}, {}", program.name, task.folder);
            let got = program.output(&task.log)?;
            to.push(Outcome::new(judge, what, expected, &got));
            if let (true, Some(theirs), Ok(got)) = (program.traces(), theirs, got) {
                let (expected, predicted, _) =
                    compare::expected_of_rust(&fs::read(&task.log)?, &got);
                let what = format!("statime = {} by the rules, {}", program.name, task.folder);
                let outcome = Outcome::new(judge, what, &expected, theirs);
                // The rules' uses were counted with plain.
                to.push(Outcome {
                    predicted,
                    ..outcome
                });
            }
        }
        Ok(())
    }

    /// The names of the programs that were given.
    pub fn given(&self) -> Vec<&str> {
        self.programs.iter().map(|program| &*program.name).collect()
    }

    /// Leaves the smallest log that shows a difference of this judge's among the findings, and
    /// says where.
    pub fn smallest(&self, judge: Judge, log: &Path, logs: &Path) -> io::Result<()> {
        let name = match judge {
            Judge::Plain => return Ok(()),
            Judge::Statime => &self.statime.name,
            Judge::Program(at) => &self.programs[at].name,
        };
        let file = written(
            logs,
            "findings",
            &format!("{name}-{}", program::name(log)),
            &[],
        )?;
        let mut parts = |file: &Path| self.still_parts(judge, file);
        let smallest = shrink::shrink(&fs::read(log)?, &file, &mut parts)?;
        println!(
            "  smallest log, {} bytes: {}",
            smallest.len(),
            file.display()
        );
        Ok(())
    }

    /// Whether a log that was made smaller still shows a difference, the Rust's in the domain.
    fn still_parts(&self, judge: Judge, file: &Path) -> io::Result<bool> {
        let ours = self.trace.output(file)?;
        match judge {
            Judge::Plain => Ok(false),
            Judge::Program(at) => {
                let program = &self.programs[at];
                let ours = if program.traces() {
                    ours
                } else {
                    self.replay.output(file)?
                };
                let theirs = program.output(file)?;
                let stopped = theirs.as_ref().is_err_and(Failure::stopped);
                Ok(ours != theirs && !stopped)
            }
            Judge::Statime => {
                let Ok(ours) = ours else { return Ok(false) };
                let theirs = self.statime.output(file)?;
                let (expected, ..) = compare::expected_of_rust(&fs::read(file)?, &ours);
                let differ = compare::difference(&expected, &theirs).is_some();
                Ok(differ && theirs.is_ok() && compare::in_domain(&ours))
            }
        }
    }
}
