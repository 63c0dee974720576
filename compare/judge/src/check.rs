//! Judges every log, on as many threads as there are processors, and tells what was found.

use std::{
    fs, io,
    sync::{
        atomic::{AtomicUsize, Ordering},
        mpsc,
    },
    thread,
};

use generate::stage::Folder;

use crate::{
    compare::Difference,
    cover::{self, Reached},
    judges::{Judge, Judges, Outcome},
    program,
    table::Table,
    tasks::{self, Task},
    Options,
};

/// Differences that are told in full; the rest are counted.
const TOLD: usize = 5;

/// A difference, with the place of its log among the tasks.
struct Finding {
    task: usize,
    judge: Judge,
    what: String,
    difference: Difference,
}

/// True if nothing unexplained was found, every listed difference was seen, and the logs whose
/// answers are known reach every row of the coverage report.
pub fn check(judges: &Judges, options: &Options) -> io::Result<bool> {
    let findings = options.logs.join("findings");
    if findings.exists() {
        fs::remove_dir_all(findings)?;
    }
    let tasks = tasks::all(options)?;
    say_programs(judges, options);
    let mut table = Table::default();
    let mut findings = Vec::new();
    for (task, outcomes) in judged(judges, &tasks)? {
        for (place, outcome) in outcomes.into_iter().enumerate() {
            table.count((task, place), &outcome);
            if let Outcome {
                judge,
                what,
                difference: Some(difference),
                ..
            } = outcome
            {
                findings.push(Finding {
                    task,
                    judge,
                    what,
                    difference,
                });
            }
        }
    }
    findings.sort_by_key(|finding| finding.task);
    for finding in findings.iter().take(TOLD) {
        tell(finding, &tasks[finding.task], judges, options)?;
    }
    table.print();
    let missing = missing_rows(&tasks)?;
    for row in &missing {
        println!("no log with known answers reaches: {row}");
    }
    let (found, unused, missing) = (findings.len(), table.unused_rules(), missing.len());
    println!(
        "\n{found} unexplained differences, {unused} listed differences not seen, \
         {missing} rows without known answers"
    );
    Ok(found == 0 && unused == 0 && missing == 0)
}

/// Which programs join, and on how many logs.
fn say_programs(judges: &Judges, options: &Options) {
    let given = judges.given();
    if !given.is_empty() {
        let share = match options.share {
            1 => "on all logs".to_string(),
            n => format!("on all cases and stored logs, and on 1 in {n} of the generated ones"),
        };
        println!("judged too: {}, {share}\n", given.join(", "));
    }
}

/// Rows of the coverage report that neither a case nor a stored log reaches.
fn missing_rows(tasks: &[Task]) -> io::Result<Vec<String>> {
    let mut covered = Reached::new();
    for task in tasks.iter().filter(|task| task.known.is_some()) {
        let folder = if task.domain {
            Folder::Domain
        } else {
            Folder::Beyond
        };
        let name = program::name(&task.log);
        cover::add(
            &mut covered,
            &cover::reached(folder, &name, &fs::read(&task.log)?),
        );
    }
    Ok(cover::missing(&covered))
}

/// The outcomes of all tasks, in whatever order they came in.
fn judged(judges: &Judges, tasks: &[Task]) -> io::Result<Vec<(usize, Vec<Outcome>)>> {
    let threads = thread::available_parallelism().map_or(1, usize::from);
    let next = AtomicUsize::new(0);
    let (send, receive) = mpsc::channel();
    thread::scope(|scope| {
        for _ in 0..threads {
            let (send, next) = (send.clone(), &next);
            scope.spawn(move || {
                while let Some((at, task)) = take(tasks, next) {
                    let outcomes = judges.compare(task).map(|outcomes| (at, outcomes));
                    // Nobody listens any more once an error has ended the run.
                    if send.send(outcomes).is_err() {
                        break;
                    }
                }
            });
        }
        drop(send);
        receive.into_iter().collect()
    })
}

fn take<'a>(tasks: &'a [Task], next: &AtomicUsize) -> Option<(usize, &'a Task)> {
    let at = next.fetch_add(1, Ordering::Relaxed);
    tasks.get(at).map(|task| (at, task))
}

fn tell(finding: &Finding, task: &Task, judges: &Judges, options: &Options) -> io::Result<()> {
    let Difference {
        line,
        expected,
        got,
        stopped,
    } = &finding.difference;
    println!(
        "{}: {}, line {line}",
        finding.what,
        program::name(&task.log)
    );
    println!("  expected {expected}\n  got      {got}");
    match options.smallest && !stopped {
        true => judges.smallest(finding.judge, &task.log, &options.logs),
        false => Ok(()),
    }
}
