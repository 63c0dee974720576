//! A program under judgement, and its output on a log.

use std::{
    fmt,
    fs::File,
    io::{self, Read},
    os::unix::process::CommandExt,
    path::{Path, PathBuf},
    process::{Child, Command, ExitStatus, Stdio},
    sync::{
        atomic::{AtomicUsize, Ordering},
        mpsc,
    },
    thread,
    time::{Duration, Instant},
};

/// How often a program may fail to end before it is given no more logs.
const PATIENCE: usize = 3;

/// What a program wrote, or why that is not known.
pub type Output = Result<String, Failure>;

#[derive(Clone, Debug, PartialEq, Eq)]
pub enum Failure {
    /// It did not end within the time limit.
    Hangs(Duration),
    /// It was not run, as it had not ended on other logs.
    GivenUp,
    /// It ended badly, or wrote what is no text.
    Fails(String),
}

impl Failure {
    /// Whether it did not end by itself. To try smaller logs on it would take a time limit each.
    pub fn stopped(&self) -> bool {
        matches!(self, Failure::Hangs(_) | Failure::GivenUp)
    }
}

impl fmt::Display for Failure {
    fn fmt(&self, to: &mut fmt::Formatter) -> fmt::Result {
        match self {
            Failure::Hangs(limit) => write!(to, "no end within {} s", limit.as_secs_f32()),
            Failure::GivenUp => write!(to, "not run, as it did not end {PATIENCE} times"),
            Failure::Fails(text) => to.write_str(text),
        }
    }
}

pub struct Program {
    pub name: String,
    path: PathBuf,
    limit: Duration,
    /// How often it has not ended.
    hung: AtomicUsize,
}

impl Program {
    pub fn new(name: &str, path: impl Into<PathBuf>, limit: Duration) -> Program {
        Program {
            name: name.to_string(),
            path: path.into(),
            limit,
            hung: AtomicUsize::new(0),
        }
    }

    /// Whether it writes the lines of `trace`, and not those of `replay`.
    pub fn traces(&self) -> bool {
        self.name.starts_with("trace")
    }

    /// Its standard output. Logs of an odd length are handed to it on standard input, so that both
    /// ways of reading are used.
    pub fn output(&self, log: &Path) -> io::Result<Output> {
        if self.hung.load(Ordering::Relaxed) >= PATIENCE {
            return Ok(Err(Failure::GivenUp));
        }
        let mut command = Command::new(&self.path);
        match std::fs::metadata(log)?.len() % 2 {
            0 => command.arg(log).stdin(Stdio::null()),
            _ => command.stdin(File::open(log)?),
        };
        // In a group of its own, so that what it starts can be ended with it.
        let child = command
            .stdout(Stdio::piped())
            .stderr(Stdio::piped())
            .process_group(0)
            .spawn()
            .map_err(|e| io::Error::new(e.kind(), format!("{}: {e}", self.path.display())))?;
        let Some((status, [wrote, said])) = ended(child, self.limit)? else {
            self.hung.fetch_add(1, Ordering::Relaxed);
            return Ok(Err(Failure::Hangs(self.limit)));
        };
        Ok(if status.success() {
            String::from_utf8(wrote).map_err(|_| Failure::Fails("output that is no text".into()))
        } else {
            let said = String::from_utf8_lossy(&said);
            let said = said.lines().take(2).collect::<Vec<_>>().join(" ");
            Err(Failure::Fails(format!("{status}: {said}")))
        })
    }
}

/// How a program ended and what it wrote to its two streams, or nothing if it had to be stopped.
fn ended(mut child: Child, limit: Duration) -> io::Result<Option<(ExitStatus, [Vec<u8>; 2])>> {
    let deadline = Instant::now() + limit;
    let stdout = collected(child.stdout.take());
    let stderr = collected(child.stderr.take());
    let left = || deadline.saturating_duration_since(Instant::now());
    if let Ok(wrote) = stdout.recv_timeout(left()) {
        if let Ok(said) = stderr.recv_timeout(left()) {
            // Both streams are closed: most programs are gone by now.
            loop {
                if let Some(status) = child.try_wait()? {
                    return Ok(Some((status, [wrote?, said?])));
                }
                if left().is_zero() {
                    break;
                }
                thread::sleep(Duration::from_millis(1));
            }
        }
    }
    stop(&mut child)?;
    Ok(None)
}

/// Reads a stream to its end beside everything else.
fn collected(stream: Option<impl Read + Send + 'static>) -> mpsc::Receiver<io::Result<Vec<u8>>> {
    let (send, receive) = mpsc::channel();
    thread::spawn(move || {
        let mut bytes = Vec::new();
        let read = match stream {
            Some(mut stream) => stream.read_to_end(&mut bytes).map(|_| bytes),
            None => Ok(bytes),
        };
        // Nobody listens any more if the program was stopped.
        let _ = send.send(read);
    });
    receive
}

/// Ends a program and what it has started. The shell is asked as the standard library ends single
/// processes only.
fn stop(child: &mut Child) -> io::Result<()> {
    let group = format!("kill -s KILL -- -{}", child.id());
    Command::new("/bin/sh").args(["-c", &group]).status()?;
    child.kill()?;
    child.wait().map(drop)
}

/// The programs of a folder: `trace…` and `replay…`, in the order of their names.
pub fn in_folder(folder: &Path, limit: Duration) -> io::Result<Vec<Program>> {
    let mut programs = Vec::new();
    for entry in std::fs::read_dir(folder)? {
        let path = entry?.path();
        let name = path
            .file_name()
            .unwrap_or_default()
            .to_string_lossy()
            .into_owned();
        if name.starts_with("trace") || name.starts_with("replay") {
            programs.push(Program::new(&name, path, limit));
        } else {
            let text = format!("{name}: a program's name starts with trace or replay");
            return Err(io::Error::other(text));
        }
    }
    programs.sort_by(|a, b| a.name.cmp(&b.name));
    match programs.is_empty() {
        true => Err(io::Error::other(format!(
            "{}: no program there",
            folder.display()
        ))),
        false => Ok(programs),
    }
}

/// The files of a folder with that extension, in the order of their names.
pub fn files(folder: &Path, extension: &str) -> io::Result<Vec<PathBuf>> {
    let entries = std::fs::read_dir(folder)
        .map_err(|e| io::Error::new(e.kind(), format!("{}: {e}", folder.display())))?;
    let mut files = Vec::new();
    for entry in entries {
        let path = entry?.path();
        if path.extension().is_some_and(|found| found == extension) {
            files.push(path);
        }
    }
    files.sort();
    Ok(files)
}

/// A log's name: its file's, without folder and extension.
pub fn name(log: &Path) -> String {
    log.file_stem()
        .unwrap_or_default()
        .to_string_lossy()
        .into_owned()
}

#[cfg(test)]
mod tests {
    use super::*;

    /// A script in a file, as long as it is needed.
    struct Script(PathBuf);

    impl Drop for Script {
        fn drop(&mut self) {
            let _ = std::fs::remove_file(&self.0);
        }
    }

    /// The shell and a script for it, which it is given as a program is given a log.
    fn shell(name: &str, script: &str, limit: Duration) -> (Program, Script) {
        let file = format!("script-{name}-{}.log", std::process::id());
        let file = std::env::temp_dir().join(file);
        std::fs::write(&file, script).unwrap();
        (Program::new("trace", "/bin/sh", limit), Script(file))
    }

    fn output(name: &str, script: &str) -> Output {
        let (program, file) = shell(name, script, Duration::from_secs(60));
        program.output(&file.0).unwrap()
    }

    #[test]
    fn what_is_written_comes_back() {
        // By its name and on standard input.
        assert_eq!(output("even", "echo  a\n"), Ok("a\n".to_string()));
        assert_eq!(output("odd", "echo a\n"), Ok("a\n".to_string()));
        let failed = output("fails", "echo no >&2; exit 3\n").unwrap_err();
        assert_eq!(failed.to_string(), "exit status: 3: no");
        // More than a pipe holds, on both streams.
        let flood = output("floods", "seq 1 99999 >&2; seq 1 99999\n").unwrap();
        assert_eq!(flood.lines().count(), 99_999);
    }

    /// Three that do not end: one waits for what it started, one is busy, and one has closed its
    /// streams. Each is stopped, and after the third time not run again.
    #[test]
    fn a_program_that_hangs_is_stopped() {
        let scripts = [
            "echo a; sleep 999; echo b\n",
            "while :; do :; done\n",
            "exec >&- 2>&-; while :; do :; done\n",
        ];
        let limit = Duration::from_millis(300);
        for (at, script) in scripts.into_iter().enumerate() {
            let (program, file) = shell(&format!("hangs-{at}"), script, limit);
            let began = Instant::now();
            for _ in 0..PATIENCE {
                assert_eq!(program.output(&file.0).unwrap(), Err(Failure::Hangs(limit)));
            }
            assert_eq!(program.output(&file.0).unwrap(), Err(Failure::GivenUp));
            assert!(began.elapsed() < Duration::from_secs(60));
        }
    }

    /// What a stopped program had started is gone with it: it cannot leave its mark any more.
    #[test]
    fn what_it_started_is_stopped_too() {
        let limit = Duration::from_millis(300);
        let mark = std::env::temp_dir().join(format!("mark-{}", std::process::id()));
        let script = format!("(sleep 1; echo >{}) & wait\n", mark.display());
        let (program, file) = shell("starts", &script, limit);
        assert_eq!(program.output(&file.0).unwrap(), Err(Failure::Hangs(limit)));
        thread::sleep(Duration::from_secs(2));
        assert!(!mark.exists());
    }
}
