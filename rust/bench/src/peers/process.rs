//! Solvers as processes, with their files, and the planner and the twin as such.

use crate::plain_ask;
use reference::{block_len, load, read, word};
use std::fs::{self, File};
use std::path::PathBuf;
use std::process::{Child, Command, ExitCode, Stdio};
use std::time::{Duration, Instant};

/// A ceiling that no schedule is above.
const OPEN: u32 = (1 << 28) - 1;
/// An ask is put again until this many seconds are over, as the system's clock may tell a thread no
/// less than a thousandth.
const TOGETHER: f64 = 0.1;
/// How often a process is looked after.
const GLANCE: Duration = Duration::from_millis(1);
/// What a solver that has its own clock may take longer than its limit.
const GRACE: u32 = 5;

/// A directory for the solvers' files, which goes when this goes.
pub struct Scratch(PathBuf);

impl Scratch {
    /// A new directory.
    pub fn new() -> Self {
        let name = format!("novelbrisca-peers-{}", std::process::id());
        let path = std::env::temp_dir().join(name);
        fs::create_dir_all(&path).expect("the directory for temporary files can be written");
        Scratch(path)
    }

    /// The path of a file in it.
    pub fn path(&self, name: &str) -> String {
        self.0.join(name).display().to_string()
    }

    /// Writes a file.
    pub fn write(&self, name: &str, bytes: &[u8]) {
        fs::write(self.path(name), bytes).expect("temporary files can be written");
    }

    /// What a file has; nothing where there is none.
    pub fn text(&self, name: &str) -> String {
        fs::read(self.path(name)).map_or(String::new(), |bytes| {
            String::from_utf8_lossy(&bytes).into_owned()
        })
    }

    /// Runs a command: what it printed, and the seconds that it took. A command that takes longer than
    /// its limit is ended.
    pub fn run(&self, command: &mut Command, limit: u32) -> (String, f64) {
        let printed = File::create(self.path("printed")).expect("temporary files can be written");
        let start = Instant::now();
        let child = command
            .stdin(Stdio::null())
            .stdout(printed)
            .stderr(Stdio::null())
            .spawn();
        let mut child = child.expect("the command is installed");
        let most = Duration::from_secs(u64::from(limit + GRACE));
        while !has_ended(&mut child) {
            if most < start.elapsed() {
                child.kill().expect("the process is still there");
            }
            std::thread::sleep(GLANCE);
        }
        let used = used_by(&child.id().to_string());
        child.wait().expect("the process ends");
        let seconds = used.unwrap_or(start.elapsed().as_secs_f64());
        (self.text("printed"), seconds)
    }
}

/// Whether a process has ended; where the system tells it, the process is then still known to it.
fn has_ended(child: &mut Child) -> bool {
    let told = fs::read_to_string(format!("/proc/{}/stat", child.id()));
    let state = told
        .ok()
        .and_then(|told| told.split(") ").nth(1)?.chars().next());
    match state {
        Some(state) => state == 'Z',
        None => matches!(child.try_wait(), Ok(Some(_))),
    }
}

/// The seconds of processor time of a process, or of this thread, where the system tells them.
fn used_by(who: &str) -> Option<f64> {
    let told = fs::read_to_string(format!("/proc/{who}/schedstat")).ok()?;
    let nanoseconds: f64 = told.split_whitespace().next()?.parse().ok()?;
    Some(nanoseconds / 1e9)
}

/// A clock for what this thread does: of processor time, where the system tells it.
struct Clock {
    start: Instant,
    used: Option<f64>,
}

impl Clock {
    fn new() -> Self {
        Clock {
            start: Instant::now(),
            used: used_by("thread-self"),
        }
    }

    /// The seconds since it was made.
    fn seconds(&self) -> f64 {
        let used = used_by("thread-self").zip(self.used);
        used.map_or(self.start.elapsed().as_secs_f64(), |(now, then)| now - then)
    }
}

impl Drop for Scratch {
    fn drop(&mut self) {
        // what is left of it does no harm
        let _ = fs::remove_dir_all(&self.0);
    }
}

/// This program again, for an ask on the file in a directory.
pub fn asking(who: &str, scratch: &Scratch, table: usize, budget: u32) -> Command {
    let program = std::env::current_exe().expect("the program knows its path");
    let mut command = Command::new(program);
    let numbers = [table.to_string(), budget.to_string()];
    command
        .args(["answer", who, &scratch.path("plan.bin")])
        .args(numbers);
    command
}

/// Puts an ask to the planner or the twin and prints the status, the cost and the seconds, in the
/// mean where it is short and put again.
pub fn answer() -> ExitCode {
    let arguments: Vec<String> = std::env::args().skip(2).collect();
    let [who, path, table, budget] = &arguments[..] else {
        return ExitCode::FAILURE;
    };
    let bytes = fs::read(path).expect("the file is there");
    let words = load(&bytes, bytes.len() / 4).expect("whole words");
    let plan = read(&words).expect("the file is accepted");
    let ask = [
        word(11, OPEN),
        word(12, budget.parse().expect("a number of tries")),
    ];
    let mut block = vec![0; block_len(&plan)];
    let mut table = vec![0; table.parse().expect("a number of words")];
    let mut scratch = vec![0; 1 << plan.units];
    let (clock, mut count) = (Clock::new(), 0.0);
    let seconds = loop {
        if who == "twin" {
            plain_ask::ask(&words, &ask, &mut block, &mut table, &mut scratch).expect("accepted");
        } else {
            ffi::run(&words, &ask, &mut block, &mut table, &mut scratch).expect("accepted");
        }
        count += 1.0;
        let seconds = clock.seconds();
        if TOGETHER <= seconds {
            break seconds / count;
        }
    };
    println!("{} {} {seconds}", block[0], block[1]);
    ExitCode::SUCCESS
}
