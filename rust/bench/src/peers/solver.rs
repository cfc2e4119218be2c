//! The planner, its twin and the solvers: how each is run, and what its words mean.

use super::process::{asking, Scratch};
use std::path::PathBuf;
use std::process::{Command, Stdio};

/// The script that hands a program to HiGHS.
const HIGHS: &str = include_str!("../../peers/highs.py");

/// One that solves.
#[derive(Clone, Copy, Debug, PartialEq, Eq)]
pub enum Solver {
    /// The proved planner, with so many words for conflicts.
    Planner(usize),
    /// The plain twin.
    Twin,
    /// GLPK, with cuts.
    Glpk,
    /// SYMPHONY.
    Symphony,
    /// CBC.
    Cbc,
    /// HiGHS, in SciPy.
    Highs,
}

/// What came of it.
#[derive(Clone, Copy, Debug, PartialEq, Eq)]
pub enum Verdict {
    /// The cost of the cheapest schedule.
    Plan(u64),
    /// There is no schedule.
    None,
    /// Time or tries were up first.
    Late,
    /// The words say nothing of all this.
    Failed,
}

/// What came of it, and the seconds.
#[derive(Clone, Copy, Debug)]
pub struct Outcome {
    /// What came of it.
    pub verdict: Verdict,
    /// The seconds: of the process; for planner, twin and HiGHS of the call.
    pub seconds: f64,
}

impl Solver {
    /// All of them.
    pub fn all() -> [Solver; 7] {
        [
            Solver::Planner(16_384),
            Solver::Planner(64),
            Solver::Twin,
            Solver::Glpk,
            Solver::Symphony,
            Solver::Cbc,
            Solver::Highs,
        ]
    }

    /// Its name.
    pub fn name(self) -> &'static str {
        match self {
            Solver::Planner(16_384) => "planner",
            Solver::Planner(_) => "planner64",
            Solver::Twin => "twin",
            Solver::Glpk => "glpk",
            Solver::Symphony => "symphony",
            Solver::Cbc => "cbc",
            Solver::Highs => "highs",
        }
    }

    /// Whether it is one that the planner is compared with.
    pub fn is_peer(self) -> bool {
        !matches!(self, Solver::Planner(_) | Solver::Twin)
    }

    /// Whether it can be run here.
    pub fn is_installed(self) -> bool {
        match self {
            Solver::Planner(_) | Solver::Twin => true,
            Solver::Glpk => starts(Command::new("glpsol").arg("--version")),
            Solver::Symphony => starts(Command::new("symphony").arg("-h")),
            Solver::Cbc => starts(Command::new("cbc").arg("quit")),
            Solver::Highs => python().is_some(),
        }
    }

    /// Solves the program or answers the ask that is in the directory.
    pub fn solve(self, scratch: &Scratch, limit: u32, budget: u32) -> Outcome {
        let program = scratch.path("plan.lp");
        let seconds = limit.to_string();
        let mut command = match self {
            Solver::Planner(table) => asking("planner", scratch, table, budget),
            Solver::Twin => asking("twin", scratch, 16_384, budget),
            Solver::Glpk => Command::new("glpsol"),
            Solver::Symphony => Command::new("symphony"),
            Solver::Cbc => Command::new("cbc"),
            Solver::Highs => Command::new(python().expect("it is installed")),
        };
        match self {
            Solver::Planner(_) | Solver::Twin => {}
            Solver::Glpk => {
                let written = scratch.path("written");
                scratch.write("written", b"");
                command.args([
                    "--cuts", "--lp", &program, "--tmlim", &seconds, "-o", &written,
                ]);
            }
            Solver::Symphony => {
                command.args(["-L", &program, "-t", &seconds]);
            }
            Solver::Cbc => {
                command.args([&program, "sec", &seconds, "ratio", "0", "allow", "0"]);
                command.args(["threads", "0", "solve", "quit"]);
            }
            Solver::Highs => {
                command.args(["-c", HIGHS, &program, &seconds]);
            }
        }
        let (printed, seconds) = scratch.run(&mut command, limit);
        let (verdict, own) = match self {
            Solver::Glpk => (glpk(&printed, &scratch.text("written")), None),
            Solver::Symphony => (symphony(&printed), None),
            Solver::Cbc => (cbc(&printed), None),
            _ => told(&printed),
        };
        let (seconds, limit) = (own.unwrap_or(seconds), f64::from(limit));
        if limit < seconds || verdict == Verdict::Late {
            return Outcome {
                verdict: Verdict::Late,
                seconds: limit,
            };
        }
        Outcome { verdict, seconds }
    }
}

/// Whether a command can be run.
fn starts(command: &mut Command) -> bool {
    let silent = command.stdin(Stdio::null()).stdout(Stdio::null());
    silent.stderr(Stdio::null()).status().is_ok()
}

/// A Python that has SciPy, among those that the shell would find.
fn python() -> Option<PathBuf> {
    let path = std::env::var_os("PATH")?;
    let mut pythons = std::env::split_paths(&path).map(|folder| folder.join("python3"));
    pythons.find(|python| {
        let mut import = Command::new(python);
        let import = import.args(["-c", "import scipy.optimize"]);
        let silent = import.stdout(Stdio::null()).stderr(Stdio::null());
        silent.status().is_ok_and(|status| status.success())
    })
}

/// The cost after a phrase of a text, where it has it.
fn cost_after(text: &str, phrase: &str) -> Option<Verdict> {
    let (_, rest) = text.split_once(phrase)?;
    let cost: f64 = rest.split_whitespace().next()?.parse().ok()?;
    Some(Verdict::Plan(cost.round() as u64))
}

fn glpk(printed: &str, written: &str) -> Verdict {
    if written.contains("INTEGER OPTIMAL") {
        return cost_after(written, "obj = ").unwrap_or(Verdict::Failed);
    }
    let none = ["HAS NO PRIMAL", "HAS NO INTEGER", "HAS NO FEASIBLE"];
    if none.iter().any(|none| printed.contains(none)) {
        return Verdict::None;
    }
    late_or_failed(printed.contains("TIME LIMIT EXCEEDED"))
}

fn symphony(printed: &str) -> Verdict {
    if printed.contains("Optimal Solution Found") {
        return cost_after(printed, "Solution Cost:").unwrap_or(Verdict::Failed);
    }
    if printed.to_lowercase().contains("infeasible") {
        return Verdict::None;
    }
    late_or_failed(printed.contains("Time Limit"))
}

fn cbc(printed: &str) -> Verdict {
    if printed.contains("Result - Optimal") {
        return cost_after(printed, "Objective value:").unwrap_or(Verdict::Failed);
    }
    let lower = printed.to_lowercase();
    if lower.contains("infeasible") && !lower.contains("stopped on time") {
        return Verdict::None;
    }
    late_or_failed(lower.contains("stopped on time"))
}

fn late_or_failed(late: bool) -> Verdict {
    if late {
        Verdict::Late
    } else {
        Verdict::Failed
    }
}

/// The status, the cost and the seconds of planner, twin or script; late where there are none.
fn told(printed: &str) -> (Verdict, Option<f64>) {
    let mut words = printed.split_whitespace();
    let mut next = || words.next()?.parse::<f64>().ok();
    let (Some(status), Some(cost), Some(seconds)) = (next(), next(), next()) else {
        return (Verdict::Late, None);
    };
    let verdict = match status as u32 {
        1 => Verdict::Plan(cost as u64),
        2 => Verdict::None,
        _ => Verdict::Late,
    };
    (verdict, Some(seconds))
}
