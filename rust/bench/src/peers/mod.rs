//! The proved planner beside its plain twin and the solvers that one would use instead, all on the
//! same generated instances in one run, each on its own in turn. Prints a table and how it stands
//! with the bars. A planner, twin or solver runs as a process of its own, so that it can be ended
//! when its time is up.

mod hard;
mod lp;
mod options;
mod process;
mod report;
mod solver;

use crate::classes::{example, Class};
use crate::hard_classes::HardClass;
use options::Options;
use process::Scratch;
use reference::{bytes_of, encode, Plan};
use report::{Report, Row};
use solver::{Outcome, Solver};
use std::process::ExitCode;

pub use process::answer;

/// Runs all solvers that are installed on all chosen instances; fails where two of them differ.
pub fn run() -> ExitCode {
    let options = match Options::read(std::env::args().skip(2)) {
        Ok(options) => options,
        Err(told) => {
            eprintln!("{told}\n\n{}", options::USAGE);
            return ExitCode::FAILURE;
        }
    };
    let solvers = installed(&options);
    let scratch = Scratch::new();
    let mut report = Report::new(solvers.clone(), options.limit);
    for (mut row, plans) in cases(&options) {
        for (plan, number) in plans.iter().zip(1..) {
            let outcomes = solve(plan, &solvers, &options, &scratch);
            report.tell(&row, number, &outcomes);
            row.files.push(outcomes);
        }
        report.rows.push(row);
    }
    if options.hard {
        report.print_hard();
    } else {
        report.print();
    }
    if report.mismatches.is_empty() {
        ExitCode::SUCCESS
    } else {
        ExitCode::FAILURE
    }
}

/// The rows to come, and the plans of each: the example, then the chosen classes.
fn cases(options: &Options) -> Vec<(Row, Vec<Plan>)> {
    let mut cases = vec![];
    if options.with_example && !options.hard {
        let row = Row::new("example of 5.1".to_string(), None);
        cases.push((row, vec![example()]));
    }
    for class in Class::all() {
        if options.has(&class) {
            let plans = (1..=options.seeds).map(|number| class.plan(number));
            let row = Row::new(class.name(), Some(class));
            cases.push((row, plans.collect()));
        }
    }
    for class in HardClass::all() {
        if options.has_hard(&class) {
            let plans = (1..=options.seeds).map(|number| class.plan(number));
            cases.push((Row::hard(class), plans.collect()));
        }
    }
    cases
}

/// The solvers that are neither left out nor missing; a line for each that is missing.
fn installed(options: &Options) -> Vec<Solver> {
    let chosen = Solver::all().into_iter();
    let chosen = chosen.filter(|solver| !options.without.contains(&solver.name().to_string()));
    let (found, missing) = chosen.partition::<Vec<_>, _>(|solver| solver.is_installed());
    for solver in missing {
        println!("{} is not installed and left out", solver.name());
    }
    found
}

/// What each solver comes to on a plan.
fn solve(plan: &Plan, solvers: &[Solver], options: &Options, scratch: &Scratch) -> Vec<Outcome> {
    let words = encode(plan);
    scratch.write("plan.bin", &bytes_of(&words));
    scratch.write("plan.lp", lp::text(plan).as_bytes());
    let outcome = |solver: &Solver| solver.solve(scratch, options.limit, options.budget);
    solvers.iter().map(outcome).collect()
}
