//! The table of the comparison on hard classes, files without a schedule apart, and how it stands with
//! their bars.

use super::report::{figure, mean, met, Report, Row};
use super::solver::{Outcome, Solver, Verdict};
use crate::hard_classes::Kind;
use crate::table;

/// No instance of a hard class may take longer.
const MOST: f64 = 3.0;
/// How far the planner is to be ahead where there is no schedule for want of crews or of windows.
const NONE_LEAD: f64 = 10.0;

/// The instances of a class that have a schedule, or those that have none.
struct Part<'a> {
    name: String,
    kind: Kind,
    is_none: bool,
    files: Vec<&'a [Outcome]>,
}

impl Report {
    /// Prints the table of the hard classes, their bars and the mismatches.
    pub fn print_hard(&self) {
        table::told("geometric means over the instances of a class, of ratios too");
        self.print_seconds();
        let parts: Vec<Part> = self.rows.iter().flat_map(parts).collect();
        self.print_parts(&parts);
        println!();
        for &solver in self.solvers.iter().filter(|solver| !solver.is_peer()) {
            self.print_hard_bars(solver, &parts);
        }
        self.print_mismatches();
    }

    fn print_parts(&self, parts: &[Part]) {
        print!("{:<30} {:>5}", "class", "files");
        let names = self.solvers.iter().map(|solver| solver.name());
        let ratios = ["best peer", "peer/plan", "lowest", "peer/twin", "plan/twin"];
        names.chain(ratios).for_each(|title| print!(" {title:>9}"));
        println!();
        let (planner, twin) = (Solver::Planner(16_384), Solver::Twin);
        for part in parts {
            print!("{:<30} {:>5}", part.name, part.files.len());
            for place in 0..self.solvers.len() {
                figure(part.mean(|file| Some(file[place].seconds)), 4);
            }
            figure(part.mean(|file| self.best_peer(file)), 4);
            figure(part.mean(|file| self.lead(file, planner)), 1);
            figure(part.lowest(|file| self.lead(file, planner)), 1);
            figure(part.mean(|file| self.lead(file, twin)), 1);
            figure(part.mean(|file| self.to_twin(file, planner)), 2);
            println!();
        }
    }

    /// The class in which a solver is ahead of the best peer by the least in the mean, and by how much.
    fn lowest_lead<'a>(&self, solver: Solver, parts: &[&'a Part]) -> Option<(f64, &'a str)> {
        let leads = parts.iter().filter_map(|part| {
            let mean = part.mean(|file| self.lead(file, solver))?;
            Some((mean, part.name.as_str()))
        });
        leads.reduce(|a, b| if b.0 < a.0 { b } else { a })
    }

    /// Prints how a solver stands with the bars of the hard classes.
    fn print_hard_bars(&self, solver: Solver, parts: &[Part]) {
        let name = solver.name();
        let all: Vec<&Part> = parts.iter().collect();
        if let Some((ratio, class)) = self.lowest_lead(solver, &all) {
            println!(
                "best peer / {name}, lowest hard class: {ratio:.1} at {class} (at least 1): {}",
                met(1.0 <= ratio)
            );
        }
        let is_short = |part: &&Part| [Kind::Crews, Kind::Windows].contains(&part.kind);
        let short = parts.iter().filter(|part| part.is_none).filter(is_short);
        let short: Vec<&Part> = short.collect();
        if let Some((ratio, class)) = self.lowest_lead(solver, &short) {
            let files = short.iter().flat_map(|part| &part.files);
            let leads = files.filter_map(|file| self.lead(file, solver));
            let mean = mean(&leads.collect::<Vec<_>>());
            println!(
                "best peer / {name}, no schedule for want of crews or windows, lowest class: {ratio:.1} at {class} (at least {NONE_LEAD}): {}; mean of all {mean:.1}",
                met(NONE_LEAD <= ratio)
            );
        }
        let own = |file: &&[Outcome]| self.outcome(file, solver);
        let files = parts.iter().flat_map(|part| &part.files);
        let slow = files.filter_map(own).filter(|outcome| {
            MOST < outcome.seconds || matches!(outcome.verdict, Verdict::Late | Verdict::Failed)
        });
        let slow = slow.count();
        println!(
            "{name}, files unsolved in {MOST} s: {slow} (at most 0): {}",
            met(slow == 0)
        );
    }
}

/// The instances of a row that have a schedule, as far as anybody found out, and those that have none.
fn parts(row: &Row) -> Vec<Part<'_>> {
    let has_none = |file: &[Outcome]| file.iter().any(|outcome| outcome.verdict == Verdict::None);
    let part = |is_none: bool| Part {
        name: format!("{}{}", row.name, if is_none { " none" } else { "" }),
        kind: row.kind.expect("the row of a hard class"),
        is_none,
        files: row
            .files
            .iter()
            .map(Vec::as_slice)
            .filter(|file| has_none(file) == is_none)
            .collect(),
    };
    let parts = [false, true].map(part).into_iter();
    parts.filter(|part| !part.files.is_empty()).collect()
}

impl Part<'_> {
    fn figures(&self, figure: impl Fn(&[Outcome]) -> Option<f64>) -> Vec<f64> {
        self.files.iter().filter_map(|file| figure(file)).collect()
    }

    fn mean(&self, figure: impl Fn(&[Outcome]) -> Option<f64>) -> Option<f64> {
        let figures = self.figures(figure);
        (!figures.is_empty()).then(|| mean(&figures))
    }

    fn lowest(&self, figure: impl Fn(&[Outcome]) -> Option<f64>) -> Option<f64> {
        self.figures(figure).into_iter().reduce(f64::min)
    }
}
