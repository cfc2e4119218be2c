//! The table of the comparison, and how it stands with the bars.

use super::solver::{Outcome, Solver, Verdict};
use crate::classes::Class;
use crate::hard_classes::{HardClass, Kind};
use crate::table;

/// A class, or the example: what each solver came to on each of its instances.
pub struct Row {
    /// Its name.
    pub name: String,
    /// The class; none for the example, which is in no bar, and for hard classes.
    class: Option<Class>,
    /// What makes a hard class hard.
    pub kind: Option<Kind>,
    /// For each instance, what each solver came to.
    pub files: Vec<Vec<Outcome>>,
}

/// All rows.
pub struct Report {
    /// The solvers.
    pub solvers: Vec<Solver>,
    /// The seconds that each has for an instance.
    pub limit: u32,
    /// The rows.
    pub rows: Vec<Row>,
    /// A line for each instance on which two solvers differ.
    pub mismatches: Vec<String>,
}

/// The classes that a bar is about.
type Of = fn(&Class) -> bool;

impl Row {
    /// A row without instances yet.
    pub fn new(name: String, class: Option<Class>) -> Self {
        Row {
            name,
            class,
            kind: None,
            files: vec![],
        }
    }

    /// The row of a hard class, without instances yet.
    pub fn hard(class: HardClass) -> Self {
        Row {
            kind: Some(class.kind),
            ..Row::new(class.name(), None)
        }
    }

    /// The median over the instances of a figure, where they have it.
    fn median(&self, figure: impl Fn(&[Outcome]) -> Option<f64>) -> Option<f64> {
        let mut figures: Vec<f64> = self.files.iter().filter_map(|file| figure(file)).collect();
        figures.sort_by(f64::total_cmp);
        figures.get(figures.len() / 2).copied()
    }

    /// Whether it is one of these classes.
    fn is(&self, of: Of) -> bool {
        self.class.as_ref().is_some_and(of)
    }
}

impl Report {
    /// A report without rows.
    pub fn new(solvers: Vec<Solver>, limit: u32) -> Self {
        Report {
            solvers,
            limit,
            rows: vec![],
            mismatches: vec![],
        }
    }

    /// Tells how the solvers did on an instance, and notes it where they differ.
    pub fn tell(&mut self, row: &Row, number: u32, outcomes: &[Outcome]) {
        let words = self.solvers.iter().zip(outcomes).map(|(solver, outcome)| {
            let verdict = match outcome.verdict {
                Verdict::Plan(cost) => cost.to_string(),
                other => format!("{other:?}").to_lowercase(),
            };
            format!("{} {verdict} {:.4}", solver.name(), outcome.seconds)
        });
        let words: Vec<String> = words.collect();
        let line = format!("{} {number}: {}", row.name, words.join(", "));
        eprintln!("{line}");
        let mut known = outcomes.iter().map(|outcome| outcome.verdict);
        let mut known = known
            .by_ref()
            .filter(|verdict| !matches!(verdict, Verdict::Late | Verdict::Failed));
        let first = known.next();
        if known.any(|verdict| Some(verdict) != first) {
            eprintln!("MISMATCH {line}");
            self.mismatches.push(line);
        }
    }

    /// Prints the table, the bars and the mismatches.
    pub fn print(&self) {
        table::told("medians over the instances of a class, of ratios too");
        self.print_seconds();
        println!("the example is in no bar");
        self.print_table();
        println!();
        for solver in &self.solvers {
            if !solver.is_peer() {
                self.print_bars(*solver);
            }
        }
        self.print_mismatches();
    }

    /// Prints whether all answers are equal, and where they are not.
    pub fn print_mismatches(&self) {
        match self.mismatches.len() {
            0 => println!("all answers are equal: met"),
            count => println!("{count} INSTANCES WITH DIFFERENT ANSWERS: missed"),
        }
        let lines = self.mismatches.iter();
        lines.for_each(|line| println!("MISMATCH {line}"));
    }

    /// Prints what seconds are.
    pub fn print_seconds(&self) {
        println!(
            "seconds of processor time, limit {}: of a solver's process; of the call for highs, planner",
            self.limit
        );
        println!("and twin");
    }

    fn print_table(&self) {
        print!("{:<20}", "class");
        self.solvers
            .iter()
            .for_each(|solver| print!(" {:>9}", solver.name()));
        let ratios = ["best peer", "peer/plan", "peer/twin", "plan/twin"];
        ratios.iter().for_each(|title| print!(" {title:>9}"));
        println!();
        for row in &self.rows {
            print!("{:<20}", row.name);
            for place in 0..self.solvers.len() {
                figure(row.median(|file| Some(file[place].seconds)), 4);
            }
            let (planner, twin) = (Solver::Planner(16_384), Solver::Twin);
            figure(row.median(|file| self.best_peer(file)), 4);
            figure(row.median(|file| self.lead(file, planner)), 1);
            figure(row.median(|file| self.lead(file, twin)), 1);
            figure(row.median(|file| self.to_twin(file, planner)), 2);
            println!();
        }
    }

    /// What a solver came to on an instance, where it takes part.
    pub fn outcome(&self, file: &[Outcome], solver: Solver) -> Option<Outcome> {
        let place = self.solvers.iter().position(|&other| other == solver)?;
        Some(file[place])
    }

    /// The seconds of a solver on an instance, where it takes part.
    fn seconds(&self, file: &[Outcome], solver: Solver) -> Option<f64> {
        Some(self.outcome(file, solver)?.seconds)
    }

    /// The seconds of the fastest peer that solved an instance; the limit where none did.
    pub fn best_peer(&self, file: &[Outcome]) -> Option<f64> {
        let peers = self.solvers.iter().zip(file);
        let peers = peers.filter(|(solver, _)| solver.is_peer());
        let limit = f64::from(self.limit);
        let seconds = peers.map(|(_, outcome)| match outcome.verdict {
            Verdict::Late | Verdict::Failed => limit,
            _ => outcome.seconds,
        });
        seconds.reduce(f64::min)
    }

    /// How many times as long the best peer takes as a solver.
    pub fn lead(&self, file: &[Outcome], solver: Solver) -> Option<f64> {
        Some(self.best_peer(file)? / self.seconds(file, solver)?)
    }

    /// How many times as long a solver takes as the twin.
    pub fn to_twin(&self, file: &[Outcome], solver: Solver) -> Option<f64> {
        Some(self.seconds(file, solver)? / self.seconds(file, Solver::Twin)?)
    }

    /// Prints how a solver stands with the bars.
    fn print_bars(&self, solver: Solver) {
        let large: Of = |class| !class.is_warm() && class.units >= 15;
        let fourteen: Of = |class| !class.is_warm() && class.units == 14;
        let warm: Of = |class| class.is_warm() && class.units >= 15;
        self.print_lead(solver, "15x13, 16x20, 16x52", large, 5.0, Some(2.0));
        self.print_lead(solver, "14 units", fourteen, 3.0, Some(1.0));
        self.print_lead(solver, "15 and 16 units with OFF costs", warm, 20.0, None);
        self.print_small(solver);
        if let Solver::Planner(_) = solver {
            let ratio = |row: &Row| row.median(|file| self.to_twin(file, solver));
            let ratios: Vec<f64> = self.rows.iter().filter_map(ratio).collect();
            if let Some(worst) = ratios.iter().copied().reduce(f64::max) {
                let (name, mean) = (solver.name(), mean(&ratios));
                println!("{name} / twin: geometric mean {mean:.2}, highest class {worst:.2} (at most 1.5): {}", met(worst <= 1.5));
            }
        }
    }

    /// Prints a solver's lead over the best peer in some classes, and whether it is enough; the
    /// lowest class has a bar of its own, or none.
    fn print_lead(&self, solver: Solver, sizes: &str, of: Of, bar: f64, least: Option<f64>) {
        let rows = self.rows.iter().filter(|row| row.is(of));
        let leads = rows.filter_map(|row| row.median(|file| self.lead(file, solver)));
        let leads: Vec<f64> = leads.collect();
        let Some(lowest) = leads.iter().copied().reduce(f64::min) else {
            return;
        };
        let (name, mean) = (solver.name(), mean(&leads));
        let of_lowest = least.map_or(String::new(), |least| {
            format!(" (at least {least}): {}", met(least <= lowest))
        });
        println!(
            "best peer / {name} at {sizes}: geometric mean {mean:.1} (at least {bar}): {}; lowest class {lowest:.1}{of_lowest}",
            met(bar <= mean)
        );
    }

    /// Prints whether a solver takes under 50 ms in small classes where the best peer takes under
    /// 100 ms.
    fn print_small(&self, solver: Solver) {
        let rows = self.rows.iter();
        let is_small = |class: &Class| !class.is_warm() && class.units <= 10;
        let rows = rows.filter(|row| row.class.as_ref().is_none_or(is_small));
        let (mut quick, mut slow, mut slow_files) = (0, 0, 0);
        for row in rows {
            let own = |file: &[Outcome]| self.seconds(file, solver);
            let best = |file: &[Outcome]| self.best_peer(file);
            let is_slow = |best: Option<f64>, own: Option<f64>| {
                best.is_some_and(|best| best < 0.1) && own.is_some_and(|own| 0.05 <= own)
            };
            quick += usize::from(row.median(best).is_some_and(|best| best < 0.1));
            slow += usize::from(is_slow(row.median(best), row.median(own)));
            let files = row
                .files
                .iter()
                .filter(|file| is_slow(best(file), own(file)));
            slow_files += files.count();
        }
        if quick > 0 {
            println!(
                "{} at 10 units and below, classes with a best peer under 100 ms: {quick}, of these not under 50 ms: {slow} (files: {slow_files}): {}",
                solver.name(),
                met(slow == 0)
            );
        }
    }
}

/// Prints a figure in its column.
pub fn figure(figure: Option<f64>, decimals: usize) {
    match figure {
        Some(figure) => print!(" {figure:>9.decimals$}"),
        None => print!(" {:>9}", "-"),
    }
}

/// The geometric mean.
pub fn mean(figures: &[f64]) -> f64 {
    let sum: f64 = figures.iter().map(|figure| figure.ln()).sum();
    (sum / figures.len() as f64).exp()
}

pub fn met(is_met: bool) -> &'static str {
    if is_met {
        "met"
    } else {
        "MISSED"
    }
}
