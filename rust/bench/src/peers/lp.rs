//! A plan as a 0-1 program in the LP format that all solvers read. `x_i_s` is 1 where unit i starts
//! in week s, `z_i_t` where it is ON in week t; a unit is out in week t where one of the starts
//! is 1 that have it out then. With OFF costs the objective has all of them, as the factor of a
//! variable `off` that is 1, and starts and runs cost less by what they save.

use reference::{permitted_starts, upkeep, Plan};
use std::fmt::Write;

/// The terms of a row on a line.
const TERMS: usize = 8;

/// The program's text.
pub fn text(plan: &Plan) -> String {
    let mut program = Program::new(plan);
    program.objective();
    program.text += "Subject To\n";
    program.starts();
    (1..=plan.weeks).for_each(|week| program.week(week));
    if plan.off.is_some() {
        program.row(&[(1, ALL_OFF.to_string())], "=", 1);
    }
    program.variables();
    program.text
}

struct Program<'a> {
    plan: &'a Plan,
    text: String,
    rows: usize,
}

/// A coefficient and its variable.
type Term = (i64, String);

/// The variable that has all OFF costs.
const ALL_OFF: &str = "off";

fn start_of(unit: u32, start: u32) -> String {
    format!("x_{unit}_{start}")
}

fn on(unit: u32, week: u32) -> String {
    format!("z_{unit}_{week}")
}

impl<'a> Program<'a> {
    fn new(plan: &'a Plan) -> Self {
        Program {
            plan,
            text: String::new(),
            rows: 0,
        }
    }

    fn units(&self) -> std::ops::RangeInclusive<u32> {
        1..=self.plan.units
    }

    /// The costs of all starts and runs, less what is saved where they are not OFF; all OFF costs.
    fn costs(&self) -> Vec<Term> {
        let plan = self.plan;
        let off = |unit: u32, week: u32| i64::from(plan.off_cost(week as usize, unit as usize));
        let mut terms = vec![];
        for unit in self.units() {
            for start in permitted_starts(plan, unit as usize) {
                let cost = upkeep(plan, unit as usize, start as usize).expect("permitted");
                let weeks = start..start + plan.duration[unit as usize - 1];
                let saved: i64 = weeks.map(|week| off(unit, week)).sum();
                terms.push((cost as i64 - saved, start_of(unit, start)));
            }
        }
        for (week, costs) in (1..).zip(&plan.running) {
            for (unit, &cost) in (1..).zip(costs) {
                terms.push((i64::from(cost) - off(unit, week), on(unit, week)));
            }
        }
        if let Some(costs) = &plan.off {
            let all = costs.iter().flatten().map(|&cost| i64::from(cost));
            terms.push((all.sum(), ALL_OFF.to_string()));
        }
        terms
    }

    /// The objective.
    fn objective(&mut self) {
        let terms = self.costs();
        self.text += "Minimize\n obj:";
        self.terms(&terms);
        self.text += "\n";
    }

    /// Each unit has one start.
    fn starts(&mut self) {
        for unit in self.units() {
            let starts = permitted_starts(self.plan, unit as usize);
            let mut terms: Vec<Term> = starts.iter().map(|&s| (1, start_of(unit, s))).collect();
            if terms.is_empty() {
                terms.push((0, on(unit, 1)));
            }
            self.row(&terms, "=", 1);
        }
    }

    /// Demand, crews, no unit ON and out, no pair out, in a week.
    fn week(&mut self, week: u32) {
        let (plan, units) = (self.plan, self.units());
        let capacities = units.clone().zip(&plan.capacity);
        let capacities = capacities.map(|(unit, &capacity)| (i64::from(capacity), on(unit, week)));
        let demand = plan.demand[week as usize - 1];
        self.row(&capacities.collect::<Vec<_>>(), ">=", demand);
        let all: Vec<Term> = units
            .clone()
            .flat_map(|unit| self.out(unit, week))
            .collect();
        self.row(&all, "<=", plan.crews);
        for unit in units {
            let mut terms = self.out(unit, week);
            terms.push((1, on(unit, week)));
            self.row(&terms, "<=", 1);
        }
        for &(a, b) in &plan.pairs {
            let (a, b) = (self.out(a, week), self.out(b, week));
            if !a.is_empty() && !b.is_empty() {
                self.row(&[a, b].concat(), "<=", 1);
            }
        }
    }

    /// The starts that have a unit out in a week.
    fn out(&self, unit: u32, week: u32) -> Vec<Term> {
        let duration = self.plan.duration[unit as usize - 1];
        let starts = permitted_starts(self.plan, unit as usize).into_iter();
        let starts = starts.filter(|&start| start <= week && week < start + duration);
        starts.map(|start| (1, start_of(unit, start))).collect()
    }

    /// All variables are 0 or 1.
    fn variables(&mut self) {
        self.text += "Binary\n";
        for unit in self.units() {
            for start in permitted_starts(self.plan, unit as usize) {
                self.line(&start_of(unit, start));
            }
            for week in 1..=self.plan.weeks {
                self.line(&on(unit, week));
            }
        }
        if self.plan.off.is_some() {
            self.line(ALL_OFF);
        }
        self.text += "End\n";
    }

    /// A row, where it has terms.
    fn row(&mut self, terms: &[Term], sense: &str, right: u32) {
        if terms.is_empty() {
            return;
        }
        self.rows += 1;
        write!(self.text, " r{}:", self.rows).expect("a string has room");
        self.terms(terms);
        self.line(&format!("{sense} {right}"));
    }

    fn terms(&mut self, terms: &[Term]) {
        for (place, (factor, variable)) in terms.iter().enumerate() {
            if place > 0 && place % TERMS == 0 {
                self.text += "\n  ";
            }
            let sign = if *factor < 0 { '-' } else { '+' };
            let size = factor.unsigned_abs();
            write!(self.text, " {sign} {size} {variable}").expect("a string has room");
        }
    }

    fn line(&mut self, line: &str) {
        self.text += " ";
        self.text += line;
        self.text += "\n";
    }
}

#[cfg(test)]
mod tests {
    use super::{on, start_of, text, Program, ALL_OFF};
    use agree::{asked_plan, OffCounts, Random};
    use reference::{example_a, Plan, Schedule, Survey};

    /// File A: two units of one week each, three weeks, one crew, no pairs.
    #[test]
    fn file_a_is_written_in_full() {
        let text = text(&example_a());
        let has = |line: &str| assert!(text.contains(line), "{line} in {text}");
        has(
            "Minimize\n obj: + 5 x_1_1 + 4 x_1_2 + 6 x_1_3 + 5 x_2_1 + 7 x_2_2 + 6 x_2_3 + 3 z_1_1",
        );
        has(" r1: + 1 x_1_1 + 1 x_1_2 + 1 x_1_3 = 1\n");
        has(" r3: + 10 z_1_1 + 15 z_2_1 >= 10\n");
        has(" r4: + 1 x_1_1 + 1 x_2_1 <= 1\n");
        has(" r5: + 1 x_1_1 + 1 z_1_1 <= 1\n");
        has(" r14: + 1 x_2_3 + 1 z_2_3 <= 1\nBinary\n x_1_1\n");
        assert!(!text.contains("r15") && !text.contains("off"));
    }

    /// With OFF costs the same rows and one more; a start or a run may cost less than nothing.
    #[test]
    fn off_costs_are_saved_by_starts_and_runs() {
        let plan = Plan {
            off: Some(vec![vec![1, 2], vec![3, 40], vec![5, 6]]),
            ..example_a()
        };
        let text = text(&plan);
        let has = |line: &str| assert!(text.contains(line), "{line} in {text}");
        has(
            "Minimize\n obj: + 4 x_1_1 + 1 x_1_2 + 1 x_1_3 + 3 x_2_1 - 33 x_2_2 + 0 x_2_3 + 2 z_1_1",
        );
        has(" + 57 off\nSubject To\n");
        has(" r14: + 1 x_2_3 + 1 z_2_3 <= 1\n r15: + 1 off = 1\nBinary\n x_1_1\n");
        has(" z_2_3\n off\nEnd\n");
    }

    /// The variables that are 1 in a schedule.
    fn variables_of(schedule: &Schedule) -> Vec<String> {
        let starts = (1..).zip(&schedule.starts);
        let starts = starts.map(|(unit, &start)| start_of(unit, start));
        let runs = (1..).zip(&schedule.runs).flat_map(|(week, &run)| {
            let units = (1..=16).filter(move |unit| run >> (unit - 1) & 1 == 1);
            units.map(move |unit| on(unit, week))
        });
        starts.chain(runs).chain([ALL_OFF.to_string()]).collect()
    }

    #[test]
    fn the_objective_is_the_cost_of_each_schedule() {
        let (mut off, mut schedules) = (OffCounts::default(), 0);
        for seed in 0..300 {
            let mut random = Random::seeded(seed);
            let plan = asked_plan(&mut random, seed as u32 % 5 + 1, seed as u32 / 5 % 4 + 1);
            off.add(&plan);
            let costs = Program::new(&plan).costs();
            for schedule in Survey::new(&plan).sound() {
                let chosen = variables_of(schedule);
                let chosen = costs.iter().filter(|(_, name)| chosen.contains(name));
                let cost: i64 = chosen.map(|(cost, _)| cost).sum();
                assert_eq!(cost, schedule.cost as i64, "seed {seed}");
                schedules += 1;
            }
        }
        assert!(schedules > 1000 && off.rarest() > 30, "{schedules}, {off}");
    }
}
