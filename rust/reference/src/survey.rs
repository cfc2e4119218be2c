//! Every place of a plan and every list of starts that makes a sound schedule, found by walking
//! them all. Units and weeks count from 1.

use crate::commitment::CheapestRun;
use crate::formulas::{broken, cost, MAINT};
use crate::{cheapest_run, lay_out, permitted_starts, Plan};
use std::collections::BTreeMap;

/// The starts of units 1 to j, j at least 1. The order of lists is that of the walk: a place comes
/// before its extensions, else the smaller start at the first difference decides.
pub type Place = Vec<u32>;

/// A schedule that meets (1) to (8), and its cost.
#[derive(Clone, Debug, PartialEq, Eq)]
pub struct Schedule {
    /// Each unit's start.
    pub starts: Vec<u32>,
    /// The number of each week's run.
    pub runs: Vec<u32>,
    /// Formula (9) of its grid, in euros.
    pub cost: u64,
}

/// What asks on a plan are held against.
pub struct Survey {
    plan: Plan,
    places: Vec<Place>,
    sound: Vec<Schedule>,
}

impl Survey {
    /// Walks all places of a plan. Their number is at most W + W² + … + W^U: for small plans, or
    /// narrow windows.
    pub fn new(plan: &Plan) -> Self {
        let places = places_from(plan, &[]);
        let units = plan.units as usize;
        let mut weeks = Weeks::new(plan);
        // The order of equal costs looks at starts before runs, and a week's run has no influence
        // on another's: of the schedules with the same starts, only the one with each week's
        // cheapest run of smallest number can be the earliest of the cheapest.
        let whole = places.iter().filter(|place| place.len() == units);
        let sound = whole.filter_map(|starts| weeks.schedule(starts)).collect();
        Survey {
            plan: plan.clone(),
            places,
            sound,
        }
    }

    /// The plan.
    pub fn plan(&self) -> &Plan {
        &self.plan
    }

    /// All places, in the order of the walk.
    pub fn places(&self) -> &[Place] {
        &self.places
    }

    /// For each list of starts that has one, its earliest cheapest sound schedule; the starts rise
    /// as places do.
    pub fn sound(&self) -> &[Schedule] {
        &self.sound
    }

    /// The number of places before a place; none where the list is no place.
    pub fn rank(&self, place: &[u32]) -> Option<usize> {
        self.places.iter().position(|other| other == place)
    }

    /// The earliest of the cheapest schedules at or below the ceiling.
    pub fn cheapest(&self, ceiling: u32) -> Option<&Schedule> {
        self.cheapest_where(ceiling, |_| true)
    }

    /// The earliest of the cheapest schedules at or below the ceiling whose starts lie before the
    /// mark. The mark itself and its extensions do not.
    pub fn cheapest_before(&self, mark: &[u32], ceiling: u32) -> Option<&Schedule> {
        self.cheapest_where(ceiling, |starts| starts < mark)
    }

    /// The earliest of the cheapest schedules at or below the ceiling with all of the choices.
    pub fn cheapest_with(&self, choices: &[(u32, u32)], ceiling: u32) -> Option<&Schedule> {
        let chosen = |starts: &[u32], unit: u32| starts[unit as usize - 1];
        self.cheapest_where(ceiling, |starts| {
            let mut choices = choices.iter();
            choices.all(|&(unit, start)| chosen(starts, unit) == start)
        })
    }

    fn cheapest_where(&self, ceiling: u32, counts: impl Fn(&[u32]) -> bool) -> Option<&Schedule> {
        // the first of equals, and the starts rise
        self.sound
            .iter()
            .filter(|schedule| schedule.cost <= u64::from(ceiling))
            .filter(|schedule| counts(&schedule.starts))
            .min_by_key(|schedule| schedule.cost)
    }
}

/// The number of places before a list of starts, counted unit by unit, for plans with too many
/// places to walk; none where the list is no place.
pub fn counted_rank(plan: &Plan, place: &[u32]) -> Option<u128> {
    let starts: Vec<Vec<u32>> = (1..=plan.units as usize)
        .map(|unit| permitted_starts(plan, unit))
        .collect();
    let mut rank = 0;
    for (unit, start) in place.iter().enumerate() {
        let before = starts.get(unit)?.iter().position(|other| other == start)?;
        // each earlier start with all that extends it, and the place of the unit before
        let extended = |fewer, of_unit: &Vec<u32>| 1 + of_unit.len() as u128 * fewer;
        let places = starts[unit + 1..].iter().rev().fold(1, extended);
        rank += before as u128 * places + u128::from(unit > 0);
    }
    (!place.is_empty()).then_some(rank)
}

/// All places that extend a list of starts, each before its own extensions. A unit without a
/// permitted start ends them: the places of the units before it stand.
fn places_from(plan: &Plan, starts: &[u32]) -> Vec<Place> {
    let mut places = vec![];
    for start in permitted_starts(plan, starts.len() + 1) {
        let place = [starts, &[start]].concat();
        let extensions = places_from(plan, &place);
        places.push(place);
        places.extend(extensions);
    }
    places
}

/// The weeks of a plan. Cheapest runs that were asked for before are kept, as many lists of starts
/// have the same units out of a week.
struct Weeks<'a> {
    plan: &'a Plan,
    known: BTreeMap<(usize, u32), Option<CheapestRun>>,
}

impl<'a> Weeks<'a> {
    fn new(plan: &'a Plan) -> Self {
        let known = BTreeMap::new();
        Weeks { plan, known }
    }

    /// The schedule with these starts and each week's cheapest run of smallest number, where there
    /// are runs and the whole meets (1) to (8).
    fn schedule(&mut self, starts: &[u32]) -> Option<Schedule> {
        let runs = self.runs(starts)?;
        let grid = lay_out(self.plan, starts, &runs);
        broken(self.plan, &grid).is_empty().then(|| Schedule {
            starts: starts.to_vec(),
            runs,
            cost: cost(self.plan, &grid),
        })
    }

    /// Each week's cheapest run, where every week has one.
    fn runs(&mut self, starts: &[u32]) -> Option<Vec<u32>> {
        let nobody_runs = lay_out(self.plan, starts, &[]);
        let rows = nobody_runs.chunks(self.plan.units as usize);
        (1..)
            .zip(rows)
            .map(|(week, states)| self.cheapest(week, out_of(states)))
            .collect()
    }

    /// The number of a week's cheapest run with the units of `out` out.
    fn cheapest(&mut self, week: usize, out: u32) -> Option<u32> {
        let run = || cheapest_run(self.plan, week, out);
        let known = self.known.entry((week, out)).or_insert_with(run);
        known.map(|cheapest| cheapest.run)
    }
}

/// The set of units that are MAINT among a week's states, as a run's number.
fn out_of(states: &[u8]) -> u32 {
    let bit = |(unit, &state): (usize, &u8)| u32::from(state == MAINT) << unit;
    states.iter().enumerate().map(bit).sum()
}
