//! Grids: all of a size, random ones, and edited ones.

use crate::Random;
use reference::Plan;

/// The number of cells in a plan's grids.
pub fn cells_of(plan: &Plan) -> usize {
    (plan.weeks * plan.units) as usize
}

/// Every grid of so many cells, 3 to the power of them.
pub fn all_grids(cells: usize) -> impl Iterator<Item = Vec<u8>> {
    let state = |number: usize, place: usize| (number / 3usize.pow(place as u32) % 3) as u8;
    (0..3usize.pow(cells as u32))
        .map(move |number| (0..cells).map(|place| state(number, place)).collect())
}

/// A grid with any states.
pub fn random_grid(cells: usize, random: &mut Random) -> Vec<u8> {
    (0..cells).map(|_| random.within(0, 2) as u8).collect()
}

/// The grid of a plan after 1 to 3 random edits: a cell given any state, two cells swapped, a week
/// taken from another, a unit's states taken from another or moved by some weeks.
pub fn edited_grid(mut grid: Vec<u8>, plan: &Plan, random: &mut Random) -> Vec<u8> {
    for _ in 0..random.within(1, 3) {
        edit(&mut grid, plan, random);
    }
    grid
}

fn edit(grid: &mut [u8], plan: &Plan, random: &mut Random) {
    let units = plan.units as usize;
    let (place, other) = (random.place(grid.len()), random.place(grid.len()));
    let (unit, other_unit) = (place % units, other % units);
    let (week, other_week) = (place - unit, other - other_unit);
    match random.within(0, 5) {
        0 => grid[place] = random.within(0, 2) as u8,
        1 => grid.swap(place, other),
        2 => grid.copy_within(other_week..other_week + units, week),
        3 => set_states(grid, unit, &states(grid, other_unit, units)),
        _ => {
            let mut moved = states(grid, unit, units);
            moved.rotate_right(other / units);
            set_states(grid, unit, &moved);
        }
    }
}

/// A unit's states, week by week; units count from 0.
fn states(grid: &[u8], unit: usize, units: usize) -> Vec<u8> {
    grid.iter().skip(unit).step_by(units).copied().collect()
}

fn set_states(grid: &mut [u8], unit: usize, states: &[u8]) {
    let units = grid.len() / states.len();
    for (row, &state) in grid.chunks_mut(units).zip(states) {
        row[unit] = state;
    }
}
