//! A week at prices, one unit after the other ON, OFF or OUT at the least cost: what the plain twin
//! takes where the sets that may be out of a week are too many to look at each of them.
//!
//! Every unit is a place, in the file's order; one that is out already gives nothing and costs its
//! OFF cost in any state. The search goes from the last place down, and is cut by the capacities
//! left and by three lower bounds, which hold at any rate and price. Where its nodes are used up a
//! place is worth what it costs at least.

use crate::plain_file::{File, Units};
use crate::plain_places::{places, Bound, Place, State, COUNTED, SCALE, WEIGHED};
use crate::plain_relaxed::{Choice, UNITS};
use crate::plain_week::Week;

/// What the places decided so far leave.
#[derive(Clone, Copy)]
struct Node {
    need: u64,
    crews: u64,
    bar: Units,
    score: u64,
    out: Units,
    /// A number of places that are not enough below this one.
    ons: usize,
}

/// A week, ready to be searched.
struct Search<'a> {
    file: &'a File<'a>,
    places: [Place; UNITS],
    order: [[State; 3]; UNITS],
    /// What the places below each give.
    room: [u64; UNITS + 1],
    /// What so many of them give at most.
    top: [[u64; UNITS + 1]; UNITS + 1],
    /// The bound by what places give.
    weighed: Bound,
    /// What they cost at least at its price, whatever they give.
    flat: [u64; UNITS + 1],
    /// The bound by how many places are ON.
    counted: Bound,
    best: u64,
    out: Units,
    nodes: u32,
}

/// A lower bound on what a week is worth that has these units out and comes to so much with no others;
/// exact where the nodes suffice, with the best set out that was seen; and the nodes that are left.
pub fn least(file: &File, week: &Week, prices: &[u32], own: Choice, nodes: u32) -> (Choice, u32) {
    let out = own.out;
    let places = places(file, week, prices, out);
    let node = Node {
        need: week.demand,
        crews: u64::from(file.crews.saturating_sub(out.count_ones())),
        bar: file.partners_of(out),
        score: 0,
        out,
        ons: 0,
    };
    let mut search = Search::new(file, places, &node, nodes);
    (search.best, search.out) = (own.value * SCALE, out);
    search.walk(file.units.len(), node);
    // what is bounded is a whole number of euros
    let choice = Choice {
        value: search.best.div_ceil(SCALE),
        out: search.out,
    };
    (choice, search.nodes)
}

impl Node {
    fn on(mut self, place: &Place) -> Self {
        self.need = self.need.saturating_sub(place.capacity);
        self.score += place.on;
        self.ons = self.ons.saturating_sub(1);
        self
    }

    fn off(mut self, place: &Place) -> Self {
        self.score += place.off;
        self
    }

    fn out(mut self, place: &Place, unit: usize, partners: Units) -> Self {
        self.crews -= 1;
        self.bar |= partners;
        self.score += place.out;
        self.out |= 1 << unit;
        self
    }

    /// Whether a unit may still be OUT.
    fn has_crew_for(&self, unit: usize) -> bool {
        self.crews > 0 && self.bar >> unit & 1 == 0
    }
}

impl<'a> Search<'a> {
    fn new(file: &'a File, places: [Place; UNITS], node: &Node, nodes: u32) -> Self {
        let own = &places[..file.units.len()];
        let top = most_given(own);
        let count = top[own.len()].iter().position(|&most| node.need <= most);
        let count = count.expect("the week has a run") as u64;
        let crews = node.crews as usize;
        let weighed = Bound::new(own, WEIGHED, node.need, crews);
        let (mut room, mut flat) = ([0; UNITS + 1], [0; UNITS + 1]);
        let mut order = [[State::On; 3]; UNITS];
        for (below, place) in own.iter().enumerate() {
            room[below + 1] = room[below] + place.capacity;
            flat[below + 1] = flat[below] + place.idle(weighed.price).min(place.on);
            order[below] = place.order(&weighed);
        }
        Search {
            file,
            counted: Bound::new(own, COUNTED, count, crews),
            weighed,
            places,
            order,
            room,
            top,
            flat,
            best: u64::MAX,
            out: node.out,
            nodes,
        }
    }

    /// Looks through all choices for the places below one.
    fn walk(&mut self, below: usize, node: Node) {
        if self.best <= node.score || self.room[below] < node.need {
            return;
        }
        let mut node = node;
        while self.top[below][node.ons] < node.need {
            node.ons += 1;
        }
        let least = self.bound(below, &node);
        if self.best <= least {
            return;
        }
        if below == 0 {
            (self.best, self.out) = (node.score, node.out);
            return;
        }
        if self.nodes == 0 {
            self.best = least;
            return;
        }
        self.nodes -= 1;
        let (unit, place) = (below - 1, self.places[below - 1]);
        for state in self.order[unit] {
            match state {
                State::On => self.walk(unit, node.on(&place)),
                State::Off if place.off < place.on => self.walk(unit, node.off(&place)),
                State::Out if place.may_go && node.has_crew_for(unit) => {
                    self.walk(unit, node.out(&place, unit, self.file.units[unit].partners));
                }
                _ => {}
            }
        }
    }

    /// What every choice for the places below one costs at least.
    fn bound(&self, below: usize, node: &Node) -> u64 {
        let flat = node.score + self.flat[below];
        let flat = flat.saturating_sub(self.weighed.price * node.crews);
        let Node { score, crews, .. } = *node;
        let weighed = self.weighed.least(below, score, node.need, crews);
        let counted = self.counted.least(below, score, node.ons as u64, crews);
        node.score.max(flat).max(weighed).max(counted)
    }
}

/// What so many of the places below each give at most.
fn most_given(places: &[Place]) -> [[u64; UNITS + 1]; UNITS + 1] {
    let mut top = [[0; UNITS + 1]; UNITS + 1];
    for (below, place) in places.iter().enumerate() {
        for count in 0..UNITS {
            let (without, with) = (top[below][count + 1], top[below][count] + place.capacity);
            top[below + 1][count + 1] = without.max(with);
        }
    }
    top
}
