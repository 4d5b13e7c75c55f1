//! Charts of regions whose states lead to each other, so that many configurations are reached.

use super::EVENTS;
use crate::builder::Builder;
use crate::random::Random;
use crate::tables::{Chart, Kind};

/// Regions of a parallel with some states each, finals among them, and beside the parallel a state and a final.
pub fn regions(random: &mut Random, most_regions: usize, most_states: usize) -> Chart {
    let mut b = Builder::new();
    b.parallel("", "p");
    let mut sizes = Vec::new();
    for region in 0..random.between(most_regions.div_ceil(3), most_regions) {
        b.state("p", &format!("r{region}"));
        let size = random.between(2, most_states);
        for state in 0..size {
            let id = id(region, state);
            match state > 0 && random.chance(15) {
                true => b.final_(&format!("r{region}"), &id),
                false => b.state(&format!("r{region}"), &id),
            };
        }
        sizes.push(size);
    }
    b.state("", "z").final_("", "f");
    let mut maker = Maker { builder: b, sizes, random };
    maker.add_transitions();
    maker.builder.chart()
}

fn id(region: usize, state: usize) -> String {
    format!("r{region}.{state}")
}

struct Maker<'a> {
    builder: Builder,
    sizes: Vec<usize>,
    random: &'a mut Random,
}

impl Maker<'_> {
    fn add_transitions(&mut self) {
        for region in 0..self.sizes.len() {
            for state in 0..self.sizes[region] {
                if !self.is_final(region, state) {
                    self.add_next(region, state);
                    (0..self.random.below(3)).for_each(|_| self.add_one(region, state));
                }
            }
        }
        if self.random.chance(60) {
            let target = if self.random.chance(50) { "z" } else { "f" };
            let events = ["done.state.p", "out"][self.random.below(2)];
            self.builder.on("p", events, target);
        }
        if self.random.chance(60) {
            let back = self.any_state();
            self.builder.on("z", "out", &back);
        }
    }

    /// The states of a region follow each other in a ring.
    fn add_next(&mut self, region: usize, state: usize) {
        let next = id(region, (state + 1) % self.sizes[region]);
        let event = self.event(region);
        self.builder.on(&id(region, state), event, &next);
    }

    /// Few regions share an event.
    fn event(&mut self, region: usize) -> &'static str {
        match self.random.chance(70) {
            true => EVENTS[region % EVENTS.len()],
            false => self.random.pick(&EVENTS).expect("there are some"),
        }
    }

    fn is_final(&self, region: usize, state: usize) -> bool {
        let row = self.builder.row(&id(region, state));
        self.builder.chart.kind(row) == Kind::Final
    }

    fn any_state(&mut self) -> String {
        let region = self.random.below(self.sizes.len());
        id(region, self.random.below(self.sizes[region]))
    }

    /// A transition on an event, or without one, mostly inside the region, at times on a condition.
    fn add_one(&mut self, region: usize, state: usize) {
        let inside = id(region, self.random.below(self.sizes[region]));
        let source = id(region, state);
        let target = match self.random.below(20) {
            0 => "z".to_string(),
            1 => self.any_state(),
            2 => String::new(),
            _ => inside,
        };
        let eventless = self.random.chance(15) && !target.is_empty();
        let event = if eventless { "" } else { self.event(region) };
        self.builder.on(&source, event, &target);
        if self.random.chance(25) || eventless && target == source {
            let asked = self.any_state();
            self.builder.when_in(&asked);
        }
    }
}
