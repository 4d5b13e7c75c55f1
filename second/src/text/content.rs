//! "'Equal' means the same rows and transitions after equal names are joined, unused ones dropped and the
//! rest numbered by first use."

use crate::encode::{encode, Layout, Spelt};
use crate::names::Slot;
use crate::numbers::{NameNumber, RowNumber};
use crate::random::Random;
use crate::tables::{Action, Chart};
use std::collections::HashMap;

/// The chart with names joined, dropped and numbered anew. First use is in the order of the written text:
/// a row's id, its entry, exit and list blocks, its transitions, then the next row.
pub fn normal(chart: &Chart) -> Chart {
    let mut names = Names { old: &chart.names, new: Vec::new(), known: HashMap::new() };
    let mut next = chart.clone();
    for (number, row) in next.rows.iter_mut().enumerate() {
        row.id = row.id.map(|name| names.number(name));
        for block in [&mut row.entry, &mut row.exit, &mut row.block] {
            names.renumber(block);
        }
        let of_row = |transition: &&mut crate::tables::Transition| transition.source == RowNumber(number);
        for transition in next.transitions.iter_mut().filter(of_row) {
            for name in &mut transition.descriptors {
                *name = names.number(*name);
            }
            names.renumber(&mut transition.block);
        }
    }
    next.names = names.new;
    next
}

/// The tables of the normal chart: two charts are equal exactly if these are.
pub fn normal_tables(chart: &Chart) -> Spelt {
    encode(&normal(chart), Layout::InOrder)
}

struct Names<'a> {
    old: &'a [Slot],
    new: Vec<Slot>,
    known: HashMap<&'a Slot, NameNumber>,
}

impl Names<'_> {
    fn number(&mut self, name: NameNumber) -> NameNumber {
        let slot = &self.old[name.0];
        *self.known.entry(slot).or_insert_with(|| {
            self.new.push(*slot);
            NameNumber(self.new.len() - 1)
        })
    }

    fn renumber(&mut self, block: &mut [Action]) {
        for action in block {
            for name in names_of(action) {
                *name = self.number(*name);
            }
        }
    }
}

/// An equal chart whose slots stand in another order, with some doubled and some unused.
pub fn with_other_slots(chart: &Chart, random: &mut Random, most: usize) -> Chart {
    let mut next = chart.clone();
    let mut order: Vec<usize> = (0..chart.names.len()).collect();
    while order.len() < most && random.chance(60) {
        order.push(random.below(chart.names.len()));
    }
    random.shuffle(&mut order);
    next.names = order.iter().map(|&old| chart.names[old]).collect();
    let mut place = |name: &mut NameNumber| {
        let places: Vec<usize> = (0..order.len()).filter(|&new| order[new] == name.0).collect();
        *name = NameNumber(random.pick(&places).expect("every slot has a place"));
    };
    for row in &mut next.rows {
        row.id.iter_mut().for_each(&mut place);
        let blocks = [&mut row.entry, &mut row.exit, &mut row.block];
        blocks.into_iter().flatten().for_each(|action| names_of(action).into_iter().for_each(&mut place));
    }
    for transition in &mut next.transitions {
        transition.descriptors.iter_mut().for_each(&mut place);
        transition.block.iter_mut().for_each(|action| names_of(action).into_iter().for_each(&mut place));
    }
    next
}

/// The names of an action in the order in which they are written: a send's id before its event.
fn names_of(action: &mut Action) -> Vec<&mut NameNumber> {
    match action {
        Action::Raise(name) | Action::Cancel(name) => vec![name],
        Action::Send { event, id, .. } => id.iter_mut().chain([event]).collect(),
        _ => Vec::new(),
    }
}
