//! Flat tables: each case of the second program is lent to the library, and the place must be as the case says
//! afterwards, with the guards around it.

use crate::compare::{add, difference, ensure, Guarded};
use crate::proposed::flatten;
use crate::seeds::Tally;
use second::flat_cases::{flat_cases, FlatCase};

/// Flat tables by answer.
#[derive(Clone, Default)]
pub struct Counts {
    pub answers: [u64; 18],
}

impl Tally for Counts {
    fn join(&mut self, other: &Counts) {
        add(&mut self.answers, &other.answers);
    }
}

fn alike(case: &FlatCase, counts: &mut Counts) -> Result<(), String> {
    let mut place = Guarded::new(case.before.len(), || 0xa7);
    place.lent().copy_from_slice(&case.before);
    let parts = case.parts().concat();
    let answer = flatten((&case.chart).into(), &parts, &case.text, place.lent());
    ensure(answer == case.answer, || format!("answer {answer}, not {}", case.answer))?;
    let own = place.with(&case.after);
    ensure(place.cells == own, || difference("cell", &place.cells, &own))?;
    counts.answers[case.answer as usize] += 1;
    Ok(())
}

/// Compares all that a seed makes.
pub fn try_seed(seed: u64, counts: &mut Counts) -> Result<(), String> {
    for case in flat_cases(seed) {
        alike(&case, counts).map_err(|what| format!("a flat table, {}: {what}", case.about))?;
    }
    Ok(())
}
