//! Each kind of near miss on the sample and on generated charts, with the number it must get.

use super::Check;
use crate::generate::{self, Flavour};
use crate::invariants::{ensure, Found};
use crate::near_misses::{accepted, all, sample, small_samples, NearMiss};
use crate::random::Random;
use crate::rules::verdict;
use crate::tables::Chart;

const GENERATED: u64 = 60;

pub fn checks() -> Vec<Check> {
    all()
        .into_iter()
        .chain(accepted())
        .map(|near_miss| {
            let name = format!("near miss {}: {}", near_miss.rule, near_miss.name);
            Check::new(name, move || gets_its_number(near_miss))
        })
        .collect()
}

fn gets_its_number(near_miss: NearMiss) -> Found {
    let on_sample = try_on(near_miss, &sample(), 1)?;
    ensure(on_sample, "the sample has no place for it")?;
    for small in small_samples() {
        try_on(near_miss, &small, 1)?;
    }
    for seed in 0..GENERATED {
        let mut random = Random::seeded(900_000 + seed);
        let flavour = Flavour::any(&mut random);
        try_on(near_miss, &generate::chart(&mut random, flavour), seed)?;
    }
    Ok(())
}

/// Whether the chart has a place for the near miss; an error if it gets another number.
fn try_on(near_miss: NearMiss, chart: &Chart, seed: u64) -> Result<bool, String> {
    let mut random = Random::seeded(seed);
    let Some(lent) = near_miss.of(chart, &mut random, seed % 2 == 1) else { return Ok(false) };
    let given = verdict(&lent.spelt.numbers, &lent.spelt.names, lent.place);
    ensure(given == near_miss.rule, &format!("seed {seed} gets {given}"))?;
    Ok(true)
}
