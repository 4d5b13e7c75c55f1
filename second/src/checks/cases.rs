//! What the programs over the crates are run on has enough of everything.

use super::Check;
use crate::cases::calls;
use crate::compiled::CompiledChart;
use crate::encode::encode_plainly;
use crate::invariants::{ensure, Found};
use crate::limits::QUEUE_NAMES;
use crate::readings;
use crate::story;
use crate::timed::{watch_nothing, Timed};

const MIN_CHARTS: usize = 300;

pub fn checks() -> Vec<Check> {
    vec![
        Check::new("cases: at least 300 charts with calls", enough_charts),
        Check::new("cases: a chart for each reading", each_reading),
        Check::new("story: a done name of 63 bytes changes nothing beside its slot", done_name_in_its_slot),
    ]
}

fn enough_charts() -> Found {
    let count = calls::charts_with_calls();
    ensure(count >= MIN_CHARTS, &format!("only {count} charts have calls"))
}

fn each_reading() -> Found {
    let (input, _) = calls::texts();
    for (place, examples) in readings::all().iter().enumerate() {
        let told = examples.iter().any(|example| input.contains(&format!("c {}\nn ", example.about)));
        ensure(told, &format!("reading {} has no chart", place + 1))?;
    }
    Ok(())
}

fn done_name_in_its_slot() -> Found {
    let spelt = encode_plainly(&story::chart());
    let compiled = CompiledChart::from_tables(&spelt.numbers, &spelt.names).expect("the chart is accepted");
    let mut timed = Timed::ended();
    for call in story::before() {
        timed = call.done_on(timed, Some(&compiled), &mut watch_nothing).timed();
    }
    let session = timed.session.clone();
    let full =
        session.external.count == QUEUE_NAMES as u64 && session.stored.iter().any(|set| !set.is_empty());
    ensure(full, "the session is not full")?;
    let after = story::last().done_on(timed, Some(&compiled), &mut watch_nothing).session;
    ensure(after == story::expected(&session, &after), "another byte changes")?;
    ensure(after.configuration != session.configuration, "the region does not finish")
}
