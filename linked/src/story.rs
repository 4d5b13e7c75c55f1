//! The story of the README through the library: a region whose id has 52 bytes finishes.

use crate::compare::ensure;
use crate::library::{self, Compiled, CONFIGURATION, INTERNAL_COUNT};
use crate::sessions::timed_alike;
use second::calls::Call;
use second::compiled::{compile, CompiledChart, Places};
use second::encode::Layout;
use second::limits::{ROW_SET_WORDS, SLOT_BYTES};
use second::near_misses::Lent;
use second::story;
use second::timed::{watch_nothing, Timed};

/// Does a call where the session lies.
fn call_on(call: &Call, timed: &mut library::Timed, places: &Places) {
    let chart = Compiled::from(places);
    match call {
        Call::Start { room } => drop(timed.lend().start(chart, &mut vec![0; *room])),
        Call::Post { name } => drop(timed.lend().post(chart, name)),
        Call::Clock { ticks } => drop(timed.lend().clock(chart, *ticks)),
        Call::Run { rounds, room } => drop(timed.lend().run(chart, *rounds, &mut vec![0; *room])),
    }
}

/// Each call leaves what the second program says; the last one queues 63 bytes and a zero, and
/// leaves every other byte but those of the configuration and the count.
pub fn play() -> Result<(), String> {
    let Lent { spelt, place } = Lent::of(&story::chart(), Layout::Plain);
    let places = compile(&spelt.numbers, &spelt.names, place).map_err(|rule| rule.to_string())?;
    let compiled = CompiledChart::open(&places.numbers, &places.names);
    let mut own = Timed::ended();
    let mut before = library::Timed::from(&own);
    for call in story::before() {
        own = call.done_on(own, compiled.as_ref(), &mut watch_nothing).timed();
        call_on(&call, &mut before, &places);
        timed_alike(&before, &own)?;
    }
    let mut after = before.clone();
    call_on(&story::last(), &mut after, &places);
    let mut expected = before;
    let session = &mut expected.session;
    session.numbers[CONFIGURATION].copy_from_slice(&after.session.numbers[CONFIGURATION]);
    session.numbers[INTERNAL_COUNT] = 1;
    let name = story::done_name();
    session.internal[..SLOT_BYTES].fill(0);
    session.internal[..name.len()].copy_from_slice(&name);
    ensure(name.len() == SLOT_BYTES - 1, || "the name has another length".to_string())?;
    ensure(after.session.numbers[CONFIGURATION] != [0; ROW_SET_WORDS] && after == expected, || {
        "story: another byte changes".to_string()
    })
}
