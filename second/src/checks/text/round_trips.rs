//! Charts in random spellings read back to themselves; what is written reads back and is written alike.

use super::{agrees, decoded, Check};
use crate::compiled::needed_place;
use crate::encode::{encode, encode_plainly, Layout, Spelt};
use crate::generate::{self, Flavour};
use crate::invariants::{ensure, Found};
use crate::limits::MAX_SLOTS;
use crate::random::Random;
use crate::rules::judge;
use crate::show;
use crate::tables::Chart;
use crate::text::content::{normal, normal_tables, with_other_slots};
use crate::text::plant::planted;
use crate::text::read::{read, Refusal};
use crate::text::recogniser::{Recogniser, MAX_TEXT};
use crate::text::spell::spell;
use crate::text::write::{text_of, write, Unwritten};

const CHARTS_OF_CHECK: u64 = 125;

pub fn checks() -> Vec<Check> {
    let mut checks = Vec::new();
    for piece in 0..8 {
        let name = |what: &str| format!("text: {what}, piece {piece}");
        checks.push(Check::new(name("random spellings read back"), move || {
            // It remembers what it has seen, so that one for all is quicker.
            let mut recogniser = Recogniser::default();
            many(piece, |random| spelt_reads_back(random, &mut recogniser))
        }));
        checks.push(Check::new(name("written, read and written again"), move || {
            many(piece, written_reads_back)
        }));
        checks.push(Check::new(name("faults at known places"), move || many(piece, planted_is_found)));
    }
    checks
}

fn many(piece: u64, mut each: impl FnMut(&mut Random) -> Found) -> Found {
    for seed in piece * CHARTS_OF_CHECK..(piece + 1) * CHARTS_OF_CHECK {
        each(&mut Random::seeded(seed)).map_err(|what| format!("seed {seed}: {what}"))?;
    }
    Ok(())
}

fn some_chart(random: &mut Random) -> Chart {
    let flavour = Flavour::any(random);
    generate::chart(random, flavour)
}

/// The chart's text, unless it is too long to be read.
fn some_text(random: &mut Random) -> Option<(Chart, Vec<u8>)> {
    let chart = some_chart(random);
    let text = spell(&chart, random);
    (text.len() <= MAX_TEXT).then_some((chart, text))
}

fn spelt_reads_back(random: &mut Random, recogniser: &mut Recogniser) -> Found {
    let Some((chart, text)) = some_text(random) else { return Ok(()) };
    agrees(recogniser, &text)?;
    let shown = || String::from_utf8_lossy(&text).into_owned();
    let tables = read(&text).map_err(|refusal| format!("{refusal:?}: {}", shown()))?;
    let same = normal_tables(&decoded(&tables)) == normal_tables(&chart);
    ensure(same, &format!("{} is not what {} means", show::chart(&chart), shown()))?;
    ensure(slots_by_first_use(&text, &tables), &format!("slots of {}", shown()))
}

/// Whether the slots stand in the order in which their names are first used, going by the text alone: a
/// name is used behind id=, event= and sendid=, which no comment of the speller holds in a tag.
fn slots_by_first_use(text: &[u8], tables: &Spelt) -> bool {
    let text = String::from_utf8_lossy(text);
    let mut names: Vec<String> = Vec::new();
    for comment_free in text.split("<!--").map(|piece| piece.rsplit("-->").next().unwrap_or(piece)) {
        for piece in comment_free.split(['<', '>']).flat_map(attributes_of) {
            for item in piece.split_whitespace() {
                if !names.iter().any(|name| name == item) {
                    names.push(item.to_string());
                }
            }
        }
    }
    let slots =
        tables.names.chunks(64).map(|slot| String::from_utf8_lossy(slot).trim_end_matches('\0').to_string());
    slots.eq(names.iter().cloned())
}

/// The values of id, event and sendid in a tag, in their order.
fn attributes_of(tag: &str) -> Vec<&str> {
    let mut values = Vec::new();
    let mut rest = tag;
    while let Some((before, behind)) = rest.split_once('=') {
        let name = before.split_whitespace().last().unwrap_or("");
        let behind = behind.trim_start();
        let Some(quote) = behind.chars().next() else { break };
        let Some((value, behind)) = behind[1..].split_once(quote) else { break };
        if matches!(name, "id" | "event" | "sendid") {
            values.push(value);
        }
        rest = behind;
    }
    values
}

fn written_reads_back(random: &mut Random) -> Found {
    let chart = some_chart(random);
    let layout =
        if random.chance(50) { Layout::Plain } else { Layout::Mixed(Random::seeded(random.number())) };
    let tables = encode(&chart, layout);
    let mut buffer = vec![b'?'; MAX_TEXT + 1];
    let long = text_of(&chart);
    let found = write(&tables.numbers, &tables.names, &mut buffer);
    if long.len() > MAX_TEXT {
        let untouched = buffer.iter().all(|&byte| byte == b'?');
        return ensure(found == Err(Unwritten::TooLong(0)) && untouched, "13 for more than can be read");
    }
    let length = found.map_err(|answer| format!("writing {} gets {answer:?}", show::chart(&chart)))?;
    ensure(buffer[..length] == *long.as_bytes(), "the text is written")?;
    ensure(buffer[length..].iter().all(|&byte| byte == b'?'), "and nothing behind it")?;
    let again = read(long.as_bytes()).map_err(|refusal| format!("{refusal:?}: {long}"))?;
    ensure(again == normal_tables(&chart), &format!("{long} does not mean {}", show::chart(&chart)))?;
    ensure(text_of(&decoded(&again)) == long, "writing twice changes nothing")?;
    let other = with_other_slots(&chart, random, MAX_SLOTS as usize);
    ensure(text_of(&other) == long, "slots do not matter")?;
    differs_if_changed(&chart, random)
}

/// One thing changed, and the text is another.
fn differs_if_changed(chart: &Chart, random: &mut Random) -> Found {
    let mut other = chart.clone();
    let row = random.below(chart.rows.len());
    match random.below(4) {
        0 => other.rows[row].list.reverse(),
        1 => other.rows[row].entry.reverse(),
        2 if !other.transitions.is_empty() => {
            let place = random.below(other.transitions.len());
            other.transitions[place].descriptors.reverse();
        }
        _ => other.rows[row].list.truncate(1),
    }
    let tables = encode_plainly(&other);
    let place = needed_place(&tables.numbers).ok_or("the sizes are as before")?;
    if judge(&tables.numbers, &tables.names, place).is_err() {
        return Ok(());
    }
    let equal = normal(&other) == normal(chart);
    ensure((text_of(&other) == text_of(chart)) == equal, "written alike exactly if equal")
}

fn planted_is_found(random: &mut Random) -> Found {
    let Some((_, text)) = some_text(random) else { return Ok(()) };
    let Some((text, place)) = planted(&text, random) else { return Ok(()) };
    if text.len() > MAX_TEXT {
        return Ok(());
    }
    let found = read(&text).err();
    let shown = String::from_utf8_lossy(&text);
    ensure(found == Some(Refusal::Text(place)), &format!("{found:?}, expected a 12 at {place}: {shown}"))
}
