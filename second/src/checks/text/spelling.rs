//! Single charts: how they are numbered and laid out, and how they are written.

use super::{decoded, Check};
use crate::invariants::{ensure, Found};
use crate::numbers::{NameNumber, RowNumber, TransitionNumber};
use crate::readings::chart_a;
use crate::text::read::{meaning, read};
use crate::text::write::{text_of, write, Unwritten};

pub fn checks() -> Vec<Check> {
    vec![
        Check::new("text: Q numbers, slots and layout", numbering),
        Check::new("text: W-9 chart A whole", chart_a_whole),
        Check::new("text: W-3 to W-5 the spelling", fixed_spelling),
        Check::new("text: W-6 the buffer", lent_buffer),
    ]
}

pub const NUMBERED: &str = r#"<scxml><state id="a" initial="b"><onentry><raise event="x"/></onentry><state id="b"><transition event="f a"/></state>
<onexit/><transition target="c" event="x f.*"><log label="007"/></transition><onentry><raise event="b"/><log label="1"/></onentry></state>
<state id="c"><transition cond="In('b')" target="a"/></state></scxml>"#;

/// Rows by their start tags, transitions by source and then by place, slots by first use in the text.
fn numbering() -> Found {
    let tables = read(NUMBERED.as_bytes()).map_err(|refusal| format!("{refusal:?}"))?;
    let chart = decoded(&tables);
    let names: Vec<&[u8]> = (0..chart.names.len()).map(|name| chart.name(NameNumber(name))).collect();
    ensure(names == [&b"a"[..], b"x", b"b", b"f", b"f.*", b"c"], &format!("slots {names:?}"))?;
    let sources: Vec<usize> = chart.transitions.iter().map(|transition| transition.source.0).collect();
    ensure(sources == [1, 2, 3], &format!("sources {sources:?}"))?;
    ensure(chart.transition(TransitionNumber(0)).targets == [RowNumber(3)], "the outer state's comes first")?;
    let expected: [u64; 96] = [
        4, 3, 3, 4, 4, 6, // counts
        0, 65_535, 65_535, 0, 0, 0, 0, 0, 0, 0, 0, // the root
        1, 0, 0, 0, 3, 3, 0, 0, 1, 3, 0, // a
        1, 1, 2, 3, 0, 3, 0, 1, 0, 3, 0, // b
        1, 0, 5, 3, 0, 3, 0, 1, 0, 3, 0, // c
        1, 0, 2, 65_535, 0, 1, 1, 3, 1, // x f.*
        2, 2, 2, 65_535, 0, 2, 0, 4, 0, // f a
        3, 4, 0, 2, 0, 2, 1, 4, 0, // In('b')
        2, 3, 1, // references
        1, 4, 3, 0, // descriptors
        0, 1, 0, 0, 0, 2, 0, 0, 1, 1, 0, 0, // the entry block of a, joined
    ];
    ensure(tables.numbers[..96] == expected, &format!("{:?}", tables.numbers))?;
    ensure(tables.numbers[96..] == [1, 7, 0, 0], "the block of x f.*")
}

/// What is written from the mended example of section 3.1.3 (readings of R-4).
pub const CHART_A: &str = concat!(
    r#"<scxml xmlns="http://www.w3.org/2005/07/scxml" version="1.0"><parallel id="p">"#,
    r#"<transition event="done.state.p" target="someOtherState"/><state id="S1" initial="S11">"#,
    r#"<state id="S11"><transition event="e4" target="S12"/></state><state id="S12">"#,
    r#"<transition event="e1" target="S1Final"/></state><final id="S1Final"/></state>"#,
    r#"<state id="S2" initial="S21"><state id="S21"><transition event="e1" target="S22"/></state>"#,
    r#"<state id="S22"><transition event="e2" target="S2Final"/></state><final id="S2Final"/></state>"#,
    r#"</parallel><state id="someOtherState"/></scxml>"#
);

fn chart_a_whole() -> Found {
    ensure(CHART_A.len() == 551, &format!("{} bytes", CHART_A.len()))?;
    let tables = read(CHART_A.as_bytes()).map_err(|refusal| format!("{refusal:?}"))?;
    let chart = decoded(&tables);
    ensure(text_of(&chart) == CHART_A, "it is written as it is read")?;
    let names: Vec<&[u8]> = (0..chart.names.len()).map(|name| chart.name(NameNumber(name))).collect();
    let expected = ["p", "done.state.p", "S1", "S11", "e4", "S12", "e1", "S1Final", "S2", "S21", "S22", "e2"];
    ensure(names[..12] == expected.map(|name| name.as_bytes()), &format!("slots {names:?}"))?;
    ensure(text_of(&chart_a()) == CHART_A, "so is the chart of the marked runs")?;
    let listless = CHART_A.replace(" initial=\"S11\"", "").replace(" initial=\"S21\"", "");
    let other = read(listless.as_bytes()).map_err(|refusal| format!("{refusal:?}"))?;
    ensure(text_of(&decoded(&other)) == listless, "without its lists it is another chart")
}

/// A chart in another spelling, and what is written from it.
const SPELLINGS: [(&str, &str); 9] = [
    ("<scxml><state id='a'></state></scxml>", r#"<state id="a"/>"#),
    (
        "<scxml><state id='a'><onexit/><onentry/><onentry><log label='01'/></onentry></state></scxml>",
        r#"<state id="a"><onentry><log label="1"/></onentry></state>"#,
    ),
    (
        "<scxml><state id='a' ><transition cond=\"In('b')\" target='b' event=' e  f ' type='external'/></state><final id='b'/></scxml>",
        r#"<state id="a"><transition event="e f" cond="In('b')" target="b"/></state><final id="b"/>"#,
    ),
    (
        "<scxml><state id='a'><state id='b'/><initial><transition target='b'/></initial></state></scxml>",
        r#"<state id="a" initial="b"><state id="b"/></state>"#,
    ),
    (
        "<scxml><state id='a'><state id='b'/><initial><transition type='internal' target='b'><raise event='e'/></transition></initial><transition type='internal' event='*' target='b'/></state></scxml>",
        r#"<state id="a"><initial><transition target="b"><raise event="e"/></transition></initial><transition type="internal" event="*" target="b"/><state id="b"/></state>"#,
    ),
    (
        "<scxml><state id='a'><history id='h' type='shallow'><transition target='b'/></history><state id='b'/></state></scxml>",
        r#"<state id="a"><history id="h"><transition target="b"/></history><state id="b"/></state>"#,
    ),
    (
        "<scxml><state id='a'><history type='deep' id='h'><transition target='b'><log label='2'/></transition></history><state id='b'/></state></scxml>",
        r#"<state id="a"><history id="h" type="deep"><transition target="b"><log label="2"/></transition></history><state id="b"/></state>"#,
    ),
    (
        "<scxml><state id='a'><onentry><send delay='007' event='e' id='9.t'></send><cancel sendid = '9.t' /></onentry></state></scxml>",
        r#"<state id="a"><onentry><send id="9.t" event="e" delay="7"/><cancel sendid="9.t"/></onentry></state>"#,
    ),
    (
        "<scxml><state id='a'><onexit><send delay='000' event='e'/><send event='a' id='a'/></onexit></state></scxml>",
        r#"<state id="a"><onexit><send event="e"/><send id="a" event="a"/></onexit></state>"#,
    ),
];

fn fixed_spelling() -> Found {
    for (text, inside) in SPELLINGS {
        let tables = read(text.as_bytes()).map_err(|refusal| format!("{refusal:?}: {text}"))?;
        let expected =
            format!("<scxml xmlns=\"http://www.w3.org/2005/07/scxml\" version=\"1.0\">{inside}</scxml>");
        let found = text_of(&decoded(&tables));
        ensure(found == expected, &format!("{text} is written {found}"))?;
    }
    Ok(())
}

fn lent_buffer() -> Found {
    let tables = meaning(CHART_A.as_bytes()).map_err(|place| format!("12 at {place}"))?;
    let too_long = Err(Unwritten::TooLong(551));
    for (room, answer) in [(0, too_long), (550, too_long), (551, Ok(551)), (600, Ok(551))] {
        let mut buffer = vec![b'?'; room];
        let found = write(&tables.numbers, &tables.names, &mut buffer);
        ensure(found == answer, &format!("{room} bytes: {found:?}"))?;
        let written = found.unwrap_or(0);
        let right = buffer[..written] == CHART_A.as_bytes()[..written];
        ensure(
            right && buffer[written..].iter().all(|&byte| byte == b'?'),
            "the text, and behind it what was there",
        )?;
    }
    let broken = meaning(b"<scxml><state id=\"9\"/></scxml>").map_err(|place| format!("12 at {place}"))?;
    let found = write(&broken.numbers, &broken.names, &mut []);
    ensure(found == Err(Unwritten::Rule(2)), "2 before 13")?;
    ensure(write(&[], &[], &mut []) == Err(Unwritten::Rule(1)), "1 before 13")
}
