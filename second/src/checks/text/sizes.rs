//! Names at and over 63 bytes, texts at and over 32,768, charts at and over the limits of rule 1, and
//! lent places.

use super::{answers, Check, MARK};
use crate::invariants::{ensure, Found};
use crate::limits::*;
use crate::text::read::{meaning, read, read_into, Refusal};
use crate::text::recogniser::{Recogniser, MAX_TEXT};
use crate::text::scan::scan;

pub fn checks() -> Vec<Check> {
    vec![
        Check::new("text: N names of 63 and 64 bytes", long_names),
        Check::new("text: B texts of 32,768 and 32,769 bytes", long_texts),
        Check::new("text: B 4,681 open elements", deep_texts),
        Check::new("text: R one more than rule 1 allows", over_the_limits),
        Check::new("text: P rule 1 before the doubled id", doubled_id_and_size),
        Check::new("text: R lent places", lent_places),
    ]
}

fn all_answer(examples: &[(u64, String)]) -> Found {
    let mut recogniser = Recogniser::default();
    examples.iter().try_for_each(|(answer, text)| answers(&mut recogniser, *answer, text))
}

fn state(inside: &str) -> String {
    format!("<scxml><state id=\"a\">{inside}</state></scxml>")
}

fn long_names() -> Found {
    let name = |length: usize| "n".repeat(length);
    let mut examples = vec![
        (0, state(&format!("<transition event=\"{}\"/>", name(63)))),
        (12, state(&format!("<transition event=\"{MARK}{}\"/>", name(64)))),
        (0, state(&format!("<transition event=\"{}.*\"/>", name(61)))),
        (12, state(&format!("<transition event=\"e {MARK}{}.*\"/>", name(62)))),
        (0, state(&format!("<onentry><raise event=\"{}\"/></onentry>", name(63)))),
        (12, state(&format!("<onexit><raise event=\"{MARK}{}\"/></onexit>", name(64)))),
        (12, state(&format!("<transition event=\"e\" cond=\"In('{MARK}{}')\"/>", name(64)))),
        (12, state(&format!("<transition event=\"e\" cond=\"In('{MARK}{}')\"/>", name(63)))),
        (12, state(&format!("<transition target=\"{MARK}{}\"/>", name(64)))),
    ];
    let with_id =
        |length: usize, mark: &str| format!("<scxml><state id=\"{mark}{}\"/></scxml>", name(length));
    examples.extend([(0, with_id(52, "")), (2, with_id(53, "")), (2, with_id(63, ""))]);
    examples.extend([(12, with_id(64, "¦")), (12, with_id(3_000, "¦"))]);
    let long = name(64);
    examples.push((12, format!("<scxml initial=\"{MARK}{long}\"><state id=\"{long}\"/></scxml>")));
    examples.push((
        12,
        format!("<scxml><state id=\"{MARK}{long}\"><transition target=\"{long}\"/></state></scxml>"),
    ));
    all_answer(&examples)
}

/// A text that ends with so many blanks or bytes of a comment that it has the wanted length.
fn filled(text: &str, length: usize, comment: bool) -> Vec<u8> {
    let mut bytes = text.as_bytes().to_vec();
    match comment {
        true => {
            bytes.extend(b"<!--");
            bytes.resize(length - 3, b'x');
            bytes.extend(b"-->");
        }
        false => bytes.resize(length, b' '),
    }
    bytes
}

fn long_texts() -> Found {
    let mut recogniser = Recogniser::default();
    let whole = "<scxml><state id=\"a\"/></scxml>";
    let mut expect = |text: &[u8], place: Option<usize>| {
        let found = (scan(text).err(), recogniser.fault(text));
        ensure(found == (place, place), &format!("{} bytes: {found:?}, expected {place:?}", text.len()))
    };
    for comment in [false, true] {
        expect(&filled(whole, MAX_TEXT, comment), None)?;
        expect(&filled(whole, MAX_TEXT + 1, comment), Some(MAX_TEXT))?;
        expect(&filled(whole, MAX_TEXT + 5_000, comment), Some(MAX_TEXT))?;
    }
    expect(&filled("<scxml>", MAX_TEXT - 1, false), Some(MAX_TEXT - 1))?;
    expect(&filled("<scxml>", MAX_TEXT, false), Some(MAX_TEXT))?;
    expect(&filled("<scxml>", MAX_TEXT + 1, false), Some(MAX_TEXT))?;
    let mut damaged = filled(whole, MAX_TEXT + 1, false);
    damaged[MAX_TEXT - 1] = b'x';
    expect(&damaged, Some(MAX_TEXT - 1))?;
    damaged[MAX_TEXT - 1] = b' ';
    damaged[MAX_TEXT] = b'x';
    expect(&damaged, Some(MAX_TEXT))?;
    // A missing id is no fault of a text that is too long.
    expect(&filled("<scxml><state/></scxml>", MAX_TEXT + 1, false), Some(MAX_TEXT))?;
    let found = read(&filled("<scxml><state/></scxml>", MAX_TEXT, false)).err();
    ensure(found == Some(Refusal::Text(7)), "of 32,768 bytes it is searched")
}

fn deep_texts() -> Found {
    let mut recogniser = Recogniser::default();
    let open = format!("<scxml>{}", "<state>".repeat(4_680));
    let found = (scan(open.as_bytes()).err(), recogniser.fault(open.as_bytes()));
    ensure(found == (Some(open.len()), Some(open.len())), &format!("open to the end: {found:?}"))?;
    let nested = |depth: usize| {
        let starts: String = (0..depth).map(|number| format!("<state id=\"s{number}\">")).collect();
        format!("<scxml>{starts}{}</scxml>", "</state>".repeat(depth))
    };
    ensure(read(nested(255).as_bytes()).is_ok(), "255 states in each other")?;
    ensure(read(nested(256).as_bytes()) == Err(Refusal::Rule(1)), "256 states in each other")?;
    ensure(read(nested(1_200).as_bytes()) == Err(Refusal::Rule(1)), "1,200 states in each other")
}

fn times(count: u64, piece: impl Fn(u64) -> String) -> String {
    (0..count).map(piece).collect()
}

fn over_the_limits() -> Found {
    let rows =
        |count: u64| format!("<scxml>{}</scxml>", times(count - 1, |n| format!("<state id=\"s{n}\"/>")));
    let transitions = |count: u64| state(&times(count, |_| "<transition event=\"e\"/>".to_string()));
    let names = |count: u64| {
        let block = |n: u64| format!("<raise event=\"r{n}\"/>");
        let blocks = |n: u64| {
            let last = (count - 2 - n * 8).min(8);
            format!("<transition event=\"e\">{}</transition>", times(last, |k| block(n * 8 + k)))
        };
        state(&times((count - 2).div_ceil(8), blocks))
    };
    let actions = |count: u64| {
        let half = count / 2;
        let logs =
            |count: u64| format!("<onexit>{}</onexit>", times(count, |n| format!("<log label=\"{n}\"/>")));
        state(&(logs(half) + &logs(count - half)))
    };
    let events = |count: u64| {
        let names = times(count, |n| format!(" e{n}"));
        state(&format!("<transition event=\"{names}\"/>"))
    };
    let targets = |count: u64| {
        let regions = times(9, |n| format!("<state id=\"r{n}\"/>"));
        let ids = times(count, |n| format!(" r{n}"));
        let parallel = format!("<parallel id=\"p\">{regions}</parallel>");
        format!("<scxml><state id=\"a\"><transition event=\"e\" target=\"{ids}\"/></state>{parallel}</scxml>")
    };
    let limits: [(&str, u64, &dyn Fn(u64) -> String); 6] = [
        ("rows", MAX_ROWS, &rows),
        ("transitions", MAX_TRANSITIONS, &transitions),
        ("slots", MAX_SLOTS, &names),
        ("actions of a block", MAX_ACTIONS_OF_BLOCK, &actions),
        ("descriptors", MAX_DESCRIPTORS_OF_TRANSITION, &events),
        ("targets", MAX_TARGETS_OF_TRANSITION, &targets),
    ];
    for (what, most, text) in limits {
        let found = read(text(most).as_bytes()).err();
        ensure(found.is_none(), &format!("{most} {what}: {found:?}"))?;
        let found = read(text(most + 1).as_bytes()).err();
        ensure(found == Some(Refusal::Rule(1)), &format!("{} {what}: {found:?}", most + 1))?;
    }
    Ok(())
}

fn doubled_id_and_size() -> Found {
    let logs = times(MAX_ACTIONS_OF_BLOCK + 1, |_| "<log label=\"1\"/>".to_string());
    let text = format!("<scxml><state id=\"a\"/><state id=\"a\"><onentry>{logs}</onentry></state></scxml>");
    all_answer(&[(1, text)])
}

fn lent_places() -> Found {
    let text = state("<onentry><raise event=\"e\"/></onentry>").into_bytes();
    let tables = meaning(&text).map_err(|place| format!("12 at {place}"))?;
    let (numbers, names) = (tables.numbers.len(), tables.names.len());
    for (lent_numbers, lent_names) in
        [(numbers - 1, names), (numbers, names - 1), (numbers, names), (400, 900)]
    {
        let mut places = (vec![77; lent_numbers], vec![88; lent_names]);
        let found = read_into(&text, &mut places.0, &mut places.1);
        let fits = lent_numbers >= numbers && lent_names >= names;
        let wanted = if fits { Ok((numbers, names)) } else { Err(Refusal::Rule(1)) };
        ensure(found == wanted, &format!("{lent_numbers} numbers, {lent_names} bytes: {found:?}"))?;
        let (written, bytes) = found.unwrap_or((0, 0));
        let kept = places.0[written..].iter().all(|&cell| cell == 77)
            && places.1[bytes..].iter().all(|&byte| byte == 88);
        let right =
            places.0[..written] == tables.numbers[..written] && places.1[..bytes] == tables.names[..bytes];
        ensure(kept && right, "the tables, and behind them what was there")?;
    }
    let mut places = (vec![77; 400], vec![88; 900]);
    for (text, answer) in [("<scxml><state id=\"9\"/></scxml>", 2), ("<scxml/>", 3)] {
        let found = read_into(text.as_bytes(), &mut places.0, &mut places.1);
        ensure(found == Err(Refusal::Rule(answer)), "a rule is broken")?;
    }
    let found = read_into(b"<scxml>", &mut places.0, &mut places.1);
    ensure(found == Err(Refusal::Text(7)), "12 before the places are looked at")?;
    ensure(places == (vec![77; 400], vec![88; 900]), "a refusal leaves the places")
}
