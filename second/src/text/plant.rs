//! Texts of the grammar with faults at known places: values, references and names that the second stage
//! of reading has to find.

use super::cursor::Offset;
use super::elements::{Element, Form, Name};
use super::faults::tags;
use super::scan::{scan, Attribute};
use super::values::items;
use crate::random::Random;

/// A part of the text, what to put there instead, and how far behind its beginning the fault then is.
struct Edit {
    start: Offset,
    end: Offset,
    value: String,
    fault: usize,
}

const DELAYS: [&str; 9] = ["4294967296", "", "-1", "1 ", " 1", "5s", "0x1", "99999999999999999999", "1.0"];
const LABELS: [&str; 8] = ["65536", "", "-1", "1 ", " 1", "0x1", "99999999999999999999", "1.0"];
const TYPES: [&str; 6] = ["", "foo", "External", "internal ", "shallow deep", "&amp;"];
const OTHERS: [&str; 4] = ["", "1.1", " ", "http://www.w3.org/2005/07/scxml/"];
/// Conditions that are none, and behind them ones whose id does not exist.
const CONDITIONS: [(&str, usize); 12] = [
    ("", 0),
    ("true", 0),
    ("In(a)", 0),
    ("in(&apos;nix.nix&apos;)", 0),
    ("In( &apos;a&apos; )", 0),
    ("In(&apos;&apos;)", 0),
    ("In(&apos;a..b&apos;)", 0),
    ("In(&apos;a.*&apos;)", 0),
    ("In(&quot;a&quot;)", 0),
    ("In(&apos;a&apos;) ", 0),
    ("In(&apos;nix.nix&apos;)", 9),
    ("In(&apos;nnnnnnnnnnnnnnnnnnnnnnnnnnnnnnnnnnnnnnnnnnnnnnnnnnnnnnnnnnnnnnnn&apos;)", 9),
];

/// The text with one to three faults, and the place of the first; nothing if it has no value to spoil.
pub fn planted(text: &[u8], random: &mut Random) -> Option<(Vec<u8>, Offset)> {
    let marks = scan(text).ok()?;
    let mut edits: Vec<Edit> = tags(&marks)
        .flat_map(|tag| tag.attributes.iter().map(|&attribute| (tag.element, attribute)))
        .filter(|&(element, attribute)| element == Element::Send || attribute.name != Name::Id)
        .map(|(_, attribute)| spoiled(text, attribute, random))
        .collect();
    random.shuffle(&mut edits);
    edits.truncate(random.between(1, 3));
    edits.sort_by_key(|edit| edit.start);
    let first = edits.first().map(|edit| edit.start + edit.fault)?;
    let mut next = text.to_vec();
    for edit in edits.into_iter().rev() {
        next.splice(edit.start..edit.end, edit.value.bytes());
    }
    Some((next, first))
}

fn spoiled(text: &[u8], attribute: Attribute, random: &mut Random) -> Edit {
    let Attribute { name, form, start, end } = attribute;
    if form != Form::Free {
        return spoiled_item(text, attribute, random);
    }
    let pick = |random: &mut Random, values: &[&'static str]| (values[random.below(values.len())], 0);
    let (value, fault) = match name {
        Name::Label => pick(random, &LABELS),
        Name::Delay => pick(random, &DELAYS),
        Name::Type => pick(random, &TYPES),
        Name::Cond => CONDITIONS[random.below(CONDITIONS.len())],
        _ => pick(random, &OTHERS[1 + usize::from(name == Name::Version)..]),
    };
    Edit { start, end, value: value.to_string(), fault }
}

/// One item of a list becomes a name that is too long or, where it is a reference, one of no row.
fn spoiled_item(text: &[u8], attribute: Attribute, random: &mut Random) -> Edit {
    let items = items(text, attribute.start, attribute.end);
    let (start, item) = items[random.below(items.len())];
    let long = match attribute.form {
        Form::Descriptors if random.chance(50) => format!("{}.*", "n".repeat(62)),
        _ => "n".repeat(random.between(64, 70)),
    };
    let value = match attribute.form {
        Form::References if random.chance(50) => "nix.nix".to_string(),
        _ => long,
    };
    Edit { start, end: start + item.len(), value, fault: 0 }
}
