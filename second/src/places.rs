//! Lent places of the right size and of others, and compiled charts as they are and changed.

use crate::builder::Builder;
use crate::compiled::{compile, needed_place, CompiledChart, Places};
use crate::encode::{encode_plainly, Spelt};
use crate::rules::{verdict, Place};

/// Rows 1 s, 2 a, 3 b.
pub fn small_chart() -> Spelt {
    let mut b = Builder::new();
    b.state("", "s").state("s", "a").state("s", "b").on("a", "e", "b");
    encode_plainly(&b.chart())
}

fn right_place() -> Place {
    needed_place(&small_chart().numbers).expect("the counts are within their limits")
}

/// The small chart with these places, and its verdict.
pub struct LentPlaces {
    pub about: &'static str,
    pub place: Place,
    pub verdict: u64,
}

/// "the place lent for the compiled chart of the size stated in docs/".
pub fn lent() -> Vec<LentPlaces> {
    let Place { numbers, names } = right_place();
    let Spelt { numbers: cells, names: bytes } = small_chart();
    let cases = [
        ("places of the right size", numbers, names),
        ("a numbers place one short", numbers - 1, names),
        ("a numbers place one long", numbers + 1, names),
        ("a names place one short", numbers, names - 1),
        ("a names place one long", numbers, names + 1),
        ("a numbers place for the tables alone", cells.len(), names),
        ("no places", 0, 0),
    ];
    let judged = |(about, numbers, names)| {
        let place = Place { numbers, names };
        LentPlaces { about, place, verdict: verdict(&cells, &bytes, place) }
    };
    cases.map(judged).into()
}

/// Two places, and whether they hold a compiled chart; if not, refusal 8 is given.
pub struct Opened {
    pub about: &'static str,
    pub places: Places,
    pub opens: bool,
}

/// The cell of a row's column.
fn row_cell(row: usize, column: usize) -> usize {
    6 + 11 * row + column
}

/// "a compiled chart differs from what its own rows compile to, or they break a rule".
pub fn opened() -> Vec<Opened> {
    let tables = small_chart().numbers.len();
    vec![
        opened_after("a compiled chart", |_| ()),
        opened_after("a bit of the first set", |places| places.numbers[tables] ^= 2),
        opened_after("a bit of a row's children", |places| places.numbers[tables + 2 * 16 + 4] ^= 4),
        opened_after("a bit of a set's last word", |places| places.numbers[tables + 16 + 3] ^= 1 << 63),
        opened_after("a bit of the last set", |places| places.numbers[tables + 4 * 16] ^= 8),
        opened_after("one cell too long", |places| places.numbers.push(0)),
        opened_after("one cell short", |places| places.numbers.truncate(places.numbers.len() - 1)),
        opened_after("the tables alone", |places| places.numbers.truncate(tables)),
        opened_after("nothing", |places| places.numbers.clear()),
        opened_after("another parent of row 3", |places| places.numbers[row_cell(3, 1)] = 0),
        opened_after("row 3 a second root", |places| places.numbers[row_cell(3, 0)] = 0),
        opened_after("row 3 a final, which has the same sets", |places| places.numbers[row_cell(3, 0)] = 3),
        opened_after("a row less in the header", |places| places.numbers[0] -= 1),
        opened_after("a byte of a name spoilt", |places| places.names[0] = b' '),
        opened_after("another name", |places| places.names[0] = b't'),
        opened_after("an id as another row has", |places| places.names[0] = b'a'),
        opened_after("names one byte too long", |places| places.names.push(0)),
        opened_after("names one byte short", |places| places.names.truncate(places.names.len() - 1)),
    ]
}

fn opened_after(about: &'static str, change: impl Fn(&mut Places)) -> Opened {
    let Spelt { numbers, names } = small_chart();
    let mut places = compile(&numbers, &names, right_place()).expect("the chart is accepted");
    change(&mut places);
    let opens = CompiledChart::open(&places.numbers, &places.names).is_some();
    Opened { about, places, opens }
}
