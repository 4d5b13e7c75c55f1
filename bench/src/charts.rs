//! Charts that never rest: every round raises what the next ones take.

use crate::contenders::Lent;
use second::builder::{Builder, Do};
use second::compiled::{compile, needed_place, Places};
use second::encode::encode_plainly;
use second::tables::Chart;

/// A compiled chart and the event that sets it going.
pub struct Case {
    pub about: String,
    pub event: &'static str,
    pub rows: usize,
    pub regions: usize,
    pub active: usize,
    places: Places,
}

impl Case {
    fn new(about: String, event: &'static str, chart: &Chart, regions: usize, active: usize) -> Case {
        let spelt = encode_plainly(chart);
        let place = needed_place(&spelt.numbers).expect("the chart is within the limits");
        let places = compile(&spelt.numbers, &spelt.names, place).expect("the chart keeps the rules");
        Case { about, event, rows: chart.rows.len(), regions, active, places }
    }

    pub fn lent(&self) -> Lent<'_> {
        Lent { numbers: &self.places.numbers, names: &self.places.names }
    }
}

/// The shape of chart A, with a way back: e4, e1, e2, two done events that nothing takes, the done
/// event of p, and e3, which begins it all again.
pub fn chart_a() -> Case {
    let mut b = Builder::new();
    b.parallel("", "p").state("p", "S1").state("S1", "S11").state("S1", "S12").final_("S1", "S1Final");
    b.state("p", "S2").state("S2", "S21").state("S2", "S22").final_("S2", "S2Final");
    b.state("", "someOtherState");
    b.list("S1", "S11", &[]).list("S2", "S21", &[]);
    b.on("p", "done.state.p", "someOtherState").doing(&[Do::Raise("e3")]);
    b.on("S11", "e4", "S12").doing(&[Do::Raise("e1")]);
    b.on("S12", "e1", "S1Final").doing(&[Do::Raise("e2")]);
    b.on("S21", "e1", "S22").on("S22", "e2", "S2Final");
    b.on("someOtherState", "e3", "p").doing(&[Do::Raise("e4")]);
    Case::new("chart A, raising".to_string(), "e4", &b.chart(), 2, 5)
}

/// What moves in each round.
#[derive(Clone, Copy, PartialEq, Eq)]
pub enum Moving {
    All,
    One,
}

impl Moving {
    pub const BOTH: [Moving; 2] = [Moving::All, Moving::One];

    pub fn text(self) -> &'static str {
        match self {
            Moving::All => "all moving",
            Moving::One => "one moving",
        }
    }
}

/// How the ids and events of a chart are spelt; a number follows those of which there are several.
#[derive(Clone, Copy)]
pub struct Words {
    pub about: &'static str,
    parallel: &'static str,
    region: &'static str,
    first: &'static str,
    second: &'static str,
    all: &'static str,
    one: &'static str,
    resting: &'static str,
    child: &'static str,
}

pub const SHORT: Words = Words {
    about: "",
    parallel: "p",
    region: "r",
    first: "a",
    second: "b",
    all: "all",
    one: "one",
    resting: "resting",
    child: "x",
};

/// About 20 bytes each, which begin alike, as those of real charts do.
pub const LONG: Words = Words {
    about: ", names of 20 bytes",
    parallel: "container.supervisor",
    region: "health.check.region",
    first: "health.check.passed",
    second: "health.check.failed",
    all: "health.check.all.due",
    one: "health.check.one.due",
    resting: "health.check.resting",
    child: "health.check.unused",
};

/// A parallel with so many regions of two states each; the rows that are left over stand in a
/// state that is never active. On one event every region changes its state, on another the first
/// alone, and the first raises the same event again.
pub fn regions(rows: usize, regions: usize, moving: Moving, words: Words) -> Case {
    let Words { all, one, .. } = words;
    let mut b = Builder::new();
    b.parallel("", words.parallel);
    for region in 0..regions {
        let [id, first, second] =
            [words.region, words.first, words.second].map(|word| format!("{word}{region}"));
        b.state(words.parallel, &id).state(&id, &first).state(&id, &second);
        for (from, to) in [(&first, &second), (&second, &first)] {
            b.on(from, all, to);
            if region == 0 {
                b.doing(&[Do::Raise(all)]).on(from, one, to).doing(&[Do::Raise(one)]);
            }
        }
    }
    add_resting(&mut b, rows - 2 - 3 * regions, words);
    let event = match moving {
        Moving::All => all,
        Moving::One => one,
    };
    let about = format!("{rows} rows, {regions} regions{}, {}", words.about, moving.text());
    let case = Case::new(about, event, &b.chart(), regions, 1 + 2 * regions);
    assert_eq!(case.rows, rows);
    case
}

/// So many rows that are never active: a state and its children, each with a transition.
fn add_resting(b: &mut Builder, rows: usize, words: Words) {
    if rows == 0 {
        return;
    }
    let id = |child: usize| format!("{}{child}", words.child);
    b.state("", words.resting);
    for child in 1..rows {
        b.state(words.resting, &id(child));
    }
    for child in 1..rows {
        b.on(&id(child), words.all, &id(1));
    }
}
