//! Charts with a single fault that one clause of one rule alone sees, and charts with two, of which
//! the first rule broken gives the number.

use crate::builder::{empty_row, Builder};
use crate::by_hand::NO_NAME_BYTES;
use crate::examples::Example;
use crate::limits::MAX_ACTIONS_OF_BLOCK;
use crate::names::slot_of;
use crate::numbers::{NameNumber, RowNumber, ROOT};
use crate::tables::{Action, Chart, Kind};

/// A chart and the number it must get.
pub struct Fault {
    pub about: String,
    pub rule: u64,
    pub chart: Chart,
}

impl Fault {
    pub fn example(&self) -> Example {
        Example::of_chart("fault", &self.about, &self.chart, Vec::new())
    }
}

pub fn all() -> Vec<Fault> {
    let mut faults = targets();
    faults.extend(pairs_of_rules());
    faults.extend(ids_of_histories());
    faults.extend(bytes());
    faults.extend(kinds());
    faults
}

// Rule 4

/// Two regions of two states each under a parallel that has both histories; z leads to them.
pub fn with_targets(targets: &str) -> Chart {
    let mut b = Builder::new();
    b.state("", "z").parallel("", "p").state("p", "r0").state("r0", "u0").state("r0", "v0");
    b.state("p", "r1").state("r1", "u1").state("r1", "v1").deep("p", "h").shallow("p", "k");
    b.list("h", "u0", &[]).list("k", "r0", &[]).on("z", "e", targets);
    b.chart()
}

/// "the anchors are pairwise different, none is an ancestor of another, and the nearest common
/// ancestor of each two is parallel".
fn targets() -> Vec<Fault> {
    let cases = [
        ("h r1", "a history of a parallel and a region of it"),
        ("r1 h", "a region of a parallel and a history of it"),
        ("h k", "two histories of a parallel"),
        ("u0 v0", "two children of a region"),
        ("r0 u0", "a region and its child"),
        ("u0 r0", "a child of a region and the region"),
        ("u0 u1 v0", "the first and the last of three"),
        ("u1 u0 v0", "the second and the last of three"),
    ];
    let fault = |(targets, about)| Fault {
        about: format!("targets: {about}"),
        rule: 4,
        chart: with_targets(targets),
    };
    cases.map(fault).into()
}

// "Checked in that order over the whole chart; the first rule broken gives the number."

fn sound() -> Chart {
    let mut b = Builder::new();
    b.state("", "s").state("s", "a").state("s", "b").on("a", "e", "b");
    b.chart()
}

/// Breaks this rule and no other.
fn break_rule(chart: &mut Chart, rule: u64) {
    match rule {
        1 => chart.rows[2].entry = vec![Action::Host(1); MAX_ACTIONS_OF_BLOCK as usize + 1],
        2 => chart.names.push(slot_of(b"a b")),
        3 => {
            chart.names.push(slot_of(b"h"));
            let id = chart.names.len() - 1;
            let mut history = empty_row(Kind::DeepHistory, Some(ROOT), Some(NameNumber(id)));
            history.list = vec![RowNumber(1)];
            chart.rows.push(history);
        }
        4 => chart.rows[1].list = vec![RowNumber(1)],
        _ => {
            chart.transitions[0].descriptors.clear();
            chart.transitions[0].targets.clear();
        }
    }
}

fn pairs_of_rules() -> Vec<Fault> {
    let pairs = (1..=5).flat_map(|one| (one..=5).map(move |other| (one, other)));
    pairs.map(|(one, other)| broken(one, other)).collect()
}

fn broken(one: u64, other: u64) -> Fault {
    let mut chart = sound();
    break_rule(&mut chart, one);
    let mut about = format!("rule {one} broken");
    if other != one {
        break_rule(&mut chart, other);
        about = format!("rules {one} and {other} broken");
    }
    Fault { about, rule: one, chart }
}

// Rule 2

fn history_with_id(id: Option<usize>) -> Chart {
    let mut b = Builder::new();
    b.state("", "s").state("s", "a").state("s", "b").shallow("s", "h").list("h", "a", &[]);
    let mut chart = b.chart();
    chart.rows[4].id = id.and_then(|row| chart.rows[row].id);
    chart
}

/// "every row's id", "all ids differ": of a history as of any other row.
fn ids_of_histories() -> Vec<Fault> {
    vec![
        Fault { about: "a history without an id".to_string(), rule: 2, chart: history_with_id(None) },
        Fault {
            about: "a history with the id of a state".to_string(),
            rule: 2,
            chart: history_with_id(Some(2)),
        },
    ]
}

/// "Name bytes: letters, digits, '-', '_', '.'."
fn bytes() -> Vec<Fault> {
    let fault = |(byte, what)| {
        let mut chart = sound();
        chart.names.push(slot_of(&[b'a', byte]));
        Fault { about: format!("a name with {what}"), rule: 2, chart }
    };
    NO_NAME_BYTES.map(fault).into()
}

// Rule 3

/// "under root: state, parallel, final; under state: all but root; under parallel: state,
/// parallel, both histories; under final and history: nothing."
pub fn may_stand(parent: Kind, child: Kind) -> bool {
    match parent {
        Kind::Root => matches!(child, Kind::State | Kind::Parallel | Kind::Final),
        Kind::State => child != Kind::Root,
        Kind::Parallel => !matches!(child, Kind::Root | Kind::Final),
        Kind::Final | Kind::ShallowHistory | Kind::DeepHistory => false,
    }
}

/// A chart in which nothing but the child under the parent can be wrong.
pub fn pair_of_kinds(parent: Kind, child: Kind) -> Chart {
    let mut b = Builder::new();
    b.state("", "s").state("s", "first");
    let mut owner = "".to_string();
    if parent != Kind::Root {
        b.add(parent, "s", "owner");
        owner = "owner".to_string();
    }
    b.add(child, &owner, "child");
    if child == Kind::Parallel {
        b.state("child", "region");
    }
    if child.is_history() || parent == Kind::Parallel {
        b.state(&owner, "other");
    }
    if child.is_history() {
        b.list("child", "other", &[]);
    }
    if parent.is_history() {
        b.list("owner", "first", &[]);
    }
    b.chart()
}

/// A history under a final or a history needs a child beside it that may not stand there either;
/// it shows nothing of its own and is left out, as is a second root.
fn kinds() -> Vec<Fault> {
    let mut faults = Vec::new();
    for parent in Kind::ALL {
        for child in Kind::ALL.into_iter().filter(|&child| child != Kind::Root) {
            let needs_another = child.is_history() && (parent.is_history() || parent == Kind::Final);
            if !may_stand(parent, child) && !needs_another {
                let about = format!("{} under {}", kind_name(child), kind_name(parent));
                faults.push(Fault { about, rule: 3, chart: pair_of_kinds(parent, child) });
            }
        }
    }
    faults
}

fn kind_name(kind: Kind) -> &'static str {
    match kind {
        Kind::Root => "root",
        Kind::State => "state",
        Kind::Parallel => "parallel",
        Kind::Final => "final",
        Kind::ShallowHistory => "shallow history",
        Kind::DeepHistory => "deep history",
    }
}
