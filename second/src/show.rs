//! Charts as short text, for a reader who has to find out why one failed.

use crate::calls::Call;
use crate::numbers::RowNumber;
use crate::recorded_calls::RecordedCall;
use crate::tables::{Action, Chart, Row, Transition};

fn text(bytes: &[u8]) -> String {
    String::from_utf8_lossy(bytes).into_owned()
}

fn rows(list: &[RowNumber]) -> String {
    list.iter().map(|row| row.0.to_string()).collect::<Vec<_>>().join(" ")
}

fn block(chart: &Chart, actions: &[Action]) -> String {
    let one = |action: &Action| match action {
        Action::Raise(name) => format!("raise {}", text(chart.name(*name))),
        Action::Host(number) => format!("host {number}"),
        Action::If(row) => format!("if In({})", row.0),
        Action::ElseIf(row) => format!("elseif In({})", row.0),
        Action::Else => "else".to_string(),
        Action::End => "end".to_string(),
        Action::Send { event, delay, id } => {
            let id = id.map_or(String::new(), |id| format!(" as {}", text(chart.name(id))));
            format!("send {} in {delay}{id}", text(chart.name(*event)))
        }
        Action::Cancel(id) => format!("cancel {}", text(chart.name(*id))),
    };
    actions.iter().map(one).collect::<Vec<_>>().join(", ")
}

fn show_row(chart: &Chart, number: usize, row: &Row) -> String {
    let mut line = format!("{number} {:?} '{}'", row.kind, text(chart.id(RowNumber(number))));
    if let Some(parent) = row.parent {
        line += &format!(" under {}", parent.0);
    }
    if !row.list.is_empty() {
        line += &format!(" list [{}]", rows(&row.list));
    }
    for (what, actions) in [("entry", &row.entry), ("exit", &row.exit), ("block", &row.block)] {
        if !actions.is_empty() {
            line += &format!(" {what} [{}]", block(chart, actions));
        }
    }
    line
}

fn show_transition(chart: &Chart, number: usize, transition: &Transition) -> String {
    let descriptors: Vec<String> =
        transition.descriptors.iter().map(|&name| text(chart.name(name))).collect();
    let mut line = format!(
        "t{number} {:?} from {} on [{}]",
        transition.kind,
        transition.source.0,
        descriptors.join(" ")
    );
    if let Some(row) = transition.condition {
        line += &format!(" if In({})", row.0);
    }
    line += &format!(" to [{}]", rows(&transition.targets));
    if !transition.block.is_empty() {
        line += &format!(" block [{}]", block(chart, &transition.block));
    }
    line
}

pub fn chart(chart: &Chart) -> String {
    let rows = chart.rows.iter().enumerate().map(|(number, row)| show_row(chart, number, row));
    let transitions = chart
        .transitions
        .iter()
        .enumerate()
        .map(|(number, transition)| show_transition(chart, number, transition));
    rows.chain(transitions).collect::<Vec<_>>().join("; ")
}

fn call(call: &Call) -> String {
    match call {
        Call::Start { room } => format!("start in {room}"),
        Call::Post { name } => format!("post {:?}", text(name)),
        Call::Clock { ticks } => format!("clock {ticks}"),
        Call::Run { rounds, room } => format!("run {rounds} in {room}"),
    }
}

pub fn calls(calls: &[Call]) -> String {
    calls.iter().map(call).collect::<Vec<_>>().join("; ")
}

pub fn recorded_calls(calls: &[RecordedCall]) -> String {
    let one = |recorded: &RecordedCall| match recorded {
        RecordedCall::Call(one) => call(one),
        RecordedCall::StepBack { room } => format!("step back in {room}"),
    };
    calls.iter().map(one).collect::<Vec<_>>().join("; ")
}
