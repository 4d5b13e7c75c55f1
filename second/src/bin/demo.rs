//! Plays chart A, the parallel example of section 3.1.3, and says its trace in words.

use second::compiled::CompiledChart;
use second::encode::encode_plainly;
use second::numbers::RowNumber;
use second::readings::chart_a;
use second::session::{Answer, Session, STATUS_ENDED, STATUS_IDLE, STATUS_MORE};
use second::tables::Chart;

const ROOM: usize = 1_000;

fn row(chart: &Chart, number: u32) -> String {
    String::from_utf8_lossy(chart.id(RowNumber(number as usize))).into_owned()
}

fn words(chart: &Chart, entry: u32) -> String {
    let index = entry % 65_536;
    match entry / 65_536 {
        1 => format!("exit {}", row(chart, index)),
        2 => format!("transition {index}"),
        3 => format!("enter {}", row(chart, index)),
        4 => format!("host action {index}"),
        5 => format!("raise name {index}"),
        6 => format!("done.state.{}", row(chart, index)),
        _ => format!("chosen by {}", row(chart, index)),
    }
}

fn status(number: u64) -> String {
    match number {
        STATUS_MORE => "more".into(),
        STATUS_IDLE => "idle".into(),
        STATUS_ENDED => "ended".into(),
        refusal => format!("refused with {refusal}"),
    }
}

fn say(chart: &Chart, what: &str, answer: &Answer) {
    let entries: Vec<String> = answer.trace.iter().map(|&entry| words(chart, entry)).collect();
    println!("{what:10} {}", entries.join(", "));
}

fn main() {
    let chart = chart_a();
    let spelt = encode_plainly(&chart);
    let compiled = CompiledChart::from_tables(&spelt.numbers, &spelt.names).expect("chart A keeps the rules");
    let started = Session::ended().start(Some(&compiled), ROOM);
    say(&chart, "start", &started);
    let mut session = started.session;
    for event in ["e4", "e1", "e2"] {
        let posted = session.post(Some(&compiled), event.as_bytes()).session;
        let answer = posted.run(Some(&compiled), 10, ROOM);
        say(&chart, event, &answer);
        println!("{:10} {} rounds, {}", "", answer.rounds, status(answer.number));
        session = answer.session;
    }
}
