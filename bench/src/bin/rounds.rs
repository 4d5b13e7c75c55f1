//! rounds [folder] [rounds] [repetitions]: measures and prints tables in Markdown; writes the
//! points as rounds.csv and a plot as rounds.svg into the folder.

use bench::charts::{chart_a, regions, Case, Moving, LONG, SHORT};
use bench::contenders::{measured, Calls, Engine};
use bench::measure::{Bench, Point};
use bench::plot::{svg, Line, Panel};
use std::fmt::Write;
use std::fs;
use std::io;
use std::path::PathBuf;

/// The follower is slow, so it is given fewer.
const ROUNDS: u32 = if cfg!(feature = "linked") { 100_000 } else { 2_000 };
const REPETITIONS: usize = if cfg!(feature = "linked") { 11 } else { 5 };
const CALLS: u32 = if cfg!(feature = "linked") { 1_000 } else { 100 };

const GREAT_ROWS: usize = 62;
const GREAT_REGIONS: usize = 20;
const REGIONS: [usize; 4] = [1, 5, 10, 20];
const ROWS: [usize; 6] = [8, 16, 32, 64, 128, 256];

fn main() -> io::Result<()> {
    let arguments: Vec<String> = std::env::args().skip(1).collect();
    let folder = PathBuf::from(arguments.first().map_or("build/bench", String::as_str));
    let rounds = number(arguments.get(1)).unwrap_or(ROUNDS);
    let repetitions = number(arguments.get(2)).map_or(REPETITIONS, |count| count as usize);
    let first = measured();
    let mut report = Report {
        bench: Bench::new(&first, &Engine, rounds, repetitions),
        first: first.name(),
        csv: "table,case,rows,regions,active,rounds,first,first_ns,engine_ns,ratio\n".to_string(),
    };
    report.rounds();
    let panels = [report.active_states(), report.rows()];
    report.calls();
    fs::create_dir_all(&folder)?;
    fs::write(folder.join("rounds.csv"), &report.csv)?;
    fs::write(folder.join("rounds.svg"), svg(&panels))
}

/// A number of 1 or more.
fn number(argument: Option<&String>) -> Option<u32> {
    let text = argument?;
    let number = text.parse().ok().filter(|&number| number > 0);
    Some(number.unwrap_or_else(|| panic!("{text} is no number of rounds or repetitions")))
}

struct Report<'a> {
    bench: Bench<'a>,
    first: &'static str,
    csv: String,
}

impl Report<'_> {
    fn heading(&self, title: &str, columns: &[&str]) {
        println!("\n{title}\n");
        println!("| {} | {} ns | engine ns | ratio |", columns.join(" | "), self.first);
        println!("|{}", "---|".repeat(columns.len() + 3));
    }

    fn line(&mut self, table: &str, case: &Case, cells: &[String], point: Point, rounds: u32) {
        let Point { first, engine, ratio, .. } = point;
        println!("| {} | {first:.1} | {engine:.1} | {ratio:.2} |", cells.join(" | "));
        let Case { about, rows, regions, active, .. } = case;
        let about = about.replace(',', "");
        let _ = writeln!(
            self.csv,
            "{table},{about},{rows},{regions},{active},{rounds},{},{first:.2},{engine:.2},{ratio:.4}",
            self.first
        );
    }

    fn measure(&mut self, table: &str, case: &Case, cells: &[String]) -> Point {
        let point = self.bench.rounds(case);
        let mut cells = cells.to_vec();
        cells.push(format!("{:.1}", point.entries));
        self.line(table, case, &cells, point, self.bench.rounds);
        point
    }

    fn rounds(&mut self) {
        let title = format!(
            "One run of {} rounds, each raising what the next ones take; a round's time, the median of {} \
             turns, and the median of the turns' ratios ({} / engine).",
            self.bench.rounds, self.bench.repetitions, self.first
        );
        self.heading(&title, &["chart", "entries a round"]);
        let great = |moving, words| regions(GREAT_ROWS, GREAT_REGIONS, moving, words);
        let [all, one] = Moving::BOTH.map(|moving| great(moving, SHORT));
        let [all_long, one_long] = Moving::BOTH.map(|moving| great(moving, LONG));
        for case in [chart_a(), all, one, all_long, one_long] {
            self.measure("rounds", &case, std::slice::from_ref(&case.about));
        }
    }

    fn active_states(&mut self) -> Panel {
        let title = format!("A round and the active states; {GREAT_ROWS} rows throughout.");
        self.heading(&title, &["moving", "regions", "active states", "entries a round"]);
        let mut lines = Vec::new();
        for moving in Moving::BOTH {
            let mut found = Vec::new();
            for count in REGIONS {
                let case = regions(GREAT_ROWS, count, moving, SHORT);
                let cells = [moving.text().to_string(), count.to_string(), case.active.to_string()];
                let point = self.measure("active states", &case, &cells);
                found.push((case.active as f64, point));
            }
            lines.extend(self.lines(moving, &found));
        }
        Panel {
            title: "A round and the active states".to_string(),
            x_label: format!("active states of {GREAT_ROWS} rows"),
            lines,
        }
    }

    fn rows(&mut self) -> Panel {
        self.heading("A round and the rows; one region, which moves.", &["rows", "entries a round"]);
        let mut found = Vec::new();
        for rows in ROWS {
            let case = regions(rows, 1, Moving::One, SHORT);
            let point = self.measure("rows", &case, &[rows.to_string()]);
            found.push((rows as f64, point));
        }
        Panel {
            title: "A round and the rows".to_string(),
            x_label: "rows, 3 of them active".to_string(),
            lines: self.lines(Moving::One, &found).into(),
        }
    }

    /// Runs of no rounds: both check the chart and the session at every call.
    fn calls(&mut self) {
        self.heading("A call before its rounds: a run of 0, with all checks.", &["chart", "rows"]);
        let great = |words| regions(GREAT_ROWS, GREAT_REGIONS, Moving::One, words);
        for case in [chart_a(), great(SHORT), great(LONG)] {
            let point = self.bench.calls(&case, CALLS);
            let cells = [case.about.replace(", one moving", ""), case.rows.to_string()];
            self.line("calls", &case, &cells, point, 0);
        }
    }

    fn lines(&self, moving: Moving, found: &[(f64, Point)]) -> [Line; 2] {
        let dashed = moving == Moving::One;
        let line = |who: &str, colour, of: fn(&Point) -> f64| Line {
            label: format!("{who}, {}", moving.text()),
            colour,
            dashed,
            points: found.iter().map(|(x, point)| (*x, of(point))).collect(),
        };
        [line(self.first, "#b3402a", |point| point.first), line("engine", "#2a5fb3", |point| point.engine)]
    }
}
