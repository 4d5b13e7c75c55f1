//! Writes a chart as Graphviz text, its active rows filled.
//!
//! Standard input has three lines: `numbers` and the cells of the tables, `names` and the bytes of
//! the slots, `active` and the active rows. The chart has to keep the rules.

use second::compiled::CompiledChart;
use second::numbers::{RowNumber, TransitionNumber, ROOT};
use second::row_set::RowSet;
use second::tables::{Action, Kind, Transition, TransitionType};
use std::io::Read;
use std::process::ExitCode;

const ACTIVE_LEAF: &str = "#ffd75e";
const ACTIVE_BOX: &str = "#fff3c4";
const INACTIVE: &str = "white";

struct Picture {
    compiled: CompiledChart,
    active: RowSet,
    text: String,
}

/// The numbers of the line that begins with this word.
fn numbers_of(input: &str, word: &str) -> Result<Vec<u64>, String> {
    let line = input.lines().find_map(|line| line.strip_prefix(word)).ok_or(format!("no line of {word}"))?;
    line.split_whitespace().map(|cell| cell.parse().map_err(|_| format!("{cell} is no number"))).collect()
}

fn read(input: &str) -> Result<Picture, String> {
    let bytes: Result<Vec<u8>, _> = numbers_of(input, "names")?.into_iter().map(u8::try_from).collect();
    let names = bytes.map_err(|_| "a name has a number that is no byte")?;
    let compiled = CompiledChart::from_tables(&numbers_of(input, "numbers")?, &names)
        .map_err(|rule| format!("the chart breaks rule {rule}"))?;
    let mut active = RowSet::EMPTY;
    for row in numbers_of(input, "active")? {
        if row >= compiled.chart.rows.len() as u64 {
            return Err(format!("there is no row {row}"));
        }
        active.insert(RowNumber(row as usize));
    }
    Ok(Picture { compiled, active, text: String::new() })
}

impl Picture {
    fn line(&mut self, depth: usize, line: &str) {
        self.text += &"  ".repeat(depth);
        self.text += line;
        self.text.push('\n');
    }

    fn id(&self, row: RowNumber) -> String {
        String::from_utf8_lossy(self.compiled.chart.id(row)).into_owned()
    }

    /// A row that is not active is white, so that it does not look as the active one around it.
    fn fill(&self, row: RowNumber, active: &str) -> String {
        let color = if self.active.contains(row) { active } else { INACTIVE };
        format!("fillcolor=\"{color}\"")
    }

    /// A row that is drawn around others.
    fn has_children(&self, row: RowNumber) -> bool {
        !self.compiled.tree.children(row).is_empty()
    }

    /// All rows directly under this one, its histories too, which are no children.
    fn drawn_inside(&self, row: RowNumber) -> Vec<RowNumber> {
        let chart = &self.compiled.chart;
        chart.row_numbers().filter(|&other| chart.row(other).parent == Some(row)).collect()
    }

    fn action(&self, action: &Action) -> String {
        match action {
            Action::Raise(name) => {
                format!("raise {}", String::from_utf8_lossy(self.compiled.chart.name(*name)))
            }
            Action::Host(number) => format!("host {number}"),
            Action::If(row) => format!("if In({})", String::from_utf8_lossy(self.compiled.chart.id(*row))),
            Action::ElseIf(row) => {
                format!("elseif In({})", String::from_utf8_lossy(self.compiled.chart.id(*row)))
            }
            Action::Else => "else".to_string(),
            Action::End => "end".to_string(),
            Action::Send { event, delay, .. } => {
                format!("send {} in {delay}", String::from_utf8_lossy(self.compiled.chart.name(*event)))
            }
            Action::Cancel(id) => {
                format!("cancel {}", String::from_utf8_lossy(self.compiled.chart.name(*id)))
            }
        }
    }

    fn block(&self, before: &str, block: &[Action]) -> String {
        if block.is_empty() {
            return String::new();
        }
        let actions: Vec<String> = block.iter().map(|action| self.action(action)).collect();
        format!("\\n{before}/ {}", actions.join(", "))
    }

    fn label(&self, row: RowNumber) -> String {
        let spelt = self.compiled.chart.row(row);
        format!("{}{}{}", self.id(row), self.block("entry ", &spelt.entry), self.block("exit ", &spelt.exit))
    }

    fn leaf(&mut self, row: RowNumber, depth: usize) {
        let label = self.label(row);
        let fill = self.fill(row, ACTIVE_LEAF);
        let shape = match self.compiled.chart.kind(row) {
            Kind::ShallowHistory => format!("shape=circle, label=\"H\", tooltip=\"{label}\""),
            Kind::DeepHistory => format!("shape=circle, label=\"H*\", tooltip=\"{label}\""),
            Kind::Final => format!("peripheries=2, label=\"{label}\""),
            _ => format!("label=\"{label}\""),
        };
        self.line(depth, &format!("row{} [{shape}, style=\"rounded,filled\", {fill}];", row.0));
    }

    /// A row with rows inside. Its point is where edges begin and end, and for all but a parallel
    /// the mark of its initial list.
    fn box_of(&mut self, row: RowNumber, depth: usize) {
        let is_parallel = self.compiled.chart.kind(row) == Kind::Parallel;
        if row != ROOT {
            let style = if is_parallel { "dashed" } else { "rounded" };
            let fill = self.fill(row, ACTIVE_BOX);
            let label = self.label(row);
            self.line(depth, &format!("subgraph cluster{} {{", row.0));
            self.line(depth + 1, &format!("label=\"{label}\"; style=\"{style},filled\"; {fill};"));
        }
        let look = if is_parallel { "style=invis" } else { "style=filled, fillcolor=black" };
        self.line(depth + 1, &format!("row{} [shape=point, label=\"\", width=0.08, {look}];", row.0));
        for inside in self.drawn_inside(row) {
            self.row(inside, depth + 1);
        }
        if row != ROOT {
            self.line(depth, "}");
        }
    }

    fn row(&mut self, row: RowNumber, depth: usize) {
        match self.has_children(row) {
            true => self.box_of(row, depth),
            false => self.leaf(row, depth),
        }
    }

    /// An edge is cut at the box of its end, unless the other end lies in that box.
    fn edge(&mut self, from: RowNumber, to: RowNumber, label: &str, look: &str) {
        let mut ends = String::new();
        let is_inside = |inner: RowNumber, outer: RowNumber| {
            inner == outer || self.compiled.tree.ancestors(inner).contains(outer)
        };
        if self.has_children(to) && !is_inside(from, to) {
            ends += &format!(", lhead=cluster{}", to.0);
        }
        if from != ROOT && self.has_children(from) && !is_inside(to, from) {
            ends += &format!(", ltail=cluster{}", from.0);
        }
        self.line(1, &format!("row{} -> row{} [label=\"{label}\"{look}{ends}];", from.0, to.0));
    }

    /// From the point of a box, or from a history, to where its list leads.
    fn initial_edges(&mut self, row: RowNumber) {
        let chart = &self.compiled.chart;
        let targets = match chart.kind(row).is_history() {
            true => chart.row(row).list.clone(),
            false => self.compiled.default_entry_targets(row),
        };
        let label = self.block("", &chart.row(row).block);
        for target in targets {
            self.edge(row, target, &label, ", style=dotted");
        }
    }

    fn transition_label(&self, number: TransitionNumber, transition: &Transition) -> String {
        let chart = &self.compiled.chart;
        let events: Vec<_> =
            transition.descriptors.iter().map(|&name| String::from_utf8_lossy(chart.name(name))).collect();
        let mut label = format!("{}:", number.0);
        if !events.is_empty() {
            label += &format!(" {}", events.join(" "));
        }
        if let Some(row) = transition.condition {
            label += &format!(" [In({})]", self.id(row));
        }
        label + &self.block("", &transition.block)
    }

    fn transition_edges(&mut self, number: TransitionNumber) {
        let transition = self.compiled.chart.transition(number).clone();
        let label = self.transition_label(number, &transition);
        let look = match transition.kind {
            TransitionType::External => "",
            TransitionType::Internal => ", arrowhead=empty",
        };
        for &target in &transition.targets {
            self.edge(transition.source, target, &label, look);
        }
        if transition.targets.is_empty() {
            self.edge(transition.source, transition.source, &label, ", style=dashed");
        }
    }

    fn draw(mut self) -> String {
        self.line(0, "digraph chart {");
        self.line(1, "compound=true; fontname=\"sans-serif\";");
        self.line(1, "node [shape=box, fontname=\"sans-serif\"];");
        self.line(1, "edge [fontname=\"sans-serif\", fontsize=10];");
        self.box_of(ROOT, 0);
        for row in self.compiled.chart.row_numbers() {
            self.initial_edges(row);
        }
        for number in self.compiled.chart.transition_numbers() {
            self.transition_edges(number);
        }
        self.line(0, "}");
        self.text
    }
}

fn main() -> ExitCode {
    let mut input = String::new();
    let was_read = std::io::stdin().read_to_string(&mut input).map_err(|error| error.to_string());
    match was_read.and_then(|_| read(&input)) {
        Ok(picture) => {
            print!("{}", picture.draw());
            ExitCode::SUCCESS
        }
        Err(what) => {
            eprintln!("picture: {what}");
            ExitCode::FAILURE
        }
    }
}
