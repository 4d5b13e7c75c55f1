//! "From an accepted chart write SCXML text in one fixed spelling".

use super::recogniser::MAX_TEXT;
use super::values::{NAMESPACE, VERSION};
use crate::branches::{parse, Branch, Statement};
use crate::compiled::needed_place;
use crate::numbers::{NameNumber, RowNumber, ROOT};
use crate::rules::judge;
use crate::tables::{Action, Chart, Kind, Transition, TransitionType};

/// Why nothing was written.
#[derive(Clone, Copy, PartialEq, Eq, Debug)]
pub enum Unwritten {
    /// 1 to 5: the first rule that the chart breaks.
    Rule(u64),
    /// 13: "If the text does not fit the lent buffer, or passes the reader's 32,768 bytes". The buffer that
    /// it would need; 0 where it passes them.
    TooLong(usize),
}

/// Writes the chart of the tables into the buffer and answers the text's length; or the buffer is as it
/// was. Behind the text it keeps its bytes.
pub fn write(numbers: &[u64], names: &[u8], buffer: &mut [u8]) -> Result<usize, Unwritten> {
    let place = needed_place(numbers).ok_or(Unwritten::Rule(1))?;
    let (chart, _) = judge(numbers, names, place).map_err(Unwritten::Rule)?;
    let text = text_of(&chart);
    if text.len() > buffer.len().min(MAX_TEXT) {
        return Err(Unwritten::TooLong(if text.len() > MAX_TEXT { 0 } else { text.len() }));
    }
    buffer[..text.len()].copy_from_slice(text.as_bytes());
    Ok(text.len())
}

/// The text of a chart that keeps the rules, of whatever length.
pub fn text_of(chart: &Chart) -> String {
    Writer { chart }.row(ROOT)
}

type Attributes<'a> = Vec<(&'a str, String)>;

/// "no optional spaces": one before each attribute, none elsewhere; an element with nothing inside is one
/// tag.
fn element(word: &str, attributes: &Attributes, inside: &str) -> String {
    let spelt: String = attributes.iter().map(|(name, value)| format!(" {name}=\"{value}\"")).collect();
    match inside.is_empty() {
        true => format!("<{word}{spelt}/>"),
        false => format!("<{word}{spelt}>{inside}</{word}>"),
    }
}

fn ascii(bytes: &[u8]) -> String {
    String::from_utf8(bytes.to_vec()).expect("names are ASCII")
}

struct Writer<'a> {
    chart: &'a Chart,
}

impl Writer<'_> {
    fn id(&self, row: RowNumber) -> String {
        ascii(self.chart.id(row))
    }

    fn ids(&self, rows: &[RowNumber]) -> String {
        rows.iter().map(|&row| self.id(row)).collect::<Vec<_>>().join(" ")
    }

    fn names(&self, names: &[NameNumber]) -> String {
        names.iter().map(|&name| ascii(self.chart.name(name))).collect::<Vec<_>>().join(" ")
    }

    /// Onentry, onexit, the initial element or default transition, transitions, then child rows.
    fn row(&self, number: RowNumber) -> String {
        let row = self.chart.row(number);
        let mut inside = self.block_of("onentry", &row.entry) + &self.block_of("onexit", &row.exit);
        if row.kind.is_history() || (!row.list.is_empty() && !row.block.is_empty()) {
            inside += &self.list_with_block(number);
        }
        for transition in self.chart.transitions.iter().filter(|transition| transition.source == number) {
            inside += &self.transition(transition);
        }
        for child in self.chart.row_numbers().filter(|&child| self.chart.row(child).parent == Some(number)) {
            inside += &self.row(child);
        }
        let (word, attributes) = self.row_tag(number);
        element(word, &attributes, &inside)
    }

    /// The word and the attributes of a row; a list without a block is an attribute.
    fn row_tag(&self, number: RowNumber) -> (&'static str, Attributes<'static>) {
        let row = self.chart.row(number);
        let mut attributes = match row.kind {
            Kind::Root => vec![("xmlns", ascii(NAMESPACE)), ("version", ascii(VERSION))],
            _ => vec![("id", self.id(number))],
        };
        if !row.kind.is_history() && !row.list.is_empty() && row.block.is_empty() {
            attributes.push(("initial", self.ids(&row.list)));
        }
        if row.kind == Kind::DeepHistory {
            attributes.push(("type", "deep".to_string()));
        }
        let word = match row.kind {
            Kind::Root => "scxml",
            Kind::State => "state",
            Kind::Parallel => "parallel",
            Kind::Final => "final",
            Kind::ShallowHistory | Kind::DeepHistory => "history",
        };
        (word, attributes)
    }

    fn list_with_block(&self, number: RowNumber) -> String {
        let row = self.chart.row(number);
        let target = vec![("target", self.ids(&row.list))];
        let transition = element("transition", &target, &self.actions(&row.block));
        match row.kind.is_history() {
            true => transition,
            false => element("initial", &Vec::new(), &transition),
        }
    }

    /// Attributes in the order of R-1's list, "defaults left out".
    fn transition(&self, transition: &Transition) -> String {
        let mut attributes = Attributes::new();
        if transition.kind == TransitionType::Internal {
            attributes.push(("type", "internal".to_string()));
        }
        if !transition.descriptors.is_empty() {
            attributes.push(("event", self.names(&transition.descriptors)));
        }
        attributes.extend(self.cond(transition.condition));
        if !transition.targets.is_empty() {
            attributes.push(("target", self.ids(&transition.targets)));
        }
        element("transition", &attributes, &self.actions(&transition.block))
    }

    fn block_of(&self, word: &str, block: &[Action]) -> String {
        match block.is_empty() {
            true => String::new(),
            false => element(word, &Vec::new(), &self.actions(block)),
        }
    }

    fn actions(&self, block: &[Action]) -> String {
        self.statements(&parse(block).expect("rule 5 is kept"))
    }

    fn statements(&self, statements: &[Statement]) -> String {
        let spelt = statements.iter().map(|statement| match statement {
            Statement::Act(action) => self.action(*action),
            Statement::If(branches) => self.branches(branches),
        });
        spelt.collect()
    }

    /// An if; each branch behind the first stands behind its own elseif or else.
    fn branches(&self, branches: &[Branch]) -> String {
        let (first, others) = branches.split_first().expect("an if has a branch");
        let mut inside = self.statements(&first.body);
        for branch in others {
            let word = if branch.condition.is_some() { "elseif" } else { "else" };
            inside += &element(word, &self.cond(branch.condition), "");
            inside += &self.statements(&branch.body);
        }
        element("if", &self.cond(first.condition), &inside)
    }

    fn cond(&self, condition: Option<RowNumber>) -> Attributes<'static> {
        condition.into_iter().map(|row| ("cond", format!("In('{}')", self.id(row)))).collect()
    }

    fn action(&self, action: Action) -> String {
        let (word, attributes) = match action {
            Action::Raise(name) => ("raise", vec![("event", self.names(&[name]))]),
            Action::Host(number) => ("log", vec![("label", number.to_string())]),
            Action::Send { event, delay, id } => ("send", self.send(event, delay, id)),
            Action::Cancel(id) => ("cancel", vec![("sendid", self.names(&[id]))]),
            _ => unreachable!("the others make statements"),
        };
        element(word, &attributes, "")
    }

    /// The id before the event, as in R-1's list; a delay of 0 is the default.
    fn send(&self, event: NameNumber, delay: u32, id: Option<NameNumber>) -> Attributes<'static> {
        let mut attributes: Attributes = id.into_iter().map(|id| ("id", self.names(&[id]))).collect();
        attributes.push(("event", self.names(&[event])));
        if delay > 0 {
            attributes.push(("delay", delay.to_string()));
        }
        attributes
    }
}
