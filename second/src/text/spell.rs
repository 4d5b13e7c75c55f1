//! A chart in a random spelling, which reads back to the chart: quotes, white space, comments, the order
//! of attributes and of an element's parts, entities, defaults stated or not.

use super::values::{NAMESPACE, VERSION};
use crate::branches::{parse, Branch, Statement};
use crate::numbers::{NameNumber, RowNumber, ROOT};
use crate::random::Random;
use crate::tables::{Action, Chart, Kind, Transition, TransitionType};

/// An attribute to be spelt; the pieces of a list may have any white space between them.
struct Given {
    name: &'static str,
    pieces: Vec<String>,
    is_list: bool,
}

fn one(name: &'static str, value: impl Into<String>) -> Given {
    Given { name, pieces: vec![value.into()], is_list: false }
}

fn list(name: &'static str, pieces: Vec<String>) -> Given {
    Given { name, pieces, is_list: true }
}

/// The text of a chart in a spelling of its own; longer ones are less plain.
pub fn spell(chart: &Chart, random: &mut Random) -> Vec<u8> {
    let plainness = [100, 97, 85, 60][random.below(4)];
    let mut speller = Speller { chart, random, plainness };
    let before = speller.between();
    let root = speller.row(ROOT);
    let behind = speller.between();
    (before + &root + &behind).into_bytes()
}

struct Speller<'a> {
    chart: &'a Chart,
    random: &'a mut Random,
    /// So many times in a hundred nothing that may be left out is written.
    plainness: usize,
}

const BLANKS: [&str; 6] = [" ", "\n", "\t", "\r\n", "  ", " \n  "];
const COMMENTS: [&str; 8] = [
    "<!---->",
    "<!-- -->",
    "<!--->-->",
    "<!-- <state id=\"x\"> & ' -->",
    "<!--- - -->",
    "<!--\x7f\t\r\n~-->",
    "<!--<!- ->-->",
    "<!--]]>-->",
];

impl Speller<'_> {
    fn fancy(&mut self) -> bool {
        !self.random.chance(self.plainness)
    }

    fn either(&mut self) -> bool {
        self.random.chance(50)
    }

    fn some_blank(&mut self) -> String {
        match self.fancy() {
            true => self.random.pick(&BLANKS).unwrap_or(" ").to_string(),
            false => " ".to_string(),
        }
    }

    fn blank(&mut self) -> String {
        if self.fancy() {
            self.some_blank()
        } else {
            String::new()
        }
    }

    /// White space and comments, where they mean nothing.
    fn between(&mut self) -> String {
        let mut text = self.blank();
        while self.fancy() && self.either() {
            text += self.random.pick(&COMMENTS).unwrap_or("");
            text += &self.blank();
        }
        text
    }

    // Tags

    fn element(&mut self, word: &str, mut given: Vec<Given>, parts: Vec<String>) -> String {
        if self.fancy() {
            self.random.shuffle(&mut given);
        }
        let mut tag = format!("<{word}");
        for attribute in given {
            tag += &self.attribute(attribute);
        }
        tag += &self.blank();
        if parts.is_empty() && word != "initial" && self.either() {
            return tag + "/>";
        }
        tag += ">";
        tag += &self.between();
        for part in parts {
            tag += &part;
            tag += &self.between();
        }
        format!("{tag}</{word}{}>", self.blank())
    }

    fn attribute(&mut self, given: Given) -> String {
        let mut value = self.joined(&given);
        if given.name == "cond" && self.fancy() {
            let count = self.random.between(1, 2);
            value = value.replacen('\'', "&apos;", count);
        }
        let quote = if !value.contains('\'') && self.fancy() { '\'' } else { '"' };
        let (before, behind) = (self.blank(), self.blank());
        let name = given.name;
        format!("{}{name}{before}={behind}{quote}{value}{quote}", self.some_blank())
    }

    fn joined(&mut self, given: &Given) -> String {
        if !given.is_list {
            return given.pieces.concat();
        }
        let mut value = self.blank();
        for (number, piece) in given.pieces.iter().enumerate() {
            if number > 0 {
                value += &self.some_blank();
            }
            value += piece;
        }
        value + &self.blank()
    }

    // Rows

    fn id(&self, row: RowNumber) -> String {
        String::from_utf8_lossy(self.chart.id(row)).into_owned()
    }

    fn ids(&self, rows: &[RowNumber]) -> Vec<String> {
        rows.iter().map(|&row| self.id(row)).collect()
    }

    fn name(&self, name: NameNumber) -> String {
        String::from_utf8_lossy(self.chart.name(name)).into_owned()
    }

    fn row(&mut self, number: RowNumber) -> String {
        let chart = self.chart;
        let row = chart.row(number);
        let as_element = !row.kind.is_history()
            && !row.list.is_empty()
            && row.kind == Kind::State
            && (!row.block.is_empty() || self.either());
        let (word, given) = self.row_tag(number, as_element);
        let mut queues = vec![self.blocks("onentry", &row.entry), self.blocks("onexit", &row.exit)];
        if as_element || row.kind.is_history() {
            queues.push(vec![self.list_with_block(number)]);
        }
        let own = chart.transitions.iter().filter(|transition| transition.source == number);
        queues.push(own.map(|transition| self.transition(transition)).collect());
        let children = chart.row_numbers().filter(|&child| chart.row(child).parent == Some(number));
        queues.push(children.map(|child| self.row(child)).collect());
        let parts = self.merged(queues);
        self.element(word, given, parts)
    }

    fn row_tag(&mut self, number: RowNumber, as_element: bool) -> (&'static str, Vec<Given>) {
        let row = self.chart.row(number);
        let mut given = Vec::new();
        if row.kind != Kind::Root {
            given.push(one("id", self.id(number)));
        }
        if !row.kind.is_history() && !row.list.is_empty() && !as_element {
            given.push(list("initial", self.ids(&row.list)));
        }
        let word = match row.kind {
            Kind::Root => {
                let stated = [("xmlns", NAMESPACE), ("version", VERSION)];
                let stated = stated.into_iter().filter(|_| !self.random.chance(25));
                given.extend(stated.map(|(name, value)| one(name, String::from_utf8_lossy(value))));
                "scxml"
            }
            Kind::State => "state",
            Kind::Parallel => "parallel",
            Kind::Final => "final",
            Kind::ShallowHistory | Kind::DeepHistory => {
                let kind = if row.kind == Kind::DeepHistory { "deep" } else { "shallow" };
                if kind == "deep" || self.fancy() {
                    given.push(one("type", kind));
                }
                "history"
            }
        };
        (word, given)
    }

    /// One block as several elements, none of which cuts an if, and elements with nothing in them.
    fn blocks(&mut self, word: &str, block: &[Action]) -> Vec<String> {
        let mut elements = Vec::new();
        let statements = parse(block).expect("rule 5 is kept");
        let mut rest = &statements[..];
        while !rest.is_empty() || self.fancy() {
            let most = rest.len();
            let count = if self.fancy() { self.random.between(0, most) } else { most };
            let (now, later) = rest.split_at(count);
            let actions = self.statements(now);
            elements.push(self.element(word, Vec::new(), actions));
            rest = later;
        }
        elements
    }

    /// Takes the parts of all queues in any order that keeps each queue's own.
    fn merged(&mut self, queues: Vec<Vec<String>>) -> Vec<String> {
        let mixed = self.fancy();
        let mut queues: Vec<_> = queues.into_iter().map(|queue| queue.into_iter().peekable()).collect();
        let mut parts = Vec::new();
        loop {
            let full: Vec<usize> =
                (0..queues.len()).filter(|&queue| queues[queue].peek().is_some()).collect();
            let Some(&first) = full.first() else { return parts };
            let queue = if mixed { self.random.pick(&full).unwrap_or(first) } else { first };
            parts.extend(queues[queue].next());
        }
    }

    /// The type of these transitions is without effect.
    fn list_with_block(&mut self, number: RowNumber) -> String {
        let row = self.chart.row(number);
        let mut given = vec![list("target", self.ids(&row.list))];
        if self.fancy() {
            given.push(one("type", if self.either() { "internal" } else { "external" }));
        }
        let actions = self.actions(&row.block);
        let transition = self.element("transition", given, actions);
        match row.kind.is_history() {
            true => transition,
            false => self.element("initial", Vec::new(), vec![transition]),
        }
    }

    fn transition(&mut self, transition: &Transition) -> String {
        let mut given = Vec::new();
        match transition.kind {
            TransitionType::Internal => given.push(one("type", "internal")),
            TransitionType::External if self.fancy() => given.push(one("type", "external")),
            TransitionType::External => {}
        }
        if !transition.descriptors.is_empty() {
            let names = transition.descriptors.iter().map(|&name| self.name(name)).collect();
            given.push(list("event", names));
        }
        given.extend(self.cond(transition.condition));
        if !transition.targets.is_empty() {
            given.push(list("target", self.ids(&transition.targets)));
        }
        let actions = self.actions(&transition.block);
        self.element("transition", given, actions)
    }

    fn actions(&mut self, block: &[Action]) -> Vec<String> {
        self.statements(&parse(block).expect("rule 5 is kept"))
    }

    fn statements(&mut self, statements: &[Statement]) -> Vec<String> {
        let mut parts = Vec::new();
        for statement in statements {
            parts.push(match statement {
                Statement::Act(action) => self.action(*action),
                Statement::If(branches) => self.branches(branches),
            });
        }
        parts
    }

    fn branches(&mut self, branches: &[Branch]) -> String {
        let mut parts = Vec::new();
        for (place, branch) in branches.iter().enumerate() {
            if place > 0 {
                let word = if branch.condition.is_some() { "elseif" } else { "else" };
                let given = self.cond(branch.condition);
                parts.push(self.element(word, given, Vec::new()));
            }
            parts.extend(self.statements(&branch.body));
        }
        let given = self.cond(branches[0].condition);
        self.element("if", given, parts)
    }

    fn cond(&self, condition: Option<RowNumber>) -> Vec<Given> {
        condition.into_iter().map(|row| one("cond", format!("In('{}')", self.id(row)))).collect()
    }

    fn action(&mut self, action: Action) -> String {
        match action {
            Action::Raise(name) => {
                let event = one("event", self.name(name));
                self.element("raise", vec![event], Vec::new())
            }
            Action::Host(number) => {
                let zeros = if self.fancy() { "000" } else { "" };
                self.element("log", vec![one("label", format!("{zeros}{number}"))], Vec::new())
            }
            Action::Send { event, delay, id } => {
                let mut given: Vec<Given> = id.into_iter().map(|id| one("id", self.name(id))).collect();
                given.push(one("event", self.name(event)));
                if delay > 0 || self.fancy() {
                    let zeros = if self.fancy() { "00" } else { "" };
                    given.push(one("delay", format!("{zeros}{delay}")));
                }
                self.element("send", given, Vec::new())
            }
            Action::Cancel(id) => {
                let id = one("sendid", self.name(id));
                self.element("cancel", vec![id], Vec::new())
            }
            _ => unreachable!("the others make statements"),
        }
    }
}
