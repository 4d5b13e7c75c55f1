//! A grammar in EBNF as data. `ELEMENT(n, attributes, content)` stands for an element with tags: each
//! attribute `a:v` comes at most once, in any order, as `a`, `=` and a value of rule v; one marked `!` has
//! to be there.

use std::collections::HashMap;
use std::rc::Rc;

/// The grammar that docs/ prints.
pub const SCXML_TEXT: &str = include_str!("grammar.ebnf");

pub type NodeNumber = usize;

/// What a place of a rule may hold.
#[derive(Clone, PartialEq, Eq, Debug)]
pub enum Node {
    /// One byte of a set: bit b stands for byte b.
    Byte(u128),
    Literal(Rc<str>),
    Sequence(Rc<[NodeNumber]>),
    Choice(Rc<[NodeNumber]>),
    Repeat(NodeNumber),
    /// A rule that is defined somewhere in the grammar.
    Rule(usize),
}

#[derive(Default)]
pub struct Grammar {
    pub nodes: Vec<Node>,
    names: HashMap<String, usize>,
    /// What each rule stands for, once it is read.
    bodies: Vec<Option<NodeNumber>>,
}

impl Grammar {
    /// Each line is a rule or empty.
    pub fn read<'a>(lines: impl Iterator<Item = &'a str>) -> Grammar {
        let mut grammar = Grammar::default();
        for line in lines.filter(|line| !line.trim().is_empty()) {
            let (name, body) = line.split_once('=').expect("a rule has an equals sign");
            let mut parser = Parser { grammar: &mut grammar, tokens: tokens(body), at: 0 };
            let node = parser.choice();
            assert_eq!(parser.at, parser.tokens.len(), "the whole of {line} is read");
            let rule = grammar.number(name.trim());
            assert_eq!(grammar.bodies[rule].replace(node), None, "{name} has one rule");
        }
        grammar
    }

    fn number(&mut self, name: &str) -> usize {
        if let Some(&rule) = self.names.get(name) {
            return rule;
        }
        self.bodies.push(None);
        self.names.insert(name.to_string(), self.bodies.len() - 1);
        self.bodies.len() - 1
    }

    pub fn body(&self, rule: usize) -> NodeNumber {
        self.bodies[rule].expect("every rule is defined")
    }

    pub fn named(&self, name: &str) -> NodeNumber {
        self.body(self.names[name])
    }

    /// Whether every node has a text, so that each beginning of one can be ended.
    pub fn can_always_end(&self) -> bool {
        let mut ends = vec![false; self.nodes.len()];
        loop {
            let before = ends.clone();
            for (number, node) in self.nodes.iter().enumerate() {
                ends[number] = match node {
                    Node::Byte(set) => *set != 0,
                    Node::Literal(_) | Node::Repeat(_) => true,
                    Node::Sequence(parts) => parts.iter().all(|&part| ends[part]),
                    Node::Choice(parts) => parts.iter().any(|&part| ends[part]),
                    Node::Rule(rule) => ends[self.body(*rule)],
                };
            }
            if ends == before {
                return ends.iter().all(|&ends| ends);
            }
        }
    }

    fn add(&mut self, node: Node) -> NodeNumber {
        self.nodes.push(node);
        self.nodes.len() - 1
    }

    fn literal(&mut self, text: &str) -> NodeNumber {
        self.add(Node::Literal(text.into()))
    }

    fn rule(&mut self, name: &str) -> NodeNumber {
        let rule = self.number(name);
        self.add(Node::Rule(rule))
    }

    fn sequence(&mut self, parts: Vec<NodeNumber>) -> NodeNumber {
        self.add(Node::Sequence(parts.into()))
    }

    /// The bytes of a node that is a set of single bytes.
    fn set(&self, node: NodeNumber) -> u128 {
        match &self.nodes[node] {
            Node::Byte(set) => *set,
            Node::Literal(text) if text.len() == 1 => 1 << text.as_bytes()[0],
            Node::Sequence(parts) if parts.len() == 1 => self.set(parts[0]),
            Node::Choice(parts) => parts.iter().map(|&part| self.set(part)).fold(0, |all, set| all | set),
            Node::Rule(rule) => self.set(self.body(*rule)),
            other => panic!("{other:?} is no set of bytes"),
        }
    }
}

fn tokens(body: &str) -> Vec<String> {
    let mut tokens = Vec::new();
    let mut rest = body.trim_start();
    while let Some(first) = rest.chars().next() {
        let length = match first {
            '"' | '\'' => 2 + rest[1..].find(first).expect("a literal is closed"),
            '.' => 2,
            '#' | 'a'..='z' | 'A'..='Z' => {
                rest[1..].find(|c: char| !c.is_ascii_alphanumeric()).map_or(rest.len(), |end| end + 1)
            }
            _ => 1,
        };
        tokens.push(rest[..length].to_string());
        rest = rest[length..].trim_start();
    }
    tokens
}

/// An attribute of an element, as the grammar lists it.
struct Listed {
    name: String,
    value: String,
    required: bool,
}

struct Parser<'a> {
    grammar: &'a mut Grammar,
    tokens: Vec<String>,
    at: usize,
}

impl Parser<'_> {
    fn peek(&self) -> &str {
        self.tokens.get(self.at).map_or("", |token| token.as_str())
    }

    fn take(&mut self) -> String {
        self.at += 1;
        self.tokens[self.at - 1].clone()
    }

    fn skip(&mut self, wanted: &str) -> bool {
        let found = self.peek() == wanted;
        self.at += usize::from(found);
        found
    }

    fn expect(&mut self, wanted: &str) {
        assert!(self.skip(wanted), "{wanted} expected, {} found", self.peek());
    }

    fn choice(&mut self) -> NodeNumber {
        let mut parts = vec![self.sequence()];
        while self.skip("|") {
            parts.push(self.sequence());
        }
        self.grammar.add(Node::Choice(parts.into()))
    }

    fn sequence(&mut self) -> NodeNumber {
        let mut parts = Vec::new();
        while !matches!(self.peek(), "" | "|" | ")" | "]" | "}" | ",") {
            parts.push(self.difference());
        }
        self.grammar.sequence(parts)
    }

    fn difference(&mut self) -> NodeNumber {
        let all = self.factor();
        if !self.skip("-") {
            return all;
        }
        let without = self.factor();
        let set = self.grammar.set(all) & !self.grammar.set(without);
        assert_ne!(set, 0, "a set of bytes is not empty");
        self.grammar.add(Node::Byte(set))
    }

    fn factor(&mut self) -> NodeNumber {
        let token = self.take();
        match token.as_str() {
            "(" => self.inside(")"),
            "{" => {
                let repeated = self.inside("}");
                self.grammar.add(Node::Repeat(repeated))
            }
            "[" => {
                let optional = self.inside("]");
                let nothing = self.grammar.sequence(Vec::new());
                self.grammar.add(Node::Choice([nothing, optional].into()))
            }
            "ELEMENT" => self.element(),
            token if token.starts_with('#') => self.range(token),
            token if token.starts_with(['"', '\'']) => self.grammar.literal(&token[1..token.len() - 1]),
            name => self.grammar.rule(name),
        }
    }

    fn inside(&mut self, end: &str) -> NodeNumber {
        let node = self.choice();
        self.expect(end);
        node
    }

    fn range(&mut self, first: &str) -> NodeNumber {
        let last = if self.skip("..") { self.take() } else { first.to_string() };
        let byte = |token: &str| u8::from_str_radix(&token[2..], 16).expect("a byte in base 16");
        let set = (byte(first)..=byte(&last)).fold(0, |set, byte| set | 1 << byte);
        self.grammar.add(Node::Byte(set))
    }

    fn element(&mut self) -> NodeNumber {
        self.expect("(");
        let name = self.take();
        self.expect(",");
        let mut listed = Vec::new();
        while !self.skip(",") {
            listed.push(self.listed());
        }
        let content = self.inside(")");
        let end = self.end_of_tag(&name, content);
        let none_given = (1 << listed.len()) - 1;
        let mut known = HashMap::new();
        let attributes = self.attributes(&listed, none_given, end, &mut known);
        let start = self.grammar.literal(&format!("<{name}"));
        self.grammar.sequence(vec![start, attributes])
    }

    fn listed(&mut self) -> Listed {
        let name = self.take();
        let required = self.skip("!");
        self.expect(":");
        Listed { name, value: self.take(), required }
    }

    /// s ( "/>" | ">" content "</" n s ">" )
    fn end_of_tag(&mut self, name: &str, content: NodeNumber) -> NodeNumber {
        let grammar = &mut *self.grammar;
        let spaces = grammar.rule("s");
        let empty = grammar.literal("/>");
        let (open, close, last) =
            (grammar.literal(">"), grammar.literal(&format!("</{name}")), grammar.literal(">"));
        let full = grammar.sequence(vec![open, content, close, spaces, last]);
        let end = grammar.add(Node::Choice([empty, full].into()));
        grammar.sequence(vec![spaces, end])
    }

    /// Any of the attributes not given yet, a bit for each, or the end of the tag if none of those is
    /// required.
    fn attributes(
        &mut self,
        listed: &[Listed],
        left: usize,
        end: NodeNumber,
        known: &mut HashMap<usize, NodeNumber>,
    ) -> NodeNumber {
        if let Some(&node) = known.get(&left) {
            return node;
        }
        let missing = |number: &usize| left & 1 << *number != 0;
        let mut ways = Vec::new();
        for number in (0..listed.len()).filter(missing) {
            let attribute = self.attribute(&listed[number]);
            let others = self.attributes(listed, left & !(1 << number), end, known);
            ways.push(self.grammar.sequence(vec![attribute, others]));
        }
        if !(0..listed.len()).filter(missing).any(|number| listed[number].required) {
            ways.push(end);
        }
        let node = self.grammar.add(Node::Choice(ways.into()));
        known.insert(left, node);
        node
    }

    /// S a s "=" s v
    fn attribute(&mut self, listed: &Listed) -> NodeNumber {
        let grammar = &mut *self.grammar;
        let (before, spaces) = (grammar.rule("S"), grammar.rule("s"));
        let (name, equals) = (grammar.literal(&listed.name), grammar.literal("="));
        let value = grammar.rule(&listed.value);
        grammar.sequence(vec![before, name, spaces, equals, spaces, value])
    }
}
