//! A recogniser of any EBNF without left recursion: it keeps every way in which the text so far can be
//! the beginning of a text of the grammar, each a stack of what is still to come.

use super::ebnf::{Grammar, Node, NodeNumber, SCXML_TEXT};
use std::collections::{HashMap, HashSet};
use std::hash::{BuildHasherDefault, Hasher};
use std::rc::Rc;

/// "a document of at most 32,768 bytes".
pub const MAX_TEXT: usize = 32_768;

/// A stack of what is to come, by its number. Equal stacks have equal numbers.
type Stack = usize;
const NOTHING: Stack = 0;

/// What comes first, the parts of a node from one of them on, and the stack behind it.
#[derive(Clone, Copy, PartialEq, Eq, Hash)]
struct Frame {
    node: NodeNumber,
    from: usize,
    rest: Stack,
}

/// Stacks are looked up for every byte, so their numbers are mixed quickly.
#[derive(Default)]
struct Mixer(u64);

impl Hasher for Mixer {
    fn finish(&self) -> u64 {
        self.0
    }

    fn write(&mut self, bytes: &[u8]) {
        bytes.iter().for_each(|&byte| self.write_usize(usize::from(byte)));
    }

    fn write_usize(&mut self, number: usize) {
        self.0 = (self.0.rotate_left(29) ^ number as u64).wrapping_mul(0x9e37_79b9_7f4a_7c15);
    }
}

type Mixed = BuildHasherDefault<Mixer>;

/// Every way to go on. A text is the beginning of one of the grammar exactly if there is a way.
#[derive(Clone, PartialEq, Eq, Debug)]
pub struct Ways(Vec<Stack>);

impl Ways {
    pub fn is_empty(&self) -> bool {
        self.0.is_empty()
    }
}

pub struct Recogniser {
    grammar: Grammar,
    first: NodeNumber,
    frames: Vec<Frame>,
    known: HashMap<Frame, Stack, Mixed>,
    /// Of each stack that was looked at: the same, with nothing or bytes first.
    bytes_first: HashMap<Stack, Rc<[Stack]>, Mixed>,
}

impl Default for Recogniser {
    fn default() -> Self {
        Recogniser::new()
    }
}

impl Recogniser {
    /// Of the grammar of SCXML text.
    pub fn new() -> Recogniser {
        let grammar = Grammar::read(SCXML_TEXT.lines());
        assert!(grammar.can_always_end(), "a way that is left leads to a text");
        let first = grammar.named("text");
        // Stack 0 has nothing to come; what stands at its place is never looked at.
        let frames = vec![Frame { node: 0, from: 0, rest: NOTHING }];
        let (known, bytes_first) = (HashMap::default(), HashMap::default());
        Recogniser { grammar, first, frames, known, bytes_first }
    }

    /// Where every text begins.
    pub fn start(&mut self) -> Ways {
        Ways(vec![self.push(self.first, 0, NOTHING)])
    }

    fn push(&mut self, node: NodeNumber, from: usize, rest: Stack) -> Stack {
        let frames = &mut self.frames;
        let frame = Frame { node, from, rest };
        *self.known.entry(frame).or_insert_with(|| {
            frames.push(frame);
            frames.len() - 1
        })
    }

    /// What is behind part `from` of a node that has so many.
    fn behind(&mut self, frame: Frame, parts: usize) -> Stack {
        match frame.from + 1 < parts {
            true => self.push(frame.node, frame.from + 1, frame.rest),
            false => frame.rest,
        }
    }

    /// The ways to go on behind one more byte.
    pub fn step(&mut self, ways: &Ways, byte: u8) -> Ways {
        let mut after = Vec::new();
        for &way in &ways.0 {
            for &stack in self.bytes_first(way).iter().filter(|&&stack| stack != NOTHING) {
                let frame = self.frames[stack];
                let (here, parts) = match &self.grammar.nodes[frame.node] {
                    Node::Byte(set) => (byte < 128 && set & 1 << byte != 0, 1),
                    Node::Literal(text) => (text.as_bytes()[frame.from] == byte, text.len()),
                    _ => unreachable!("only bytes come first"),
                };
                if here {
                    let next = self.behind(frame, parts);
                    after.push(next);
                }
            }
        }
        after.sort_unstable();
        after.dedup();
        Ways(after)
    }

    /// Whether the text may end here.
    pub fn may_end(&mut self, ways: &Ways) -> bool {
        ways.0.iter().any(|&way| self.bytes_first(way).contains(&NOTHING))
    }

    /// What a stack stands for, each with nothing or bytes first.
    fn bytes_first(&mut self, stack: Stack) -> Rc<[Stack]> {
        if let Some(known) = self.bytes_first.get(&stack) {
            return known.clone();
        }
        let mut todo = vec![stack];
        let mut seen: HashSet<Stack, Mixed> = HashSet::default();
        let mut found = Vec::new();
        while let Some(stack) = todo.pop() {
            let is_new = seen.insert(stack);
            if is_new && (stack == NOTHING || !self.open(stack, &mut todo)) {
                found.push(stack);
            }
        }
        let found: Rc<[Stack]> = found.into();
        self.bytes_first.insert(stack, found.clone());
        found
    }

    /// Adds what a stack stands for whose first node is more than bytes; whether it is.
    fn open(&mut self, stack: Stack, todo: &mut Vec<Stack>) -> bool {
        let frame = self.frames[stack];
        match self.grammar.nodes[frame.node].clone() {
            Node::Byte(_) | Node::Literal(_) => return false,
            Node::Sequence(parts) if parts.is_empty() => todo.push(frame.rest),
            Node::Sequence(parts) => {
                let behind = self.behind(frame, parts.len());
                todo.push(self.push(parts[frame.from], 0, behind));
            }
            Node::Choice(parts) => {
                todo.extend(parts.iter().map(|&part| self.push(part, 0, frame.rest)));
            }
            Node::Repeat(part) => {
                todo.push(frame.rest);
                todo.push(self.push(part, 0, stack));
            }
            Node::Rule(rule) => todo.push(self.push(self.grammar.body(rule), 0, frame.rest)),
        }
        true
    }

    /// "12 at the first byte that no text of the grammar has there, at its end or at 32,768, whichever is
    /// first"; nothing for a text of the grammar.
    pub fn fault(&mut self, text: &[u8]) -> Option<usize> {
        let start = self.start();
        self.fault_from(&start, 0, text)
    }

    /// The same, where the bytes before a place led to these ways.
    pub fn fault_from(&mut self, ways: &Ways, from: usize, text: &[u8]) -> Option<usize> {
        let mut ways = ways.clone();
        let most = text.len().min(MAX_TEXT);
        for (at, &byte) in text.iter().enumerate().take(most).skip(from) {
            ways = self.step(&ways, byte);
            if ways.is_empty() {
                return Some(at);
            }
        }
        (text.len() > MAX_TEXT || !self.may_end(&ways)).then_some(most)
    }
}
