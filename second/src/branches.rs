//! A block as a tree of statements: "if, elseif and else in blocks", "nested at most four deep".

use crate::limits::MAX_OPEN_IFS;
use crate::numbers::RowNumber;
use crate::row_set::RowSet;
use crate::tables::Action;

#[derive(Clone, PartialEq, Eq, Debug)]
pub enum Statement {
    /// A raise, a host action, a send or a cancel.
    Act(Action),
    If(Vec<Branch>),
}

/// What stands behind an if, an elseif or an else, which alone has no condition.
#[derive(Clone, PartialEq, Eq, Debug)]
pub struct Branch {
    pub condition: Option<RowNumber>,
    pub body: Vec<Statement>,
}

/// The statements of a block; none if it is malformed: "An elseif, else or end without an open if, an
/// elseif or else after its else, an unclosed if or a fifth level breaks rule 5."
pub fn parse(block: &[Action]) -> Option<Vec<Statement>> {
    let mut parser = Parser { left: block.iter().copied().peekable() };
    let statements = parser.statements(0)?;
    parser.left.next().is_none().then_some(statements)
}

struct Parser<I: Iterator<Item = Action>> {
    left: std::iter::Peekable<I>,
}

impl<I: Iterator<Item = Action>> Parser<I> {
    /// All statements up to an elseif, else or end that belongs to whoever asks, or to the end of the
    /// block.
    fn statements(&mut self, open: usize) -> Option<Vec<Statement>> {
        let mut statements = Vec::new();
        while let Some(&action) = self.left.peek() {
            match action {
                Action::ElseIf(_) | Action::Else | Action::End => break,
                Action::If(row) => {
                    self.left.next();
                    statements.push(self.branches(row, open + 1)?);
                }
                Action::Raise(_) | Action::Host(_) | Action::Send { .. } | Action::Cancel(_) => {
                    self.left.next();
                    statements.push(Statement::Act(action));
                }
            }
        }
        Some(statements)
    }

    /// What follows an if, its end included; so many ifs are open, this one among them.
    fn branches(&mut self, row: RowNumber, open: usize) -> Option<Statement> {
        if open > MAX_OPEN_IFS {
            return None;
        }
        let mut condition = Some(row);
        let mut branches = Vec::new();
        loop {
            let body = self.statements(open)?;
            branches.push(Branch { condition, body });
            match self.left.next()? {
                Action::End => return Some(Statement::If(branches)),
                Action::ElseIf(row) if condition.is_some() => condition = Some(row),
                Action::Else if condition.is_some() => condition = None,
                _ => return None,
            }
        }
    }
}

/// The actions that are done in this configuration, in order: of each if the first branch whose condition
/// holds, else that without one.
pub fn done(statements: &[Statement], configuration: &RowSet) -> Vec<Action> {
    let mut actions = Vec::new();
    for statement in statements {
        match statement {
            Statement::Act(action) => actions.push(*action),
            Statement::If(branches) => {
                let holds = |branch: &&Branch| branch.condition.is_none_or(|row| configuration.contains(row));
                if let Some(branch) = branches.iter().find(holds) {
                    actions.extend(done(&branch.body, configuration));
                }
            }
        }
    }
    actions
}

/// The rows that a block's conditions name.
pub fn conditions(block: &[Action]) -> impl Iterator<Item = RowNumber> + '_ {
    block.iter().filter_map(|action| match *action {
        Action::If(row) | Action::ElseIf(row) => Some(row),
        _ => None,
    })
}
