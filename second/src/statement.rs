//! The statements of Figure 1, as trees.

pub type Label = u8;
pub type Level = u8;
pub type Signal = u8;

#[derive(Clone, Debug, PartialEq, Eq)]
pub enum Statement {
    Nothing,
    Pause(Label),
    Gotopause(Label),
    Emit(Signal),
    Exit(Level),
    Signal(Signal, Box<Statement>),
    Present(Signal, Box<Statement>, Box<Statement>),
    Sequence(Box<Statement>, Box<Statement>),
    Parallel(Box<Statement>, Box<Statement>),
    Loop(Box<Statement>),
    Try(Box<Statement>),
}

use Statement::*;

impl Statement {
    pub fn children(&self) -> impl Iterator<Item = &Statement> {
        let (first, second) = match self {
            Signal(_, p) | Loop(p) | Try(p) => (Some(p), None),
            Present(_, p, q) | Sequence(p, q) | Parallel(p, q) => (Some(p), Some(q)),
            Nothing | Pause(_) | Gotopause(_) | Emit(_) | Exit(_) => (None, None),
        };
        first.into_iter().chain(second).map(|p| &**p)
    }

    pub fn nodes(&self) -> usize {
        1 + self.children().map(Statement::nodes).sum::<usize>()
    }

    /// The depth of the deepest node; the root has depth 1.
    pub fn depth(&self) -> usize {
        1 + self.children().map(Statement::depth).max().unwrap_or(0)
    }

    /// The labels of the pauses in it; a gotopause doesn't count.
    pub fn pauses(&self) -> u64 {
        match self {
            Pause(label) => 1 << label,
            _ => self.children().fold(0, |labels, p| labels | p.pauses()),
        }
    }

    /// Whether an emit or present in it names the signal.
    pub fn names(&self, signal: Signal) -> bool {
        match self {
            Emit(s) | Present(s, _, _) if *s == signal => true,
            _ => self.children().any(|p| p.names(signal)),
        }
    }

    /// The largest number of signal statements inside one another.
    pub fn nested_signals(&self) -> usize {
        let here = usize::from(matches!(self, Signal(_, _)));
        here + self.children().map(Statement::nested_signals).max().unwrap_or(0)
    }
}
