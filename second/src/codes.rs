//! Qualified codes (Figures 5 and 6), the rounds, and the operation reach.

use crate::met::{passed, Passage};
use crate::statement::{Label, Statement};
use crate::table::{read, Refusal};
use std::collections::BTreeSet;
use Statement::*;

pub type Code = u8;

/// A qualified code: 0, 1 with a label, or 2 and up. They are ordered by their code.
#[derive(Clone, Copy, Debug, PartialEq, Eq, PartialOrd, Ord)]
pub enum Qualified {
    Zero,
    One(Label),
    Higher(Code),
}

use Qualified::*;

impl Qualified {
    /// The code without the label.
    pub fn code(self) -> Code {
        match self {
            Zero => 0,
            One(_) => 1,
            Higher(code) => code,
        }
    }
}

pub type Codes = BTreeSet<Qualified>;
pub type Labels = BTreeSet<Label>;

/// The code outside a try for the code k of its body.
pub fn through_try(k: Code) -> Code {
    match k {
        0 | 2 => 0,
        1 => 1,
        _ => k - 1,
    }
}

fn all_through_try(codes: &Codes) -> Codes {
    codes.iter().for_each(|c| passed(Passage::InSet, c.code()));
    codes
        .iter()
        .map(|&c| match (c, through_try(c.code())) {
            (One(label), _) => One(label),
            (_, 0) => Zero,
            (_, k) => Higher(k),
        })
        .collect()
}

fn without_zero(mut codes: Codes) -> Codes {
    codes.remove(&Zero);
    codes
}

fn union(a: Codes, b: Codes) -> Codes {
    a.into_iter().chain(b).collect()
}

/// max(K, K'): the codes of each that are not below every code of the other.
fn max(a: &Codes, b: &Codes) -> Codes {
    let over = |a: &Codes, b: &Codes| -> Codes {
        a.iter().copied().filter(|k| b.iter().any(|l| l.code() <= k.code())).collect()
    };
    union(over(a, b), over(b, a))
}

/// Start codes, Figure 5.
pub fn s(p: &Statement) -> Codes {
    match p {
        Nothing | Emit(_) => Codes::from([Zero]),
        Pause(label) | Gotopause(label) => Codes::from([One(*label)]),
        Exit(level) => Codes::from([Higher(level + 1)]),
        Signal(_, p) => s(p),
        Present(_, p, q) => union(s(p), s(q)),
        Sequence(p, q) => {
            let first = s(p);
            if first.contains(&Zero) {
                union(without_zero(first), s(q))
            } else {
                first
            }
        }
        Parallel(p, q) => max(&s(p), &s(q)),
        Loop(p) => without_zero(s(p)),
        Try(p) => all_through_try(&s(p)),
    }
}

/// Resumed codes d(R, p), Figure 6.
pub fn d(r: &Labels, p: &Statement) -> Codes {
    match p {
        Nothing | Gotopause(_) | Emit(_) | Exit(_) => Codes::new(),
        Pause(label) if r.contains(label) => Codes::from([Zero]),
        Pause(_) => Codes::new(),
        Signal(_, p) => d(r, p),
        Present(_, p, q) | Parallel(p, q) => union(d(r, p), d(r, q)),
        Sequence(p, q) => {
            let first = d(r, p);
            if first.contains(&Zero) {
                union(union(without_zero(first), s(q)), d(r, q))
            } else {
                union(first, d(r, q))
            }
        }
        Loop(p) => {
            let body = d(r, p);
            if body.contains(&Zero) {
                without_zero(union(body, s(p)))
            } else {
                body
            }
        }
        Try(p) => all_through_try(&d(r, p)),
    }
}

/// The labels of the codes 1, whether or not a pause has them.
pub fn labels_of(codes: &Codes) -> Labels {
    codes.iter().filter_map(|c| if let One(label) = c { Some(*label) } else { None }).collect()
}

/// The rounds: R and the number of rounds.
pub fn rounds(p: &Statement) -> (Labels, usize) {
    let pauses = p.pauses();
    let mut r = Labels::new();
    let mut i = 1;
    loop {
        let mut next = labels_of(&union(s(p), d(&r, p)));
        next.retain(|label| pauses >> label & 1 == 1);
        if next == r {
            return (r, i);
        }
        r = next;
        i += 1;
    }
}

/// A set of labels as a number, bit n for label n.
pub fn as_number(labels: &Labels) -> u64 {
    labels.iter().fold(0, |number, label| number | 1 << label)
}

/// What reach answers: s (whether it has 0, and its labels), R and the number of rounds.
#[derive(Debug, PartialEq, Eq)]
pub struct Reached {
    pub ends: bool,
    pub start: Labels,
    pub r: Labels,
    pub rounds: usize,
}

/// The operation reach.
pub fn reach(bytes: &[u8]) -> Result<Reached, Refusal> {
    let p = read(bytes)?;
    let start = s(&p);
    assert!(start.iter().all(|c| c.code() < 2), "a whole table has no higher code");
    let (r, rounds) = rounds(&p);
    Ok(Reached { ends: start.contains(&Zero), start: labels_of(&start), r, rounds })
}
