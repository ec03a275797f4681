//! Trimming: Figure 7 with the two changes of document 01, and the operation trim.

use crate::codes::{d, rounds, s, Labels, Qualified};
use crate::met::{met, Event, Event::*};
use crate::statement::{Level, Statement};
use crate::table::{length, read, write, Refusal, MOST_DEPTH, MOST_NODES};
use Statement::*;

/// Whether 0 is in C: d(R, p), joined with s(p) where p may be started.
fn may_end(r: &Labels, b: bool, p: &Statement) -> bool {
    d(r, p).contains(&Qualified::Zero) || b && s(p).contains(&Qualified::Zero)
}

/// p trimmed; b says whether it may be started, not only resumed.
pub fn trim(r: &Labels, b: bool, p: &Statement) -> Statement {
    match p {
        Nothing => Nothing,
        Emit(_) | Exit(_) | Gotopause(_) if b => p.clone(),
        Emit(_) => with(EmitDropped, Nothing),
        Exit(_) => with(ExitDropped, Nothing),
        Gotopause(_) => with(GotopauseDropped, Nothing),
        Pause(_) if b => p.clone(),
        Pause(label) if r.contains(label) => with(PauseKeptByR, p.clone()),
        Pause(_) => with(PauseDropped, Nothing),
        Sequence(p, q) => {
            let started = may_end(r, b, p);
            met(if started { SecondStarted } else { SecondResumed });
            join(Sequence, trim(r, b, p), trim(r, started, q))
        }
        Parallel(p, q) => join(Parallel, trim(r, b, p), trim(r, b, q)),
        Loop(p) if may_end(r, b, p) => with(LoopKept, Loop(trim(r, true, p).into())),
        Loop(p) => with(LoopGone, trim(r, b, p)),
        Signal(signal, p) => {
            let body = trim(r, b, p);
            if body.names(*signal) {
                with(SignalKept, Signal(*signal, body.into()))
            } else {
                with(SignalDropped, body)
            }
        }
        Present(signal, p, q) if b => {
            with(PresentStarted, Present(*signal, trim(r, true, p).into(), trim(r, true, q).into()))
        }
        Present(_, p, q) => resumed_present(r, p, q),
        Try(p) => {
            let body = trim(r, b, p);
            if has_exit_to(&body, 1) {
                with(TryKept, Try(body.into()))
            } else {
                with(TryLowered, lowered(&body))
            }
        }
    }
}

/// A present that is only resumed: the first change.
fn resumed_present(r: &Labels, p: &Statement, q: &Statement) -> Statement {
    let (then, otherwise) = (trim(r, false, p), trim(r, false, q));
    if otherwise == Nothing {
        with(PresentThenAlone, then)
    } else if !d(r, p).contains(&Qualified::Zero) {
        with(PresentInSequence, join(Sequence, then, otherwise))
    } else {
        let skipped = Sequence(Exit(1).into(), raised(&otherwise).into());
        with(PresentWithTry, Sequence(then.into(), Try(skipped.into()).into()))
    }
}

/// Notes the case for the tests.
fn with(case: Event, p: Statement) -> Statement {
    met(case);
    p
}

/// Two parts joined by ; or ||, a part that is nothing being dropped.
fn join(
    make: fn(Box<Statement>, Box<Statement>) -> Statement,
    p: Statement,
    q: Statement,
) -> Statement {
    match (p, q) {
        (Nothing, part) | (part, Nothing) => with(PartsDropped, part),
        (p, q) => make(p.into(), q.into()),
    }
}

/// Whether an exit in p ends at the try that the level names, seen from the root of p.
fn has_exit_to(p: &Statement, level: Level) -> bool {
    match p {
        Exit(d) => *d == level,
        Try(p) => has_exit_to(p, level + 1),
        _ => p.children().any(|child| has_exit_to(child, level)),
    }
}

/// p with every exit changed; `change` gets its level and the number of tries of p around it.
fn exits(p: &Statement, tries: Level, change: fn(Level, Level) -> Level) -> Statement {
    let child = |p: &Statement| Box::new(exits(p, tries, change));
    match p {
        Exit(level) => Exit(change(*level, tries)),
        Try(p) => Try(exits(p, tries + 1, change).into()),
        Signal(signal, p) => Signal(*signal, child(p)),
        Present(signal, p, q) => Present(*signal, child(p), child(q)),
        Sequence(p, q) => Sequence(child(p), child(q)),
        Parallel(p, q) => Parallel(child(p), child(q)),
        Loop(p) => Loop(child(p)),
        Nothing | Pause(_) | Gotopause(_) | Emit(_) => p.clone(),
    }
}

/// The exits that leave p are raised by one.
fn raised(p: &Statement) -> Statement {
    exits(p, 0, |level, tries| {
        if level > tries {
            met(ExitRaised);
            level + 1
        } else {
            level
        }
    })
}

/// The exits that leave p, none of them to the first try around it, are lowered by one.
fn lowered(p: &Statement) -> Statement {
    exits(p, 0, |level, tries| {
        if level > tries {
            met(ExitLowered);
            level - 1
        } else {
            level
        }
    })
}

/// A whole program trimmed: R is reach's answer, the root may be started.
pub fn trim_program(p: &Statement) -> Statement {
    trim(&rounds(p).0, true, p)
}

/// The share that was kept: "the quotient and the remainder of 1,000 × (nodes after) divided by
/// (nodes before)".
#[derive(Clone, Copy, Debug, PartialEq, Eq)]
pub struct Share {
    pub thousandths: usize,
    pub remainder: usize,
}

pub fn share_of(before: usize, after: usize) -> Share {
    Share { thousandths: 1_000 * after / before, remainder: 1_000 * after % before }
}

/// What trim gives: the node count, the table, and the share that was kept.
#[derive(Clone, Debug, PartialEq, Eq)]
pub struct Trimmed {
    pub nodes: usize,
    pub table: Vec<u8>,
    pub share: Share,
}

/// The operation trim, for an output buffer of so many bytes.
pub fn trim_table(bytes: &[u8], buffer: usize) -> Result<Trimmed, Refusal> {
    let p = read(bytes)?;
    let trimmed = trim_program(&p);
    let n = trimmed.nodes();
    if n > MOST_NODES || trimmed.depth() > MOST_DEPTH {
        return Err(12);
    }
    if buffer < length(n) {
        return Err(13);
    }
    Ok(Trimmed { nodes: n, table: write(&trimmed), share: share_of(p.nodes(), n) })
}
