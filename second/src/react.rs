//! Reactions: every (O, k, L) that the rules of Figure 3 derive for a state under an E.

use crate::codes::{through_try, Code};
use crate::met::{met, passed, Event, Event::*, Passage};
use crate::statement::Statement;
use std::collections::BTreeSet;
use Statement::*;

/// The start, or a set of labels resumed from.
#[derive(Clone, Copy, Debug, PartialEq, Eq, PartialOrd, Ord)]
pub enum State {
    Start,
    Resumed(u64),
}

use State::*;

/// (O, k, L). They are ordered by O, then k, then L.
#[derive(Clone, Copy, Debug, PartialEq, Eq, PartialOrd, Ord)]
pub struct Reaction {
    pub o: u32,
    pub k: Code,
    pub l: u64,
}

pub type Reactions = BTreeSet<Reaction>;

const fn reaction(o: u32, k: Code, l: u64) -> Reaction {
    Reaction { o, k, l }
}

/// Every reaction of p in this state under e.
pub fn react(p: &Statement, state: State, e: u32) -> Reactions {
    let mut all = Derived(Reactions::new());
    match p {
        Nothing | Pause(_) | Gotopause(_) | Emit(_) | Exit(_) => all.leaf(p, state, e),
        Signal(signal, p) => all.signal(1 << signal, p, state, e),
        Present(signal, p, q) => match state {
            Start if e >> signal & 1 == 1 => all.each(RulePresent, react(p, Start, e)),
            Start => all.each(RuleAbsent, react(q, Start, e)),
            Resumed(_) => {
                all.each(RulePresentLeft, react(p, state, e));
                all.each(RulePresentRight, react(q, state, e));
            }
        },
        Sequence(p, q) => all.sequence(p, q, state, e),
        Parallel(p, q) => all.parallel(p, q, state, e),
        Loop(p) => all.repeated(p, state, e),
        Try(p) => {
            for r in react(p, state, e) {
                passed(Passage::InReaction, r.k);
                all.add(RuleTry, Reaction { k: through_try(r.k), ..r });
            }
        }
    }
    all.0
}

/// What is being derived for one statement. Each rule carries its name in Figure 3.
struct Derived(Reactions);

impl Derived {
    fn add(&mut self, rule: Event, conclusion: Reaction) {
        met(rule);
        self.0.insert(conclusion);
    }

    /// A rule that passes reactions on as they are.
    fn each(&mut self, rule: Event, reactions: impl IntoIterator<Item = Reaction>) {
        reactions.into_iter().for_each(|r| self.add(rule, r));
    }

    fn leaf(&mut self, p: &Statement, state: State, e: u32) {
        match (p, state) {
            (Nothing, Start) => self.add(RuleNothing, reaction(0, 0, 0)),
            (Pause(label), Start) => self.add(RulePause, reaction(0, 1, 1 << label)),
            (Pause(label), Resumed(l0)) if l0 >> label & 1 == 1 => {
                self.add(RuleResume, reaction(0, 0, 0))
            }
            (Gotopause(label), Start) => self.add(RuleGoto, reaction(0, 1, 1 << label)),
            (Emit(signal), Start) if e >> signal & 1 == 1 => {
                self.add(RuleEmit, reaction(1 << signal, 0, 0))
            }
            (Exit(level), Start) => self.add(RuleExit, reaction(0, level + 1, 0)),
            _ => {}
        }
    }

    fn signal(&mut self, s: u32, p: &Statement, state: State, e: u32) {
        for r in react(p, state, e | s).into_iter().filter(|r| r.o & s != 0) {
            self.add(RuleSignalPlus, Reaction { o: r.o & !s, ..r });
        }
        self.each(RuleSignalMinus, react(p, state, e & !s));
    }

    fn sequence(&mut self, p: &Statement, q: &Statement, state: State, e: u32) {
        let (ended, going) = ended_and_going(react(p, state, e));
        self.each(RuleSeqLeft, going);
        if !ended.is_empty() {
            let after = react(q, Start, e);
            self.joined(RuleSeq, &ended, after);
        }
        if state != Start {
            self.each(RuleSeqRight, react(q, state, e));
        }
    }

    fn repeated(&mut self, p: &Statement, state: State, e: u32) {
        let (ended, going) = ended_and_going(react(p, state, e));
        self.each(RuleNoLoop, going);
        if state != Start && !ended.is_empty() {
            let (_, again) = ended_and_going(react(p, Start, e));
            self.joined(RuleLoop, &ended, again);
        }
    }

    /// A second reaction in the same instant: the emissions of the first are joined to its own.
    fn joined(&mut self, rule: Event, ended: &Reactions, after: Reactions) {
        for second in after {
            for first in ended {
                self.add(rule, Reaction { o: first.o | second.o, ..second });
            }
        }
    }

    fn parallel(&mut self, p: &Statement, q: &Statement, state: State, e: u32) {
        let (left, right) = (react(p, state, e), react(q, state, e));
        for a in &left {
            for b in &right {
                let m = a.k.max(b.k);
                let l = if m == 1 { a.l | b.l } else { 0 };
                self.add(RulePar, reaction(a.o | b.o, m, l));
            }
        }
        if let Resumed(l0) = state {
            if l0 & q.pauses() == 0 {
                self.each(RuleParLeft, left);
            }
            if l0 & p.pauses() == 0 {
                self.each(RuleParRight, right);
            }
        }
    }
}

/// The reactions with code 0, and the others.
fn ended_and_going(reactions: Reactions) -> (Reactions, Reactions) {
    reactions.into_iter().partition(|r| r.k == 0)
}
