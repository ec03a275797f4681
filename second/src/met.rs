//! Counts how often each rule of Figure 3 fired, each case of trimming occurred and each code went
//! through a try while the second implementation answered a compared call, so that the tests can tell
//! that none was missed. What it computes to make a test is not counted. It takes no part in any answer.

use std::cell::{Cell, RefCell};

macro_rules! events {
    (rules: $($rule:ident)*; cases: $($case:ident)*;) => {
        #[derive(Clone, Copy, Debug)]
        pub enum Event { $($rule,)* $($case,)* }
        pub const RULES: &[Event] = &[$(Event::$rule),*];
        pub const CASES: &[Event] = &[$(Event::$case),*];
    };
}

events! {
    rules:
        RuleNothing RulePause RuleResume RuleGoto RuleEmit RuleExit
        RuleSignalPlus RuleSignalMinus
        RulePresent RuleAbsent RulePresentLeft RulePresentRight
        RuleSeq RuleSeqLeft RuleSeqRight
        RuleNoLoop RuleLoop
        RulePar RuleParLeft RuleParRight
        RuleTry;
    cases:
        EmitDropped ExitDropped GotopauseDropped PauseDropped PauseKeptByR
        SecondStarted SecondResumed PartsDropped
        LoopKept LoopGone
        SignalKept SignalDropped
        PresentStarted PresentThenAlone PresentInSequence PresentWithTry ExitRaised
        TryKept TryLowered ExitLowered;
}

const EVENTS: usize = RULES.len() + CASES.len();

/// How a code goes through a try: in a set of the analysis, or as that of a reaction.
#[derive(Clone, Copy, Debug)]
pub enum Passage {
    InSet,
    InReaction,
}

/// The codes that a table can have are 0 to 60, since no exit stands inside more than 59 tries.
pub const CODES: usize = 61;

thread_local! {
    static COUNTS: RefCell<[u64; EVENTS]> = const { RefCell::new([0; EVENTS]) };
    static PASSED: RefCell<[[u64; CODES]; 2]> = const { RefCell::new([[0; CODES]; 2]) };
    static COUNTING: Cell<bool> = const { Cell::new(false) };
}

pub fn met(event: Event) {
    if COUNTING.get() {
        COUNTS.with_borrow_mut(|counts| counts[event as usize] += 1);
    }
}

/// Counts a code of a table that goes through a try.
pub fn passed(passage: Passage, code: u8) {
    if COUNTING.get() {
        PASSED.with_borrow_mut(|counts| counts[passage as usize][usize::from(code)] += 1);
    }
}

/// Counts what is met while `answer` runs.
pub fn counting<T>(answer: impl FnOnce() -> T) -> T {
    COUNTING.set(true);
    let answer = answer();
    COUNTING.set(false);
    answer
}

pub fn count(event: Event) -> u64 {
    COUNTS.with_borrow(|counts| counts[event as usize])
}

/// How often each code went through a try.
pub fn codes_passed(passage: Passage) -> [u64; CODES] {
    PASSED.with_borrow(|counts| counts[passage as usize])
}

pub fn clear() {
    COUNTS.with_borrow_mut(|counts| counts.fill(0));
    PASSED.with_borrow_mut(|counts| *counts = [[0; CODES]; 2]);
}
