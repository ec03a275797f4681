//! Codes through tries: every code that a table can have, through every number of tries.

use crate::listing::{resumed, signals, start, ROOMY};
use crate::tool::Asked;
use crate::trial::{Outcome, Trial};
use crate::trimming::AMPLE;
use crate::Amount;
use second::codes::{through_try, Code};
use second::react::{react, Reaction, State};
use second::statement::Statement::{self, *};
use second::step::subsets;
use second::table::{write, MOST_DEPTH};
use second::text::print;
use second::trees::{inside_tries, sequence};

/// A statement inside two groups of tries, and another between them: it is started exactly if the inner
/// tries make 0 of the statement's code. An emit shows that in reactions, a pause in the analysis.
fn caught(outer: usize, inner: usize, p: Statement, behind: &Statement) -> Statement {
    inside_tries(outer, sequence(inside_tries(inner, p), behind.clone()))
}

/// How many tries there can be around a statement of this depth and another behind it.
fn most_tries(depth: usize) -> usize {
    MOST_DEPTH - 1 - depth
}

/// A way for a code through a try.
type Passing = fn(Code) -> Code;

/// The arithmetic of order 3, with what is at least 2 and what is 2 as numbers.
fn by_arithmetic(k: Code) -> Code {
    k - u8::from(k >= 2) - u8::from(k == 2)
}

/// Wrong ways that a programmer might take.
const WRONG: [(&str, Passing); 5] = [
    ("less one only", |k| k - u8::from(k >= 2)),
    ("less one from 3 on, 2 stays", |k| k - u8::from(k >= 3)),
    ("the second less for 1", |k| k - u8::from(k >= 2) - u8::from(k == 1)),
    ("less two from 2 on", |k| k - 2 * u8::from(k >= 2)),
    ("every exit is caught", |k| if k >= 2 { 0 } else { k }),
];

/// What `caught` does at the start under {S0} with a statement of this code and an emit behind it, if
/// codes pass so: what it emits and its code.
fn outcome(passing: Passing, outer: usize, inner: usize, k: Code) -> (u32, Code) {
    let through = |tries: usize, k: Code| (0..tries).fold(k, |k, _| passing(k));
    let inside = through(inner, k);
    (u32::from(inside == 0), through(outer, inside))
}

/// A leaf for each code from 0 on that goes into so many tries.
fn leaves(tries: usize) -> impl Iterator<Item = Statement> {
    [Nothing, Pause(1)].into_iter().chain((1..=tries as u8).map(Exit))
}

/// The second implementation by itself: the rule for every code from 0 to 64, and what comes of every code
/// behind every number of tries, which tells each wrong way apart by what it emits or by its code.
pub fn by_itself(_: Amount) -> Outcome {
    for (k, outside) in [0, 1, 0].into_iter().chain(2..=63).enumerate() {
        let k = k as Code;
        if through_try(k) != outside || by_arithmetic(k) != outside {
            return Err(format!("the code {k} through a try"));
        }
    }
    let mut shown = [false; WRONG.len()];
    let tries = most_tries(1);
    for inner in 0..=tries {
        for (k, leaf) in leaves(tries).enumerate() {
            let (k, outer) = (k as Code, tries - inner);
            let (o, code) = outcome(through_try, outer, inner, k);
            let l = if code == 1 { 1 << 1 } else { 0 };
            let p = caught(outer, inner, leaf, &Emit(0));
            if react(&p, State::Start, 1) != [Reaction { o, k: code, l }].into() {
                return Err(format!("the reactions of {}", print(&p)));
            }
            for (shown, (_, wrong)) in shown.iter_mut().zip(WRONG) {
                *shown |= outcome(wrong, outer, inner, k) != (o, code);
            }
        }
    }
    match shown.iter().position(|shown| !shown) {
        Some(at) => Err(format!("{} never shows", WRONG[at].0)),
        None => Ok(()),
    }
}

/// Visits programs in which each code that a table can have goes through tries: alone, at the start and
/// after a pause; and two of them in one set, the lower one caught by the last of the inner tries or by
/// the first of the outer ones.
fn each_caught(
    amount: Amount,
    behind: &Statement,
    visit: &mut dyn FnMut(&Statement) -> Outcome,
) -> Outcome {
    let (some, deepest) = (amount.step(), MOST_DEPTH - 1);
    leaves(deepest).try_for_each(|leaf| visit(&inside_tries(deepest, leaf)))?;

    let ways: [(usize, fn(Statement) -> Statement); 2] =
        [(1, |leaf| leaf), (2, |leaf| sequence(Pause(2), leaf))];
    for (depth, way) in ways {
        let tries = most_tries(depth);
        for inner in 0..=tries {
            for leaf in leaves(tries).skip(inner % some).step_by(some) {
                visit(&caught(tries - inner, inner, way(leaf), behind))?;
            }
        }
    }
    let tries = most_tries(2);
    for lower in 1..tries {
        for higher in (lower + 1..=tries).skip(lower % some).step_by(some) {
            let both = Present(1, Exit(lower as u8).into(), Exit(higher as u8).into());
            for inner in [lower - 1, lower] {
                visit(&caught(tries - inner, inner, both.clone(), behind))?;
            }
        }
    }
    Ok(())
}

pub fn reach(t: &mut Trial, amount: Amount) -> Outcome {
    each_caught(amount, &Pause(3), &mut |p| t.reach(&write(p)))
}

pub fn trim(t: &mut Trial, amount: Amount) -> Outcome {
    each_caught(amount, &Pause(3), &mut |p| t.trim(&write(p), AMPLE).map(|_| ()))
}

/// The states and signal sets to ask for: the start and its pauses, each with every set of its signals.
fn asked(p: &Statement) -> Vec<Asked> {
    let sets = subsets(signals(p).into()).map(|set| set as u32);
    let states = |set| match p.pauses() {
        0 => vec![start(set)],
        labels => vec![start(set), resumed(set, labels)],
    };
    sets.flat_map(states).collect()
}

pub fn list(t: &mut Trial, amount: Amount) -> Outcome {
    each_caught(amount, &Emit(0), &mut |p| {
        let table = write(p);
        asked(p).into_iter().try_for_each(|asked| t.list(&table, asked, ROOMY).map(|_| ()))
    })
}

pub fn step(t: &mut Trial, amount: Amount) -> Outcome {
    each_caught(amount, &Emit(0), &mut |p| {
        let table = write(p);
        asked(p).into_iter().try_for_each(|asked| t.step(&table, asked).map(|_| ()))
    })
}
