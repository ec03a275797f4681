//! Statements built for a purpose: all trees of a few nodes, trees of many parts, chains, choices.

use crate::random::Random;
use crate::statement::Statement;
use Statement::*;

/// What a visit gives: nothing, or what went wrong.
pub type Outcome = Result<(), String>;

/// Visits every tree of n nodes over these leaves, with S0 as the only signal of inner nodes.
pub fn each_tree(
    n: usize,
    leaves: &[Statement],
    visit: &mut dyn FnMut(&Statement) -> Outcome,
) -> Outcome {
    let mut smaller: Vec<Vec<Statement>> = vec![Vec::new(), leaves.to_vec()];
    for k in 2..n {
        let mut trees = Vec::new();
        grow(k, &smaller, &mut |p| {
            trees.push(p.clone());
            Ok(())
        })?;
        smaller.push(trees);
    }
    if n == 1 {
        return leaves.iter().try_for_each(visit);
    }
    grow(n, &smaller, visit)
}

/// Visits every tree of n > 1 nodes, given those of fewer nodes.
fn grow(
    n: usize,
    smaller: &[Vec<Statement>],
    visit: &mut dyn FnMut(&Statement) -> Outcome,
) -> Outcome {
    for p in &smaller[n - 1] {
        visit(&Signal(0, p.clone().into()))?;
        visit(&Loop(p.clone().into()))?;
        visit(&Try(p.clone().into()))?;
    }
    for first in 1..n - 1 {
        for p in &smaller[first] {
            for q in &smaller[n - 1 - first] {
                visit(&Present(0, p.clone().into(), q.clone().into()))?;
                visit(&Sequence(p.clone().into(), q.clone().into()))?;
                visit(&Parallel(p.clone().into(), q.clone().into()))?;
            }
        }
    }
    Ok(())
}

pub type Joiner = fn(Statement, Statement) -> Statement;

pub fn sequence(p: Statement, q: Statement) -> Statement {
    Sequence(p.into(), q.into())
}

pub fn parallel(p: Statement, q: Statement) -> Statement {
    Parallel(p.into(), q.into())
}

pub fn present(p: Statement, q: Statement) -> Statement {
    Present(0, p.into(), q.into())
}

/// The parts in their order, joined in pairs as evenly as they come.
pub fn even(mut parts: Vec<Statement>, join: Joiner) -> Statement {
    while parts.len() > 1 {
        let mut pairs = Vec::new();
        let mut left = parts.into_iter();
        while let Some(p) = left.next() {
            pairs.push(match left.next() {
                Some(q) => join(p, q),
                None => p,
            });
        }
        parts = pairs;
    }
    parts.pop().unwrap()
}

/// The parts in their order, joined at random places by random joiners.
pub fn uneven(random: &mut Random, mut parts: Vec<Statement>, joins: &[Joiner]) -> Statement {
    while parts.len() > 1 {
        let at = random.below(parts.len() - 1);
        let q = parts.remove(at + 1);
        let join = random.pick(joins);
        let p = std::mem::replace(&mut parts[at], Nothing);
        parts[at] = join(p, q);
    }
    parts.pop().unwrap()
}

/// A statement of n nodes that trimming keeps as it is where it is started; it ends.
pub fn kept(n: usize) -> Statement {
    match n {
        1 => Emit(0),
        2 => Signal(0, Emit(0).into()),
        _ if n % 2 == 0 => sequence(kept(2), kept(n - 3)),
        _ => even(vec![Emit(0); n / 2 + 1], sequence),
    }
}

/// A statement of n nodes of which trimming leaves nothing.
pub fn dropped(n: usize) -> Statement {
    if n % 2 == 0 {
        return Signal(0, dropped(n - 1).into());
    }
    even(vec![Nothing; n / 2 + 1], sequence)
}

/// A jump to each label from 1 on, in parallel.
pub fn jumps_to(labels: u8) -> Statement {
    even((1..=labels).map(Gotopause).collect(), parallel)
}

/// Pauses with the labels from 1 on in presents that only jumps to each of them reach: 4 nodes for each but
/// the first. Trimming makes 3 more of each present.
pub fn only_jumped_to(labels: u8) -> Statement {
    sequence(jumps_to(labels), even((1..=labels).map(Pause).collect(), present))
}

/// So many loops around a statement.
pub fn inside_loops(loops: usize, p: Statement) -> Statement {
    (0..loops).fold(p, |p, _| Loop(p.into()))
}

/// So many tries around a statement.
pub fn inside_tries(tries: usize, p: Statement) -> Statement {
    (0..tries).fold(p, |p, _| Try(p.into()))
}

/// Follows p or q, as the local signal says, which may be either.
pub fn choice(p: Statement, q: Statement) -> Statement {
    let signal = 31;
    Signal(signal, Present(signal, sequence(Emit(signal), p).into(), q.into()).into())
}

/// A statement with n different reactions at the start, at most 65.
pub fn choices(n: usize) -> Statement {
    let part = |i: usize| match i {
        0 => Nothing,
        64 => parallel(Gotopause(1), Gotopause(2)),
        _ => Gotopause(i as u8),
    };
    even((0..n).map(part).collect(), choice)
}

/// A statement with one reaction for each of its labels that the state has.
pub fn resumed_choices(labels: std::ops::RangeInclusive<u8>) -> Statement {
    let part = |label| sequence(Pause(label), Gotopause(label));
    even(labels.map(part).collect(), present)
}
