//! Document 02, order 1: the operation step, with refusal 17.

use crate::list::{shallow, too_many};
use crate::react::{react, Reaction, State};
use crate::statement::Statement;
use crate::table::Refusal;
use std::collections::BTreeSet;
use Statement::*;

pub const MOST_FREE: u32 = 10;

/// A reaction with the E that it is taken under. They are ordered by E, then by reaction.
#[derive(Clone, Copy, Debug, PartialEq, Eq, PartialOrd, Ord)]
pub struct Step {
    pub e: u32,
    pub r: Reaction,
}

#[derive(Clone, Copy, Debug, PartialEq, Eq)]
pub enum Answer {
    One(Step),
    None,
    Several,
}

/// The signals that are emitted outside a declaration of them, wherever the emit stands.
pub fn emitted_free(p: &Statement) -> u32 {
    match p {
        Emit(signal) => 1 << signal,
        Signal(signal, p) => emitted_free(p) & !(1 << signal),
        _ => p.children().fold(0, |set, child| set | emitted_free(child)),
    }
}

/// Every subset of a set.
pub fn subsets(set: u64) -> impl Iterator<Item = u64> {
    let mut next = Some(0);
    std::iter::from_fn(move || {
        let now = next?;
        next = (now != set).then_some(now.wrapping_sub(set) & set);
        Some(now)
    })
}

/// Every E made of I and none, some or all of these signals.
pub fn made_of(i: u32, signals: u32) -> BTreeSet<u32> {
    subsets(signals.into()).map(|some| i | some as u32).collect()
}

/// The reactions under one E that is equal to I joined with their O.
pub fn steps_under(p: &Statement, state: State, i: u32, e: u32) -> impl Iterator<Item = Step> {
    react(p, state, e).into_iter().filter(move |r| e == i | r.o).map(move |r| Step { e, r })
}

/// What these steps come to.
pub fn answer(steps: &[Step]) -> Answer {
    match steps {
        [] => Answer::None,
        [step] => Answer::One(*step),
        _ => Answer::Several,
    }
}

/// The operation step, from the provided set I. A reaction emits no other signals than those that
/// are emitted outside a declaration of them, so no other E has a step.
pub fn step(bytes: &[u8], i: u32, state: State) -> Result<Answer, Refusal> {
    let p = shallow(bytes)?;
    let free = emitted_free(&p);
    if free.count_ones() > MOST_FREE {
        return Err(17);
    }
    let assumed = made_of(i, free);
    if assumed.iter().any(|e| too_many(&p, state, *e)) {
        return Err(15);
    }
    let steps: Vec<Step> = assumed.into_iter().flat_map(|e| steps_under(&p, state, i, e)).collect();
    Ok(answer(&steps))
}
