//! Comparing reach.

use crate::checking::edge_tables;
use crate::trial::{Outcome, Trial};
use crate::Amount;
use second::random::{any_table, Random};
use second::statement::Statement::{self, *};
use second::table::write;
use second::trees::{each_tree, even, parallel, present, sequence, uneven};

fn labels(random: &mut Random, count: usize) -> Vec<u8> {
    let mut labels: Vec<u8> = (1..=63).collect();
    random.shuffle(&mut labels);
    labels.truncate(count);
    labels
}

/// Pauses in sequence: one more label each round.
pub fn chain(random: &mut Random) -> Statement {
    let count = random.between(1, 63);
    let pauses = labels(random, count).into_iter().map(Pause).collect();
    if random.one_in(2) {
        even(pauses, sequence)
    } else {
        uneven(random, pauses, &[sequence])
    }
}

/// Blocks that only jumps lead to, each from the one before; now and then the chain breaks off or
/// goes to a label without a pause.
pub fn jumps(random: &mut Random) -> Statement {
    let count = random.between(2, 40);
    let order = labels(random, count);
    let mut blocks: Vec<Statement> = order
        .windows(2)
        .map(|pair| {
            let target = if random.one_in(30) { random.between(1, 63) as u8 } else { pair[1] };
            sequence(Pause(pair[0]), Gotopause(target))
        })
        .collect();
    random.shuffle(&mut blocks);
    let blocks = uneven(random, blocks, &[sequence, parallel, present]);
    sequence(Gotopause(order[0]), blocks)
}

/// Parallel blocks that leave by exits of different level, a pause after each try.
pub fn exits(random: &mut Random) -> Statement {
    let tries = random.between(1, 6);
    let mut left = labels(random, 60);
    let blocks = (0..random.between(2, 8))
        .map(|_| {
            let level = random.between(1, tries) as u8;
            let first = if random.one_in(3) { Emit(1) } else { Pause(left.pop().unwrap()) };
            sequence(first, Exit(level))
        })
        .collect();
    let body = uneven(random, blocks, &[parallel, parallel, present, sequence]);
    (0..tries).fold(body, |p, _| sequence(Try(p.into()), Pause(left.pop().unwrap())))
}

/// A statement made for reach.
pub fn made(random: &mut Random) -> Statement {
    match random.below(3) {
        0 => chain(random),
        1 => jumps(random),
        _ => exits(random),
    }
}

/// Every tree of a few nodes over these leaves, S0 being the only signal of inner nodes.
pub fn small_trees(t: &mut Trial, amount: Amount) -> Outcome {
    let leaves = [Nothing, Pause(1), Pause(2), Gotopause(1), Gotopause(2), Exit(1), Exit(2)];
    (1..=amount.tree_nodes()).try_for_each(|n| each_tree(n, &leaves, &mut |p| t.reach(&write(p))))
}

pub fn edges(t: &mut Trial, _: Amount) -> Outcome {
    edge_tables().iter().try_for_each(|table| t.reach(table))
}

pub fn made_tables(t: &mut Trial, amount: Amount) -> Outcome {
    let mut random = Random(3);
    (0..amount.of(8_000)).try_for_each(|_| t.reach(&write(&made(&mut random))))
}

pub fn random_tables(t: &mut Trial, amount: Amount) -> Outcome {
    let mut random = Random(4);
    (0..amount.of(200_000)).try_for_each(|_| t.reach(&any_table(&mut random)))
}
