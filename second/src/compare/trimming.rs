//! Comparing trim.

use crate::checking::edge_tables;
use crate::reaching::made;
use crate::trial::{Outcome, Trial, MOST_KEPT};
use crate::Amount;
use second::random::{any_table, sized_table, Random};
use second::statement::Statement::{self, *};
use second::table::{length, write, MOST_DEPTH, MOST_NODES};
use second::text::parse;
use second::trees::{
    dropped, each_tree, jumps_to, kept, only_jumped_to, parallel, present, sequence, uneven,
};
use second::trim::trim_program;

/// A buffer that holds every table.
pub const AMPLE: usize = 1282;

/// Every tree of a few nodes over these leaves, S0 being the only signal of inner nodes.
pub fn small_trees(t: &mut Trial, amount: Amount) -> Outcome {
    let leaves =
        [Nothing, Pause(1), Pause(2), Gotopause(1), Gotopause(2), Emit(0), Exit(1), Exit(2)];
    (1..=amount.tree_nodes()).try_for_each(|n| {
        each_tree(n, &leaves, &mut |p| {
            let table = write(p);
            t.trim(&table, table.len() + 10).map(|_| ())
        })
    })
}

/// Presents that are only resumed, each label reached by a jump. They grow where they are trimmed.
fn resumed_presents(random: &mut Random) -> Statement {
    let count = random.between(2, 20) as u8;
    let blocks = (1..=count)
        .map(|label| match random.below(4) {
            0 => sequence(Pause(label), Exit(1)),
            1 => Try(sequence(Pause(label), Exit(random.between(1, 2) as u8)).into()),
            2 => sequence(Pause(label), Gotopause(label)),
            _ => Pause(label),
        })
        .collect();
    let joins = [present, present, present, sequence, parallel];
    Try(sequence(jumps_to(count), uneven(random, blocks, &joins)).into())
}

/// Check's edge tables, and programs whose trimmed form ends up around 1,024 nodes, and around depth 60.
pub fn edges(t: &mut Trial, amount: Amount) -> Outcome {
    for table in edge_tables() {
        t.trim(&table, AMPLE)?;
    }
    let mut random = Random(5);
    for _ in 0..amount.of(60) {
        let core = resumed_presents(&mut random);
        let (nodes, depth) = (trim_program(&core).nodes(), trim_program(&core).depth());
        for wanted in MOST_NODES - 2..=MOST_NODES + 3 {
            let p = sequence(kept(wanted - nodes - 1), core.clone());
            at_lengths(t, &p)?;
        }
        for wanted in MOST_DEPTH - 2..=MOST_DEPTH + 3 {
            let around = wanted.saturating_sub(depth);
            let p = (0..around).fold(core.clone(), |p, _| sequence(Emit(0), p));
            at_lengths(t, &p)?;
        }
    }
    Ok(())
}

/// Trims into buffers that are empty, one short, just long enough and ample.
fn at_lengths(t: &mut Trial, p: &Statement) -> Outcome {
    let (table, needed) = (write(p), length(trim_program(p).nodes()));
    [0, needed - 1, needed, needed + 1, AMPLE]
        .into_iter()
        .try_for_each(|buffer| t.trim(&table, buffer).map(|_| ()))
}

/// Random tables with buffers of every length from 0 to two more than needed.
pub fn buffers(t: &mut Trial, amount: Amount) -> Outcome {
    let mut random = Random(6);
    for i in 0..amount.of(1_500) {
        let n = if i % 100 == 0 { random.between(100, 400) } else { random.between(1, 30) };
        let table = sized_table(&mut random, n);
        let needed = t.trim(&table, AMPLE)?.map_or(table.len(), |trimmed| trimmed.len());
        (0..=needed + 2).try_for_each(|buffer| t.trim(&table, buffer).map(|_| ()))?;
    }
    Ok(())
}

/// Programs and the share of them that is kept, in thousandths and the remainder: the most that any table
/// keeps, the least, the whole, some that become shorter and some that become longer.
pub fn shares() -> Vec<(Statement, usize, usize)> {
    vec![
        (only_jumped_to(63), MOST_KEPT as usize, 9),
        (only_jumped_to(62), 1_740, 220),
        (dropped(MOST_NODES), 0, 1_000),
        (dropped(1_001), 0, 1_000),
        (dropped(1_000), 1, 0),
        (dropped(999), 1, 1),
        (Nothing, 1_000, 0),
        (kept(MOST_NODES), 1_000, 0),
        (sequence(kept(MOST_NODES - 2), Nothing), 998, 48),
        (parse("try try exit 1 ; emit S1 || exit 2 end end"), 714, 2),
        (sequence(Emit(0), Nothing), 333, 1),
        (only_jumped_to(1), 1_000, 0),
        (only_jumped_to(2), 1_428, 4),
    ]
}

/// The edges of the share that is kept, into buffers that hold the table and that don't; each number of labels
/// that only jumps reach; and of 3 to 1,024 nodes any number kept but for the last two.
pub fn kept_shares(t: &mut Trial, amount: Amount) -> Outcome {
    for (p, _, _) in shares() {
        at_lengths(t, &p)?;
    }
    for labels in 1..=63 {
        t.trim(&write(&only_jumped_to(labels)), AMPLE)?;
    }
    let mut random = Random(32);
    for _ in 0..amount.of(3_000) {
        let before = random.between(3, MOST_NODES);
        let after = random.between(1, before - 2);
        let p = sequence(kept(after), dropped(before - after - 1));
        t.trim(&write(&p), AMPLE)?;
    }
    Ok(())
}

pub fn random_tables(t: &mut Trial, amount: Amount) -> Outcome {
    let mut random = Random(7);
    for _ in 0..amount.of(150_000) {
        let table = match random.below(10) {
            0 => write(&made(&mut random)),
            1 => write(&resumed_presents(&mut random)),
            _ => any_table(&mut random),
        };
        let buffer = if random.one_in(3) { random.below(2 * table.len() + 2) } else { AMPLE };
        t.trim(&table, buffer)?;
    }
    Ok(())
}
