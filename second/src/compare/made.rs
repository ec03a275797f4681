//! Calls made for each refusal, so that none is met by luck alone, and some that are accepted. The
//! faults are planted in these.

use crate::checking::raw;
use crate::listing::{inside_signals, resumed, start, ROOMY};
use crate::stepping::examples;
use crate::trial::{Outcome, Trial};
use crate::trimming::{shares, AMPLE};
use crate::Amount;
use second::statement::Statement::*;
use second::table::{length, write, MOST_DEPTH, MOST_NODES};
use second::text::parse;
use second::trees::*;

/// Tables with the refusal that check gives for each, 0 where it accepts.
pub fn tables() -> Vec<(u32, Vec<u8>)> {
    let nodes = |nodes: &[(usize, usize)]| raw(nodes.len(), nodes);
    vec![
        (1, vec![]),
        (1, vec![0x10]),
        (2, vec![0, 0]),
        (2, vec![0x20, 1, 0, 0]),
        (3, vec![0x10, 0]),
        (3, raw(1025, &[(0, 0); 1025])),
        (4, vec![0x10, 1, 0]),
        (4, vec![0x10, 1, 0, 0, 0]),
        (5, vec![0x10, 1, 0, 1]),
        (5, vec![0x10, 1, 0, 32]),
        (6, nodes(&[(11, 0)])),
        (6, nodes(&[(9, 0), (15, 63)])),
        (7, nodes(&[(1, 0)])),
        (7, nodes(&[(9, 0), (3, 32)])),
        (8, write(&inside_loops(MOST_DEPTH, Nothing))),
        (9, nodes(&[(4, 1)])),
        (9, nodes(&[(10, 0), (4, 2)])),
        (10, nodes(&[(7, 0), (1, 5), (1, 5)])),
        (11, nodes(&[(7, 0), (0, 0)])),
        (11, nodes(&[(0, 0), (0, 0)])),
        (0, write(&Nothing)),
        (0, write(&parse("try 1:pause ; exit 1 || 2:pause ; 3:pause end"))),
        (0, write(&inside_loops(MOST_DEPTH - 1, Pause(1)))),
    ]
}

/// A program whose trimmed form has so many nodes. Of two labels only jumped to trimming makes 10 nodes
/// of 7, and depth 5 of 3.
fn trimmed_nodes(n: usize) -> Vec<u8> {
    write(&sequence(kept(n - 11), only_jumped_to(2)))
}

/// A program whose trimmed form has this depth.
fn trimmed_depth(depth: usize) -> Vec<u8> {
    write(&(5..depth).fold(only_jumped_to(2), |p, _| sequence(Emit(0), p)))
}

/// Tables that trim refuses with 12, by their nodes and by their depth, and those just below, which
/// it accepts.
pub fn grown_tables() -> Vec<(u32, Vec<u8>)> {
    vec![
        (12, trimmed_nodes(MOST_NODES + 1)),
        (12, trimmed_nodes(MOST_NODES + 3)),
        (12, trimmed_depth(MOST_DEPTH + 1)),
        (12, trimmed_depth(MOST_DEPTH + 2)),
        (0, trimmed_nodes(MOST_NODES)),
        (0, trimmed_depth(MOST_DEPTH)),
    ]
}

pub fn check(t: &mut Trial, _: Amount) -> Outcome {
    tables().iter().try_for_each(|(_, table)| t.check(table))
}

pub fn reach(t: &mut Trial, _: Amount) -> Outcome {
    tables().iter().try_for_each(|(_, table)| t.reach(table))
}

/// Refusals 1 to 12 with a buffer that is long enough and with a short one, which gives 13 where
/// the table is accepted; the edges of the share that is kept.
pub fn trim(t: &mut Trial, _: Amount) -> Outcome {
    for (_, table) in [tables(), grown_tables()].concat() {
        for buffer in [AMPLE, length(1) - 1] {
            t.trim(&table, buffer)?;
        }
    }
    shares().iter().try_for_each(|(p, _, _)| t.trim(&write(p), AMPLE).map(|_| ()))
}

/// Check's refusals; 14; 15 of the table's own list and of an inner one; 16 by each buffer; 0, 1, 3
/// and 64 reactions.
pub fn list(t: &mut Trial, _: Amount) -> Outcome {
    for (_, table) in tables() {
        t.list(&table, start(0), ROOMY)?;
        t.list(&table, resumed(0, u64::MAX), ROOMY)?;
    }
    t.list(&write(&inside_signals(13, Nothing)), start(0), ROOMY)?;

    let side = |labels| resumed_choices(labels);
    let many = parallel(side(1..=5), side(6..=18));
    let inner = Try(sequence(many.clone(), Exit(1)).into());
    for p in [&many, &inner] {
        t.list(&write(p), resumed(0, u64::MAX), ROOMY)?;
    }
    let few = write(&choices(3));
    for (buffer, width) in [4, 1, 8].into_iter().enumerate() {
        let mut lent = ROOMY;
        lent[buffer] = 3 * width - 1;
        t.list(&few, start(u32::MAX), lent)?;
    }
    t.list(&few, start(u32::MAX), ROOMY)?;
    t.list(&write(&parallel(side(1..=8), side(9..=16))), resumed(0, u64::MAX), ROOMY)?;
    Ok(())
}

/// Check's refusals; the worked examples, which have 14, 15 and 17 and every answer; signals provided
/// that the table does not name; several under one E.
pub fn step(t: &mut Trial, _: Amount) -> Outcome {
    for (_, table) in tables() {
        t.step(&table, start(0))?;
        t.step(&table, resumed(0, u64::MAX))?;
    }
    for (p, asked, _) in examples() {
        t.step(&write(&p), asked)?;
    }
    t.step(&write(&parse("1:pause ; emit S0")), resumed(1 << 31, 3))?;
    t.step(&write(&parse("1:pause ; 2:pause")), resumed(0, 6))?;
    Ok(())
}
