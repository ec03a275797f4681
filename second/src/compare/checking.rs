//! Comparing check.

use crate::trial::{Outcome, Trial};
use crate::Amount;
use second::random::{any_table, Random};
use second::statement::Statement::*;
use second::table::{length, pack, write};
use second::trees::{each_tree, inside_loops, kept};

/// A header for n nodes, then these nodes (kind, operand), in bytes as many as they need.
pub fn raw(n: usize, nodes: &[(usize, usize)]) -> Vec<u8> {
    let mut fields = vec![(1, 4), (n, 12)];
    for &(kind, operand) in nodes {
        fields.extend([(kind, 4), (operand, 6)]);
    }
    pack(&fields, length(nodes.len()))
}

/// The header of one node before every two bytes; from 100 percent on also each header that differs
/// in one bit before every two bytes, and every header alone and before up to three zero bytes; a
/// sample of headers that differ in two bits.
pub fn one_node(t: &mut Trial, amount: Amount) -> Outcome {
    let header = 0x1001_u16;
    let step = amount.step();
    for flipped in std::iter::once(0).chain((0..16).map(|bit| 1 << bit)) {
        for rest in (0..=u16::MAX).step_by(if flipped == 0 { 1 } else { step }) {
            let [[a, b], [c, d]] = [(header ^ flipped).to_be_bytes(), rest.to_be_bytes()];
            t.check(&[a, b, c, d])?;
        }
    }
    let mut random = Random(1);
    for first in 0..16 {
        for second in 0..first {
            for _ in 0..50 {
                let flipped = header ^ (1 << first) ^ (1 << second);
                let [[a, b], [c, d]] = [flipped, random.next() as u16].map(u16::to_be_bytes);
                t.check(&[a, b, c, d])?;
            }
        }
    }
    for header in (0..=u16::MAX).step_by(step) {
        let [a, b] = header.to_be_bytes();
        for bytes in [&[][..], &[a], &[a, b], &[a, b, 0], &[a, b, 0, 0], &[a, b, 0, 0, 0]] {
            t.check(bytes)?;
        }
    }
    Ok(())
}

/// Every tree of a few nodes over these leaves, S0 being the only signal of inner nodes, also those
/// with a label twice or an exit too high.
pub fn small_trees(t: &mut Trial, amount: Amount) -> Outcome {
    let leaves =
        [Nothing, Pause(1), Pause(2), Gotopause(1), Gotopause(63), Emit(31), Exit(1), Exit(2)];
    (1..=amount.tree_nodes()).try_for_each(|n| each_tree(n, &leaves, &mut |p| t.check(&write(p))))
}

/// The edges that document 01 names for check, with what stands beside them.
pub fn edge_tables() -> Vec<Vec<u8>> {
    [length_edges(), depth_edges(), node_edges()].concat()
}

/// The node count, the length, each padding bit.
fn length_edges() -> Vec<Vec<u8>> {
    let mut tables = vec![vec![]];
    for n in (1..=12).chain(1018..=1024) {
        let table = write(&kept(n));
        for bytes in table.len().saturating_sub(3)..table.len() {
            tables.push(table[..bytes].to_vec());
        }
        for more in 1..=3 {
            tables.push([&table[..], &vec![0; more]].concat());
        }
        for bit in 16 + 10 * n..8 * table.len() {
            let mut padded = table.clone();
            padded[bit / 8] |= 128 >> (bit % 8);
            tables.push(padded);
        }
        tables.push(table);
    }
    for n in [0, 1, 1023, 1024, 1025, 1026, 2047, 2048, 4095] {
        for nodes in [n, 1024, 1025] {
            tables.push(raw(n, &vec![(0, 0); nodes]));
        }
    }
    tables
}

/// The depth, and the order of refusals below it.
fn depth_edges() -> Vec<Vec<u8>> {
    let mut tables = Vec::new();
    for depth in 58..=62 {
        tables.push(write(&inside_loops(depth - 1, Nothing)));
        for last in [(0, 0), (0, 1), (1, 0), (1, 1), (4, 1), (3, 32), (9, 0), (11, 0), (15, 63)] {
            let mut nodes = vec![(7, 0), (1, 1)];
            nodes.extend(vec![(9, 0); depth - 2]);
            nodes.push(last);
            tables.push(raw(nodes.len(), &nodes));
        }
    }
    tables
}

/// Exit levels with a try beside and tries around; every kind and operand inside a try, whole, cut
/// short and with nodes left over.
fn node_edges() -> Vec<Vec<u8>> {
    let mut tables = Vec::new();
    for tries in 0..8 {
        for level in 1..10 {
            let beside = vec![(7, 0), (10, 0), (0, 0)];
            let nodes = [beside, vec![(10, 0); tries], vec![(4, level)]].concat();
            tables.push(raw(nodes.len(), &nodes));
        }
    }
    for kind in 0..16 {
        for operand in 0..64 {
            let nodes = [(10, 0), (kind, operand), (0, 0), (0, 0), (15, 63)];
            for count in 2..=5 {
                tables.push(raw(count, &nodes[..count]));
            }
        }
    }
    tables
}

pub fn edges(t: &mut Trial, _: Amount) -> Outcome {
    edge_tables().iter().try_for_each(|table| t.check(table))
}

/// Random tables, valid and damaged.
pub fn random_tables(t: &mut Trial, amount: Amount) -> Outcome {
    let mut random = Random(2);
    (0..amount.of(1_000_000)).try_for_each(|_| t.check(&any_table(&mut random)))
}
