//! The node table: reading with refusals 1 to 11, check, and writing.

use crate::statement::{Label, Statement};
use std::collections::BTreeSet;
use std::ops::RangeInclusive;
use Statement::*;

pub type Refusal = u32;

pub const MOST_NODES: usize = 1024;
pub const MOST_DEPTH: usize = 60;

/// The bytes of a table of n nodes.
pub fn length(n: usize) -> usize {
    2 + (10 * n).div_ceil(8)
}

/// The operands that a kind allows; none for kinds 11 to 15.
fn operands(kind: u8) -> Option<RangeInclusive<u8>> {
    match kind {
        0 | 7..=10 => Some(0..=0),
        1 | 2 | 4 => Some(1..=63),
        3 | 5 | 6 => Some(0..=31),
        _ => None,
    }
}

/// `width` bits from bit `from` on, the most significant bit of a byte being its first.
pub fn bits(bytes: &[u8], from: usize, width: usize) -> usize {
    (from..from + width).fold(0, |number, i| {
        let bit = bytes[i / 8] >> (7 - i % 8) & 1;
        2 * number + usize::from(bit)
    })
}

/// The statement that a table holds, or the first refusal met.
pub fn read(bytes: &[u8]) -> Result<Statement, Refusal> {
    if bytes.len() < 2 {
        return Err(1);
    }
    if bits(bytes, 0, 4) != 1 {
        return Err(2);
    }
    let n = bits(bytes, 4, 12);
    if n < 1 || n > MOST_NODES {
        return Err(3);
    }
    if bytes.len() != length(n) {
        return Err(4);
    }
    let end = 16 + 10 * n;
    if bits(bytes, end, 8 * bytes.len() - end) != 0 {
        return Err(5);
    }
    let mut reader = Reader { bytes, n, next: 0, used: BTreeSet::new() };
    let statement = reader.statement(1, 0)?;
    if reader.next != n {
        return Err(11);
    }
    Ok(statement)
}

/// Goes over the nodes in table order.
struct Reader<'a> {
    bytes: &'a [u8],
    n: usize,
    next: usize,
    used: BTreeSet<Label>,
}

impl Reader<'_> {
    /// The statement whose root is the next node, at this depth and with so many tries around it.
    fn statement(&mut self, depth: usize, tries: u8) -> Result<Statement, Refusal> {
        if self.next == self.n {
            return Err(11);
        }
        let at = 16 + 10 * self.next;
        self.next += 1;
        let kind = bits(self.bytes, at, 4) as u8;
        let operand = bits(self.bytes, at + 4, 6) as u8;

        let Some(allowed) = operands(kind) else { return Err(6) };
        if !allowed.contains(&operand) {
            return Err(7);
        }
        if depth > MOST_DEPTH {
            return Err(8);
        }
        if kind == 4 && operand > tries {
            return Err(9);
        }
        if kind == 1 && !self.used.insert(operand) {
            return Err(10);
        }
        let mut child = |tries| self.statement(depth + 1, tries).map(Box::new);
        Ok(match kind {
            0 => Nothing,
            1 => Pause(operand),
            2 => Gotopause(operand),
            3 => Emit(operand),
            4 => Exit(operand),
            5 => Signal(operand, child(tries)?),
            6 => Present(operand, child(tries)?, child(tries)?),
            7 => Sequence(child(tries)?, child(tries)?),
            8 => Parallel(child(tries)?, child(tries)?),
            9 => Loop(child(tries)?),
            _ => Try(child(tries + 1)?),
        })
    }
}

/// The operation check: N, or a refusal.
pub fn check(bytes: &[u8]) -> Result<usize, Refusal> {
    read(bytes).map(|p| p.nodes())
}

/// The table of a statement.
pub fn write(p: &Statement) -> Vec<u8> {
    let n = p.nodes();
    let mut fields = vec![(1, 4), (n, 12)];
    write_nodes(p, &mut fields);
    pack(&fields, length(n))
}

fn write_nodes(p: &Statement, fields: &mut Vec<(usize, usize)>) {
    let (kind, operand) = node(p);
    fields.push((kind.into(), 4));
    fields.push((operand.into(), 6));
    p.children().for_each(|child| write_nodes(child, fields));
}

/// The kind and the operand of the root.
pub fn node(p: &Statement) -> (u8, u8) {
    match p {
        Nothing => (0, 0),
        Pause(label) => (1, *label),
        Gotopause(label) => (2, *label),
        Emit(signal) => (3, *signal),
        Exit(level) => (4, *level),
        Signal(signal, _) => (5, *signal),
        Present(signal, _, _) => (6, *signal),
        Sequence(_, _) => (7, 0),
        Parallel(_, _) => (8, 0),
        Loop(_) => (9, 0),
        Try(_) => (10, 0),
    }
}

/// Fields (number, width) packed most significant bit first into so many bytes, then zero bits.
pub fn pack(fields: &[(usize, usize)], length: usize) -> Vec<u8> {
    let mut bytes = vec![0; length];
    let mut at = 0;
    for &(number, width) in fields {
        for i in (0..width).rev() {
            bytes[at / 8] |= ((number >> i & 1) as u8) << (7 - at % 8);
            at += 1;
        }
    }
    bytes
}
