//! The documents a third time, written for speed over decoded nodes and bit sets: what a programmer
//! would write who wants fast code and no proof. The benchmark times the proved library against
//! it; the tests compare it with the second implementation.

use crate::react::Reaction;
use crate::step::{Answer, Step};

/// Children, smallest and largest operand of each kind.
const KINDS: [(u8, u8, u8); 11] = [
    (0, 0, 0),
    (0, 1, 63),
    (0, 1, 63),
    (0, 0, 31),
    (0, 1, 63),
    (1, 0, 31),
    (2, 0, 31),
    (2, 0, 0),
    (2, 0, 0),
    (1, 0, 0),
    (1, 0, 0),
];

const NOTHING: u16 = 0;
const EXIT: u16 = 4 << 6;
const SEQUENCE: u16 = 7 << 6;
const PARALLEL: u16 = 8 << 6;
const TRY: u16 = 10 << 6;

pub(crate) fn kind(node: u16) -> u16 {
    node >> 6
}

pub(crate) fn operand(node: u16) -> u16 {
    node & 63
}

/// Refusals 1 to 5, or the node count.
fn header(table: &[u8]) -> Result<usize, u32> {
    if table.len() < 2 {
        return Err(1);
    }
    if table[0] >> 4 != 1 {
        return Err(2);
    }
    let n = usize::from(table[0] & 15) << 8 | usize::from(table[1]);
    if n == 0 || n > 1024 {
        return Err(3);
    }
    if table.len() != 2 + (10 * n).div_ceil(8) {
        return Err(4);
    }
    if table[table.len() - 1] & [0, 63, 15, 3][n % 4] != 0 {
        return Err(5);
    }
    Ok(n)
}

#[inline(always)]
fn node_at(body: &[u8], i: usize) -> u16 {
    let at = 10 * i / 8;
    let word = u16::from(body[at]) << 8 | u16::from(body[at + 1]);
    word >> (6 - 10 * i % 8) & 1023
}

/// Refusals 6 to 10 of a node with so many nodes and tries around it, or its number of children.
#[inline(always)]
fn judge(node: u16, depth: usize, tries: u16, used: &mut u64) -> Result<u8, u32> {
    let (k, number) = (kind(node), operand(node));
    if k > 10 {
        return Err(6);
    }
    let (children, low, high) = KINDS[usize::from(k)];
    if number < low.into() || number > high.into() {
        return Err(7);
    }
    if depth == 60 {
        return Err(8);
    }
    if k == 4 && number > tries {
        return Err(9);
    }
    if k == 1 {
        if *used >> number & 1 == 1 {
            return Err(10);
        }
        *used |= 1 << number;
    }
    Ok(children)
}

/// Goes over the nodes once and refuses as check does. `note` gets each place with its node,
/// `second` the place of a parent and of its second child.
#[inline(always)]
pub(crate) fn walk(
    table: &[u8],
    note: impl FnMut(usize, u16),
    second: impl FnMut(usize, usize),
) -> Result<usize, u32> {
    let n = header(table)?;
    let body = &table[2..];
    walk_nodes(n, |i| node_at(body, i), note, second)
}

/// Goes over n nodes, wherever they are.
#[inline(always)]
pub(crate) fn walk_nodes(
    n: usize,
    node_at: impl Fn(usize) -> u16,
    mut note: impl FnMut(usize, u16),
    mut second: impl FnMut(usize, usize),
) -> Result<usize, u32> {
    // for each depth: children still to come, and the place of their parent
    let mut left = [0_u8; 62];
    let mut parent = [0_u16; 62];
    let (mut depth, mut tries, mut is_try, mut used) = (0_usize, 0, 0_u64, 0_u64);
    for i in 0..n {
        let node = node_at(i);
        let children = judge(node, depth, tries, &mut used)?;
        note(i, node);
        if children > 0 {
            left[depth] = children;
            parent[depth] = i as u16;
            let opened = u64::from(kind(node) == 10);
            tries += opened as u16;
            is_try = is_try & !(1 << depth) | opened << depth;
            depth += 1;
            continue;
        }
        loop {
            if depth == 0 {
                return if i + 1 == n { Ok(n) } else { Err(11) };
            }
            left[depth - 1] -= 1;
            if left[depth - 1] > 0 {
                second(parent[depth - 1].into(), i + 1);
                break;
            }
            depth -= 1;
            tries -= (is_try >> depth & 1) as u16;
        }
    }
    Err(11)
}

/// The operation check.
pub fn check(table: &[u8]) -> Result<u32, u32> {
    walk(table, |_, _| (), |_, _| ()).map(|n| n as u32)
}

/// The decoded nodes; `second` is the place of a second child.
pub(crate) struct Nodes {
    n: usize,
    pub(crate) node: Vec<u16>,
    second: Vec<u16>,
}

pub(crate) fn decode(table: &[u8]) -> Result<Nodes, u32> {
    let n = header(table)?;
    let (mut node, mut second) = (vec![0; n], vec![0; n]);
    walk(table, |i, x| node[i] = x, |i, q| second[i] = q as u16)?;
    Ok(Nodes { n, node, second })
}

/// A set of codes, bit k for code k, and the labels of code 1.
#[derive(Clone, Copy, Default)]
struct Codes {
    codes: u64,
    labels: u64,
}

impl Codes {
    fn ends(self) -> bool {
        self.codes & 1 == 1
    }

    fn union(self, other: Codes) -> Codes {
        Codes { codes: self.codes | other.codes, labels: self.labels | other.labels }
    }

    fn without_zero(self) -> Codes {
        Codes { codes: self.codes & !1, ..self }
    }

    fn through_try(self) -> Codes {
        let c = self.codes;
        Codes { codes: c & 3 | c >> 2 & 1 | (c & !7) >> 1, ..self }
    }

    fn max(self, other: Codes) -> Codes {
        if self.codes == 0 || other.codes == 0 {
            return Codes::default();
        }
        let from = |codes: u64| !0 << codes.trailing_zeros();
        let low = |a: Codes, b: Codes| if b.codes & 3 != 0 { a.labels } else { 0 };
        Codes {
            codes: self.codes & from(other.codes) | other.codes & from(self.codes),
            labels: low(self, other) | low(other, self),
        }
    }
}

/// The start codes of every node, children before parents.
fn start_codes(nodes: &Nodes) -> (Vec<Codes>, u64) {
    let mut s = vec![Codes::default(); nodes.n];
    let mut pauses = 0;
    for i in (0..nodes.n).rev() {
        let number = operand(nodes.node[i]);
        let second = usize::from(nodes.second[i]);
        s[i] = match kind(nodes.node[i]) {
            0 | 3 => Codes { codes: 1, labels: 0 },
            k @ (1 | 2) => {
                pauses |= u64::from(k == 1) << number;
                Codes { codes: 2, labels: 1 << number }
            }
            4 => Codes { codes: 2 << number, labels: 0 },
            5 => s[i + 1],
            6 => s[i + 1].union(s[second]),
            7 if s[i + 1].ends() => s[i + 1].without_zero().union(s[second]),
            7 => s[i + 1],
            8 => s[i + 1].max(s[second]),
            9 => s[i + 1].without_zero(),
            _ => s[i + 1].through_try(),
        };
    }
    (s, pauses)
}

/// The resumed codes of every node over R.
fn resumed_codes(nodes: &Nodes, r: u64, s: &[Codes], d: &mut [Codes]) {
    for i in (0..nodes.n).rev() {
        let number = operand(nodes.node[i]);
        let second = usize::from(nodes.second[i]);
        d[i] = match kind(nodes.node[i]) {
            0 | 2..=4 => Codes::default(),
            1 => Codes { codes: r >> number & 1, labels: 0 },
            5 => d[i + 1],
            6 | 8 => d[i + 1].union(d[second]),
            7 if d[i + 1].ends() => d[i + 1].without_zero().union(s[second]).union(d[second]),
            7 => d[i + 1].union(d[second]),
            9 if d[i + 1].ends() => d[i + 1].union(s[i + 1]).without_zero(),
            9 => d[i + 1],
            _ => d[i + 1].through_try(),
        };
    }
}

pub struct Reached {
    pub ends: bool,
    pub start: u64,
    pub r: u64,
    pub rounds: u32,
}

/// s and d over the final R, of every node, and reach's answer.
fn analyse(nodes: &Nodes) -> (Vec<Codes>, Vec<Codes>, Reached) {
    let (s, pauses) = start_codes(nodes);
    let mut d = vec![Codes::default(); nodes.n];
    let (mut r, mut rounds) = (0, 1);
    loop {
        if r != 0 {
            resumed_codes(nodes, r, &s, &mut d);
        }
        let next = (s[0].labels | d[0].labels) & pauses;
        if next == r {
            let reached = Reached { ends: s[0].ends(), start: s[0].labels, r, rounds };
            return (s, d, reached);
        }
        r = next;
        rounds += 1;
    }
}

/// The operation reach.
pub fn reach(table: &[u8]) -> Result<Reached, u32> {
    Ok(analyse(&decode(table)?).2)
}

/// What trimming left of a node: the length of its segment (0 for nothing), its depth, the signals
/// that it names, and the levels of the exits that leave it.
#[derive(Clone, Copy, Default)]
struct Part {
    len: usize,
    depth: usize,
    names: u32,
    leaving: u64,
}

/// The trimmed nodes, written from the end to the front.
struct Front {
    out: Vec<u16>,
    top: usize,
}

impl Front {
    fn put(&mut self, node: u16) {
        self.top -= 1;
        self.out[self.top] = node;
    }

    /// One node over a part.
    fn over(&mut self, node: u16, part: Part) -> Part {
        self.put(node);
        Part { len: part.len + 1, depth: part.depth + 1, ..part }
    }

    /// One node over two parts that both stand in front.
    fn join(&mut self, node: u16, p: Part, q: Part) -> Part {
        let both = Part {
            len: p.len + q.len,
            depth: p.depth.max(q.depth),
            names: p.names | q.names,
            leaving: p.leaving | q.leaving,
        };
        self.over(node, both)
    }

    /// The same, a part that is nothing being dropped.
    fn join_parts(&mut self, node: u16, p: Part, q: Part) -> Part {
        match (p.len, q.len) {
            (_, 0) => p,
            (0, _) => q,
            _ => self.join(node, p, q),
        }
    }

    /// Adds `by` to the level of every exit that leaves the segment at `at`; gives its end.
    fn shift(&mut self, at: usize, tries: u16, by: i16) -> usize {
        let node = self.out[at];
        match kind(node) {
            4 if operand(node) > tries => {
                self.out[at] = node.wrapping_add_signed(by);
                at + 1
            }
            0..=4 => at + 1,
            5 | 9 => self.shift(at + 1, tries, by),
            10 => self.shift(at + 1, tries + 1, by),
            _ => {
                let second = self.shift(at + 1, tries, by);
                self.shift(second, tries, by)
            }
        }
    }
}

/// What a parent asks of a child's segment.
#[derive(Clone, Copy, PartialEq)]
enum Role {
    /// nothing is an empty segment
    Part,
    /// nothing is a node
    Whole,
    /// the second branch of a resumed present whose first may end
    Skipped,
}

/// What trimming knows of the nodes before it writes: whether each may be started, and its role.
struct Plan<'a> {
    nodes: &'a Nodes,
    r: u64,
    started: Vec<bool>,
    role: Vec<Role>,
    /// the most nodes that trimming can leave
    most: usize,
}

fn plan(nodes: &Nodes) -> Plan<'_> {
    let (s, d, reached) = analyse(nodes);
    let n = nodes.n;
    let (mut started, mut role, mut most) = (vec![true; n], vec![Role::Part; n], n);
    role[0] = Role::Whole;
    for i in 0..n {
        let (b, second) = (started[i], usize::from(nodes.second[i]));
        let ends = |p: usize| d[p].ends() || b && s[p].ends();
        match kind(nodes.node[i]) {
            0..=4 => {}
            6 => {
                (started[i + 1], started[second]) = (b, b);
                if b {
                    (role[i + 1], role[second]) = (Role::Whole, Role::Whole);
                } else if d[i + 1].ends() {
                    role[second] = Role::Skipped;
                    most += 3;
                }
            }
            7 => (started[i + 1], started[second]) = (b, ends(i + 1)),
            8 => (started[i + 1], started[second]) = (b, b),
            9 if ends(i + 1) => (started[i + 1], role[i + 1]) = (true, Role::Whole),
            _ => started[i + 1] = b,
        }
    }
    Plan { nodes, r: reached.r, started, role, most }
}

impl Plan<'_> {
    /// Whether a leaf stays.
    fn stays(&self, i: usize) -> bool {
        let node = self.nodes.node[i];
        let reached = kind(node) == 1 && self.r >> operand(node) & 1 == 1;
        kind(node) != 0 && (self.started[i] || reached)
    }

    /// Node i trimmed, in front of what stands; its children's parts stand in front already.
    fn part(&self, i: usize, parts: &[Part], front: &mut Front) -> Part {
        let node = self.nodes.node[i];
        let (number, second) = (operand(node), usize::from(self.nodes.second[i]));
        let leaf = Part::default();
        match kind(node) {
            0..=4 if !self.stays(i) => leaf,
            3 => front.over(node, Part { names: 1 << number, ..leaf }),
            4 => front.over(node, Part { leaving: 1 << number, ..leaf }),
            0..=4 => front.over(node, leaf),
            5 if parts[i + 1].names >> number & 1 == 1 => front.over(node, parts[i + 1]),
            6 if self.started[i] => {
                let both = front.join(node, parts[i + 1], parts[second]);
                Part { names: both.names | 1 << number, ..both }
            }
            6 | 7 => front.join_parts(SEQUENCE, parts[i + 1], parts[second]),
            8 => front.join_parts(PARALLEL, parts[i + 1], parts[second]),
            9 if self.role[i + 1] == Role::Whole => front.over(node, parts[i + 1]),
            5 | 9 => parts[i + 1],
            _ if parts[i + 1].leaving & 2 != 0 => {
                let body = front.over(node, parts[i + 1]);
                Part { leaving: (body.leaving & !2) >> 1, ..body }
            }
            _ => {
                let body = parts[i + 1];
                if body.leaving != 0 {
                    front.shift(front.top, 0, -1);
                }
                Part { leaving: body.leaving >> 1, ..body }
            }
        }
    }
}

/// The trimmed nodes and their depth.
fn trimmed(nodes: &Nodes) -> (Front, usize) {
    let plan = plan(nodes);
    let mut front = Front { out: vec![NOTHING; plan.most], top: plan.most };
    let mut parts = vec![Part::default(); nodes.n];
    for i in (0..nodes.n).rev() {
        let part = plan.part(i, &parts, &mut front);
        parts[i] = match plan.role[i] {
            Role::Whole if part.len == 0 => front.over(NOTHING, part),
            Role::Skipped if part.len != 0 => {
                if part.leaving != 0 {
                    front.shift(front.top, 0, 1);
                }
                front.put(EXIT | 1);
                let skipped = front.over(SEQUENCE, Part { len: part.len + 1, ..part });
                front.over(TRY, skipped)
            }
            _ => part,
        };
    }
    (front, parts[0].depth)
}

/// The table of the nodes: its length, or 13.
pub(crate) fn put_table(nodes: &[u16], out: &mut [u8]) -> Result<usize, u32> {
    let n = nodes.len();
    let length = 2 + (10 * n).div_ceil(8);
    if out.len() < length {
        return Err(13);
    }
    out[0] = 0x10 | (n >> 8) as u8;
    out[1] = n as u8;
    let mut at = 2;
    for four in nodes.chunks(4) {
        let packed = (0..4).fold(0_u64, |x, i| x << 10 | u64::from(*four.get(i).unwrap_or(&0)));
        let bytes = (10 * four.len()).div_ceil(8);
        out[at..at + bytes].copy_from_slice(&packed.to_be_bytes()[3..3 + bytes]);
        at += bytes;
    }
    Ok(length)
}

/// What trim gives: node count, byte length, and the share that was kept.
#[derive(Clone, Copy, Debug, PartialEq, Eq)]
pub struct Trimmed {
    pub nodes: u32,
    pub bytes: usize,
    pub thousandths: u32,
    pub remainder: u32,
}

/// The operation trim.
pub fn trim(table: &[u8], out: &mut [u8]) -> Result<Trimmed, u32> {
    let source = decode(table)?;
    let (front, depth) = trimmed(&source);
    let nodes = &front.out[front.top..];
    let n = nodes.len();
    if n > 1024 || depth > 60 {
        return Err(12);
    }
    let bytes = put_table(nodes, out)?;
    let (nodes, before) = (n as u32, source.n as u32);
    let dividend = 1_000 * nodes;
    Ok(Trimmed { nodes, bytes, thousandths: dividend / before, remainder: dividend % before })
}

/// A reaction as one number, so that numbers rise by O, then k, then L.
type Packed = u128;

fn packed(o: u32, k: u16, l: u64) -> Packed {
    Packed::from(o) << 72 | Packed::from(k) << 64 | Packed::from(l)
}

fn code(r: Packed) -> u8 {
    (r >> 64) as u8
}

fn emitted(r: Packed) -> u32 {
    (r >> 72) as u32
}

fn with_emitted(r: Packed, o: u32) -> Packed {
    r | Packed::from(o) << 72
}

/// Lists stand one above the other in one area; each rises without repetition.
struct Lister<'a> {
    nodes: &'a Nodes,
    /// the labels of the pauses in each node
    pauses: Vec<u64>,
    /// the signals that an emit or a present in each node names, those declared inside it left out
    names: Vec<u32>,
    area: Vec<Packed>,
}

/// Over 64 reactions.
struct TooMany;

type Listed = Result<(), TooMany>;

impl Lister<'_> {
    /// Puts what stands from `from` on into order and down to `base`, where it is the new top list.
    fn settle(&mut self, base: usize, from: usize) -> Listed {
        self.area[from..].sort_unstable();
        let mut end = base;
        for i in from..self.area.len() {
            let r = self.area[i];
            if end == base || self.area[end - 1] != r {
                self.area[end] = r;
                end += 1;
            }
        }
        self.area.truncate(end);
        if end - base > 64 {
            return Err(TooMany);
        }
        Ok(())
    }

    /// The lists of p from `base` on and of q from `mid` on become their union.
    fn merge(&mut self, base: usize, mid: usize) -> Listed {
        if mid == base || mid == self.area.len() {
            return Ok(());
        }
        self.settle(base, base)
    }

    /// Whether the list from `base` on has a code 0.
    fn ends(&self, base: usize) -> bool {
        self.area[base..].iter().any(|r| code(*r) == 0)
    }

    /// The list from `base` to `mid` is p's, from `mid` on stands what follows a code 0 of p. What p
    /// does otherwise stays, the rest is joined.
    fn follow(&mut self, base: usize, mid: usize) -> Listed {
        if mid == base + 1 {
            // p only ends: what follows gets p's emissions
            let o = emitted(self.area[base]);
            self.area.remove(base);
            if o == 0 {
                return Ok(());
            }
            self.area[base..].iter_mut().for_each(|r| *r = with_emitted(*r, o));
            return self.settle(base, base);
        }
        let end = self.area.len();
        for i in base..mid {
            let first = self.area[i];
            if code(first) != 0 {
                self.area.push(first);
                continue;
            }
            for j in mid..end {
                let r = with_emitted(self.area[j], emitted(first));
                self.area.push(r);
            }
        }
        self.settle(base, end)
    }

    /// The lists of a parallel's parts become its own: all pairs.
    fn pair(&mut self, base: usize, mid: usize) -> Listed {
        let end = self.area.len();
        for i in base..mid {
            for j in mid..end {
                let (a, b) = (self.area[i], self.area[j]);
                let k = code(a).max(code(b));
                let l = if k == 1 { a as u64 | b as u64 } else { 0 };
                self.area.push(packed(emitted(a) | emitted(b), k.into(), l));
            }
        }
        self.settle(base, end)
    }

    fn drop_zero(&mut self, base: usize) {
        let mut end = base;
        for i in base..self.area.len() {
            if code(self.area[i]) != 0 {
                self.area[end] = self.area[i];
                end += 1;
            }
        }
        self.area.truncate(end);
    }

    /// Takes the codes of the list from `base` on through a try.
    fn catch(&mut self, base: usize) -> Listed {
        let mut changed = false;
        for r in &mut self.area[base..] {
            let k = code(*r);
            if k >= 2 {
                changed = true;
                *r -= packed(0, if k == 2 { 2 } else { 1 }, 0);
            }
        }
        if changed {
            return self.settle(base, base);
        }
        Ok(())
    }

    /// A local signal of a body: both lists are made and joined. Where the body does not name the
    /// signal they are the same, and the second is enough.
    fn local(
        &mut self,
        s: u32,
        body: usize,
        mut list: impl FnMut(&mut Self, bool) -> Listed,
    ) -> Listed {
        if self.names[body] & s == 0 {
            return list(self, false);
        }
        let base = self.area.len();
        list(self, true)?;
        let mut end = base;
        for i in base..self.area.len() {
            let r = self.area[i];
            if emitted(r) & s != 0 {
                self.area[end] = r & !with_emitted(0, s);
                end += 1;
            }
        }
        // all of them lost the same bit, so they rise as before
        self.area.truncate(end);
        list(self, false)?;
        self.merge(base, end)
    }

    /// The list of node i at the start.
    fn start(&mut self, i: usize, e: u32) -> Listed {
        let node = self.nodes.node[i];
        let (number, second) = (operand(node), usize::from(self.nodes.second[i]));
        let base = self.area.len();
        match kind(node) {
            0 => self.area.push(0),
            1 | 2 => self.area.push(packed(0, 1, 1 << number)),
            3 if e >> number & 1 == 1 => self.area.push(packed(1 << number, 0, 0)),
            3 => {}
            4 => self.area.push(packed(0, number + 1, 0)),
            5 => {
                let s = 1 << number;
                return self.local(s, i + 1, |lister, present| {
                    lister.start(i + 1, if present { e | s } else { e & !s })
                });
            }
            6 => return self.start(if e >> number & 1 == 1 { i + 1 } else { second }, e),
            7 => {
                self.start(i + 1, e)?;
                if self.ends(base) {
                    let mid = self.area.len();
                    self.start(second, e)?;
                    return self.follow(base, mid);
                }
            }
            8 => {
                self.start(i + 1, e)?;
                let mid = self.area.len();
                self.start(second, e)?;
                return self.pair(base, mid);
            }
            9 => {
                self.start(i + 1, e)?;
                self.drop_zero(base);
            }
            _ => {
                self.start(i + 1, e)?;
                return self.catch(base);
            }
        }
        Ok(())
    }

    /// The list of a resumed present, sequence or parallel.
    fn resume_two(&mut self, i: usize, second: usize, l0: u64, e: u32) -> Listed {
        let base = self.area.len();
        self.resume(i + 1, l0, e)?;
        if kind(self.nodes.node[i]) == 7 && self.ends(base) {
            let mid = self.area.len();
            self.start(second, e)?;
            self.follow(base, mid)?;
        }
        let mid = self.area.len();
        self.resume(second, l0, e)?;
        if kind(self.nodes.node[i]) != 8 {
            return self.merge(base, mid);
        }
        // where one part has no label of the state, its list is empty and the other's stays
        if self.pauses[i + 1] & l0 != 0 && self.pauses[second] & l0 != 0 {
            return self.pair(base, mid);
        }
        Ok(())
    }

    /// The list of node i resumed from l0; it is empty where l0 has no label of a pause in it.
    fn resume(&mut self, i: usize, l0: u64, e: u32) -> Listed {
        if self.pauses[i] & l0 == 0 {
            return Ok(());
        }
        let node = self.nodes.node[i];
        let (number, second) = (operand(node), usize::from(self.nodes.second[i]));
        let base = self.area.len();
        match kind(node) {
            1 => self.area.push(0),
            5 => {
                let s = 1 << number;
                return self.local(s, i + 1, |lister, present| {
                    lister.resume(i + 1, l0, if present { e | s } else { e & !s })
                });
            }
            6..=8 => return self.resume_two(i, second, l0, e),
            9 => {
                self.resume(i + 1, l0, e)?;
                if self.ends(base) {
                    let mid = self.area.len();
                    self.start(i + 1, e)?;
                    self.drop_zero(mid);
                    return self.follow(base, mid);
                }
            }
            _ => {
                self.resume(i + 1, l0, e)?;
                return self.catch(base);
            }
        }
        Ok(())
    }

    /// The list of the table, or 15.
    fn whole(&mut self, asked: Asked) -> Result<(), u32> {
        self.area.clear();
        let listed = match asked.mark {
            0 => self.start(0, asked.signals),
            _ => self.resume(0, asked.labels, asked.signals),
        };
        listed.map_err(|TooMany| 15)
    }
}

/// What list and step are asked: the signals that list assumes, or step is provided with, the mark
/// and the label set.
#[derive(Clone, Copy, Debug)]
pub struct Asked {
    pub signals: u32,
    pub mark: u32,
    pub labels: u64,
}

/// A lister over decoded nodes, with refusal 14.
fn lister(nodes: &Nodes) -> Result<Lister<'_>, u32> {
    let mut pauses = vec![0; nodes.n];
    let mut names = vec![0_u32; nodes.n];
    let mut nested = vec![0_u8; nodes.n];
    for i in (0..nodes.n).rev() {
        let (node, second) = (nodes.node[i], usize::from(nodes.second[i]));
        let number = operand(node);
        (pauses[i], names[i], nested[i]) = match kind(node) {
            1 => (1 << number, 0, 0),
            3 => (0, 1 << number, 0),
            0..=4 => (0, 0, 0),
            5 => (pauses[i + 1], names[i + 1] & !(1 << number), nested[i + 1] + 1),
            k @ 6..=8 => (
                pauses[i + 1] | pauses[second],
                names[i + 1] | names[second] | u32::from(k == 6) << (number & 31),
                nested[i + 1].max(nested[second]),
            ),
            _ => (pauses[i + 1], names[i + 1], nested[i + 1]),
        };
    }
    if nested[0] > 12 {
        return Err(14);
    }
    Ok(Lister { nodes, pauses, names, area: Vec::with_capacity(256) })
}

/// The operation list: the count.
pub fn list(table: &[u8], asked: Asked, lent: [&mut [u8]; 3]) -> Result<u32, u32> {
    let nodes = decode(table)?;
    let mut lister = lister(&nodes)?;
    lister.whole(asked)?;
    let [o, k, l] = lent;
    let count = lister.area.len();
    if o.len() / 4 < count || k.len() < count || l.len() / 8 < count {
        return Err(16);
    }
    for (i, r) in lister.area.iter().enumerate() {
        o[4 * i..4 * i + 4].copy_from_slice(&emitted(*r).to_be_bytes());
        k[i] = code(*r);
        l[8 * i..8 * i + 8].copy_from_slice(&(*r as u64).to_be_bytes());
    }
    Ok(count as u32)
}

/// The signals that are emitted outside a declaration of them.
fn emitted_free(nodes: &Nodes) -> u32 {
    let mut free = vec![0_u32; nodes.n];
    for i in (0..nodes.n).rev() {
        let (node, second) = (nodes.node[i], usize::from(nodes.second[i]));
        free[i] = match kind(node) {
            3 => 1 << operand(node),
            0..=4 => 0,
            5 => free[i + 1] & !(1 << operand(node)),
            6..=8 => free[i + 1] | free[second],
            _ => free[i + 1],
        };
    }
    free[0]
}

/// The operation step the plain way: a list under each E.
pub fn step(table: &[u8], asked: Asked) -> Result<Answer, u32> {
    let nodes = decode(table)?;
    let mut lister = lister(&nodes)?;
    let free = emitted_free(&nodes);
    if free.count_ones() > 10 {
        return Err(17);
    }
    let (provided, unknown) = (asked.signals, free & !asked.signals);
    let (mut found, mut several, mut some) = (None, false, 0_u32);
    loop {
        let e = provided | some;
        lister.whole(Asked { signals: e, ..asked })?;
        for &r in lister.area.iter().filter(|r| provided | emitted(**r) == e) {
            several |= found.is_some();
            found = Some(r);
        }
        if some == unknown {
            break;
        }
        some = some.wrapping_sub(unknown) & unknown;
    }
    Ok(match found {
        None => Answer::None,
        Some(_) if several => Answer::Several,
        Some(r) => {
            let r = Reaction { o: emitted(r), k: code(r), l: r as u64 };
            Answer::One(Step { e: provided | r.o, r })
        }
    })
}
