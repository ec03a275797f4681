//! Reading and writing texts the plain way: a recursive descent over the bytes, forwards, with the
//! nodes of operators inserted when they are met; and a recursion over the nodes that pushes words.

use crate::plain::{decode, kind, operand, put_table, walk_nodes};

const MOST_NODES: usize = 1024;
const MOST_DEPTH: usize = 60;

const NOTHING: u16 = 0;
const PAUSE: u16 = 1;
const GOTOPAUSE: u16 = 2;
const EMIT: u16 = 3;
const EXIT: u16 = 4;
const SIGNAL: u16 = 5;
const PRESENT: u16 = 6;
const SEQUENCE: u16 = 7;
const PARALLEL: u16 = 8;
const LOOP: u16 = 9;
const TRY: u16 = 10;

/// The text breaks the grammar or its depth.
struct Broken;

type Met<T> = Result<T, Broken>;

struct Reader<'a> {
    text: &'a [u8],
    at: usize,
    /// The nodes so far; those past the most that a table has are only counted.
    nodes: &'a mut [u16; MOST_NODES],
    count: usize,
    outside: bool,
}

impl Reader<'_> {
    #[inline(always)]
    fn byte(&self) -> u8 {
        self.text.get(self.at).copied().unwrap_or(0)
    }

    #[inline(always)]
    fn skip_blanks(&mut self) {
        while matches!(self.byte(), b' ' | b'\n') {
            self.at += 1;
        }
    }

    /// A word whose first letter was seen, with the blanks behind it.
    #[inline(always)]
    fn word(&mut self, word: &[u8]) -> Met<()> {
        if !self.text[self.at..].starts_with(word) {
            return Err(Broken);
        }
        self.at += word.len();
        if self.byte().is_ascii_alphanumeric() {
            return Err(Broken);
        }
        self.skip_blanks();
        Ok(())
    }

    #[inline(always)]
    fn found(&mut self, mark: &[u8]) -> bool {
        let found = self.text[self.at..].starts_with(mark);
        if found {
            self.at += mark.len();
            self.skip_blanks();
        }
        found
    }

    /// The digits at this place; a number above 99 is 100.
    #[inline(always)]
    fn digits(&mut self) -> Met<u16> {
        let from = self.at;
        let mut number = 0;
        while self.byte().is_ascii_digit() {
            number = (10 * number + u16::from(self.byte() - b'0')).min(100);
            self.at += 1;
        }
        if self.at == from || self.text[from] == b'0' && self.at > from + 1 {
            return Err(Broken);
        }
        Ok(number)
    }

    #[inline(always)]
    fn number(&mut self) -> Met<u16> {
        let number = self.digits()?;
        if self.byte().is_ascii_alphanumeric() {
            return Err(Broken);
        }
        self.skip_blanks();
        self.outside |= !(1..=63).contains(&number);
        Ok(number)
    }

    #[inline(always)]
    fn signal(&mut self) -> Met<u16> {
        if self.byte() != b'S' {
            return Err(Broken);
        }
        self.at += 1;
        let number = self.digits()?;
        if self.byte().is_ascii_alphanumeric() {
            return Err(Broken);
        }
        self.skip_blanks();
        self.outside |= number > 31;
        Ok(number)
    }

    #[inline(always)]
    fn put(&mut self, kind: u16, operand: u16) {
        if self.count < MOST_NODES {
            self.nodes[self.count] = kind << 6 | operand & 63;
        }
        self.count += 1;
    }

    #[inline(always)]
    fn insert(&mut self, at: usize, kind: u16) {
        if self.count < MOST_NODES {
            self.nodes.copy_within(at..self.count, at + 1);
            self.nodes[at] = kind << 6;
        }
        self.count += 1;
    }

    /// Singles joined by `;` and those by `||`.
    fn whole(&mut self, depth: usize) -> Met<()> {
        let mut chain = self.count;
        loop {
            let mut part = self.count;
            self.single(depth)?;
            while self.found(b";") {
                self.insert(part, SEQUENCE);
                part = self.count;
                self.single(depth)?;
            }
            if !self.found(b"||") {
                return Ok(());
            }
            self.insert(chain, PARALLEL);
            chain = self.count;
        }
    }

    fn branch(&mut self, word: &[u8], depth: usize) -> Met<()> {
        if self.byte() != word[0] || !self.text[self.at..].starts_with(word) {
            self.put(NOTHING, 0);
            return Ok(());
        }
        self.word(word)?;
        self.whole(depth)
    }

    /// A statement closed by `end`, whose first letter was seen.
    fn closed(&mut self, depth: usize) -> Met<()> {
        if depth == MOST_DEPTH {
            return Err(Broken);
        }
        match self.byte() {
            b's' => {
                self.word(b"signal")?;
                let signal = self.signal()?;
                self.word(b"in")?;
                self.put(SIGNAL, signal);
                self.whole(depth + 1)?;
            }
            b'p' => {
                self.word(b"present")?;
                let signal = self.signal()?;
                self.put(PRESENT, signal);
                self.branch(b"then", depth + 1)?;
                self.branch(b"else", depth + 1)?;
            }
            b'l' => {
                self.word(b"loop")?;
                self.put(LOOP, 0);
                self.whole(depth + 1)?;
            }
            _ => {
                self.word(b"try")?;
                self.put(TRY, 0);
                self.whole(depth + 1)?;
            }
        }
        self.word(b"end")
    }

    /// A statement of one node that begins with a word.
    #[inline(always)]
    fn worded(&mut self) -> Met<()> {
        let (kind, operand) = match self.byte() {
            b'n' => {
                self.word(b"nothing")?;
                (NOTHING, 0)
            }
            b'g' => {
                self.word(b"gotopause")?;
                (GOTOPAUSE, self.number()?)
            }
            _ if self.text[self.at..].starts_with(b"em") => {
                self.word(b"emit")?;
                (EMIT, self.signal()?)
            }
            _ => {
                self.word(b"exit")?;
                (EXIT, self.number()?)
            }
        };
        self.put(kind, operand);
        Ok(())
    }

    #[inline(always)]
    fn pause(&mut self) -> Met<()> {
        let label = self.digits()?;
        self.outside |= !(1..=63).contains(&label);
        self.put(PAUSE, label);
        self.word(b":pause")
    }

    fn single(&mut self, depth: usize) -> Met<()> {
        match self.byte() {
            b'0'..=b'9' => self.pause(),
            b'n' | b'g' | b'e' => self.worded(),
            b'[' if depth < MOST_DEPTH => {
                self.found(b"[");
                self.whole(depth + 1)?;
                if self.found(b"]") {
                    Ok(())
                } else {
                    Err(Broken)
                }
            }
            b's' | b'p' | b'l' | b't' => self.closed(depth),
            _ => Err(Broken),
        }
    }

    fn text(&mut self) -> Met<()> {
        if matches!(self.text.last(), None | Some(b' ' | b'\n')) {
            return Err(Broken);
        }
        self.whole(0)?;
        if self.at < self.text.len() {
            return Err(Broken);
        }
        Ok(())
    }
}

/// Reads a text: the length of its table.
pub fn read(text: &[u8], out: &mut [u8]) -> Result<usize, u32> {
    let mut nodes = [0; MOST_NODES];
    let mut reader = Reader { text, at: 0, nodes: &mut nodes, count: 0, outside: false };
    reader.text().map_err(|Broken| 18_u32)?;
    if reader.outside {
        return Err(19);
    }
    let n = reader.count;
    if n > MOST_NODES {
        return Err(3);
    }
    let nodes = &nodes[..n];
    walk_nodes(n, |i| nodes[i], |_, _| (), |_, _| ())?;
    put_table(nodes, out)
}

/// What stands around a statement leaves room for.
#[derive(Clone, Copy, PartialEq)]
enum Room {
    Single,
    Chain,
    Whole,
}

struct Writer<'a> {
    nodes: &'a [u16],
    next: usize,
    text: Vec<u8>,
}

impl Writer<'_> {
    #[inline(always)]
    fn number(&mut self, number: u16) {
        if number >= 10 {
            self.text.push(b'0' + (number / 10) as u8);
        }
        self.text.push(b'0' + (number % 10) as u8);
    }

    #[inline(always)]
    fn push(&mut self, words: &[u8]) {
        self.text.extend_from_slice(words);
    }

    #[inline(always)]
    fn numbered(&mut self, before: &[u8], number: u16, after: &[u8]) {
        self.push(before);
        self.number(number);
        self.push(after);
    }

    /// The statement of the next node and what stands behind it.
    fn body(&mut self, after: &[u8]) {
        self.statement(Room::Whole);
        self.push(after);
    }

    fn joined(&mut self, brackets: bool, first: Room, operator: &[u8], second: Room) {
        if brackets {
            self.push(b"[ ");
        }
        self.statement(first);
        self.push(operator);
        self.statement(second);
        if brackets {
            self.push(b" ]");
        }
    }

    fn statement(&mut self, room: Room) {
        let node = self.nodes[self.next];
        let number = operand(node);
        self.next += 1;
        match kind(node) {
            NOTHING => self.push(b"nothing"),
            PAUSE => self.numbered(b"", number, b":pause"),
            GOTOPAUSE => self.numbered(b"gotopause ", number, b""),
            EMIT => self.numbered(b"emit S", number, b""),
            EXIT => self.numbered(b"exit ", number, b""),
            SIGNAL => {
                self.numbered(b"signal S", number, b" in ");
                self.body(b" end");
            }
            PRESENT => {
                self.numbered(b"present S", number, b" then ");
                self.body(b" else ");
                self.body(b" end");
            }
            SEQUENCE => self.joined(room == Room::Single, Room::Single, b" ; ", Room::Chain),
            PARALLEL => self.joined(room != Room::Whole, Room::Chain, b" || ", Room::Whole),
            LOOP => {
                self.push(b"loop ");
                self.body(b" end");
            }
            _ => {
                self.push(b"try ");
                self.body(b" end");
            }
        }
    }
}

/// Writes the text of a table: its length.
pub fn write(table: &[u8], out: &mut [u8]) -> Result<usize, u32> {
    let nodes = decode(table)?;
    let mut writer =
        Writer { nodes: &nodes.node, next: 0, text: Vec::with_capacity(16 * nodes.node.len()) };
    writer.statement(Room::Whole);
    let text = writer.text;
    if out.len() < text.len() {
        return Err(13);
    }
    out[..text.len()].copy_from_slice(&text);
    Ok(text.len())
}
