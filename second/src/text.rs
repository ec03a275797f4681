//! The statement text of document 02's order 2: reading and writing it. A text is cut into its
//! parts, and a list of parts is split at the operators that stand in no bracket and no statement
//! closed by `end`, the loosest first.

use crate::statement::Statement;
use crate::table::{self, Refusal, MOST_NODES};
use Statement::*;

/// How deep brackets and statements closed by `end` may stand inside one another.
pub const MOST_OPEN: usize = 60;

/// The parts of a text; numbers of any length, as their digits.
#[derive(Clone, Copy, Debug, PartialEq, Eq)]
pub enum Part<'a> {
    /// a word, `;`, `||` or a bracket
    Word(&'a str),
    Number(&'a str),
    Signal(&'a str),
    Pause(&'a str),
}

use Part::{Number, Word};

const WORDS: [&str; 12] = [
    "nothing",
    "gotopause",
    "emit",
    "exit",
    "signal",
    "in",
    "end",
    "present",
    "then",
    "else",
    "loop",
    "try",
];

fn is_number(text: &str) -> bool {
    let digits = !text.is_empty() && text.bytes().all(|byte| byte.is_ascii_digit());
    digits && (text == "0" || !text.starts_with('0'))
}

/// The one part that letters, digits and colons without a blank between them are.
fn lettered(text: &str) -> Option<Part<'_>> {
    if WORDS.contains(&text) {
        return Some(Word(text));
    }
    let (number, part) = if let Some(label) = text.strip_suffix(":pause") {
        (label, Part::Pause(label))
    } else if let Some(signal) = text.strip_prefix('S') {
        (signal, Part::Signal(signal))
    } else {
        (text, Number(text))
    };
    is_number(number).then_some(part)
}

/// The parts of a text, unless some byte of it belongs to none and is no blank between two.
pub fn parts(text: &[u8]) -> Option<Vec<Part<'_>>> {
    let text = std::str::from_utf8(text).ok()?;
    let blank = |c: char| c == ' ' || c == '\n';
    if text.starts_with(blank) || text.ends_with(blank) {
        return None;
    }
    let mut parts = Vec::new();
    let mut rest = text;
    while !rest.is_empty() {
        let letter = |c: char| c.is_ascii_alphanumeric() || c == ':';
        let letters = rest.find(|c| !letter(c)).unwrap_or(rest.len());
        let length = match letters {
            0 if rest.starts_with("||") => 2,
            0 => 1,
            _ => letters,
        };
        if !rest.is_char_boundary(length) {
            return None;
        }
        let (piece, more) = rest.split_at(length);
        parts.push(match piece {
            ";" | "||" | "[" | "]" => Word(piece),
            _ => lettered(piece)?,
        });
        rest = more.trim_start_matches(blank);
    }
    Some(parts)
}

/// What a text is split into. A chain of one operator is one list, however long.
pub enum Tree {
    Leaf(Statement),
    Over(fn(Box<Statement>) -> Statement, Box<Tree>),
    Signal(u8, Box<Tree>),
    Present(u8, Box<Tree>, Box<Tree>),
    Chain(fn(Box<Statement>, Box<Statement>) -> Statement, Vec<Tree>),
}

/// A number for a node; any number out of range will do for one of three digits or more.
fn operand(digits: &str) -> u8 {
    digits.parse().unwrap_or(u8::MAX)
}

fn opens(part: Part) -> bool {
    matches!(part, Word("[" | "signal" | "present" | "loop" | "try"))
}

fn closes(part: Part) -> bool {
    matches!(part, Word("]" | "end"))
}

/// Splits a list at a part wherever that stands in nothing that is open.
fn split<'p, 'a>(parts: &'p [Part<'a>], at: &str) -> Option<Vec<&'p [Part<'a>]>> {
    let (mut pieces, mut from, mut open) = (Vec::new(), 0, 0_usize);
    for (i, &part) in parts.iter().enumerate() {
        open += usize::from(opens(part));
        open = open.checked_sub(closes(part).into())?;
        if open == 0 && part == Word(at) {
            pieces.push(&parts[from..i]);
            from = i + 1;
        }
    }
    pieces.push(&parts[from..]);
    (open == 0).then_some(pieces)
}

/// The tree of a list of parts, if it is a statement's that goes so deep at most.
pub fn tree(parts: &[Part], deep: usize) -> Option<Tree> {
    chain(parts, "||", Parallel, |piece| chain(piece, ";", Sequence, |piece| single(piece, deep)))
}

fn chain(
    parts: &[Part],
    operator: &str,
    node: fn(Box<Statement>, Box<Statement>) -> Statement,
    tree: impl Fn(&[Part]) -> Option<Tree>,
) -> Option<Tree> {
    let mut trees: Vec<Tree> =
        split(parts, operator)?.into_iter().map(tree).collect::<Option<_>>()?;
    if trees.len() == 1 {
        return trees.pop();
    }
    Some(Tree::Chain(node, trees))
}

/// A statement that is neither a sequence nor a parallel, or one in brackets.
fn single(parts: &[Part], deep: usize) -> Option<Tree> {
    let leaf = match parts {
        [Word("nothing")] => Nothing,
        [Part::Pause(label)] => Pause(operand(label)),
        [Word("gotopause"), Number(label)] => Gotopause(operand(label)),
        [Word("emit"), Part::Signal(signal)] => Emit(operand(signal)),
        [Word("exit"), Number(level)] => Exit(operand(level)),
        _ => return enclosing(parts, deep.checked_sub(1)?),
    };
    Some(Tree::Leaf(leaf))
}

/// Something in brackets, or closed by `end`, that goes so deep inside.
fn enclosing(parts: &[Part], deep: usize) -> Option<Tree> {
    let body = |parts: &[Part]| tree(parts, deep).map(Box::new);
    Some(match parts {
        [Word("["), p @ .., Word("]")] => *body(p)?,
        [Word("loop"), p @ .., Word("end")] => Tree::Over(Loop, body(p)?),
        [Word("try"), p @ .., Word("end")] => Tree::Over(Try, body(p)?),
        [Word("signal"), Part::Signal(signal), Word("in"), p @ .., Word("end")] => {
            Tree::Signal(operand(signal), body(p)?)
        }
        [Word("present"), Part::Signal(signal), branches @ .., Word("end")] => {
            let (then, otherwise) = match split(branches, "else")?[..] {
                [then] => (then, None),
                [then, otherwise] => (then, Some(otherwise)),
                _ => return None,
            };
            let omitted = || Some(Box::new(Tree::Leaf(Nothing)));
            let then = match then {
                [] => omitted(),
                [Word("then"), p @ ..] => body(p),
                _ => None,
            };
            Tree::Present(operand(signal), then?, otherwise.map_or_else(omitted, body)?)
        }
        _ => return None,
    })
}

impl Tree {
    pub fn nodes(&self) -> usize {
        match self {
            Tree::Leaf(_) => 1,
            Tree::Over(_, p) | Tree::Signal(_, p) => 1 + p.nodes(),
            Tree::Present(_, p, q) => 1 + p.nodes() + q.nodes(),
            Tree::Chain(_, trees) => trees.iter().map(Tree::nodes).sum::<usize>() + trees.len() - 1,
        }
    }

    /// The statement; both operators group to the right.
    pub fn statement(self) -> Statement {
        let below = |tree: Box<Tree>| Box::new(tree.statement());
        match self {
            Tree::Leaf(p) => p,
            Tree::Over(node, p) => node(below(p)),
            Tree::Signal(signal, p) => Signal(signal, below(p)),
            Tree::Present(signal, p, q) => Present(signal, below(p), below(q)),
            Tree::Chain(node, trees) => {
                let mut trees = trees.into_iter().rev().map(Tree::statement);
                let last = trees.next().unwrap();
                trees.fold(last, |q, p| node(p.into(), q.into()))
            }
        }
    }
}

/// Whether a number is in its kind's range.
pub fn in_range(part: Part) -> bool {
    let (digits, least, most) = match part {
        Word(_) => return true,
        Number(number) => (number, 1, 63),
        Part::Signal(signal) => (signal, 0, 31),
        Part::Pause(label) => (label, 1, 63),
    };
    digits.len() <= 2 && (least..=most).contains(&operand(digits))
}

/// The statement of a text, with refusals 18, 19 and 3.
fn statement(text: &[u8]) -> Result<Statement, Refusal> {
    let parts = parts(text).ok_or(18_u32)?;
    let tree = tree(&parts, MOST_OPEN).ok_or(18_u32)?;
    if !parts.iter().all(|part| in_range(*part)) {
        return Err(19);
    }
    if tree.nodes() > MOST_NODES {
        return Err(3);
    }
    Ok(tree.statement())
}

/// Reading: the table of a text, where a buffer of so many bytes holds it.
pub fn read(text: &[u8], room: usize) -> Result<Vec<u8>, Refusal> {
    let bytes = table::write(&statement(text)?);
    // the first node that earns 8, 9 or 10; the other refusals of check cannot come
    table::read(&bytes)?;
    if bytes.len() > room {
        return Err(13);
    }
    Ok(bytes)
}

/// The loosest operator outside brackets: none, `;` or `||`.
#[derive(PartialEq, PartialOrd)]
enum Loosest {
    Neither,
    Semicolon,
    Bars,
}

/// The parts of a statement's text, with the loosest operator in it.
fn written(p: &Statement) -> (Loosest, Vec<String>) {
    let words = |text: String| text.split(' ').map(String::from).collect::<Vec<_>>();
    let most = |p: &Statement, most: Loosest| {
        let (loosest, parts) = written(p);
        if loosest > most {
            return [words("[".into()), parts, words("]".into())].concat();
        }
        parts
    };
    let any = |p: &Statement| written(p).1;
    let end = || words("end".into());
    let parts = match p {
        Nothing => words("nothing".into()),
        Pause(label) => words(format!("{label}:pause")),
        Gotopause(label) => words(format!("gotopause {label}")),
        Emit(signal) => words(format!("emit S{signal}")),
        Exit(level) => words(format!("exit {level}")),
        Signal(signal, p) => [words(format!("signal S{signal} in")), any(p), end()].concat(),
        Present(signal, p, q) => {
            let then = words(format!("present S{signal} then"));
            [then, any(p), words("else".into()), any(q), end()].concat()
        }
        Loop(p) => [words("loop".into()), any(p), end()].concat(),
        Try(p) => [words("try".into()), any(p), end()].concat(),
        Sequence(p, q) => {
            let (p, q) = (most(p, Loosest::Neither), most(q, Loosest::Semicolon));
            return (Loosest::Semicolon, [p, words(";".into()), q].concat());
        }
        Parallel(p, q) => {
            return (
                Loosest::Bars,
                [most(p, Loosest::Semicolon), words("||".into()), any(q)].concat(),
            )
        }
    };
    (Loosest::Neither, parts)
}

/// The text that is written for a statement.
pub fn print(p: &Statement) -> String {
    written(p).1.join(" ")
}

/// Writing: the text of a table, where a buffer of so many bytes holds it.
pub fn write(table: &[u8], room: usize) -> Result<Vec<u8>, Refusal> {
    let text = print(&table::read(table)?).into_bytes();
    if text.len() > room {
        return Err(13);
    }
    Ok(text)
}

/// The statement of a text in a test, which may begin and end with blanks.
pub fn parse(text: &str) -> Statement {
    let refused = |refusal| panic!("refused {refusal}: {text}");
    statement(text.trim().as_bytes()).unwrap_or_else(refused)
}
