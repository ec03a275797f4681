//! Wrong ways to read and to write a text, that a programmer might take. The calls made for each
//! refusal have to tell each of them from the right one.

use crate::mistakes::mistakes;
use second::statement::Statement::{self, *};
use second::table::{self, length, Refusal, MOST_DEPTH, MOST_NODES};
use second::text::{in_range, parts, print, tree, Part, MOST_OPEN};
use second::trees::{parallel, sequence};

mistakes! { Misreading MISREADINGS
    /// `;` and `||` group to the left
    LeftGrouping
    /// `||` binds tighter than `;`
    BarsTighter
    /// a branch's word may stand without its branch
    EmptyBranch
    /// no branch may be omitted
    BranchRequired
    /// a number may begin with zeros
    LeadingZero
    /// a number is taken modulo 256
    NumberWrapped
    /// blanks at the end are allowed
    BlankAtEnd
    /// blanks at the beginning are allowed
    BlankAtBeginning
    /// a tab is a blank
    TabIsBlank
    /// a line feed is no blank
    SpacesAlone
    /// a blank may stand inside a part
    BlankInside
    /// no blank is needed between a word and a number
    BlankOmitted
    /// 61 deep is allowed
    DeeperByOne
    /// a present without branches does not count for the depth
    BareNotCounted
    /// 19 comes before 18
    OutsideFirst
    /// 3 comes before 19
    ManyFirst
    /// reading ends at the 1,025th node, so that 3 comes before 18 and 19
    ReadingEnds
    /// 8 comes before 3
    DeepFirst
    /// the omitted branches of a present without any are no nodes for 8
    BareNotDeep
    /// 13 comes before 8, 9 and 10
    ShortFirst
    /// 8 comes first, then 9, then 10, whichever node earns it
    ByRefusal
}

use Misreading::*;

/// The statement with its chains grouped to the left.
fn regrouped(p: Statement) -> Statement {
    let below = |p: Box<Statement>| Box::new(regrouped(*p));
    match p {
        Sequence(p, q) => match *q {
            Sequence(q, r) => regrouped(sequence(sequence(*p, *q), *r)),
            q => sequence(regrouped(*p), regrouped(q)),
        },
        Parallel(p, q) => match *q {
            Parallel(q, r) => regrouped(parallel(parallel(*p, *q), *r)),
            q => parallel(regrouped(*p), regrouped(q)),
        },
        Signal(signal, p) => Signal(signal, below(p)),
        Present(signal, p, q) => Present(signal, below(p), below(q)),
        Loop(p) => Loop(below(p)),
        Try(p) => Try(below(p)),
        leaf => leaf,
    }
}

/// The statement with sequences for parallels and parallels for sequences.
fn swapped(p: Statement) -> Statement {
    let below = |p: Box<Statement>| Box::new(swapped(*p));
    match p {
        Sequence(p, q) => Parallel(below(p), below(q)),
        Parallel(p, q) => Sequence(below(p), below(q)),
        Signal(signal, p) => Signal(signal, below(p)),
        Present(signal, p, q) => Present(signal, below(p), below(q)),
        Loop(p) => Loop(below(p)),
        Try(p) => Try(below(p)),
        leaf => leaf,
    }
}

/// The text with each run of digits changed.
fn with_digits(text: &str, change: fn(&str) -> String) -> String {
    let mut changed = String::new();
    let mut rest = text;
    while let Some(at) = rest.find(|c: char| c.is_ascii_digit()) {
        let end = rest[at..].find(|c: char| !c.is_ascii_digit()).map_or(rest.len(), |n| at + n);
        changed += &rest[..at];
        changed += &change(&rest[at..end]);
        rest = &rest[end..];
    }
    changed + rest
}

fn without_zeros(digits: &str) -> String {
    let rest = digits.trim_start_matches('0');
    if rest.is_empty() { "0" } else { rest }.into()
}

fn wrapped(digits: &str) -> String {
    if digits.starts_with('0') {
        return digits.into();
    }
    let value = digits.bytes().fold(0_u8, |n, d| n.wrapping_mul(10).wrapping_add(d - b'0'));
    value.to_string()
}

/// The parts with `nothing` for each branch that is empty after its word.
fn filled<'a>(parts: &[Part<'a>]) -> Vec<Part<'a>> {
    let mut all = Vec::new();
    for (i, &part) in parts.iter().enumerate() {
        all.push(part);
        let next = parts.get(i + 1);
        if matches!(part, Part::Word("then" | "else"))
            && matches!(next, Some(Part::Word("else" | "end")))
        {
            all.push(Part::Word("nothing"));
        }
    }
    all
}

/// How many nodes the parts show, omitted branches left out.
fn nodes_shown(parts: &[Part]) -> usize {
    let none = |part: &&Part| {
        matches!(part, Part::Word("in" | "then" | "else" | "end" | "[" | "]"))
            || matches!(part, Part::Number(_) | Part::Signal(_))
    };
    parts.len() - parts.iter().filter(none).count()
}

/// Whether an exit of the statement is too high with so many tries around it.
fn leaves(p: &Statement, tries: u8) -> bool {
    match p {
        Exit(level) => *level > tries,
        Try(p) => leaves(p, tries + 1),
        _ => p.children().any(|child| leaves(child, tries)),
    }
}

/// The parts with `nothing` for each present without branches.
fn without_bare<'a>(parts: &[Part<'a>]) -> Vec<Part<'a>> {
    let mut all = Vec::new();
    let mut rest = parts;
    while let [first, more @ ..] = rest {
        if let [Part::Word("present"), Part::Signal(_), Part::Word("end"), more @ ..] = rest {
            all.push(Part::Word("nothing"));
            rest = more;
            continue;
        }
        all.push(*first);
        rest = more;
    }
    all
}

impl Misreading {
    fn retouched(self, text: &str) -> String {
        let blanks = [' ', '\n'];
        match self {
            LeadingZero => with_digits(text, without_zeros),
            NumberWrapped => with_digits(text, wrapped),
            BlankAtEnd => text.trim_end_matches(blanks).into(),
            BlankAtBeginning => text.trim_start_matches(blanks).into(),
            TabIsBlank => text.replace('\t', " "),
            SpacesAlone => text.replace('\n', "\t"),
            BlankInside => {
                text.replace("S ", "S").replace(" :", ":").replace(": ", ":").replace("| |", "||")
            }
            BlankOmitted => with_digits(text, |digits| format!(" {digits} "))
                .replace("S ", "S")
                .replace(" :", ":")
                .trim_matches(' ')
                .into(),
            BarsTighter => text.replace("||", "#").replace(';', "||").replace('#', ";"),
            _ => text.into(),
        }
    }

    fn deepest(self, parts: &[Part]) -> usize {
        let uncounted = self == BareNotCounted && tree(&without_bare(parts), MOST_OPEN).is_some();
        MOST_OPEN + usize::from(uncounted || self == DeeperByOne)
    }

    /// The statement of a text, with refusals 18, 19 and 3.
    fn statement(self, text: &[u8]) -> Result<Statement, Refusal> {
        let text = self.retouched(std::str::from_utf8(text).map_err(|_| 18_u32)?);
        let mut parts = parts(text.as_bytes()).ok_or(18_u32)?;
        let outside = !parts.iter().all(|part| in_range(*part));
        if outside && self == OutsideFirst {
            return Err(19);
        }
        if self == ReadingEnds && nodes_shown(&parts) > MOST_NODES {
            return Err(3);
        }
        if self == EmptyBranch {
            parts = filled(&parts);
        }
        let bare = |two: &[Part]| matches!(two, [Part::Signal(_), Part::Word("else" | "end")]);
        if self == BranchRequired && parts.windows(2).any(bare) {
            return Err(18);
        }
        let tree = tree(&parts, self.deepest(&parts)).ok_or(18_u32)?;
        let many = tree.nodes() > MOST_NODES;
        match (outside, many) {
            (true, true) if self == ManyFirst => Err(3),
            (true, _) => Err(19),
            (_, true) if self == DeepFirst => {
                Err(if tree.statement().depth() > MOST_DEPTH { 8 } else { 3 })
            }
            (_, true) => Err(3),
            _ => Ok(tree.statement()),
        }
    }

    /// Reading with this mistake.
    pub fn read(self, text: &[u8], room: usize) -> Result<Vec<u8>, Refusal> {
        let p = match (self, self.statement(text)?) {
            (LeftGrouping, p) => regrouped(p),
            (BarsTighter, p) => swapped(p),
            (_, p) => p,
        };
        let short = length(p.nodes()) > room;
        if short && self == ShortFirst {
            return Err(13);
        }
        if self == ByRefusal && p.depth() > MOST_DEPTH {
            return Err(8);
        }
        if self == ByRefusal && leaves(&p, 0) {
            return Err(9);
        }
        let bytes = table::write(&p);
        match (self, parts(text)) {
            (BareNotDeep, Some(parts)) => {
                let tree = tree(&without_bare(&parts), MOST_OPEN).ok_or(18_u32)?;
                table::read(&table::write(&tree.statement()))?
            }
            _ => table::read(&bytes)?,
        };
        if short {
            return Err(13);
        }
        Ok(bytes)
    }
}

mistakes! { Miswriting MISWRITINGS
    /// no brackets around a sequence before `;`
    SequenceBare
    /// no brackets around a parallel before `;`
    ParallelBare
    /// no brackets around a parallel behind `;`
    ParallelBehindBare
    /// no brackets around a parallel before `||`
    ParallelBesideBare
    /// brackets around a sequence behind `;`
    SequenceBracketed
    /// brackets around a parallel behind `||`
    ParallelBracketed
    /// brackets around a sequence beside `||`
    ChainBracketed
    /// branches that are nothing are omitted
    BranchesOmitted
    /// no spaces around `;`
    Tight
    /// a line feed at the end
    LineEnded
    /// what the buffer holds is written where it is too short
    ShortWritten
}

use Miswriting::*;

impl Miswriting {
    /// The text of the statement in brackets, or without.
    fn part(self, p: &Statement, brackets: bool) -> String {
        let text = self.print(p);
        if brackets {
            return format!("[ {text} ]");
        }
        text
    }

    fn branch(self, word: &str, p: &Statement) -> String {
        if self == BranchesOmitted && *p == Nothing {
            return String::new();
        }
        format!(" {word} {}", self.print(p))
    }

    fn print(self, p: &Statement) -> String {
        let is_sequence = |p: &Statement| matches!(p, Sequence(_, _));
        let is_parallel = |p: &Statement| matches!(p, Parallel(_, _));
        match p {
            Sequence(p, q) => {
                let first = is_sequence(p) && self != SequenceBare
                    || is_parallel(p) && self != ParallelBare;
                let second = is_parallel(q) && self != ParallelBehindBare
                    || is_sequence(q) && self == SequenceBracketed;
                let operator = if self == Tight { ";" } else { " ; " };
                format!("{}{operator}{}", self.part(p, first), self.part(q, second))
            }
            Parallel(p, q) => {
                let chain = |p: &Statement| is_sequence(p) && self == ChainBracketed;
                let first = is_parallel(p) && self != ParallelBesideBare || chain(p);
                let second = is_parallel(q) && self == ParallelBracketed || chain(q);
                format!("{} || {}", self.part(p, first), self.part(q, second))
            }
            Signal(signal, p) => format!("signal S{signal} in {} end", self.print(p)),
            Present(signal, p, q) => {
                let (then, otherwise) = (self.branch("then", p), self.branch("else", q));
                format!("present S{signal}{then}{otherwise} end")
            }
            Loop(p) => format!("loop {} end", self.print(p)),
            Try(p) => format!("try {} end", self.print(p)),
            leaf => print(leaf),
        }
    }

    /// Writing with this mistake.
    pub fn write(self, table: &[u8], room: usize) -> Result<Vec<u8>, Refusal> {
        let mut text = self.print(&table::read(table)?);
        if self == LineEnded {
            text += "\n";
        }
        if text.len() > room {
            if self == ShortWritten {
                text.truncate(room);
                return Ok(text.into_bytes());
            }
            return Err(13);
        }
        Ok(text.into_bytes())
    }
}
