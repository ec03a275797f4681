//! Faults planted in the second implementation: the comparison has to report each of them.

use crate::misreading::{Misreading, Miswriting, MISREADINGS, MISWRITINGS};
use crate::mistakes::{Misdivision, Mistake, MISDIVISIONS, MISTAKES};
use crate::tool::{answer, put, Asked, Operation, ReachCells, Second, StepCells, Tool, Trimmed};
use crate::trial::{refusals, Outcome, Trial};
use second::table::bits;
use std::cell::Cell;

/// The so named thing that is lent: at its first byte, or at its last. Of a cell, its lowest bit or
/// its highest.
#[derive(Clone, Copy, Debug, PartialEq, Eq)]
pub struct Place {
    lent: &'static str,
    last: bool,
}

#[derive(Clone, Copy, Debug, PartialEq, Eq)]
pub enum Fault {
    /// another number is answered where this one is due
    Number(u32),
    /// something lent is changed although this refusal is answered
    Refused(u32, Place),
    /// an accepted result is changed
    Result(Place),
    /// a byte past an accepted result is changed
    Beyond(Place),
    /// step goes a wrong way
    Wrong(Mistake),
    /// what was kept is divided in a wrong way
    Misdivided(Misdivision),
    /// a text is read in a wrong way
    Misread(Misreading),
    /// a text is written in a wrong way
    Miswritten(Miswriting),
}

/// The cells and the buffers that are lent to an operation.
fn lent_to(operation: Operation) -> (&'static [&'static str], &'static [&'static str]) {
    match operation {
        Operation::Check => (&["nodes"], &[]),
        Operation::Reach => (&["start_ends", "start_labels", "reached", "rounds"], &[]),
        Operation::Trim => (&["nodes", "bytes", "thousandths", "remainder"], &["out"]),
        Operation::List => (&["count"], &["o", "k", "l"]),
        Operation::Step => (&["answer", "assumed", "emitted", "code", "reached"], &[]),
        Operation::ReadText | Operation::WriteText => (&["bytes"], &["out"]),
    }
}

/// The faults of an operation: each number changed, and each thing lent touched before each refusal,
/// in an accepted result, and past it; for trim, step, reading and writing also the mistakes.
fn faults(operation: Operation) -> Vec<Fault> {
    let refusals = || refusals(operation).map(|refusal| refusal as u32);
    let (cells, buffers) = lent_to(operation);
    let mut faults: Vec<Fault> = [0].into_iter().chain(refusals()).map(Fault::Number).collect();
    for last in [false, true] {
        for lent in cells.iter().chain(buffers) {
            let place = Place { lent, last };
            faults.extend(refusals().map(|refusal| Fault::Refused(refusal, place)));
            faults.push(Fault::Result(place));
        }
        faults.extend(buffers.iter().map(|lent| Fault::Beyond(Place { lent, last })));
    }
    match operation {
        Operation::Trim => faults.extend(MISDIVISIONS.iter().copied().map(Fault::Misdivided)),
        Operation::Step => faults.extend(MISTAKES.iter().copied().map(Fault::Wrong)),
        Operation::ReadText => faults.extend(MISREADINGS.iter().copied().map(Fault::Misread)),
        Operation::WriteText => faults.extend(MISWRITINGS.iter().copied().map(Fault::Miswritten)),
        _ => {}
    }
    faults
}

/// Something lent, as it is after a call.
enum Lent<'a> {
    Byte(&'a mut u8),
    Number(&'a mut u32),
    Size(&'a mut usize),
    Set(&'a mut u64),
    /// a buffer, and how many of its bytes an accepted result takes
    Buffer(&'a mut [u8], usize),
}

/// The part of a buffer that a fault changes.
#[derive(Clone, Copy)]
enum Part {
    Whole,
    Written,
    Beyond,
}

impl Lent<'_> {
    /// Whether there is something to change.
    fn has(&self, part: Part) -> bool {
        let Lent::Buffer(bytes, written) = self else { return true };
        match part {
            Part::Whole => !bytes.is_empty(),
            Part::Written => *written > 0,
            Part::Beyond => *written < bytes.len(),
        }
    }

    fn change(&mut self, part: Part, last: bool) {
        match self {
            Lent::Byte(cell) => **cell ^= if last { 1 << 7 } else { 1 },
            Lent::Number(cell) => **cell ^= if last { 1 << 31 } else { 1 },
            Lent::Size(cell) => **cell ^= if last { 1 << (usize::BITS - 1) } else { 1 },
            Lent::Set(cell) => **cell ^= if last { 1 << 63 } else { 1 },
            Lent::Buffer(bytes, written) => {
                let range = match part {
                    Part::Whole => 0..bytes.len(),
                    Part::Written => 0..*written,
                    Part::Beyond => *written..bytes.len(),
                };
                let at = if last { range.end - 1 } else { range.start };
                bytes[at] ^= 1;
            }
        }
    }
}

/// The second implementation with a fault in one call, the so-manyth to which the fault applies.
struct Planted {
    fault: Fault,
    left: Cell<u32>,
}

impl Planted {
    /// Whether this call, to which the fault applies, is the one.
    fn turn(&self) -> bool {
        let left = self.left.get();
        self.left.set(left.saturating_sub(1));
        left == 1
    }

    /// Spoils an answer where it is its turn.
    fn spoil(&self, answer: u32, lent: &mut [(&str, Lent)]) -> u32 {
        let (part, place) = match self.fault {
            Fault::Number(due) if due == answer && self.turn() => return answer + 1,
            Fault::Refused(refusal, place) if refusal == answer => (Part::Whole, place),
            Fault::Result(place) if answer == 0 => (Part::Written, place),
            Fault::Beyond(place) if answer == 0 => (Part::Beyond, place),
            _ => return answer,
        };
        let (_, lent) = lent.iter_mut().find(|(name, _)| *name == place.lent).unwrap();
        if lent.has(part) && self.turn() {
            lent.change(part, place.last);
        }
        answer
    }

    /// Spoils what was put into a buffer: in place of the right answer a wrong one, where there is
    /// one that differs, or else as above.
    fn spoil_put(
        &self,
        right: u32,
        wrong: Option<Result<Vec<u8>, u32>>,
        out: &mut [u8],
        bytes: &mut usize,
    ) -> u32 {
        let written = if right == 0 { *bytes } else { 0 };
        if let Some(wrong) = wrong {
            let given = if right == 0 { Ok(out[..written].to_vec()) } else { Err(right) };
            if wrong != given && self.turn() {
                return answer(wrong, |wrong| put(&wrong, out, bytes));
            }
        }
        let lent = &mut [("out", Lent::Buffer(out, written)), ("bytes", Lent::Size(bytes))];
        self.spoil(right, lent)
    }
}

impl Tool for Planted {
    fn check(&self, table: &[u8], nodes: &mut u32) -> u32 {
        let answer = Second.check(table, nodes);
        self.spoil(answer, &mut [("nodes", Lent::Number(nodes))])
    }

    fn reach(&self, table: &[u8], cells: &mut ReachCells) -> u32 {
        let answer = Second.reach(table, cells);
        let ReachCells { start_ends, start_labels, reached, rounds } = cells;
        let lent = &mut [
            ("start_ends", Lent::Byte(start_ends)),
            ("start_labels", Lent::Set(start_labels)),
            ("reached", Lent::Set(reached)),
            ("rounds", Lent::Number(rounds)),
        ];
        self.spoil(answer, lent)
    }

    fn trim(&self, table: &[u8], out: &mut [u8], cells: &mut Trimmed) -> u32 {
        let answer = Second.trim(table, out, cells);
        let Trimmed { nodes, bytes, thousandths, remainder } = cells;
        if let (Fault::Misdivided(mistake), 0) = (self.fault, answer) {
            let wrong = mistake.divide(bits(table, 4, 12) as u32, *nodes);
            if wrong != (*thousandths, *remainder) && self.turn() {
                (*thousandths, *remainder) = wrong;
            }
            return answer;
        }
        let written = if answer == 0 { *bytes } else { 0 };
        let lent = &mut [
            ("out", Lent::Buffer(out, written)),
            ("nodes", Lent::Number(nodes)),
            ("bytes", Lent::Size(bytes)),
            ("thousandths", Lent::Number(thousandths)),
            ("remainder", Lent::Number(remainder)),
        ];
        self.spoil(answer, lent)
    }

    fn list(&self, table: &[u8], asked: Asked, lent: [&mut [u8]; 3], count: &mut u32) -> u32 {
        let [o, k, l] = lent;
        let answer = Second.list(table, asked, [&mut *o, &mut *k, &mut *l], count);
        let places = if answer == 0 { *count as usize } else { 0 };
        let lent = &mut [
            ("o", Lent::Buffer(o, 4 * places)),
            ("k", Lent::Buffer(k, places)),
            ("l", Lent::Buffer(l, 8 * places)),
            ("count", Lent::Number(count)),
        ];
        self.spoil(answer, lent)
    }

    fn step(&self, table: &[u8], asked: Asked, cells: &mut StepCells) -> u32 {
        let mut wrong = *cells;
        let right = Second.step(table, asked, cells);
        if let Fault::Wrong(mistake) = self.fault {
            let given = answer(mistake.step(table, asked), |found| wrong.store(found));
            if (given, wrong) != (right, *cells) && self.turn() {
                *cells = wrong;
                return given;
            }
        }
        let StepCells { answer, assumed, emitted, code, reached } = cells;
        let lent = &mut [
            ("answer", Lent::Number(answer)),
            ("assumed", Lent::Number(assumed)),
            ("emitted", Lent::Number(emitted)),
            ("code", Lent::Number(code)),
            ("reached", Lent::Set(reached)),
        ];
        self.spoil(right, lent)
    }

    fn read_text(&self, text: &[u8], out: &mut [u8], bytes: &mut usize) -> u32 {
        let wrong = match self.fault {
            Fault::Misread(mistake) => Some(mistake.read(text, out.len())),
            _ => None,
        };
        let right = Second.read_text(text, out, bytes);
        self.spoil_put(right, wrong, out, bytes)
    }

    fn write_text(&self, table: &[u8], out: &mut [u8], bytes: &mut usize) -> u32 {
        let wrong = match self.fault {
            Fault::Miswritten(mistake) => Some(mistake.write(table, out.len())),
            _ => None,
        };
        let right = Second.write_text(table, out, bytes);
        self.spoil_put(right, wrong, out, bytes)
    }
}

/// Plants each fault of an operation in each call of a test to which it applies, one at a time. Each
/// has to be reported, and nothing else. Gives the number of faults and of calls spoilt.
pub fn planted(
    operation: Operation,
    test: &dyn Fn(&mut Trial) -> Outcome,
) -> Result<(usize, u32), String> {
    let faults = faults(operation);
    let mut spoilt = 0;
    for &fault in &faults {
        for turn in 1.. {
            let tool = Planted { fault, left: Cell::new(turn) };
            let reported = test(&mut Trial::new(&tool)).is_err();
            let struck = tool.left.get() == 0;
            let wrong = match (struck, reported) {
                (true, true) => {
                    spoilt += 1;
                    continue;
                }
                (false, false) if turn > 1 => break,
                (false, false) => "applies to no call",
                (true, false) => "was not reported",
                (false, true) => "was reported and not there",
            };
            return Err(format!("{operation:?}: {fault:?} {wrong}"));
        }
    }
    Ok((faults.len(), spoilt))
}
