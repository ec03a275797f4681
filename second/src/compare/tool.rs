//! What is compared: something that answers the seven calls of the C interface. The proved library,
//! the second implementation, and the plain one of the benchmark.

pub use second::plain::{Asked, Trimmed};
use second::react::Reaction;
use second::step::Answer;
use second::{codes, library, list, plain, plain_text, step, table, text, trim};

#[derive(Clone, Copy, Debug, PartialEq, Eq)]
pub enum Operation {
    Check,
    Reach,
    Trim,
    List,
    Step,
    ReadText,
    WriteText,
}

use Operation::*;

pub const OPERATIONS: [Operation; 7] = [Check, Reach, Trim, List, Step, ReadText, WriteText];

/// Where reach leaves its results.
#[derive(Clone, Copy, Debug, PartialEq, Eq)]
pub struct ReachCells {
    pub start_ends: u8,
    pub start_labels: u64,
    pub reached: u64,
    pub rounds: u32,
}

/// Where step leaves its results.
#[derive(Clone, Copy, Debug, PartialEq, Eq)]
pub struct StepCells {
    pub answer: u32,
    pub assumed: u32,
    pub emitted: u32,
    pub code: u32,
    pub reached: u64,
}

impl StepCells {
    /// "One" is 0 and goes to all of them; "none" is 1 and "several" 2, which leave the other four.
    pub fn store(&mut self, answer: Answer) {
        match answer {
            Answer::One(step::Step { e, r: Reaction { o, k, l } }) => {
                let code = k.into();
                *self = StepCells { answer: 0, assumed: e, emitted: o, code, reached: l };
            }
            Answer::None => self.answer = 1,
            Answer::Several => self.answer = 2,
        }
    }

    /// The answer that was stored.
    pub fn stored(&self) -> Answer {
        match self.answer {
            0 => {
                let r = Reaction { o: self.emitted, k: self.code as u8, l: self.reached };
                Answer::One(step::Step { e: self.assumed, r })
            }
            1 => Answer::None,
            _ => Answer::Several,
        }
    }
}

/// Each answers 0 or the refusal and gives its results through what is lent, as in C.
pub trait Tool {
    fn check(&self, table: &[u8], nodes: &mut u32) -> u32;
    fn reach(&self, table: &[u8], cells: &mut ReachCells) -> u32;
    fn trim(&self, table: &[u8], out: &mut [u8], cells: &mut Trimmed) -> u32;
    fn list(&self, table: &[u8], asked: Asked, lent: [&mut [u8]; 3], count: &mut u32) -> u32;
    fn step(&self, table: &[u8], asked: Asked, cells: &mut StepCells) -> u32;
    fn read_text(&self, text: &[u8], out: &mut [u8], bytes: &mut usize) -> u32;
    fn write_text(&self, table: &[u8], out: &mut [u8], bytes: &mut usize) -> u32;
}

/// The second implementation.
pub struct Second;

/// Stores an accepted answer through `store`, or passes the refusal on.
pub fn answer<T>(result: Result<T, u32>, store: impl FnOnce(T)) -> u32 {
    match result {
        Ok(value) => {
            store(value);
            0
        }
        Err(refusal) => refusal,
    }
}

/// Leaves a result in front of a buffer, and its length.
pub fn put(result: &[u8], out: &mut [u8], bytes: &mut usize) {
    out[..result.len()].copy_from_slice(result);
    *bytes = result.len();
}

impl Tool for Second {
    fn check(&self, table: &[u8], nodes: &mut u32) -> u32 {
        answer(table::check(table), |n| *nodes = n as u32)
    }

    fn reach(&self, table: &[u8], cells: &mut ReachCells) -> u32 {
        answer(codes::reach(table), |reached| {
            *cells = ReachCells {
                start_ends: reached.ends.into(),
                start_labels: codes::as_number(&reached.start),
                reached: codes::as_number(&reached.r),
                rounds: reached.rounds as u32,
            }
        })
    }

    fn trim(&self, table: &[u8], out: &mut [u8], cells: &mut Trimmed) -> u32 {
        answer(trim::trim_table(table, out.len()), |trimmed| {
            put(&trimmed.table, out, &mut cells.bytes);
            cells.nodes = trimmed.nodes as u32;
            cells.thousandths = trimmed.share.thousandths as u32;
            cells.remainder = trimmed.share.remainder as u32;
        })
    }

    fn list(&self, table: &[u8], asked: Asked, lent: [&mut [u8]; 3], count: &mut u32) -> u32 {
        let [o, k, l] = lent;
        let places = (o.len() / 4).min(k.len()).min(l.len() / 8);
        let state = list::state(asked.mark, asked.labels);
        answer(list::list(table, asked.signals, state, places), |reactions| {
            for (i, r) in reactions.iter().enumerate() {
                o[4 * i..4 * i + 4].copy_from_slice(&r.o.to_be_bytes());
                k[i] = r.k;
                l[8 * i..8 * i + 8].copy_from_slice(&r.l.to_be_bytes());
            }
            *count = reactions.len() as u32;
        })
    }

    fn step(&self, table: &[u8], asked: Asked, cells: &mut StepCells) -> u32 {
        let state = list::state(asked.mark, asked.labels);
        answer(step::step(table, asked.signals, state), |found| cells.store(found))
    }

    fn read_text(&self, text: &[u8], out: &mut [u8], bytes: &mut usize) -> u32 {
        answer(text::read(text, out.len()), |table| put(&table, out, bytes))
    }

    fn write_text(&self, table: &[u8], out: &mut [u8], bytes: &mut usize) -> u32 {
        answer(text::write(table, out.len()), |text| put(&text, out, bytes))
    }
}

/// The implementation for speed that the benchmark uses.
pub struct Plain;

impl Tool for Plain {
    fn check(&self, table: &[u8], nodes: &mut u32) -> u32 {
        answer(plain::check(table), |n| *nodes = n)
    }

    fn reach(&self, table: &[u8], cells: &mut ReachCells) -> u32 {
        answer(plain::reach(table), |plain::Reached { ends, start, r, rounds }| {
            *cells = ReachCells { start_ends: ends.into(), start_labels: start, reached: r, rounds }
        })
    }

    fn trim(&self, table: &[u8], out: &mut [u8], cells: &mut Trimmed) -> u32 {
        answer(plain::trim(table, out), |trimmed| *cells = trimmed)
    }

    fn list(&self, table: &[u8], asked: Asked, lent: [&mut [u8]; 3], count: &mut u32) -> u32 {
        answer(plain::list(table, asked, lent), |n| *count = n)
    }

    fn step(&self, table: &[u8], asked: Asked, cells: &mut StepCells) -> u32 {
        answer(plain::step(table, asked), |found| cells.store(found))
    }

    fn read_text(&self, text: &[u8], out: &mut [u8], bytes: &mut usize) -> u32 {
        answer(plain_text::read(text, out), |length| *bytes = length)
    }

    fn write_text(&self, table: &[u8], out: &mut [u8], bytes: &mut usize) -> u32 {
        answer(plain_text::write(table, out), |length| *bytes = length)
    }
}

/// The proved library.
pub struct Library;

impl Tool for Library {
    fn check(&self, table: &[u8], nodes: &mut u32) -> u32 {
        library::check(table, nodes)
    }

    fn reach(&self, table: &[u8], cells: &mut ReachCells) -> u32 {
        let ReachCells { start_ends, start_labels, reached, rounds } = cells;
        library::reach(table, start_ends, start_labels, reached, rounds)
    }

    fn trim(&self, table: &[u8], out: &mut [u8], cells: &mut Trimmed) -> u32 {
        let Trimmed { nodes, bytes, thousandths, remainder } = cells;
        library::trim(table, out, [nodes, thousandths, remainder], bytes)
    }

    fn list(&self, table: &[u8], asked: Asked, lent: [&mut [u8]; 3], count: &mut u32) -> u32 {
        library::list(table, asked, lent, count)
    }

    fn step(&self, table: &[u8], asked: Asked, cells: &mut StepCells) -> u32 {
        let StepCells { answer, assumed, emitted, code, reached } = cells;
        library::step(table, asked, [answer, assumed, emitted, code], reached)
    }

    fn read_text(&self, text: &[u8], out: &mut [u8], bytes: &mut usize) -> u32 {
        library::read_text(text, out, bytes)
    }

    fn write_text(&self, table: &[u8], out: &mut [u8], bytes: &mut usize) -> u32 {
        library::write_text(table, out, bytes)
    }
}
