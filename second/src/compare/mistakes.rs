//! Wrong ways to step, and to say how much was kept, that a programmer might take. The calls made for
//! the answers and refusals of step and of trim have to tell each of them from the right one.

use crate::listing::signals;
use crate::tool::Asked;
use second::list::{state, too_many, MOST_SIGNALS};
use second::react::{react, Reaction, State};
use second::statement::Statement::{self, *};
use second::step::{answer, emitted_free, made_of, Answer, Step, MOST_FREE};
use second::table::{read, Refusal};

/// A sort of mistakes, and the list of all of them.
macro_rules! mistakes {
    ($sort:ident $all:ident $($(#[$meaning:meta])* $mistake:ident)*) => {
        #[derive(Clone, Copy, Debug, PartialEq, Eq)]
        pub enum $sort { $($(#[$meaning])* $mistake,)* }
        pub const $all: &[$sort] = &[$($sort::$mistake),*];
    };
}

pub(crate) use mistakes;

mistakes! { Mistake MISTAKES
    /// E is the provided set alone
    ProvidedAlone
    /// a reaction need not emit what E has beyond the provided set
    NotEmitted
    /// the provided set is given for E
    ProvidedGiven
    /// provided signals that the table does not name are left out of E
    ForeignForgotten
    /// the first step found is the answer
    FirstFound
    /// a reaction that both rules of a declaration derive is taken for two
    DerivedTwice
    /// a signal counts for 17 though it is emitted inside declarations of it alone
    DeclaredCounted
    /// a signal does not count for 17 where it is declared elsewhere
    DeclaredElsewhere
    /// each emit counts for 17, not each signal
    EmitsCounted
    /// provided signals do not count for 17
    ProvidedUncounted
    /// 17 comes before 14
    SeventeenFirst
    /// 15 comes before 14 and 17, where a list under the provided set has over 64 reactions
    FifteenFirst
    /// 15 is looked for under the provided set alone
    CrowdedUnderProvided
    /// 15 is given only where that E has a step
    CrowdedWithStep
    /// the labels count at the start
    LabelsAtStart
}

use Mistake::*;

/// Each signal of an emit and of a declaration, as often as it stands there.
fn emitted_and_declared(p: &Statement) -> (Vec<u8>, u32) {
    let own = match p {
        Emit(signal) => (vec![*signal], 0),
        Signal(signal, _) => (Vec::new(), 1 << signal),
        _ => (Vec::new(), 0),
    };
    p.children().map(emitted_and_declared).fold(own, |(mut emits, declared), (more, others)| {
        emits.extend(more);
        (emits, declared | others)
    })
}

impl Mistake {
    /// The signals that count for 17.
    fn counted(self, p: &Statement, provided: u32) -> u32 {
        let (emits, declared) = emitted_and_declared(p);
        let counted = match self {
            EmitsCounted => return emits.len() as u32,
            DeclaredCounted => emits.iter().fold(0, |set, signal| set | 1 << signal),
            DeclaredElsewhere => emitted_free(p) & !declared,
            ProvidedUncounted => emitted_free(p) & !provided,
            _ => emitted_free(p),
        };
        counted.count_ones()
    }

    fn refused(self, p: &Statement, provided: u32) -> Result<(), Refusal> {
        let nested = p.nested_signals() > MOST_SIGNALS;
        let many = self.counted(p, provided) > MOST_FREE;
        match (nested, many) {
            (true, true) if self == SeventeenFirst => Err(17),
            (true, _) => Err(14),
            (_, true) => Err(17),
            _ => Ok(()),
        }
    }

    fn reactions(self, p: &Statement, state: State, e: u32) -> Vec<Reaction> {
        let mut reactions: Vec<Reaction> = react(p, state, e).into_iter().collect();
        if let (DerivedTwice, Signal(signal, body)) = (self, p) {
            let s = 1 << signal;
            let emitting = react(body, state, e | s).into_iter().filter(|r| r.o & s != 0);
            reactions = react(body, state, e & !s).into_iter().collect();
            reactions.extend(emitting.map(|r| Reaction { o: r.o & !s, ..r }));
        }
        reactions
    }

    fn steps(self, p: &Statement, state: State, i: u32, e: u32) -> Vec<Step> {
        let reactions = self.reactions(p, state, e).into_iter();
        let steps = reactions.filter(|r| self == NotEmitted || e == i | r.o);
        let given = match self {
            ProvidedGiven => i,
            ForeignForgotten => e & signals(p),
            _ => e,
        };
        steps.map(|r| Step { e: given, r }).collect()
    }

    fn crowded(self, p: &Statement, state: State, i: u32, e: u32) -> bool {
        let looked_at = match self {
            CrowdedUnderProvided => e == i,
            CrowdedWithStep => !self.steps(p, state, i, e).is_empty(),
            _ => true,
        };
        looked_at && too_many(p, state, e)
    }

    /// The operation step with this mistake.
    pub fn step(self, table: &[u8], asked: Asked) -> Result<Answer, Refusal> {
        let p = read(table)?;
        let Asked { signals: i, mut mark, labels } = asked;
        mark |= u32::from(self == LabelsAtStart && labels != 0);
        let state = state(mark, labels);
        if self == FifteenFirst && too_many(&p, state, i) {
            return Err(15);
        }
        self.refused(&p, i)?;
        let assumed = made_of(i, if self == ProvidedAlone { 0 } else { emitted_free(&p) });
        if assumed.iter().any(|e| self.crowded(&p, state, i, *e)) {
            return Err(15);
        }
        let mut steps: Vec<Step> =
            assumed.into_iter().flat_map(|e| self.steps(&p, state, i, e)).collect();
        steps.truncate(if self == FirstFound { 1 } else { steps.len() });
        Ok(answer(&steps))
    }
}

mistakes! { Misdivision MISDIVISIONS
    /// nodes before and nodes after are exchanged
    Exchanged
    /// a quotient with a remainder is rounded up
    RoundedUp
    /// the quotient is rounded to the nearest
    RoundedToNearest
    /// the remainder is that of a division by 1,000, and so 0
    OtherDivisor
    /// the remainder is that of the nodes after, not of a thousand times as many
    ThousandForgotten
    /// the remainder is what is missing to the next quotient
    RemainderMissing
    /// hundredths, not thousandths
    Hundredths
    /// what was stripped, not what was kept
    Stripped
    /// no more than 1,000, as if no program could become longer
    Capped
    /// the thousandfold cut to 16 bits
    SixteenBits
}

impl Misdivision {
    /// The quotient and the remainder of a table of so many nodes and its trimmed table.
    pub fn divide(self, before: u32, after: u32) -> (u32, u32) {
        let dividend = 1_000 * after;
        let (quotient, remainder) = (dividend / before, dividend % before);
        match self {
            Misdivision::Exchanged => (1_000 * before / after, 1_000 * before % after),
            Misdivision::RoundedUp => (dividend.div_ceil(before), remainder),
            Misdivision::RoundedToNearest => ((dividend + before / 2) / before, remainder),
            Misdivision::OtherDivisor => (quotient, dividend % 1_000),
            Misdivision::ThousandForgotten => (quotient, after % before),
            Misdivision::RemainderMissing => (quotient, (before - remainder) % before),
            Misdivision::Hundredths => (100 * after / before, 100 * after % before),
            Misdivision::Stripped => {
                let gone = 1_000 * before.saturating_sub(after);
                (gone / before, gone % before)
            }
            Misdivision::Capped => (quotient.min(1_000), remainder),
            Misdivision::SixteenBits => {
                let cut = u32::from(dividend as u16);
                (cut / before, cut % before)
            }
        }
    }
}
