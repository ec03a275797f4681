//! The operation list, with refusals 14 to 16.

use crate::react::{react, Reaction, State, State::*};
use crate::statement::Statement;
use crate::table::{read, Refusal};
use Statement::*;

pub const MOST_SIGNALS: usize = 12;
pub const MOST_REACTIONS: usize = 64;

/// Whether p in this state under e has a reaction with code 0.
fn ends(p: &Statement, state: State, e: u32) -> bool {
    react(p, state, e).iter().any(|r| r.k == 0)
}

/// Whether some list that p needs, or its own, has over 64 reactions. The lists needed come first:
/// where none of them is over 64, p's own list is quickly made.
pub fn too_many(p: &Statement, state: State, e: u32) -> bool {
    let needed = match p {
        Nothing | Pause(_) | Gotopause(_) | Emit(_) | Exit(_) => false,
        Signal(s, p) => too_many(p, state, e | 1 << s) || too_many(p, state, e & !(1 << s)),
        Present(s, p, q) => match state {
            Start => too_many(if e >> s & 1 == 1 { p } else { q }, state, e),
            Resumed(_) => too_many(p, state, e) || too_many(q, state, e),
        },
        Sequence(p, q) => {
            too_many(p, state, e)
                || state != Start && too_many(q, state, e)
                || ends(p, state, e) && too_many(q, Start, e)
        }
        Loop(p) => {
            too_many(p, state, e) || state != Start && ends(p, state, e) && too_many(p, Start, e)
        }
        Parallel(p, q) => too_many(p, state, e) || too_many(q, state, e),
        Try(p) => too_many(p, state, e),
    };
    needed || react(p, state, e).len() > MOST_REACTIONS
}

/// The state that a mark and a label set name.
pub fn state(mark: u32, labels: u64) -> State {
    if mark == 0 {
        Start
    } else {
        Resumed(labels)
    }
}

/// The statement that a table holds, or check's refusal or 14.
pub fn shallow(bytes: &[u8]) -> Result<Statement, Refusal> {
    let p = read(bytes)?;
    if p.nested_signals() > MOST_SIGNALS {
        return Err(14);
    }
    Ok(p)
}

/// The operation list, `places` being the least number of places of the three result buffers.
pub fn list(bytes: &[u8], e: u32, state: State, places: usize) -> Result<Vec<Reaction>, Refusal> {
    let p = shallow(bytes)?;
    if too_many(&p, state, e) {
        return Err(15);
    }
    let reactions = react(&p, state, e);
    if places < reactions.len() {
        return Err(16);
    }
    Ok(reactions.into_iter().collect())
}
