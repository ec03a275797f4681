//! The second implementation by itself: cases A to L of document 01, and what must hold of it.

use crate::listing::{signals, work};
use crate::made::{grown_tables, tables};
use crate::reaching::made;
use crate::stepping::{examples, ten_signals};
use crate::texts;
use crate::trial::{hex, Outcome};
use crate::trimming::{shares, AMPLE};
use crate::Amount;
use second::codes::{d, rounds, s, Codes, Labels, Qualified::*};
use second::list::{state, too_many};
use second::random::{program, table, Random};
use second::react::{react, Reaction, State, State::*};
use second::report::report;
use second::step::{emitted_free, made_of, step, steps_under, subsets, Step};
use second::table::{check, length, read, write, MOST_DEPTH, MOST_NODES};
use second::text::{self, parse, print};
use second::trim::{trim_program, trim_table, Share};
use std::collections::BTreeSet;
use std::fmt::Debug;

fn same<T: Debug + PartialEq>(what: &str, given: T, wanted: T) -> Outcome {
    if given == wanted {
        return Ok(());
    }
    Err(format!("{what}: {given:?} where {wanted:?} is right"))
}

fn reactions(text: &str, state: State, e: u32) -> Vec<(u32, u8, u64)> {
    react(&parse(text), state, e).into_iter().map(|Reaction { o, k, l }| (o, k, l)).collect()
}

/// Figure 8's middle program; S0 is I and S1 is O.
const FIGURE_8: &str = "
    try exit 1 ; try present S0 then 1:pause ; exit 1 end ; 2:pause ; emit S1 end end ;
    try present S0 then gotopause 1 ; exit 1 end ; gotopause 2 ; emit S1 end";

const FIGURE_8_TRIMMED: &str = "
    try exit 1 ; try [1:pause ; exit 1] ; 2:pause ; emit S1 end end ;
    present S0 then gotopause 1 end ; gotopause 2";

/// Cases A to L. S0 stands for S, S1 for B.
pub fn lettered(_: Amount) -> Outcome {
    let none = (Labels::new(), 1);
    same("A", hex(&write(&parse("nothing"))), "10 01 00 00".into())?;
    same("A", s(&parse("nothing")), Codes::from([Zero]))?;
    same("A", rounds(&parse("nothing")), none)?;

    same("B", hex(&write(&parse("1:pause"))), "10 01 10 40".into())?;
    same("B", rounds(&parse("1:pause")), (Labels::from([1]), 2))?;

    let c = parse("present S0 then exit 7 end || 3:pause || gotopause 4");
    same("C", s(&c), Codes::from([One(3), One(4), Higher(8)]))?;

    let p = parse("1:pause ; 2:pause || 3:pause ; 4:pause ; exit 6");
    same("D", d(&Labels::from([1]), &p), Codes::from([One(2)]))?;
    same("D", d(&Labels::from([3, 4]), &p), Codes::from([One(4), Higher(7)]))?;
    let all = Codes::from([Zero, One(2), One(4), Higher(7)]);
    same("D", d(&Labels::from([1, 2, 3, 4]), &p), all)?;

    for e in [0, 1] {
        let text = "signal S0 in present S0 then emit S0 end end";
        same("E", reactions(text, Start, e), vec![(0, 0, 0)])?;
        same("J", reactions("signal S0 in present S0 else emit S0 end end", Start, e), vec![])?;
    }

    let f = parse("try 1:pause ; exit 1 || 2:pause ; 3:pause end");
    same("F", rounds(&f), (Labels::from([1, 2, 3]), 3))?;
    same("F", report(&write(&f)), "nodes 8 8\nlabels 1 2 3\nrounds 3\n".into())?;

    let g = parse("try try exit 1 ; emit S1 || exit 2 end end");
    same("G", g.nodes(), 7)?;
    same("G", print(&trim_program(&g)), "try try exit 1 || exit 2 end end".into())?;
    same("G", react(&g, Start, 2), react(&trim_program(&g), Start, 2))?;
    same("G", reactions(&print(&g), Start, 2), vec![(0, 0, 0)])?;

    let h = parse(FIGURE_8);
    same("H", (h.nodes(), trim_program(&h).nodes()), (24, 17))?;
    same("H", trim_program(&h), parse(FIGURE_8_TRIMMED))?;

    let text = "1:pause ; 2:pause";
    same("I", reactions(text, Resumed(6), 0), vec![(0, 0, 0), (0, 1, 4)])?;

    same("K", reactions("gotopause 1", Start, 0), vec![(0, 1, 2)])?;
    same("K", reactions("gotopause 1", Resumed(2), 0), vec![])?;

    let l = parse("loop nothing end");
    same("L", reactions("loop nothing end", Start, 0), vec![])?;
    same("L", trim_program(&l), l)
}

/// The share that is kept of the programs made for it; and of random ones the division comes out.
pub fn shares_kept(amount: Amount) -> Outcome {
    for (p, thousandths, remainder) in shares() {
        let given = trim_table(&write(&p), AMPLE).map(|trimmed| trimmed.share);
        same(&format!("kept of {}", print(&p)), given, Ok(Share { thousandths, remainder }))?;
    }
    let mut random = Random(24);
    for _ in 0..amount.of(2_000) {
        let bytes = table(&mut random);
        let (Ok(before), Ok(trimmed)) = (check(&bytes), trim_table(&bytes, AMPLE)) else {
            continue;
        };
        let Share { thousandths, remainder } = trimmed.share;
        same("remainder below the nodes", remainder < before, true)?;
        same("divided", thousandths * before + remainder, 1_000 * trimmed.nodes)?;
    }
    Ok(())
}

/// What report prints: refusals 1 to 12 and what stands one beside a 12, an empty R, and inputs that
/// are too long. The tables made for a refusal get it.
pub fn reported(_: Amount) -> Outcome {
    let printed = |what: &str, input: &[u8], refusal: u32| {
        let lines = report(input);
        let first = lines.lines().next().unwrap_or_default();
        let right =
            if refusal == 0 { first.starts_with("nodes ") } else { lines == refused(refusal) };
        same(&format!("report on {what} {}", hex(input)), right, true)
    };
    for (refusal, table) in tables() {
        same(&format!("check of {}", hex(&table)), check(&table).err().unwrap_or(0), refusal)?;
        printed("table", &table, refusal)?;
    }
    for (refusal, table) in grown_tables() {
        same(&format!("check of {}", hex(&table)), check(&table).err(), None)?;
        printed("table", &table, refusal)?;
    }
    same("A", report(&[0x10, 1, 0, 0]), "nodes 1 1\nlabels\nrounds 1\n".into())?;
    let long = [0; 1283];
    printed("long input, edition", &long, 2)?;
    printed("long input, count", &[&[0x10, 0][..], &long].concat(), 3)?;
    printed("long input", &[&[0x10, 1][..], &long].concat(), 4)
}

fn refused(refusal: u32) -> String {
    format!("refused {refusal}\n")
}

/// Reading and writing are inverse; the text of a statement reads back.
pub fn round_trips(amount: Amount) -> Outcome {
    let mut random = Random(20);
    for _ in 0..amount.of(20_000) {
        let bytes = table(&mut random);
        let p = read(&bytes).map_err(|refusal| format!("refused {refusal}: {}", hex(&bytes)))?;
        same("writing what was read", write(&p), bytes.clone())?;
        same("length", bytes.len(), length(p.nodes()))?;
        same("count", check(&bytes), Ok(p.nodes()))?;
        same("text", parse(&print(&p)), p)?;
    }
    Ok(())
}

/// What the papers say of the analysis: a round over R gives R again, the rounds do not pass the
/// pauses plus 1, and the codes of reactions are in s and d. Reactions are asked of programs that
/// need little work and of states whose lists are all of 64 reactions at most.
pub fn analysis(amount: Amount) -> Outcome {
    let mut random = Random(21);
    for _ in 0..amount.of(6_000) {
        let p = program(&mut random, 1, 30);
        let (r, i) = rounds(&p);
        same("rounds", i <= p.pauses().count_ones() as usize + 1, true)?;
        same("R among the pauses", r.iter().all(|label| p.pauses() >> label & 1 == 1), true)?;
        let (started, again) = (s(&p), d(&r, &p));
        let reached = |label: &u8| started.contains(&One(*label)) || again.contains(&One(*label));
        let next: Labels = (1..64).filter(|l| p.pauses() >> l & 1 == 1).filter(reached).collect();
        same("a round over R", next, r)?;
        if work(&p) > 500 {
            continue;
        }
        let labels: Labels = (1..64).filter(|_| random.one_in(2)).collect();
        let resumed = Resumed(labels.iter().fold(0, |set, label| set | 1 << label));
        for (state, codes) in [(Start, s(&p)), (resumed, d(&labels, &p))] {
            if too_many(&p, state, u32::MAX) {
                continue;
            }
            for reaction in react(&p, state, random.next() as u32) {
                let within = match reaction.k {
                    0 => codes.contains(&Zero),
                    1 => (0..64).all(|n| reaction.l >> n & 1 == 0 || codes.contains(&One(n))),
                    k => codes.contains(&Higher(k)),
                };
                same(&format!("{reaction:?} of {}", print(&p)), within, true)?;
                same("L only with code 1", reaction.l == 0, reaction.k != 1)?;
            }
        }
    }
    Ok(())
}

/// Trimmed programs have the same reactions along runs of up to six steps, by the rules alone, under
/// the first eight sets of their signals and from five new states a step at most, but for programs
/// that need much work and lists of over 64 reactions; a trimmed table that is not refused is accepted
/// by check, and earns 14 and 17 only where its source does.
pub fn trimmed_runs(amount: Amount) -> Outcome {
    let mut random = Random(22);
    for _ in 0..amount.of(6_000) {
        let p = if random.one_in(4) { made(&mut random) } else { program(&mut random, 3, 40) };
        let q = trim_program(&p);
        if q.nodes() <= MOST_NODES && q.depth() <= MOST_DEPTH {
            same("check of a trimmed table", check(&write(&q)), Ok(q.nodes()))?;
        }
        same("signals nested deeper", q.nested_signals() > p.nested_signals(), false)?;
        same("signals emitted outside more", emitted_free(&q) & !emitted_free(&p), 0)?;
        if work(&p) > 500 || read(&write(&p)).is_err() {
            continue;
        }
        let mut met = BTreeSet::from([Start]);
        let mut next = vec![Start];
        for _ in 0..6 {
            let mut reached = BTreeSet::new();
            for &state in &next {
                for e in subsets(signals(&p).into()).take(8) {
                    let e = e as u32;
                    if too_many(&p, state, e) {
                        continue;
                    }
                    let here = react(&p, state, e);
                    if here != react(&q, state, e) {
                        return Err(format!("{state:?} under {e:x} of {}", print(&p)));
                    }
                    reached.extend(here.iter().filter(|r| r.k == 1).map(|r| Resumed(r.l)));
                }
            }
            next = reached.into_iter().filter(|state| met.insert(*state)).take(5).collect();
        }
    }
    Ok(())
}

/// The worked examples of order 1.
pub fn stepped(_: Amount) -> Outcome {
    examples().into_iter().chain([ten_signals()]).try_for_each(|(p, asked, wanted)| {
        let given = step(&write(&p), asked.signals, state(asked.mark, asked.labels));
        same(&format!("step of {} from {:x}", print(&p), asked.signals), given, wanted)
    })
}

/// No other E than those made of I and the signals that are emitted outside a declaration has a step:
/// every E over four signals and one more is tried, from I's that have and lack that one. Programs that
/// need much work are passed over.
pub fn steps(amount: Amount) -> Outcome {
    let mut random = Random(23);
    for _ in 0..amount.of(2_000) {
        let p = program(&mut random, 2, 24);
        if work(&p) > 200 {
            continue;
        }
        for state in [Start, Resumed(random.next())] {
            for i in [0, random.below(16) as u32, 16 | random.below(16) as u32] {
                let under = |sets: BTreeSet<u32>| -> Vec<Step> {
                    sets.into_iter().flat_map(|e| steps_under(&p, state, i, e)).collect()
                };
                let looked_at = under(made_of(i, emitted_free(&p)));
                let every = under(made_of(0, 31));
                same(&format!("steps of {} from {i:x}", print(&p)), looked_at, every)?;
            }
        }
    }
    Ok(())
}

/// The worked examples of order 2: what reading gives, and what writing gives for what was read. No
/// pair of brackets can be taken out of a written text without changing its statement.
pub fn texts(_: Amount) -> Outcome {
    for (text, wanted) in texts::examples() {
        let given = text::read(text.as_bytes(), usize::MAX);
        same(&format!("reading {text}"), given.clone(), wanted.map(|p| write(&p)))?;
        if let Ok(table) = given {
            let written = text::write(&table, usize::MAX);
            let again = written.and_then(|written| text::read(&written, usize::MAX));
            same(&format!("writing and reading {text}"), again, Ok(table))?;
        }
    }
    for (text, wanted) in texts::rewritten_examples() {
        let table = text::read(text.as_bytes(), usize::MAX);
        let written = table.and_then(|table| text::write(&table, usize::MAX));
        same(&format!("writing what was read of {text}"), written, Ok(wanted.into()))?;
    }
    for (text, long, short) in texts::refused_together() {
        for (buffer, wanted) in [(usize::MAX, long), (0, short)] {
            let given = text::read(text.as_bytes(), buffer).err().unwrap_or(0);
            same(&format!("reading {text} into {buffer} bytes"), given, wanted)?;
        }
    }
    for (p, wanted) in texts::written_examples() {
        same("writing", print(&p), wanted.into())?;
        same("reading", parse(wanted), p.clone())?;
        if wanted.contains('[') {
            let bare = wanted.replace("[ ", "").replace(" ]", "");
            same(&format!("{wanted} without brackets"), parse(&bare) == p, false)?;
        }
    }
    Ok(())
}
