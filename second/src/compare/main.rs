//! The tests: the second implementation by itself, faults that the comparison has to report, and
//! then the plain implementation and the proved library against the second.
//!
//! second                  the bounded part
//! second --long           more than ten million calls
//! second --amount N       N percent of the bounded part's random tests
//! second --only NAME..    the bounded part on these operations of the library, as ReadText
//! second --memory         a few calls of the library, for a run under a memory checker
//! second --write-reports  writes the reports of the tables in samples/
//!
//! The last line is `N passed, M failed`; the status is 1 where something failed.

mod cases;
mod checking;
mod faults;
mod listing;
mod made;
mod misreading;
mod mistakes;
mod reaching;
mod samples;
mod stepping;
mod texts;
mod tool;
mod trial;
mod tries;
mod trimming;

use second::met;
use std::process::ExitCode;
use std::time::Instant;
use tool::{Library, Operation, Plain, OPERATIONS};
use trial::{Outcome, Trial};

/// How much to test, in percent of the bounded part.
#[derive(Clone, Copy)]
pub struct Amount(usize);

impl Amount {
    pub fn of(self, calls: usize) -> usize {
        (calls * self.0).div_ceil(100)
    }

    /// Visit every so-manyth case of a test that is exhaustive from 100 percent on.
    pub fn step(self) -> usize {
        100_usize.div_ceil(self.0).next_power_of_two()
    }

    /// Up to so many nodes, every tree over the leaves of a test is visited.
    pub fn tree_nodes(self) -> usize {
        match self.0 {
            0..=9 => 4,
            10..=99 => 5,
            _ => 6,
        }
    }
}

type Group = (&'static str, fn(&mut Trial, Amount) -> Outcome);

const CHECK: &[Group] = &[
    ("each refusal", made::check),
    ("one-node tables", checking::one_node),
    ("small trees", checking::small_trees),
    ("edges", checking::edges),
    ("random tables", checking::random_tables),
];

const REACH: &[Group] = &[
    ("each refusal", made::reach),
    ("small trees", reaching::small_trees),
    ("edges", reaching::edges),
    ("chains, jumps, exits", reaching::made_tables),
    ("codes through tries", tries::reach),
    ("random tables", reaching::random_tables),
];

const TRIM: &[Group] = &[
    ("each refusal", made::trim),
    ("small trees", trimming::small_trees),
    ("edges, around 1,024 nodes and depth 60", trimming::edges),
    ("buffer lengths", trimming::buffers),
    ("the share that is kept", trimming::kept_shares),
    ("codes through tries", tries::trim),
    ("random tables", trimming::random_tables),
];

const LIST: &[Group] = &[
    ("each refusal", made::list),
    ("small trees", listing::small_trees),
    ("64 and 65 reactions", listing::reactions_edge),
    ("12 and 13 signals", listing::signals_edge),
    ("the largest stack", listing::largest_stack),
    ("buffer lengths", listing::buffers),
    ("codes through tries", tries::list),
    ("random programs", listing::random_programs),
    ("crowded programs", listing::crowded_programs),
    ("tests inside 0 to 12 signals", listing::tested_signals),
    ("63 to 66 ways told apart by signals", listing::told_apart),
    ("edges and random tables", listing::random_tables),
];

const STEP: &[Group] = &[
    ("each refusal", made::step),
    ("worked examples", stepping::worked),
    ("small trees", stepping::small_trees),
    ("2 to 12 signals emitted outside a declaration", stepping::free_signals),
    ("14 before 17", stepping::nested_and_free),
    ("64 and 65 reactions under some E", stepping::crowded_sets),
    ("ways told apart by E", stepping::told_apart),
    ("the largest stack", stepping::largest_stack),
    ("codes through tries", tries::step),
    ("random programs", stepping::random_programs),
    ("1 to 1,024 sets E", stepping::many_sets),
    ("crowded programs", stepping::crowded_programs),
    ("around 64 reactions", stepping::around_64),
    ("edges and random tables", stepping::random_tables),
];

const READ_TEXT: &[Group] = &[
    ("each refusal", texts::made_texts),
    ("several refusals", texts::together),
    ("short texts over bytes", texts::short_bytes),
    ("short texts over parts", texts::short_lists),
    ("small trees", texts::small_trees),
    ("edges", texts::edges),
    ("texts of megabytes", texts::long_texts),
    ("around 1,024 nodes", texts::around_most),
    ("buffer lengths", texts::read_buffers),
    ("damaged texts", texts::damaged_texts),
    ("random texts", texts::random_texts),
];

const WRITE_TEXT: &[Group] = &[
    ("each refusal", texts::made_writings),
    ("small trees", texts::written_trees),
    ("edges", texts::written_edges),
    ("buffer lengths", texts::write_buffers),
    ("the longest texts", texts::longest_texts),
    ("texts read again", texts::round_trips),
    ("random tables", texts::random_writings),
];

/// The tests of an operation, the calls made for each refusal first.
fn groups(operation: Operation) -> &'static [Group] {
    match operation {
        Operation::Check => CHECK,
        Operation::Reach => REACH,
        Operation::Trim => TRIM,
        Operation::List => LIST,
        Operation::Step => STEP,
        Operation::ReadText => READ_TEXT,
        Operation::WriteText => WRITE_TEXT,
    }
}

#[derive(Default)]
struct Results {
    passed: u32,
    failed: u32,
}

impl Results {
    fn run(&mut self, name: &str, test: impl FnOnce() -> Outcome) {
        let begun = Instant::now();
        let outcome = test();
        let seconds = begun.elapsed().as_secs_f64();
        match outcome {
            Ok(()) => {
                self.passed += 1;
                println!("ok     {name} ({seconds:.1} s)");
            }
            Err(difference) => {
                self.failed += 1;
                println!("FAILED {name} ({seconds:.1} s): {difference}");
            }
        }
    }

    /// Compares a tool with the second implementation, and sees that each thing which the counts name
    /// was met: the refusals of each operation, the sizes and kinds of nodes in what it accepts, the
    /// sights, the cases of trimming, the rules of Figure 3, the nestings of signals, the codes that go
    /// through a try, the answers of step.
    fn compare(&mut self, t: &mut Trial, name: &str, operations: &[Operation], amount: Amount) {
        met::clear();
        for operation in operations {
            for (group, test) in groups(*operation) {
                self.run(&format!("{name} {operation:?}: {group}"), || test(t, amount));
            }
        }
        if operations == OPERATIONS {
            self.run(&format!("{name}: runs of the trimmed table"), || listing::runs(t, amount));
        }
        self.run(&format!("{name}: what is counted was met"), || {
            let missing = t.counts.missing(operations);
            if missing.is_empty() {
                return Ok(());
            }
            Err(format!("never met: {}", missing.join(", ")))
        });
        t.counts.print(operations);
    }
}

/// Faults planted in the calls made for each refusal.
fn planted(operations: &[Operation]) -> Outcome {
    for &operation in operations {
        let (_, test) = groups(operation)[0];
        let (faults, calls) = faults::planted(operation, &|t| test(t, Amount(1)))?;
        println!("  {operation:?}: {faults} faults, planted in {calls} calls one at a time");
    }
    Ok(())
}

/// Calls of each operation of the library for a run under a memory checker: those made for each
/// refusal, some random ones, those of the largest stack, and long texts.
fn memory(results: &mut Results) {
    let mut t = Trial::new(&Library);
    t.margin = 0;
    for (name, test) in [
        ("list", listing::largest_stack as fn(&mut Trial, Amount) -> Outcome),
        ("step", stepping::largest_stack),
    ] {
        results.run(&format!("memory of the largest stack of {name}"), || test(&mut t, Amount(1)));
    }
    results.run("memory of long texts", || texts::long_texts(&mut t, Amount(20)));
    for operation in OPERATIONS {
        let groups = groups(operation);
        for (name, test) in [groups[0], groups[groups.len() - 1]] {
            results.run(&format!("memory of {operation:?}: {name}"), || test(&mut t, Amount(1)));
        }
    }
}

fn bounded(results: &mut Results, amount: Amount) {
    results.run("cases A to L", || cases::lettered(amount));
    results.run("report's lines", || cases::reported(amount));
    results.run("reading and writing", || cases::round_trips(amount));
    results.run("codes and reactions", || cases::analysis(amount));
    results.run("codes through a try", || tries::by_itself(amount));
    results.run("runs of trimmed programs", || cases::trimmed_runs(amount));
    results.run("the share that is kept", || cases::shares_kept(amount));
    results.run("worked examples of step", || cases::stepped(amount));
    results.run("steps under every set", || cases::steps(amount));
    results.run("worked examples of texts", || cases::texts(amount));
    results.run("samples", samples::samples);
    results.run("planted faults are reported", || planted(&OPERATIONS));

    let mut t = Trial::new(&Plain);
    results.compare(&mut t, "plain", &OPERATIONS, Amount(amount.0.div_ceil(10)));

    let mut t = Trial::new(&Library);
    results.compare(&mut t, "library", &OPERATIONS, amount);
    results.run("the program report", samples::program);
    println!("calls of the library compared: {}", t.counts.calls.iter().sum::<u64>());
}

fn only(results: &mut Results, operations: &[Operation]) {
    results.run("planted faults are reported", || planted(operations));
    let mut t = Trial::new(&Library);
    results.compare(&mut t, "library", operations, Amount(100));
}

/// The operations with these names; none where one has no such name.
fn operations(names: &[&str]) -> Vec<Operation> {
    let named = |name: &&str| OPERATIONS.into_iter().find(|o| format!("{o:?}") == *name);
    names.iter().map(named).collect::<Option<_>>().unwrap_or_default()
}

fn main() -> ExitCode {
    let arguments: Vec<String> = std::env::args().skip(1).collect();
    let words: Vec<&str> = arguments.iter().map(String::as_str).collect();
    let mut results = Results::default();
    match words[..] {
        [] => bounded(&mut results, Amount(100)),
        ["--long"] => bounded(&mut results, Amount(800)),
        ["--amount", percent] if percent.parse().is_ok_and(|percent: usize| percent > 0) => {
            bounded(&mut results, Amount(percent.parse().unwrap()))
        }
        ["--only", ref names @ ..] if !operations(names).is_empty() => {
            only(&mut results, &operations(names))
        }
        ["--memory"] => memory(&mut results),
        ["--write-reports"] => {
            samples::write_reports();
            return ExitCode::SUCCESS;
        }
        _ => {
            eprintln!(
                "usage: second [--long | --amount PERCENT | --only OPERATION.. | --memory | \
                 --write-reports]"
            );
            return ExitCode::from(2);
        }
    }
    println!("{} passed, {} failed", results.passed, results.failed);
    ExitCode::from(u8::from(results.failed > 0))
}
