//! The samples, and the program report on them and on other inputs.

use crate::checking::edge_tables;
use crate::made::{grown_tables, tables};
use crate::trial::{hex, Outcome};
use second::random::{any_table, Random};
use second::report::report;
use second::text;
use std::io::Write;
use std::path::{Path, PathBuf};
use std::process::{Command, Stdio};
use std::{env, fs};

fn repository() -> PathBuf {
    Path::new(env!("CARGO_MANIFEST_DIR")).join("..")
}

/// The names of the files in samples/ with this ending, without it.
fn named(ending: &str) -> Vec<PathBuf> {
    let files = fs::read_dir(repository().join("samples")).expect("samples/ is there");
    let mut names: Vec<PathBuf> = files
        .map(|file| file.unwrap().path())
        .filter(|path| path.extension().is_some_and(|e| e == ending))
        .map(|path| path.with_extension(""))
        .collect();
    names.sort();
    names
}

/// Each text but for a last line feed is a text of its table, and each table has the report that stands beside it.
pub fn samples() -> Outcome {
    for name in named("txt") {
        let file = fs::read(name.with_extension("txt")).unwrap();
        let text = file.strip_suffix(b"\n").unwrap_or(&file);
        if text::read(text, usize::MAX) != Ok(fs::read(name.with_extension("table")).unwrap()) {
            return Err(format!("{name:?}: the table is not that of the text"));
        }
    }
    for name in named("table") {
        let wanted = report(&fs::read(name.with_extension("table")).unwrap());
        if fs::read_to_string(name.with_extension("report")).unwrap() != wanted {
            return Err(format!("{name:?}: report prints {wanted}"));
        }
    }
    Ok(())
}

/// Writes the reports of the tables in samples/.
pub fn write_reports() {
    for name in named("table") {
        let input = fs::read(name.with_extension("table")).unwrap();
        fs::write(name.with_extension("report"), report(&input)).unwrap();
    }
}

/// The samples, the tables made for refusals 1 to 12, every ninth edge of check, long inputs, and 200
/// random tables.
fn inputs() -> Vec<Vec<u8>> {
    let mut inputs: Vec<Vec<u8>> =
        named("table").iter().map(|name| fs::read(name.with_extension("table")).unwrap()).collect();
    inputs.extend([tables(), grown_tables()].concat().into_iter().map(|(_, table)| table));
    inputs.extend(edge_tables().into_iter().step_by(9));
    for long in [1281, 1282, 1283, 1284, 5000, 100_000] {
        for header in [[0x10, 1], [0x14, 0], [0x14, 1], [0x20, 1], [0, 0]] {
            inputs.push([&header[..], &vec![0; long - 2]].concat());
        }
    }
    let mut random = Random(13);
    inputs.extend((0..200).map(|_| any_table(&mut random)));
    inputs
}

/// The built program prints for each input what the second implementation does; it is met with each
/// of the refusals 1 to 12, and with tables that it accepts.
pub fn program() -> Outcome {
    let path = env::var("DESKHERON_REPORT")
        .map_or_else(|_| repository().join("target/bin/report"), PathBuf::from);
    let mut met = [0_u32; 13];
    for input in inputs() {
        let given = run(&path, &input).map_err(|e| format!("{}: {e}", path.display()))?;
        let wanted = report(&input);
        if given != wanted.as_bytes() {
            let given = String::from_utf8_lossy(&given);
            return Err(format!("report prints {given} and not {wanted} for {}", hex(&input)));
        }
        let refusal =
            wanted.strip_prefix("refused ").map_or(0, |rest| rest.trim().parse().unwrap());
        met[refusal] += 1;
    }
    let refused: Vec<String> = (1..=12).map(|n| format!("{n}: {}", met[n])).collect();
    println!("  report: accepted {}, refused {}", met[0], refused.join(", "));
    match met.iter().position(|count| *count == 0) {
        Some(0) => Err("report accepted nothing".into()),
        Some(refusal) => Err(format!("report never printed refusal {refusal}")),
        None => Ok(()),
    }
}

fn run(program: &Path, input: &[u8]) -> std::io::Result<Vec<u8>> {
    let mut child = Command::new(program).stdin(Stdio::piped()).stdout(Stdio::piped()).spawn()?;
    // a program that has seen enough may stop reading
    let _ = child.stdin.take().unwrap().write_all(input);
    Ok(child.wait_with_output()?.stdout)
}
