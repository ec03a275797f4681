//! What the program report prints for an input.

use crate::codes::reach;
use crate::table::{check, length, Refusal, MOST_NODES};
use crate::trim::trim_table;

pub fn report(input: &[u8]) -> String {
    lines(input).unwrap_or_else(|refusal| format!("refused {refusal}\n"))
}

fn lines(input: &[u8]) -> Result<String, Refusal> {
    let before = check(input)?;
    let after = trim_table(input, length(MOST_NODES))?.nodes;
    let reached = reach(input)?;
    let labels: String = reached.r.iter().map(|label| format!(" {label}")).collect();
    Ok(format!("nodes {before} {after}\nlabels{labels}\nrounds {}\n", reached.rounds))
}
