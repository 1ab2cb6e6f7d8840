//! Mismatches and texts, as they are printed.

use std::fmt::Display;

use super::calls::Mismatch;
use crate::cases::Case;
use crate::lent::Lengths;

/// A mismatch as a text.
pub fn mismatch_text(mismatch: &Mismatch, case: &Case, seed: u64, number: u64) -> String {
    let Lengths { list, table, out } = mismatch.lengths;
    let mut lines = vec![
        format!("mismatch: {}, seed {seed}, case {number}", mismatch.operation.name()),
        format!("lengths: list {list}, table {table}, output {out}"),
        format!("library: {:?}", mismatch.library),
        format!("second:  {:?}", mismatch.second),
    ];
    lines.extend(difference_line("list", mismatch.list));
    lines.extend(difference_line("table", mismatch.table));
    lines.extend(difference_line("output", mismatch.out));
    lines.push(text_lines("job text", &case.job));
    lines.extend(mismatch.operation.plan(case).map(|plan| text_lines("plan text", plan)));
    if mismatch.operation.takes_costs() {
        lines.push(costs_lines(case));
    }
    lines.join("\n")
}

/// Where the two sides leave something else, and what.
fn difference_line<T: Display>(name: &str, difference: Option<(usize, T, T)>) -> Option<String> {
    difference.map(|(index, library, second)| format!("{name} at {index}: library {library}, second {second}"))
}

/// The bits of a case and the bytes of its costs text.
pub fn costs_lines(case: &Case) -> String {
    let said = case.texts().costs.map_or("not handed in", |_| "handed in");
    text_lines(&format!("costs text, {said} (bits {:#x})", case.bits), &case.costs)
}

/// A text line by line; bytes that can't be printed as escapes.
pub fn text_lines(name: &str, text: &[u8]) -> String {
    let mut lines = vec![format!("--- {name}, {} bytes", text.len())];
    for line in text.split_inclusive(|byte| *byte == b'\n') {
        lines.push(match line.strip_suffix(b"\n") {
            Some(line) => line.escape_ascii().to_string(),
            None => format!("{} (no line feed)", line.escape_ascii()),
        });
    }
    lines.push("---".to_string());
    lines.join("\n")
}
