//! What a run tells: a line for each case, and a section for results.md.

use crate::timing::{Case, Side};
use std::fmt::Write;

/// A case in numbers; times are medians in nanoseconds.
pub struct Row<'a> {
    case: &'a Case,
    pub quickest: f64,
    pub plain: f64,
}

/// The ratios of the cases, in their order.
pub fn rows(cases: &[Case]) -> Vec<Row<'_>> {
    let median = |case: &Case, side| case.quickest(side).median();
    let ratio = |case: &Case, side| median(case, side) / median(case, Side::Library);
    cases.iter().map(|case| Row { case, quickest: ratio(case, Side::Brute), plain: ratio(case, Side::Plain) }).collect()
}

impl Row<'_> {
    pub fn name(&self) -> &str {
        &self.case.name
    }

    /// The line that is printed.
    pub fn line(&self) -> String {
        let [quickest, plain] = self.case.rivals;
        let name = self.name();
        format!("{name} {} times {quickest}, {} times {plain}", ratio(self.quickest), ratio(self.plain))
    }

    fn table_row(&self) -> String {
        let (least, median, greatest) = self.case.quickest(Side::Library).spread();
        let (quickest, plain) = (self.case.quickest(Side::Brute), self.case.quickest(Side::Plain));
        format!(
            "| {} | {} | {} to {} | {}: {} | {}: {} | {} | {} |",
            self.name(),
            time(median),
            time(least),
            time(greatest),
            quickest.name,
            time(quickest.median()),
            plain.name,
            time(plain.median()),
            ratio(self.quickest),
            ratio(self.plain)
        )
    }

    /// The medians of all ways of brute force, where there are several.
    fn ways_row(&self) -> Option<String> {
        let ways: Vec<String> = self
            .case
            .entrants
            .iter()
            .filter(|entrant| entrant.side == Side::Brute)
            .map(|entrant| format!("{} {}", entrant.name, time(entrant.median())))
            .collect();
        (ways.len() > 1).then(|| format!("| {} | {} |", self.name(), ways.join(", ")))
    }
}

/// What a run was: when, of what, where, and how.
pub struct Run {
    pub date: String,
    pub commit: String,
    pub machine: String,
    pub kit: String,
    pub rounds: usize,
    pub seed: u64,
}

/// The section of a run.
pub fn section(run: &Run, rows: &[Row]) -> String {
    let Run { date, commit, machine, kit, rounds, seed } = run;
    let mut text = format!("## {date}, {commit}\n\n{machine}; {kit}; {rounds} rounds; seed {seed}.\n\n");
    text.push_str("| case | library | least to greatest | quickest brute force | plain ");
    text.push_str("| times the quickest | times the plain |\n");
    text.push_str("|---|---|---|---|---|---|---|\n");
    for row in rows {
        writeln!(text, "{}", row.table_row()).expect("text can grow");
    }
    text.push_str("\n| case | all ways of brute force |\n|---|---|\n");
    for row in rows.iter().filter_map(Row::ways_row) {
        writeln!(text, "{row}").expect("text can grow");
    }
    text.push('\n');
    text
}

/// A text of sections with one more, before the first there is.
pub fn with_section(text: &str, section: &str) -> String {
    let at = text.find("\n## ").map_or(text.len(), |at| at + 1);
    format!("{}{section}{}", &text[..at], &text[at..])
}

/// A ratio with as many digits as it bears.
pub fn ratio(ratio: f64) -> String {
    match ratio {
        r if r < 0.995 => format!("{r:.2}"),
        r if r < 99.95 => format!("{r:.1}"),
        r => format!("{r:.0}"),
    }
}

/// A time in nanoseconds, with its unit.
fn time(nanoseconds: f64) -> String {
    match nanoseconds {
        t if t < 1e3 => format!("{t:.0} ns"),
        t if t < 1e5 => format!("{:.1} us", t / 1e3),
        t if t < 1e6 => format!("{:.0} us", t / 1e3),
        t => format!("{:.1} ms", t / 1e6),
    }
}
