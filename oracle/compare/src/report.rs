//! How many answers were compared, and which of them differ.

use std::fmt;

/// How many differing inputs are shown for each comparison.
const SHOWN: usize = 5;

/// The counts of one comparison.
pub struct Row {
    name: &'static str,
    compared: u64,
    differing: u64,
    shown: Vec<String>,
    /// Whether it only counts what other rows compare.
    counts: bool,
}

impl Row {
    pub fn new(name: &'static str) -> Self {
        Self { name, compared: 0, differing: 0, shown: Vec::new(), counts: false }
    }

    /// Counts one answer; `input` describes it where it differs.
    pub fn note(&mut self, agrees: bool, input: impl FnOnce() -> String) {
        self.compared += 1;
        if agrees {
            return;
        }
        self.differing += 1;
        if self.shown.len() < SHOWN {
            self.shown.push(input());
        }
    }

    /// Counts a text or an answer of another row, if something holds for it.
    pub fn count(&mut self, holds: bool) {
        self.count_all(usize::from(holds));
    }

    /// Counts so many of what other rows compare.
    pub fn count_all(&mut self, number: usize) {
        self.counts = true;
        self.compared += number as u64;
    }

    fn add(&mut self, other: Row) {
        self.compared += other.compared;
        self.differing += other.differing;
        self.shown.extend(other.shown);
        self.shown.truncate(SHOWN);
        self.counts |= other.counts;
    }
}

/// A row for each comparison.
pub struct Report {
    pub rows: Vec<Row>,
}

impl Report {
    pub fn new(names: &[&'static str]) -> Self {
        Self { rows: names.iter().map(|name| Row::new(name)).collect() }
    }

    /// Adds the rows of a report on the same comparisons.
    pub fn add(&mut self, other: Report) {
        for (row, more) in self.rows.iter_mut().zip(other.rows) {
            row.add(more);
        }
    }

    pub fn differing(&self) -> u64 {
        self.rows.iter().map(|row| row.differing).sum()
    }
}

impl fmt::Display for Report {
    fn fmt(&self, out: &mut fmt::Formatter<'_>) -> fmt::Result {
        for row in &self.rows {
            let (compared, differing) = (grouped(row.compared), grouped(row.differing));
            write!(out, "  {:<30} {compared:>13}", row.name)?;
            match row.counts {
                true => writeln!(out)?,
                false => writeln!(out, " compared, {differing} differ")?,
            }
            for input in &row.shown {
                writeln!(out, "    {input}")?;
            }
        }
        Ok(())
    }
}

/// A number with a comma before every three digits.
pub fn grouped(number: u64) -> String {
    let digits = number.to_string();
    let mut out = String::new();
    for (index, digit) in digits.chars().enumerate() {
        if index > 0 && (digits.len() - index).is_multiple_of(3) {
            out.push(',');
        }
        out.push(digit);
    }
    out
}
