//! The plain output of `bench` of two revisions, row by row: the ratio of the least samples.

use std::collections::HashMap;
use std::fmt::{Display, Formatter, Result as Written};

/// Nanoseconds. A smaller difference is not judged: reading the clock, and the place that the linker gives the
/// code, move a time by as much.
pub const NOT_JUDGED: f64 = 2.0;
const REASON: &str = "which the clock and the place of the code in memory decide";
/// The two columns of plain output; a record that is turned back has the second alone.
pub const PARTS: [&str; 2] = ["check of state", "whole call"];

/// Least nanoseconds of each part over all lines of a row, rows in the order of their first lines.
pub type Times = Vec<(String, [Option<f64>; 2])>;

/// One line of plain output: name, check of the state, whole call.
pub fn line(name: &str, parts: [Option<f64>; 2]) -> String {
    let [check, whole] = parts.map(|part| part.map_or("-".to_string(), |time| format!("{time:.2}")));
    format!("{name}\t{check}\t{whole}")
}

fn part(word: &str) -> Option<Option<f64>> {
    match word {
        "-" => Some(None),
        _ => word.parse().ok().filter(|time: &f64| time.is_finite() && *time >= 0.0).map(Some),
    }
}

fn read_line(line: &str) -> Option<(&str, [Option<f64>; 2])> {
    let words: Vec<&str> = line.split('\t').collect();
    let [name, check, whole] = words[..] else { return None };
    Some((name, [part(check)?, part(whole)?]))
}

fn lesser(one: Option<f64>, other: Option<f64>) -> Option<f64> {
    one.into_iter().chain(other).reduce(f64::min)
}

/// Reads plain output, in which a row has a line for each turn.
pub fn read(plain: &str) -> Result<Times, String> {
    let mut times = Times::new();
    let mut places = HashMap::new();
    for line in plain.lines() {
        let (name, parts) = read_line(line).ok_or_else(|| format!("not a line of plain output: {line}"))?;
        let place = *places.entry(name).or_insert(times.len());
        match times.get_mut(place) {
            Some((_, least)) => *least = [0, 1].map(|at| lesser(least[at], parts[at])),
            None => times.push((name.to_string(), parts)),
        }
    }
    Ok(times)
}

/// One part of one row.
#[derive(Clone, Copy, Debug, PartialEq)]
pub struct Ratio {
    pub base: f64,
    pub head: f64,
}

impl Ratio {
    pub fn value(&self) -> f64 {
        self.head / self.base
    }

    pub fn is_judged(&self) -> bool {
        (self.head - self.base).abs() >= NOT_JUDGED
    }
}

impl Display for Ratio {
    fn fmt(&self, f: &mut Formatter) -> Written {
        let mark = if self.is_judged() { ' ' } else { '~' };
        write!(f, " {:10.1} {:10.1} {:6.3}{mark}", self.base, self.head, self.value())
    }
}

/// The rows that both have, and the names of those that one has alone.
pub struct Ratios {
    pub rows: Vec<(String, [Option<Ratio>; 2])>,
    pub alone: [Vec<String>; 2],
}

fn missing(times: &Times, from: &Times) -> Vec<String> {
    let names = times.iter().map(|(name, _)| name);
    names.filter(|name| from.iter().all(|(other, _)| other != *name)).cloned().collect()
}

impl Ratios {
    pub fn new(base: &Times, head: &Times) -> Ratios {
        let both = |(name, of_base): &(String, [Option<f64>; 2])| {
            let (_, of_head) = head.iter().find(|(other, _)| other == name)?;
            let ratio = |at: usize| Some(Ratio { base: of_base[at]?, head: of_head[at]? });
            Some((name.clone(), [0, 1].map(ratio)))
        };
        Ratios {
            rows: base.iter().filter_map(both).collect(),
            alone: [missing(base, head), missing(head, base)],
        }
    }

    /// The greatest ratio that is judged, with its row and part.
    pub fn worst(&self) -> Option<(&str, &'static str, Ratio)> {
        let parts = self.rows.iter().flat_map(|(name, ratios)| {
            let part = |at: usize| ratios[at].map(|ratio| (name.as_str(), PARTS[at], ratio));
            [0, 1].map(part).into_iter().flatten()
        });
        let judged = parts.filter(|(_, _, ratio)| ratio.is_judged());
        judged.max_by(|one, other| one.2.value().total_cmp(&other.2.value()))
    }

    /// Whether a ratio that is judged is greater than `most`.
    pub fn exceeds(&self, most: f64) -> bool {
        self.worst().is_some_and(|(_, _, ratio)| ratio.value() > most)
    }
}

impl Display for Ratios {
    fn fmt(&self, f: &mut Formatter) -> Written {
        writeln!(f, "least ns{:38} {:^30} {:^30}", "", PARTS[0], PARTS[1])?;
        let columns = format!(" {:>10} {:>10} {:>6} ", "base", "head", "ratio");
        writeln!(f, "{:46}{columns}{columns}", "")?;
        for (name, ratios) in &self.rows {
            let [check, whole] = ratios.map(|ratio| ratio.map_or(String::new(), |ratio| ratio.to_string()));
            writeln!(f, "{name:46}{check:30}{whole}")?;
        }
        for (names, side) in self.alone.iter().zip(["base", "head"]) {
            for name in names {
                writeln!(f, "only in {side}: {name}")?;
            }
        }
        writeln!(f, "~ differs by less than {NOT_JUDGED} ns, {REASON}: not judged")?;
        match self.worst() {
            Some((name, part, ratio)) => {
                writeln!(f, "worst ratio: {:.3}, {part} of \"{name}\"", ratio.value())
            }
            None => writeln!(f, "worst ratio: none, no row differs by {NOT_JUDGED} ns"),
        }
    }
}
