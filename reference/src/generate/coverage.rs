//! Counts of the cells that the steps of a stream reach.

use super::matches::Match;
use super::meetings::Meeting;
use super::{debt_cells, match_cells, meeting_cells, number_cells, range_cells, Step};
use crate::call::split;
use crate::layout::{read_state, REPLY_BYTES};
use crate::run::{read_request, Mark, Request, Run};
use crate::statement::{self, Branch, Field, Statement, COPY, MOST_BYTES, MOVE};
use crate::value::WHOLE;
use std::collections::{BTreeMap, BTreeSet};

#[derive(Default)]
pub struct Coverage {
    pub cells: BTreeMap<String, usize>,
    pub calls: usize,
    pub taken: usize,
    pub done: usize,
}

/// What coverage looks at in a reply.
struct Seen {
    position: u32,
    outcome: u8,
    branch: u8,
    values: u8,
}

fn replies(mut bytes: &[u8]) -> Vec<Seen> {
    let mut seen = Vec::new();
    while bytes.len() >= 12 {
        let position = u32::from_be_bytes([bytes[2], bytes[3], bytes[4], bytes[5]]);
        seen.push(Seen { position, outcome: bytes[9], branch: bytes[10], values: bytes[11] });
        bytes = &bytes[12 + 6 * usize::from(bytes[11])..];
    }
    seen
}

impl Coverage {
    fn count(&mut self, cell: impl Into<String>) {
        *self.cells.entry(cell.into()).or_insert(0) += 1;
    }

    /// Adds the counts of another.
    pub fn merge(&mut self, other: &Coverage) {
        for (cell, count) in &other.cells {
            *self.cells.entry(cell.clone()).or_insert(0) += count;
        }
        self.calls += other.calls;
        self.taken += other.taken;
        self.done += other.done;
    }

    pub fn add(&mut self, step: &Step) {
        self.calls += 1;
        self.lengths(step);
        if !step.is_taken() {
            self.count(format!("refused {}", step.returned));
            self.count(format!("refused {} state {}", step.returned, step.state_note));
            self.count(format!("refused {} record {}", step.returned, step.record_note));
            return;
        }
        self.taken += 1;
        self.count(format!("taken state {}", step.state_note));
        let (Some((mark, position, body)), Some(before), Some(after)) =
            (split(&step.record), read_state(&step.before), read_state(&step.after))
        else {
            return;
        };
        let seen = replies(step.replies());
        let own = seen.first().filter(|reply| reply.position == position);
        let woken = &seen[usize::from(own.is_some())..];
        self.own(step, mark, own);
        self.woken(mark, woken);
        self.tables(step, &after);
        self.sizes(mark, body, own);
        let answer = own.map(|own| (own.outcome, own.branch));
        self.count_all(debt_cells::of_step(&before, mark, body, answer));
        self.count_all(debt_cells::of_state(&after));
        self.count_all(range_cells::of_step(&before, mark, body));
        if let Some(request) = read_request(mark, body) {
            self.count_all(number_cells::of_request(&before, &request, answer));
            if let Some(own) = own {
                self.causes(&before, &request, own, woken);
            }
        }
        self.count_all(number_cells::of_state(&after));
        for reply in woken {
            if number_cells::woken_over_255(&before, reply.position, reply.branch) {
                self.count("woken over 255");
            }
        }
    }

    /// Counts the cells of a match, each once.
    pub fn add_match(&mut self, one: &Match) {
        let cells: BTreeSet<String> = match_cells::of_match(one).into_iter().collect();
        self.count_all(cells.into_iter().collect());
    }

    /// Counts the cells of a pair of templates, each once.
    pub fn add_meeting(&mut self, one: &Meeting) {
        let cells: BTreeSet<String> = meeting_cells::of_meeting(one).into_iter().collect();
        self.count_all(cells.into_iter().collect());
    }

    fn count_all(&mut self, cells: Vec<String>) {
        for cell in cells {
            self.count(cell);
        }
    }

    fn lengths(&mut self, step: &Step) {
        let length = match step.lent.len() {
            0 => "0",
            1..=3562 => "1 to 3562",
            3563 => "3563",
            3564 => "3564",
            _ => "over 3564",
        };
        let answer = if step.returned == 2 { "refused 2" } else { "passed or 1" };
        self.count(format!("reply buffer {length} {answer}"));
    }

    fn own(&mut self, step: &Step, mark: Mark, own: Option<&Seen>) {
        let mark_name = format!("{mark:?}").to_uppercase();
        let Some(own) = own else {
            self.count("AG waits");
            return;
        };
        self.count(format!("{mark_name} {}", own.outcome));
        if own.outcome == 6 {
            let over = mark == Mark::Ag && step.record.len() > 8 + MOST_BYTES;
            let why = if over { "over 250 bytes" } else { step.record_note };
            self.count(format!("malformed {why}"));
        }
        if mark == Mark::Ag && own.outcome == 0 {
            self.done += 1;
            self.count(format!("branch {} done", own.branch));
            self.count(format!("values {:02}", own.values));
        }
    }

    /// DS bodies with a byte too few or too many, AG bodies at the limit and over it.
    fn sizes(&mut self, mark: Mark, body: &[u8], own: Option<&Seen>) {
        let malformed = own.is_some_and(|own| own.outcome == 6);
        match (mark, body.len(), malformed) {
            (Mark::Ds, length @ (4 | 6), true) => self.count(format!("DS 6 of {length} bytes")),
            (Mark::Ag, MOST_BYTES, false) if own.is_none() => self.count("AG of 250 bytes waits"),
            (Mark::Ag, length @ (249 | MOST_BYTES), false) => self.count(format!("AG of {length} bytes")),
            (Mark::Ag, length, true) if length > MOST_BYTES => self.too_long(body),
            _ => {}
        }
    }

    /// Legal but for its length: by one byte, or by no more than one for each space that it names.
    fn too_long(&mut self, body: &[u8]) {
        let Some(statement) = statement::parts(body).filter(statement::is_legal_at_any_length) else {
            return;
        };
        if body.len() == MOST_BYTES + 1 {
            self.count("malformed by one byte");
        }
        if body.len() - statement.spaces().len() <= MOST_BYTES {
            self.count("malformed by its spaces");
        }
    }

    fn woken(&mut self, mark: Mark, woken: &[Seen]) {
        self.count(format!("number woken {:02}", woken.len()));
        for reply in woken {
            self.count(format!("woken {}", reply.outcome));
        }
        if woken.windows(2).any(|pair| pair[0].position > pair[1].position) {
            self.count("woken feeds an older");
        }
        if mark == Mark::Cr && !woken.is_empty() {
            self.count("CR wakes");
        }
    }

    /// Full tables and ends of ranges.
    fn tables(&mut self, step: &Step, after: &Run) {
        let cells = [
            (after.tuples.len() == 512, "512 tuples"),
            (after.spaces.len() == 32, "32 spaces"),
            (after.waiting.len() == 32, "32 waiting"),
            (after.monitors == 8, "8 monitors"),
            (after.last == u32::MAX, "last position"),
            (step.replies().len() == REPLY_BYTES, "reply of 3564 bytes"),
        ];
        for (_, cell) in cells.iter().filter(|(reached, _)| *reached) {
            self.count(*cell);
        }
    }

    /// Which of several causes an outcome had.
    fn causes(&mut self, before: &Run, request: &Request, own: &Seen, woken: &[Seen]) {
        match (request, own.outcome) {
            (Request::Crash { host }, 0) => {
                let dropped = before.waiting.iter().filter(|w| w.statement.host == *host).count();
                if dropped > 0 && before.monitors > 1 {
                    self.count("CR drops waiting with monitors");
                }
                if dropped > 0 && !woken.is_empty() {
                    self.count("CR drops and wakes");
                }
            }
            (Request::Make { .. }, 14) if before.spaces.len() == 32 => self.count("MS 14 spaces"),
            (Request::Make { .. }, 14) => self.count("MS 14 numbers"),
            (Request::Make { private, .. }, 0) => self.count(format!("MS 0 private {private}")),
            (Request::Destroy { space: 0, .. }, 15) => self.count("DS 15 space 0"),
            (Request::Destroy { .. }, 15) => self.count("DS 15 named"),
            (Request::Destroy { space, .. }, 0) if before.tuples.iter().any(|t| t.space == *space) => {
                self.count("DS 0 with tuples");
            }
            (Request::Guarded(statement), 0 | 12 | 17) => {
                if own.outcome == 17 && before.tuples.len() == 512 {
                    self.count("AG 17 at 512 tuples");
                }
                self.statement(statement, own);
            }
            _ => {}
        }
    }

    fn statement(&mut self, statement: &Statement, own: &Seen) {
        let branch: &Branch = &statement.branches[usize::from(own.branch) - 1];
        let has = |code: u8| branch.body.iter().any(|op| op.code == code);
        let sums: Vec<(&str, u8)> = branch
            .body
            .iter()
            .flat_map(|op| &op.fields)
            .filter_map(|field| match field {
                Field::Plus { value, .. } => Some(("plus", value.kind)),
                Field::Minus { value, .. } => Some(("minus", value.kind)),
                _ => None,
            })
            .collect();
        if let ([(sign, kind)], 0 | 17) = (&sums[..], own.outcome) {
            let kind = if *kind == WHOLE { "whole" } else { "metres" };
            self.count(format!("{sign} {kind} {}", own.outcome));
        }
        if own.outcome == 12 {
            self.count(if has(COPY) { "AG 12 with copy" } else { "AG 12 with out" });
        }
        for op in branch.body.iter().filter(|op| own.outcome == 0 && matches!(op.code, MOVE | COPY)) {
            let verb = if op.code == MOVE { "move" } else { "copy" };
            let place = if op.spaces[0] == op.spaces[1] { "in one space" } else { "across" };
            let all = if op.fields.is_empty() { "all" } else { "some" };
            self.count(format!("{verb} {place} {all}"));
        }
    }
}
