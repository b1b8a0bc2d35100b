//! The cells of a step that tell of debts.

use super::number_cells::Answer;
use crate::run::{execute, failure, holds, read_request};
use crate::run::{Ending, Mark, Reply, Request, Run, Tuple, MOST_TUPLES};
use crate::statement::{self, Branch, Field, Statement, IN, INP, MOVE, OUT, RD};

type Pair = (u8, u8);

/// What one statement or other record did, and what was laid down after it.
struct Phase {
    reply: Option<Reply>,
    statement: Option<Statement>,
    /// The tuples before debts were laid down.
    unlaid: Vec<Tuple>,
    laid: Vec<Pair>,
    /// How many waited then.
    waiting: usize,
}

impl Phase {
    fn end(run: &mut Run, reply: Option<Reply>, statement: Option<Statement>) -> Phase {
        let (unlaid, owed) = (run.tuples.clone(), run.owed.clone());
        run.lay();
        let laid = owed.difference(&run.owed).copied().collect();
        Phase { reply, statement, unlaid, laid, waiting: run.waiting.len() }
    }

    fn outcome(&self) -> Option<u8> {
        self.reply.as_ref().map(|reply| reply.outcome)
    }

    /// The branch that was chosen.
    fn branch(&self) -> Option<&Branch> {
        let chosen = usize::from(self.reply.as_ref()?.branch).checked_sub(1)?;
        self.statement.as_ref()?.branches.get(chosen)
    }
}

/// The step once more: the own effect, then each woken statement.
fn phases(before: &Run, mark: Mark, body: &[u8]) -> Vec<Phase> {
    let mut run = before.clone();
    run.last += 1;
    let own = if mark == Mark::Ag { statement::read(body) } else { None };
    let reply = run.own_reply(run.last, mark, body);
    let mut phases = vec![Phase::end(&mut run, reply, own)];
    while let Some(at) = run.oldest_ready() {
        let statement = run.waiting[at].statement.clone();
        let reply = run.wake_oldest();
        phases.push(Phase::end(&mut run, reply, Some(statement)));
    }
    phases
}

fn reached(cells: &[(bool, &str)]) -> Vec<String> {
    cells.iter().filter(|(reached, _)| *reached).map(|(_, cell)| cell.to_string()).collect()
}

// ---- States ----

/// How much is owed, and to whom.
pub fn of_state(run: &Run) -> Vec<String> {
    let owed = &run.owed;
    let of_monitor = |monitor: u8| owed.iter().filter(|pair| pair.0 == monitor).count();
    let of_host = |host: u8| owed.iter().filter(|pair| pair.1 == host).count();
    let mut cells = reached(&[
        (owed.len() == 1, "1 pair owed"),
        (owed.len() > 16, "more than 16 pairs owed"),
        (owed.len() == 128, "128 pairs owed"),
        ((1..=8).any(|monitor| of_monitor(monitor) == 16), "all hosts owed to a monitor"),
        ((0..16).any(|host| of_host(host) == 8), "a host owed to 8 monitors"),
        (owed.iter().any(|pair| run.up[usize::from(pair.1)]), "an up host owed"),
    ]);
    cells.extend((1..=8).filter(|m| of_monitor(*m) > 0).map(|m| format!("owed to monitor {m}")));
    cells.extend((0..16).filter(|h| of_host(*h) > 0).map(|h| format!("owed host {h:02}")));
    cells
}

// ---- Steps ----

/// What a taken record shows, where something was owed before it or it is a crash.
pub fn of_step(before: &Run, mark: Mark, body: &[u8], answer: Answer) -> Vec<String> {
    let request = &read_request(mark, body);
    if before.owed.is_empty() && mark != Mark::Cr {
        return Vec::new();
    }
    let phases = phases(before, mark, body);
    let mut cells = Vec::new();
    if !before.owed.is_empty() {
        cells.extend(beside(before, mark, request, answer));
    }
    if let (Some(Request::Crash { host }), Some((0, _))) = (request, answer) {
        cells.extend(of_crash(before, *host, &phases));
    }
    cells.extend(of_laying(before, mark, &phases));
    for (monitor, host) in phases.iter().flat_map(|phase| &phase.laid) {
        cells.extend([format!("laid to monitor {monitor}"), format!("laid host {host:02}")]);
    }
    for pair in phases.windows(2) {
        cells.extend(of_waking(&pair[0], &pair[1]));
    }
    if phases.windows(3).any(|three| !three[1].laid.is_empty() && is_woken_by_laid(&three[1], &three[2])) {
        cells.push("laid after a woken statement wakes".to_string());
    }
    for (place, phase) in phases.iter().enumerate().filter(|_| !before.owed.is_empty()) {
        let who = if place == 0 { "AG" } else { "woken" };
        cells.extend(of_statement(before, phase).into_iter().map(|cell| format!("{who} {cell}")));
    }
    cells
}

/// Records that come while something is owed.
fn beside(before: &Run, mark: Mark, request: &Option<Request>, answer: Answer) -> Vec<String> {
    let mark = format!("{mark:?}").to_uppercase();
    let mut cells = match answer {
        Some((outcome, _)) => vec![format!("{mark} {outcome} beside a debt")],
        None => vec!["AG waits beside a debt".to_string()],
    };
    let is_owed = |host: u8| before.owed.iter().any(|pair| pair.1 == host);
    match (request, answer) {
        (Some(Request::Recover { host }), Some((0, _))) if is_owed(*host) => {
            cells.push("RV of an owed host".to_string());
        }
        (Some(Request::Crash { host }), Some((7, _))) if is_owed(*host) => {
            cells.push("CR 7 of an owed host".to_string());
        }
        _ => {}
    }
    cells
}

fn of_crash(before: &Run, host: u8, phases: &[Phase]) -> Vec<String> {
    let (monitors, room) = (usize::from(before.monitors), MOST_TUPLES - before.tuples.len());
    let missed = monitors.saturating_sub(room);
    let first = (monitors - missed) as u8 + 1;
    let already = (first..=before.monitors).filter(|m| before.owed.contains(&(*m, host))).count();
    let dropped = before.waiting.iter().any(|entry| entry.statement.host == host);
    let equal = |monitor: u8| before.tuples.contains(&failure(monitor, host));
    let laid = phases.iter().any(|phase| !phase.laid.is_empty());
    let others = before.owed.iter().any(|pair| pair.1 != host);
    reached(&[
        (monitors > 0 && missed == monitors, "CR owes all"),
        (missed > 0 && missed < monitors, "CR owes some"),
        (monitors > 0 && missed == 0 && room < MOST_TUPLES / 2, "CR owes none with room"),
        (monitors > 0 && monitors == room, "CR fills the table"),
        (monitors == 0 && room == 0, "CR at 512 without monitors"),
        (monitors == 8 && missed == 8, "CR owes 8"),
        (missed > 0 && already == missed, "CR of a host owed already"),
        (already > 0 && already < missed, "CR of a host owed in part"),
        (missed > already && others, "CR owes beside another host"),
        (missed > 0 && dropped, "CR drops and owes"),
        (missed > 0 && laid, "CR owes and lays"),
        ((1..first).any(equal), "CR leaves an equal tuple"),
        ((first..=before.monitors).any(equal), "CR owes beside an equal tuple"),
    ])
}

/// Where debts were laid down, and how many.
fn of_laying(before: &Run, mark: Mark, phases: &[Phase]) -> Vec<String> {
    let mut left = before.owed.len();
    let mut cells = Vec::new();
    for (place, phase) in phases.iter().enumerate().filter(|(_, phase)| !phase.laid.is_empty()) {
        let (laid, room) = (&phase.laid, MOST_TUPLES - phase.unlaid.len());
        left = left.saturating_sub(laid.len());
        let (first, last) = (laid[0], laid[laid.len() - 1]);
        let own = place == 0;
        let equal = laid.iter().any(|pair| phase.unlaid.contains(&failure(pair.0, pair.1)));
        cells.extend(reached(&[
            (own && mark == Mark::Ag, "laid after an own statement"),
            (own && mark == Mark::Ds, "laid after DS"),
            (!own, "laid after a woken statement"),
            (phase.waiting == 0, "laid with an empty queue"),
            (phase.waiting > 0, "laid with others waiting"),
            (own && mark == Mark::Ds && phase.waiting == 0, "laid after DS with an empty queue"),
            (laid.len() < room, "laid all with room left"),
            (laid.len() == room && left == 0 && mark != Mark::Cr, "laid all and the table full"),
            (left > 0, "laid in part"),
            (laid.len() > 16, "laid more than 16"),
            (first.0 < last.0, "laid to several monitors"),
            (laid.windows(2).any(|two| two[0].0 == two[1].0), "laid several hosts of a monitor"),
            (laid.iter().any(|pair| before.up[usize::from(pair.1)]), "laid of an up host"),
            (equal, "laid beside an equal tuple"),
        ]));
    }
    if phases.iter().filter(|phase| !phase.laid.is_empty()).count() > 1 {
        cells.push("laid in turns".to_string());
    }
    cells
}

/// Whether a statement was woken by tuples laid down before it, and by nothing else.
fn is_woken_by_laid(earlier: &Phase, woken: &Phase) -> bool {
    let ready = |statement: &Statement| statement.branches.iter().any(|b| holds(&b.guard, &earlier.unlaid));
    !earlier.laid.is_empty() && !woken.statement.as_ref().is_some_and(ready)
}

/// A woken statement, after the phase before it.
fn of_waking(earlier: &Phase, woken: &Phase) -> Vec<String> {
    let (Some(statement), Some(branch)) = (&woken.statement, woken.branch()) else {
        return Vec::new();
    };
    let twelve = woken.outcome() == Some(12);
    if !is_woken_by_laid(earlier, woken) {
        let done = matches!(execute(statement, &earlier.unlaid), Some((_, Ending::Done { .. })));
        return reached(&[(twelve && done, "woken 12 as the debt took the room")]);
    }
    let guard = &branch.guard;
    let formal = |field: &Field| !matches!(field, Field::Given(_));
    let formals = guard.fields.iter().any(formal);
    let ranges = guard.fields.iter().any(|field| matches!(field, Field::Range { .. }));
    reached(&[
        (true, "laid tuple wakes"),
        (guard.code == IN, "laid tuple wakes an in"),
        (guard.code == RD, "laid tuple wakes a rd"),
        (!matches!(guard.code, IN | RD), "laid tuple wakes an inp or rdp"),
        (formals, "laid tuple wakes formals"),
        (!formals, "laid tuple wakes actuals"),
        (ranges, "laid tuple wakes a range"),
        (twelve, "laid tuple wakes and it is 12"),
        (woken.outcome() == Some(0) && !branch.body.is_empty(), "laid tuple wakes a body done"),
    ])
}

/// Statements that ran while something was owed: what they took has no say before they end.
fn of_statement(before: &Run, phase: &Phase) -> Vec<String> {
    let Some(branch) = phase.branch() else {
        return Vec::new();
    };
    let takes = branch.operations().any(|op| matches!(op.code, IN | INP));
    let has = |code: u8| branch.body.iter().any(|op| op.code == code);
    let full = phase.unlaid.len() == MOST_TUPLES;
    let kept = phase.outcome() == Some(0) && full && before.tuples.len() == MOST_TUPLES;
    reached(&[
        (kept && takes && has(OUT), "takes and puts with the debt kept"),
        (kept && has(MOVE), "moves with the debt kept"),
        (takes && phase.outcome() == Some(12), "takes and is 12 beside a debt"),
        (takes && phase.outcome() == Some(16), "takes and is 16 beside a debt"),
        (takes && phase.outcome() == Some(17), "takes and is 17 beside a debt"),
    ])
}
