//! The cells that can occur, all of which a long enough run must reach.

use super::coverage::Coverage;
use super::range_cells;

/// Every outcome of the own reply by mark.
const OWN: [(&str, &[u8]); 6] = [
    ("RV", &[0, 6, 8]),
    ("CR", &[0, 6, 7]),
    ("MO", &[0, 6, 7, 9, 14]),
    ("MS", &[0, 6, 7, 9, 14]),
    ("DS", &[0, 6, 7, 9, 10, 11, 15]),
    ("AG", &[0, 6, 7, 9, 10, 11, 12, 13, 16, 17, 18]),
];

/// What else must occur.
const CELLS: [&str; 107] = [
    "AG waits",
    "woken 0",
    "woken 12",
    "woken 16",
    "woken 17",
    "woken feeds an older",
    "CR wakes",
    "CR drops waiting with monitors",
    "CR drops and wakes",
    "MS 14 spaces",
    "MS 14 numbers",
    "MS 0 private true",
    "MS 0 private false",
    "DS 15 space 0",
    "DS 15 named",
    "DS 0 with tuples",
    "AG 12 with copy",
    "AG 12 with out",
    "AG 17 at 512 tuples",
    "plus whole 0",
    "plus whole 17",
    "minus whole 0",
    "minus whole 17",
    "plus metres 0",
    "plus metres 17",
    "minus metres 0",
    "minus metres 17",
    "branch 1 done",
    "branch 2 done",
    "branch 3 done",
    "branch 4 done",
    "values 00",
    "values 01",
    "values 16",
    "move in one space all",
    "move in one space some",
    "move across all",
    "move across some",
    "copy in one space all",
    "copy in one space some",
    "copy across all",
    "copy across some",
    "512 tuples",
    "32 spaces",
    "32 waiting",
    "8 monitors",
    "last position",
    "reply of 3564 bytes",
    "reply buffer 0 refused 2",
    "reply buffer 1 to 3562 refused 2",
    "reply buffer 3563 refused 2",
    "reply buffer 3564 passed or 1",
    "reply buffer over 3564 passed or 1",
    "refused 1 state length",
    "refused 1 state header",
    "refused 1 state spaces",
    "refused 1 state tuples",
    "refused 1 state waiting",
    "refused 1 state waiting entry",
    "refused 1 state monitors over 8",
    "refused 1 state next number over 65536",
    "refused 1 state space not below next",
    "refused 1 state tuple in closed space",
    "refused 1 state field count",
    "refused 1 state spaces out of order",
    "refused 1 state space twice",
    "refused 1 state space 0 private",
    "refused 1 state space 0 closed",
    "refused 1 state shared with owner",
    "refused 1 state guard holds",
    "refused 1 state guard true",
    "refused 1 state no in or rd guard",
    "refused 1 state waits in closed space",
    "refused 1 state waits in another's space",
    "refused 3 record unknown mark",
    "refused 3 record record cut",
    "refused 3 record record longer",
    "refused 4 record position passed",
    "refused 5 record position ahead",
    "malformed body cut",
    "malformed body longer",
    "malformed body changed",
    "malformed over 250 bytes",
    "malformed host over 15",
    "malformed statement host over 15",
    "malformed metres not legal",
    "malformed name over 65535",
    "malformed used where bound",
    "malformed used unbound",
    "malformed bound twice",
    "malformed variable over 15",
    "malformed kind over 2",
    "malformed sum of other kind",
    "malformed sum of names",
    "malformed any in out",
    "malformed nine operations",
    "malformed five branches",
    "malformed no branch",
    "malformed out as guard",
    "malformed operand not legal",
    "malformed bind in out",
    "malformed out without field",
    "malformed guard code in body",
    "malformed sum in rd",
    "malformed bind in move",
    "malformed seven fields",
    "malformed no field",
];

/// What must occur of space numbers of two bytes and of bodies near the limit.
const NUMBERS: [&str; 84] = [
    "31 spaces over 255",
    "space 65535 open",
    "next number 65535",
    "next number 65536",
    "spaces far apart",
    "spaces with falling low bytes",
    "spaces of one low byte",
    "spaces of one high byte",
    "spaces of swapped bytes",
    "space with low byte 0",
    "private space with low byte 0",
    "MS gives 255",
    "MS gives 256",
    "MS gives 65535",
    "MS 14 with 65535 open",
    "MS 14 with 65535 closed",
    "DS 6 of 4 bytes",
    "DS 6 of 6 bytes",
    "DS 0 over 255",
    "DS 0 of 65535",
    "DS 0 of low byte 0",
    "DS 0 beside tuples of its high byte",
    "DS 0 beside tuples of its low byte",
    "DS 0 beside a named high byte",
    "DS 0 beside a named low byte",
    "DS 10 at an open high byte",
    "DS 10 at an open low byte",
    "DS 11 over 255",
    "DS 15 over 255",
    "DS 15 guard alone",
    "DS 15 body alone",
    "DS 15 from alone",
    "DS 15 to alone",
    "AG 10 guard",
    "AG 10 body",
    "AG 10 from",
    "AG 10 to",
    "AG 10 at an open high byte",
    "AG 10 at an open low byte",
    "AG 10 at open swapped bytes",
    "AG 11 guard",
    "AG 11 body",
    "AG 11 from",
    "AG 11 to",
    "AG 11 at an open high byte",
    "AG 11 at an open low byte",
    "AG 0 over 255",
    "AG 0 in 65535",
    "woken over 255",
    "guard finds one past its high byte",
    "guard finds one past its low byte",
    "guard finds none past its high byte",
    "guard finds none past its low byte",
    "move across one high byte",
    "move across one low byte",
    "move beside tuples of its high byte",
    "move beside tuples of its low byte",
    "copy across one high byte",
    "copy across one low byte",
    "copy beside tuples of its high byte",
    "copy beside tuples of its low byte",
    "AG of 249 bytes",
    "AG of 250 bytes",
    "AG of 250 bytes waits",
    "malformed by one byte",
    "malformed by its spaces",
    "refused 1 state next number 0",
    "refused 1 state next number byte 1",
    "refused 1 state next number byte 2",
    "refused 1 state next number byte 3",
    "refused 1 state next number byte 4",
    "taken state next number byte 3",
    "taken state next number byte 4",
    "refused 1 state count of spaces",
    "refused 1 state count of tuples byte 1",
    "refused 1 state count of tuples byte 2",
    "refused 1 state count of waiting",
    "refused 1 state space number byte 1",
    "refused 1 state space number byte 2",
    "refused 1 state tuple's space byte 1",
    "refused 1 state tuple's space byte 2",
    "refused 1 state waiting space byte 1",
    "refused 1 state waiting space byte 2",
    "refused 1 state spaces by their low bytes",
];

/// What must occur of debts.
const DEBTS: [&str; 81] = [
    "CR owes all",
    "CR owes some",
    "CR owes none with room",
    "CR fills the table",
    "CR at 512 without monitors",
    "CR owes 8",
    "CR of a host owed already",
    "CR of a host owed in part",
    "CR owes beside another host",
    "CR drops and owes",
    "CR owes and lays",
    "CR leaves an equal tuple",
    "CR owes beside an equal tuple",
    "CR 7 of an owed host",
    "RV of an owed host",
    "RV 0 beside a debt",
    "RV 6 beside a debt",
    "RV 8 beside a debt",
    "CR 0 beside a debt",
    "CR 6 beside a debt",
    "CR 7 beside a debt",
    "MO 0 beside a debt",
    "MO 9 beside a debt",
    "MO 14 beside a debt",
    "MS 0 beside a debt",
    "DS 0 beside a debt",
    "DS 10 beside a debt",
    "DS 15 beside a debt",
    "AG 0 beside a debt",
    "AG 6 beside a debt",
    "AG 9 beside a debt",
    "AG 10 beside a debt",
    "AG 12 beside a debt",
    "AG 16 beside a debt",
    "AG 17 beside a debt",
    "AG 18 beside a debt",
    "AG waits beside a debt",
    "AG takes and puts with the debt kept",
    "AG moves with the debt kept",
    "AG takes and is 12 beside a debt",
    "AG takes and is 16 beside a debt",
    "AG takes and is 17 beside a debt",
    "woken takes and puts with the debt kept",
    "woken takes and is 12 beside a debt",
    "woken takes and is 16 beside a debt",
    "woken 12 as the debt took the room",
    "laid after an own statement",
    "laid after a woken statement",
    "laid after a woken statement wakes",
    "laid after DS",
    "laid after DS with an empty queue",
    "laid with an empty queue",
    "laid with others waiting",
    "laid all with room left",
    "laid all and the table full",
    "laid in part",
    "laid in turns",
    "laid more than 16",
    "laid to several monitors",
    "laid several hosts of a monitor",
    "laid of an up host",
    "laid beside an equal tuple",
    "laid tuple wakes",
    "laid tuple wakes an in",
    "laid tuple wakes a rd",
    "laid tuple wakes an inp or rdp",
    "laid tuple wakes formals",
    "laid tuple wakes actuals",
    "laid tuple wakes a range",
    "laid tuple wakes and it is 12",
    "laid tuple wakes a body done",
    "1 pair owed",
    "more than 16 pairs owed",
    "128 pairs owed",
    "all hosts owed to a monitor",
    "a host owed to 8 monitors",
    "an up host owed",
    "refused 1 state owed to a number not given",
    "refused 1 state fewer monitors than owed",
    "refused 1 state owed below 512 tuples",
    "refused 1 state byte after the masks",
];

/// The cells that were reached and cannot occur: other outcomes, and more than 32 woken.
pub fn impossible(coverage: &Coverage) -> Vec<String> {
    let mut found = Vec::new();
    for (mark, outcomes) in OWN {
        for outcome in (0..=255).filter(|outcome| !outcomes.contains(outcome)) {
            found.push(format!("{mark} {outcome}"));
        }
    }
    found.extend((0..=255).filter(|o| ![0, 12, 16, 17].contains(o)).map(|o| format!("woken {o}")));
    found.extend((33..100).map(|count| format!("number woken {count:02}")));
    found.retain(|cell| coverage.cells.contains_key(cell));
    found
}

/// The cells that must be reached.
pub fn wanted() -> Vec<String> {
    let mut cells: Vec<String> = CELLS.iter().chain(&NUMBERS).map(|cell| cell.to_string()).collect();
    for (mark, outcomes) in OWN {
        cells.extend(outcomes.iter().map(|outcome| format!("{mark} {outcome}")));
    }
    cells.extend((0..=32).map(|count| format!("number woken {count:02}")));
    for cell in ["spaces open", "named at entry", "not open after entry"] {
        cells.extend((1..=32).map(|count| format!("{cell} {count:02}")));
    }
    cells.extend((1..=5).map(|number| format!("refused {number}")));
    cells.extend(wanted_of_debts());
    cells.extend(range_cells::wanted());
    cells
}

/// The cells of debts that must be reached.
pub fn wanted_of_debts() -> Vec<String> {
    let mut cells: Vec<String> = DEBTS.iter().map(|cell| cell.to_string()).collect();
    for cell in ["owed to monitor", "laid to monitor"] {
        cells.extend((1..=8).map(|monitor| format!("{cell} {monitor}")));
    }
    for cell in ["owed host", "laid host"] {
        cells.extend((0..16).map(|host| format!("{cell} {host:02}")));
    }
    for answer in ["refused 1", "taken"] {
        cells.extend((1..=16).map(|byte| format!("{answer} state owed byte {byte:02}")));
    }
    cells.extend(["a pair more", "a pair less"].map(|note| format!("taken state {note}")));
    cells
}

/// The cells that must be reached and were not.
pub fn missing(coverage: &Coverage) -> Vec<String> {
    let mut cells = wanted();
    cells.retain(|cell| !coverage.cells.contains_key(cell));
    cells
}
