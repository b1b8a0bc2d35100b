//! Starting states built for a profile: nearly full, many waiting, and so on.

use super::{debts, numbers};
use super::rng::Rng;
use super::statements::{signal, wide, Intent, Maker};
use super::Profile;
use crate::run::{Mark, Run, Space, Tuple, MOST_TUPLES};
use crate::statement::{self, SpaceNumber};
use crate::value::{metres, name, whole};

/// A process that does not wait.
pub fn free_process(rng: &mut Rng, run: &Run) -> u16 {
    loop {
        let process = 100 + rng.below(60) as u16;
        if !run.process_waits(process) {
            return process;
        }
    }
}

/// A state for the profile that no record led to.
pub fn built(rng: &mut Rng, profile: Profile) -> Run {
    let mut run = Run::fresh();
    run.last = rng.below(1000) as u32;
    let hosts = if profile == Profile::Debts { rng.pick(&[3, 6, 12, 60]) } else { 3 };
    for _ in 0..hosts {
        run.up[rng.below(16)] = true;
    }
    run.up[2] = true;
    run.monitors = match profile {
        Profile::Monitors => 5 + rng.below(4),
        Profile::Debts => debts::monitors(rng),
        _ => rng.below(3),
    } as u8;
    open_spaces(rng, profile, &mut run);
    fill(rng, profile, &mut run);
    if profile == Profile::Debts {
        debts::replace_some(rng, &mut run);
        debts::owe(rng, &mut run);
    }
    match profile {
        Profile::Waiting => crowd(rng, &mut run),
        _ => {
            for _ in 0..rng.below(8) {
                let host = up_host(rng, &run);
                add_waiting(rng, profile, &mut run, host);
            }
        }
    }
    if rng.percent(5) {
        run.last = u32::MAX - rng.below(8) as u32;
    }
    run
}

fn up_host(rng: &mut Rng, run: &Run) -> u8 {
    let hosts: Vec<u8> = (0..16).filter(|host| run.up[usize::from(*host)]).collect();
    rng.pick(&hosts)
}

fn open_spaces(rng: &mut Rng, profile: Profile, run: &mut Run) {
    let count = match profile {
        Profile::Spaces if rng.percent(60) => 27 + rng.below(5),
        Profile::Spaces => rng.below(27),
        Profile::Damage => rng.below(10),
        _ => rng.below(4),
    };
    let numbers = numbers::rising(rng, count);
    run.next = numbers::next(rng, &numbers);
    for number in numbers {
        let private = rng.percent(40);
        let owner = if private { rng.below(8) as u16 } else { 0 };
        run.spaces.push(Space { number, private, owner });
    }
}

fn fill(rng: &mut Rng, profile: Profile, run: &mut Run) {
    let full = profile == Profile::Full || profile == Profile::Monitors && rng.percent(25);
    let count = match profile {
        Profile::Debts => debts::count(rng),
        _ if full => MOST_TUPLES - rng.below(8),
        _ => rng.below(9),
    };
    let zero = if profile == Profile::Debts { rng.pick(&[70, 95, 99]) } else { 70 };
    let spaces: Vec<SpaceNumber> = run.spaces.iter().map(|space| space.number).collect();
    for i in 0..count {
        let length = metres(rng.pick(&[0x3F00_0000, 0x3F00_0000, 0, 0xBF00_0000, 0x8000_0001, 1]));
        let mut values = vec![whole(i as i32), name(7), length];
        values.rotate_left(rng.below(3));
        values.truncate(1 + rng.below(3));
        let space = if rng.percent(zero) { 0 } else { rng.pick(&spaces) };
        run.tuples.push(Tuple { space, values });
    }
}

/// Steps a statement that most likely waits; positions need not follow on.
fn add_waiting(rng: &mut Rng, profile: Profile, run: &mut Run, host: u8) {
    let process = free_process(rng, run);
    let before = run.clone();
    let watches = profile == Profile::Debts && rng.percent(60);
    let mut maker = Maker::new(rng, &before, profile, host, process);
    let statement = if watches { maker.watch() } else { maker.statement_for(Intent::Wait) };
    let position = run.last + 1 + rng.below(3) as u32;
    run.step(position, Mark::Ag, &statement::write(&statement));
}

/// Up to 32 waiting: all alike, all wide, or any.
fn crowd(rng: &mut Rng, run: &mut Run) {
    let count = rng.pick(&[0, 6, 6, 6, 6, 6, 6, 6, 6, 32]);
    let count = (count + rng.below(27)).min(32);
    let style = rng.below(4);
    if style < 3 {
        run.tuples.clear();
    }
    for _ in 0..count {
        let host = up_host(rng, run);
        let process = free_process(rng, run);
        let statement = match style {
            0 | 1 => signal(host, process),
            2 => wide(host, process, false),
            _ => {
                add_waiting(rng, Profile::Waiting, run, host);
                continue;
            }
        };
        run.step(run.last + 1, Mark::Ag, &statement::write(&statement));
    }
}
