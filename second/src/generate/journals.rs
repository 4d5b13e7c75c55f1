//! Lists of calls with step backs among them, and journals that no session needs to have left.

use super::{known_events, later, CallMaker, Flavour, Shape, LARGE};
use crate::calls::Call;
use crate::journal::{Entry, Journal};
use crate::limits::{MAX_ENTRIES, MAX_ROUNDS};
use crate::random::Random;
use crate::recorded_calls::RecordedCall;
use crate::tables::Chart;

/// How often, in a hundred, step backs follow a call.
const STEPS_BACK: usize = 15;

/// Mostly small charts, now and then a large one, or one whose start raises more names than the queue holds.
pub fn flavour_for_journals(random: &mut Random) -> Flavour {
    let rows = random.between(2, 16);
    match random.below(40) {
        0 => Flavour::large(random),
        1..=4 => Flavour {
            rows: random.between(12, 24),
            blocks: 95,
            many_raises: true,
            shape: Shape::Deep,
            ..Flavour::with_rows(random, rows)
        },
        _ => Flavour::with_rows(random, rows),
    }
}

/// A list of calls that mostly starts, posts and runs, with step backs.
pub fn recorded_calls(random: &mut Random, chart: &Chart, steps: usize) -> Vec<RecordedCall> {
    let calls = CallMaker::new(random, chart).calls(steps);
    let mut list = Vec::new();
    for call in calls {
        list.push(call.into());
        add_steps_back(random, chart, &mut list);
    }
    list
}

fn add_steps_back(random: &mut Random, chart: &Chart, list: &mut Vec<RecordedCall>) {
    while random.chance(STEPS_BACK) {
        for _ in 0..random.between(1, 3) {
            list.push(RecordedCall::StepBack { room: room_to_step_back(random, chart) });
        }
    }
}

fn room_to_step_back(random: &mut Random, chart: &Chart) -> usize {
    match random.below(12) {
        0 => random.below(4),
        1 => random.between(4, 20),
        _ => 600 * chart.rows.len().div_ceil(LARGE),
    }
}

/// A started session whose journal has from 509 to 512 entries, by calls that do little, and calls behind them.
pub fn calls_at_full_journal(random: &mut Random, chart: &Chart) -> Vec<RecordedCall> {
    let room = 600 * chart.rows.len().div_ceil(LARGE);
    let mut list = vec![Call::Start { room }.into()];
    let mut ticks = 0;
    for _ in 0..random.between(MAX_ENTRIES - 3, MAX_ENTRIES) {
        list.push(RecordedCall::Call(match random.below(12) {
            0 => {
                ticks += 1;
                Call::Clock { ticks }
            }
            1..=5 => Call::Clock { ticks },
            _ => Call::Run { rounds: 0, room: random.below(30) },
        }));
    }
    let events = known_events(chart);
    for _ in 0..random.between(8, 16) {
        list.push(match random.below(10) {
            0..=2 => Call::Post { name: events[random.below(events.len())].clone() }.into(),
            3 => Call::Post { name: b"*".to_vec() }.into(),
            4 => Call::Clock { ticks: later(random, ticks) }.into(),
            5..=7 => Call::Run { rounds: random.below(4) as u32, room }.into(),
            _ => RecordedCall::StepBack { room: room_to_step_back(random, chart) },
        });
    }
    list
}

/// Bytes at will with this count.
pub fn absurd_journal(random: &mut Random, count: u64) -> Journal {
    let mut journal = Journal::empty();
    for byte in journal.bytes_mut() {
        *byte = random.number() as u8;
    }
    journal.counting(count)
}

/// Entries at will: each is one, but what a session would have to be like to leave them is not asked.
pub fn unasked_journal(random: &mut Random, chart: &Chart) -> Journal {
    let events = known_events(chart);
    let mut ticks: u64 = 0;
    let count = match random.below(8) {
        0 => random.between(MAX_ENTRIES - 2, MAX_ENTRIES),
        1 => random.between(20, 60),
        _ => random.below(8),
    };
    let mut entries = Vec::new();
    for _ in 0..count {
        entries.push(match random.below(8) {
            0..=2 => Entry::Post(events[random.below(events.len())].clone()),
            3 | 4 => {
                let step = random.below(3) as u64;
                ticks = if random.chance(95) { ticks.saturating_add(step) } else { later(random, ticks) };
                Entry::Clock(ticks)
            }
            5 if random.chance(5) => Entry::Run(MAX_ROUNDS + random.below(2) as u64),
            _ => Entry::Run([0, 0, 1, 1, 2, 3][random.below(6)]),
        });
    }
    Journal::of(&entries)
}
