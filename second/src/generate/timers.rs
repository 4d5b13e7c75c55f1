//! Sends and cancels in generated blocks, clocks for lists of calls, and clock records that no start needs
//! to reach.

use super::{known_events, session, CallMaker, Generator};
use crate::calls::Call;
use crate::clock::{Clock, Pending};
use crate::compiled::CompiledChart;
use crate::limits::*;
use crate::random::Random;
use crate::tables::{Action, Chart};
use crate::timed::Timed;

/// Few, so that sends are due together and cancels meet them.
const DELAYS: [u32; 7] = [0, 1, 2, 5, 10, 100, 4_294_967_295];
const SEND_IDS: [&str; 4] = ["t", "t.x", "watch-dog", "9_"];

/// How often an action of a block that may hold sends is one, or a cancel; how often it is a cancel, and how
/// often a send has an id.
const TIMINGS: usize = 75;
const CANCELS: usize = 25;
const SENDS_WITH_ID: usize = 60;

impl Generator {
    /// A send or a cancel, where the block may hold them.
    pub(super) fn timing(&mut self) -> Option<Action> {
        let wanted = self.sends && self.random.chance(TIMINGS);
        let cancels = if self.flavour.many_sends { CANCELS / 5 } else { CANCELS };
        match wanted {
            false => None,
            true if self.random.chance(cancels) => {
                let id = self.send_id();
                Some(Action::Cancel(self.name(id)))
            }
            true => Some(self.send()),
        }
    }

    fn send_id(&mut self) -> &'static str {
        self.random.pick(&SEND_IDS).expect("there are some")
    }

    fn send(&mut self) -> Action {
        let event = self.event();
        let delay = self.random.pick(&DELAYS).expect("there are some");
        let id = match self.random.chance(SENDS_WITH_ID) {
            true => {
                let id = self.send_id();
                Some(self.name(id))
            }
            false => None,
        };
        Action::Send { event, delay, id }
    }
}

/// Whether a chart has sends at all.
pub fn has_sends(chart: &Chart) -> bool {
    let rows = chart.rows.iter().flat_map(|row| [&row.entry, &row.exit, &row.block]);
    let mut blocks = rows.chain(chart.transitions.iter().map(|transition| &transition.block));
    blocks.any(|block| block.iter().any(|action| matches!(action, Action::Send { .. })))
}

/// A clock that stands still, creeps or leaps, and now and then one that is refused.
pub fn later(random: &mut Random, ticks: u64) -> u64 {
    let forth = |by: u64| ticks.saturating_add(by).min(MAX_TICKS);
    match random.below(40) {
        0..=9 => ticks,
        10..=19 => forth(1),
        20..=25 => forth(random.between(2, 6) as u64),
        26..=30 => forth([10, 50, 100, 1_000][random.below(4)]),
        31 | 32 => forth(MAX_DELAY),
        33 => forth(MAX_DELAY - 1),
        34 => MAX_TICKS,
        35 => MAX_TICKS + 1,
        36 => [u64::MAX, MAX_TICKS * 2][random.below(2)],
        37 => ticks.wrapping_sub(1),
        38 => ticks / 2,
        _ => forth(random.number() % MAX_TICKS),
    }
}

impl CallMaker<'_> {
    /// Told from the calls alone, so that it may be another than the record's once a call is refused.
    pub(super) fn clock(&mut self) {
        let ticks = later(self.random, self.ticks);
        if (self.ticks..=MAX_TICKS).contains(&ticks) {
            self.ticks = ticks;
        }
        self.calls.push(Call::Clock { ticks });
    }

    /// The queue takes none or few of what is due, and more once rounds have emptied it.
    pub(super) fn clock_beside_full_queue(&mut self) {
        for _ in 0..self.random.between(QUEUE_NAMES - 2, QUEUE_NAMES) {
            self.post();
        }
        for _ in 0..3 {
            self.clock();
            self.run();
        }
    }
}

/// A well-formed session that is not ended, and a record beside it.
pub fn timed(random: &mut Random, compiled: &CompiledChart) -> Timed {
    Timed { session: session(random, compiled), clock: clock(random, &compiled.chart) }
}

/// A well-formed record with any number of sends pending, some due already.
pub fn clock(random: &mut Random, chart: &Chart) -> Clock {
    let ticks = match random.below(5) {
        0 => 0,
        1 => MAX_TICKS - random.below(3) as u64,
        2 => random.number() % MAX_TICKS,
        _ => random.below(200) as u64,
    };
    let count = match random.below(10) {
        0..=3 => 0,
        4..=6 => random.between(1, 5),
        7 | 8 => random.between(6, 31),
        _ => MAX_PENDING,
    };
    let events = known_events(chart);
    let sends: Vec<Pending> = (0..count).map(|_| pending(random, ticks, &events)).collect();
    Clock::of(ticks, &sends).expect("no more than fit")
}

fn pending(random: &mut Random, ticks: u64, events: &[Vec<u8>]) -> Pending {
    let due = match random.below(8) {
        0 => ticks,
        1 => ticks.saturating_sub(random.below(10) as u64),
        2 => ticks + MAX_DELAY,
        3 => 0,
        _ => ticks + random.below(8) as u64,
    };
    let id = random.chance(SENDS_WITH_ID).then(|| SEND_IDS[random.below(SEND_IDS.len())]);
    Pending {
        due,
        event: events[random.below(events.len())].clone(),
        id: id.map(|id| id.as_bytes().to_vec()),
    }
}
