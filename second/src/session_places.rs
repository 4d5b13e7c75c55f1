//! The places that a session, its clock record and its journal are lent in, as docs/answers.md has them: numbers
//! (the configuration, the stored history, the counts of both queues, the mode), the slots of both queues, the
//! record and the journal.

use crate::cells::{self, EXTERNAL, INTERNAL, INTERNAL_COUNT};
use crate::clock::CLOCK_BYTES;
use crate::journal::JOURNAL_BYTES;
use crate::random::Random;
use crate::recorded::Recorded;
use crate::timed::Timed;

#[derive(Clone, PartialEq, Eq, Debug)]
pub struct SessionPlaces {
    pub numbers: Vec<u64>,
    pub internal: Vec<u8>,
    pub external: Vec<u8>,
    pub clock: Vec<u8>,
    pub journal: Vec<u8>,
}

impl SessionPlaces {
    pub fn of(recorded: &Recorded) -> SessionPlaces {
        SessionPlaces::of_timed(&recorded.timed, recorded.journal.bytes().to_vec())
    }

    pub fn of_timed(timed: &Timed, journal: Vec<u8>) -> SessionPlaces {
        let cells: Vec<u64> = cells::all(&timed.session).collect();
        let bytes = |cells: &[u64]| cells.iter().map(|&cell| cell as u8).collect();
        SessionPlaces {
            numbers: [&cells[..INTERNAL], &cells[INTERNAL_COUNT..]].concat(),
            internal: bytes(&cells[INTERNAL..EXTERNAL]),
            external: bytes(&cells[EXTERNAL..INTERNAL_COUNT]),
            clock: timed.clock.bytes(),
            journal,
        }
    }

    /// Numbers and bytes at will in all places but the journal's.
    pub fn at_will(random: &mut Random, journal: Vec<u8>) -> SessionPlaces {
        let mut places = SessionPlaces::of_timed(&Timed::ended(), journal);
        places.numbers.iter_mut().for_each(|number| *number = random.number());
        for bytes in [&mut places.internal, &mut places.external, &mut places.clock] {
            bytes.iter_mut().for_each(|byte| *byte = random.number() as u8);
        }
        places
    }

    /// One of the places is of another length.
    pub fn of_other_length(mut self, random: &mut Random) -> SessionPlaces {
        let other = |length: usize, random: &mut Random| match random.below(3) {
            0 => length - 1,
            1 => length + 1,
            _ => random.below(length),
        };
        match random.below(6) {
            0 => self.numbers.resize(other(self.numbers.len(), random), 0),
            1 => self.internal.resize(other(self.internal.len(), random), 0),
            2 => self.external.resize(other(self.external.len(), random), 0),
            3 => self.clock.resize(other(CLOCK_BYTES, random), 0),
            _ => self.journal.resize(other(JOURNAL_BYTES, random), 0),
        }
        self
    }
}
