//! A lent list of calls with a journal: seven numbers a call, windows of the trace one behind the other.

use super::answers::compiled;
use super::desk::timer;
use super::Check;
use crate::invariants::{ensure, Found};
use crate::journal::{Entry, Journal};
use crate::recorded::Recorded;
use crate::recorded_calls::perform;

pub fn checks() -> Vec<Check> {
    vec![
        Check::new("lists with a journal: each kind of call", each_kind),
        Check::new("lists with a journal: where a list ends", where_a_list_ends),
        Check::new("lists with a journal: a refused call does not end it", refused_goes_on),
    ]
}

/// Stands in cells and places that no call writes.
const U: u64 = 0x5a5a;
const KEPT: u32 = 0xffff_ffff;

fn done(cells: &[[u64; 7]], text: &[u8], room: usize) -> (usize, Recorded, Vec<[u64; 7]>, Vec<u32>) {
    let mut lent: Vec<u64> = cells.concat();
    let mut trace = vec![KEPT; room];
    let (count, left) = perform(Some(&compiled(&timer())), Recorded::ended(), &mut lent, text, &mut trace);
    let cells = lent.chunks(7).map(|call| call.try_into().expect("seven numbers")).collect();
    (count, left, cells, trace)
}

fn entry(kind: u32, index: u32) -> u32 {
    kind * 65_536 + index
}

/// Start, post, run, two step backs, clock call; windows of 2, 1, 5, 3, 1 and 1 entries.
fn each_kind() -> Found {
    let cells = [
        [0, 2, U, U, U, U, U],
        [1, 1, 1, 2, U, U, U],
        [2, 5, 1, U, U, U, U],
        [4, 3, U, U, U, U, U],
        [4, 1, U, U, U, U, U],
        [3, 1, 6, U, U, U, U],
    ];
    let (count, left, cells, trace) = done(&cells, b"xe", 14);
    ensure(count == 6, "six calls")?;
    let given: Vec<[u64; 3]> = cells.iter().map(|call| [call[4], call[5], call[6]]).collect();
    let expected = [[0, 0, 1], [0, 0, 0], [101, 1, 5], [0, 0, 0], [0, 0, 1], [0, 0, 0]];
    ensure(given == expected, &format!("{given:?}"))?;
    let unread = cells.iter().map(|call| &call[..4]).collect::<Vec<_>>();
    ensure(
        unread == [[0, 2, U, U], [1, 1, 1, 2], [2, 5, 1, U], [4, 3, U, U], [4, 1, U, U], [3, 1, 6, U]],
        "given",
    )?;
    let mut expected = vec![KEPT; 14];
    expected[0] = entry(3, 1);
    expected[3..8].copy_from_slice(&[entry(1, 1), entry(2, 0), entry(7, 1), entry(3, 2), entry(8, 4)]);
    expected[11] = entry(3, 1);
    ensure(trace == expected, "each call writes in its own window")?;
    ensure(left.journal.entries() == Some(vec![Entry::Clock(6)]), "the journal passes on")?;
    ensure(
        left.timed.clock.ticks == 6 && left.timed.session.external.count == 0,
        "and so do session and record",
    )
}

/// Before another kind, a name outside the text, too many rounds, a window that does not fit, six cells.
fn where_a_list_ends() -> Found {
    let start = [0, 1, U, U, U, U, U];
    let ends: [[u64; 7]; 8] = [
        [5, 0, U, U, U, U, U],
        [u64::MAX, 0, U, U, U, U, U],
        [1, 0, 0, 3, U, U, U],
        [1, 0, 2, 1, U, U, U],
        [2, 0, 1 << 32, U, U, U, U],
        [2, 3, 1, U, U, U, U],
        [4, 3, U, U, U, U, U],
        [4, u64::MAX, U, U, U, U, U],
    ];
    for last in ends {
        let (count, left, cells, trace) = done(&[start, last, start], b"xe", 3);
        ensure(count == 1 && cells[1] == last && cells[2] == start, &format!("ends before {last:?}"))?;
        ensure(trace[1..] == [KEPT; 2] && left.journal == Journal::empty(), "nothing behind it is done")?;
    }
    let mut short = [&start[..], &[4, 0, U, U, U, U]].concat();
    let mut trace = [KEPT; 1];
    let chart = compiled(&timer());
    let (count, _) = perform(Some(&chart), Recorded::ended(), &mut short, &[], &mut trace);
    ensure(count == 1 && short[7..] == [4, 0, U, U, U, U], "six cells are no call")?;
    let (count, ..) = done(&[], &[], 0);
    ensure(count == 0, "no calls")
}

/// 6, 14 and 10 are told, and the next call goes on from what was handed back.
fn refused_goes_on() -> Found {
    let cells = [
        [0, 1, U, U, U, U, U],
        [1, 0, 0, 2, U, U, U],
        [3, 0, u64::MAX, U, U, U, U],
        [1, 0, 1, 2, U, U, U],
        [4, 0, U, U, U, U, U],
        [2, 5, 9, U, U, U, U],
    ];
    let (count, left, cells, _) = done(&cells, b"*e", 6);
    let given: Vec<[u64; 3]> = cells.iter().map(|call| [call[4], call[5], call[6]]).collect();
    ensure(count == 6, "six calls")?;
    ensure(
        given == [[0, 0, 1], [6, 0, 0], [14, 0, 0], [0, 0, 0], [10, 0, 0], [101, 1, 5]],
        &format!("{given:?}"),
    )?;
    let entries = vec![Entry::Post(b"e".to_vec()), Entry::Run(1)];
    ensure(left.journal.entries() == Some(entries), "the refused ones left no entry and dropped none")
}
