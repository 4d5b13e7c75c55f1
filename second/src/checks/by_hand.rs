//! The telling points of the charts written by hand, at the limits and with single faults.

use super::Check;
use crate::at_limits;
use crate::by_hand;
use crate::encode::Layout;
use crate::examples::Example;
use crate::faults;
use crate::follower::{session_examples, SessionExample};
use crate::invariants::{ensure, Found};
use crate::near_misses::Lent;
use crate::places;
use crate::rules::verdict;
use crate::session::*;

pub fn checks() -> Vec<Check> {
    vec![
        Check::new("by hand: a parallel of parallels is done", parallel_of_parallels),
        Check::new("by hand: a final two levels down", final_two_levels_down),
        Check::new("by hand: an initial list of two", initial_list_of_two),
        Check::new("by hand: a default list of two", default_list_of_two),
        Check::new("by hand: three targets", three_targets),
        Check::new("by hand: started again", started_again),
        Check::new("by hand: chosen twice", chosen_twice),
        Check::new("by hand: 6 before 7", star_posted_last),
        Check::new("by hand: a run of 0 with room 0", run_of_none),
        Check::new("by hand: a raised done name", raised_done_name),
        Check::new("by hand: bytes next to a name's", posted_bytes),
        Check::new("by hand: a descriptor of 63 bytes", longest_descriptor),
        Check::new("by hand: small letters and capital ones", letter_case),
        Check::new("by hand: targets by the history that the exits left", targets_by_the_exits),
        Check::new("by hand: default blocks by the history that the exits left", default_blocks_by_the_exits),
        Check::new("by hand: an internal transition of a parallel", internal_of_a_parallel),
        Check::new("by hand: 32 internal names and 33", most_internal_names),
        Check::new("by hand: loops with a condition", guarded_loops),
        Check::new("by hand: longer loops", longer_loops),
        Check::new("by hand: stored at a row that is no history", stored_at_no_history),
        Check::new("limits: no rule is broken at a limit", limits_are_kept),
        Check::new("faults: every chart gets its number", faults_get_their_numbers),
        Check::new("faults: without its fault a chart is accepted", faults_are_single),
        Check::new("places: the right size alone is accepted", lent_places),
        Check::new("places: what a compiled chart is", opened_places),
    ]
}

/// What a call wrote, as kinds and indices.
fn wrote(example: &Example, call: usize, expected: &[(u64, u64)]) -> Found {
    let trace: Vec<(u64, u64)> =
        example.dumps[call].trace.iter().map(|entry| (entry / 65_536, entry % 65_536)).collect();
    ensure(trace == expected, &format!("call {call} wrote {trace:?}"))
}

/// The answers of all calls.
fn answers(example: &Example) -> Vec<u64> {
    example.dumps.iter().map(|dump| dump.answer_and_rounds[0]).collect()
}

fn parallel_of_parallels() -> Found {
    let example = by_hand::parallel_of_parallels();
    let entered = [(3, 1), (3, 2), (3, 3), (3, 4), (6, 3), (3, 5), (3, 6), (6, 5), (6, 2), (3, 7), (3, 8)];
    wrote(&example, 0, &entered)?;
    wrote(&example, 2, &[(1, 8), (2, 0), (7, 8), (3, 9), (6, 7), (6, 1)])
}

fn final_two_levels_down() -> Found {
    wrote(&by_hand::final_two_levels_down(), 2, &[(1, 6), (2, 0), (7, 6), (3, 7), (6, 5)])
}

fn initial_list_of_two() -> Found {
    let left = [(1, 1), (2, 0), (7, 1)];
    let entered = [(3, 2), (4, 1), (3, 3), (3, 4), (3, 6), (3, 7), (3, 9), (3, 10), (3, 11)];
    wrote(&by_hand::initial_list_of_two(), 2, &[&left[..], &entered].concat())
}

fn default_list_of_two() -> Found {
    let example = by_hand::default_list_of_two();
    let left = [(1, 1), (2, 0), (7, 1)];
    let by_default = [(3, 2), (4, 2), (3, 3), (3, 5), (3, 6), (3, 7), (3, 9), (3, 11)];
    wrote(&example, 2, &[&left[..], &by_default].concat())?;
    let as_stored = [(3, 2), (3, 3), (3, 5), (3, 6), (3, 8), (3, 9), (3, 11)];
    wrote(&example, 7, &[&left[..], &as_stored].concat())
}

fn three_targets() -> Found {
    let expected = [(1, 1), (2, 0), (7, 1), (3, 2), (3, 3), (3, 5), (3, 6), (3, 8), (3, 9), (3, 11)];
    wrote(&by_hand::three_targets(), 2, &expected)
}

fn started_again() -> Found {
    let example = by_hand::started_again();
    ensure(answers(&example) == [0, 0, 0, 101, 0, 0, 0, 101, NO_TRACE_ROOM], "the answers")?;
    let stored: Vec<bool> = example.dumps.iter().map(|dump| !dump.stored.is_empty()).collect();
    let expected = [false, false, false, true, false, false, false, true, false];
    ensure(stored == expected, &format!("stored after each call: {stored:?}"))
}

fn chosen_twice() -> Found {
    wrote(&by_hand::chosen_twice(), 2, &[(2, 0), (7, 2), (4, 1), (2, 1), (7, 3), (4, 2)])
}

fn star_posted_last() -> Found {
    let answers = answers(&by_hand::star_posted_last());
    ensure(answers[..33] == [ACCEPTED; 33], "32 posts are taken")?;
    ensure(answers[33..] == [BAD_NAME, QUEUE_FULL], &format!("{answers:?}"))
}

fn run_of_none() -> Found {
    let answers = answers(&by_hand::run_of_none());
    ensure(answers == [ACCEPTED, ACCEPTED, STATUS_MORE, NO_TRACE_ROOM], &format!("{answers:?}"))
}

fn raised_done_name() -> Found {
    wrote(&by_hand::raised_done_name(), 1, &[(1, 1), (2, 0), (7, 1), (3, 2)])
}

fn posted_bytes() -> Found {
    let answers = answers(&by_hand::posted_bytes());
    ensure(answers[1..9] == [BAD_NAME; 8] && answers[9] == ACCEPTED, &format!("{answers:?}"))
}

fn longest_descriptor() -> Found {
    wrote(&by_hand::longest_descriptor(), 4, &[(2, 0), (7, 1), (4, 1), (2, 0), (7, 1), (4, 1)])
}

fn letter_case() -> Found {
    let example = by_hand::letter_case();
    wrote(&example, 2, &[])?;
    wrote(&example, 4, &[(2, 0), (7, 1), (4, 1)])
}

fn targets_by_the_exits() -> Found {
    let example = by_hand::targets_by_the_exits();
    wrote(&example, 0, &[(3, 1), (3, 2), (3, 3)])?;
    wrote(&example, 2, &[(1, 3), (2, 1), (7, 3), (3, 4)])?;
    wrote(&example, 4, &[(1, 4), (1, 2), (1, 1), (2, 0), (7, 4), (3, 1), (3, 2), (3, 4)])?;
    wrote(&example, 6, &[(1, 4), (1, 2), (2, 2), (7, 4), (3, 5)])?;
    wrote(&example, 8, &[(1, 5), (1, 1), (2, 0), (7, 5), (3, 1), (3, 5)])
}

fn default_blocks_by_the_exits() -> Found {
    let example = by_hand::default_blocks_by_the_exits();
    wrote(&example, 0, &[(3, 1), (3, 2), (3, 3), (3, 6), (3, 7)])?;
    wrote(&example, 2, &[(1, 3), (2, 1), (7, 3), (3, 4)])?;
    let left = [(1, 7), (1, 6), (1, 4), (1, 2), (1, 1), (2, 0), (7, 4)];
    let one_block = [(3, 1), (3, 2), (3, 4), (3, 6), (3, 8), (4, 2), (3, 10)];
    wrote(&example, 4, &[&left[..], &one_block].concat())?;
    let left = [(1, 10), (1, 8), (1, 6), (1, 4), (1, 2), (1, 1), (2, 0), (7, 4)];
    let no_block = [(3, 1), (3, 2), (3, 4), (3, 6), (3, 8), (3, 10)];
    wrote(&example, 6, &[&left[..], &no_block].concat())
}

fn internal_of_a_parallel() -> Found {
    let example = by_hand::internal_of_a_parallel();
    wrote(&example, 0, &[(3, 1), (3, 2), (3, 3), (3, 4), (3, 5), (3, 7), (3, 8)])?;
    let left = [(1, 8), (1, 7), (1, 5), (1, 4), (1, 3), (1, 2), (2, 0), (7, 5)];
    let entered = [(3, 2), (3, 3), (3, 4), (3, 6), (3, 7), (3, 8)];
    wrote(&example, 2, &[&left[..], &entered].concat())
}

/// Slots 6, 7 and 8 are x, y and n.
fn most_internal_names() -> Found {
    let example = by_hand::most_internal_names();
    let answers = answers(&example);
    let more = [ACCEPTED, ACCEPTED, STATUS_MORE, STATUS_MORE, QUEUE_FULL];
    let refused = [ACCEPTED, ACCEPTED, QUEUE_FULL];
    ensure(answers == [&refused[..], &refused, &more].concat(), &format!("{answers:?}"))?;
    let eight = [(5, 8); 8];
    let left = [&[(1, 1), (5, 6), (5, 7)], &eight[..6], &[(2, 0), (7, 1)], &eight[..]].concat();
    let entered = [&[(3, 2)], &eight[..], &[(3, 3)], &eight[..]].concat();
    wrote(&example, 8, &[left, entered].concat())?;
    wrote(&example, 9, &[(2, 3), (7, 3), (5, 8)])?;
    [2, 5, 10].into_iter().try_for_each(|call| wrote(&example, call, &[]))
}

fn guarded_loops() -> Found {
    let example = by_hand::guarded_loops();
    let answers = answers(&example);
    ensure(answers == [ACCEPTED, STATUS_IDLE, ACCEPTED, STATUS_MORE], &format!("{answers:?}"))?;
    let (there, again) = ([(1, 1), (2, 1), (7, 1), (3, 2)], [(1, 2), (2, 2), (7, 2), (3, 2)]);
    wrote(&example, 3, &[there, again, again].concat())
}

fn longer_loops() -> Found {
    let there = [(1, 2), (2, 0), (7, 2), (3, 3)];
    let back = [(1, 3), (2, 1), (7, 3), (3, 2)];
    wrote(&by_hand::loop_of_two(), 1, &[there, back, there].concat())?;
    let around = [(1, 2), (1, 1), (2, 0), (7, 2), (3, 1), (3, 2)];
    wrote(&by_hand::loop_to_the_parent(), 1, &[around, around].concat())?;
    wrote(&by_hand::loop_to_own_history(), 1, &[around, around].concat())
}

/// What a history has stored, and what it might have, at rows of other kinds: each is no session (9).
fn stored_at_no_history() -> Found {
    let about = "stored at ";
    let tried: Vec<SessionExample> = session_examples()
        .into_iter()
        .flat_map(|(_, sessions)| sessions)
        .filter(|session| session.about.starts_with(about))
        .collect();
    ensure(tried.len() == 8 && tried.iter().all(|session| !session.fits), &format!("{}", tried.len()))
}

fn limits_are_kept() -> Found {
    for example in at_limits::small().iter().chain(&at_limits::large()) {
        ensure(example.verdict == 0, &format!("{}: {}", example.name, example.verdict))?;
        let refused = example.dumps.iter().any(|dump| (1..=11).contains(&dump.answer_and_rounds[0]));
        ensure(!refused, &format!("{}: a call is refused", example.name))?;
    }
    let fits: Vec<bool> = at_limits::headers().iter().map(|header| header.fits).collect();
    ensure(fits[..3] == [true, true, false] && fits[3..] == [false; 6], &format!("{fits:?}"))
}

fn faults_get_their_numbers() -> Found {
    for fault in faults::all() {
        let given = fault.example().verdict;
        ensure(given == fault.rule, &format!("{}: {given}, not {}", fault.about, fault.rule))?;
    }
    Ok(())
}

/// Each pair of targets of the charts of rule 4 that may stand together, alone.
fn faults_are_single() -> Found {
    for targets in ["h", "k", "r0 r1", "u0 u1", "v0 u1", "r0 u1", "u0 r1"] {
        let lent = Lent::of(&faults::with_targets(targets), Layout::Plain);
        let given = verdict(&lent.spelt.numbers, &lent.spelt.names, lent.place);
        ensure(given == 0, &format!("targets {targets}: {given}"))?;
    }
    Ok(())
}

fn lent_places() -> Found {
    let verdicts: Vec<u64> = places::lent().iter().map(|lent| lent.verdict).collect();
    ensure(verdicts == [0, 1, 1, 1, 1, 1, 1], &format!("{verdicts:?}"))
}

fn opened_places() -> Found {
    let right = ["a compiled chart", "row 3 a final, which has the same sets", "another name"];
    for opened in places::opened() {
        ensure(opened.opens == right.contains(&opened.about), opened.about)?;
    }
    Ok(())
}
