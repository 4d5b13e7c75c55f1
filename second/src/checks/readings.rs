//! The charts of the readings, and that other readings would give other results on them.

use super::Check;
use crate::appendix_d::{compute_entry_set, Literally};
use crate::compiled::CompiledChart;
use crate::examples::{self, Example};
use crate::invariants::{ensure, Found};
use crate::legal::is_legal;
use crate::limits::{MAX_TARGETS_OF_TRANSITION, QUEUE_NAMES};
use crate::microstep::{is_in_final_state, TraceEntry};
use crate::near_misses;
use crate::numbers::{RowNumber, TransitionNumber, ROOT};
use crate::readings as charts;
use crate::row_set::RowSet;
use crate::selection::{domain_for, Selected, StoredHistory};
use crate::session::*;
use crate::tables::Kind;
use crate::timed::{RoundRecord, Timed};

pub fn checks() -> Vec<Check> {
    vec![
        Check::new("reading 1: entering above the domain would be illegal", reading_01),
        Check::new("reading 2: a new domain would be illegal", reading_02),
        Check::new("reading 3: a dropped candidate removes nothing", reading_03),
        Check::new("reading 4: number order would differ", reading_04),
        Check::new("reading 5: done judged late would come twice", reading_05),
        Check::new("reading 6: a default block is left out", reading_06),
        Check::new("reading 7: anchors would give another domain", reading_07),
        Check::new("reading 8: a list of nine rows", reading_08),
        Check::new("reading 9: none in its three columns", reading_09),
        Check::new("reading 10: no root and no history is listed", reading_10),
        Check::new("reading 11: history stays in an ended session", reading_11),
        Check::new("reading 12: 7 before 10", reading_12),
        Check::new("reading 13: 7 on the way to closing", reading_13),
        Check::new("reading 14: statuses", reading_14),
        Check::new("reading 15: stored sets", reading_15),
        Check::new("reading 16: posted names", reading_16),
        Check::new("reading 17: a history is no child", reading_17),
        Check::new("reading 18: ids, dots and slots", reading_18),
        Check::new("reading 19: the rounds of chart A", reading_19),
        Check::new("reading 20: one row", reading_20),
        Check::new("reading 21: a dropped event is a round", reading_21),
        Check::new("examples: every reading has one", every_reading),
        Check::new("examples: generated ones are accepted and differ", generated_examples),
        Check::new("examples: every near miss has one", near_miss_examples),
        Check::new("examples: changed charts get every number", changed_examples),
        Check::new("examples: by hand", by_hand_examples),
    ]
}

/// A round of an example, as it was worked out.
struct Watched {
    before: Session,
    record: RoundRecord,
    refusal: Option<u64>,
}

fn watch(example: &Example) -> (CompiledChart, Vec<Watched>) {
    let compiled = example.compiled();
    let mut watched = Vec::new();
    let mut timed = Timed::ended();
    for call in &example.calls {
        let answer = call.done_on(timed, Some(&compiled), &mut |before, record, after| {
            let (before, record) = (before.session.clone(), record.clone());
            watched.push(Watched { before, record, refusal: after.err() });
        });
        timed = answer.timed();
    }
    (compiled, watched)
}

fn first(examples: Vec<Example>) -> Example {
    examples.into_iter().next().expect("each reading has an example")
}

fn some_round(examples: Vec<Example>, differs: impl Fn(&CompiledChart, &Watched) -> bool) -> Found {
    let (compiled, watched) = watch(&first(examples));
    ensure(watched.iter().any(|round| differs(&compiled, round)), "no round tells the readings apart")
}

/// The configuration that Appendix D would leave, literally.
fn literal_configuration(compiled: &CompiledChart, round: &Watched, literally: Literally) -> RowSet {
    let stored = StoredHistory(&round.record.step.stored);
    let plan = compute_entry_set(compiled, stored, &round.record.selection.kept, literally);
    round.before.configuration.minus(&round.record.step.exited).union(&plan.rows)
}

fn literal_is_illegal(examples: Vec<Example>, literally: Literally) -> Found {
    some_round(examples, |compiled, round| {
        let literal = literal_configuration(compiled, round, literally);
        let ours = &round.record.step.configuration;
        literal != *ours && !is_legal(&compiled.tree, &literal) && is_legal(&compiled.tree, ours)
    })
}

fn reading_01() -> Found {
    literal_is_illegal(charts::reading_01(), Literally { above_domain: true, domain_again: false })
}

fn reading_02() -> Found {
    literal_is_illegal(charts::reading_02(), Literally { above_domain: false, domain_again: true })
}

/// The wrong way: what a candidate outranks goes, even if the candidate is dropped after all.
fn conflicts_that_remove_anyway(compiled: &CompiledChart, candidates: &[Selected]) -> Vec<Selected> {
    let source = |one: &Selected| compiled.chart.transition(one.transition).source;
    let mut kept: Vec<Selected> = Vec::new();
    for candidate in candidates {
        let outranks = |other: &Selected| compiled.tree.is_ancestor(source(other), source(candidate));
        let meets = |other: &Selected| candidate.exit_set.meets(&other.exit_set);
        let dropped = kept.iter().any(|other| meets(other) && !outranks(other));
        kept.retain(|other| !(meets(other) && outranks(other)));
        if !dropped {
            kept.push(candidate.clone());
        }
    }
    kept
}

fn reading_03() -> Found {
    some_round(charts::reading_03(), |compiled, round| {
        let selection = &round.record.selection;
        let numbers: Vec<TransitionNumber> = selection.kept.iter().map(|one| one.transition).collect();
        numbers == [TransitionNumber(0), TransitionNumber(1)]
            && conflicts_that_remove_anyway(compiled, &selection.candidates) != selection.kept
    })
}

fn reading_04() -> Found {
    some_round(charts::reading_04(), |_, round| {
        let kept = &round.record.selection.kept;
        kept.windows(2).any(|pair| pair[0].transition > pair[1].transition)
    })
}

fn reading_05() -> Found {
    some_round(charts::reading_05(), |compiled, round| {
        let step = &round.record.step;
        let tree = &compiled.tree;
        let shown = step.trace.iter().filter(|&&entry| entry == TraceEntry::Done(RowNumber(1))).count();
        let late = step
            .entry
            .rows
            .rows()
            .filter(|&row| tree.kind(row) == Kind::Final && tree.parent(row) != Some(ROOT))
            .filter_map(|row| tree.parent(tree.parent(row)?))
            .filter(|&row| tree.is_parallel(row) && is_in_final_state(compiled, &step.configuration, row))
            .count();
        shown == 1 && late == 2
    })
}

fn reading_06() -> Found {
    let example = first(charts::reading_06());
    let with_block = |place: usize| example.dumps[place].trace.contains(&(4 * 65_536 + 5));
    ensure(with_block(3) && !with_block(4), "the block runs once, then not")?;
    some_round(charts::reading_06(), |compiled, round| {
        let entry = &round.record.step.entry;
        entry.fallen.rows().any(|history| {
            !entry.rows.contains(compiled.tree.anchor(history))
                && !compiled.chart.row(history).block.is_empty()
        })
    })
}

fn reading_07() -> Found {
    some_round(charts::reading_07(), |compiled, round| {
        round.record.selection.kept.iter().any(|one| {
            let transition = compiled.chart.transition(one.transition);
            let anchors = compiled.target_anchors(one.transition);
            domain_for(compiled, transition, &anchors) != one.domain
        })
    })
}

fn reading_08() -> Found {
    let example = first(charts::reading_08());
    let list = example.compiled().chart.rows[0].list.len() as u64;
    ensure(example.verdict == 0 && list > MAX_TARGETS_OF_TRANSITION, "a long list is accepted")
}

fn reading_09() -> Found {
    let verdicts: Vec<u64> = charts::reading_09().iter().map(|example| example.verdict).collect();
    ensure(verdicts == [2, 2, 3, 3, 1, 1, 0], &format!("{verdicts:?}"))
}

fn reading_10() -> Found {
    let example = first(charts::reading_10());
    let tree = example.compiled().tree;
    let listed = example.dumps.iter().flat_map(|dump| dump.configuration.clone());
    let fine = listed.map(|row| RowNumber(row as usize)).all(|row| tree.is_real_state(row));
    ensure(fine && example.dumps[4].configuration == [1, 3, 5, 6], "states alone are listed")
}

fn reading_11() -> Found {
    let example = first(charts::reading_11());
    let last = example.dumps.last().ok_or("no calls")?;
    ensure(last.mode == [ENDED] && last.stored == [4, 1, 3], "the stored state stays")
}

fn is_full(round: &Watched) -> bool {
    round.before.internal.names().len() + round.record.step.queued.len() > QUEUE_NAMES
}

fn reading_12() -> Found {
    let example = first(charts::reading_12());
    ensure(example.dumps[2].answer_and_rounds == [7, 0], "7 with no room at all")?;
    some_round(charts::reading_12(), |_, round| is_full(round) && round.refusal == Some(QUEUE_FULL))
}

fn reading_13() -> Found {
    some_round(charts::reading_13(), |_, round| {
        round.record.step.closing && is_full(round) && round.refusal == Some(QUEUE_FULL)
    })
}

fn reading_14() -> Found {
    let example = first(charts::reading_14());
    let given: Vec<u64> = example.dumps.iter().map(|dump| dump.answer_and_rounds[0]).collect();
    let expected = [
        STATUS_ENDED,
        ACCEPTED,
        STATUS_IDLE,
        ACCEPTED,
        STATUS_MORE,
        STATUS_IDLE,
        ACCEPTED,
        STATUS_MORE,
        STATUS_MORE,
        STATUS_ENDED,
        STATUS_ENDED,
    ];
    ensure(given == expected, &format!("{given:?}"))
}

fn reading_15() -> Found {
    let example = first(charts::reading_15());
    let stored = &example.dumps[2].stored;
    ensure(*stored == [6, 2, 2, 5, 7, 2, 3, 5], &format!("{stored:?}"))
}

fn reading_16() -> Found {
    let example = first(charts::reading_16());
    let given: Vec<u64> = example.dumps.iter().map(|dump| dump.answer_and_rounds[0]).collect();
    ensure(given == [0, 6, 6, 0, 6, STATUS_IDLE], &format!("{given:?}"))
}

fn reading_17() -> Found {
    let example = first(charts::reading_17());
    ensure(example.dumps[0].configuration == [1, 3], "the first child that is no history")?;
    let done = [6 * 65_536 + 6, 6 * 65_536 + 4];
    ensure(done.iter().all(|entry| example.dumps[3].trace.contains(entry)), "q is done")
}

fn reading_18() -> Found {
    let examples = charts::reading_18();
    ensure(examples[1].verdict == 2, "equal ids in two slots")?;
    let last = examples[0].dumps.last().ok_or("no calls")?;
    ensure(last.configuration == [5], "the dotted done event matches, then e")?;
    let compiled = examples[0].compiled();
    let slot = compiled.chart.names.len() as u64 - 1;
    let shown = examples[0].dumps.iter().any(|dump| dump.trace.contains(&(5 * 65_536 + slot)));
    ensure(shown, "the trace shows the table's slot")
}

fn reading_19() -> Found {
    let examples = charts::reading_19();
    let traces: Vec<usize> = examples[0].dumps.iter().map(|dump| dump.trace.len()).collect();
    ensure(traces == [5, 0, 4, 0, 9, 0, 0, 6, 0, 8], &format!("{traces:?}"))?;
    let status = |example: &Example| example.dumps.last().map(|dump| dump.answer_and_rounds.clone());
    ensure(status(&examples[1]) == Some(vec![STATUS_IDLE, 6]), "six rounds, idle")?;
    ensure(status(&examples[2]) == Some(vec![STATUS_MORE, 3]), "three rounds, more")
}

fn reading_20() -> Found {
    ensure(first(charts::reading_20()).verdict == 3, "one row gets 3")
}

fn reading_21() -> Found {
    let example = first(charts::reading_21());
    let given: Vec<&[u64]> = example.dumps.iter().map(|dump| &dump.answer_and_rounds[..]).collect();
    ensure(given[4] == [STATUS_MORE, 1] && given[5] == [NO_TRACE_ROOM, 1], &format!("{given:?}"))
}

fn every_reading() -> Found {
    let all = charts::all();
    ensure(all.len() == 21, "21 readings")?;
    ensure(all.iter().all(|examples| !examples.is_empty()), "an example each")
}

fn generated_examples() -> Found {
    let all = examples::generated(200);
    ensure(all.iter().all(|example| example.verdict == 0), "all are accepted")?;
    ensure(all.iter().all(|example| (2..=6).contains(&example.calls.len())), "two to six calls")?;
    let moving = all.iter().filter(|example| {
        example.dumps.iter().any(|dump| dump.trace.iter().any(|entry| entry / 65_536 == 2))
    });
    ensure(moving.count() > 100, "most take a transition")
}

fn near_miss_examples() -> Found {
    let near_misses = [near_misses::all(), near_misses::accepted()].concat();
    let all = [examples::refused(), examples::accepted()].concat();
    ensure(all.len() == near_misses.len(), "one for each kind")?;
    let right = all.iter().zip(&near_misses).all(|(example, kind)| example.verdict == kind.rule);
    ensure(right, "each gets its number")
}

fn changed_examples() -> Found {
    let all = examples::changed(100);
    let every = (0..=5).all(|rule| all.iter().any(|example| example.verdict == rule));
    ensure(all.len() == 100 && every, "each number is among them")
}

/// The last call's trace, or what it answered, tells each of these charts from a wrong one.
fn by_hand_examples() -> Found {
    let all = examples::by_hand();
    let answers = |place: usize| -> Vec<u64> {
        all[place].dumps.iter().map(|dump| dump.answer_and_rounds[0]).collect()
    };
    let last = |place: usize| &all[place].dumps[all[place].dumps.len() - 1];
    ensure(answers(0)[33] == QUEUE_FULL && answers(0)[32] == ACCEPTED, "the thirty-third post")?;
    ensure(answers(1) == [7, 11, STATUS_ENDED, 7], "a refused start")?;
    ensure(last(2).configuration == [3], "a done event of 63 bytes")?;
    let done_of_outer = all[3].dumps.iter().any(|dump| dump.trace.contains(&(6 * 65_536 + 1)));
    let done_of_inner = all[3].dumps.iter().any(|dump| dump.trace.contains(&(6 * 65_536 + 4)));
    ensure(done_of_inner && !done_of_outer, "one level only")?;
    ensure(last(4).configuration == [2, 3, 4, 7, 9], "the stored state and the other target")?;
    let taken = last(5).trace.iter().filter(|&&entry| entry / 65_536 == 2).count();
    ensure(taken == 2, "chosen twice, taken once")
}
