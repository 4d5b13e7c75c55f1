//! Tables and places at every boundary of rule 1, and compiled charts that differ.

use super::Check;
use crate::builder::{empty_row, Builder};
use crate::compiled::{compile, needed_place, CompiledChart};
use crate::encode::{encode_plainly, Spelt};
use crate::faults::{may_stand, pair_of_kinds};
use crate::generate::{self, Flavour};
use crate::invariants::{ensure, Found};
use crate::limits::*;
use crate::names::slot_of;
use crate::near_misses::{sample, Lent};
use crate::numbers::{NameNumber, RowNumber, ROOT};
use crate::random::Random;
use crate::rules::{verdict, Place};
use crate::tables::{Action, Chart, Kind};

const NO_PLACE: Place = Place { numbers: 0, names: 0 };

pub fn checks() -> Vec<Check> {
    vec![
        Check::new("input: the sample is accepted", sample_is_accepted),
        Check::new("input: empty and short tables", short_tables),
        Check::new("input: tables of one number repeated", repeated_numbers),
        Check::new("input: counts past their limits", counts_past_limits),
        Check::new("input: huge counts", huge_counts),
        Check::new("input: every cell huge", every_cell_huge),
        Check::new("input: every cell 65,535 or 65,536", every_cell_none),
        Check::new("input: every wrong length", every_wrong_length),
        Check::new("input: every wrong place", every_wrong_place),
        Check::new("input: lists at their tables' ends", lists_at_ends),
        Check::new("input: 256 rows are accepted", most_rows),
        Check::new("input: 512 transitions are accepted", most_transitions),
        Check::new("input: 768 slots are accepted", most_slots),
        Check::new("input: full tables are accepted", full_tables),
        Check::new("input: eight targets and 32 actions are accepted", most_targets),
        Check::new("input: a list of all rows but two is accepted", longest_list),
        Check::new("input: every byte of every place of an id's slot", every_byte_of_a_slot),
        Check::new("input: every pair of kinds", every_pair_of_kinds),
        Check::new("compiled: every changed cell is refused", compiled_cells),
        Check::new("compiled: every wrong length is refused", compiled_lengths),
        Check::new("compiled: a changed table is judged anew", compiled_tables),
        Check::new("marked run 7: an id of 52 bytes, of 53", marked_run_7),
    ]
}

fn judge(spelt: &Spelt) -> u64 {
    let place = needed_place(&spelt.numbers).unwrap_or(NO_PLACE);
    verdict(&spelt.numbers, &spelt.names, place)
}

fn expect(chart: &Chart, number: u64, what: &str) -> Found {
    let lent = Lent::of(chart, crate::encode::Layout::Plain);
    let given = verdict(&lent.spelt.numbers, &lent.spelt.names, lent.place);
    ensure(given == number, &format!("{what}: {given}, not {number}"))
}

fn sample_is_accepted() -> Found {
    expect(&sample(), 0, "the sample")
}

fn short_tables() -> Found {
    let spelt = encode_plainly(&sample());
    ensure(verdict(&[], &[], NO_PLACE) == 1, "nothing at all")?;
    for length in 0..spelt.numbers.len() {
        let numbers = &spelt.numbers[..length];
        let place = needed_place(&spelt.numbers).unwrap_or(NO_PLACE);
        ensure(verdict(numbers, &spelt.names, place) == 1, "numbers too short")?;
        ensure(verdict(numbers, &[], NO_PLACE) == 1, "numbers too short, no names")?;
    }
    Ok(())
}

fn repeated_numbers() -> Found {
    for number in [0, 1, 2, 3, 5, 64, 65_535, 1 << 32, 1 << 60, 1 << 63, u64::MAX] {
        for length in 0..150 {
            let numbers = vec![number; length];
            for names in [0, 63, 64, 128] {
                let names = vec![b'a'; names];
                let place = needed_place(&numbers).unwrap_or(NO_PLACE);
                ensure(verdict(&numbers, &names, place) == 1, "one number repeated")?;
                ensure(CompiledChart::open(&numbers, &names).is_none(), "one number repeated")?;
            }
        }
    }
    Ok(())
}

const LIMITS: [u64; 6] = [MAX_ROWS, MAX_TRANSITIONS, MAX_REFERENCES, MAX_DESCRIPTORS, MAX_ACTIONS, MAX_SLOTS];

fn counts_past_limits() -> Found {
    ensure(LIMITS == [256, 512, 69_632, 2_048, 40_960, 768], "the limits are those of R-8 and R-5")?;
    let good = encode_plainly(&sample());
    for (count, limit) in LIMITS.iter().enumerate() {
        let mut header = good.numbers[..6].to_vec();
        header[count] = limit + 1;
        let sizes = [ROW_CELLS, TRANSITION_CELLS, 1, 1, ACTION_CELLS, 0];
        let length = 6 + (0..6).map(|place| header[place] as usize * sizes[place]).sum::<usize>();
        let mut numbers = good.numbers.clone();
        numbers[..6].copy_from_slice(&header);
        numbers.resize(length, 0);
        let names = slot_of(b"a").repeat(header[5] as usize);
        let place =
            Place { numbers: length + 16 * header[0] as usize + 4 * header[1] as usize, names: names.len() };
        ensure(verdict(&numbers, &names, place) == 1, "one past the limit")?;
    }
    Ok(())
}

fn huge_counts() -> Found {
    let good = encode_plainly(&sample());
    let huge = [
        u64::MAX,
        u64::MAX - 1,
        1 << 63,
        (1 << 63) - 1,
        u64::MAX / 9,
        u64::MAX / 11,
        1 << 58,
        1 << 32,
        65_536,
    ];
    for first in 0..6 {
        for second in 0..6 {
            for value in huge {
                let mut spelt = good.clone();
                spelt.numbers[first] = value;
                spelt.numbers[second] = value;
                ensure(judge(&spelt) == 1, "huge counts")?;
                let place = Place { numbers: usize::MAX, names: usize::MAX };
                ensure(verdict(&spelt.numbers, &spelt.names, place) == 1, "huge places")?;
                ensure(CompiledChart::open(&spelt.numbers, &spelt.names).is_none(), "huge counts")?;
            }
        }
    }
    Ok(())
}

fn some_charts() -> Vec<Chart> {
    let mut random = Random::seeded(77);
    let mut charts = vec![sample()];
    for rows in [2, 3, 5, 8, 13, 21, 34] {
        let flavour = Flavour::with_rows(&mut random, rows);
        charts.push(generate::chart(&mut random, flavour));
    }
    charts
}

fn every_cell_huge() -> Found {
    for chart in some_charts() {
        let spelt = encode_plainly(&chart);
        for cell in 0..spelt.numbers.len() {
            let least = if is_delay(&spelt, cell) { MAX_DELAY + 1 } else { 65_537 };
            for value in [u64::MAX, 1 << 63, least] {
                let mut changed = spelt.clone();
                changed.numbers[cell] = value;
                ensure(judge(&changed) == 1, &format!("cell {cell} of {value}"))?;
            }
        }
    }
    Ok(())
}

/// 65,535 is none in four columns and a host action; 65,536 is nothing anywhere. A delay may be either.
fn every_cell_none() -> Found {
    for chart in some_charts() {
        let spelt = encode_plainly(&chart);
        for cell in (0..spelt.numbers.len()).filter(|&cell| !is_delay(&spelt, cell)) {
            let mut changed = spelt.clone();
            changed.numbers[cell] = 65_536;
            ensure(judge(&changed) == 1, &format!("cell {cell} of 65,536"))?;
            changed.numbers[cell] = NONE;
            let rule = judge(&changed);
            ensure(rule == 1 || may_be_none(&spelt, cell), &format!("cell {cell} of 65,535: {rule}"))?;
        }
    }
    Ok(())
}

fn may_be_none(spelt: &Spelt, cell: usize) -> bool {
    let rows = spelt.numbers[0] as usize;
    let transitions = spelt.numbers[1] as usize;
    let row_end = HEADER_CELLS + ROW_CELLS * rows;
    let transition_end = row_end + TRANSITION_CELLS * transitions;
    if (HEADER_CELLS..row_end).contains(&cell) {
        return [1, 2].contains(&((cell - HEADER_CELLS) % ROW_CELLS));
    }
    if (row_end..transition_end).contains(&cell) {
        return (cell - row_end) % TRANSITION_CELLS == 3;
    }
    matches!(of_action(spelt, cell), Some((1, 1) | (6, 3)))
}

/// The kind of the action that a cell is of, and the cell's column.
fn of_action(spelt: &Spelt, cell: usize) -> Option<(u64, usize)> {
    let actions = spelt.numbers.len() - ACTION_CELLS * spelt.numbers[4] as usize;
    let column = cell.checked_sub(actions)? % ACTION_CELLS;
    Some((spelt.numbers[cell - column], column))
}

fn is_delay(spelt: &Spelt, cell: usize) -> bool {
    of_action(spelt, cell) == Some((6, 2))
}

fn every_wrong_length() -> Found {
    for chart in some_charts() {
        let spelt = encode_plainly(&chart);
        let place = needed_place(&spelt.numbers).unwrap_or(NO_PLACE);
        for more in 1..20 {
            let mut numbers = spelt.numbers.clone();
            numbers.resize(numbers.len() + more, 0);
            ensure(verdict(&numbers, &spelt.names, place) == 1, "numbers too long")?;
            let mut names = spelt.names.clone();
            names.resize(names.len() + more, 0);
            ensure(verdict(&spelt.numbers, &names, place) == 1, "names too long")?;
            let shorter = &spelt.names[..spelt.names.len() - more];
            ensure(verdict(&spelt.numbers, shorter, place) == 1, "names too short")?;
        }
    }
    Ok(())
}

fn every_wrong_place() -> Found {
    for chart in some_charts() {
        let spelt = encode_plainly(&chart);
        let right = needed_place(&spelt.numbers).unwrap_or(NO_PLACE);
        let rows = chart.rows.len();
        let transitions = chart.transitions.len();
        let length = spelt.numbers.len() + 16 * rows + 4 * transitions;
        ensure(right == Place { numbers: length, names: spelt.names.len() }, "the places' sizes")?;
        for numbers in [0, spelt.numbers.len(), length - 1, length, length + 1, usize::MAX] {
            for names in [0, right.names - 1, right.names, right.names + 1, usize::MAX] {
                let place = Place { numbers, names };
                let expected = if place == right { 0 } else { 1 };
                ensure(verdict(&spelt.numbers, &spelt.names, place) == expected, "places")?;
            }
        }
    }
    Ok(())
}

/// An empty list may start anywhere up to the table's end; no list may pass it.
fn lists_at_ends() -> Found {
    let mut b = Builder::new();
    b.state("", "s").on("s", "e", "s");
    let good = encode_plainly(&b.chart());
    let columns = [(6 + 11 + 3, 4), (6 + 11 + 5, 4), (6 + 11 + 7, 2), (6 + 11 + 9, 4), (6 + 22 + 7, 4)];
    for (cell, table) in columns {
        let end = good.numbers[table];
        for (start, count, expected) in [
            (end, 0, 0),
            (end + 1, 0, 1),
            (end, 1, 1),
            (0, end + 1, 1),
            (u64::MAX, 1, 1),
            (u64::MAX, 0, 1),
            (u64::MAX, u64::MAX, 1),
            (1, u64::MAX, 1),
            (2, u64::MAX - 1, 1),
        ] {
            let mut changed = good.clone();
            changed.numbers[cell] = start;
            changed.numbers[cell + 1] = count;
            let rule = judge(&changed);
            ensure(rule == expected, &format!("list {start} {count} at cell {cell}: {rule}"))?;
        }
    }
    Ok(())
}

fn state_rows(count: usize) -> Chart {
    let mut b = Builder::new();
    for row in 1..count {
        b.state("", &format!("s{row}"));
    }
    b.chart()
}

fn most_rows() -> Found {
    let most = MAX_ROWS as usize;
    for count in [2, WORD_BITS, WORD_BITS + 1, most - 1, most] {
        expect(&state_rows(count), 0, "rows")?;
    }
    expect(&state_rows(most + 1), 1, "a row too many")?;
    expect(&state_rows(1), 3, "one row")
}

fn most_transitions() -> Found {
    for (count, rule) in [(0, 0), (MAX_TRANSITIONS, 0), (MAX_TRANSITIONS + 1, 1), (2 * MAX_TRANSITIONS, 1)] {
        let mut b = Builder::new();
        b.state("", "s");
        for _ in 0..count {
            b.on("s", "e", "");
        }
        expect(&b.chart(), rule, "transitions")?;
    }
    Ok(())
}

fn most_slots() -> Found {
    let most = MAX_SLOTS as usize;
    for (count, rule) in [(most, 0), (most + 1, 1), (2 * most, 1)] {
        let mut chart = state_rows(2);
        chart.names.resize(count, slot_of(b"unused"));
        expect(&chart, rule, "slots")?;
    }
    let mut b = Builder::new();
    b.chart.rows.push(empty_row(Kind::State, Some(ROOT), None));
    expect(&b.chart(), 2, "no slots at all")
}

/// Every table at its limit, with cells that no list uses.
fn full_tables() -> Found {
    let good = encode_plainly(&state_rows(2));
    let mut numbers = vec![2, 0, MAX_REFERENCES, MAX_DESCRIPTORS, MAX_ACTIONS, 1];
    numbers.extend(&good.numbers[6..28]);
    numbers.extend(vec![1; MAX_REFERENCES as usize]);
    numbers.extend(vec![0; MAX_DESCRIPTORS as usize]);
    numbers.extend([1, 65_535, 0, 0].repeat(MAX_ACTIONS as usize));
    let spelt = Spelt { numbers, names: good.names };
    ensure(judge(&spelt) == 0, "full tables")
}

fn most_targets() -> Found {
    for (count, rule) in [(8, 0), (9, 1)] {
        let mut b = Builder::new();
        b.parallel("", "p");
        let ids: Vec<String> = (0..count).map(|region| format!("r{region}")).collect();
        for id in &ids {
            b.state("p", id);
        }
        b.on("p", "e", &ids.join(" "));
        expect(&b.chart(), rule, "targets")?;
        let mut chart = state_rows(2);
        let actions = MAX_ACTIONS_OF_BLOCK as usize + count - MAX_TARGETS_OF_TRANSITION as usize;
        chart.rows[1].entry = vec![Action::Host(1); actions];
        expect(&chart, rule, "actions")?;
        let mut b = Builder::new();
        b.state("", "s").on("s", &vec!["e"; count / 2 + count % 2].join(" "), "");
        expect(&b.chart(), rule, "descriptors")?;
    }
    Ok(())
}

/// Rule 4 lets one list hold all rows but the root and a parallel.
fn longest_list() -> Found {
    let mut b = Builder::new();
    b.parallel("", "p");
    let ids: Vec<String> = (0..MAX_ROWS - 2).map(|region| format!("r{region}")).collect();
    for id in &ids {
        b.state("p", id);
    }
    b.list("", &ids.join(" "), &[]);
    expect(&b.chart(), 0, "the longest list")
}

fn every_byte_of_a_slot() -> Found {
    let chart = state_rows(2);
    for place in 0..SLOT_BYTES {
        for byte in 0..=255u8 {
            let mut changed = chart.clone();
            changed.names[0][place] = byte;
            let text: Vec<u8> = changed.names[0].iter().copied().take_while(|&byte| byte != 0).collect();
            let zeros = changed.names[0][text.len()..].iter().all(|&byte| byte == 0);
            let good = zeros && crate::names::is_id(&text);
            expect(&changed, if good { 0 } else { 2 }, "a byte of a slot")?;
        }
    }
    Ok(())
}

fn every_pair_of_kinds() -> Found {
    for parent in Kind::ALL {
        for child in Kind::ALL {
            let chart = pair_of_kinds(parent, child);
            let rule = if may_stand(parent, child) { 0 } else { 3 };
            expect(&chart, rule, &format!("{child:?} under {parent:?}"))?;
        }
    }
    Ok(())
}

fn compiled_cells() -> Found {
    let spelt = encode_plainly(&sample());
    let place = needed_place(&spelt.numbers).unwrap_or(NO_PLACE);
    let places = compile(&spelt.numbers, &spelt.names, place).map_err(|rule| rule.to_string())?;
    ensure(CompiledChart::open(&places.numbers, &places.names).is_some(), "it opens")?;
    for cell in spelt.numbers.len()..places.numbers.len() {
        for bit in 0..64 {
            let mut changed = places.clone();
            changed.numbers[cell] ^= 1 << bit;
            let opened = CompiledChart::open(&changed.numbers, &changed.names);
            ensure(opened.is_none(), &format!("bit {bit} of cell {cell}"))?;
        }
    }
    Ok(())
}

fn compiled_lengths() -> Found {
    let spelt = encode_plainly(&sample());
    let place = needed_place(&spelt.numbers).unwrap_or(NO_PLACE);
    let places = compile(&spelt.numbers, &spelt.names, place).map_err(|rule| rule.to_string())?;
    for length in 0..places.numbers.len() {
        let opened = CompiledChart::open(&places.numbers[..length], &places.names);
        ensure(opened.is_none(), "numbers cut short")?;
    }
    for length in 0..places.names.len() {
        let opened = CompiledChart::open(&places.numbers, &places.names[..length]);
        ensure(opened.is_none(), "names cut short")?;
    }
    let longer = [&places.numbers[..], &[0]].concat();
    ensure(CompiledChart::open(&longer, &places.names).is_none(), "numbers too long")?;
    let longer = [&places.names[..], &[0]].concat();
    ensure(CompiledChart::open(&places.numbers, &longer).is_none(), "names too long")?;
    ensure(CompiledChart::open(&[], &[]).is_none(), "nothing at all")
}

/// A changed table opens exactly if its own rows still compile to the same sets.
fn compiled_tables() -> Found {
    let spelt = encode_plainly(&sample());
    let place = needed_place(&spelt.numbers).unwrap_or(NO_PLACE);
    let places = compile(&spelt.numbers, &spelt.names, place).map_err(|rule| rule.to_string())?;
    let mut opened = 0;
    for cell in 0..spelt.numbers.len() {
        for value in [0, 1, 2, 3, 7, 12, 65_535] {
            let mut changed = places.clone();
            changed.numbers[cell] = value;
            let tables = &changed.numbers[..spelt.numbers.len()];
            let anew = match needed_place(tables) {
                Some(place) => compile(tables, &changed.names, place).ok(),
                None => None,
            };
            let same = anew == Some(changed.clone());
            ensure(CompiledChart::open(&changed.numbers, &changed.names).is_some() == same, "judged anew")?;
            opened += usize::from(same);
        }
    }
    ensure(opened > 0, "some changes leave the sets as they are")
}

fn marked_run_7() -> Found {
    for (length, rule) in [(52, 0), (53, 2)] {
        let mut chart = state_rows(2);
        chart.names.push(slot_of(&vec![b'i'; length]));
        chart.rows[1].id = Some(NameNumber(1));
        expect(&chart, rule, "an id's length")?;
        ensure(chart.id(RowNumber(1)).len() == length, "the id's length")?;
    }
    Ok(())
}
