//! Charts with names to flatten as plain data: what is lent, and what must be found in the place afterwards.

use crate::compiled::{CompiledChart, Places};
use crate::flat::{flat_cells, flatten};
use crate::flat_agreement::Trial;
use crate::generate::bad_names;
use crate::list_cases::Stage;
use crate::random::Random;

#[derive(Clone, Debug)]
pub struct FlatCase {
    pub about: &'static str,
    pub chart: Places,
    /// The names stand one behind the other in the text: where each ends.
    pub ends: Vec<u64>,
    pub text: Vec<u8>,
    pub before: Vec<u64>,
    pub answer: u64,
    pub after: Vec<u64>,
}

impl FlatCase {
    /// Where each name begins and ends in the text, as far as it lies in it.
    pub fn parts(&self) -> Vec<[u64; 2]> {
        parts(&self.ends)
    }
}

fn parts(ends: &[u64]) -> Vec<[u64; 2]> {
    let begins = [0].into_iter().chain(ends.iter().copied());
    begins.zip(ends).map(|(begin, &end)| [begin, end]).collect()
}

/// The part of a text, if it lies in it.
fn part(text: &[u8], [begin, end]: [u64; 2]) -> Option<&[u8]> {
    text.get(usize::try_from(begin).ok()?..usize::try_from(end).ok()?)
}

/// The cases of one seed: names that the chart knows, a bad one among them, one outside the text, too many, places of
/// other sizes, and a changed chart.
pub fn flat_cases(seed: u64) -> Vec<FlatCase> {
    let mut random = Random::seeded(seed ^ 0xf1a7_ca5e);
    let Trial { chart, names } = Trial::of_seed(seed);
    let stage = Stage::of(chart);
    let lent = Some(&stage.compiled);
    let (text, ends) = spelt(&names);
    let size = flat_cells(names.len());
    let mut cases = vec![case("names of the chart", &stage.places, lent, &text, &ends, size)];
    let other = [size - 1, size + 1, 0, random.below(size), flat_cells(names.len() + 1)];
    let size = other[random.below(other.len())];
    cases.push(case("a place at will", &stage.places, lent, &text, &ends, size));
    let (bad_text, bad_ends) = spelt(&with_bad(&names, &mut random));
    let size = flat_cells(bad_ends.len());
    cases.push(case("a name that is none", &stage.places, lent, &bad_text, &bad_ends, size));
    let outside = with_outside(&ends, text.len() as u64, &mut random);
    let size = flat_cells(outside.len());
    cases.push(case("a name outside the text", &stage.places, lent, &text, &outside, size));
    let many = vec![b"e".to_vec(); random.between(33, 40)];
    let (many_text, many_ends) = spelt(&many);
    let size = [flat_cells(33), 2 + 256 * (5 + many.len())][random.below(2)];
    cases.push(case("more than 32 names", &stage.places, lent, &many_text, &many_ends, size));
    if let Some((places, opened)) = stage.damaged(&mut random) {
        let size = [flat_cells(names.len()), 1][random.below(2)];
        cases.push(case("a changed chart", &places, opened.as_ref(), &text, &ends, size));
    }
    cases
}

fn spelt(names: &[Vec<u8>]) -> (Vec<u8>, Vec<u64>) {
    let mut text = Vec::new();
    let mut ends = Vec::new();
    for name in names {
        text.extend(name);
        ends.push(text.len() as u64);
    }
    (text, ends)
}

fn with_bad(names: &[Vec<u8>], random: &mut Random) -> Vec<Vec<u8>> {
    let bad = bad_names();
    let mut names = names.to_vec();
    names.truncate(31);
    let place = random.between(0, names.len());
    names.insert(place, bad[random.below(bad.len())].clone());
    names
}

/// An end past the text, or one before the end of the name before it.
fn with_outside(ends: &[u64], length: u64, random: &mut Random) -> Vec<u64> {
    let mut ends = ends.to_vec();
    ends.truncate(30);
    ends.push(length);
    let last = match random.below(3) {
        0 => length + 1,
        1 => u64::MAX,
        _ => length.saturating_sub(1),
    };
    ends.push(last);
    ends
}

fn case(
    about: &'static str,
    chart: &Places,
    opened: Option<&CompiledChart>,
    text: &[u8],
    ends: &[u64],
    size: usize,
) -> FlatCase {
    let before: Vec<u64> = (0..size as u64).map(|cell| cell.wrapping_mul(0x9e37_79b9_7f4a_7c15)).collect();
    let mut after = before.clone();
    let names: Vec<Option<&[u8]>> = parts(ends).into_iter().map(|bounds| part(text, bounds)).collect();
    let answer = flatten(opened, &names, &mut after);
    FlatCase { about, chart: chart.clone(), ends: ends.to_vec(), text: text.to_vec(), before, answer, after }
}
