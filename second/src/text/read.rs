//! "read a document of at most 32,768 bytes into the chart's tables".

use super::build::chart;
use super::cursor::Offset;
use super::faults::first_fault;
use super::scan::scan;
use crate::compiled::needed_place;
use crate::encode::{encode, Layout, Spelt};
use crate::rules::judge;

#[derive(Clone, Copy, PartialEq, Eq, Debug)]
pub enum Refusal {
    /// 12, "with the byte offset of the first fault".
    Text(Offset),
    /// 1 to 5.
    Rule(u64),
}

/// What a text without faults means, before the rules are asked. The tables may be larger than rule 1
/// allows.
pub fn meaning(text: &[u8]) -> Result<Spelt, Offset> {
    let marks = scan(text)?;
    match first_fault(text, &marks) {
        Some(place) => Err(place),
        None => Ok(encode(&chart(text, &marks), Layout::InOrder)),
    }
}

/// The tables of a text whose chart keeps the rules.
pub fn read(text: &[u8]) -> Result<Spelt, Refusal> {
    let tables = meaning(text).map_err(Refusal::Text)?;
    let place = needed_place(&tables.numbers).ok_or(Refusal::Rule(1))?;
    judge(&tables.numbers, &tables.names, place).map_err(Refusal::Rule)?;
    Ok(tables)
}

/// Reads into lent places and answers how many numbers and bytes it wrote. A place that is too small is
/// 1, which is asked before the other rules; a refusal leaves both places as they were.
pub fn read_into(text: &[u8], numbers: &mut [u64], names: &mut [u8]) -> Result<(usize, usize), Refusal> {
    let wanted = meaning(text).map_err(Refusal::Text)?;
    if wanted.numbers.len() > numbers.len() || wanted.names.len() > names.len() {
        return Err(Refusal::Rule(1));
    }
    let tables = read(text)?;
    numbers[..tables.numbers.len()].copy_from_slice(&tables.numbers);
    names[..tables.names.len()].copy_from_slice(&tables.names);
    Ok((tables.numbers.len(), tables.names.len()))
}
