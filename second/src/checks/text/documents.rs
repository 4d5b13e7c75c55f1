//! Documents as they are found: every line of `texts/README.md`, and no file without a line.

use super::{agrees, decoded, unmarked, Check};
use crate::invariants::{ensure, Found};
use crate::text::read::{read, Refusal};
use crate::text::recogniser::Recogniser;
use crate::text::write::text_of;
use std::collections::BTreeSet;
use std::path::Path;

const TABLE: &str = include_str!("../../../texts/README.md");

pub fn checks() -> Vec<Check> {
    let mut checks = vec![Check::new("text: documents, every file has its line", every_file_is_listed)];
    let check = |line: Line| Check::new(format!("text: document {}", line.file), move || line.holds());
    checks.extend(lines().into_iter().map(check));
    checks
}

/// A line of the table.
struct Line {
    file: &'static str,
    answer: &'static str,
    found: &'static str,
}

fn lines() -> Vec<Line> {
    let rows = TABLE.lines().filter(|line| line.starts_with("| ") && !line.starts_with("| File"));
    let line = |row: &'static str| {
        let mut columns = row.split('|').skip(1).map(|column| column.trim().trim_matches('`'));
        let mut next = || columns.next().expect("a line has four columns");
        Line { file: next(), answer: next(), found: next() }
    };
    rows.map(line).collect()
}

fn directory() -> std::path::PathBuf {
    Path::new(env!("CARGO_MANIFEST_DIR")).join("texts")
}

fn every_file_is_listed() -> Found {
    let entries = std::fs::read_dir(directory()).map_err(|error| error.to_string())?;
    let names = entries.filter_map(|entry| entry.ok()?.file_name().into_string().ok());
    let files: BTreeSet<String> =
        names.filter_map(|name| Some(name.strip_suffix(".scxml")?.to_string())).collect();
    let listed: BTreeSet<String> = lines().iter().map(|line| line.file.to_string()).collect();
    ensure(files == listed && listed.len() == lines().len(), "files and lines are the same")
}

impl Line {
    fn holds(&self) -> Found {
        let path = directory().join(format!("{}.scxml", self.file));
        let text = std::fs::read(path).map_err(|error| error.to_string())?;
        agrees(&mut Recogniser::default(), &text)?;
        match (read(&text), self.answer) {
            (Err(Refusal::Text(place)), "12") => self.is_at(&text, place),
            (Err(Refusal::Rule(rule)), answer) => ensure(rule.to_string() == answer, &format!("rule {rule}")),
            (Ok(tables), "0") => {
                let chart = decoded(&tables);
                let counts = format!("{} rows, {} transitions", chart.rows.len(), chart.transitions.len());
                ensure(counts == self.found, &counts)?;
                let written = text_of(&chart);
                let again = read(written.as_bytes()).map_err(|refusal| format!("{refusal:?}: {written}"))?;
                ensure(text_of(&decoded(&again)) == written, "written, read and written again")
            }
            (found, _) => Err(format!("{:?}", found.map(|_| ()))),
        }
    }

    /// Whether a place is where the mark stands in the one part of the text that the line quotes.
    fn is_at(&self, text: &[u8], place: usize) -> Found {
        let (part, mark) = unmarked(&self.found.replace("\\n", "\n"));
        let parts: Vec<usize> = (0..text.len()).filter(|&start| text[start..].starts_with(&part)).collect();
        ensure(parts.len() == 1, &format!("the part stands {} times", parts.len()))?;
        let wanted = mark.map(|mark| parts[0] + mark);
        ensure(Some(place) == wanted, &format!("12 at {place}, expected {wanted:?}"))
    }
}
