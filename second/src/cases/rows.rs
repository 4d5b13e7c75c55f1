//! Cases for the program `rowset_run`: its standard input, and what it has to write. Sets are ordered sets of numbers here; words of 64
//! bits are only the form in which a set is written.
use std::collections::BTreeSet;
use std::io::{self, Write};

type Rows = BTreeSet<u16>;

const ROWS: u16 = 256;
const EDGES: [u16; 8] = [0, 63, 64, 127, 128, 191, 192, 255];
const STARTS: [u16; 8] = [0, 1, 62, 65, 129, 256, 257, 65535];

struct Case {
    a: Rows,
    b: Rows,
    row: u16,
    number: u16,
}

/// The same numbers on every machine and in every run.
struct Random(u64);

impl Random {
    fn next(&mut self) -> u64 {
        self.0 ^= self.0 << 13;
        self.0 ^= self.0 >> 7;
        self.0 ^= self.0 << 17;
        self.0
    }

    fn below(&mut self, n: u64) -> u64 {
        (self.next() >> 11) % n
    }

    /// Each row with `of` chances in 64.
    fn rows(&mut self, of: u64) -> Rows {
        (0..ROWS).filter(|_| self.below(64) < of).collect()
    }
}

fn all() -> Rows {
    (0..ROWS).collect()
}

fn one(row: u16) -> Rows {
    Rows::from([row])
}

fn cases() -> Vec<Case> {
    let mut cases = Vec::new();
    let mut add = |a: Rows, b: Rows, row: u16, number: u16| cases.push(Case { a, b, row, number });
    for row in EDGES {
        add(one(row), one(row), row, row);
        add(one(row), Rows::new(), 255 - row, row + 1);
        add(Rows::new(), one(row), row, row);
        add(&all() - &one(row), one(row), row, row);
        add(all(), &all() - &one(row), row, row + 1);
    }
    for (i, &low) in EDGES.iter().enumerate() {
        for &high in &EDGES[i + 1..] {
            add(Rows::from([low, high]), one(high), low, low + 1);
        }
    }
    for number in STARTS {
        add(all(), all(), 128, number);
        add(Rows::new(), Rows::new(), 0, number);
    }
    let mut random = Random(0x9e37_79b9_7f4a_7c15);
    for turn in 0..112 {
        let a = random.rows([1, 8, 32, 56][turn % 4]);
        let other = random.rows(32);
        let b = match turn / 4 % 4 {
            0 => other,
            1 => &a & &other,
            2 => &a | &other,
            _ => &a - &other,
        };
        let row = if turn % 3 == 0 { EDGES[random.below(8) as usize] } else { random.below(256) as u16 };
        let number = if turn % 5 == 0 { random.below(65536) as u16 } else { random.below(260) as u16 };
        add(a, b, row, number);
    }
    cases
}

/// The four words of a set, each written by `word`, with `between` between two.
fn words(rows: &Rows, between: &str, word: impl Fn(u64) -> String) -> String {
    let of = |q: u16| rows.iter().filter(|&&row| row / 64 == q).map(|&row| 1u64 << (row % 64)).sum::<u64>();
    (0..4).map(|q| word(of(q))).collect::<Vec<_>>().join(between)
}

fn input_line(case: &Case) -> String {
    let set = |rows: &Rows| words(rows, " ", |word| format!("{word:016x}"));
    format!("{} {} {:02x} {:04x}\n", set(&case.a), set(&case.b), case.row, case.number)
}

fn expected_line(case: &Case) -> String {
    let Case { a, b, row, number } = case;
    let tests = [a.contains(row), !a.is_disjoint(b), a.is_subset(b), a == b, a.is_empty(), a.len() == 1];
    let found = |row: Option<&u16>| row.map_or("-".to_string(), |row| row.to_string());
    let searches = [
        found(a.first()),
        found(a.range(number..).next()),
        found(a.range(..number).next_back()),
        a.len().to_string(),
        a.len().to_string(),
    ];
    let below = (0..ROWS).filter(|row| row < number).collect();
    let sets = [Rows::new(), one(*row), below, a | &one(*row), a - &one(*row), a | b, a & b, a - b];
    format!(
        "{} {} {}\n",
        tests.map(|test| if test { "1" } else { "0" }).concat(),
        searches.join(" "),
        sets.map(|set| words(&set, ".", |word| format!("{word:x}"))).join(" ")
    )
}

/// Writes the program's input and, line for line, what it has to write.
pub fn write_cases(input: &mut impl Write, expected: &mut impl Write) -> io::Result<()> {
    for case in cases() {
        input.write_all(input_line(&case).as_bytes())?;
        expected.write_all(expected_line(&case).as_bytes())?;
    }
    Ok(())
}
