//! The cases of the program `names_run` and what it has to print for them.

use crate::names::{done_name, is_descriptor, is_id, is_name, matches};
use std::fmt::Write as _;

fn bare(s: &[u8]) -> &[u8] {
    s.strip_suffix(b".*").unwrap_or(s)
}

fn name_of(slot: &[u8]) -> &[u8] {
    slot.split(|&b| b == 0).next().unwrap_or(slot)
}

// ".., then zeros to the slot's end."
fn zeros_after(slot: &[u8]) -> bool {
    slot[name_of(slot).len()..].iter().all(|&b| b == 0)
}

fn slot_fits(slot: &[u8]) -> bool {
    zeros_after(slot) && is_descriptor(name_of(slot))
}

fn is_blank(s: &[u8]) -> bool {
    s.iter().all(|&b| b == 0)
}

fn put(slot: &mut [u8], name: &[u8]) {
    for (i, b) in slot.iter_mut().enumerate() {
        *b = name.get(i).copied().unwrap_or(0);
    }
}

fn slot_of(name: &[u8]) -> [u8; 64] {
    let mut slot = [0; 64];
    put(&mut slot, name);
    slot
}

/// A place of which a part is lent.
fn in_part(from: usize, to: usize, name: &[u8]) -> [u8; 48] {
    let mut place = [b'#'; 48];
    put(&mut place[from..to], name);
    place
}

const TESTS: [fn(&[u8]) -> bool; 6] = [is_name, is_descriptor, is_id, zeros_after, slot_fits, is_blank];

// ---- the lines of a case

fn mark(out: &mut String, yes: bool) {
    out.push(if yes { '1' } else { '0' });
}

fn show(out: &mut String, bytes: &[u8]) {
    out.extend(bytes.iter().map(|&b| if b == 0 { '!' } else { char::from(b) }));
    out.push('\n');
}

/// The name with every byte value at each place, a line for each place.
fn each_value(out: &mut String, name: &[u8], place: usize, answer: impl Fn(&mut String, &[u8])) {
    for value in 0..=255 {
        let mut changed = name.to_vec();
        changed[place] = value;
        answer(out, &changed);
    }
    out.push('\n');
}

fn each_place(out: &mut String, name: &[u8], answer: impl Fn(&mut String, &[u8])) {
    for place in 0..name.len() {
        each_value(out, name, place, &answer);
    }
}

fn each_test(out: &mut String, name: &[u8]) {
    for test in TESTS {
        each_place(out, name, |out, changed| mark(out, test(changed)));
    }
}

// One number for the bytes, their order and how many they are.
fn digest(bytes: &[u8]) -> u64 {
    bytes.iter().fold(0, |d, &b| d % 999_983 * 257 + u64::from(b) + 1)
}

fn each_maker(out: &mut String, name: &[u8]) {
    let makers: [fn(&[u8]) -> Vec<u8>; 5] = [
        |s| bare(s).to_vec(),
        |s| slot_of(s).to_vec(),
        |s| slot_of(&done_name(s)).to_vec(),
        |s| in_part(8, 40, s).to_vec(),
        |s| in_part(4, 44, &done_name(s)).to_vec(),
    ];
    for maker in makers {
        each_place(out, name, |out, changed| {
            let _ = write!(out, "{} ", digest(&maker(changed)));
        });
    }
}

fn each_stray(out: &mut String, name: &[u8]) {
    for value in [0, 1, b'.', b'x', 255] {
        for test in [zeros_after, slot_fits, is_blank] {
            for place in 0..64 {
                let mut slot = slot_of(name);
                slot[place] = value;
                mark(out, test(&slot));
            }
            out.push('\n');
        }
    }
}

fn made(unit: &[u8], n: usize, tail: &[u8]) -> Vec<u8> {
    unit.iter().cycle().take(n).chain(tail).copied().collect()
}

fn each_length(out: &mut String, unit: &[u8], tail: &[u8]) {
    for test in TESTS {
        for n in 0..=70 {
            mark(out, test(&made(unit, n, tail)));
        }
        out.push('\n');
    }
}

fn each_slot(out: &mut String, unit: &[u8]) {
    for n in 0..=70 {
        let name = made(unit, n, b"");
        for whole in [name.clone(), done_name(&name)] {
            let slot = slot_of(&whole);
            show(out, &slot);
            let _ = writeln!(out, "{}", whole.len().min(64));
            show(out, name_of(&slot));
            mark(out, zeros_after(&slot));
            mark(out, slot_fits(&slot));
            out.push('\n');
        }
        show(out, &in_part(4, 44, &done_name(&name)));
        show(out, &in_part(8, 40, &name));
    }
}

// Words by number: 0 is the empty one, then those of one letter, of two, ..; the first letter changes quickest.
fn word(letters: &[u8], number: usize) -> Vec<u8> {
    if number == 0 {
        return Vec::new();
    }
    let mut word = vec![letters[(number - 1) % letters.len()]];
    word.extend(self::word(letters, (number - 1) / letters.len()));
    word
}

fn words(letters: &[u8]) -> Vec<Vec<u8>> {
    (0..).map(|k| word(letters, k)).take_while(|w| w.len() <= 4).collect()
}

fn each_word(out: &mut String, letters: &[u8], more: &[u8], answer: fn(&[u8], &[u8]) -> bool) {
    for descriptor in words(letters) {
        for event in words(more) {
            mark(out, answer(&descriptor, &event));
        }
        out.push('\n');
    }
}

fn equal(a: &[u8], b: &[u8]) -> bool {
    a == b
}

const ANSWERS: [fn(&[u8], &[u8]) -> bool; 2] = [matches, equal];

fn each_changed_pair(out: &mut String, descriptor: &[u8], event: &[u8]) {
    for place in 0..descriptor.len() {
        for answer in ANSWERS {
            each_value(out, descriptor, place, |out, changed| mark(out, answer(changed, event)));
        }
    }
    for place in 0..event.len() {
        for answer in ANSWERS {
            each_value(out, event, place, |out, changed| mark(out, answer(descriptor, changed)));
        }
    }
}

fn each_length_of_pair(out: &mut String, unit: &[u8], tail: &[u8]) {
    for answer in ANSWERS {
        for n in 0..=70 {
            for m in 0..=70 {
                mark(out, answer(&made(unit, n, tail), &made(unit, m, b"")));
            }
            out.push('\n');
        }
    }
}

fn pair(out: &mut String, descriptor: &[u8], event: &[u8]) {
    mark(out, matches(descriptor, event));
    mark(out, equal(descriptor, event));
    out.push(' ');
    show(out, bare(descriptor));
}

// ---- several descriptors in one pass

fn four(out: &mut String, words: &str) {
    let words: Vec<&[u8]> = words.split(' ').map(str::as_bytes).collect();
    let (descriptors, event) = (&words[..4], words[4]);
    for descriptor in descriptors {
        mark(out, matches(descriptor, event));
    }
    mark(out, descriptors.iter().any(|descriptor| matches(descriptor, event)));
    out.push('\n');
}

fn short_words(letters: &[u8]) -> Vec<Vec<u8>> {
    words(letters).into_iter().take_while(|w| w.len() <= 3).collect()
}

/// Every two short words as descriptors: a digit for each event, 1 if the first matches and 2 more if the second does.
fn each_two(out: &mut String, letters: &[u8], more: &[u8]) {
    let (descriptors, events) = (short_words(letters), short_words(more));
    for one in &descriptors {
        for two in &descriptors {
            for event in &events {
                let digit = u8::from(matches(one, event)) + 2 * u8::from(matches(two, event));
                out.push(char::from(b'0' + digit));
            }
            out.push('\n');
        }
    }
}

/// What `names_run` prints for an input.
pub fn expected(input: &str) -> String {
    let mut out = String::new();
    for line in input.lines() {
        let (one, two) = line[2..].split_once(' ').unwrap_or((&line[2..], ""));
        let (one, two) = (one.as_bytes(), two.as_bytes());
        match line.as_bytes()[0] {
            b'b' => each_test(&mut out, one),
            b'v' => each_maker(&mut out, one),
            b't' => each_stray(&mut out, one),
            b'l' => each_length(&mut out, one, two),
            b's' => each_slot(&mut out, one),
            b'm' => pair(&mut out, one, two),
            b'p' => each_changed_pair(&mut out, one, two),
            b'q' => each_length_of_pair(&mut out, one, two),
            b'w' => each_word(&mut out, one, two, matches),
            b'e' => each_word(&mut out, one, two, equal),
            b'f' => four(&mut out, &line[2..]),
            b'o' => each_two(&mut out, one, two),
            other => panic!("no case is called {}", char::from(other)),
        }
    }
    out
}

/// Cases of one to four descriptors; where there are fewer, the first stands for the others too.
fn several() -> Vec<String> {
    let long = "n".repeat(62);
    let dotted = "a.".repeat(31);
    let mut cases = Vec::new();
    for name in [&long, &dotted] {
        // 63 bytes that differ in the last byte alone, in the first, not at all
        cases.push(format!("f {name}a {name}b {name}c {name}d {name}e"));
        cases.push(format!("f {name}a {name}b {name}c {name}d {name}c"));
        cases.push(format!("f b{name} c{name} d{name} e{name} a{name}"));
        cases.push(format!("f {name}a {name}a {name}a {name}a {name}a"));
        cases.push(format!("f {} {}.* * {name} {name}a", &name[..60], &name[..60]));
    }
    let tokens = "abc.def.".repeat(8);
    let name = &tokens[..63];
    cases.push(format!("f {name} {} {}.* {}* {name}", &name[..55], &name[..59], &name[..60]));
    let lists = [
        "* * * *",
        "a * b a.*",
        "a.b a.b a.b a.b",
        "a.b a.* a.b.* a",
        "a.*.* a.* .* *.*",
        "done.state.p done.state.* done.* done",
        "done.state.pq done.stat done.state. done..state",
        "e1 e1 e1 e1",
        "e1.* e11 e1 e1",
        "e e1.x e1.x.y e1",
    ];
    for list in lists {
        // one of them is empty
        for event in "a a.b a.b.c a.* a.*.* b done.state.p done.statep e1 e1.x e11 * .  .*.a a..b".split(' ')
        {
            cases.push(format!("f {list} {event}"));
        }
    }
    cases.push("o a.* a.".to_string());
    cases.push("o ab ab".to_string());
    cases
}

/// The cases.
pub fn input() -> String {
    let mut cases = Vec::new();
    for name in ["a", "_", "*", "ab", "a.", ".*", "a*", "abc", "a.b", "a.*", "_-9", "..*", "9.Z"] {
        cases.push(format!("b {name}"));
    }
    for name in ["a", "a.", "a.*", "_9"] {
        cases.push(format!("v {name}"));
    }
    for name in ["e1", "push.*"] {
        cases.push(format!("t {name}"));
    }
    let units = [
        ("a", ""),
        ("a", ".*"),
        ("a", "*"),
        ("a", "."),
        ("a.", ""),
        ("ab.", ".*"),
        ("_9", ""),
        ("9", ""),
        ("x.y-", ""),
    ];
    for (unit, tail) in units {
        cases.push(format!("l {unit} {tail}"));
    }
    cases.push("s ab.c9".to_string());
    let long = "n".repeat(63);
    cases.push(format!("t {long}"));
    let tokens = "abc.def.".repeat(8);
    let pairs: [(&str, &str); 41] = [
        ("e1", "e1"),
        ("e1", "e1.x"),
        ("e1", "e11"),
        ("e1", "e"),
        ("e1", ""),
        ("e1.*", "e1"),
        ("e1.*", "e1.x"),
        ("e1.*", "e11"),
        ("e1.*", "e1.*"),
        ("*", "e1.x"),
        ("*", ""),
        ("*", "*"),
        ("", ""),
        ("", "a"),
        ("", ".a"),
        (".*", ""),
        (".*", "."),
        (".*", ".a"),
        (".*", "a"),
        (".*", ".*"),
        ("**", "**"),
        ("*.*", "*"),
        ("*.*", "*.a"),
        ("*.*", "a"),
        ("a.*.*", "a"),
        ("a.*.*", "a.*"),
        ("a.*.*", "a.*.b"),
        ("a.*b", "a.*b"),
        ("a..b", "a..b.c"),
        ("a.", "a."),
        ("a.", "a"),
        ("a.", "a..b"),
        ("done.state.p", "done.state.p"),
        ("done.state", "done.state.p"),
        ("done.state.*", "done.state.pq"),
        ("done.state.p", "done.state.pq"),
        ("DONE", "done"),
        (&long, &long),
        (&long[1..], &long),
        (&tokens[..63], &tokens[..63]),
        (&tokens[..55], &tokens[..63]),
    ];
    for (descriptor, event) in pairs {
        cases.push(format!("m {descriptor} {event}"));
    }
    // differ in the last byte alone
    cases.push(format!("m {}y {}z", &long[1..], &long[1..]));
    for (descriptor, event) in [("a", "a"), ("*", "ab"), ("a.*", "a.b"), ("ab", "ab.c"), ("a.b", "a.b")] {
        cases.push(format!("p {descriptor} {event}"));
    }
    for (unit, tail) in [("a", ""), ("ab.", ""), ("ab.", ".*")] {
        cases.push(format!("q {unit} {tail}"));
    }
    cases.push("w ab.* ab.".to_string());
    cases.push("e ab. ab.".to_string());
    cases.extend(several());
    cases.join("\n") + "\n"
}
