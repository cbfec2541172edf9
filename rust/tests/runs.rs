//! The stored runs of the line program: the reference prints what is stored,
//! and so does a line program over the slow model.

use crate::oracle::{self, SlowTable};
use reference::answer::Answer;
use reference::lines;
use std::fs;
use std::path::PathBuf;

/// The runs as (name, input, output).
fn runs() -> Vec<(String, Vec<u8>, Vec<u8>)> {
    let folder = PathBuf::from(env!("CARGO_MANIFEST_DIR")).join("../runs");
    let mut runs = Vec::new();
    for entry in fs::read_dir(folder).unwrap() {
        let path = entry.unwrap().path();
        if path.extension().is_some_and(|extension| extension == "in") {
            let name = path.file_stem().unwrap().to_str().unwrap().to_string();
            let output = fs::read(path.with_extension("out")).unwrap();
            runs.push((name, fs::read(&path).unwrap(), output));
        }
    }
    assert!(runs.len() >= 16);
    runs
}

/// A number that prints as this field does, at most `max`.
fn number(field: &[u8], max: u64) -> Option<u64> {
    let value: u64 = std::str::from_utf8(field).ok()?.parse().ok()?;
    (value.to_string().as_bytes() == field && value <= max).then_some(value)
}

/// What one line, with its LF, asks of the slow model.
fn slow_line(slow: &mut Option<SlowTable>, line: &[u8]) -> Option<Answer> {
    let (&last, line) = line.split_last()?;
    if last != b'\n' || line.len() > 63 {
        return None;
    }
    let fields: Vec<&[u8]> = line.split(|&byte| byte == b' ').collect();
    let word = *fields.first()?;
    if word == b"open" && fields.len() == 3 {
        let (b1, b2) = (number(fields[1], 999)?, number(fields[2], 999)?);
        if b1 == 0 || b1 > 48 || b2 == 0 || b2 > 32 {
            return Some(Answer { cause: 3, value: 0 });
        }
        *slow = Some(SlowTable::open(b1 as usize, b2 as usize));
        return Some(Answer { cause: 0, value: 0 });
    }
    let plan = match (word, fields.len()) {
        (b"add" | b"set", 4) => number(fields[3], 255)? as u8,
        (b"del" | b"get", 3) => 0,
        _ => return None,
    };
    let kind = number(fields[1], 9)? as u8;
    let slow = slow.as_mut()?;
    let hashed = match oracle::word(kind, fields[2]) {
        Ok(hashed) => hashed,
        Err(refusal) => return Some(refusal),
    };
    Some(match word {
        b"add" => slow.add(hashed, plan),
        b"set" => slow.change(hashed, plan),
        b"del" => slow.withdraw(hashed),
        _ => slow.query(hashed),
    })
}

fn printed(answer: Option<Answer>) -> String {
    match answer {
        Some(Answer { cause: 0, value }) => format!("ok {value}\n"),
        Some(Answer { cause, .. }) => format!("no {cause}\n"),
        None => "bad\n".to_string(),
    }
}

#[test]
fn the_reference_prints_what_is_stored() {
    for (name, input, output) in runs() {
        assert!(lines::run(&input) == output, "{name}");
    }
}

#[test]
fn the_slow_model_prints_what_is_stored() {
    for (name, input, output) in runs() {
        let mut slow = None;
        let mut all = String::new();
        for line in input.split_inclusive(|&byte| byte == b'\n') {
            all += &printed(slow_line(&mut slow, line));
        }
        assert!(all.into_bytes() == output, "{name}");
    }
}

/// The base count before and after each line of a run, and where the slow
/// model says that a word stands: in a level, or in the base list.
fn base_counts(name: &str) -> Vec<(String, String, usize, usize, bool)> {
    let (_, input, _) = runs().into_iter().find(|run| run.0 == name).unwrap();
    let count = |slow: &Option<SlowTable>| slow.as_ref().map_or(0, |slow| slow.base().len());
    let mut slow = None;
    let mut counts = Vec::new();
    for line in input.split_inclusive(|&byte| byte == b'\n') {
        let text = String::from_utf8(line.to_vec()).unwrap();
        let id = text.trim_end().split(' ').nth(2).unwrap();
        let word = oracle::word(2, id.as_bytes()).unwrap();
        let before = count(&slow);
        let in_base = |slow: &SlowTable| !slow.held1(word) && !slow.held2(word);
        let due_in_base = slow.as_ref().is_some_and(in_base);
        let answer = printed(slow_line(&mut slow, line));
        counts.push((text, answer, before, count(&slow), due_in_base));
    }
    counts
}

#[test]
fn base_64_65_is_about_the_64th_and_the_65th_entry() {
    let mut full = 0;
    let mut held = 0;
    let mut added = None;
    for (line, answer, before, after, due_in_base) in base_counts("base_64_65") {
        if answer == "no 8\n" {
            // The word alone would be the 65th entry.
            assert!(before == 64 && after == 64 && due_in_base, "{line}");
            full += 1;
        } else if line.starts_with("add") && before == 64 && answer != "no 6\n" {
            assert!(after == 64 && !due_in_base, "{line}");
            held += 1;
        } else if after == 64 && before == 63 && added.is_none() {
            assert_eq!(line, "add 2 F166 166\n");
            added = Some(answer);
        }
    }
    assert_eq!((full, held), (5, 5));
    assert_eq!(added.as_deref(), Some("ok 167\n"));
}

#[test]
fn base_halfway_refuses_with_entries_free() {
    let refused: Vec<usize> = base_counts("base_halfway")
        .into_iter()
        .filter(|(_, answer, ..)| answer == "no 8\n")
        .map(|(_, _, before, after, _)| {
            assert_eq!(before, after);
            before
        })
        .collect();
    assert_eq!(refused[..2], [20, 20]);
}
