//! The line program (document 01, "The line program"; document 02, order 4).
//!
//! Decisions:
//! - Only the first 64 KiB count. A line cut by that limit is a last line
//!   without LF: `bad`. Nothing after the last LF is no line.
//! - The 64 bytes of a line include its LF, so 63 bytes before it at most. A
//!   longer line prints one `bad`, however long it is.
//! - A field holds no space; so an ID with a space in it makes a line with too
//!   many fields: `bad`, not cause 2. All other bytes but LF may stand in an
//!   ID and reach the identifier check (a CR gives `no 2`).
//! - The kind is one digit: 0, 8 and 9 are calls (`no 15`); two digits, none
//!   or another byte make the line `bad`.
//! - An empty ID needs its space: `get 2 ` is a call (`no 1`), `get 2` is `bad`;
//!   `add 2  5` has an empty ID.
//! - `0` is a number without leading zeros; `00` and the empty field are not.
//! - `add 2 ID 255` is a call (`no 14`), `add 2 ID 256` is `bad`.
//! - A refused open prints `no 3` and keeps the earlier table, if any; before
//!   an accepted one every call but open prints `bad`.
//! - Every line printed ends with LF.
//! - The table is the program's own and always sound: it is not tested again at
//!   each line. The answers are those of the calls that do test it.

use crate::answer::{Answer, BUCKET_NUMBERS};
use crate::identifier;
use crate::table::{self, Shape};
use std::io::Write;

pub const INPUT_MAX: usize = 64 * 1024;
pub const LINE_MAX: usize = 64;
const BUCKETS_MAX: u64 = 999;
const PLAN_MAX: u64 = 255;

/// The table that an accepted open left, and its shape.
struct Opened {
    shape: Shape,
    table: Vec<u64>,
}

/// Runs the line program on the whole input and returns its whole output.
pub fn run(input: &[u8]) -> Vec<u8> {
    let read = &input[..input.len().min(INPUT_MAX)];
    let mut opened = None;
    let mut output = Vec::new();
    for line in read.split_inclusive(|&byte| byte == b'\n') {
        match call(&mut opened, line) {
            Some(answer) if answer.is_accepted() => writeln!(output, "ok {}", answer.value),
            Some(answer) => writeln!(output, "no {}", answer.cause),
            None => writeln!(output, "bad"),
        }
        .expect("a vector takes every byte");
    }
    output
}

/// The answer to one line, or nothing if it is a bad one.
fn call(opened: &mut Option<Opened>, line: &[u8]) -> Option<Answer> {
    if line.len() > LINE_MAX {
        return None;
    }
    let line = line.strip_suffix(b"\n")?;
    let mut parts = line.split(|&byte| byte == b' ');
    let fields = (
        parts.next()?,
        parts.next()?,
        parts.next()?,
        parts.next(),
        parts.next(),
    );
    let answer = match fields {
        (b"open", buckets1, buckets2, None, None) => {
            let buckets1 = number(buckets1, BUCKETS_MAX)?;
            let buckets2 = number(buckets2, BUCKETS_MAX)?;
            return Some(open(opened, buckets1, buckets2));
        }
        (b"add", kind, id, Some(plan), None) => {
            let kind = digit(kind)?;
            let plan = number(plan, PLAN_MAX)? as u8;
            let Opened { shape, table } = opened.as_mut()?;
            identifier::word(kind, id).and_then(|word| shape.add(table, word, plan))
        }
        (b"set", kind, id, Some(plan), None) => {
            let kind = digit(kind)?;
            let plan = number(plan, PLAN_MAX)? as u8;
            let Opened { shape, table } = opened.as_mut()?;
            identifier::word(kind, id).and_then(|word| shape.change(table, word, plan))
        }
        (b"del", kind, id, None, None) => {
            let kind = digit(kind)?;
            let Opened { shape, table } = opened.as_mut()?;
            identifier::word(kind, id).and_then(|word| shape.withdraw(table, word))
        }
        (b"get", kind, id, None, None) => {
            let kind = digit(kind)?;
            let Opened { shape, table } = opened.as_ref()?;
            identifier::word(kind, id).and_then(|word| shape.query(table, word))
        }
        _ => return None,
    };
    Some(answer.into())
}

/// Opens a new table; the earlier one goes only if that is accepted.
fn open(opened: &mut Option<Opened>, buckets1: u64, buckets2: u64) -> Answer {
    let Some(shape) = Shape::new(buckets1, buckets2) else {
        return Answer::refused(BUCKET_NUMBERS, 0);
    };
    let mut table = vec![0; shape.table_len()];
    let answer = table::open(&mut table, buckets1, buckets2);
    if answer.is_accepted() {
        *opened = Some(Opened { shape, table });
    }
    answer
}

/// A field of one digit.
fn digit(field: &[u8]) -> Option<u8> {
    match field {
        [byte @ b'0'..=b'9'] => Some(byte - b'0'),
        _ => None,
    }
}

/// A decimal number without leading zeros, at most `max`.
fn number(field: &[u8], max: u64) -> Option<u64> {
    if field.is_empty() || (field.len() > 1 && field[0] == b'0') {
        return None;
    }
    let mut value = 0;
    for &byte in field {
        if !byte.is_ascii_digit() {
            return None;
        }
        value = 10 * value + u64::from(byte - b'0');
        if value > max {
            return None;
        }
    }
    Some(value)
}
