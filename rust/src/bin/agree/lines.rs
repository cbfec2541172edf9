//! The line program on random inputs, well-formed and damaged, to a bit above 64 KiB: as a function, and as a program that reads
//! standard input.

use crate::compare::{same, same_all, Seen};
use crate::random::any_card;
use reference::rng::Rng;
use reference::{lines, ours};
use std::io::Write;
use std::process::{Command, Stdio};

const LIMIT: usize = 64 * 1024;
const PROGRAM: &str = concat!(env!("CARGO_MANIFEST_DIR"), "/../target/bin/lines");

/// Numbers at the limits of the fields and of what is opened.
const EDGES: &[u64] = &[
    0, 1, 31, 32, 33, 47, 48, 49, 99, 100, 254, 255, 256, 257, 998, 999, 1000, 1001,
];

/// Fields in the place of a kind that are none.
const NO_KINDS: &[&[u8]] = &[
    b"", b"0", b"8", b"9", b"00", b"02", b"10", b"22", b"258", b"A", b"x", b"/", b":", b"+2", b"-",
    b"2.", b"\x02", b"\xb2", b"2\t", b"2 ", b" 2", b"2 2",
];

/// What the lines of one input are drawn from.
struct Style {
    b1: u64,
    b2: u64,
    /// Identifiers by number, `cards` of them: each seven have the same bytes, numbers from `first` on with at least `digits` digits.
    first: u64,
    cards: u64,
    digits: usize,
    /// Of 32 lines, how many add and how many withdraw.
    adds: u64,
    withdrawals: u64,
    /// One line in this many opens.
    opens: u64,
    /// Adds take the cards in order, so that a large table fills within 64 KiB.
    in_order: bool,
    next: u64,
}

impl Style {
    fn any(rng: &mut Rng) -> Style {
        let (b1, b2) = match rng.below(4) {
            0 => (1 + rng.below(48), 1 + rng.below(32)),
            _ => *rng.pick(&[(1, 1), (1, 1), (2, 1), (1, 2), (3, 2), (8, 4), (48, 32)]),
        };
        let room = 64 * (b1 + b2 + 1);
        let most = *rng.pick(&[20, room, 2 * room]);
        let (adds, withdrawals) = *rng.pick(&[(30, 1), (20, 3), (12, 8), (8, 12)]);
        Style {
            b1,
            b2,
            first: rng.below(1 << 20),
            cards: 1 + rng.below(most),
            digits: *rng.pick(&[1, 1, 1, 8, 20, 21, 35, 36]),
            adds,
            withdrawals,
            opens: *rng.pick(&[40, 2_000, 100_000]),
            in_order: false,
            next: 0,
        }
    }

    /// Adds of new cards alone, or nearly.
    fn filling(rng: &mut Rng) -> Style {
        let mut style = Style::any(rng);
        (style.b1, style.b2) = *rng.pick(&[(1, 1), (4, 2), (12, 8), (48, 32)]);
        (style.adds, style.withdrawals, style.opens) = (32, 0, 100_000);
        // Short ones, so that the largest tables get full.
        if style.b1 == 48 {
            (style.first, style.digits) = (rng.below(1 << 10), 1);
        }
        style.in_order = true;
        style
    }

    fn open(&self, rng: &mut Rng) -> String {
        match rng.below(8) {
            0 => format!("open {} {}", rng.below(1000), rng.below(1000)),
            1 => format!("open {} {}", rng.pick(EDGES), self.b2),
            2 => format!("open {} {}", self.b1, rng.pick(EDGES)),
            3 => format!("open {} {}", 1 + rng.below(48), 1 + rng.below(32)),
            _ => format!("open {} {}", self.b1, self.b2),
        }
    }

    /// The fields of a kind and of an identifier, with the space between them.
    fn identifier(&mut self, rng: &mut Rng, in_order: bool) -> Vec<u8> {
        if rng.one_in(100) {
            let any = any_card(rng);
            let mut id = any.id;
            id.retain(|byte| !b" \n".contains(byte));
            id.splice(..0, [b'0' + any.kind % 10, b' ']);
            return id;
        }
        let number = if in_order {
            self.next += 1;
            self.next
        } else {
            rng.below(self.cards)
        };
        let kind = 1 + number % 7;
        let id = format!(
            "{kind} {:0digits$X}",
            self.first + number / 7,
            digits = self.digits
        );
        if rng.one_in(4) {
            id.to_lowercase().into_bytes()
        } else {
            id.into_bytes()
        }
    }

    /// A line as document 01 has them, with its LF.
    fn line(&mut self, rng: &mut Rng) -> Vec<u8> {
        if rng.one_in(self.opens) {
            return (self.open(rng) + "\n").into_bytes();
        }
        let verb = rng.below(32);
        let adds = verb < self.adds;
        let word = match verb {
            _ if adds => "add ",
            _ if verb < self.adds + self.withdrawals => "del ",
            _ if rng.one_in(2) => "set ",
            _ => "get ",
        };
        let mut line = word.as_bytes().to_vec();
        line.extend(self.identifier(rng, adds && self.in_order));
        if matches!(word, "add " | "set ") {
            line.extend(format!(" {}", rng.byte()).bytes());
        }
        line.push(b'\n');
        line
    }
}

/// Some bytes that are likely to matter.
const NEAR: &[u8] = b"\n\n\r\0\t  /09:AZaz~\x7f\x80\xff";

/// One change to a line with its LF.
fn damage_line(rng: &mut Rng, line: &mut Vec<u8>) {
    let at = rng.below(line.len() as u64) as usize;
    let after = |line: &[u8], byte| line.iter().position(|&b| b == byte).map(|at| at + 1);
    let spaces: Vec<usize> = (0..line.len()).filter(|&i| line[i] == b' ').collect();
    match rng.below(19) {
        0 => line[at] = rng.byte(),
        1 => line[at] = *rng.pick(NEAR),
        2 => line.insert(at, *rng.pick(NEAR)),
        3 => {
            line.remove(at);
        }
        // Joined to the next line.
        4 => {
            line.pop();
        }
        // CR LF.
        5 => line.insert(line.len() - 1, b'\r'),
        // A space doubled, gone or made a tab.
        6 => {
            if let Some(at) = after(line, b' ') {
                line.insert(at, b' ');
            }
        }
        7 => {
            if let Some(at) = after(line, b' ') {
                line.remove(at - 1);
            }
        }
        8 => {
            if let Some(at) = after(line, b' ') {
                line[at - 1] = b'\t';
            }
        }
        // A last field with a leading zero, or with one more digit.
        9 => {
            if let Some(at) = line.iter().rposition(|&b| b == b' ') {
                line.insert(at + 1, b'0');
            }
        }
        10 => line.insert(line.len() - 1, b'0' + rng.below(10) as u8),
        // Another last field.
        13 => {
            if let Some(at) = line.iter().rposition(|&b| b == b' ') {
                line.truncate(at + 1);
                line.extend(format!("{}\n", rng.pick(EDGES)).bytes());
            }
        }
        // Of 60 to 70 bytes, by the last field or by the identifier; or of many.
        11 => {
            let length = 60 + rng.below(11) as usize;
            while line.len() < length {
                line.insert(line.len() - 1, b'x');
            }
        }
        14 | 15 => {
            if let [_, second, ..] = spaces[..] {
                let length = 60 + rng.below(11) as usize;
                while line.len() < length {
                    line.insert(second + 1, b'x');
                }
            }
        }
        // Another field in the place of the kind.
        16 | 17 => {
            if let [first, second, ..] = spaces[..] {
                line.splice(first + 1..second, rng.pick(NO_KINDS).iter().copied());
            }
        }
        12 => {
            let many = vec![*rng.pick(b"x /\0"); rng.below(3_000) as usize];
            line.splice(at..at, many);
        }
        _ => line.make_ascii_uppercase(),
    }
}

/// Lines of a style up to a size, each damaged once in `damaged` times.
fn calls(rng: &mut Rng, mut style: Style, size: usize, damaged: Option<u64>) -> Vec<u8> {
    let mut input = Vec::new();
    if !rng.one_in(10) {
        input.extend(format!("open {} {}\n", style.b1, style.b2).bytes());
    }
    while input.len() < size {
        let mut line = style.line(rng);
        if damaged.is_some_and(|times| rng.one_in(times)) {
            damage_line(rng, &mut line);
        }
        input.extend(line);
    }
    input
}

/// Bytes that make few lines, or none, that are calls.
fn noise(rng: &mut Rng, size: usize) -> Vec<u8> {
    const PIECES: &[&[u8]] = &[
        b"open ",
        b"open 1 1\n",
        b"add ",
        b"set ",
        b"del ",
        b"get ",
        b"get 2 ",
        b"add 7 ",
        b"2 ",
        b" ",
        b"\n",
        b"A",
        b"7",
        b"0",
        b"255",
        b"\r\n",
        b"\0",
        b"/",
        b"xxxxxxxxxxxxxxxxxxxxx",
    ];
    let pieces = rng.one_in(2);
    let mut input = Vec::new();
    while input.len() < size {
        if pieces {
            input.extend(*rng.pick(PIECES));
        } else {
            input.push(rng.byte());
        }
    }
    input
}

/// Of any size to a bit above the limit, often near it.
fn some_input(rng: &mut Rng) -> Vec<u8> {
    let near = LIMIT as u64 - 3 + rng.below(7);
    let size = match rng.below(8) {
        0 => rng.below(400),
        1..=3 => rng.below(LIMIT as u64),
        4 | 5 => near,
        _ => LIMIT as u64 + rng.below(4_000),
    } as usize;
    let mut input = match rng.below(16) {
        0..=4 => {
            let style = Style::any(rng);
            calls(rng, style, size, None)
        }
        5..=7 => {
            let style = Style::filling(rng);
            calls(rng, style, size, None)
        }
        8..=12 => {
            let style = Style::any(rng);
            let times = *rng.pick(&[2, 10, 100, 1_000]);
            calls(rng, style, size, Some(times))
        }
        13 | 14 => {
            let style = Style::any(rng);
            let mut input = calls(rng, style, size, None);
            for _ in 0..1 + rng.below(300) {
                if !input.is_empty() {
                    let at = rng.below(input.len() as u64) as usize;
                    input[at] = rng.byte();
                }
            }
            input
        }
        _ => noise(rng, size),
    };
    // Cut to the size, or with an LF as the last byte or as the last that counts.
    if rng.one_in(2) {
        input.truncate(size);
    }
    if rng.one_in(4) {
        let last = input.len().min(LIMIT);
        if last > 0 {
            input[last - 1] = b'\n';
        }
    }
    input
}

/// What the program prints for an input on standard input.
fn program(input: &[u8]) -> Vec<u8> {
    let mut child = Command::new(PROGRAM)
        .stdin(Stdio::piped())
        .stdout(Stdio::piped())
        .spawn()
        .unwrap_or_else(|error| panic!("{PROGRAM}: {error}"));
    let mut to = child.stdin.take().expect("piped");
    let output = std::thread::scope(|scope| {
        // It may stop reading after the first 64 KiB.
        scope.spawn(move || to.write_all(input).is_ok());
        child.wait_with_output().expect("an output")
    });
    assert!(output.status.success(), "{PROGRAM}: {}", output.status);
    output.stdout
}

/// The number of the answer that a line of the output is.
fn number(line: &[u8]) -> u64 {
    let text = std::str::from_utf8(line).expect("text");
    match text.split(' ').collect::<Vec<_>>()[..] {
        ["bad"] => Seen::BAD,
        ["ok", _] => 0,
        ["no", cause] => cause.parse().expect("a cause"),
        _ => panic!("{text}"),
    }
}

/// Inputs put to the function of both and to the program.
pub fn lines(rng: &mut Rng, cases: u64) {
    let mut seen = Seen::none();
    let (mut bytes, mut longer, mut refusing) = (0, 0, 0);
    for case in 0..cases {
        let input = some_input(rng);
        let expected = lines::run(&input);
        let what = (case, input.len());
        same_all("lines", what, &ours::lines(&input), &expected);
        // An output that is too short takes what fits; a longer one stays as it was behind it.
        let room = rng.below(2 * expected.len() as u64 + 10) as usize;
        let mut out = vec![0xa5; room];
        let length = ours::lines_into(&input, &mut out);
        same("length of the output", what, length, expected.len());
        let mut kept = expected.clone();
        kept.resize(room, 0xa5);
        same_all("output that fits", what, &out, &kept);
        same_all("program", what, &program(&input), &expected);
        bytes += input.len();
        longer += u64::from(input.len() > LIMIT);
        refusing += u64::from(expected.windows(5).any(|five| five == b"no 8\n"));
        for line in expected.split(|&byte| byte == b'\n') {
            if !line.is_empty() {
                seen.count(number(line));
            }
        }
    }
    println!(
        "agree: {cases} inputs of the line program, as a function and as a program, {bytes} bytes, {longer} of them over 64 KiB, \
         {refusing} that fill a table"
    );
    seen.print("their answers", &[0, 1, 2, 3, 6, 7, 8, 14, 15, Seen::BAD]);
}
