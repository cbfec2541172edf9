//! The proved functions beside this program's, in one run: nanoseconds a step, the least of several turns taken alternately, and
//! their ratio. `bench PATH`: beside this program as built for x86-64-v3 too, which is at PATH and takes its turns when it is asked.

use reference::answer::TABLE_NOT_SOUND;
use reference::bucket::Bucket;
use reference::rng::Rng;
use reference::table::{self, Shape};
use reference::{identifier, lines, ours, patch, plane};
use std::fmt::Debug;
use std::hint::black_box;
use std::io::{BufRead, BufReader, Write};
use std::ops::RangeInclusive;
use std::process::{Child, ChildStdin, ChildStdout, Command, Stdio};
use std::time::Instant;

/// How many turns are taken, and how many runs each takes in a row: the first of them finds the caches as the others left them.
#[derive(Clone, Copy, Debug)]
struct Turns {
    turns: u32,
    runs: u32,
}

const USUAL: Turns = Turns { turns: 5, runs: 3 };

/// For lines of some nanoseconds a step.
const SHORT: Turns = Turns {
    turns: 100,
    runs: 3,
};

/// For lines of up to a second.
const LONG: Turns = Turns { turns: 2, runs: 1 };

/// Nanoseconds of the shortest of these runs.
fn time(runs: u32, run: &mut dyn FnMut()) -> u64 {
    let one = |_| {
        let start = Instant::now();
        run();
        start.elapsed().as_nanos() as u64
    };
    (0..runs).map(one).min().expect("a run")
}

/// Which of the two builds this is. Both go through the same lines with the same numbers.
enum Build {
    /// Times ours and this program, asks the other build, if there is one, in the same turns, and prints.
    Plain(Option<Other>),
    /// Times this program when it is asked. Of ours it times nothing.
    Asked,
}

impl Build {
    /// Prints a line of the table.
    fn compare(&mut self, name: &str, steps: u32, ours: impl FnMut(), reference: impl FnMut()) {
        self.compare_in(USUAL, name, steps, ours, reference);
    }

    fn compare_in(
        &mut self,
        turns: Turns,
        name: &str,
        steps: u32,
        mut ours: impl FnMut(),
        mut reference: impl FnMut(),
    ) {
        let Turns { turns, runs } = turns;
        let line = format!("{turns} turns of {runs} runs: {name}");
        let Build::Plain(other) = self else {
            assert_eq!(question(), line);
            println!("ready");
            for _ in 0..turns {
                assert_eq!(question(), "turn");
                println!("{}", time(runs, &mut reference));
            }
            return;
        };
        if let Some(other) = other {
            assert_eq!(other.ask(&line), "ready");
        }
        let (mut a, mut b, mut c) = (u64::MAX, u64::MAX, u64::MAX);
        for _ in 0..turns {
            a = a.min(time(runs, &mut ours));
            b = b.min(time(runs, &mut reference));
            if let Some(other) = other {
                c = c.min(other.ask("turn").parse().expect("nanoseconds"));
            }
        }
        let step = |least: u64| least as f64 / f64::from(steps);
        let (a, b, c) = (step(a), step(b), step(c));
        print!("{name:<48} {a:>10.1} {b:>10.1} {:>8.2}", a / b);
        match other {
            Some(_) => println!(" {c:>10.1} {:>8.2}", a / c),
            None => println!(" {:>10} {:>8}", "-", "-"),
        }
    }

    /// Prints what the next lines are about.
    fn heading(&self, text: &str) {
        if let Build::Plain(_) = self {
            println!("{text}");
        }
    }

    /// Ours and this program have made the same of it, where both have run.
    fn same<T: PartialEq + Debug>(&self, ours: T, reference: T) {
        if let Build::Plain(_) = self {
            assert_eq!(ours, reference);
        }
    }
}

/// The next question to this build, nothing at their end.
fn question() -> String {
    line_of(&mut std::io::stdin().lock())
}

fn line_of(input: &mut impl BufRead) -> String {
    let mut line = String::new();
    input.read_line(&mut line).expect("a line");
    line.trim_end().to_string()
}

/// This program as built for x86-64-v3, in a process of its own. It ends with an error at a question that it does not expect, and with it
/// this one does, since there is no answer: the two cannot get out of step unseen.
struct Other {
    process: Child,
    questions: ChildStdin,
    answers: BufReader<ChildStdout>,
}

impl Other {
    fn start(path: &str) -> Other {
        let mut process = Command::new(path)
            .arg("asked")
            .stdin(Stdio::piped())
            .stdout(Stdio::piped())
            .spawn()
            .expect("the build for x86-64-v3");
        Other {
            questions: process.stdin.take().expect("piped"),
            answers: BufReader::new(process.stdout.take().expect("piped")),
            process,
        }
    }

    /// The answer to a question, nothing if the process has ended.
    fn ask(&mut self, question: &str) -> String {
        let question = format!("{question}\n");
        self.questions.write_all(question.as_bytes()).expect("open");
        line_of(&mut self.answers)
    }

    fn finish(mut self) {
        drop(self.questions);
        assert!(self.process.wait().expect("its end").success());
    }
}

/// A kind and the bytes of an identifier.
struct Card {
    kind: u8,
    id: Vec<u8>,
}

impl Card {
    fn word(&self) -> u64 {
        identifier::word(self.kind, &self.id).expect("an identifier")
    }
}

/// One of the seven kinds.
fn some_kind(rng: &mut Rng) -> u8 {
    1 + rng.below(7) as u8
}

/// Identifiers of these lengths in turn, small letters, to their words.
fn words(build: &mut Build, rng: &mut Rng, name: &str, lengths: RangeInclusive<usize>) {
    const N: u32 = 1000;
    let cards: Vec<Card> = lengths
        .cycle()
        .take(N as usize)
        .map(|length| Card {
            kind: some_kind(rng),
            id: (0..length).map(|_| b'a' + rng.below(26) as u8).collect(),
        })
        .collect();
    build.compare_in(
        SHORT,
        name,
        N,
        || {
            for card in &cards {
                black_box(ours::word(card.kind, black_box(&card.id)));
            }
        },
        || {
            for card in &cards {
                let _ = black_box(identifier::word(card.kind, black_box(&card.id)));
            }
        },
    );
}

/// All lengths together; then some by themselves, since the table of bytes is made anew at each of our calls.
fn identifiers(build: &mut Build, rng: &mut Rng) {
    words(
        build,
        rng,
        "identifier of 1 to 36 bytes to its word",
        1..=36,
    );
    for length in [1, 8, 20, 36] {
        words(build, rng, &format!("  of {length} alone"), length..=length);
    }
}

/// The numbers of a bucket and back, as a call on a table takes them from its stretch and puts them there.
fn load(part: &[u64]) -> Bucket {
    let mut b = Bucket::empty();
    b.cols.copy_from_slice(&part[..64]);
    b.mark = part[64];
    b.sols.copy_from_slice(&part[65..73]);
    b.bound = part[73];
    b
}

fn store(part: &mut [u64], b: &Bucket) {
    part[..64].copy_from_slice(&b.cols);
    part[64] = b.mark;
    part[65..73].copy_from_slice(&b.sols);
    part[73] = b.bound;
}

fn empty() -> Vec<u64> {
    let mut part = vec![0; 74];
    store(&mut part, &Bucket::empty());
    part
}

/// The numbers of a bucket with this many random vectors, and these.
fn filled(rng: &mut Rng, count: usize) -> (Vec<u64>, Vec<u64>) {
    let mut bucket = Bucket::empty();
    let mut vectors = Vec::new();
    while vectors.len() < count {
        let k = rng.next();
        if bucket.add(k, rng.byte()).is_some() {
            vectors.push(k);
        }
    }
    let mut part = empty();
    store(&mut part, &bucket);
    (part, vectors)
}

fn buckets(build: &mut Build, rng: &mut Rng) {
    const N: u32 = 1000;
    let (half, vectors) = filled(rng, 32);
    let fresh: Vec<u64> = (0..N).map(|_| rng.next()).collect();
    build.compare(
        "product of a vector, half full bucket",
        N,
        || {
            for &k in &fresh {
                black_box(ours::bucket_row(black_box(&half), k));
            }
        },
        || {
            for &k in &fresh {
                black_box(load(black_box(&half)).live(k));
            }
        },
    );
    let mut ours_part = half.clone();
    let mut rust_part = half.clone();
    build.compare(
        "add, empty bucket to 32 vectors",
        32,
        || {
            let mut part = empty();
            for &k in &vectors {
                black_box(ours::bucket_add(&mut part, k, 7));
            }
            ours_part = part;
        },
        || {
            let mut part = empty();
            for &k in &vectors {
                let mut b = load(&part);
                if black_box(b.add(k, 7)).is_some() {
                    store(&mut part, &b);
                }
            }
            rust_part = part;
        },
    );
    build.same(&ours_part, &rust_part);
    build.compare(
        "withdraw, 32 vectors to an empty bucket",
        32,
        || {
            let mut part = half.clone();
            for &k in &vectors {
                black_box(ours::bucket_withdraw(&mut part, k));
            }
            ours_part = part;
        },
        || {
            let mut part = half.clone();
            for &k in &vectors {
                let mut b = load(&part);
                if black_box(b.withdraw(k)).is_some() {
                    store(&mut part, &b);
                }
            }
            rust_part = part;
        },
    );
    // No plan is left behind.
    build.same(&ours_part, &rust_part);
    assert_eq!(rust_part, empty());
    eliminations(build, rng, &mut Rng::new(2029));
}

/// The test of the columns of 80 buckets, from full ones to empty ones. The second generator is for the lines that came later.
fn eliminations(build: &mut Build, rng: &mut Rng, later: &mut Rng) {
    let full = some_filled(rng, 64);
    let mut singular = some_filled(later, 64);
    for part in &mut singular {
        let mut bucket = load(part);
        make_singular(later, &mut bucket);
        store(part, &bucket);
    }
    elimination(build, "full bucket", &full);
    elimination(build, "full bucket, singular", &singular);
    for count in [57, 48] {
        elimination(build, &format!("{count} rows"), &some_filled(later, count));
    }
    elimination(build, "half full bucket", &some_filled(rng, 32));
    for (name, count) in [("20 rows", 20), ("8 rows", 8), ("1 row", 1)] {
        elimination(build, name, &some_filled(later, count));
    }
    elimination(build, "empty bucket", &some_filled(rng, 0));
}

/// 80 buckets with this many random vectors each.
fn some_filled(rng: &mut Rng, count: usize) -> Vec<Vec<u64>> {
    (0..80).map(|_| filled(rng, count).0).collect()
}

/// Flips a bit of a column, in an occupied row, such that the columns have no inverse.
fn make_singular(rng: &mut Rng, bucket: &mut Bucket) {
    assert_ne!(bucket.mark, 0);
    loop {
        let (column, bit) = (rng.below(64) as usize, 1 << rng.below(64));
        let mut flipped = bucket.clone();
        flipped.cols[column] ^= bit;
        if bucket.mark & bit != 0 && flipped.rows().is_none() {
            *bucket = flipped;
            return;
        }
    }
}

fn elimination(build: &mut Build, name: &str, parts: &[Vec<u64>]) {
    for part in parts {
        let row = load(part).rows().map_or(0, |rows| rows[63]);
        assert_eq!(ours::bucket_matrix(part, 63), row);
    }
    build.compare(
        &format!("elimination, {name}"),
        parts.len() as u32,
        || {
            for part in parts {
                black_box(ours::bucket_matrix(black_box(part), 63));
            }
        },
        || {
            for part in parts {
                black_box(load(black_box(part)).rows());
            }
        },
    );
}

/// Identifiers of every kind, all different.
fn cards(rng: &mut Rng, count: usize) -> Vec<Card> {
    (0..count)
        .map(|i| Card {
            kind: some_kind(rng),
            id: format!("{i:X}-{:010X}", rng.next() >> 24).into_bytes(),
        })
        .collect()
}

/// A plan that a word may be given.
fn some_plan(rng: &mut Rng) -> u8 {
    rng.below(255) as u8
}

/// A table filled until its base list has `base` entries and the next word would raise them, and the identifiers in it.
fn filled_table(rng: &mut Rng, b1: u64, b2: u64, base: u64) -> (Vec<u64>, Vec<Card>) {
    let shape = Shape::new(b1, b2).expect("in range");
    let mut t = vec![0; shape.table_len()];
    table::open(&mut t, b1, b2);
    let mut inside = Vec::new();
    for card in cards(rng, 8000) {
        let mut next = t.clone();
        let added = shape.add(&mut next, card.word(), some_plan(rng));
        if added.is_ok() && next[table::BASE_COUNT] <= base {
            t = next;
            inside.push(card);
        } else if t[table::BASE_COUNT] == base {
            break;
        }
    }
    assert_eq!(t[table::BASE_COUNT], base);
    (t, inside)
}

/// Adds until the first refusal, through the call that checks the table; what it made of the table.
fn fill(
    cards: &[Card],
    b1: u64,
    b2: u64,
    add: impl Fn(&mut [u64], u8, &[u8]) -> bool,
) -> (u32, Vec<u64>) {
    let mut t = vec![0; Shape::new(b1, b2).expect("in range").table_len()];
    table::open(&mut t, b1, b2);
    let taken = cards
        .iter()
        .take_while(|card| add(&mut t, card.kind, &card.id));
    (taken.count() as u32, t)
}

/// Adds to an empty table until the first refusal.
fn filling(build: &mut Build, rng: &mut Rng, b1: u64, b2: u64) {
    let cards = cards(rng, 8000);
    let ours = || {
        fill(&cards, b1, b2, |t, kind, id| {
            ours::add(t, kind, id, 7).is_accepted()
        })
    };
    let theirs = || {
        fill(&cards, b1, b2, |t, kind, id| {
            table::add(t, kind, id, 7).is_accepted()
        })
    };
    let (taken, t) = ours();
    assert_eq!((taken, t), theirs());
    build.compare_in(
        LONG,
        "add, empty table to the first refusal",
        taken,
        || {
            black_box(ours());
        },
        || {
            black_box(theirs());
        },
    );
}

/// The same by words, through the inner call, which tests no table.
fn filling_words(build: &mut Build, rng: &mut Rng, b1: u64, b2: u64) {
    let words: Vec<u64> = cards(rng, 8000).iter().map(Card::word).collect();
    let shape = Shape::new(b1, b2).expect("in range");
    let theirs = |t: &mut [u64]| {
        table::open(t, b1, b2);
        words
            .iter()
            .take_while(|&&w| shape.add(t, w, (w % 128) as u8).is_ok())
            .count() as u64
    };
    let (mut a, mut b) = (vec![0; shape.table_len()], vec![0; shape.table_len()]);
    let taken = ours::fill(&mut a, b1, b2, &words);
    assert_eq!(taken, theirs(&mut b));
    assert_eq!(a, b);
    build.compare(
        "inner add, empty table to the first refusal",
        taken as u32,
        || {
            black_box(ours::fill(&mut a, b1, b2, &words));
        },
        || {
            black_box(theirs(&mut b));
        },
    );
}

fn tables(build: &mut Build, rng: &mut Rng) {
    const N: u32 = 50;
    for (b1, b2) in [(1, 1), (12, 8), (48, 32)] {
        let (t, inside) = filled_table(rng, b1, b2, 64);
        let asked: Vec<&Card> = (0..N).map(|_| rng.pick(&inside)).collect();
        let (mut a, mut b) = (t.clone(), t.clone());
        build.heading(&format!(
            "-- {b1} and {b2} buckets, {} live words, 64 of them in the base list",
            inside.len()
        ));
        build.compare(
            "query",
            N,
            || {
                asked.iter().for_each(|card| {
                    black_box(ours::query(&t, card.kind, &card.id));
                })
            },
            || {
                asked.iter().for_each(|card| {
                    black_box(table::query(&t, card.kind, &card.id));
                })
            },
        );
        build.compare(
            "change",
            N,
            || {
                asked.iter().for_each(|card| {
                    black_box(ours::change(&mut a, card.kind, &card.id, 7));
                })
            },
            || {
                asked.iter().for_each(|card| {
                    black_box(table::change(&mut b, card.kind, &card.id, 7));
                })
            },
        );
        build.compare(
            "withdraw and add",
            N,
            || {
                for card in &asked {
                    black_box(ours::withdraw(&mut a, card.kind, &card.id));
                    black_box(ours::add(&mut a, card.kind, &card.id, 9));
                }
            },
            || {
                for card in &asked {
                    black_box(table::withdraw(&mut b, card.kind, &card.id));
                    black_box(table::add(&mut b, card.kind, &card.id, 9));
                }
            },
        );
        build.same(&a, &b);
        let (mut p, mut q) = (vec![0; 6000], vec![0; 6000]);
        build.compare(
            "write a plane",
            1,
            || {
                black_box(ours::write_plane(&t, &mut p));
            },
            || {
                black_box(plane::write(&t, &mut q));
            },
        );
        build.same(&p, &q);
        lookups(build, rng, &t, &inside, 64);
        let (t, inside) = filled_table(rng, b1, b2, 0);
        lookups(build, rng, &t, &inside, 0);
        filling(build, rng, b1, b2);
        filling_words(build, rng, b1, b2);
    }
}

/// Queries of tables in which the columns of one bucket have no inverse: 16 tables for each line, all with another bit flipped. The
/// bucket ends the call.
fn damaged_tables(build: &mut Build, rng: &mut Rng) {
    const N: u32 = 16;
    for (b1, b2) in [(1, 1), (12, 8), (48, 32)] {
        let (t, inside) = filled_table(rng, b1, b2, 64);
        let shape = Shape::new(b1, b2).expect("in range");
        build.heading(&format!("-- {b1} and {b2} buckets, damaged tables"));
        let count = shape.buckets();
        // Of two buckets none is in the middle.
        let middle = (count > 2).then_some(("middle", count / 2));
        let places = [Some(("first", 0)), middle, Some(("last", count - 1))];
        for (name, index) in places.into_iter().flatten() {
            let asked: Vec<(Vec<u64>, &Card)> = (0..N)
                .map(|_| {
                    let mut damaged = t.clone();
                    let mut bucket = shape.read_bucket(&t, index);
                    make_singular(rng, &mut bucket);
                    shape.write_bucket(&mut damaged, index, &bucket);
                    (damaged, rng.pick(&inside))
                })
                .collect();
            for (t, Card { kind, id }) in &asked {
                assert_eq!(ours::query(t, *kind, id).cause, TABLE_NOT_SOUND);
                assert_eq!(table::query(t, *kind, id).cause, TABLE_NOT_SOUND);
            }
            build.compare(
                &format!("query, {name} bucket singular"),
                N,
                || {
                    asked.iter().for_each(|(t, card)| {
                        black_box(ours::query(t, card.kind, &card.id));
                    })
                },
                || {
                    asked.iter().for_each(|(t, card)| {
                        black_box(table::query(t, card.kind, &card.id));
                    })
                },
            );
        }
    }
}

/// Lookups of live identifiers in the plane of `t`, which has `base` base records.
fn lookups(build: &mut Build, rng: &mut Rng, t: &[u64], inside: &[Card], base: u64) {
    const N: u32 = 1000;
    let mut bytes = vec![0; 6000];
    let length = plane::write(t, &mut bytes).value as usize;
    let asked: Vec<&Card> = (0..N).map(|_| rng.pick(inside)).collect();
    build.compare(
        &format!("plane lookup, {base} base records"),
        N,
        || {
            asked.iter().for_each(|card| {
                black_box(ours::lookup(card.kind, &card.id, &bytes[..length]));
            })
        },
        || {
            asked.iter().for_each(|card| {
                black_box(plane::lookup(card.kind, &card.id, &bytes[..length]));
            })
        },
    );
}

/// Opening and withdrawing by themselves.
fn opening_and_withdrawing(build: &mut Build, rng: &mut Rng) {
    const N: u32 = 50;
    for (b1, b2) in [(1, 1), (12, 8), (48, 32)] {
        let (t, mut inside) = filled_table(rng, b1, b2, 64);
        while inside.len() > N as usize {
            inside.swap_remove(rng.below(inside.len() as u64) as usize);
        }
        build.heading(&format!("-- {b1} and {b2} buckets"));
        let (mut a, mut b) = (t.clone(), t.clone());
        build.compare(
            "open",
            N,
            || {
                for _ in 0..N {
                    black_box(ours::open(black_box(&mut a), b1, b2));
                }
            },
            || {
                for _ in 0..N {
                    black_box(table::open(black_box(&mut b), b1, b2));
                }
            },
        );
        build.same(&a, &b);
        build.compare(
            "withdraw",
            N,
            || {
                a.copy_from_slice(&t);
                inside.iter().for_each(|card| {
                    black_box(ours::withdraw(&mut a, card.kind, &card.id));
                })
            },
            || {
                b.copy_from_slice(&t);
                inside.iter().for_each(|card| {
                    black_box(table::withdraw(&mut b, card.kind, &card.id));
                })
            },
        );
        build.same(&a, &b);
    }
}

/// The question for the total of a plan, every plan in turn.
fn totals(build: &mut Build, rng: &mut Rng, b1: u64, b2: u64) {
    const N: u32 = 1024;
    let (t, inside) = filled_table(rng, b1, b2, 64);
    let plans: Vec<u8> = (0..=255).cycle().take(N as usize).collect();
    let sum: u64 = (0..=255).map(|plan| ours::plan_total(&t, plan).value).sum();
    assert_eq!(sum, inside.len() as u64);
    build.heading(&format!("-- totals, {b1} and {b2} buckets"));
    build.compare_in(
        SHORT,
        "total of a plan",
        N,
        || {
            for &plan in &plans {
                black_box(ours::plan_total(black_box(&t), plan));
            }
        },
        || {
            for &plan in &plans {
                black_box(table::plan_total(black_box(&t), plan));
            }
        },
    );
}

/// Making and applying patches between planes of 48 and 32 buckets with 64 base records.
fn patches(build: &mut Build, rng: &mut Rng) {
    const N: u32 = 50;
    const BASE: usize = 5 + 66 * 80;
    build.heading("-- patches, 48 and 32 buckets, 64 base records");
    let (mut t, inside) = filled_table(rng, 48, 32, 64);
    let mut old = vec![0; 5930];
    assert!(plane::write(&t, &mut old).is_accepted());
    let mut one = old.clone();
    let Card { kind, id } = &inside[0];
    let plan = table::query(&t, *kind, id).value as u8;
    assert!(table::change(&mut t, *kind, id, (plan + 1) % 255).is_accepted());
    assert!(plane::write(&t, &mut one).is_accepted());
    // One bit of each bucket's solutions, and of each base word.
    let (mut buckets, mut base) = (old.clone(), old.clone());
    for bucket in buckets[5..BASE].chunks_exact_mut(66) {
        bucket[2] ^= 1;
    }
    for entry in base[BASE..5925].chunks_exact_mut(10) {
        entry[1] ^= 1;
    }
    for (name, new, length) in [
        ("one plan changed", one, 89),
        ("every bucket changed", buckets, 22 + 67 * 80),
        ("64 base words exchanged", base, 22 + 19 * 64),
    ] {
        let (mut p, mut q) = (vec![0; 7000], vec![0; 7000]);
        build.compare(
            &format!("make a patch, {name}"),
            N,
            || {
                for _ in 0..N {
                    black_box(ours::make_patch(black_box(&old), &new, &mut p));
                }
            },
            || {
                for _ in 0..N {
                    black_box(patch::make(black_box(&old), &new, &mut q));
                }
            },
        );
        build.same(&p, &q);
        let answer = patch::make(&old, &new, &mut q);
        assert_eq!((answer.cause, answer.value), (0, length));
        let made = q[..length as usize].to_vec();
        build.compare(
            &format!("apply a patch, {name}"),
            N,
            || {
                for _ in 0..N {
                    black_box(ours::apply_patch(black_box(&old), &made, &mut p));
                }
            },
            || {
                for _ in 0..N {
                    black_box(patch::apply(black_box(&old), &made, &mut q));
                }
            },
        );
        build.same(&p, &q);
        assert_eq!(q[..new.len()], new);
    }
}

/// 64 KiB of lines after the opening of 48 and 32 buckets.
fn full_input(mut line: impl FnMut() -> String) -> Vec<u8> {
    let mut input = b"open 48 32\n".to_vec();
    while input.len() < lines::INPUT_MAX {
        input.extend((line() + "\n").bytes());
    }
    input.truncate(lines::INPUT_MAX);
    input
}

/// The line program on the longest input: adds of new identifiers, which fill the table; all calls mixed; openings.
fn line_program(build: &mut Build, rng: &mut Rng) {
    build.heading("-- 64 KiB through the line program, 48 and 32 buckets: milliseconds");
    let mut next = 0;
    // Each seven with the same letters.
    let fields = |n: u64| format!("{} {:X}", 1 + n % 7, n / 7);
    let adds = full_input(|| {
        next += 1;
        format!("add {} {}", fields(next), next % 255)
    });
    let mixed = full_input(|| {
        let (id, plan) = (fields(rng.below(3000)), some_plan(rng));
        match rng.below(10) {
            0..=4 => format!("add {id} {plan}"),
            5 => format!("del {id}"),
            6..=7 => format!("set {id} {plan}"),
            _ => format!("get {id}"),
        }
    });
    let openings = full_input(|| "open 48 32".to_string());
    for (name, input) in [("adds", adds), ("mixed", mixed), ("openings", openings)] {
        assert_eq!(ours::lines(&input), lines::run(&input));
        let mut out = vec![0; 24 * lines::INPUT_MAX];
        let count = input.iter().filter(|&&byte| byte == b'\n').count();
        // A million steps: nanoseconds a step are milliseconds in all.
        build.compare(
            &format!("{name}, {count} lines"),
            1_000_000,
            || {
                black_box(ours::lines_into(black_box(&input), &mut out));
            },
            || {
                black_box(lines::run(black_box(&input)));
            },
        );
    }
}

/// How many bytes the plane takes for each live word when an add is refused for the first time.
fn plane_sizes(rng: &mut Rng) {
    const FILLS: u32 = 20;
    println!();
    println!("at the first refusal, mean of {FILLS} random fills");
    println!(
        "{:<20} {:>12} {:>12} {:>16} {:>10} {:>10}",
        "buckets", "live words", "plane bytes", "bytes a word", "least", "most"
    );
    for (b1, b2) in [(1, 1), (2, 1), (4, 2), (8, 4), (16, 8), (24, 16), (48, 32)] {
        let shape = Shape::new(b1, b2).expect("in range");
        let (mut words, mut bytes) = (0, 0);
        let mut each = Vec::new();
        for _ in 0..FILLS {
            let mut t = vec![0; shape.table_len()];
            table::open(&mut t, b1, b2);
            while shape.add(&mut t, rng.next(), some_plan(rng)).is_ok() {}
            let written = ours::write_plane(&t, &mut [0; 6000]);
            assert!(written.is_accepted());
            let live = t[table::LIVE_COUNT];
            words += live;
            bytes += written.value;
            each.push(written.value as f64 / live as f64);
        }
        let fills = f64::from(FILLS);
        println!(
            "{:<20} {:>12.1} {:>12.1} {:>16.3} {:>10.3} {:>10.3}",
            format!("{b1} and {b2}"),
            words as f64 / fills,
            bytes as f64 / fills,
            each.iter().sum::<f64>() / fills,
            each.iter().copied().fold(f64::INFINITY, f64::min),
            each.iter().copied().fold(0.0, f64::max),
        );
    }
    println!("{:<20} {:>42}", "source document 003", "1.23 to 1.29");
}

fn main() {
    let arguments: Vec<String> = std::env::args().skip(1).collect();
    let mut build = match arguments.iter().map(String::as_str).collect::<Vec<_>>()[..] {
        [] => Build::Plain(None),
        ["asked"] => Build::Asked,
        [path] => Build::Plain(Some(Other::start(path))),
        _ => {
            eprintln!("bench [PATH]");
            std::process::exit(2);
        }
    };
    let mut rng = Rng::new(2026);
    build.heading(&format!(
        "{:<48} {:>10} {:>10} {:>8} {:>10} {:>8}",
        "nanoseconds a step", "ours", "Rust", "ratio", "Rust v3", "ratio v3"
    ));
    identifiers(&mut build, &mut rng);
    buckets(&mut build, &mut rng);
    tables(&mut build, &mut rng);
    damaged_tables(&mut build, &mut Rng::new(2030));
    opening_and_withdrawing(&mut build, &mut rng);
    totals(&mut build, &mut Rng::new(2028), 48, 32);
    patches(&mut build, &mut Rng::new(2027));
    line_program(&mut build, &mut rng);
    match build {
        Build::Plain(other) => {
            if let Some(other) = other {
                other.finish();
            }
            plane_sizes(&mut rng);
        }
        Build::Asked => assert_eq!(question(), ""),
    }
}
