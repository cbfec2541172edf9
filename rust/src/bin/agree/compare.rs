//! What is compared, and how often each answer occurred.

use reference::Answer;
use std::fmt::Debug;

/// Says what differs and ends the program.
pub fn differ(what: &str, input: impl Debug, difference: &str) -> ! {
    eprintln!("agree: {what}: {input:?}: {difference}");
    std::process::exit(1);
}

pub fn same<T: PartialEq + Debug>(what: &str, input: impl Debug, ours: T, reference: T) {
    if ours != reference {
        differ(
            what,
            input,
            &format!("ours {ours:?}, the reference {reference:?}"),
        );
    }
}

/// The same numbers or bytes; of long ones only the first that differs is printed.
pub fn same_all<T: PartialEq + Debug>(what: &str, input: impl Debug, ours: &[T], reference: &[T]) {
    if ours != reference {
        let common = ours.iter().zip(reference);
        let at = common.take_while(|(a, b)| a == b).count();
        let (a, b) = (ours.get(at), reference.get(at));
        differ(
            what,
            input,
            &format!("at {at}: ours {a:?}, the reference {b:?}"),
        );
    }
}

/// How often each answer occurred: accepted, each cause, and the line program's `bad`.
pub struct Seen([u64; Seen::BAD as usize + 1]);

impl Seen {
    /// Above every cause.
    pub const BAD: u64 = 100;

    pub fn none() -> Seen {
        Seen([0; Seen::BAD as usize + 1])
    }

    /// Counts an answer number, cause 0 being accepted.
    pub fn count(&mut self, number: u64) {
        self.0[number as usize] += 1;
    }

    /// The two answers are the same; counts them.
    pub fn same(&mut self, what: &str, input: impl Debug, ours: Answer, reference: Answer) {
        same(what, input, ours, reference);
        self.count(reference.cause);
    }

    /// How many answers there were.
    pub fn total(&self) -> u64 {
        self.0.iter().sum()
    }

    /// Prints how often each answer occurred. Just these must have.
    pub fn print(&self, what: &str, expected: &[u64]) {
        let name = |number: u64| match number {
            0 => "ok".to_string(),
            Seen::BAD => "bad".to_string(),
            cause => format!("no {cause}"),
        };
        let counts: Vec<String> = (0..=Seen::BAD)
            .filter(|&number| self.0[number as usize] > 0)
            .map(|number| format!("{} {}", self.0[number as usize], name(number)))
            .collect();
        println!("agree: {what}: {}", counts.join(", "));
        for number in 0..=Seen::BAD {
            let occurred = self.0[number as usize] > 0;
            if occurred != expected.contains(&number) {
                let often = if occurred {
                    "occurred"
                } else {
                    "never occurred"
                };
                differ(what, name(number), often);
            }
        }
    }
}
