//! The calls on a table known to be sound, as the line program makes them, and
//! the calls that test the table first: the same answers and tables.

use reference::answer::Answer;
use reference::identifier;
use reference::rng::Rng;
use reference::table::{self, Shape};

#[test]
fn checked_and_inner_calls() {
    let mut rng = Rng::new(27);
    let mut seen = [0; 16];
    for (buckets1, buckets2) in [(1, 1), (2, 1), (3, 2), (7, 5)] {
        let shape = Shape::new(buckets1, buckets2).unwrap();
        let mut table = vec![0; shape.table_len()];
        table::open(&mut table, buckets1, buckets2);
        let mut inner = table.clone();
        let cards = 240 * (buckets1 + buckets2);
        for _ in 0..3000 {
            let id = match rng.below(40) {
                0 => String::new(),
                1 => "no/card".to_string(),
                _ => format!("card-{}", rng.below(cards)),
            };
            let id = id.as_bytes();
            // Now and then one that there is not.
            let kind = *rng.pick(&[1, 2, 3, 4, 5, 6, 7, 7, 6, 5, 4, 3, 2, 1, 0, 8]);
            // Now and then the one that no word is given.
            let plan = *rng.pick(&[255, 254, 0, 1, 40, 41, 77, 128]);
            let word = identifier::word(kind, id);
            let (checked, answer): (Answer, Answer) = match rng.below(10) {
                0..=5 => (
                    table::add(&mut table, kind, id, plan),
                    word.and_then(|word| shape.add(&mut inner, word, plan))
                        .into(),
                ),
                6 => (
                    table::change(&mut table, kind, id, plan),
                    word.and_then(|word| shape.change(&mut inner, word, plan))
                        .into(),
                ),
                7 => (
                    table::withdraw(&mut table, kind, id),
                    word.and_then(|word| shape.withdraw(&mut inner, word))
                        .into(),
                ),
                _ => (
                    table::query(&table, kind, id),
                    word.and_then(|word| shape.query(&inner, word)).into(),
                ),
            };
            assert_eq!(checked, answer);
            assert_eq!(table, inner);
            seen[answer.cause as usize] += 1;
        }
    }
    // A table from an opening on is sound, so 3, 4 and 5 are no answer here.
    let met = [0, 1, 2, 6, 7, 8, 14, 15];
    assert!(met.iter().all(|&cause| seen[cause] > 0));
    assert_eq!(seen[3..6], [0, 0, 0]);
}
