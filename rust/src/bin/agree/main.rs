//! The proved functions and this program, which shares no code with them, answer alike on random input, well-formed and damaged.
//! `agree long` takes many more cases. It stops at the first difference, and fails if an answer never occurred.

mod compare;
mod histories;
mod kinds;
mod lines;
mod matrices;
mod parts;
mod patches;
mod planes;
mod random;
mod records;
mod strangers;
mod tables;
mod totals;
mod withdrawn;
mod words;

use reference::rng::Rng;

fn main() {
    let arguments: Vec<String> = std::env::args().skip(1).collect();
    let long = match arguments.iter().map(String::as_str).collect::<Vec<_>>()[..] {
        [] => false,
        ["long"] => true,
        _ => {
            eprintln!("agree [long]");
            std::process::exit(2);
        }
    };
    let times = if long { 10 } else { 1 };
    let mut rng = Rng::new(20261115);
    parts::identifiers(&mut rng, 300_000 * times);
    parts::every_identifier(&mut rng);
    parts::buckets(&mut rng, 2_000 * times);
    matrices::matrices(&mut Rng::new(20261117), if long { 45_000 } else { 900 });
    words::fills(&mut Rng::new(20261116), 600 * times);
    tables::tables(&mut rng, if long { 20_000 } else { 1_800 });
    totals::questions(&mut rng, 20_000 * times);
    totals::wrong(&mut rng, 40 * times);
    totals::one_plan(&mut rng);
    kinds::wrong(&mut rng, 400 * times);
    kinds::seven(&mut rng, 400 * times);
    strangers::given(&mut rng, 400 * times);
    strangers::tables(&mut rng, long);
    strangers::by_buckets(&mut rng, 100 * times);
    strangers::lookups(&mut rng, 2_000 * times);
    strangers::planes(&mut rng, 1_000 * times);
    withdrawn::lost();
    withdrawn::histories(&mut rng, 200 * times);
    withdrawn::free_rows(&mut rng, 300 * times);
    withdrawn::earlier(&mut rng, 300 * times);
    planes::planes(&mut rng, 400 * times);
    planes::edges(&mut rng);
    tables::histories(&mut rng, if long { 200 } else { 8 });
    histories::long(&mut rng, long);
    lines::lines(&mut rng, 100 * times);
    patches::pairs(&mut rng, 400 * times);
    patches::histories(&mut rng, times);
    patches::edges(&mut rng, long);
}
