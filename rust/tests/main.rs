//! The tests, compiled as one program: a file for each thing that is tested,
//! and the slow model that they compare with.

mod bench_values;
mod buckets;
mod edges;
mod histories;
mod inner;
mod kinds;
mod oracle;
mod patches;
mod planes;
mod published;
mod runs;
mod session;
mod soundness;
mod strangers;
mod totals;
mod withdrawn;

/// A file that is not named above would not be compiled, and its tests not run.
#[test]
fn every_file_is_named() {
    let named = include_str!("main.rs");
    for entry in std::fs::read_dir(concat!(env!("CARGO_MANIFEST_DIR"), "/tests")).unwrap() {
        let path = entry.unwrap().path();
        let name = path.file_stem().unwrap().to_str().unwrap();
        assert!(
            name == "main" || named.contains(&format!("\nmod {name};\n")),
            "{name}"
        );
    }
}
