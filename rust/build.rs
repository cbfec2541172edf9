// With the feature `linked`: link the proved archives that `bin/archive` wrote.
fn main() {
    println!("cargo:rerun-if-changed=build.rs");
    if std::env::var_os("CARGO_FEATURE_LINKED").is_some() {
        let root = std::env::var("CARGO_MANIFEST_DIR").unwrap();
        println!("cargo:rustc-link-search=native={root}/../target/staticlib");
        for name in ["run_probe", "limgoshi"] {
            println!("cargo:rustc-link-lib=static={name}");
            println!("cargo:rerun-if-changed={root}/../target/staticlib/lib{name}.a");
        }
    }
}
