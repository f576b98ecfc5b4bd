// Links the archive that `rt lib` wrote in crates/schilfauge.
fn main() {
    let folder = concat!(env!("CARGO_MANIFEST_DIR"), "/../../crates/schilfauge/out");
    println!("cargo:rerun-if-changed={folder}/libschilfauge.a");
    println!("cargo:rustc-link-search=native={folder}");
    println!("cargo:rustc-link-lib=static=schilfauge");
}
