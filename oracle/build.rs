//! Names the files of dame-rs that the program takes, from the checkout that DAME_RS names.
use std::env;
use std::fmt::Write;
use std::fs;
use std::path::Path;

const MODULES: [&str; 11] =
    ["bitboard", "eval", "game", "movegen", "moves", "notation", "perft", "piece", "position", "square", "zobrist"];

fn main() {
    println!("cargo:rerun-if-env-changed=DAME_RS");
    let checkout = env::var("DAME_RS").expect("DAME_RS must be the path of a checkout of dame-rs");
    let source = fs::canonicalize(Path::new(&checkout).join("crates/dame/src")).expect("DAME_RS/crates/dame/src");
    let mut text = String::new();
    for module in MODULES {
        let file = source.join(format!("{module}.rs"));
        println!("cargo:rerun-if-changed={}", file.display());
        writeln!(text, "#[path = {file:?}]\npub mod {module};").unwrap();
    }
    fs::write(Path::new(&env::var("OUT_DIR").unwrap()).join("modules.rs"), text).unwrap();
}
