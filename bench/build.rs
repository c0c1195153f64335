//! METSROEB_PAD, 0 unless it is set: by how many bytes main.rs moves the code. METSROEB_EARLIER: the folder of the earlier archive that
//! stands in the peer's place, if it is set. `has` is set to each call of the other side, to "marks" where it takes byte 255 for a mark,
//! to "common" where its comparison gives the number of equal bytes, and to "pairs" where its lists have a count beside each end: an
//! earlier crate may lack some of ours.
use std::env::var;
use std::fs::read_to_string;

fn main() {
    println!("cargo::rerun-if-env-changed=METSROEB_PAD");
    println!("cargo::rustc-env=METSROEB_PAD={}", var("METSROEB_PAD").unwrap_or("0".into()));
    println!("cargo::rerun-if-env-changed=METSROEB_EARLIER");
    println!("cargo::rustc-check-cfg=cfg(earlier)");
    println!("cargo::rustc-check-cfg=cfg(has, values(any()))");
    let mut source = "../rust/src";
    if let Ok(folder) = var("METSROEB_EARLIER") {
        println!("cargo::rerun-if-changed=../{folder}/libearlier.a");
        println!("cargo::rustc-cfg=earlier");
        println!("cargo::rustc-link-search=native={}/../{folder}", var("CARGO_MANIFEST_DIR").unwrap());
        println!("cargo::rustc-link-lib=static=earlier");
        source = "../target/earlier/rust/src";
    }
    println!("cargo::rerun-if-changed={source}");
    let file = |name| read_to_string(format!("{source}/{name}")).unwrap();
    for call in file("calls.rs").lines().filter_map(|line| line.strip_prefix("pub fn ")) {
        println!("cargo::rustc-cfg=has=\"{}\"", call.split(['<', '(']).next().unwrap());
    }
    if file("refusal.rs").contains("MARKED_RECORD") {
        println!("cargo::rustc-cfg=has=\"marks\"");
    }
    for (name, answer) in [("common", "pub struct Comparison "), ("pairs", "pub struct Factor ")] {
        if file("answers.rs").contains(answer) {
            println!("cargo::rustc-cfg=has=\"{name}\"");
        }
    }
}
