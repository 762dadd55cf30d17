//! Has the linker turn each call of an exported function NAME into one of `__wrap_NAME`, the way in that src/stack.rs
//! makes for it. The names are those that the crate declares.

use std::path::Path;
use std::{env, fs};

const DECLARED: &str = "../src/raw.rs";

fn main() {
    println!("cargo::rerun-if-changed={DECLARED}");
    let text = fs::read_to_string(DECLARED).expect("the crate is beside this folder");
    let names = text.lines().filter_map(|line| {
        let (name, _) = line.trim().strip_prefix("fn ")?.split_once('(')?;
        name.starts_with("cloverwain_").then_some(name)
    });
    let mut ways = String::new();
    for (index, name) in names.enumerate() {
        println!("cargo::rustc-link-arg-bins=-Wl,--wrap={name}");
        ways += &format!("{index} {name:?},");
    }
    let out = env::var("OUT_DIR").expect("set by cargo");
    fs::write(Path::new(&out).join("ways.rs"), format!("ways! {{{ways}}}"))
        .expect("OUT_DIR is writable");
}
