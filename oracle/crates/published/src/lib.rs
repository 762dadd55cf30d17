//! Help for build scripts: names the published Rust files as modules, without copying them into this repository.

use std::path::{Path, PathBuf};
use std::{env, fs};

/// One published file and the module it becomes.
pub struct Module {
    pub name: &'static str,
    pub file: &'static str,
    /// Our own lines after the published ones, where a private field has to be reached.
    pub appendix: Option<&'static str>,
}

/// Writes `modules.rs` (to be included by the crate) and `compiled.txt` (read by `same-text`).
pub fn write_modules(modules: &[Module]) {
    let folder = published_folder();
    let out = PathBuf::from(env::var("OUT_DIR").expect("set by cargo"));
    let mut lines = String::new();
    let mut table = String::new();
    for module in modules {
        let published = folder.join(module.file);
        println!("cargo::rerun-if-changed={}", published.display());
        let compiled = compiled_path(module, &published, &out);
        lines += &format!("#[path = {compiled:?}]\npub mod {};\n", module.name);
        table += &format!("{}\t{}\n", published.display(), compiled.display());
    }
    fs::write(out.join("modules.rs"), lines).expect("OUT_DIR is writable");
    fs::write(out.join("compiled.txt"), table).expect("OUT_DIR is writable");
}

/// The published file itself, or a file of OUT_DIR that holds it whole with the appendix after it.
fn compiled_path(module: &Module, published: &Path, out: &Path) -> PathBuf {
    let text = fs::read(published).unwrap_or_else(|error| fail(&format!("{}: {error}", published.display())));
    let Some(appendix) = module.appendix else { return published.to_path_buf() };
    let compiled = out.join(format!("{}.rs", module.name));
    fs::write(&compiled, [&text, appendix.as_bytes()].concat()).expect("OUT_DIR is writable");
    compiled
}

/// The folder in CLOVERWAIN_RUST (taken from the oracle folder if relative), or shared/ beside the repository.
fn published_folder() -> PathBuf {
    println!("cargo::rerun-if-env-changed=CLOVERWAIN_RUST");
    let oracle = Path::new(&env::var("CARGO_MANIFEST_DIR").expect("set by cargo")).join("../..");
    let named = env::var("CLOVERWAIN_RUST").unwrap_or_else(|_| "../../shared/docs/src".into());
    let folder = oracle.join(named);
    folder.canonicalize().unwrap_or_else(|_| {
        fail(&format!("no published Rust text in {} (set CLOVERWAIN_RUST to its folder)", folder.display()))
    })
}

fn fail(message: &str) -> ! {
    println!("cargo::error={message}");
    std::process::exit(1)
}
