//! The proved library beside plain Rust over the same rules: first every answer compared, then both timed in one run.
//!
//!     speed                    the table of docs/SPEED.md
//!     speed check              the comparison alone
//!     speed file NAME          a bench file, to standard output
//!     speed pass WHO NAME N    N passes over a file, for callgrind

mod check;
mod files;
mod measure;
mod players;
mod random;

use files::File;
use players::{Plain, Player, Proved, pass};
use std::io::Write;
use std::process::ExitCode;

/// The comparison goes over each file this often, the second time from what the first left.
const PASSES: usize = 2;
/// And over this many random calls of every kind.
const RANDOM: u64 = 3_000_000;

fn main() -> ExitCode {
    let words: Vec<String> = std::env::args().skip(1).collect();
    let words: Vec<&str> = words.iter().map(String::as_str).collect();
    let done = match words[..] {
        [] => compare().and_then(|()| measure::table()),
        ["check"] => compare(),
        ["file", name] => {
            find(name).and_then(|file| std::io::stdout().write_all(&file.bytes()).map_err(|error| error.to_string()))
        }
        ["pass", who, name, count] => run(who, name, count),
        _ => Err("usage: speed [check | file NAME | pass WHO NAME N]".into()),
    };
    match done {
        Ok(()) => ExitCode::SUCCESS,
        Err(what) => {
            eprintln!("{what}");
            ExitCode::FAILURE
        }
    }
}

fn find(name: &str) -> Result<File, String> {
    File::all().into_iter().find(|file| file.name == name).ok_or_else(|| format!("no file {name}"))
}

fn compare() -> Result<(), String> {
    println!("fresh: {} calls the same", check::fresh()?);
    for file in File::all() {
        let counts = check::check(&file, PASSES)?;
        println!(
            "{}: {} calls the same, of them {} cycles held, {} accesses",
            file.name, counts.calls, counts.held, counts.accesses
        );
    }
    random::check(RANDOM)?;
    println!("random: {RANDOM} calls the same");
    Ok(())
}

fn run(who: &str, name: &str, count: &str) -> Result<(), String> {
    let file = find(name)?;
    let count: u32 = count.parse().map_err(|_| format!("no count {count}"))?;
    match who {
        "plain" => passes::<Plain>(&file, count),
        "proved" => passes::<Proved>(&file, count),
        _ => return Err(format!("no player {who}")),
    }
    Ok(())
}

fn passes<P: Player>(file: &File, count: u32) {
    let mut player = P::fresh(file);
    for _ in 0..count {
        pass(&mut player, file);
    }
}
