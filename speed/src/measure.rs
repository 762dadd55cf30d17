//! Times by turns and instructions by callgrind, as a table.

use crate::files::File;
use crate::players::{Plain, Player, Proved, pass};
use std::process::Command;
use std::time::{Duration, Instant};

/// Master cycles in a second of the console.
const REAL: f64 = 21_477_300.0;
const ROUNDS: usize = 60;

pub fn table() -> Result<(), String> {
    println!("| file | cycles a pass | cycles a second | of real time | time | instructions a cycle | instructions |");
    println!("|---|---|---|---|---|---|---|");
    for file in File::all() {
        let (plain, proved) = by_turns(&file);
        row(&file, [plain, proved], ["plain", "proved"].map(|who| instructions(&file, who)));
    }
    Ok(())
}

/// Each cell has plain Rust first and the library second, or the library's figure over plain Rust's.
fn row(file: &File, times: [Duration; 2], counts: [Option<u64>; 2]) {
    let cycles = file.cycles() as f64;
    let [plain, proved] = times.map(|time| cycles / time.as_secs_f64());
    let counted = match counts {
        [Some(few), Some(many)] => {
            format!("{:.0}, {:.0} | {:.2}", few as f64 / cycles, many as f64 / cycles, many as f64 / few as f64)
        }
        _ => "- | -".into(),
    };
    println!(
        "| {} | {} | {:.1}, {:.1} million | {:.2}, {:.2} | {:.2} | {counted} |",
        file.about,
        file.cycles(),
        plain / 1e6,
        proved / 1e6,
        plain / REAL,
        proved / REAL,
        plain / proved,
    );
}

/// The least time of a pass for each, taken by turns so that what else the machine does meets both.
fn by_turns(file: &File) -> (Duration, Duration) {
    let (mut plain, mut proved) = (Plain::fresh(file), Proved::fresh(file));
    let mut least = (Duration::MAX, Duration::MAX);
    for _ in 0..ROUNDS {
        least.0 = least.0.min(timed(&mut plain, file));
        least.1 = least.1.min(timed(&mut proved, file));
    }
    least
}

fn timed<P: Player>(player: &mut P, file: &File) -> Duration {
    let start = Instant::now();
    pass(player, file);
    start.elapsed()
}

/// Instructions of one pass, by callgrind: a run of one pass less a run of none. Nothing where valgrind is not at hand.
fn instructions(file: &File, who: &str) -> Option<u64> {
    Some(collected(file, who, "1")? - collected(file, who, "0")?)
}

fn collected(file: &File, who: &str, passes: &str) -> Option<u64> {
    let speed = std::env::current_exe().ok()?;
    let said = Command::new("valgrind")
        .args(["--tool=callgrind", "--callgrind-out-file=/dev/null"])
        .arg(speed)
        .args(["pass", who, file.name, passes])
        .output()
        .ok()?;
    let said = String::from_utf8(said.stderr).ok()?;
    let line = said.lines().find(|line| line.contains("Collected"))?;
    line.rsplit(' ').next()?.parse().ok()
}
