//! The published Rust and the library in one process: random calls in every order, valid and not; after each the
//! number, the machine, the record and what was answered are compared, and the work RAM bytes that it wrote; whole
//! banks and their sum every 256 calls. ROMs that repeat and ROMs that do not are drawn, and sums that are false; slots
//! hold random bytes before entries are written there. Stops at the first difference.
//!
//!     compare SEED COUNT [--stack FILE]
//!
//! FILE has lines NAME BYTES: each call of that function is made on a stack of so many bytes.

mod counts;
mod draw;
mod pair;
mod roms;
mod stack;

use counts::Counts;
use oracle::random::Random;
use pair::Pair;
use roms::Roms;
use stack::Stacks;
use std::process::ExitCode;

fn main() -> ExitCode {
    match asked().and_then(|(seed, count, stacks)| run(seed, count, stacks)) {
        Ok(()) => ExitCode::SUCCESS,
        Err(what) => {
            eprintln!("{what}");
            ExitCode::FAILURE
        }
    }
}

fn asked() -> Result<(u64, u64, Option<Stacks>), String> {
    let words: Vec<String> = std::env::args().skip(1).collect();
    let (numbers, file) = match &words[..] {
        [numbers @ .., option, file] if option == "--stack" => (numbers, Some(file)),
        numbers => (numbers, None),
    };
    let numbers = numbers
        .iter()
        .map(|word| word.parse().ok())
        .collect::<Option<Vec<u64>>>();
    let Some(&[seed, count]) = numbers.as_deref() else {
        return Err("usage: compare SEED COUNT [--stack FILE]".into());
    };
    let stacks = file.map(|file| Stacks::read(file)).transpose()?;
    Ok((seed, count, stacks))
}

fn run(seed: u64, count: u64, stacks: Option<Stacks>) -> Result<(), String> {
    let mut counts = Counts::default();
    let done = compare(seed, count, &mut counts);
    let total = counts.total();
    done.map_err(|difference| format!("after {total} calls, {difference}"))?;
    print!("seed {seed}: {total} calls, no difference\n{counts}");
    stacks.map_or(Ok(()), |stacks| {
        print!("{stacks}");
        stacks.kept()
    })
}

/// A word on how far it is comes after each of these.
const MILLION: u64 = 1_000_000;

fn compare(seed: u64, count: u64, counts: &mut Counts) -> Result<(), String> {
    // Runs count from 0, so this stream is no run's.
    let roms = Roms::new(&mut Random::new(seed, u64::MAX));
    let mut done = 0;
    for run in 0.. {
        if done >= count {
            break;
        }
        one_run(seed, run, &roms, counts)
            .map_err(|what| format!("seed {seed}, run {run}, {what}"))?;
        let now = counts.total();
        if now / MILLION > done / MILLION {
            eprintln!(
                "seed {seed}: {} runs, {now} calls without a difference so far",
                run + 1
            );
        }
        done = now;
    }
    Ok(())
}

fn one_run(seed: u64, run: u64, roms: &Roms, counts: &mut Counts) -> Result<(), String> {
    let mut random = Random::new(seed, run);
    // Runs count up and these streams down from the one of the ROMs, so no two are the same.
    let fill = Random::new(seed, u64::MAX - 1 - run);
    let rows = draw::rows(&mut random, seed, run, roms, counts)?;
    let mut pair = Pair::fresh(&mut random, fill, &rows, roms, counts)?;
    for (index, row) in rows.calls.iter().enumerate() {
        let at = |what: String| format!("at row {index}, {what}");
        pair.call(*row, counts).map_err(at)?;
        pair.disturb(&mut random, counts).map_err(at)?;
    }
    pair.whole_banks()
        .map_err(|what| format!("at its end: {what}"))
}
