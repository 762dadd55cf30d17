//! The oracle's programs. Run without arguments for the list.

use oracle::{coverage, figures, generator, listed, loads, moves, page, selfcheck, sums, trace};
use std::ffi::OsString;
use std::fs;
use std::io::{self, Read, Write};
use std::os::unix::ffi::OsStrExt;
use std::path::Path;
use std::process::ExitCode;

const USAGE: &str = "usage:
  oracle trace [FILE]           print document 01's lines for a bench file (standard input if no FILE)
  oracle moves [PLACE]          print the accesses of the bench file on standard input (docs/MOVES.md)
  oracle page PLACE             show a page of work RAM after the bench file on standard input (docs/BENCH.md)
  oracle sums                   print the sum of work RAM after each row of the bench file on standard input
  oracle figures FILE..         print what each channel moved in bench files, and the cycles held
  oracle selfcheck SEED COUNT   random runs with back steps, COUNT accepted operations in all
  oracle make SEED COUNT DIR    write COUNT bench files and LIST (file name, kind) into DIR
  oracle one SEED INDEX         write one of these files to standard output
  oracle kinds                  list the kinds of bench file
  oracle coverage SEED COUNT    count what COUNT bench files reach; fails if something named is never reached
  oracle loads SEED COUNT       hold COUNT whole transfers against the formula; from 1000 on fails as coverage does
  oracle load SEED INDEX        write the bench file of one of these transfers to standard output
  oracle calls SEED COUNT       write a list of single calls to standard output
  oracle answers                print the answers to the list on standard input
  oracle reached                count what the list on standard input reaches; fails as coverage does";

fn main() -> ExitCode {
    let words: Vec<OsString> = std::env::args_os().skip(1).collect();
    match run(&words) {
        Ok(()) => ExitCode::SUCCESS,
        Err(message) => {
            eprintln!("{message}");
            ExitCode::FAILURE
        }
    }
}

/// The names of files may be any bytes; all other words are text.
fn run(words: &[OsString]) -> Result<(), String> {
    match words {
        [word, names @ ..] if word == "figures" => show_figures(names),
        _ => run_text(&words.iter().map(|word| word.to_str().ok_or(USAGE)).collect::<Result<Vec<&str>, _>>()?),
    }
}

fn run_text(words: &[&str]) -> Result<(), String> {
    match *words {
        ["trace"] => show_trace(&read_input()?),
        ["trace", file] => show_trace(&fs::read(file).map_err(|error| format!("{file}: {error}"))?),
        ["moves"] => show_moves(None),
        ["moves", word] => show_moves(Some(place("moves", word)?)),
        ["page", word] => print(page::page(&read_input()?, place("page", word)?).as_bytes()),
        ["sums"] => show_sums(),
        ["selfcheck", seed, count] => {
            let counts = selfcheck::selfcheck(number(seed)?, number(count)?)?;
            print(format!("seed {seed}: {counts}\n").as_bytes())
        }
        ["make", seed, count, folder] => make(number(seed)?, number(count)?, Path::new(folder)),
        ["one", seed, index] => print(&generator::file(number(seed)?, number(index)?)),
        ["kinds"] => kinds(),
        ["coverage", seed, count] => show_coverage(seed, count),
        ["loads", seed, count] => show_loads(number(seed)?, number(count)?),
        ["load", seed, index] => print(&loads::set_up(number(seed)?, number(index)?).file.bytes()),
        ["calls", seed, count] => print(&listed::draw::list(number(seed)?, number(count)?)),
        ["answers"] => print(listed::answer::answers(&read_input()?)?.as_bytes()),
        ["reached"] => show_reached(),
        _ => Err(USAGE.into()),
    }
}

fn number(word: &str) -> Result<u64, String> {
    word.parse().map_err(|_| format!("'{word}' is not a number from 0 to 2^64 - 1\n{USAGE}"))
}

fn read_input() -> Result<Vec<u8>, String> {
    let mut file = vec![];
    io::stdin().read_to_end(&mut file).map_err(|error| format!("standard input: {error}"))?;
    Ok(file)
}

fn print(bytes: &[u8]) -> Result<(), String> {
    io::stdout().write_all(bytes).map_err(|error| format!("standard output: {error}"))
}

fn show_trace(file: &[u8]) -> Result<(), String> {
    print(trace::trace(file).as_bytes())
}

fn place(program: &str, word: &str) -> Result<u32, String> {
    page::place(word).ok_or_else(|| format!("{program}: `{word}`: expected a place from $7E:0000 to $7F:FFFF"))
}

fn show_moves(only: Option<u32>) -> Result<(), String> {
    print(moves::moves(&read_input()?, only)?.as_bytes())
}

fn show_sums() -> Result<(), String> {
    let (lines, message) = sums::sums(&read_input()?);
    print(lines.as_bytes())?;
    message.map_or(Ok(()), Err)
}

/// A file that cannot be read stands in the way of all lines.
fn show_figures(names: &[OsString]) -> Result<(), String> {
    let (count, message) = figures::counted(names.len());
    let read = |name: &OsString| fs::read(name).map_err(|error| format!("figures: {}: {error}", name.display()));
    let files = names[..count].iter().map(|name| Ok((name.as_bytes(), read(name)?)));
    print(&figures::figures(&files.collect::<Result<Vec<_>, String>>()?))?;
    message.map_or(Ok(()), Err)
}

fn make(seed: u64, count: u64, folder: &Path) -> Result<(), String> {
    let failed = |error: io::Error| format!("{}: {error}", folder.display());
    fs::create_dir_all(folder).map_err(failed)?;
    let mut list = String::new();
    for index in 0..count {
        let name = format!("{index:05}.bench");
        fs::write(folder.join(&name), generator::file(seed, index)).map_err(failed)?;
        let way = generator::broken_way(index).map_or(String::new(), |way| format!(": {way}"));
        list += &format!("{name} {}{way}\n", generator::kind_name(index));
    }
    fs::write(folder.join("LIST"), list).map_err(failed)
}

fn kinds() -> Result<(), String> {
    let lines: String = generator::KINDS.iter().map(|kind| format!("{:<11} {}\n", kind.name, kind.about)).collect();
    let ways: String = generator::broken::WAYS.iter().map(|way| format!("            {}\n", way.0)).collect();
    print(format!("{lines}broken      files that break their form:\n{ways}").as_bytes())
}

fn show_coverage(seed: &str, count: &str) -> Result<(), String> {
    let coverage = coverage::coverage(number(seed)?, number(count)?);
    print(format!("seed {seed}, {count} files, {} calls\n\n{coverage}", coverage.calls).as_bytes())?;
    all_reached(coverage.never())
}

fn show_loads(seed: u64, count: u64) -> Result<(), String> {
    let reached = loads::loads(seed, count)?;
    print(format!("seed {seed}: {reached}\n").as_bytes())?;
    // Fewer set-ups may miss some of the features.
    all_reached(if count < 1000 { 0 } else { reached.never() })
}

fn show_reached() -> Result<(), String> {
    let reached = coverage::listed::reached(&read_input()?)?;
    print(format!("{} calls\n\n{reached}", reached.calls).as_bytes())?;
    all_reached(reached.never())
}

fn all_reached(never: usize) -> Result<(), String> {
    if never == 0 { Ok(()) } else { Err(format!("{never} members were never reached")) }
}
