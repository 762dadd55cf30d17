//! Every way in which a bench file can be broken, each with a name.

use super::script::Script;
use crate::benchfile::{BenchFile, MOST_FILE, MOST_FILL, lay_out};
use crate::random::Random;
use crate::row::{ROW_SIZE, Row};

type Break = fn(&BenchFile, &mut Random) -> Vec<u8>;

pub const WAYS: [(&str, Break); 41] = [
    ("empty", |_, _| vec![]),
    ("contents cut short", |file, random| cut(file, random.between(1, 31))),
    ("contents only", |file, _| cut(file, 32)),
    ("body cut short", |file, random| cut(file, file.bytes().len() as u64 - random.between(1, 4))),
    ("byte after the end", |file, random| [file.bytes(), random.bytes(1)].concat()),
    ("over 65,536 bytes", |file, random| too_long(file, random)),
    ("sound, then over 65,536", |file, random| sound_then_more(file, random)),
    ("settings start early", |file, _| moved(file, 0, -1)),
    ("settings start late", |file, _| moved(file, 0, 1)),
    ("fill starts early", |file, _| moved(file, 1, -1)),
    ("fill starts late", |file, _| moved(file, 1, 1)),
    ("ROM starts early", |file, _| moved(file, 2, -1)),
    ("ROM starts late", |file, _| moved(file, 2, 1)),
    ("script starts early", |file, _| moved(file, 3, -1)),
    ("script starts late", |file, _| moved(file, 3, 1)),
    ("gap between bodies", |file, random| gap(file, random)),
    ("empty ROM starts elsewhere", |file, _| moved(&BenchFile { rom: vec![], ..file.clone() }, 2, 7)),
    ("bodies out of order", |file, _| swapped(file)),
    ("length near 2^32", |file, random| length(file, random.pick(&[2, 3]), u32::MAX - 7)),
    ("length past the end", |file, random| length(file, random.pick(&[1, 2, 3]), 0x4000)),
    ("settings of 0 bytes", |file, _| bodies(file, Some(&[]), None, None)),
    ("settings of 1 byte", |file, _| bodies(file, Some(&[1]), None, None)),
    ("settings of 3 bytes", |file, _| bodies(file, Some(&[1, 0, 0]), None, None)),
    ("empty fill", |file, _| bodies(file, None, Some(&[]), None)),
    ("fill of 4,097 bytes", |file, random| bodies(file, None, Some(&random.bytes(MOST_FILL + 1)), None)),
    ("script not of whole rows", |file, random| ragged(file, random)),
    ("row kind 0", |file, random| with_row(file, random, [0; ROW_SIZE])),
    ("row kind over 7", |file, random| kind_over(file, random)),
    ("cycles count 0", |file, random| with_row(file, random, [1, 0, 0, 0, 0, 0, 0, 0])),
    ("cycles flags over 3", |file, random| flags_over(file, random)),
    ("cycles bytes not zero", |file, random| extra(file, random, [1, 1, 0, 0, 0, 0, 0, 0], 5)),
    ("read bytes not zero", |file, random| extra(file, random, [2, 0, 0, 0x21, 0, 0, 0, 0], 4)),
    ("write bytes not zero", |file, random| extra(file, random, [3, 0, 0, 0x21, 0, 0, 0, 0], 5)),
    ("pad bytes not zero", |file, random| extra(file, random, [4, 0, 0, 0, 0, 0, 0, 0], 4)),
    ("plug value over 1", |file, random| plug_over(file, random)),
    ("plug bytes not zero", |file, random| extra(file, random, [5, 0, 1, 0, 0, 0, 0, 0], 3)),
    ("answer first byte not 0", |file, random| answer_first(file, random)),
    ("answer bytes not zero", |file, random| extra(file, random, [6, 0, 0x34, 0x21, 9, 0, 0, 0], 5)),
    ("back count 0", |file, random| with_row(file, random, [7, 0, 0, 0, 0, 0, 0, 0])),
    ("back bytes not zero", |file, random| extra(file, random, [7, 1, 0, 0, 0, 0, 0, 0], 3)),
    ("bad row and bad bit cycles", |file, random| {
        with_row(&BenchFile { bit_cycles: 0, ..file.clone() }, random, [0; ROW_SIZE])
    }),
];

/// A broken file; `turn` chooses the way.
pub fn file(random: &mut Random, turn: u64) -> Vec<u8> {
    let mut script = Script::new(Random::new(random.word(), turn));
    super::registers::signals(&mut script);
    let mut file = script.finish();
    file.rom.push(random.byte());
    (WAYS[way(turn)].1)(&file, random)
}

pub fn way(turn: u64) -> usize {
    (turn % WAYS.len() as u64) as usize
}

fn cut(file: &BenchFile, length: u64) -> Vec<u8> {
    file.bytes()[..length as usize].to_vec()
}

/// Well laid out but for the whole length.
fn too_long(file: &BenchFile, random: &mut Random) -> Vec<u8> {
    let long = BenchFile { rom: vec![], ..file.clone() };
    let rest = long.bytes().len();
    BenchFile { rom: random.bytes(MOST_FILE - rest + 1), ..long }.bytes()
}

/// The first 65,536 bytes alone would be sound.
fn sound_then_more(file: &BenchFile, random: &mut Random) -> Vec<u8> {
    let rest = BenchFile { rom: vec![], ..file.clone() };
    let rom = random.bytes(MOST_FILE - rest.bytes().len());
    [BenchFile { rom, ..rest }.bytes(), random.bytes(1)].concat()
}

/// A contents row whose start is off by some bytes, all else as it was.
fn moved(file: &BenchFile, section: usize, by: i32) -> Vec<u8> {
    let mut bytes = file.bytes();
    let at = section * 8;
    let start = u32::from_le_bytes(bytes[at..at + 4].try_into().expect("four bytes"));
    bytes[at..at + 4].copy_from_slice(&start.wrapping_add_signed(by).to_le_bytes());
    bytes
}

fn length(file: &BenchFile, section: usize, length: u32) -> Vec<u8> {
    let mut bytes = file.bytes();
    bytes[section * 8 + 4..section * 8 + 8].copy_from_slice(&length.to_le_bytes());
    bytes
}

/// A byte that belongs to no section, before the script.
fn gap(file: &BenchFile, random: &mut Random) -> Vec<u8> {
    let mut bytes = moved(file, 3, 1);
    let script = bytes.len() - file.rows.len() * ROW_SIZE;
    bytes.insert(script, random.byte());
    bytes
}

/// Fill and ROM change places in the contents.
fn swapped(file: &BenchFile) -> Vec<u8> {
    let mut bytes = file.bytes();
    let (fill, rom) = bytes[8..24].split_at_mut(8);
    fill.swap_with_slice(rom);
    bytes
}

/// The file's bodies, with those given in their place.
fn bodies(file: &BenchFile, settings: Option<&[u8]>, fill: Option<&[u8]>, script: Option<&[u8]>) -> Vec<u8> {
    let rows: Vec<u8> = file.rows.iter().flat_map(Row::bytes).collect();
    let own = file.bit_cycles.to_le_bytes();
    lay_out([settings.unwrap_or(&own), fill.unwrap_or(&file.fill), &file.rom, script.unwrap_or(&rows)])
}

fn ragged(file: &BenchFile, random: &mut Random) -> Vec<u8> {
    let mut rows: Vec<u8> = file.rows.iter().flat_map(Row::bytes).collect();
    rows.truncate(rows.len() - random.between(1, 7) as usize);
    bodies(file, None, None, Some(&rows))
}

/// One bad row at a random place among good ones.
fn with_row(file: &BenchFile, random: &mut Random, row: [u8; ROW_SIZE]) -> Vec<u8> {
    let mut rows: Vec<[u8; ROW_SIZE]> = file.rows.iter().map(Row::bytes).collect();
    rows.insert(random.between(0, rows.len() as u64) as usize, row);
    bodies(file, None, None, Some(rows.as_flattened()))
}

/// A good row but for one byte, from `first` on, that must be zero.
fn extra(file: &BenchFile, random: &mut Random, mut row: [u8; ROW_SIZE], first: u64) -> Vec<u8> {
    row[random.between(first, 7) as usize] = random.between(1, 255) as u8;
    with_row(file, random, row)
}

fn kind_over(file: &BenchFile, random: &mut Random) -> Vec<u8> {
    let kind = random.between(8, 255) as u8;
    with_row(file, random, [kind, 1, 0, 0, 0, 0, 0, 0])
}

fn flags_over(file: &BenchFile, random: &mut Random) -> Vec<u8> {
    let flags = random.between(4, 255) as u8;
    with_row(file, random, [1, 1, 0, 0, flags, 0, 0, 0])
}

fn plug_over(file: &BenchFile, random: &mut Random) -> Vec<u8> {
    let value = random.between(2, 255) as u8;
    with_row(file, random, [5, 0, value, 0, 0, 0, 0, 0])
}

fn answer_first(file: &BenchFile, random: &mut Random) -> Vec<u8> {
    let first = random.between(1, 255) as u8;
    with_row(file, random, [6, first, 0x34, 0x21, 0, 0, 0, 0])
}
