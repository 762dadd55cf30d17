//! Bench files: file check, section look, and the reading and laying out of a sound file.

use crate::row::{ROW_SIZE, Row};

pub const MOST_FILE: usize = 65_536;
pub const MOST_FILL: usize = 4_096;
pub const CONTENTS: usize = 32;
const SETTINGS: u64 = 0;
const FILL: u64 = 1;
const ROM: u64 = 2;
const SCRIPT: u64 = 3;

/// 0, or 11 if the file or one of its rows breaks its form.
pub fn file_check(file: &[u8]) -> u8 {
    if bodies_have_form(file) && script(file).iter().all(|row| Row::parse(row).is_some()) { 0 } else { 11 }
}

pub fn section_look_number(file: &[u8], section: u64) -> u8 {
    if section > SCRIPT { 11 } else { file_check(file) }
}

pub fn section_look(file: &[u8], section: u64) -> &[u8] {
    if section_look_number(file, section) != 0 { &[] } else { body(file, section) }
}

/// A sound file's sections, read.
#[derive(Clone, Debug, PartialEq, Eq)]
pub struct BenchFile {
    pub bit_cycles: u16,
    pub fill: Vec<u8>,
    pub rom: Vec<u8>,
    pub rows: Vec<Row>,
}

impl BenchFile {
    pub fn parse(file: &[u8]) -> Option<BenchFile> {
        let look = |section| section_look(file, section);
        (file_check(file) == 0).then(|| BenchFile {
            bit_cycles: u16::from_le_bytes([look(SETTINGS)[0], look(SETTINGS)[1]]),
            fill: look(FILL).to_vec(),
            rom: look(ROM).to_vec(),
            rows: script(file).iter().filter_map(Row::parse).collect(),
        })
    }

    pub fn bytes(&self) -> Vec<u8> {
        let script = self.rows.iter().flat_map(Row::bytes).collect::<Vec<u8>>();
        lay_out([&self.bit_cycles.to_le_bytes(), &self.fill, &self.rom, &script])
    }
}

/// Contents and bodies, without a look at what the bodies hold.
pub fn lay_out(bodies: [&[u8]; 4]) -> Vec<u8> {
    let mut start = CONTENTS;
    let mut file = vec![];
    for body in bodies {
        file.extend((start as u32).to_le_bytes());
        file.extend((body.len() as u32).to_le_bytes());
        start += body.len();
    }
    file.extend(bodies.concat());
    file
}

/// Start and length in a row of the contents.
fn contents_row(file: &[u8], section: u64) -> (usize, usize) {
    let four = |at: usize| u32::from_le_bytes(file[at..at + 4].try_into().expect("four bytes")) as usize;
    let at = section as usize * 8;
    (four(at), four(at + 4))
}

fn body(file: &[u8], section: u64) -> &[u8] {
    let (start, length) = contents_row(file, section);
    &file[start..start + length]
}

/// The bodies follow the contents without gap to the end, each with a length of its kind.
fn bodies_have_form(file: &[u8]) -> bool {
    if !(CONTENTS..=MOST_FILE).contains(&file.len()) {
        return false;
    }
    let mut end = CONTENTS;
    for section in SETTINGS..=SCRIPT {
        let (start, length) = contents_row(file, section);
        if start != end || !length_has_form(section, length) {
            return false;
        }
        end = start + length;
    }
    end == file.len()
}

fn length_has_form(section: u64, length: usize) -> bool {
    match section {
        SETTINGS => length == 2,
        FILL => (1..=MOST_FILL).contains(&length),
        SCRIPT => length.is_multiple_of(ROW_SIZE),
        _ => true,
    }
}

fn script(file: &[u8]) -> &[[u8; ROW_SIZE]] {
    body(file, SCRIPT).as_chunks().0
}
