//! The list of single calls in the repository is the one that its seed gives, and its answers are the published Rust's.

use oracle::layout::Field;
use oracle::listed::{answer, draw};
use std::path::Path;

#[test]
fn the_list_is_made_again() {
    assert!(draw::list(9, 5_000) == file("stdin"), "crates/calls/stdin is not the list of seed 9");
}

#[test]
fn the_answers_are_made_again() {
    let answers = answer::answers(&file("stdin")).expect("a whole list");
    assert!(answers.as_bytes() == file("stdout"), "crates/calls/stdout is not what the published Rust answers");
}

#[test]
fn a_list_that_is_cut_off_is_refused() {
    let list = draw::list(9, 3);
    assert!(answer::answers(&list[..list.len() - 1]).is_err());
}

/// Fresh on banks of ones: the bytes by docs/CALLS.md, the line by document 01's power-on values.
#[test]
fn a_call_and_its_line() {
    let mut call = vec![0; 354];
    call[284..300].copy_from_slice(&[0, 1, 0, 0, 0, 0, 1, 0, 0, 0, 1, 0, 0, 0, 0, 0]);
    call[302..307].copy_from_slice(&[8, 1, 0, 1, 1]);
    (0..8).for_each(|pair| call[322 + 4 * pair + 3] = 1);
    let line = answer::answers(&call).expect("a whole list");
    assert!(line.starts_with("00 00 00 00 00 00 m000=7E m005=FF m006=FF "), "{line}");
    assert!(line.contains(" m039=08 m03A=01 m062=FF "), "{line}");
    assert!(line.ends_with(" m0C1=FF m111=01 m11A=02\n"), "{line}");
    call[288] = 1;
    let refused = answer::answers(&call).expect("a whole list");
    assert!(refused.starts_with("00 01 00 00 00 00 m000=7E "), "{refused}");
    assert!(refused.contains(" m039=01 m062=FF ") && refused.ends_with(" m0C1=FF\n"), "{refused}");
}

/// What a line says of machine and banks keeps the rule of the sum, in every call of the list.
#[test]
fn the_sums_of_the_list() {
    let (list, answers) = (file("stdin"), String::from_utf8(file("stdout")).expect("text"));
    let mut rest = &list[..];
    for line in answers.lines() {
        let call = &rest[..354];
        rest = &rest[354 + if call[300] == 7 { 256 } else { 0 }..];
        assert_eq!(call[222..256], [0; 34]);
        let mut banks = lent(call);
        let (whole, mut machine) = (sum(&banks), call[..284].to_vec());
        for (name, place, byte) in changes(line) {
            match name {
                'm' => machine[place] = byte,
                'l' => banks[place] = byte,
                _ => banks[0x10000 + place] = byte,
            }
        }
        let given = u32::take(&call[280..]);
        let expected = match (&line[..2], &line[3..5]) {
            ("00", "00") => whole,
            ("00", _) => 0,
            (_, "00") => given.wrapping_add(sum(&banks)).wrapping_sub(whole),
            _ => given,
        };
        assert_eq!(u32::take(&machine[280..]), expected, "{line}");
    }
    assert!(rest.is_empty());
}

fn lent(call: &[u8]) -> Vec<u8> {
    let fill = &call[306..306 + usize::from(call[305])];
    let bank: Vec<u8> = fill.iter().copied().cycle().take(0x10000).collect();
    let mut banks = [bank.clone(), bank].concat();
    for pair in call[322..354].chunks_exact(4) {
        banks[u32::from_le_bytes([pair[0], pair[1], pair[2], 0]) as usize] = pair[3];
    }
    banks
}

fn sum(banks: &[u8]) -> u32 {
    banks.iter().map(|byte| u32::from(*byte)).sum()
}

/// The bytes of machine and banks that a line names.
fn changes(line: &str) -> Vec<(char, usize, u8)> {
    let words = line.split(' ').filter(|word| word.starts_with(['m', 'l', 'h']));
    let change = |word: &str| {
        let (place, byte) = word[1..].split_once('=').expect("a place and a byte");
        let hex = |digits| usize::from_str_radix(digits, 16).expect("hex digits");
        (word.as_bytes()[0].into(), hex(place), hex(byte) as u8)
    };
    words.map(change).collect()
}

fn file(name: &str) -> Vec<u8> {
    std::fs::read(Path::new(env!("CARGO_MANIFEST_DIR")).join("../../../crates/calls").join(name))
        .expect("a file of the list")
}
