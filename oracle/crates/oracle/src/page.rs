//! A page of work RAM after a run, as the program page shows it (docs/BENCH.md).

use crate::calls::page_look;
use crate::trace::start;

/// The work RAM place of a word such as `$7E:1234` or `7E1234`.
pub fn place(word: &str) -> Option<u32> {
    let digits = word.strip_prefix('$').unwrap_or(word).replacen(':', "", 1);
    let colon = word.find(':').is_none_or(|at| word.len() - at == 5);
    let formed = colon && digits.len() == 6 && digits.bytes().all(|digit| digit.is_ascii_hexdigit());
    let address = u32::from_str_radix(&digits, 16).ok().filter(|_| formed)?;
    (0x7E_0000..0x80_0000).contains(&address).then(|| address - 0x7E_0000)
}

/// The page that holds a place, after the rows up to the first refused one; nothing for a file that cannot be run.
pub fn page(file: &[u8], place: u32) -> String {
    let Ok((mut bench, rows)) = start(file) else { return String::new() };
    let _ = rows.into_iter().all(|row| bench.row(row, &mut |_| {}).number == 0);
    let start = place & !0xFF;
    let lines = page_look(&bench.banks, u64::from(place) / 256).chunks_exact(16);
    lines.zip((start..).step_by(16)).map(|(bytes, place)| line(place, bytes)).collect()
}

fn line(place: u32, bytes: &[u8]) -> String {
    let hex = |half: &[u8]| half.iter().map(|byte| format!(" {byte:02X}")).collect::<String>();
    let sign = |byte: &u8| if (0x20..0x7F).contains(byte) { char::from(*byte) } else { '.' };
    let signs: String = bytes.iter().map(sign).collect();
    let (bank, addr) = (0x7E + (place >> 16), place & 0xFFFF);
    format!("{bank:02X}:{addr:04X} {} {}  |{signs}|\n", hex(&bytes[..8]), hex(&bytes[8..]))
}
