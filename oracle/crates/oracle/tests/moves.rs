//! The lines of the program moves, each written down by hand from docs/MOVES.md.

use oracle::benchfile::BenchFile;
use oracle::moves::moves;
use oracle::page::{page, place};
use oracle::row::Row;

fn file(fill: &[u8], rows: &[Row]) -> Vec<u8> {
    BenchFile { bit_cycles: 264, fill: fill.to_vec(), rom: vec![], rows: rows.to_vec() }.bytes()
}

fn write(addr: u16, byte: u8) -> Row {
    Row::Write { bank: 0, addr, byte }
}

fn cycles(count: u16) -> Row {
    Row::Cycles { count, event: 0, flags: 0 }
}

/// From $2180 at $7E:0001 into the transfer's own byte count, which is 0.
fn own_count() -> Vec<Row> {
    let channel =
        [(0x4300, 0x80), (0x4301, 0x80), (0x4302, 0x05), (0x4303, 0x43), (0x4304, 0), (0x4305, 0), (0x4306, 0)];
    let start = [(0x2181, 1), (0x2182, 0), (0x2183, 0), (0x420B, 1)];
    let mut rows: Vec<Row> = channel.iter().chain(&start).map(|&(addr, byte)| write(addr, byte)).collect();
    rows.push(cycles(33));
    rows
}

#[test]
fn marks_and_places() {
    let lines = moves(&file(&[0, 1], &own_count()), None).expect("runs");
    let last: Vec<&str> = lines.lines().skip(11).collect();
    assert_eq!(
        last,
        [
            "   12         24  DMA 0   read  $00:2180 = $01  at $7E:0001  ! byte count 0: 65536 bytes",
            "   12         24  DMA 0   write $00:4305 = $01  ! rewrites its own channel",
            "   12         33  CPU     held 33 of 33 cycles",
        ]
    );
}

#[test]
fn a_mirror_a_bank_and_a_port() {
    let mirror = Row::Write { bank: 0xBF, addr: 0x1FFF, byte: 7 };
    let rows = [mirror, Row::Read { bank: 0x7F, addr: 0x1FFF }, write(0x2183, 1), write(0x2180, 9), write(0x2000, 1)];
    let lines = "    1          0  CPU     write $BF:1FFF = $07  at $7E:1FFF
    2          0  CPU     read  $7F:1FFF = $5A  at $7F:1FFF
    3          0  CPU     write $00:2183 = $01
    4          0  CPU     write $00:2180 = $09  at $7F:0000
    5          0  CPU     write $00:2000 = $01
";
    assert_eq!(moves(&file(&[0x5A], &rows), None).expect("runs"), lines);
}

#[test]
fn an_hdma_line_and_an_edge() {
    let table = [(0x10, 0x81), (0x11, 0x99), (0x12, 0)];
    let channel =
        [(0x4330, 0), (0x4331, 0x80), (0x4332, 0x10), (0x4333, 0), (0x4334, 0x7E), (0x420C, 8), (0x4200, 0x80)];
    let mut rows: Vec<Row> = table.iter().chain(&channel).map(|&(addr, byte)| write(addr, byte)).collect();
    rows.extend([
        Row::Cycles { count: 40, event: 4, flags: 0 },
        Row::Cycles { count: 40, event: 1, flags: 1 },
        Row::Cycles { count: 1, event: 3, flags: 0 },
    ]);
    let lines = moves(&file(&[0], &rows), None).expect("runs");
    let last: Vec<&str> = lines.lines().skip(10).collect();
    assert_eq!(
        last,
        [
            "   11         18  HDMA 3  read  $7E:0010 = $81  at $7E:0010",
            "   11         40  CPU     held 27 of 40 cycles",
            "   12         58  HDMA 3  read  $7E:0011 = $99  at $7E:0011",
            "   12         58  HDMA 3  write $00:2180 = $99  at $7E:0000",
            "   12         80  CPU     held 35 of 40 cycles",
            "   13         80  NMI     edge",
            "   13         81  CPU     held 0 of 1 cycles",
        ]
    );
}

#[test]
fn the_way_back() {
    let mut rows = own_count();
    rows.extend([
        Row::Back { count: 3 },
        cycles(2),
        Row::Back { count: 32 },
        Row::Back { count: 2 },
        Row::Back { count: 50 },
    ]);
    let file = file(&[0, 1], &rows);
    let lines = "   12         24  DMA 0   read  $00:2180 = $01  at $7E:0001  ! byte count 0: 65536 bytes
   13         30  back    3 of 3 steps, to after cycle 30 of row 12
   15          0  back    32 of 32 steps, to before row 12
   16          0  back    2 of 2 steps, to before row 10
   17          0  back    9 of 50 steps, to before row 1
   17          0  refusal 8: back with no operation kept
";
    assert_eq!(moves(&file, place("$7E:0001")).expect("runs"), lines);
    let nowhere = lines.split_once('\n').expect("lines").1;
    assert_eq!(moves(&file, place("7e0002")).expect("runs"), nowhere);
}

#[test]
fn refused_rows_and_files() {
    let refused = |row| moves(&file(&[0], &[row, cycles(1)]), None).expect("runs");
    assert_eq!(refused(Row::Cycles { count: 2, event: 5, flags: 0 }), "    1          0  refusal 5: event over 4\n");
    let words = "    1          0  refusal 6: port over 1, or answer outside $2134-$213F and $2140-$2143\n";
    assert_eq!(refused(Row::Pad { port: 2, word: 0 }), words);
    assert_eq!(refused(Row::Answer { addr: 0x2144, byte: 0 }), words);
    assert_eq!(moves(&[], None), Err("moves: standard input: refusal 11: no bench file".into()));
    let bits = BenchFile { bit_cycles: 0, fill: vec![0], rom: vec![], rows: vec![] };
    assert_eq!(
        moves(&bits.bytes(), None),
        Err("moves: standard input: refusal 10: bit cycles outside 1 to 4096".into())
    );
}

#[test]
fn places() {
    for word in ["$7E:1234", "7E:1234", "$7E1234", "7e1234"] {
        assert_eq!(place(word), Some(0x1234), "{word}");
    }
    assert_eq!(place("$7F:FFFF"), Some(0x1FFFF));
    for word in ["", "$", "$7D:FFFF", "$80:0000", "$7E:123", "$7E12:34", "$7E::1234", "$$7E1234", "7E 1234", "+7E123"] {
        assert_eq!(place(word), None, "{word}");
    }
}

#[test]
fn a_page_after_a_refused_row() {
    let bytes = [b'H', b'i', 0x7F, 0x1F];
    let mut rows: Vec<Row> = (0x10..).zip(bytes).map(|(addr, byte)| write(addr, byte)).collect();
    rows.extend([Row::Back { count: 9 }, write(0x10, 1)]);
    rows.splice(1..1, [Row::Plug { port: 2, value: 1 }]);
    let text = page(&file(&[0x20], &rows), 0x00FF);
    assert_eq!(text.len(), 16 * 78);
    let second = "7E:0010  48 20 20 20 20 20 20 20  20 20 20 20 20 20 20 20  |H               |";
    assert_eq!(text.lines().nth(1), Some(second));
}
