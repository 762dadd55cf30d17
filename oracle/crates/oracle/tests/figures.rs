//! The figures of a file, each counted by hand, and those of a folder.

use oracle::benchfile::BenchFile;
use oracle::figures::{Count, Figures, Summary, count, counted, figures, names, summary};
use oracle::generator;
use oracle::row::Row;
use oracle::trace::{trace, watched};

const WORKED: &[u8] = include_bytes!("../../../../examples/worked.bench");
const LINE: Row = Row::Cycles { count: 80, event: 1, flags: 1 };
const FRAME: Row = Row::Cycles { count: 80, event: 4, flags: 0 };

fn file(fill: &[u8], rows: &[Row]) -> Vec<u8> {
    BenchFile { bit_cycles: 264, fill: fill.to_vec(), rom: vec![], rows: rows.to_vec() }.bytes()
}

fn quiet(count: u16) -> Row {
    Row::Cycles { count, event: 0, flags: 0 }
}

/// Writes in bank 0.
fn writes(list: &[(u16, u8)]) -> Vec<Row> {
    list.iter().map(|&(addr, byte)| Row::Write { bank: 0, addr, byte }).collect()
}

/// Figures that are all 0 but for some.
fn only(some: &[(&str, u128)]) -> Figures {
    let names = names();
    let mut figures = Figures::default();
    for (name, value) in some {
        figures[names.iter().position(|known| known == name).expect("a figure's name")] = *value;
    }
    figures
}

fn accepted(all: Figures, survivors: Figures) -> Count {
    Count { number: 0, row: 0, all, survivors }
}

/// The rows of the worked example up to the write that starts the transfer.
fn transfer() -> Vec<Row> {
    BenchFile::parse(WORKED).expect("a sound file").rows[..7].to_vec()
}

const TRANSFER: [(&str, u128); 5] =
    [("general 0", 1), ("held idle", 1), ("held startup", 15), ("held dma", 17), ("held all", 33)];

#[test]
fn worked_example() {
    assert_eq!(count(WORKED), accepted(only(&TRANSFER), only(&[])));
    let text = String::from_utf8(figures(&[(b"worked.bench", WORKED.to_vec())])).expect("text");
    let lines: Vec<&str> = text.lines().collect();
    assert_eq!(lines.len(), 1 + 2 * 29);
    assert_eq!(lines[..3], ["file 1 0 0 worked.bench", "general 0 all 1 1 1 1/1", "general 0 survivors 0 0 1 0/1"]);
    assert!(lines[3..49].iter().all(|line| line.ends_with(" 0 0 1 0/1")));
    let held = [("idle", 1), ("startup", 15), ("dma", 17), ("hdma", 0), ("all", 33)];
    for (pair, (state, cycles)) in lines[49..].chunks(2).zip(held) {
        let all = format!("held {state} all {cycles} {cycles} 1 {cycles}/1");
        assert_eq!(pair, [all, format!("held {state} survivors 0 0 1 0/1")]);
    }
}

/// Channel 3, direct: a counter, a byte each on two lines, the counter that ends it, and a line on which it is finished.
#[test]
fn a_direct_table() {
    let channel = [(0x4330, 0), (0x4331, 0x18), (0x4332, 0), (0x4333, 0), (0x4334, 0x7E), (0x420C, 8)];
    let mut rows = writes(&channel);
    rows.extend([FRAME, LINE, LINE, LINE, LINE]);
    // 18 and 1 a pass. The frame's start costs 8, a line with a byte 16, the end 8, and the finished channel 1.
    let held = 5 * 19 + 8 + 2 * 16 + 8 + 1;
    let states = [("held idle", 5), ("held hdma", held - 5), ("held all", held)];
    let expected = only(&[&[("units 3", 2), ("table 3", 2)][..], &states].concat());
    assert_eq!(count(&file(&[0x82, 0x11, 0x22, 0], &rows)), accepted(expected, expected));
}

/// Channel 6, indirect, in mode 4, from B to A: counter and address at the frame's start, and again on the second line with its unit.
#[test]
fn an_indirect_table() {
    let channel = [(0x4360, 0xC4), (0x4361, 0x34), (0x4362, 0), (0x4363, 0), (0x4364, 0x7E), (0x4367, 0x7F)];
    let mut rows = writes(&channel);
    rows.extend(writes(&[(0x420C, 0x40)]));
    rows.extend([FRAME, LINE, LINE]);
    let held = 3 * 19 + 24 + 40 + 56;
    let states = [("held idle", 3), ("held hdma", held - 3), ("held all", held)];
    let expected = only(&[&[("units 6", 2), ("table 6", 6)][..], &states].concat());
    assert_eq!(count(&file(&[1, 0x00, 0x20], &rows)), accepted(expected, expected));
}

/// The CPU's own accesses, to the registers of a channel and to work RAM, count nowhere.
#[test]
fn rows_that_move_nothing() {
    let mut rows = transfer()[..6].to_vec();
    rows.extend([Row::Read { bank: 0x7E, addr: 0 }, quiet(50), Row::Pad { port: 0, word: 0 }, Row::Back { count: 3 }]);
    assert_eq!(count(&file(&[0], &rows)), accepted(only(&[]), only(&[])));
}

/// The byte goes in the 25th cycle, so 15 steps back leave it and 16 strike it. Then it goes again.
#[test]
fn struck_and_made_again() {
    let run = |back| [transfer(), vec![quiet(40), Row::Back { count: back }]].concat();
    let left = [("general 0", 1), ("held startup", 15), ("held dma", 10), ("held all", 25)];
    assert_eq!(count(&file(&[0], &run(15))), accepted(only(&TRANSFER), only(&left)));
    let left = [("held startup", 15), ("held dma", 9), ("held all", 24)];
    assert_eq!(count(&file(&[0], &run(16))), accepted(only(&TRANSFER), only(&left)));
    let again = [("general 0", 2), ("held idle", 2), ("held startup", 15), ("held dma", 25), ("held all", 42)];
    let rows = [run(16), vec![quiet(16)]].concat();
    assert_eq!(count(&file(&[0], &rows)), accepted(only(&again), only(&TRANSFER)));
}

/// More operations than the record has entries: those that were overwritten survive, and no back step reaches them.
#[test]
fn overwritten_entries_survive() {
    let mut rows = [transfer(), vec![quiet(270)]].concat();
    assert_eq!(count(&file(&[0], &rows)), accepted(only(&TRANSFER), only(&TRANSFER)));
    rows.extend([Row::Back { count: 257 }, quiet(40)]);
    let survivors = only(&[("held startup", 14), ("held all", 14)]);
    assert_eq!(count(&file(&[0], &rows)), Count { number: 8, row: 9, all: only(&TRANSFER), survivors });
}

/// A back row that is refused has struck what it could, and no row after it counts.
#[test]
fn a_refused_back_row() {
    let rows = [transfer(), vec![quiet(40), Row::Back { count: 48 }, quiet(40)]].concat();
    assert_eq!(count(&file(&[0], &rows)), Count { number: 8, row: 9, all: only(&TRANSFER), survivors: only(&[]) });
}

#[test]
fn other_refused_rows_and_files() {
    for (row, number) in [(Row::Cycles { count: 9, event: 5, flags: 0 }, 5), (Row::Plug { port: 2, value: 1 }, 6)] {
        let rows = [transfer(), vec![quiet(40), row, quiet(40)]].concat();
        assert_eq!(
            count(&file(&[0], &rows)),
            Count { number, row: 9, all: only(&TRANSFER), survivors: only(&TRANSFER) }
        );
    }
    let bits = BenchFile { bit_cycles: 0, ..BenchFile::parse(WORKED).expect("a sound file") }.bytes();
    for (file, number) in [(&[][..], 11), (&WORKED[..122], 11), (&bits, 10)] {
        assert_eq!(count(file), Count { number, ..Count::default() });
    }
}

/// In files of every kind the four states add up to the cycles held, and these to the trace's column B. The survivors alone, run without
/// any back step, give the second column as their first.
#[test]
fn figures_of_generated_files() {
    let (mut moved, mut struck) = (Figures::default(), 0);
    for index in 0..10 * 19 {
        let bytes = generator::file(14, index);
        let whole = count(&bytes);
        for figures in [whole.all, whole.survivors] {
            assert_eq!(figures[24..28].iter().sum::<u128>(), figures[28]);
        }
        assert_eq!(whole.all[28], held(&trace(&bytes)));
        moved.iter_mut().zip(whole.all).for_each(|(sum, value)| *sum += value);
        if let Some(alone) = survivors_alone(&bytes) {
            assert_eq!(count(&alone), accepted(whole.survivors, whole.survivors), "file {index}");
            struck += u32::from(whole.survivors != whole.all);
        }
    }
    assert!(moved.iter().all(|value| *value > 0), "{moved:?}");
    assert!(struck > 20, "{struck}");
}

/// The sum of B over the rows of cycles.
fn held(lines: &str) -> u128 {
    let rows = lines.lines().map(|line| line.split(' ').map(|word| word.parse().expect("a number")).collect());
    rows.filter(|row: &Vec<u128>| row[1] == 1).map(|row| row[4]).sum()
}

/// A file with the surviving calls of a file as its rows, where it is sound and they are few enough.
fn survivors_alone(bytes: &[u8]) -> Option<Vec<u8>> {
    let mut rows = vec![];
    watched(bytes, &mut |step| match (step.number, step.call) {
        (0, Row::Back { .. }) => drop(rows.pop()),
        (0, call) => rows.push(call),
        _ => {}
    });
    let alone = BenchFile { rows, ..BenchFile::parse(bytes)? }.bytes();
    (BenchFile::parse(&alone).is_some() && !trace(bytes).starts_with("0 ")).then_some(alone)
}

fn of(sum: u128, largest: u128, file: usize, mean: (u128, u128)) -> Summary {
    Summary { sum, largest, file, mean }
}

#[test]
fn a_figure_over_a_folder() {
    assert_eq!(summary(&[]), of(0, 0, 0, (0, 1)));
    assert_eq!(summary(&[0, 0, 0]), of(0, 0, 1, (0, 1)));
    assert_eq!(summary(&[3, 7, 5, 7, 7]), of(29, 7, 2, (29, 5)));
    assert_eq!(summary(&[0, 0, 4]), of(4, 4, 3, (4, 3)));
    assert_eq!(summary(&[65_536, 1]), of(65_537, 65_536, 1, (65_537, 2)));
    assert_eq!(summary(&[1, 5, 6, 0, 0, 0]), of(12, 6, 3, (2, 1)));
    assert_eq!(summary(&[9, 1, 0, 0]), of(10, 9, 1, (5, 2)));
    let most = u128::from(u64::MAX);
    assert_eq!(summary(&[most; 256]), of(256 * most, most, 1, (most, 1)));
}

/// The second and the third file share the largest. Names are given back as they are, whatever their bytes.
#[test]
fn lines_of_a_folder() {
    let twice = [transfer(), vec![quiet(40)], transfer()[5..].to_vec(), vec![quiet(40)]].concat();
    let (refused, twice) = (file(&[0], &[Row::Back { count: 1 }]), file(&[0], &twice));
    let files = [(&b"a b"[..], refused), (b"\xFF", twice.clone()), (b"", twice), (b"0", vec![]), (b"0", vec![])];
    let text = figures(&files);
    let lines: Vec<&[u8]> = text.split(|byte| *byte == b'\n').collect();
    assert_eq!(lines[..3], [&b"file 1 8 1 a b"[..], b"file 2 0 0 \xFF", b"file 3 0 0 "]);
    assert_eq!(lines[3..5], [b"file 4 11 0 0", b"file 5 11 0 0"]);
    assert_eq!(lines[5..7], [&b"general 0 all 4 2 2 4/5"[..], b"general 0 survivors 4 2 2 4/5"]);
    let held = [&b"held all all 132 66 2 132/5"[..], b"held all survivors 132 66 2 132/5", b""];
    assert_eq!(lines[5 + 56..], held);
}

#[test]
fn lines_of_no_files() {
    let columns =
        names().into_iter().flat_map(|name| ["all", "survivors"].map(|column| format!("{name} {column} 0 0 0 0/1\n")));
    assert_eq!(String::from_utf8(figures(&[])), Ok(columns.collect()));
}

#[test]
fn at_most_256_files() {
    for (files, most) in [(0, 0), (1, 1), (256, 256)] {
        assert_eq!(counted(files), (most, None));
    }
    for files in [257, 258, 1_000] {
        assert_eq!(counted(files), (256, Some("figures: file 257: refusal 14: more than 256 files".into())));
    }
}
