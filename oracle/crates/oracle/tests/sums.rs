//! The sum of work RAM, and the lines of the program sums.

mod help;

use help::{bench, call, filled, write};
use oracle::any_image::any_image;
use oracle::bench::Bench;
use oracle::benchfile::BenchFile;
use oracle::generator::{self, KINDS};
use oracle::image::Machine;
use oracle::lent::Banks;
use oracle::random::Random;
use oracle::row::Row;
use oracle::sums::sums;
use oracle::trace::trace;

const BACK: Row = Row::Back { count: 1 };

fn quiet(count: u16) -> Row {
    Row::Cycles { count, event: 0, flags: 0 }
}

#[test]
fn fresh_adds_up_both_banks() {
    for (fill, sum) in [(&[0][..], 0), (&[0xFF], 33_423_360), (&[1, 2, 3], 2 * (21_845 * 6 + 1))] {
        assert_eq!((filled(fill).machine.sum, Banks::filled(fill).sum()), (sum, sum));
    }
    let mut banks = Banks::filled(&[0]);
    for place in [0, 0xFFFF, 0x10000, 0x1FFFF] {
        banks.bytes_mut()[place] = 0x80;
    }
    assert_eq!(banks.sum(), 0x200);
}

/// A write row by each way into work RAM, and back over all of them.
#[test]
fn every_way_to_write() {
    let mut bench = filled(&[0x10]);
    let start = bench.machine.sum;
    let rows = [(0x7E, 0x1234, 0x11), (0x7F, 0xFFFF, 0x0E), (0x80, 0x1FFF, 0xFF), (0, 0x2180, 0x20), (0, 0x2000, 0xFF)];
    for ((bank, addr, byte), sum) in rows.into_iter().zip([1, -1, 238, 254, 254]) {
        call(&mut bench, Row::Write { bank, addr, byte });
        assert_eq!(bench.machine.sum, start.wrapping_add_signed(sum));
        assert_eq!(bench.machine.sum, bench.banks.sum());
    }
    for sum in [254, 238, -1, 1] {
        assert_eq!(call(&mut bench, BACK).number, 0);
        assert_eq!(bench.machine.sum, start.wrapping_add_signed(sum));
    }
}

/// Document 01's unit in mode 5: bytes 1, $34, 2, $34 to $2180 and $2181, with WMADD at $7E:1234.
fn a_place_twice(over: u32) -> Bench {
    let mut bench = filled(&[0]);
    let bytes = [(0x00, 1), (0x01, 1), (0x02, 0x34), (0x03, 2), (0x04, 0x34), (0x1234, 0x5A)];
    let channel = [(0x4300, 5), (0x4301, 0x80), (0x4302, 0), (0x4303, 0), (0x4304, 0x7E), (0x420C, 1)];
    let aim = [(0x2181, 0x34), (0x2182, 0x12), (0x2183, 0)];
    bytes.iter().chain(&channel).chain(&aim).for_each(|(addr, byte)| write(&mut bench, *addr, *byte));
    assert_eq!((bench.machine.sum, bench.banks.bytes()[0x1234]), (1 + 1 + 0x34 + 2 + 0x34 + 0x5A, 0x5A));
    bench.machine.sum = bench.machine.sum.wrapping_add(over);
    bench.row(Row::Cycles { count: 60, event: 4, flags: 0 }, &mut |_| {});
    bench.row(Row::Cycles { count: 18, event: 1, flags: 1 }, &mut |_| {});
    bench
}

#[test]
fn a_place_written_twice_in_a_cycle() {
    // With the last two the sum is 0 before the unit, and at its greatest after it.
    for over in [0, 1, u32::MAX, 198_u32.wrapping_neg(), 111_u32.wrapping_neg()] {
        let mut bench = a_place_twice(over);
        let (before, banks) = (bench.machine, bench.banks.bytes().to_vec());
        assert_eq!(before.sum, 198_u32.wrapping_add(over));
        call(&mut bench, quiet(1));
        assert_eq!((bench.machine.image.wmadd_addr, bench.banks.bytes()[0x1234]), (0x1234, 2));
        let entry = &bench.record[before.next_slot as usize * 256..][..256];
        assert_eq!(entry[222..231], [2, 0x34, 0x12, 0, 0x5A, 0x34, 0x12, 0, 1]);
        assert_eq!(bench.machine.sum, before.sum.wrapping_add(2).wrapping_sub(0x5A));
        assert_eq!(bench.machine.sum, bench.banks.sum().wrapping_add(over));
        assert_eq!(call(&mut bench, BACK).number, 0);
        assert_eq!((bench.machine.sum, bench.banks.bytes().to_vec()), (before.sum, banks));
    }
}

/// Files of every kind, each row held against the sum over the banks.
#[test]
fn kept_in_runs() {
    let mut changed = 0;
    for index in 0..3 * KINDS.len() as u64 {
        let file = generator::sound(&KINDS[index as usize % KINDS.len()], Random::new(11, index));
        let bits = file.bit_cycles.clamp(1, 4096);
        let mut bench = Bench::fresh(2_048, bits, &file.fill, file.rom.into()).expect("accepted");
        for row in file.rows {
            let before = bench.machine.sum;
            bench.row(row, &mut |_| {});
            assert_eq!(bench.machine.sum, bench.banks.sum());
            changed += u32::from(bench.machine.sum != before);
        }
    }
    assert!(changed > 200, "{changed}");
}

/// Any machines with true and false sums: every call, refused ones too, and back steps.
#[test]
fn a_false_sum_stays_false() {
    let mut random = Random::new(12, 12);
    let mut bench = bench();
    let mut numbers = [0; 12];
    for turn in 0..4_000 {
        if turn % 20 == 0 {
            bench.machine.image = any_image(&mut random);
        }
        let over = [0, 1, u32::MAX, random.word() as u32, bench.banks.sum().wrapping_neg()][turn % 5];
        bench.machine.sum = bench.banks.sum().wrapping_add(over);
        let row = any_call(&mut random);
        let before = bench.machine;
        let number = call(&mut bench, row).number;
        numbers[usize::from(number)] += 1;
        assert_eq!(bench.machine.sum, bench.banks.sum().wrapping_add(over), "{row:?}");
        if number != 0 {
            assert_eq!(bench.machine, before);
        } else if row != BACK && random.once_in(2) {
            assert_eq!(call(&mut bench, BACK).number, 0);
            assert_eq!(bench.machine, Machine { kept: bench.machine.kept, ..before });
        }
    }
    assert!([0, 5, 6, 8].iter().all(|number| numbers[*number] > 0), "{numbers:?}");
}

fn any_call(random: &mut Random) -> Row {
    let (bank, addr, byte) = (random.byte(), random.two(), random.byte());
    match random.between(0, 11) {
        0 => Row::Read { bank, addr },
        1 => Row::Write { bank, addr, byte },
        2 => Row::Write { bank: 0x7E + bank % 2, addr, byte },
        3 => Row::Write { bank: bank & 0xBF, addr: 0x2000 + addr % 0x4000, byte },
        4 => Row::Pad { port: bank % 3, word: addr },
        5 => Row::Plug { port: bank % 3, value: byte % 2 },
        6 => Row::Answer { addr: 0x2130 + addr % 0x18, byte },
        7 => BACK,
        _ => Row::Cycles { count: 1, event: bank % 6, flags: byte % 4 },
    }
}

fn file(rows: &[Row]) -> Vec<u8> {
    BenchFile { bit_cycles: 264, fill: vec![1], rom: vec![], rows: rows.to_vec() }.bytes()
}

#[test]
fn lines_of_a_run() {
    let written = Row::Write { bank: 0x7F, addr: 0, byte: 5 };
    let rows = [written, quiet(3), Row::Write { bank: 0, addr: 7, byte: 0 }, Row::Back { count: 4 }, BACK, quiet(1)];
    let lines = "1 131076\n2 131076\n3 131075\n4 131076\n5 131072\n6 131072\n";
    assert_eq!(sums(&file(&rows)), (lines.into(), None));
    assert_eq!(sums(&file(&[])), (String::new(), None));
}

/// The refused row has a line of its own, with what its calls before the refused one left.
#[test]
fn lines_up_to_a_refused_row() {
    let written = Row::Write { bank: 0x7F, addr: 0, byte: 5 };
    let refused = |row| sums(&file(&[written, row, written]));
    let lines = |sum| format!("1 131076\n2 {sum}\n");
    let words = "sums: row 2: refusal 6: port over 1, or answer outside $2134-$213F and $2140-$2143";
    assert_eq!(refused(Row::Pad { port: 2, word: 0 }), (lines(131_076), Some(words.into())));
    let words = "sums: row 2: refusal 8: back with no operation kept";
    assert_eq!(refused(Row::Back { count: 2 }), (lines(131_072), Some(words.into())));
    let words = "sums: row 2: refusal 5: event over 4";
    assert_eq!(refused(Row::Cycles { count: 2, event: 5, flags: 0 }), (lines(131_076), Some(words.into())));
}

#[test]
fn no_lines_of_a_refused_file() {
    let message = |words: &str| (String::new(), Some(format!("sums: standard input: {words}")));
    assert_eq!(sums(&[]), message("refusal 11: no bench file"));
    for bit_cycles in [0, 4097] {
        let bits = BenchFile { bit_cycles, fill: vec![0], rom: vec![], rows: vec![quiet(1)] };
        assert_eq!(sums(&bits.bytes()), message("refusal 10: bit cycles outside 1 to 4096"));
    }
}

/// A line for each line of the trace of a file that runs.
#[test]
fn as_many_lines_as_the_trace() {
    let rows = |text: &str| text.lines().map(|line| line.split(' ').next().map(String::from)).collect::<Vec<_>>();
    for index in 0..57 {
        let file = generator::file(13, index);
        let (trace, (lines, message)) = (trace(&file), sums(&file));
        let whole = trace.starts_with("0 0 ");
        assert_eq!(rows(&lines), if whole { vec![] } else { rows(&trace) });
        assert_eq!(message.is_some(), whole || trace.lines().any(|line| line.split(' ').nth(2) != Some("0")));
    }
}
