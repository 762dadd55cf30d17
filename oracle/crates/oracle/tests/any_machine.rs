//! Machines within the ranges that no run from fresh may reach: nothing trips, and the ranges are kept.

mod help;

use help::{bench, call};
use oracle::any_image::any_image;
use oracle::bench::RowAnswer;
use oracle::random::Random;
use oracle::ranges::image_in_ranges;
use oracle::row::Row;

#[test]
fn any_machine_runs() {
    let mut random = Random::new(5, 5);
    let mut bench = bench();
    for _ in 0..3_000 {
        bench.machine.image = any_image(&mut random);
        for _ in 0..60 {
            let answer = call(&mut bench, any_call(&mut random));
            assert_eq!(answer.number, 0);
            assert!(image_in_ranges(&bench.machine.image));
        }
    }
}

#[test]
fn back_gives_back_any_machine() {
    let mut random = Random::new(6, 6);
    let mut bench = bench();
    for _ in 0..1_000 {
        bench.machine.image = any_image(&mut random);
        let (before, kept) = (bench.machine.image, bench.banks.bytes().to_vec());
        for _ in 0..3 {
            assert_eq!(call(&mut bench, any_call(&mut random)).number, 0);
        }
        for _ in 0..3 {
            assert_eq!(call(&mut bench, Row::Back { count: 1 }), RowAnswer::default());
        }
        assert_eq!((bench.machine.image, bench.banks.bytes().to_vec()), (before, kept));
    }
}

fn any_call(random: &mut Random) -> Row {
    let (bank, addr, byte) = (random.byte(), random.two(), random.byte());
    match random.between(0, 9) {
        0 => Row::Read { bank, addr },
        1 => Row::Write { bank, addr, byte },
        2 => Row::Write { bank: bank & 0xBF, addr: 0x2000 + addr % 0x4000, byte },
        3 => Row::Pad { port: bank % 2, word: addr },
        4 => Row::Plug { port: bank % 2, value: byte % 2 },
        5 => Row::Answer { addr: 0x2134 + addr % 16, byte },
        _ => Row::Cycles { count: 1, event: bank % 5, flags: byte % 4 },
    }
}
