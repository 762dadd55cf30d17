//! Every way to break a file is refused; files at the limits are not.

use oracle::benchfile::{BenchFile, file_check, section_look, section_look_number};
use oracle::generator::broken::{self, WAYS};
use oracle::generator::{self, KINDS};
use oracle::random::Random;

#[test]
fn every_way_is_refused() {
    for turn in 0..20 * WAYS.len() as u64 {
        let file = broken::file(&mut Random::new(7, turn), turn);
        let name = WAYS[broken::way(turn)].0;
        assert_eq!(file_check(&file), 11, "{name}");
        assert_eq!((section_look_number(&file, 0), section_look(&file, 0)), (11, &[][..]), "{name}");
    }
}

#[test]
fn every_kind_is_sound() {
    for (index, kind) in KINDS.iter().enumerate() {
        for seed in 0..20 {
            assert_eq!(file_check(&generator::file(seed, index as u64)), 0, "{}", kind.name);
        }
    }
}

#[test]
fn limits() {
    let file = |fill, rom| BenchFile { bit_cycles: 1, fill: vec![1; fill], rom: vec![2; rom], rows: vec![] }.bytes();
    for (fill, rom, number) in
        [(0, 0, 11), (1, 0, 0), (4096, 0, 0), (4097, 0, 11), (1, 65_536 - 35, 0), (1, 65_536 - 34, 11)]
    {
        assert_eq!(file_check(&file(fill, rom)), number);
    }
    assert_eq!(section_look_number(&file(1, 5), 3), 0);
    assert_eq!(section_look_number(&file(1, 5), 4), 11);
}
