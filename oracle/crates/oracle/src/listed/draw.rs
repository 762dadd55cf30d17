//! The list of a seed: first the draws that leave nothing out, then draws at random and calls of runs in turn.

use super::lot::Lot;
use super::{Call, aimed, cartridge, even, refused, runs, sums};
use crate::random::Random;

const AIMED: [fn(&mut Lot) -> Call; 13] = [
    aimed::hands,
    aimed::picks,
    aimed::rewrites,
    aimed::automatic,
    aimed::signals,
    aimed::manual,
    aimed::host,
    aimed::anywhere,
    aimed::back,
    aimed::fresh,
    aimed::page,
    refused::any,
    refused::argument,
];

/// The bytes of the list.
pub fn list(seed: u64, count: u64) -> Vec<u8> {
    calls(seed, count as usize).iter().flat_map(Call::bytes).collect()
}

fn calls(seed: u64, count: usize) -> Vec<Call> {
    let mut lot = Lot::new(Random::new(seed, 0));
    let mut calls = vec![];
    let all = [
        even::registers,
        even::borders,
        even::data_port,
        even::general,
        even::hdma,
        even::own_registers,
        cartridge::lengths,
        refused::each,
        sums::fresh,
    ];
    all.iter().for_each(|draw| draw(&mut lot, &mut calls));
    lot.draw_sums(&mut calls);
    sums::each(&mut lot, &mut calls);
    let settled = calls.len();
    for round in 0.. {
        if calls.len() >= count {
            break;
        }
        calls.extend(AIMED.map(|draw| draw(&mut lot)));
        (2 * round..2 * round + 2).for_each(|index| calls.extend(runs::calls(&mut lot, seed, index)));
    }
    lot.draw_sums(&mut calls[settled..]);
    calls.truncate(count);
    calls
}
