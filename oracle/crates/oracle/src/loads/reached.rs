//! What the set-ups reach, in numbers.

use super::channels::POWER_ON;
use super::check::Run;
use super::formula::{Step, a_addresses, alignment, b_address, count, in_system_bank, selected, step};
use crate::coverage::Group;
use crate::image::Channel;
use std::collections::BTreeSet;
use std::fmt;
use std::ops::RangeInclusive;

pub struct Reached {
    set_ups: u64,
    held: u64,
    accesses: usize,
    /// In how many set-ups each was reached.
    features: Group,
}

impl Default for Reached {
    fn default() -> Self {
        let single = [
            "A to B",
            "B to A",
            "B past $21FF",
            "work RAM on both sides",
            "one place on both sides",
            "A in $7E",
            "A in $7F",
            "A in the mirror",
            "A in the cartridge",
            "A in $2000-$5FFF of other banks",
            "A1T wraps up",
            "A1T wraps down",
            "DAS 0",
            "DAS 1",
            "DMAP bits 5 and 6",
            "channel as at power-on",
            "automatic read pending at the start",
            "automatic read reading at the start",
            "automatic read ended meanwhile",
            "automatic read under way at the end",
            "buttons changed",
            "NMI edge",
        ];
        let b_sides = (0x2180..=0x2183).flat_map(|addr| ["read", "written"].map(|way| format!("${addr:04X} {way}")));
        let a_sides = ["$1FFF", "$6000"]
            .into_iter()
            .flat_map(|addr| [Step::Up, Step::Down, Step::Fixed].map(|step| format!("A {step} at {addr}")));
        let modes = (0..8).map(|mode| format!("mode {mode}"));
        let numbers = (1..=8).flat_map(|number| [format!("channels {number}"), format!("alignment {number}")]);
        let members = single.map(String::from).into_iter().chain(b_sides).chain(a_sides).chain(modes).chain(numbers);
        Self { set_ups: 0, held: 0, accesses: 0, features: Group::new("set-ups", members) }
    }
}

impl Reached {
    pub fn add(&mut self, run: &Run) {
        self.set_ups += 1;
        self.held += run.load.held;
        self.accesses += run.load.accesses.len();
        let mut found = BTreeSet::new();
        of_run(run, &mut found);
        of_accesses(run, &mut found);
        selected(run.before.mdmaen).for_each(|number| of_channel(&run.before.channels[number], &mut found));
        found.into_iter().for_each(|name| self.features.hit(name));
    }

    /// How many features no set-up reached.
    pub fn never(&self) -> usize {
        self.features.never()
    }
}

impl fmt::Display for Reached {
    fn fmt(&self, out: &mut fmt::Formatter) -> fmt::Result {
        let Self { set_ups, held, accesses, features } = self;
        write!(out, "{set_ups} set-ups, {held} cycles held, {accesses} accesses, all as the formula says; reached: ")?;
        write!(out, "{}", features.counts())
    }
}

impl fmt::Display for Step {
    fn fmt(&self, out: &mut fmt::Formatter) -> fmt::Result {
        out.write_str(match self {
            Step::Up => "up",
            Step::Down => "down",
            Step::Fixed => "fixed",
        })
    }
}

fn of_run(run: &Run, found: &mut BTreeSet<String>) {
    let (was, is) = (&run.before, &run.after);
    let moved = |what: fn(u32, u32) -> bool| {
        run.places.chunks(2).any(|places| matches!(*places, [Some(from), Some(to)] if what(from, to)))
    };
    let features = [
        (moved(|_, _| true), "work RAM on both sides"),
        (moved(|from, to| from == to), "one place on both sides"),
        (was.auto.kind == 1, "automatic read pending at the start"),
        (was.auto.kind == 2, "automatic read reading at the start"),
        (was.auto.kind != 0 && is.auto.kind == 0, "automatic read ended meanwhile"),
        (is.auto.kind != 0, "automatic read under way at the end"),
        (was.ports.map(|port| port.buttons) != is.ports.map(|port| port.buttons), "buttons changed"),
        (was.nmi_line < is.nmi_line, "NMI edge"),
    ];
    found.extend(features.into_iter().filter(|(is, _)| *is).map(|(_, name)| name.into()));
    let channels = selected(was.mdmaen).count();
    found.extend([format!("channels {channels}"), format!("alignment {}", alignment(was.clock))]);
}

/// The ways in which the B side met $2180-$2183. No A side is there.
fn of_accesses(run: &Run, found: &mut BTreeSet<String>) {
    for addr in 0x2180..=0x2183 {
        for (write, way) in [(false, "read"), (true, "written")] {
            if run.load.accesses.iter().any(|aim| (aim.bank, aim.addr, aim.write) == (0, addr, write)) {
                found.insert(format!("${addr:04X} {way}"));
            }
        }
    }
}

fn of_channel(channel: &Channel, found: &mut BTreeSet<String>) {
    let step = step(channel);
    let wraps =
        a_addresses(channel).zip(a_addresses(channel).skip(1)).any(|(addr, next)| addr.abs_diff(next) == 0xFFFF);
    let features = [
        (channel.dmap & 0x80 == 0, "A to B".into()),
        (channel.dmap & 0x80 != 0, "B to A".into()),
        (channel.dmap & 0x60 == 0x60, "DMAP bits 5 and 6".into()),
        ((0..count(channel)).any(|index| b_address(channel, index) < b_address(channel, 0)), "B past $21FF".into()),
        (wraps, format!("A1T wraps {step}")),
        (channel.das == 0, "DAS 0".into()),
        (channel.das == 1, "DAS 1".into()),
        (*channel == POWER_ON, "channel as at power-on".into()),
        (true, format!("mode {}", channel.dmap % 8)),
    ];
    found.extend(features.into_iter().chain(of_a_side(channel)).filter(|(is, _)| *is).map(|(_, name)| name));
}

fn of_a_side(channel: &Channel) -> [(bool, String); 7] {
    let (bank, step, system) = (channel.a1t_bank, step(channel), in_system_bank(channel));
    let within = |places: RangeInclusive<u16>| a_addresses(channel).any(|addr| places.contains(&addr));
    [
        (bank == 0x7E, "A in $7E".into()),
        (bank == 0x7F, "A in $7F".into()),
        (system && within(0x0000..=0x1FFF), "A in the mirror".into()),
        (!matches!(bank, 0x7E | 0x7F) && within(0x8000..=0xFFFF), "A in the cartridge".into()),
        (!system && within(0x2000..=0x5FFF), "A in $2000-$5FFF of other banks".into()),
        (system && within(0x1FFF..=0x1FFF), format!("A {step} at $1FFF")),
        (system && within(0x6000..=0x6000), format!("A {step} at $6000")),
    ]
}
