//! Transfers by mode and direction, table counters, takeovers.

use super::Group;
use crate::bench::Step;
use crate::image::{Channel, DMA, HDMA, Image};
use rsnes::logged::Access;

const OLD_COUNT: usize = 222;
const HDMA_JUST_STARTED: u32 = 17;

pub struct Transfers {
    general: Group,
    steps: Group,
    counts: Group,
    own: Group,
    hdma: Group,
    counters: Group,
    takeovers: Group,
    starts: Group,
    accesses: Group,
    old_bytes: Group,
}

impl Transfers {
    pub fn new() -> Self {
        let modes = |kinds: &'static [&'static str]| {
            kinds.iter().flat_map(|kind| {
                (0..8).flat_map(move |mode| ["A to B", "B to A"].map(|way| format!("{kind}mode {mode} {way}")))
            })
        };
        let lines = ["init direct", "init indirect", "line direct", "line indirect"];
        let counters = ["$00", "$01", "$02", "$80", "$81", "$FF"];
        Self {
            general: Group::new("general bytes by mode and direction", modes(&[""])),
            steps: Group::new("general bytes by A step", ["up", "down", "fixed"]),
            counts: Group::new("general counts", ["DAS 0 starts", "DAS 0 to its end", "DAS 1 ends", "A1T wraps"]),
            own: Group::new("transfers that rewrite", own_targets()),
            hdma: Group::new("HDMA units by mode and direction", modes(&["direct ", "indirect "])),
            counters: Group::new(
                "HDMA counters read",
                lines.iter().flat_map(|line| counters.map(|counter| format!("{line} {counter}"))),
            ),
            takeovers: Group::new("HDMA takes over from", ["Idle", "Startup", "Dma", "Hdma", "HDMAEN 0"]),
            starts: Group::new("MDMAEN starts in", ["Idle", "Hdma", "Hdma with wait"]),
            accesses: Group::new("accesses in a cycle", [0, 1, 2, 3, 4, 5, 7, 8, 11]),
            old_bytes: Group::new("old bytes in a cycle", 0..=4),
        }
    }

    pub fn step(&mut self, step: &Step) {
        let accesses = &step.cycle.accesses[..step.cycle.count];
        self.accesses.hit(accesses.len());
        self.old_bytes.hit(step.entry[OLD_COUNT]);
        self.changes_of_hand(&step.before.image, &step.after.image);
        match step.before.image.dma.state {
            DMA if !accesses.is_empty() => self.general_byte(&step.before.image, &step.after.image, accesses),
            HDMA if !accesses.is_empty() => self.hdma_channel(&step.before.image, accesses),
            _ => {}
        }
    }

    fn changes_of_hand(&mut self, before: &Image, after: &Image) {
        let state = ["Idle", "Startup", "Dma", "Hdma"][usize::from(before.dma.state)];
        let (was, is) = (&before.dma, &after.dma);
        if was.wait == 0 && is.state == HDMA && is.wait == HDMA_JUST_STARTED {
            self.takeovers.hit(state);
            if after.hdmaen == 0 {
                self.takeovers.hit("HDMAEN 0");
            }
        }
        if was.running == 0 && is.running == 1 {
            self.starts.hit(state);
            if was.wait > 0 {
                self.starts.hit(format!("{state} with wait"));
            }
        }
    }

    fn general_byte(&mut self, before: &Image, after: &Image, accesses: &[Access]) {
        let number = before.dma.channel;
        let channel = &before.channels[usize::from(number)];
        self.general.hit(mode_and_way("", channel));
        self.steps.hit(match channel.dmap & 0x18 {
            0x00 => "up",
            0x10 => "down",
            _ => "fixed",
        });
        match (before.dma.unit, channel.das, after.dma.present) {
            (0, 0, _) => self.counts.hit("DAS 0 starts"),
            (65_535, 1, 0) => self.counts.hit("DAS 0 to its end"),
            (_, 1, 0) => self.counts.hit("DAS 1 ends"),
            _ => {}
        }
        if channel.a1t_addr.abs_diff(after.channels[usize::from(number)].a1t_addr) == 0xFFFF {
            self.counts.hit("A1T wraps");
        }
        self.rewrites("general", number, accesses);
    }

    fn hdma_channel(&mut self, before: &Image, accesses: &[Access]) {
        let number = before.dma.queue.trailing_zeros() as u8;
        let channel = &before.channels[usize::from(number)];
        let line = &before.lines[usize::from(number)];
        let kind = if channel.dmap & 0x40 == 0 { "direct" } else { "indirect" };
        let pass = if before.dma.init != 0 { "init" } else { "line" };
        if pass == "init" || line.counter & 0x7F == 0 {
            self.counters.hit(format!("{pass} {kind} ${:02X}", accesses[0].byte));
        }
        if accesses.iter().any(|access| access.write) {
            self.hdma.hit(mode_and_way(&format!("{kind} "), channel));
        }
        self.rewrites("HDMA", number, accesses);
    }

    fn rewrites(&mut self, kind: &str, channel: u8, accesses: &[Access]) {
        let own = 0x4300 + 0x10 * u16::from(channel);
        for access in accesses.iter().filter(|access| access.write && access.bank & 0x40 == 0) {
            self.own.hit(match access.addr {
                0x2181..=0x2183 => format!("{kind}: WMADD"),
                0x420B => format!("{kind}: MDMAEN"),
                0x420C => format!("{kind}: HDMAEN"),
                addr if addr & 0xFFF0 == own => format!("{kind}: own {}", part(addr & 15)),
                _ => continue,
            });
        }
    }

    pub fn groups(&self) -> [&Group; 10] {
        [
            &self.general,
            &self.steps,
            &self.counts,
            &self.own,
            &self.hdma,
            &self.counters,
            &self.takeovers,
            &self.starts,
            &self.accesses,
            &self.old_bytes,
        ]
    }
}

fn own_targets() -> impl Iterator<Item = String> {
    let parts = ["WMADD", "MDMAEN", "HDMAEN", "own DMAP", "own BBAD", "own A1T", "own DAS", "own DASB", "own A2A"];
    ["general", "HDMA"].into_iter().flat_map(move |kind| parts.map(|part| format!("{kind}: {part}")))
}

fn part(offset: u16) -> &'static str {
    match offset {
        0 => "DMAP",
        1 => "BBAD",
        2..=4 => "A1T",
        5 | 6 => "DAS",
        7 => "DASB",
        8 | 9 => "A2A",
        _ => "rest",
    }
}

fn mode_and_way(kind: &str, channel: &Channel) -> String {
    let way = if channel.dmap & 0x80 == 0 { "A to B" } else { "B to A" };
    format!("{kind}mode {} {way}", channel.dmap & 7)
}
