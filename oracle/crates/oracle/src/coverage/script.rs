//! Refused rows, the ring, controllers, events, the cartridge.

use super::rom::RomReads;
use super::{Group, a_place_twice};
use crate::bench::Step;
use crate::benchfile::BenchFile;
use crate::image::Entry;
use crate::layout::Field;
use crate::row::Row;
use crate::trace::RECORD_LENGTH;

const CAPACITY: u64 = RECORD_LENGTH as u64 / 256;

pub struct Scripts {
    refused: Group,
    ring: Group,
    events: Group,
    joypad: Group,
    cartridge: Group,
    rom_reads: RomReads,
    rom: usize,
    went_round: bool,
    limits: Group,
}

impl Scripts {
    pub fn new() -> Self {
        let borders = ["last byte", "first past the end", "$8000", "$FFFF"];
        let borders = borders.iter().flat_map(|border| [6, 8].map(|cost| format!("{border}, {cost}")));
        Self {
            refused: Group::new(
                "refusals in scripts",
                ["cycles 5", "pad 6", "plug 6", "answer 6", "back 8", "fresh 10", "file 11"],
            ),
            ring: Group::new(
                "the ring",
                ["goes round", "back after a round", "back to the oldest", "back over old bytes", "back a byte twice"],
            ),
            events: Group::new(
                "events and signals",
                [
                    "event 0",
                    "event 1",
                    "event 2",
                    "event 3",
                    "event 4",
                    "line due",
                    "timer hit",
                    "NMI edge",
                    "TIMEUP set",
                ],
            ),
            joypad: Group::new("controllers", joypad_members()),
            cartridge: Group::new("cartridge reads", borders.chain(["$6000, 8".into(), "$7FFF, 8".into()])),
            rom_reads: RomReads::of_files(),
            rom: 0,
            went_round: false,
            limits: Group::new(
                "sound files",
                ["65,536 bytes", "no row", "no ROM", "fill of 1", "fill of 4,096", "bit cycles 1", "bit cycles 4,096"],
            ),
        }
    }

    pub fn start(&mut self, bytes: &[u8]) {
        self.went_round = false;
        let Some(file) = BenchFile::parse(bytes) else { return };
        self.rom = file.rom.len();
        let found = [
            (bytes.len() == 65_536, "65,536 bytes"),
            (file.rows.is_empty(), "no row"),
            (file.rom.is_empty(), "no ROM"),
            (file.fill.len() == 1, "fill of 1"),
            (file.fill.len() == 4_096, "fill of 4,096"),
            (file.bit_cycles == 1, "bit cycles 1"),
            (file.bit_cycles == 4_096, "bit cycles 4,096"),
        ];
        found.into_iter().filter(|(is, _)| *is).for_each(|(_, name)| self.limits.hit(name));
    }

    pub fn whole_file(&mut self, lines: &str) {
        match lines {
            "0 0 10 0 0\n" => self.refused.hit("fresh 10"),
            "0 0 11 0 0\n" => self.refused.hit("file 11"),
            _ => {}
        }
    }

    pub fn step(&mut self, step: &Step) {
        if step.number != 0 {
            let call = ["cycles", "read", "write", "pad", "plug", "answer", "back"][usize::from(step.call.kind()) - 1];
            return self.refused.hit(format!("{call} {}", step.number));
        }
        self.rom_reads.step(step, self.rom);
        match step.call {
            Row::Cycles { event, flags, .. } => self.cycle(step, event, flags),
            Row::Read { bank, addr } => self.read(step, bank, addr),
            Row::Back { .. } => return self.back(step),
            _ => {}
        }
        if step.after.next_slot == 0 {
            self.went_round = true;
            self.ring.hit("goes round");
        }
    }

    fn back(&mut self, step: &Step) {
        if self.went_round && step.after.kept == CAPACITY - 1 {
            self.ring.hit("back after a round");
        }
        if self.went_round && step.after.kept == 0 {
            self.ring.hit("back to the oldest");
        }
        let struck = Entry::take(step.entry);
        if struck.count != 0 {
            self.ring.hit("back over old bytes");
        }
        if a_place_twice(&struck) {
            self.ring.hit("back a byte twice");
        }
    }

    fn cycle(&mut self, step: &Step, event: u8, flags: u8) {
        let (was, is) = (&step.before.image, &step.after.image);
        self.events.hit(format!("event {event}"));
        let found = [
            (flags & 1 != 0, "line due"),
            (flags & 2 != 0, "timer hit"),
            (step.cycle.nmi, "NMI edge"),
            (was.timeup < is.timeup, "TIMEUP set"),
        ];
        found.into_iter().filter(|(is, _)| *is).for_each(|(_, name)| self.events.hit(name));
        let change = match (was.auto.kind, is.auto.kind) {
            (0, 1) => "pending",
            (1, 2) => "strobe",
            (2, 0) => "read ends",
            (2, 1) => "pending again while reading",
            (2, 2) if was.auto.bits_left != is.auto.bits_left && was.ports[0].latch != 0 => "bit while latched",
            (2, 2) if was.auto.bits_left != is.auto.bits_left && was.nmitimen & 1 == 0 => "bit with the read off",
            (2, 2) if was.auto.bits_left != is.auto.bits_left && was.ports[1].connected == 0 => "bit of an empty port",
            _ => return,
        };
        self.joypad.hit(change);
    }

    fn read(&mut self, step: &Step, bank: u8, addr: u16) {
        if bank & 0x40 == 0 && matches!(addr, 0x4016 | 0x4017) {
            let port = &step.before.image.ports[usize::from(addr - 0x4016)];
            self.joypad.hit(format!("${addr:04X} latch {} plug {}", port.latch, port.connected));
        }
        if matches!(bank, 0x7E | 0x7F) || addr < 0x6000 && bank & 0x40 == 0 {
            return;
        }
        let fast = bank >= 0x80 && addr >= 0x8000 && step.before.image.memsel & 1 != 0;
        let cost = if fast { 6 } else { 8 };
        let offset = (usize::from(bank % 128) * 0x8000 + usize::from(addr)).checked_sub(0x8000);
        if addr >= 0x8000 && offset == self.rom.checked_sub(1) {
            self.cartridge.hit(format!("last byte, {cost}"));
        }
        if addr >= 0x8000 && offset == Some(self.rom) {
            self.cartridge.hit(format!("first past the end, {cost}"));
        }
        self.cartridge.hit(format!("${addr:04X}, {cost}"));
    }

    pub fn groups(&self) -> [&Group; 7] {
        let rom = self.rom_reads.group();
        [&self.refused, &self.ring, &self.events, &self.joypad, &self.cartridge, rom, &self.limits]
    }
}

fn joypad_members() -> Vec<String> {
    let automatic = [
        "pending",
        "strobe",
        "read ends",
        "pending again while reading",
        "bit while latched",
        "bit with the read off",
        "bit of an empty port",
    ];
    let mut members: Vec<String> = automatic.map(String::from).to_vec();
    for register in ["$4016", "$4017"] {
        for latch in 0..2 {
            members.extend((0..2).map(|plug| format!("{register} latch {latch} plug {plug}")));
        }
    }
    members
}
