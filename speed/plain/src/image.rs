//! The 256 bytes of an entry: the machine before an operation and the bytes of work RAM that it overwrote.

use crate::bus::{MOST_OLD, Old, Olds};
use crate::dma::{Dma, Line, Progress, State};
use crate::io::{AutoJoypad, Channel, Io, WmAddress};
use crate::joypad::ControllerPort;
use crate::machine::Machine;

pub const ENTRY_SIZE: usize = 256;
pub type Entry = [u8; ENTRY_SIZE];

const PORTS: usize = 40;
const LINES: usize = 74;
const CHANNELS: usize = 98;
const OLD_COUNT: usize = 222;
const OLDS: usize = 223;
const TAIL: usize = 239;

fn put<const N: usize>(entry: &mut Entry, at: usize, bytes: [u8; N]) {
    entry[at..at + N].copy_from_slice(&bytes);
}

fn take<const N: usize>(entry: &Entry, at: usize) -> [u8; N] {
    std::array::from_fn(|index| entry[at + index])
}

fn word(entry: &Entry, at: usize) -> u16 {
    u16::from_le_bytes(take(entry, at))
}

fn long(entry: &Entry, at: usize) -> u32 {
    u32::from_le_bytes(take(entry, at))
}

/// A flag byte is 0 or 1.
fn flag(entry: &Entry, at: usize) -> Option<bool> {
    (entry[at] <= 1).then_some(entry[at] == 1)
}

impl Machine {
    /// Places 0 to 221.
    pub(crate) fn put_image(&self, entry: &mut Entry) {
        self.put_registers(entry);
        self.put_pads(entry);
        put_dma(&self.dma, entry);
        for (index, channel) in self.io.channels.iter().enumerate() {
            put(entry, CHANNELS + 12 * index, channel_bytes(channel));
        }
        put(entry, 194, self.io.ppu_answers);
        put(entry, 206, self.io.apu_answers);
        put(entry, 210, self.io.apu_written);
        put(entry, 214, self.clock.to_le_bytes());
    }

    fn put_registers(&self, entry: &mut Entry) {
        let io = &self.io;
        entry[0] = 0x7E + u8::from(io.wmadd.high);
        put(entry, 1, io.wmadd.addr.to_le_bytes());
        put(entry, 3, [io.joyout, io.nmitimen, io.wrio, io.wrmpya, io.wrmpyb]);
        put(entry, 8, io.wrdiv.to_le_bytes());
        entry[10] = io.wrdivb;
        put(entry, 11, io.htime.to_le_bytes());
        put(entry, 13, io.vtime.to_le_bytes());
        put(entry, 15, [io.mdmaen, io.hdmaen, io.memsel]);
        put(entry, 18, io.rddiv.to_le_bytes());
        put(entry, 20, io.rdmpy.to_le_bytes());
        put(entry, 22, [io.rdnmi, io.timeup, io.hvbjoy, io.open_bus]);
        for (index, joy) in io.joys.iter().enumerate() {
            put(entry, 26 + 2 * index, joy.to_le_bytes());
        }
    }

    fn put_pads(&self, entry: &mut Entry) {
        let (kind, bits_left, countdown) = match self.io.auto_joypad {
            AutoJoypad::Idle => (0, 0, 0),
            AutoJoypad::Pending(left) => (1, 0, left),
            AutoJoypad::Reading { bits_left, countdown } => (2, bits_left, countdown),
        };
        put(entry, 34, [kind, bits_left]);
        put(entry, 36, countdown.to_le_bytes());
        for (index, port) in self.io.controllers.iter().enumerate() {
            let at = PORTS + 6 * index;
            put(entry, at, [port.connected.into(), port.latch.into()]);
            put(entry, at + 2, port.buttons.to_le_bytes());
            put(entry, at + 4, port.shift.to_le_bytes());
        }
        put(entry, 52, self.joypads[0].to_le_bytes());
        put(entry, 54, self.joypads[1].to_le_bytes());
        entry[56] = self.nmi_line.into();
        put(entry, 57, self.bit_cycles.to_le_bytes());
    }

    /// The machine of an image, unless its bytes break the ranges; where the record stands and the sum are kept.
    pub(crate) fn take_image(&self, entry: &Entry) -> Option<Machine> {
        let machine = Machine {
            io: take_io(entry)?,
            dma: take_dma(entry)?,
            joypads: [word(entry, 52), word(entry, 54)],
            nmi_line: flag(entry, 56)?,
            bit_cycles: word(entry, 57),
            clock: u64::from_le_bytes(take(entry, 214)),
            next_slot: self.next_slot,
            kept: self.kept,
            record_length: self.record_length,
            sum: self.sum,
        };
        machine.in_ranges().then_some(machine)
    }
}

fn put_dma(dma: &Dma, entry: &mut Entry) {
    let Progress { channel, unit } = dma.progress.unwrap_or(Progress { channel: 0, unit: 0 });
    put(entry, 59, [dma.state as u8, dma.running.into(), dma.progress.is_some().into(), channel]);
    put(entry, 63, unit.to_le_bytes());
    put(entry, 67, dma.wait.to_le_bytes());
    put(entry, 71, [dma.hdma_pending.into(), dma.hdma_init.into(), dma.hdma_queue]);
    for (index, line) in dma.lines.iter().enumerate() {
        put(entry, LINES + 3 * index, [line.counter, line.do_transfer.into(), line.finished.into()]);
    }
}

fn channel_bytes(channel: &Channel) -> [u8; 12] {
    let ([a1tl, a1th], [dasl, dash], [a2al, a2ah]) =
        (channel.a1t.to_le_bytes(), channel.das.to_le_bytes(), channel.a2a.to_le_bytes());
    [
        channel.dmap,
        channel.bbad,
        a1tl,
        a1th,
        channel.a1b,
        dasl,
        dash,
        channel.dasb,
        a2al,
        a2ah,
        channel.nltr,
        channel.unused,
    ]
}

/// Places 222 to 255.
pub fn put_olds(olds: &Olds, entry: &mut Entry) {
    entry[OLD_COUNT] = olds.count as u8;
    for (index, old) in olds.items.iter().enumerate() {
        put(entry, OLDS + 4 * index, (old.place | u32::from(old.byte) << 24).to_le_bytes());
    }
    entry[TAIL..].fill(0);
}

/// The old bytes of an entry, unless they break the ranges.
pub fn take_olds(entry: &Entry) -> Option<Olds> {
    let count = usize::from(entry[OLD_COUNT]);
    let items: [Old; MOST_OLD] = std::array::from_fn(|index| {
        let bytes = long(entry, OLDS + 4 * index);
        Old { place: bytes & 0x00FF_FFFF, byte: (bytes >> 24) as u8 }
    });
    let sound = count <= MOST_OLD
        && items[..count].iter().all(|old| old.place < 0x2_0000)
        && items[count..].iter().all(|old| old.place == 0 && old.byte == 0)
        && entry[TAIL..].iter().all(|&byte| byte == 0);
    sound.then_some(Olds { count, items })
}

fn take_io(entry: &Entry) -> Option<Io> {
    Some(Io {
        wmadd: WmAddress { high: take_bank(entry[0])?, addr: word(entry, 1) },
        joyout: entry[3],
        controllers: [take_port(entry, PORTS)?, take_port(entry, PORTS + 6)?],
        auto_joypad: take_auto(entry)?,
        nmitimen: entry[4],
        wrio: entry[5],
        wrmpya: entry[6],
        wrmpyb: entry[7],
        wrdiv: word(entry, 8),
        wrdivb: entry[10],
        htime: word(entry, 11),
        vtime: word(entry, 13),
        mdmaen: entry[15],
        hdmaen: entry[16],
        memsel: entry[17],
        rddiv: word(entry, 18),
        rdmpy: word(entry, 20),
        rdnmi: entry[22],
        timeup: entry[23],
        hvbjoy: entry[24],
        open_bus: entry[25],
        joys: std::array::from_fn(|index| word(entry, 26 + 2 * index)),
        channels: std::array::from_fn(|index| take_channel(entry, CHANNELS + 12 * index)),
        ppu_answers: take(entry, 194),
        apu_answers: take(entry, 206),
        apu_written: take(entry, 210),
    })
}

fn take_bank(byte: u8) -> Option<bool> {
    matches!(byte, 0x7E | 0x7F).then_some(byte == 0x7F)
}

fn take_port(entry: &Entry, at: usize) -> Option<ControllerPort> {
    Some(ControllerPort {
        connected: flag(entry, at)?,
        latch: flag(entry, at + 1)?,
        buttons: word(entry, at + 2),
        shift: word(entry, at + 4),
    })
}

fn take_auto(entry: &Entry) -> Option<AutoJoypad> {
    match (entry[34], entry[35], long(entry, 36)) {
        (0, 0, 0) => Some(AutoJoypad::Idle),
        (1, 0, left) => Some(AutoJoypad::Pending(left)),
        (2, bits_left, countdown) => Some(AutoJoypad::Reading { bits_left, countdown }),
        _ => None,
    }
}

fn take_channel(entry: &Entry, at: usize) -> Channel {
    Channel {
        dmap: entry[at],
        bbad: entry[at + 1],
        a1t: word(entry, at + 2),
        a1b: entry[at + 4],
        das: word(entry, at + 5),
        dasb: entry[at + 7],
        a2a: word(entry, at + 8),
        nltr: entry[at + 10],
        unused: entry[at + 11],
    }
}

fn take_dma(entry: &Entry) -> Option<Dma> {
    let mut lines = [Line::default(); 8];
    for (index, line) in lines.iter_mut().enumerate() {
        let at = LINES + 3 * index;
        *line = Line { counter: entry[at], do_transfer: flag(entry, at + 1)?, finished: flag(entry, at + 2)? };
    }
    Some(Dma {
        state: *[State::Idle, State::Startup, State::Dma, State::Hdma].get(usize::from(entry[59]))?,
        wait: long(entry, 67),
        running: flag(entry, 60)?,
        progress: take_progress(entry)?,
        hdma_pending: flag(entry, 71)?,
        hdma_init: flag(entry, 72)?,
        hdma_queue: entry[73],
        lines,
    })
}

fn take_progress(entry: &Entry) -> Option<Option<Progress>> {
    let progress = Progress { channel: entry[62], unit: long(entry, 63) };
    match (flag(entry, 61)?, progress) {
        (true, progress) => Some(Some(progress)),
        (false, Progress { channel: 0, unit: 0 }) => Some(None),
        _ => None,
    }
}
