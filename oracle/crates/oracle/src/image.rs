//! Document 01's machine image and entry. The order of the fields is the order of the bytes.

use crate::layout::{Field, fields};

pub const ENTRY_SIZE: usize = 256;
/// States of the DMA unit in which a general transfer and an HDMA pass go on.
pub const DMA: u8 = 2;
pub const HDMA: u8 = 3;
const _: () = assert!(Image::SIZE == 222 && Entry::SIZE == ENTRY_SIZE);

fields! {
    /// Bytes 0 to 221: every number of the machine, in or out of its range.
    Image {
        wmadd_bank: u8,
        wmadd_addr: u16,
        joyout: u8,
        nmitimen: u8,
        wrio: u8,
        wrmpya: u8,
        wrmpyb: u8,
        wrdiv: u16,
        wrdivb: u8,
        htime: u16,
        vtime: u16,
        mdmaen: u8,
        hdmaen: u8,
        memsel: u8,
        rddiv: u16,
        rdmpy: u16,
        rdnmi: u8,
        timeup: u8,
        hvbjoy: u8,
        open_bus: u8,
        joys: [u16; 4],
        auto: Auto,
        ports: [Port; 2],
        pads: [u16; 2],
        nmi_line: u8,
        bit_cycles: u16,
        dma: Engine,
        lines: [Line; 8],
        channels: [Channel; 8],
        ppu_answers: [u8; 12],
        apu_answers: [u8; 4],
        apu_written: [u8; 4],
        clock: u64,
    }
}

fields! {
    /// The automatic joypad: 0 idle, 1 pending, 2 reading.
    Auto {
        kind: u8,
        bits_left: u8,
        countdown: u32,
    }
}

fields! {
    Port {
        connected: u8,
        latch: u8,
        buttons: u16,
        shift: u16,
    }
}

fields! {
    /// The DMA unit; `present` says whether a general transfer is in progress.
    Engine {
        state: u8,
        running: u8,
        present: u8,
        channel: u8,
        unit: u32,
        wait: u32,
        pending: u8,
        init: u8,
        queue: u8,
    }
}

fields! {
    /// A channel's HDMA state.
    Line {
        counter: u8,
        do_transfer: u8,
        finished: u8,
    }
}

fields! {
    Channel {
        dmap: u8,
        bbad: u8,
        a1t_addr: u16,
        a1t_bank: u8,
        das: u16,
        dasb: u8,
        a2a: u16,
        nltr: u8,
        unused: u8,
    }
}

fields! {
    /// A work RAM place and the byte it held.
    Old {
        place: Place,
        byte: u8,
    }
}

fields! {
    Entry {
        image: Image,
        count: u8,
        old: [Old; 4],
        tail: [u8; 17],
    }
}

/// A work RAM offset in three bytes, $7E first.
#[derive(Clone, Copy, Debug, PartialEq, Eq)]
pub struct Place(pub u32);

impl Field for Place {
    const SIZE: usize = 3;

    fn put(self, bytes: &mut [u8]) {
        bytes[..3].copy_from_slice(&self.0.to_le_bytes()[..3]);
    }

    fn take(bytes: &[u8]) -> Self {
        Self(u32::from_le_bytes([bytes[0], bytes[1], bytes[2], 0]))
    }
}

/// The machine that calls hand to and fro: the image and the four numbers that stand beside it.
#[derive(Clone, Copy, Debug, PartialEq, Eq)]
pub struct Machine {
    pub image: Image,
    pub next_slot: u64,
    pub kept: u64,
    pub record_length: u64,
    /// Of all work RAM bytes, modulo 2^32. No call tests it.
    pub sum: u32,
}

/// As lists of calls have a machine: the four numbers follow from byte 256 on.
impl Field for Machine {
    const SIZE: usize = 284;

    fn put(self, bytes: &mut [u8]) {
        self.image.put(bytes);
        bytes[Image::SIZE..ENTRY_SIZE].fill(0);
        self.next_slot.put(&mut bytes[256..]);
        self.kept.put(&mut bytes[264..]);
        self.record_length.put(&mut bytes[272..]);
        self.sum.put(&mut bytes[280..]);
    }

    fn take(bytes: &[u8]) -> Self {
        Self {
            image: Field::take(bytes),
            next_slot: Field::take(&bytes[256..]),
            kept: Field::take(&bytes[264..]),
            record_length: Field::take(&bytes[272..]),
            sum: Field::take(&bytes[280..]),
        }
    }
}
