//! General and H-blank DMA, one master cycle at a time.

use crate::bus::Work;
use crate::machine::Machine;

const BYTE_COST: u32 = 8;
const START_COST: u32 = 8;
const CHANNEL_COST: u32 = 8;
const PASS_COST: u32 = 18;
const INDIRECT_COST: u32 = 16;

const B_TO_A: u8 = 0x80;
const INDIRECT: u8 = 0x40;
const DECREMENT: u8 = 0x10;
const FIXED: u8 = 0x08;
const REPEAT: u8 = 0x80;
const LINES: u8 = 0x7F;

#[derive(Clone, Copy, Default, PartialEq, Eq)]
pub enum State {
    #[default]
    Idle,
    Startup,
    Dma,
    Hdma,
}

#[derive(Clone, Copy)]
pub struct Progress {
    pub channel: u8,
    pub unit: u32,
}

/// A channel's HDMA for this frame.
#[derive(Clone, Copy, Default)]
pub struct Line {
    pub counter: u8,
    pub do_transfer: bool,
    pub finished: bool,
}

#[derive(Default)]
pub struct Dma {
    pub state: State,
    pub wait: u32,
    pub running: bool,
    pub progress: Option<Progress>,
    pub hdma_pending: bool,
    pub hdma_init: bool,
    pub hdma_queue: u8,
    pub lines: [Line; 8],
}

/// The B-bus offsets of a transfer unit, by DMAP bits 2-0.
fn pattern(dmap: u8) -> &'static [u8] {
    match dmap & 7 {
        0 => &[0],
        1 => &[0, 1],
        2 | 6 => &[0, 0],
        4 => &[0, 1, 2, 3],
        5 => &[0, 1, 0, 1],
        _ => &[0, 0, 1, 1],
    }
}

/// The sum wraps inside the $21xx page.
fn b_address(bbad: u8, offset: u8) -> u16 {
    0x2100 | u16::from(bbad.wrapping_add(offset))
}

impl Machine {
    /// Answers whether DMA holds the bus.
    pub(crate) fn update_dma(&mut self, work: &mut Work) -> bool {
        if !self.dma.running && self.io.mdmaen != 0 {
            self.dma.running = true;
            self.dma.state = State::Startup;
            self.dma.wait = 8 - (self.clock % 8) as u32 + START_COST - 1;
        }
        if self.dma.wait > 0 {
            self.dma.wait -= 1;
            return true;
        }
        if self.dma.hdma_pending {
            self.dma.hdma_pending = false;
            self.dma.hdma_queue = self.io.hdmaen;
            self.dma.state = State::Hdma;
            self.dma.wait = PASS_COST - 1;
            return true;
        }
        match self.dma.state {
            State::Idle => return false,
            State::Startup => self.dma.state = State::Dma,
            State::Dma => self.dma_step(work),
            State::Hdma => self.hdma_step(work),
        }
        true
    }

    /// The next channel is picked, or one byte moves.
    fn dma_step(&mut self, work: &mut Work) {
        let Some(Progress { channel, unit }) = self.dma.progress else {
            match self.io.mdmaen {
                0 => {
                    self.dma.running = false;
                    self.dma.state = State::Idle;
                }
                mask => {
                    self.dma.progress = Some(Progress { channel: mask.trailing_zeros() as u8, unit: 0 });
                    self.dma.wait = CHANNEL_COST - 1;
                }
            }
            return;
        };
        self.dma_transfer_byte(work, channel, unit);
        let registers = &mut self.io.channels[usize::from(channel)];
        registers.das = registers.das.wrapping_sub(1);
        if registers.das == 0 {
            self.io.mdmaen &= !(1 << channel);
            self.dma.progress = None;
        } else {
            self.dma.progress = Some(Progress { channel, unit: unit.wrapping_add(1) });
        }
        self.dma.wait = BYTE_COST - 1;
    }

    fn dma_transfer_byte(&mut self, work: &mut Work, channel: u8, unit: u32) {
        let registers = self.io.channels[usize::from(channel)];
        let pattern = pattern(registers.dmap);
        let b_addr = b_address(registers.bbad, pattern[unit as usize % pattern.len()]);
        self.move_byte(work, registers.dmap, (registers.a1b, registers.a1t), b_addr);
        // Fixed goes before decrement; the address wraps inside its bank.
        if registers.dmap & FIXED == 0 {
            let a1t = &mut self.io.channels[usize::from(channel)].a1t;
            *a1t = if registers.dmap & DECREMENT != 0 { a1t.wrapping_sub(1) } else { a1t.wrapping_add(1) };
        }
    }

    fn move_byte(&mut self, work: &mut Work, dmap: u8, a: (u8, u16), b_addr: u16) {
        let (from, to) = if dmap & B_TO_A != 0 { ((0, b_addr), a) } else { (a, (0, b_addr)) };
        let byte = work.read(&mut self.io, from.0, from.1);
        work.write(&mut self.io, to.0, to.1, byte);
    }

    /// The next queued channel, or the bus goes back.
    fn hdma_step(&mut self, work: &mut Work) {
        if self.dma.hdma_queue == 0 {
            self.dma.hdma_init = false;
            self.dma.state = if self.dma.running { State::Dma } else { State::Idle };
            return;
        }
        let channel = self.dma.hdma_queue.trailing_zeros() as usize;
        self.dma.hdma_queue &= self.dma.hdma_queue - 1;
        if self.dma.hdma_init {
            self.hdma_init_channel(work, channel);
        } else {
            self.hdma_line_channel(work, channel);
        }
    }

    /// Once a frame the table starts anew, and its first entry is read.
    fn hdma_init_channel(&mut self, work: &mut Work, channel: usize) {
        let registers = &mut self.io.channels[channel];
        registers.a2a = registers.a1t;
        let indirect = registers.dmap & INDIRECT != 0;
        let counter = self.hdma_read_table(work, channel);
        self.dma.lines[channel] = Line { counter, do_transfer: counter != 0, finished: counter == 0 };
        let mut cost = CHANNEL_COST;
        if counter != 0 && indirect {
            self.hdma_load_das(work, channel);
            cost += INDIRECT_COST;
        }
        self.dma.wait = cost - 1;
    }

    /// A new entry if one is due, a unit if one is due, then the counter.
    fn hdma_line_channel(&mut self, work: &mut Work, channel: usize) {
        if self.dma.lines[channel].finished {
            return;
        }
        let indirect = self.io.channels[channel].dmap & INDIRECT != 0;
        let mut cost = CHANNEL_COST;
        if self.dma.lines[channel].counter & LINES == 0 {
            let counter = self.hdma_read_table(work, channel);
            if counter == 0 {
                self.dma.lines[channel].finished = true;
                self.dma.wait = cost - 1;
                return;
            }
            self.dma.lines[channel].counter = counter;
            self.dma.lines[channel].do_transfer = true;
            if indirect {
                self.hdma_load_das(work, channel);
                cost += INDIRECT_COST;
            }
        }
        if self.dma.lines[channel].do_transfer {
            cost += self.hdma_transfer_unit(work, channel, indirect);
        }
        let line = &mut self.dma.lines[channel];
        let repeat = line.counter & REPEAT != 0;
        line.counter = line.counter.wrapping_sub(1);
        line.do_transfer = repeat || line.counter & LINES == 0;
        self.dma.wait = cost - 1;
    }

    fn hdma_read_table(&mut self, work: &mut Work, channel: usize) -> u8 {
        let registers = &mut self.io.channels[channel];
        let addr = registers.a2a;
        let bank = registers.a1b;
        registers.a2a = addr.wrapping_add(1);
        work.read(&mut self.io, bank, addr)
    }

    fn hdma_load_das(&mut self, work: &mut Work, channel: usize) {
        let bytes = [self.hdma_read_table(work, channel), self.hdma_read_table(work, channel)];
        self.io.channels[channel].das = u16::from_le_bytes(bytes);
    }

    /// A whole unit of 1, 2 or 4 bytes; answers its cost. Its address is taken before its bytes and stored after.
    fn hdma_transfer_unit(&mut self, work: &mut Work, channel: usize, indirect: bool) -> u32 {
        let registers = self.io.channels[channel];
        let (bank, mut addr) = if indirect { (registers.dasb, registers.das) } else { (registers.a1b, registers.a2a) };
        let pattern = pattern(registers.dmap);
        for &offset in pattern {
            self.move_byte(work, registers.dmap, (bank, addr), b_address(registers.bbad, offset));
            addr = addr.wrapping_add(1);
        }
        if indirect {
            self.io.channels[channel].das = addr;
        } else {
            self.io.channels[channel].a2a = addr;
        }
        BYTE_COST * pattern.len() as u32
    }
}
