//! The I/O registers ($2000-$5FFF of the system banks), the models of PPU and APU behind them, and what drives them.

use crate::joypad::ControllerPort;

const START_DELAY: u32 = 298;
const NMI: u8 = 0x80;
const IRQ_MODE: u8 = 0x30;
const AUTO_JOYPAD: u8 = 0x01;
const FLAG: u8 = 0x80;
const VBLANK: u8 = 0x80;
const HBLANK: u8 = 0x40;
const BUSY: u8 = 0x01;
const LATCH: u8 = 0x01;

/// The 17-bit work RAM address behind $2180.
#[derive(Clone, Copy, Default)]
pub struct WmAddress {
    pub high: bool,
    pub addr: u16,
}

impl WmAddress {
    pub fn step(&mut self) {
        self.addr = self.addr.wrapping_add(1);
        self.high ^= self.addr == 0;
    }
}

#[derive(Clone, Copy, PartialEq, Eq)]
pub enum AutoJoypad {
    Idle,
    Pending(u32),
    Reading { bits_left: u8, countdown: u32 },
}

#[derive(Clone, Copy)]
pub struct Channel {
    pub dmap: u8,
    pub bbad: u8,
    pub a1t: u16,
    pub a1b: u8,
    pub das: u16,
    pub dasb: u8,
    pub a2a: u16,
    pub nltr: u8,
    pub unused: u8,
}

impl Default for Channel {
    fn default() -> Self {
        Self {
            dmap: 0xFF,
            bbad: 0xFF,
            a1t: 0xFFFF,
            a1b: 0xFF,
            das: 0xFF,
            dasb: 0xFF,
            a2a: 0xFFFF,
            nltr: 0xFF,
            unused: 0xFF,
        }
    }
}

impl Channel {
    fn read(&self, register: u16) -> Option<u8> {
        Some(match register {
            0x0 => self.dmap,
            0x1 => self.bbad,
            0x2 => low(self.a1t),
            0x3 => high(self.a1t),
            0x4 => self.a1b,
            0x5 => low(self.das),
            0x6 => high(self.das),
            0x7 => self.dasb,
            0x8 => low(self.a2a),
            0x9 => high(self.a2a),
            0xA => self.nltr,
            0xB | 0xF => self.unused,
            _ => return None,
        })
    }

    fn write(&mut self, register: u16, value: u8) {
        match register {
            0x0 => self.dmap = value,
            0x1 => self.bbad = value,
            0x2 => set_low(&mut self.a1t, value),
            0x3 => set_high(&mut self.a1t, value),
            0x4 => self.a1b = value,
            0x5 => set_low(&mut self.das, value),
            0x6 => set_high(&mut self.das, value),
            0x7 => self.dasb = value,
            0x8 => set_low(&mut self.a2a, value),
            0x9 => set_high(&mut self.a2a, value),
            0xA => self.nltr = value,
            0xB | 0xF => self.unused = value,
            _ => {}
        }
    }
}

pub struct Io {
    pub wmadd: WmAddress,
    pub joyout: u8,
    pub controllers: [ControllerPort; 2],
    pub auto_joypad: AutoJoypad,
    pub nmitimen: u8,
    pub wrio: u8,
    pub wrmpya: u8,
    pub wrmpyb: u8,
    pub wrdiv: u16,
    pub wrdivb: u8,
    pub htime: u16,
    pub vtime: u16,
    pub mdmaen: u8,
    pub hdmaen: u8,
    pub memsel: u8,
    pub rddiv: u16,
    pub rdmpy: u16,
    pub rdnmi: u8,
    pub timeup: u8,
    pub hvbjoy: u8,
    pub joys: [u16; 4],
    pub channels: [Channel; 8],
    pub open_bus: u8,
    pub ppu_answers: [u8; 12],
    pub apu_answers: [u8; 4],
    pub apu_written: [u8; 4],
}

impl Default for Io {
    fn default() -> Self {
        Self {
            wmadd: WmAddress::default(),
            joyout: 0,
            controllers: Default::default(),
            auto_joypad: AutoJoypad::Idle,
            nmitimen: 0,
            wrio: 0xFF,
            wrmpya: 0xFF,
            wrmpyb: 0xFF,
            wrdiv: 0xFFFF,
            wrdivb: 0xFF,
            htime: 0x01FF,
            vtime: 0x01FF,
            mdmaen: 0,
            hdmaen: 0,
            memsel: 0,
            rddiv: 0,
            rdmpy: 0,
            rdnmi: 2,
            timeup: 0,
            hvbjoy: 0,
            joys: [0; 4],
            channels: Default::default(),
            open_bus: 0,
            ppu_answers: [0; 12],
            apu_answers: [0; 4],
            apu_written: [0; 4],
        }
    }
}

impl Io {
    pub fn set_nmi_flag(&mut self, on: bool) {
        set_bit(&mut self.rdnmi, FLAG, on);
    }

    pub fn set_timeup_flag(&mut self, on: bool) {
        set_bit(&mut self.timeup, FLAG, on);
    }

    pub fn set_vblank(&mut self, on: bool) {
        set_bit(&mut self.hvbjoy, VBLANK, on);
    }

    pub fn set_hblank(&mut self, on: bool) {
        set_bit(&mut self.hvbjoy, HBLANK, on);
    }

    pub fn nmi_line(&self) -> bool {
        self.nmitimen & NMI != 0 && self.rdnmi & FLAG != 0
    }

    pub fn irq_enabled(&self) -> bool {
        self.nmitimen & IRQ_MODE != 0
    }

    fn set_latches(&mut self, on: bool) {
        for port in &mut self.controllers {
            port.set_latch(on);
        }
    }

    pub fn start_auto_joypad(&mut self) {
        if self.nmitimen & AUTO_JOYPAD != 0 {
            self.auto_joypad = AutoJoypad::Pending(START_DELAY - 1);
        }
    }

    pub fn step_auto_joypad(&mut self, bit_cycles: u32) {
        match &mut self.auto_joypad {
            AutoJoypad::Idle => {}
            AutoJoypad::Pending(left @ 1..) => *left -= 1,
            AutoJoypad::Reading { countdown: countdown @ 1.., .. } => *countdown -= 1,
            AutoJoypad::Pending(_) => self.strobe(bit_cycles),
            &mut AutoJoypad::Reading { bits_left, .. } => self.take_bit(bits_left, bit_cycles),
        }
    }

    /// The latch is pulsed, then released to what JOYOUT holds.
    fn strobe(&mut self, bit_cycles: u32) {
        self.set_latches(true);
        self.set_latches(self.joyout & LATCH != 0);
        set_bit(&mut self.hvbjoy, BUSY, true);
        self.auto_joypad = AutoJoypad::Reading { bits_left: 16, countdown: bit_cycles - 1 };
    }

    fn take_bit(&mut self, bits_left: u8, bit_cycles: u32) {
        let [one, two] = &mut self.controllers;
        self.joys[0] = (self.joys[0] << 1) | u16::from(one.data1());
        self.joys[1] = (self.joys[1] << 1) | u16::from(two.data1());
        self.joys[2] <<= 1;
        self.joys[3] <<= 1;
        one.clock();
        two.clock();
        self.auto_joypad = if bits_left > 1 {
            AutoJoypad::Reading { bits_left: bits_left - 1, countdown: bit_cycles - 1 }
        } else {
            set_bit(&mut self.hvbjoy, BUSY, false);
            AutoJoypad::Idle
        };
    }

    /// A register's byte, which becomes the open bus. $2180 is read by the bus.
    pub fn read(&mut self, addr: u16) -> u8 {
        let open = self.open_bus;
        self.open_bus = match addr {
            0x2134..0x2140 => self.ppu_answers[usize::from(addr - 0x2134)],
            0x2140..0x2180 => self.apu_answers[usize::from(addr % 4)],
            0x4016 => (open & 0xFC) | self.clocked(0),
            0x4017 => (open & 0xE0) | 0x1C | self.clocked(1),
            0x4210 => (cleared(&mut self.rdnmi) & 0x8F) | (open & 0x70),
            0x4211 => (cleared(&mut self.timeup) & 0x80) | (open & 0x7F),
            0x4212 => (self.hvbjoy & 0xC1) | (open & 0x3E),
            0x4213 => self.wrio,
            0x4214 => low(self.rddiv),
            0x4215 => high(self.rddiv),
            0x4216 => low(self.rdmpy),
            0x4217 => high(self.rdmpy),
            0x4218..0x4220 => self.joys[usize::from(addr - 0x4218) / 2].to_le_bytes()[usize::from(addr % 2)],
            0x4300..0x4380 => self.channels[usize::from(addr - 0x4300) / 16].read(addr % 16).unwrap_or(open),
            _ => open,
        };
        self.open_bus
    }

    fn clocked(&mut self, port: usize) -> u8 {
        let data = self.controllers[port].data1();
        self.controllers[port].clock();
        data
    }

    pub fn write(&mut self, addr: u16, value: u8) {
        self.open_bus = value;
        match addr {
            0x2140..=0x217F => self.apu_written[usize::from(addr % 4)] = value,
            0x2181 => set_low(&mut self.wmadd.addr, value),
            0x2182 => set_high(&mut self.wmadd.addr, value),
            0x2183 => self.wmadd.high = value & 1 != 0,
            0x4016 => {
                self.joyout = value;
                self.set_latches(value & LATCH != 0);
            }
            0x4200 => {
                self.nmitimen = value;
                if !self.irq_enabled() {
                    self.set_timeup_flag(false);
                }
            }
            0x4201 => self.wrio = value,
            0x4202 => self.wrmpya = value,
            0x4203 => {
                self.wrmpyb = value;
                self.rdmpy = u16::from(self.wrmpya) * u16::from(value);
            }
            0x4204 => set_low(&mut self.wrdiv, value),
            0x4205 => set_high(&mut self.wrdiv, value),
            0x4206 => self.divide(value),
            0x4207 => set_low(&mut self.htime, value),
            0x4208 => set_high(&mut self.htime, value),
            0x4209 => set_low(&mut self.vtime, value),
            0x420A => set_high(&mut self.vtime, value),
            0x420B => self.mdmaen = value,
            0x420C => self.hdmaen = value,
            0x420D => self.memsel = value,
            0x4300..0x4380 => self.channels[usize::from(addr - 0x4300) / 16].write(addr % 16, value),
            _ => {}
        }
    }

    fn divide(&mut self, value: u8) {
        self.wrdivb = value;
        (self.rddiv, self.rdmpy) = match u16::from(value) {
            0 => (0xFFFF, self.wrdiv),
            divisor => (self.wrdiv / divisor, self.wrdiv % divisor),
        };
    }
}

fn set_bit(register: &mut u8, mask: u8, on: bool) {
    if on {
        *register |= mask;
    } else {
        *register &= !mask;
    }
}

/// What a flag register held before its read cleared it.
fn cleared(register: &mut u8) -> u8 {
    let value = *register;
    *register &= !FLAG;
    value
}

fn low(word: u16) -> u8 {
    word.to_le_bytes()[0]
}

fn high(word: u16) -> u8 {
    word.to_le_bytes()[1]
}

fn set_low(word: &mut u16, byte: u8) {
    *word = (*word & 0xFF00) | u16::from(byte);
}

fn set_high(word: &mut u16, byte: u8) {
    *word = (*word & 0x00FF) | (u16::from(byte) << 8);
}
