//! Random calls of every kind through both players, over ROMs that repeat and ROMs that do not: answers and machine after
//! each, banks, record and a page now and then.

use crate::files::File;
use crate::players::{Plain, Player, Proved, same_lent};
use cloverwain::raw;

const SEED: u64 = 1;
/// Banks and record are compared, and the ROM is changed, after this many calls.
const WHOLE: u64 = 512;
/// Both sides of the rule: a power of two from 32,768 up repeats, any other length is silent past its end.
const ROMS: [usize; 11] =
    [0, 16_384, 32_767, 32_768, 32_769, 49_152, 65_536, 98_304, 262_144, 2_097_152, MOST_ROM as usize];
const MOST_ROM: u64 = 4_194_304;

#[derive(Clone, Copy, Debug)]
enum Call {
    Cycle { event: u8, line_due: bool, timer_hit: bool },
    Read { bank: u8, addr: u16 },
    Write { bank: u8, addr: u16, byte: u8 },
    Pad { port: u8, word: u16 },
    Plug { port: u8, connected: bool },
    Answer { addr: u16, byte: u8 },
    Back,
}

type Answer = Result<[u8; raw::ANSWER_SIZE], u8>;

pub fn check(count: u64) -> Result<(), String> {
    let file = File { name: "random", about: "", fill: (0..=250).collect(), rows: vec![] };
    let (mut plain, mut proved) = (Plain::fresh(&file), Proved::fresh(&file));
    let mut random = Random(SEED);
    // Every ROM is a start of this one.
    let longest: Vec<u8> = (0..MOST_ROM).map(|_| random.below(256) as u8).collect();
    let mut rom = &longest[..0];
    for number in 1..=count {
        let call = draw(&mut random, rom.len() as u64);
        let (ours, theirs) = (by_plain(&mut plain, rom, call), by_library(&mut proved, rom, call));
        let differ = |what| format!("random call {number} {call:?}, ROM of {} bytes: {what} differ", rom.len());
        if ours != theirs {
            return Err(differ("answers"));
        }
        if plain.machine() != proved.machine() {
            return Err(differ("machines"));
        }
        if number % WHOLE == 0 || number == count {
            same_lent(&plain, &proved).map_err(differ)?;
            same_page(&plain, &proved, random.below(520) as u16).map_err(differ)?;
            rom = &longest[..ROMS[random.below(ROMS.len() as u64) as usize]];
        }
    }
    Ok(())
}

fn by_plain(player: &mut Plain, rom: &[u8], call: Call) -> Answer {
    let (machine, lent) = player.parts(rom);
    match call {
        Call::Cycle { event, line_due, timer_hit } => {
            machine.cycle(lent, event, line_due, timer_hit).map(|cycle| Plain::bytes(&cycle))
        }
        Call::Read { bank, addr } => machine.read(lent, bank, addr).map(|moved| filled(&[moved.byte, moved.cost])),
        Call::Write { bank, addr, byte } => machine.write(lent, bank, addr, byte).map(|moved| filled(&[moved.cost])),
        Call::Pad { port, word } => machine.pad(lent, port, word).map(|()| filled(&[])),
        Call::Plug { port, connected } => machine.plug(lent, port, connected).map(|()| filled(&[])),
        Call::Answer { addr, byte } => machine.answer(lent, addr, byte).map(|()| filled(&[])),
        Call::Back => machine.back(lent.low, lent.high, lent.record).map(|()| filled(&[])),
    }
}

fn by_library(player: &mut Proved, rom: &[u8], call: Call) -> Answer {
    let mut out = [0; raw::ANSWER_SIZE];
    let lent = player.parts(rom);
    let number = match call {
        Call::Cycle { event, line_due, timer_hit } => raw::cycle(lent, event, line_due, timer_hit, &mut out),
        Call::Read { bank, addr } => raw::read(lent, bank, addr, &mut out),
        Call::Write { bank, addr, byte } => raw::write(lent, bank, addr, byte, &mut out),
        Call::Pad { port, word } => raw::pad(lent, port, word),
        Call::Plug { port, connected } => raw::plug(lent, port, connected),
        Call::Answer { addr, byte } => raw::port_answer(lent, addr, byte),
        Call::Back => raw::back(lent),
    };
    if number == 0 { Ok(out) } else { Err(number) }
}

fn same_page(plain: &Plain, proved: &Proved, page: u16) -> Result<(), &'static str> {
    let (ours, theirs) = (plain.lent(), proved.lent());
    let mut bytes = [0; 256];
    let number = raw::page(&theirs.low, &theirs.high, page, &mut bytes);
    let seen = if number == 0 { Ok(&bytes[..]) } else { Err(number) };
    if plain::page(&ours.low, &ours.high, page) == seen { Ok(()) } else { Err("pages") }
}

fn filled(bytes: &[u8]) -> [u8; raw::ANSWER_SIZE] {
    let mut all = [0; raw::ANSWER_SIZE];
    all[..bytes.len()].copy_from_slice(bytes);
    all
}

/// Mostly cycles; addresses mostly of registers, a quarter in the ROM; ports, events and answer addresses now and then out
/// of range.
fn draw(random: &mut Random, rom: u64) -> Call {
    let byte = random.below(256) as u8;
    let (bank, addr) = if random.below(4) == 0 { in_rom(random, rom) } else { (bank(random), address(random)) };
    match random.below(32) {
        0 | 1 => Call::Read { bank, addr },
        2..6 => Call::Write { bank, addr, byte },
        6 => Call::Pad { port: random.below(3) as u8, word: random.below(0x1_0000) as u16 },
        7 => Call::Plug { port: random.below(3) as u8, connected: byte & 1 == 0 },
        8 => Call::Answer { addr: 0x2130 + random.below(24) as u16, byte },
        9 => Call::Back,
        10 | 11 => Call::Cycle { event: random.below(6) as u8, line_due: byte & 1 == 0, timer_hit: byte & 2 == 0 },
        _ => Call::Cycle { event: 0, line_due: false, timer_hit: false },
    }
}

fn bank(random: &mut Random) -> u8 {
    let any = random.below(256) as u8;
    [0x00, 0x00, 0x80, 0x3F, 0x7E, 0x7F, 0x40, any][random.below(8) as usize]
}

fn address(random: &mut Random) -> u16 {
    let (first, count) = [(0x2134, 0x50), (0x4016, 2), (0x4200, 14), (0x4210, 16), (0x4300, 0x80), (0, 0x1_0000)]
        [random.below(6) as usize];
    (first + random.below(count)) as u16
}

/// From $8000 up in any bank, half of the time about the end of a ROM of this length or of one of its repetitions.
fn in_rom(random: &mut Random, length: u64) -> (u8, u16) {
    let any = random.below(MOST_ROM);
    let turns = [1, 1, 2, any / length.max(1)][random.below(4) as usize];
    let end = (turns * length + random.below(3) + MOST_ROM - 1) % MOST_ROM;
    let offset = [any, end][random.below(2) as usize];
    let half = [0x00, 0x80][random.below(2) as usize];
    (half | (offset / 0x8000) as u8, 0x8000 | (offset % 0x8000) as u16)
}

/// xorshift64*.
struct Random(u64);

impl Random {
    fn below(&mut self, limit: u64) -> u64 {
        self.0 ^= self.0 >> 12;
        self.0 ^= self.0 << 25;
        self.0 ^= self.0 >> 27;
        (self.0.wrapping_mul(0x2545_F491_4F6C_DD1D) >> 32) % limit
    }
}
