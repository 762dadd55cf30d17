//! The three bench files, each by a fixed rule.

const LINES: usize = 262;
const VISIBLE: usize = 224;
const LINE_CYCLES: u16 = 1364;
/// Where H-blank starts in a line.
const HBLANK: u16 = 1100;

const NORMAL_LINE: u8 = 2;
const VBLANK_START: u8 = 3;
const FRAME_START: u8 = 4;
const HBLANK_START: u8 = 1;

#[derive(Clone, Copy, Debug)]
pub enum Row {
    Cycles { count: u16, event: u8, line_due: bool },
    Write { addr: u16, byte: u8 },
    Answer { addr: u16, byte: u8 },
}

impl Row {
    /// The row in a bench file.
    fn bytes(self) -> [u8; 8] {
        let two = u16::to_le_bytes;
        let [kind, first, second, third, fourth] = match self {
            Row::Cycles { count, event, line_due } => [1, two(count)[0], two(count)[1], event, line_due.into()],
            Row::Write { addr, byte } => [3, 0, two(addr)[0], two(addr)[1], byte],
            Row::Answer { addr, byte } => [6, 0, two(addr)[0], two(addr)[1], byte],
        };
        [kind, first, second, third, fourth, 0, 0, 0]
    }
}

pub struct File {
    pub name: &'static str,
    pub about: &'static str,
    pub fill: Vec<u8>,
    pub rows: Vec<Row>,
}

pub const BIT_CYCLES: u16 = 264;

impl File {
    pub fn all() -> [File; 3] {
        [general(), hdma(), idle()]
    }

    /// Contents, settings, fill, no ROM, script.
    pub fn bytes(&self) -> Vec<u8> {
        let script: Vec<u8> = self.rows.iter().flat_map(|row| row.bytes()).collect();
        let bodies = [&BIT_CYCLES.to_le_bytes()[..], &self.fill, &[], &script];
        let mut file = vec![];
        let mut start = 32;
        for body in bodies {
            file.extend((start as u32).to_le_bytes());
            file.extend((body.len() as u32).to_le_bytes());
            start += body.len();
        }
        file.extend(bodies.concat());
        file
    }

    pub fn cycles(&self) -> u64 {
        self.rows.iter().map(|row| if let Row::Cycles { count, .. } = row { u64::from(*count) } else { 0 }).sum()
    }
}

fn write(addr: u16, byte: u8) -> Row {
    Row::Write { addr, byte }
}

/// A channel's registers from $43n0 on.
fn channel(number: u16, bytes: [u8; 8]) -> impl Iterator<Item = Row> {
    (0..).zip(bytes).map(move |(offset, byte)| write(0x4300 + 16 * number + offset, byte))
}

/// Eight channels of 4,096 bytes in one go, first A to B, then B to A, one in each mode.
fn general() -> File {
    let mut rows: Vec<Row> = (0..12).map(|port| Row::Answer { addr: 0x2134 + port, byte: 0x11 * port as u8 }).collect();
    for direction in [0x00, 0x80] {
        rows.extend([write(0x2181, 0x00), write(0x2182, 0x40), write(0x2183, 0x01)]);
        for mode in 0..8 {
            // PPU, work RAM and APU on the B side; both banks on the A side, upwards, downwards and fixed.
            let bbad = [0x18, 0x22, 0x80, 0x80, 0x40, 0x39, 0x04, 0x34][usize::from(mode)];
            let step = [0x00, 0x10, 0x08, 0x00][usize::from(mode) % 4];
            let bank = 0x7E + mode % 2;
            rows.extend(channel(mode.into(), [direction | step | mode, bbad, 0, 0x10 * mode, bank, 0x00, 0x10, 0]));
        }
        rows.push(write(0x420B, 0xFF));
        // 8 x (8 + 4,096 x 8) cycles, and up to 17 to start and end.
        rows.extend([(); 8].map(|()| Row::Cycles { count: 32_780, event: 0, line_due: false }));
    }
    File { name: "general", about: "general transfers, 8 modes, both directions", fill: (0..251).collect(), rows }
}

/// Each byte of the fill is a line counter with the repeat bit, so every table moves a unit on every line.
fn hdma() -> File {
    let mut rows: Vec<Row> = (0..12).map(|port| Row::Answer { addr: 0x2134 + port, byte: 0x91 + port as u8 }).collect();
    for number in 0..8 {
        // Modes 0 to 7, every second channel indirect; one to work RAM, one from the PPU.
        let indirect = if number % 2 == 0 { 0x00 } else { 0x40 };
        let back = if number == 6 { 0x80 } else { 0x00 };
        let bbad = [0x00, 0x0D, 0x22, 0x21, 0x26, 0x80, 0x39, 0x40][usize::from(number)];
        rows.extend(channel(number.into(), [back | indirect | number, bbad, 0, 0x10 * number, 0x7E, 0, 0, 0x7F]));
    }
    rows.extend([write(0x2181, 0x00), write(0x2182, 0x80), write(0x2183, 0x01), write(0x420C, 0xFF)]);
    rows.extend(frame(true));
    File {
        name: "hdma",
        about: "8 HDMA channels on every line",
        fill: vec![0x81, 0x84, 0x82, 0x90, 0xC5, 0x83, 0xFF],
        rows,
    }
}

fn idle() -> File {
    let mut rows = vec![write(0x4200, 0x81)];
    rows.extend(frame(false));
    File { name: "idle", about: "idle frames", fill: vec![0x5A], rows }
}

/// A frame from its start: 224 visible lines, then V-blank.
fn frame(line_due: bool) -> impl Iterator<Item = Row> {
    (0..LINES).flat_map(move |line| {
        let event = match line {
            0 => FRAME_START,
            225 => VBLANK_START,
            _ => NORMAL_LINE,
        };
        let due = line_due && (1..=VISIBLE).contains(&line);
        [
            Row::Cycles { count: HBLANK, event, line_due: false },
            Row::Cycles { count: LINE_CYCLES - HBLANK, event: HBLANK_START, line_due: due },
        ]
    })
}
