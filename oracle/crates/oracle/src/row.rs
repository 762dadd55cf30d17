//! Script rows: eight bytes, kind first.

pub const ROW_SIZE: usize = 8;

#[derive(Clone, Copy, Debug, PartialEq, Eq)]
pub enum Row {
    Cycles { count: u16, event: u8, flags: u8 },
    Read { bank: u8, addr: u16 },
    Write { bank: u8, addr: u16, byte: u8 },
    Pad { port: u8, word: u16 },
    Plug { port: u8, value: u8 },
    Answer { addr: u16, byte: u8 },
    Back { count: u16 },
}

impl Row {
    /// The row, or nothing if its form is broken: laying out what was read must give the same bytes.
    pub fn parse(bytes: &[u8; ROW_SIZE]) -> Option<Row> {
        let [kind, first, low, high, last, ..] = *bytes;
        let row = match kind {
            1 => Row::Cycles { count: u16::from_le_bytes([first, low]), event: high, flags: last },
            2 => Row::Read { bank: first, addr: u16::from_le_bytes([low, high]) },
            3 => Row::Write { bank: first, addr: u16::from_le_bytes([low, high]), byte: last },
            4 => Row::Pad { port: first, word: u16::from_le_bytes([low, high]) },
            5 => Row::Plug { port: first, value: low },
            6 => Row::Answer { addr: u16::from_le_bytes([low, high]), byte: last },
            7 => Row::Back { count: u16::from_le_bytes([first, low]) },
            _ => return None,
        };
        (row.bytes() == *bytes && row.values_have_form()).then_some(row)
    }

    pub fn bytes(&self) -> [u8; ROW_SIZE] {
        let two = u16::to_le_bytes;
        let [first, low, high, last] = match *self {
            Row::Cycles { count, event, flags } => [two(count)[0], two(count)[1], event, flags],
            Row::Read { bank, addr } => [bank, two(addr)[0], two(addr)[1], 0],
            Row::Write { bank, addr, byte } => [bank, two(addr)[0], two(addr)[1], byte],
            Row::Pad { port, word } => [port, two(word)[0], two(word)[1], 0],
            Row::Plug { port, value } => [port, value, 0, 0],
            Row::Answer { addr, byte } => [0, two(addr)[0], two(addr)[1], byte],
            Row::Back { count } => [two(count)[0], two(count)[1], 0, 0],
        };
        [self.kind(), first, low, high, last, 0, 0, 0]
    }

    pub fn kind(&self) -> u8 {
        match self {
            Row::Cycles { .. } => 1,
            Row::Read { .. } => 2,
            Row::Write { .. } => 3,
            Row::Pad { .. } => 4,
            Row::Plug { .. } => 5,
            Row::Answer { .. } => 6,
            Row::Back { .. } => 7,
        }
    }

    /// Events, ports and answer addresses are judged by their calls, not here.
    fn values_have_form(&self) -> bool {
        match *self {
            Row::Cycles { count, flags, .. } => count >= 1 && flags <= 3,
            Row::Plug { value, .. } => value <= 1,
            Row::Back { count } => count >= 1,
            _ => true,
        }
    }
}
