//! Stands for the APU: document 01's four answer bytes and four last-written bytes.

#[derive(Default)]
pub struct Apu {
    pub memory: Memory,
}

#[derive(Default)]
pub struct Memory {
    pub answers: [u8; 4],
    pub written: [u8; 4],
}

impl Memory {
    pub fn cpu_port_read(&mut self, port: usize) -> u8 {
        self.answers[port]
    }

    pub fn cpu_port_write(&mut self, port: usize, value: u8) {
        self.written[port] = value;
    }
}
