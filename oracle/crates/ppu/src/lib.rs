//! Stands for the PPU: document 01's twelve answer bytes.

pub mod ppu {
    #[derive(Default)]
    pub struct PPU {
        pub answers: [u8; 12],
    }

    impl PPU {
        pub fn read(&mut self, addr: u16, open_bus: u8) -> u8 {
            match addr {
                0x2134..=0x213F => self.answers[usize::from(addr - 0x2134)],
                _ => open_bus,
            }
        }

        /// A write changes nothing here; it shows only as an access.
        pub fn write(&mut self, _addr: u16, _value: u8) {}
    }
}
