//! A controller port with a standard pad: a 16-bit shift register behind a latch and a clock line.

pub const ID_MASK: u16 = 0x000F;

#[derive(Clone, Copy)]
pub struct ControllerPort {
    pub connected: bool,
    pub latch: bool,
    pub buttons: u16,
    pub shift: u16,
}

impl Default for ControllerPort {
    fn default() -> Self {
        Self { connected: true, latch: false, buttons: 0, shift: 0 }
    }
}

impl ControllerPort {
    pub fn set_buttons(&mut self, buttons: u16) {
        self.buttons = buttons & !ID_MASK;
    }

    /// The buttons are captured as the latch line falls.
    pub fn set_latch(&mut self, on: bool) {
        if self.latch && !on {
            self.shift = self.buttons;
        }
        self.latch = on;
    }

    pub fn data1(&self) -> u8 {
        if !self.connected {
            return 0;
        }
        let word = if self.latch { self.buttons } else { self.shift };
        (word >> 15) as u8
    }

    pub fn clock(&mut self) {
        if !self.latch {
            self.shift = (self.shift << 1) | 1;
        }
    }
}
