// Not published: a way to the private state of the automatic read, for the machine image.
impl Io {
    /// Kind (0 idle, 1 pending, 2 reading), bits left, countdown.
    pub fn auto_parts(&self) -> (u8, u8, u32) {
        match self.auto_joypad {
            AutoJoypad::Idle => (0, 0, 0),
            AutoJoypad::Pending(countdown) => (1, 0, countdown),
            AutoJoypad::Reading { bits_left, countdown } => (2, bits_left, countdown),
        }
    }

    pub fn set_auto_parts(&mut self, kind: u8, bits_left: u8, countdown: u32) {
        self.auto_joypad = match kind {
            0 => AutoJoypad::Idle,
            1 => AutoJoypad::Pending(countdown),
            _ => AutoJoypad::Reading { bits_left, countdown },
        };
    }
}
