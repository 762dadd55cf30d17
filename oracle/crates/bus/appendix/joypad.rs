// Not published: a way to the private fields of a port, for the machine image.
impl ControllerPort {
    pub fn from_parts(connected: bool, latch: bool, buttons: u16, shift: u16) -> Self {
        Self { connected, buttons, shift, latch }
    }

    /// Latch and shift word (`buttons` has a published reader).
    pub fn latch_and_shift(&self) -> (bool, u16) {
        (self.latch, self.shift)
    }
}
