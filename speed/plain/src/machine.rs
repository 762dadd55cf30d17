//! The machine and one master cycle of it.

use crate::bus::Work;
use crate::dma::Dma;
use crate::io::Io;

/// What the PPU has to say in a cycle.
#[derive(Clone, Copy, PartialEq, Eq)]
pub enum Event {
    None,
    HBlankStart,
    NormalLine,
    VBlankStart,
    FrameStart,
}

impl Event {
    pub fn from_number(number: u8) -> Option<Self> {
        const ALL: [Event; 5] =
            [Event::None, Event::HBlankStart, Event::NormalLine, Event::VBlankStart, Event::FrameStart];
        ALL.get(usize::from(number)).copied()
    }
}

/// The machine, and beside its image where the record stands and the sum of all work RAM bytes, modulo 2^32.
pub struct Machine {
    pub(crate) io: Io,
    pub(crate) dma: Dma,
    pub(crate) joypads: [u16; 2],
    pub(crate) nmi_line: bool,
    pub(crate) bit_cycles: u16,
    pub(crate) clock: u64,
    pub(crate) next_slot: usize,
    pub(crate) kept: usize,
    pub(crate) record_length: usize,
    pub(crate) sum: u32,
}

impl Machine {
    pub(crate) fn power_on(record_length: usize, bit_cycles: u16, sum: u32) -> Self {
        Self {
            io: Io::default(),
            dma: Dma::default(),
            joypads: [0; 2],
            nmi_line: false,
            bit_cycles,
            clock: 0,
            next_slot: 0,
            kept: 0,
            record_length,
            sum,
        }
    }

    /// Answers whether DMA held the bus, and whether the NMI line rose.
    pub(crate) fn update(&mut self, work: &mut Work, event: Event, line_due: bool, timer_hit: bool) -> (bool, bool) {
        for (port, word) in self.io.controllers.iter_mut().zip(self.joypads) {
            port.set_buttons(word);
        }
        self.on_event(event);
        self.io.step_auto_joypad(self.bit_cycles.into());
        if line_due && self.io.hdmaen != 0 {
            self.dma.hdma_pending = true;
        }
        let line = self.io.nmi_line();
        let edge = line && !self.nmi_line;
        self.nmi_line = line;
        if timer_hit && self.io.irq_enabled() {
            self.io.set_timeup_flag(true);
        }
        let held = self.update_dma(work);
        self.clock += 1;
        (held, edge)
    }

    fn on_event(&mut self, event: Event) {
        match event {
            Event::None => {}
            Event::HBlankStart => self.io.set_hblank(true),
            Event::NormalLine => self.io.set_hblank(false),
            Event::VBlankStart => {
                self.io.set_hblank(false);
                self.io.set_vblank(true);
                self.io.set_nmi_flag(true);
                self.io.start_auto_joypad();
            }
            Event::FrameStart => {
                self.io.set_hblank(false);
                self.io.set_vblank(false);
                self.io.set_nmi_flag(false);
                if self.io.hdmaen != 0 {
                    self.dma.hdma_pending = true;
                    self.dma.hdma_init = true;
                }
            }
        }
    }
}
