//! The core without its CPU, APU core, PPU and renderer: the lines of `update` that document 01 lists.

use crate::dma::Dma;
use crate::logged::LoggedBus;
use apu::Apu;
use bus::io::IrqMode;
use ppu::ppu::PPU;

pub struct RSnesCore {
    pub bus: LoggedBus,
    pub ppu: PPU,
    pub apu: Apu,
    pub master_cycles: u64,
    pub dma: Dma,
    pub nmi_line: bool,
    pub joypads: [u16; 2],
}

/// What the PPU has to say in a cycle, in document 01's order from 0.
#[derive(Clone, Copy)]
pub enum Event {
    None,
    HBlankStart,
    NormalLine,
    VBlankStart,
    FrameStart,
}

impl RSnesCore {
    /// One master cycle; answers whether DMA held the bus, and whether the NMI line rose.
    pub fn update(&mut self, event: Event, line_due: bool, timer_hit: bool) -> (bool, bool) {
        self.sync_controllers();
        self.on_event(event);
        self.bus.io.step_auto_joypad();
        self.poll_hdma_start(line_due);
        let nmi = self.poll_nmi();
        self.check_hv_irq(timer_hit);
        let held = self.update_dma_cycles();
        self.master_cycles += 1;
        (held, nmi)
    }

    fn sync_controllers(&mut self) {
        for (port, word) in self.bus.io.controllers.iter_mut().zip(self.joypads) {
            port.set_buttons(word);
        }
    }

    fn on_event(&mut self, event: Event) {
        match event {
            Event::None => return,
            Event::HBlankStart => return self.bus.io.set_hblank(true),
            Event::NormalLine | Event::VBlankStart | Event::FrameStart => self.bus.io.set_hblank(false),
        }
        match event {
            Event::VBlankStart => self.on_vblank_start(),
            Event::FrameStart => self.on_frame_start(),
            _ => {}
        }
    }

    fn on_vblank_start(&mut self) {
        self.bus.io.set_vblank(true);
        self.bus.io.set_nmi_flag(true);
        self.bus.io.start_auto_joypad();
    }

    fn on_frame_start(&mut self) {
        self.bus.io.set_vblank(false);
        self.bus.io.set_nmi_flag(false);
        if self.bus.io.hdmaen != 0 {
            self.dma.hdma_pending = true;
            self.dma.hdma_init = true;
        }
    }

    fn poll_hdma_start(&mut self, line_due: bool) {
        if line_due && self.bus.io.hdmaen != 0 {
            self.dma.hdma_pending = true;
        }
    }

    fn poll_nmi(&mut self) -> bool {
        let line = self.bus.io.nmi_enabled() && self.bus.io.nmi_flag();
        let edge = line && !self.nmi_line;
        self.nmi_line = line;
        edge
    }

    fn check_hv_irq(&mut self, timer_hit: bool) {
        if timer_hit && self.bus.io.irq_mode() != IrqMode::Disabled {
            self.bus.io.set_timeup_flag(true);
        }
    }
}
