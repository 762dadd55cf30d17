//! Between the image's numbers and the published structs.

use crate::image::{Auto, Channel, Engine, Image, Line, Port};
use crate::lent::Lent;
use bus::Bus;
use bus::cartridge::Cartridge;
use bus::constants::BitCycles;
use bus::io::{DMAChannel, Io, WmAddBank, WmAddress};
use bus::joypad::ControllerPort;
use bus::wram::Wram;
use common::snes_address::SnesAddress;
use rsnes::dma::{Dma, DmaProgress, DmaState, HdmaChannelState};
use rsnes::logged::LoggedBus;
use rsnes::rsnes::RSnesCore;
use std::rc::Rc;

/// The published core in the state of an image within the ranges, with the lent banks and ROM in it.
pub fn load(image: &Image, lent: &mut Lent) -> RSnesCore {
    BitCycles::set(image.bit_cycles.into());
    let mut core = assemble(load_io(image), lent.banks.lend(), lent.rom.clone());
    core.ppu.answers = image.ppu_answers;
    core.apu.memory.answers = image.apu_answers;
    core.apu.memory.written = image.apu_written;
    core.master_cycles = image.clock;
    core.dma = load_dma(&image.dma, &image.lines);
    core.nmi_line = image.nmi_line != 0;
    core.joypads = image.pads;
    core
}

/// The image of the published core at power-on.
pub fn power_on(bit_cycles: u16) -> Image {
    store(&assemble(Io::default(), Wram::default(), Rc::default()), bit_cycles)
}

pub fn store(core: &RSnesCore, bit_cycles: u16) -> Image {
    let io = &core.bus.io;
    let (kind, bits_left, countdown) = io.auto_parts();
    Image {
        wmadd_bank: io.wmadd.bank as u8,
        wmadd_addr: io.wmadd.addr,
        joyout: io.joyout,
        nmitimen: io.nmitimen,
        wrio: io.wrio,
        wrmpya: io.wrmpya,
        wrmpyb: io.wrmpyb,
        wrdiv: io.wrdiv,
        wrdivb: io.wrdivb,
        htime: io.htime,
        vtime: io.vtime,
        mdmaen: io.mdmaen,
        hdmaen: io.hdmaen,
        memsel: io.memsel,
        rddiv: io.rddiv,
        rdmpy: io.rdmpy,
        rdnmi: io.rdnmi,
        timeup: io.timeup,
        hvbjoy: io.hvbjoy,
        open_bus: io.open_bus,
        joys: [io.joy1, io.joy2, io.joy3, io.joy4],
        auto: Auto { kind, bits_left, countdown },
        ports: io.controllers.each_ref().map(store_port),
        pads: core.joypads,
        nmi_line: core.nmi_line.into(),
        bit_cycles,
        dma: store_dma(&core.dma),
        lines: core.dma.channels.each_ref().map(store_line),
        channels: io.dma_channels.each_ref().map(store_channel),
        ppu_answers: core.ppu.answers,
        apu_answers: core.apu.memory.answers,
        apu_written: core.apu.memory.written,
        clock: core.master_cycles,
    }
}

fn assemble(io: Io, wram: Wram, rom: Rc<[u8]>) -> RSnesCore {
    RSnesCore {
        bus: LoggedBus::new(Bus { wram, cart: Cartridge { rom }, io }),
        ppu: Default::default(),
        apu: Default::default(),
        master_cycles: 0,
        dma: Dma::default(),
        nmi_line: false,
        joypads: [0; 2],
    }
}

fn load_io(image: &Image) -> Io {
    let mut io = Io::default();
    io.wmadd = WmAddress { bank: WmAddBank::from(image.wmadd_bank), addr: image.wmadd_addr };
    io.joyout = image.joyout;
    io.controllers = image.ports.each_ref().map(load_port);
    io.nmitimen = image.nmitimen;
    io.wrio = image.wrio;
    io.wrmpya = image.wrmpya;
    io.wrmpyb = image.wrmpyb;
    io.wrdiv = image.wrdiv;
    io.wrdivb = image.wrdivb;
    io.htime = image.htime;
    io.vtime = image.vtime;
    io.mdmaen = image.mdmaen;
    io.hdmaen = image.hdmaen;
    io.memsel = image.memsel;
    io.rddiv = image.rddiv;
    io.rdmpy = image.rdmpy;
    io.rdnmi = image.rdnmi;
    io.timeup = image.timeup;
    io.hvbjoy = image.hvbjoy;
    io.joy1 = image.joys[0];
    io.joy2 = image.joys[1];
    io.joy3 = image.joys[2];
    io.joy4 = image.joys[3];
    io.dma_channels = image.channels.each_ref().map(load_channel);
    io.open_bus = image.open_bus;
    io.set_auto_parts(image.auto.kind, image.auto.bits_left, image.auto.countdown);
    io
}

fn load_port(port: &Port) -> ControllerPort {
    ControllerPort::from_parts(port.connected != 0, port.latch != 0, port.buttons, port.shift)
}

fn store_port(port: &ControllerPort) -> Port {
    let (latch, shift) = port.latch_and_shift();
    Port { connected: port.connected.into(), latch: latch.into(), buttons: port.buttons(), shift }
}

fn load_channel(channel: &Channel) -> DMAChannel {
    DMAChannel {
        dmap: channel.dmap,
        bbad: channel.bbad,
        a1t: SnesAddress { bank: channel.a1t_bank, addr: channel.a1t_addr },
        das: channel.das,
        dasb: channel.dasb,
        a2a: channel.a2a,
        nltr: channel.nltr,
        unused: channel.unused,
    }
}

fn store_channel(channel: &DMAChannel) -> Channel {
    Channel {
        dmap: channel.dmap,
        bbad: channel.bbad,
        a1t_addr: channel.a1t.addr,
        a1t_bank: channel.a1t.bank,
        das: channel.das,
        dasb: channel.dasb,
        a2a: channel.a2a,
        nltr: channel.nltr,
        unused: channel.unused,
    }
}

fn load_dma(dma: &Engine, lines: &[Line; 8]) -> Dma {
    Dma {
        state: [DmaState::Idle, DmaState::Startup, DmaState::Dma, DmaState::Hdma][usize::from(dma.state)],
        wait: dma.wait,
        dma_running: dma.running != 0,
        dma: (dma.present != 0).then_some(DmaProgress { channel: dma.channel, unit_index: dma.unit }),
        hdma_pending: dma.pending != 0,
        hdma_init: dma.init != 0,
        hdma_queue: dma.queue,
        channels: lines.each_ref().map(load_line),
    }
}

fn store_dma(dma: &Dma) -> Engine {
    Engine {
        state: dma.state as u8,
        running: dma.dma_running.into(),
        present: dma.dma.is_some().into(),
        channel: dma.dma.map_or(0, |progress| progress.channel),
        unit: dma.dma.map_or(0, |progress| progress.unit_index),
        wait: dma.wait,
        pending: dma.hdma_pending.into(),
        init: dma.hdma_init.into(),
        queue: dma.hdma_queue,
    }
}

fn load_line(line: &Line) -> HdmaChannelState {
    HdmaChannelState { line_counter: line.counter, do_transfer: line.do_transfer != 0, finished: line.finished != 0 }
}

fn store_line(line: &HdmaChannelState) -> Line {
    Line { counter: line.line_counter, do_transfer: line.do_transfer.into(), finished: line.finished.into() }
}
