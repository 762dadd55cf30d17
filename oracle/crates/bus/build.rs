use published::{Module, write_modules};

fn main() {
    write_modules(&[
        Module { name: "bus", file: "src--bus--src--bus.rs.txt", appendix: None },
        Module { name: "published_constants", file: "src--bus--src--constants.rs.txt", appendix: None },
        Module { name: "io", file: "src--bus--src--io.rs.txt", appendix: Some(include_str!("appendix/io.rs")) },
        Module {
            name: "joypad",
            file: "src--bus--src--joypad.rs.txt",
            appendix: Some(include_str!("appendix/joypad.rs")),
        },
        Module { name: "wram", file: "src--bus--src--wram.rs.txt", appendix: None },
    ]);
}
