use published::{Module, write_modules};

fn main() {
    println!("cargo::rustc-check-cfg=cfg(tarpaulin_include)"); // a name in the published text
    write_modules(&[
        Module { name: "snes_address", file: "src--common--src--snes_address.rs.txt", appendix: None },
        Module { name: "u16_split", file: "src--common--src--u16_split.rs.txt", appendix: None },
    ]);
}
