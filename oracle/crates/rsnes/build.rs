use published::{Module, write_modules};

fn main() {
    write_modules(&[Module { name: "dma", file: "src--src--dma.rs.txt", appendix: None }]);
}
