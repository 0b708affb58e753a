//! `model cases` writes the cases that the program `replay` runs, and what it has to print.

const CRATE: &str = concat!(env!("CARGO_MANIFEST_DIR"), "/../../crates/replay/");

fn main() {
    match std::env::args().nth(1).as_deref() {
        Some("cases") => {
            let (cases, printed) = model::cases::written();
            std::fs::create_dir_all(format!("{CRATE}data")).unwrap();
            std::fs::write(format!("{CRATE}data/cases"), cases).unwrap();
            std::fs::write(format!("{CRATE}stdout"), printed).unwrap();
        }
        _ => eprintln!("usage: model cases"),
    }
}
