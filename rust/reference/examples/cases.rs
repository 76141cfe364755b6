//! Writes the requests of the proved program `cases` and their answers to crates/cases.
use reference::cases::{answers, requests};
use std::{fs, io, path::Path};

fn main() -> io::Result<()> {
    let folder = Path::new(env!("CARGO_MANIFEST_DIR")).join("../../crates/cases");
    let requests = requests();
    fs::write(folder.join("stdout"), answers(&requests))?;
    fs::write(folder.join("stdin"), requests)
}
