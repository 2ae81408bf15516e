//! rows SECTION: address, file and line of each row of a little-endian section.
use boxantrel::{Order, Section};
use std::error::Error;

fn main() -> Result<(), Box<dyn Error>> {
    let path = std::env::args().nth(1).ok_or("rows SECTION")?;
    let bytes = std::fs::read(path)?;
    let section = Section::new(&bytes, Order::Little);
    for unit in section.units() {
        for row in section.rows_at(unit?.offset) {
            let row = row?;
            println!("{:#x} {} {}", row.address, row.file, row.line);
        }
    }
    Ok(())
}
