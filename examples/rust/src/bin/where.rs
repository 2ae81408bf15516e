//! where FILE ADDRESS: path, line and column of an address, by an index that is made of the file.
use std::error::Error;

fn main() -> Result<(), Box<dyn Error>> {
    let words: Vec<String> = std::env::args().collect();
    let [_, file, address] = words.as_slice() else {
        return Err("where FILE ADDRESS".into());
    };
    let address = u64::from_str_radix(address.trim_start_matches("0x"), 16)?;
    let index = boxantrel::File::open(file)?.index()?;
    let at = index.find(address).ok_or("no row matches")?;
    println!("{}:{}:{}", String::from_utf8_lossy(&at.path()), at.line, at.column);
    Ok(())
}
