//! Writes the tour's disk: `tour FILE`.

use std::error::Error;

fn main() -> Result<(), Box<dyn Error>> {
    let file = std::env::args_os().nth(1).ok_or("which file?")?;
    Ok(std::fs::write(file, model::tour::disk())?)
}
