//! Prints a generated sheet: `sheets [SEED]`.

use model::draw::Draw;
use model::sheets;
use std::io::{self, Write};

fn main() -> io::Result<()> {
    let seed = std::env::args().nth(1).and_then(|w| w.parse().ok()).unwrap_or(1);
    io::stdout().write_all(&sheets::sheet(&mut Draw::new(seed)))
}
