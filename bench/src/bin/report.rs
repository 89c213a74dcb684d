//! Reads a case from standard input and writes its lines, as the program does.

use std::io::{Read, Write};

fn main() -> std::io::Result<()> {
    let mut file = Vec::new();
    std::io::stdin().lock().read_to_end(&mut file)?;
    std::io::stdout().lock().write_all(&bench::report(&file))
}
