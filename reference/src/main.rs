//! Reads a plan from standard input and prints its reports on standard output.

use std::io::{Read, Write};

fn main() -> std::io::Result<()> {
    let mut plan = Vec::new();
    std::io::stdin().lock().read_to_end(&mut plan)?;
    let mut out = std::io::stdout().lock();
    out.write_all(&reference::output(&plan))?;
    out.flush()
}
