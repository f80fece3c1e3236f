//! Reads a log on standard input and shows each action, 16 bytes a line, with
//! what it means.

use std::io::{self, Read, Write};

use reference::actions::meaning;
use reference::layout::ACTION;

fn main() -> io::Result<()> {
    let mut log = Vec::new();
    io::stdin().read_to_end(&mut log)?;
    let mut out = io::stdout().lock();
    let (actions, rest) = log.as_chunks::<ACTION>();
    for action in actions {
        for byte in action {
            write!(out, "{byte:02x} ")?;
        }
        writeln!(out, " {}", meaning(action))?;
    }
    if !rest.is_empty() {
        writeln!(out, "{} bytes that are no action", rest.len())?;
    }
    Ok(())
}
