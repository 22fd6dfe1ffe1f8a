//! Prints test sheets: without an argument the names of the special sheets, with a number the generated sheet of that
//! seed, with a name the special sheet of that name.

use reference::{generate, special::special};
use std::io::{self, Write};

fn main() -> io::Result<()> {
    let mut out = io::stdout();
    let Some(argument) = std::env::args().nth(1) else {
        for (name, _) in special() {
            writeln!(out, "{name}")?;
        }
        return Ok(());
    };
    if let Ok(seed) = argument.parse() {
        return out.write_all(&generate::sheet(seed));
    }
    match special().into_iter().find(|(name, _)| *name == argument) {
        Some((_, sheet)) => out.write_all(&sheet),
        None => Err(io::Error::other(format!("no special sheet has the name {argument}"))),
    }
}
