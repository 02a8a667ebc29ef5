//! The second program's listing of standard input.

use compare::second::listing::list;
use std::io::{self, Read, Write};

fn main() -> io::Result<()> {
    let mut input = Vec::new();
    io::stdin().read_to_end(&mut input)?;
    io::stdout().write_all(list(&input).as_bytes())
}
