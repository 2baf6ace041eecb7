//! `ridefile`: commands on standard input, one printed line for each.

use std::io::{self, Read, Write};
use twin::ridefile::{run, LONGEST_INPUT};

fn main() -> io::Result<()> {
    let mut input = Vec::with_capacity(LONGEST_INPUT);
    io::stdin().lock().take(LONGEST_INPUT as u64).read_to_end(&mut input)?;
    io::stdout().lock().write_all(&run(&input))
}
