//! Lists the parts of the record on standard input.

use reference::partlist::{partlist, LONGEST_INPUT};
use std::io::{self, Read, Write};

fn main() -> io::Result<()> {
    // One byte more than is taken tells an input that is too long.
    let mut record = Vec::new();
    io::stdin()
        .lock()
        .take(LONGEST_INPUT as u64 + 1)
        .read_to_end(&mut record)?;
    io::stdout().lock().write_all(partlist(&record).as_bytes())
}
