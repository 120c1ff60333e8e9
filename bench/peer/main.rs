//! Counts lines by hashbrown: writes each distinct line of standard input behind how often it occurs.

use hashbrown::HashMap;
use std::io::{self, BufWriter, Write};

fn main() -> io::Result<()> {
    let text = io::read_to_string(io::stdin())?;
    let mut counts: HashMap<&str, u64> = HashMap::new();
    for line in text.lines() {
        *counts.entry(line).or_default() += 1;
    }
    let mut output = BufWriter::new(io::stdout().lock());
    for (line, count) in &counts {
        writeln!(output, "{count} {line}")?;
    }
    output.flush()
}
