//! The program `reference`: reads all of standard input and writes the answers to standard output.

use std::io::{BufWriter, Read, Write};

fn main() {
    // The console ends with status 0 whatever it read, so a broken input or output is no failure either:
    // what could be read is answered, as far as it can be written.
    let mut input = Vec::new();
    let _ = std::io::stdin().lock().read_to_end(&mut input);
    let mut output = BufWriter::new(std::io::stdout().lock());
    let _ = reference::console::run(&input, &mut output);
    let _ = output.flush();
}
