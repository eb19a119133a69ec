//! The program `second`: reads standard input, and prints as `sheets` does.

#![forbid(unsafe_code)]

use second::print::sheets;
use second::rules::Rules;
use second::sizes::INPUT_BYTES;
use std::io::{Read, Write};

fn main() -> std::io::Result<()> {
    // One byte past the most is enough to know that there is too much.
    let mut input = Vec::new();
    std::io::stdin().lock().take(INPUT_BYTES as u64 + 1).read_to_end(&mut input)?;
    let output = sheets(Rules::UNTURNED, &input);
    std::io::stdout().lock().write_all(output.as_bytes())
}
