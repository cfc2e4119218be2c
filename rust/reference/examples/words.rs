//! Writes the bytes of the words that standard input has as `kind:value`, with comments in lines
//! that begin with `#`.

use reference::{bytes_of, words_from};
use std::io::{self, Read, Write};

fn main() -> io::Result<()> {
    let mut text = String::new();
    io::stdin().read_to_string(&mut text)?;
    io::stdout().write_all(&bytes_of(&words_from(&text)))
}
