//! The programs: what one of them prints for bytes on its standard input.

use std::io::{ErrorKind, Write};
use std::path::Path;
use std::process::{Command, Stdio};

/// What the program of this name prints, or how it ends instead; panics where it is missing. It may
/// end before it has read an input that is longer than it reads.
pub fn printed(name: &str, input: &[u8]) -> Result<String, String> {
    let crates = Path::new(env!("CARGO_MANIFEST_DIR")).join("../../crates");
    let program = crates.join(name).join("out").join(name);
    let mut child = Command::new(&program)
        .stdin(Stdio::piped())
        .stdout(Stdio::piped())
        .spawn()
        .unwrap_or_else(|error| {
            panic!(
                "`rt run` in crates/{name} writes {}: {error}",
                program.display()
            )
        });
    let mut stdin = child.stdin.take().expect("standard input is a pipe");
    if let Err(error) = stdin.write_all(input) {
        assert_eq!(error.kind(), ErrorKind::BrokenPipe, "{error}");
    }
    drop(stdin);
    let output = child.wait_with_output().expect("the program ends");
    if output.status.code().is_none() {
        return Err("ended by a signal".to_string());
    }
    String::from_utf8(output.stdout).map_err(|error| format!("no text: {error}"))
}
