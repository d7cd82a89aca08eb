//! A program's text beside the reading's.

use std::io::{self, ErrorKind, Write};
use std::process::{Command, Stdio};

use cse_reference::hex;

/// Where the programs are, once `tools/build_programs.sh` has built them.
const PROGRAMS: &str = concat!(env!("CARGO_MANIFEST_DIR"), "/../../target/bin");

/// What is wrong with what a program prints of a forest, if it is not that text.
pub fn difference(program: &str, forest: &[u8], expected: &str) -> Option<String> {
    match printed(program, forest) {
        Ok(text) if text == expected.as_bytes() => None,
        Ok(text) => Some(format!(
            "{:?} and not {expected:?}: {}",
            String::from_utf8_lossy(&text),
            hex::print(forest)
        )),
        Err(error) => Some(format!("{PROGRAMS}/{program}: {error}")),
    }
}

fn printed(program: &str, forest: &[u8]) -> io::Result<Vec<u8>> {
    let mut child = Command::new(format!("{PROGRAMS}/{program}"))
        .stdin(Stdio::piped())
        .stdout(Stdio::piped())
        .spawn()?;
    let mut stdin = child.stdin.take().expect("it is piped");
    match stdin.write_all(forest) {
        // Of a forest that is too long it reads no more than it takes to refuse it.
        Err(error) if error.kind() == ErrorKind::BrokenPipe => {}
        written => written?,
    }
    drop(stdin);
    let output = child.wait_with_output()?;
    match output.status.success() {
        true => Ok(output.stdout),
        false => Err(io::Error::other(output.status.to_string())),
    }
}
