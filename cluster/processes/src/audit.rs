//! The audit of all messages that left, by the program `ramseg audit`.

use sevunthi::trace;
use std::io::{self, Write};
use std::path::{Path, PathBuf};
use std::process::{Command, Stdio};

/// The program that audits.
pub struct Audit {
    program: PathBuf,
}

impl Audit {
    /// The audit by this program.
    pub fn by(program: &Path) -> Audit {
        Audit { program: program.to_path_buf() }
    }

    /// Whether the audit of these messages, in the order in which they left, is clean.
    ///
    /// # Errors
    ///
    /// The program can't be run, or neither finds a breach nor none.
    pub fn is_clean(&self, sent: &[Vec<u8>]) -> io::Result<bool> {
        let rows: Vec<String> = sent.iter().filter_map(|message| trace::row(message)).collect();
        let mut child =
            Command::new(&self.program).arg("audit").stdin(Stdio::piped()).stdout(Stdio::piped()).spawn()?;
        if let Some(mut input) = child.stdin.take() {
            writeln!(input, "{{\"format\":1,\"messages\":[{}]}}", rows.join(",\n"))?;
        }
        let output = child.wait_with_output()?;
        match (output.status.code(), String::from_utf8_lossy(&output.stdout).lines().last()) {
            (Some(0), Some("audit clean")) => Ok(true),
            (Some(1), _) => Ok(false),
            (_, last) => Err(io::Error::other(format!("the audit says {:?}", last.unwrap_or("")))),
        }
    }
}
