//! What each yardstick does beside reading its document: input, output and exit status.

use crate::model::Refusal;
use std::io::{Read, Write};
use std::process::ExitCode;

const MOST_BYTES: usize = 1 << 20;

/// Why a document has no lines.
pub enum Flaw {
    NotJson,
    BadDocument,
    BadStep(usize),
    BadCaps,
    BadCapacity,
}

impl From<Refusal> for Flaw {
    fn from(refusal: Refusal) -> Flaw {
        match refusal {
            Refusal::BadCaps => Flaw::BadCaps,
            Refusal::BadCapacity => Flaw::BadCapacity,
        }
    }
}

impl Flaw {
    fn text(&self) -> String {
        match self {
            Flaw::NotJson => "not JSON".into(),
            Flaw::BadDocument => "bad document".into(),
            Flaw::BadStep(number) => format!("bad step {number}"),
            Flaw::BadCaps => "bad caps".into(),
            Flaw::BadCapacity => "bad capacity".into(),
        }
    }
}

fn fail(text: &str) -> ExitCode {
    eprintln!("dsa_run: {text}");
    ExitCode::FAILURE
}

/// Reads the document on standard input, makes its lines, and writes them at once.
pub fn run(lines_of: fn(&[u8]) -> Result<Vec<u8>, Flaw>) -> ExitCode {
    let mut bytes = Vec::new();
    if std::io::stdin()
        .take(MOST_BYTES as u64 + 1)
        .read_to_end(&mut bytes)
        .is_err()
    {
        return fail("read failed");
    }
    if bytes.len() > MOST_BYTES {
        return fail("document too long");
    }
    match lines_of(&bytes) {
        Err(flaw) => fail(&flaw.text()),
        Ok(lines) => match std::io::stdout().write_all(&lines) {
            Ok(()) => ExitCode::SUCCESS,
            Err(_) => fail("write failed"),
        },
    }
}
