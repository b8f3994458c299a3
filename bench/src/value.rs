//! The yardstick `value`: reads the document into the `Value` of serde_json, then makes the steps.

mod lines;
mod model;
mod program;
mod steps;

use lines::Run;
use program::Flaw;
use serde_json::Value;
use std::process::ExitCode;
use steps::{caps_of, step_of, Object};

impl Object for Value {
    fn number(&self, key: &str) -> Option<u64> {
        self.get(key)?.as_u64()
    }

    fn truth(&self, key: &str) -> Option<bool> {
        self.get(key)?.as_bool()
    }

    fn text(&self, key: &str) -> Option<&str> {
        self.get(key)?.as_str()
    }
}

fn lines_of(bytes: &[u8]) -> Result<Vec<u8>, Flaw> {
    let document: Value = serde_json::from_slice(bytes).map_err(|_| Flaw::NotJson)?;
    let caps = document
        .get("caps")
        .and_then(caps_of)
        .ok_or(Flaw::BadDocument)?;
    let capacity = document.number("capacity").ok_or(Flaw::BadDocument)?;
    let steps = document
        .get("steps")
        .and_then(Value::as_array)
        .ok_or(Flaw::BadDocument)?;
    let mut run = Run::new(caps, capacity)?;
    for (number, step) in steps.iter().enumerate() {
        run.step(step_of(step).ok_or(Flaw::BadStep(number))?);
    }
    Ok(run.into_lines())
}

fn main() -> ExitCode {
    program::run(lines_of)
}
