//! The yardstick `plain`: reads the document into a tree that owns its texts, as serde_json's
//! `Value` does, then makes the steps.

mod lines;
mod model;
mod program;
mod reader;
mod steps;

use lines::Run;
use program::Flaw;
use reader::Reader;
use std::collections::BTreeMap;
use std::process::ExitCode;
use steps::{caps_of, step_of, Object};

enum Json {
    Null,
    Truth(bool),
    /// A number, if it is whole and has 64 bits.
    Number(Option<u64>),
    Text(String),
    List(Vec<Json>),
    Object(BTreeMap<String, Json>),
}

impl Json {
    fn read(reader: &mut Reader) -> Result<Json, Flaw> {
        Ok(match reader.peek() {
            Some(b'{') => {
                let mut members = BTreeMap::new();
                reader.object(|reader, key| {
                    members.insert(key.into_owned(), Json::read(reader)?);
                    Ok(())
                })?;
                Json::Object(members)
            }
            Some(b'[') => {
                let mut items = Vec::new();
                reader.list(|reader| {
                    items.push(Json::read(reader)?);
                    Ok(())
                })?;
                Json::List(items)
            }
            Some(b'"') => Json::Text(reader.text()?.into_owned()),
            Some(b'-' | b'0'..=b'9') => Json::Number(reader.number()?),
            _ => reader.word()?.map_or(Json::Null, Json::Truth),
        })
    }

    fn get(&self, key: &str) -> Option<&Json> {
        let Json::Object(members) = self else {
            return None;
        };
        members.get(key)
    }
}

impl Object for Json {
    fn number(&self, key: &str) -> Option<u64> {
        match self.get(key)? {
            Json::Number(number) => *number,
            _ => None,
        }
    }

    fn truth(&self, key: &str) -> Option<bool> {
        match self.get(key)? {
            Json::Truth(truth) => Some(*truth),
            _ => None,
        }
    }

    fn text(&self, key: &str) -> Option<&str> {
        match self.get(key)? {
            Json::Text(text) => Some(text),
            _ => None,
        }
    }
}

fn lines_of(bytes: &[u8]) -> Result<Vec<u8>, Flaw> {
    let mut reader = Reader::new(bytes)?;
    let document = Json::read(&mut reader)?;
    reader.end()?;
    let caps = document
        .get("caps")
        .and_then(caps_of)
        .ok_or(Flaw::BadDocument)?;
    let capacity = document.number("capacity").ok_or(Flaw::BadDocument)?;
    let Some(Json::List(steps)) = document.get("steps") else {
        return Err(Flaw::BadDocument);
    };
    let mut run = Run::new(caps, capacity)?;
    for (number, step) in steps.iter().enumerate() {
        run.step(step_of(step).ok_or(Flaw::BadStep(number))?);
    }
    Ok(run.into_lines())
}

fn main() -> ExitCode {
    program::run(lines_of)
}
