//! The yardstick `derived`: reads the document into types that serde derives, then makes the steps.

mod lines;
mod model;
mod program;

use lines::Run;
use model::{Caps, Descriptor, GroupConfig, QueueConfig, Step};
use program::Flaw;
use serde::Deserialize;
use std::borrow::Cow;
use std::process::ExitCode;

#[derive(Deserialize)]
struct CapsObject {
    queues: u16,
    groups: u16,
    engines: u16,
    total_size: u16,
    read_buffers: u16,
    slots: u16,
    max_batch_shift: u8,
    max_xfer_shift: u8,
}

#[derive(Deserialize)]
#[serde(tag = "do", rename_all = "lowercase")]
enum StepObject<'t> {
    Queue {
        queue: u16,
        size: u16,
        threshold: u16,
        dedicated: bool,
        priority: u8,
        pasid: u32,
        batch: u8,
        xfer: u8,
    },
    Group {
        group: u16,
        queues: u64,
        engines: u64,
        reserved: u16,
        allowed: u16,
    },
    Enqcmd {
        #[allow(dead_code)] // has to be there, and no answer depends on it
        client: u16,
        queue: u16,
        limited: bool,
        pasid: u32,
        #[serde(borrow)]
        desc: Cow<'t, str>,
    },
    Movdir {
        #[allow(dead_code)] // the same
        client: u16,
        queue: u16,
        limited: bool,
        #[serde(borrow)]
        desc: Cow<'t, str>,
    },
    Dispatch {
        engine: u16,
    },
    Fetch {
        engine: u16,
        #[serde(borrow)]
        desc: Cow<'t, str>,
    },
    Start {
        engine: u16,
    },
    Finish {
        engine: u16,
        name: u32,
        fault: bool,
    },
    Command {
        word: u32,
    },
    Poll,
    Clear,
}

#[derive(Deserialize)]
struct Document<'t> {
    caps: CapsObject,
    capacity: u64,
    #[serde(borrow)]
    steps: Vec<StepObject<'t>>,
}

impl From<CapsObject> for Caps {
    fn from(object: CapsObject) -> Caps {
        Caps {
            queues: object.queues,
            groups: object.groups,
            engines: object.engines,
            total_size: object.total_size,
            read_buffers: object.read_buffers,
            slots: object.slots,
            max_batch_shift: object.max_batch_shift,
            max_xfer_shift: object.max_xfer_shift,
        }
    }
}

/// The step that an object says. `None` if its descriptor is none.
fn step_of(object: &StepObject) -> Option<Step> {
    Some(match *object {
        StepObject::Queue {
            queue,
            size,
            threshold,
            dedicated,
            priority,
            pasid,
            batch,
            xfer,
        } => {
            let config = QueueConfig {
                size,
                threshold,
                dedicated,
                priority,
                pasid,
                batch,
                xfer,
            };
            Step::Queue { queue, config }
        }
        StepObject::Group {
            group,
            queues,
            engines,
            reserved,
            allowed,
        } => Step::Group {
            group,
            config: GroupConfig {
                queues,
                engines,
                reserved,
                allowed,
            },
        },
        StepObject::Enqcmd {
            queue,
            limited,
            pasid,
            ref desc,
            ..
        } => Step::Enqcmd {
            queue,
            limited,
            pasid,
            desc: Descriptor::from_hex(desc)?,
        },
        StepObject::Movdir {
            queue,
            limited,
            ref desc,
            ..
        } => Step::Movdir {
            queue,
            limited,
            desc: Descriptor::from_hex(desc)?,
        },
        StepObject::Dispatch { engine } => Step::Dispatch { engine },
        StepObject::Fetch { engine, ref desc } => Step::Fetch {
            engine,
            desc: Descriptor::from_hex(desc)?,
        },
        StepObject::Start { engine } => Step::Start { engine },
        StepObject::Finish {
            engine,
            name,
            fault,
        } => Step::Finish {
            engine,
            name,
            fault,
        },
        StepObject::Command { word } => Step::Command { word },
        StepObject::Poll => Step::Poll,
        StepObject::Clear => Step::Clear,
    })
}

fn flaw_of(error: serde_json::Error) -> Flaw {
    if error.is_data() {
        Flaw::BadDocument
    } else {
        Flaw::NotJson
    }
}

fn lines_of(bytes: &[u8]) -> Result<Vec<u8>, Flaw> {
    let document: Document = serde_json::from_slice(bytes).map_err(flaw_of)?;
    let mut run = Run::new(document.caps.into(), document.capacity)?;
    for (number, object) in document.steps.iter().enumerate() {
        run.step(step_of(object).ok_or(Flaw::BadStep(number))?);
    }
    Ok(run.into_lines())
}

fn main() -> ExitCode {
    program::run(lines_of)
}
