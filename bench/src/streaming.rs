//! The yardstick `streaming`: makes each step as soon as its object is read, without a tree.

mod lines;
mod model;
mod program;
mod reader;

use lines::Run;
use model::{Caps, Descriptor, GroupConfig, QueueConfig, Step};
use program::Flaw;
use reader::Reader;
use std::borrow::Cow;
use std::process::ExitCode;

/// Goes past a value.
fn skip(reader: &mut Reader) -> Result<(), Flaw> {
    match reader.peek() {
        Some(b'{') => reader.object(|reader, _| skip(reader)),
        Some(b'[') => reader.list(skip),
        Some(b'"') => reader.text().map(drop),
        Some(b'-' | b'0'..=b'9') => reader.number().map(drop),
        _ => reader.word().map(drop),
    }
}

/// The number, if it fits its field.
fn narrow<T: TryFrom<u64>>(number: Option<u64>) -> Option<T> {
    T::try_from(number?).ok()
}

fn read_number(reader: &mut Reader) -> Result<Option<u64>, Flaw> {
    match reader.peek() {
        Some(b'-' | b'0'..=b'9') => reader.number(),
        _ => skip(reader).map(|()| None),
    }
}

fn read_truth(reader: &mut Reader) -> Result<Option<bool>, Flaw> {
    match reader.peek() {
        Some(b't' | b'f') => reader.word(),
        _ => skip(reader).map(|()| None),
    }
}

fn read_text<'t>(reader: &mut Reader<'t>) -> Result<Option<Cow<'t, str>>, Flaw> {
    match reader.peek() {
        Some(b'"') => reader.text().map(Some),
        _ => skip(reader).map(|()| None),
    }
}

#[derive(Default)]
struct CapsFields {
    queues: Option<u64>,
    groups: Option<u64>,
    engines: Option<u64>,
    total_size: Option<u64>,
    read_buffers: Option<u64>,
    slots: Option<u64>,
    max_batch_shift: Option<u64>,
    max_xfer_shift: Option<u64>,
}

impl CapsFields {
    fn caps(self) -> Option<Caps> {
        Some(Caps {
            queues: narrow(self.queues)?,
            groups: narrow(self.groups)?,
            engines: narrow(self.engines)?,
            total_size: narrow(self.total_size)?,
            read_buffers: narrow(self.read_buffers)?,
            slots: narrow(self.slots)?,
            max_batch_shift: narrow(self.max_batch_shift)?,
            max_xfer_shift: narrow(self.max_xfer_shift)?,
        })
    }
}

fn read_caps(reader: &mut Reader) -> Result<Option<Caps>, Flaw> {
    let mut fields = CapsFields::default();
    reader.object(|reader, key| {
        let field = match &*key {
            "queues" => &mut fields.queues,
            "groups" => &mut fields.groups,
            "engines" => &mut fields.engines,
            "total_size" => &mut fields.total_size,
            "read_buffers" => &mut fields.read_buffers,
            "slots" => &mut fields.slots,
            "max_batch_shift" => &mut fields.max_batch_shift,
            "max_xfer_shift" => &mut fields.max_xfer_shift,
            _ => return skip(reader),
        };
        *field = read_number(reader)?;
        Ok(())
    })?;
    Ok(fields.caps())
}

/// The keys of all kinds of steps, with what one step object has.
#[derive(Default)]
struct StepFields<'t> {
    kind: Option<Cow<'t, str>>,
    client: Option<u64>,
    queue: Option<u64>,
    group: Option<u64>,
    engine: Option<u64>,
    limited: Option<bool>,
    pasid: Option<u64>,
    desc: Option<Cow<'t, str>>,
    name: Option<u64>,
    fault: Option<bool>,
    word: Option<u64>,
    size: Option<u64>,
    threshold: Option<u64>,
    dedicated: Option<bool>,
    priority: Option<u64>,
    batch: Option<u64>,
    xfer: Option<u64>,
    queues: Option<u64>,
    engines: Option<u64>,
    reserved: Option<u64>,
    allowed: Option<u64>,
}

impl StepFields<'_> {
    fn queue_config(&self) -> Option<QueueConfig> {
        Some(QueueConfig {
            size: narrow(self.size)?,
            threshold: narrow(self.threshold)?,
            dedicated: self.dedicated?,
            priority: narrow(self.priority)?,
            pasid: narrow(self.pasid)?,
            batch: narrow(self.batch)?,
            xfer: narrow(self.xfer)?,
        })
    }

    fn group_config(&self) -> Option<GroupConfig> {
        Some(GroupConfig {
            queues: self.queues?,
            engines: self.engines?,
            reserved: narrow(self.reserved)?,
            allowed: narrow(self.allowed)?,
        })
    }

    fn descriptor(&self) -> Option<Descriptor> {
        Descriptor::from_hex(self.desc.as_deref()?)
    }

    fn step(&self) -> Option<Step> {
        let step = match self.kind.as_deref()? {
            "queue" => Step::Queue {
                queue: narrow(self.queue)?,
                config: self.queue_config()?,
            },
            "group" => Step::Group {
                group: narrow(self.group)?,
                config: self.group_config()?,
            },
            "enqcmd" => {
                narrow::<u16>(self.client)?;
                Step::Enqcmd {
                    queue: narrow(self.queue)?,
                    limited: self.limited?,
                    pasid: narrow(self.pasid)?,
                    desc: self.descriptor()?,
                }
            }
            "movdir" => {
                narrow::<u16>(self.client)?;
                Step::Movdir {
                    queue: narrow(self.queue)?,
                    limited: self.limited?,
                    desc: self.descriptor()?,
                }
            }
            "dispatch" => Step::Dispatch {
                engine: narrow(self.engine)?,
            },
            "fetch" => Step::Fetch {
                engine: narrow(self.engine)?,
                desc: self.descriptor()?,
            },
            "start" => Step::Start {
                engine: narrow(self.engine)?,
            },
            "finish" => Step::Finish {
                engine: narrow(self.engine)?,
                name: narrow(self.name)?,
                fault: self.fault?,
            },
            "command" => Step::Command {
                word: narrow(self.word)?,
            },
            "poll" => Step::Poll,
            "clear" => Step::Clear,
            _ => return None,
        };
        Some(step)
    }
}

fn read_step(reader: &mut Reader) -> Result<Option<Step>, Flaw> {
    if reader.peek() != Some(b'{') {
        return skip(reader).map(|()| None);
    }
    let mut fields = StepFields::default();
    reader.object(|reader, key| {
        match &*key {
            "do" => fields.kind = read_text(reader)?,
            "client" => fields.client = read_number(reader)?,
            "queue" => fields.queue = read_number(reader)?,
            "group" => fields.group = read_number(reader)?,
            "engine" => fields.engine = read_number(reader)?,
            "limited" => fields.limited = read_truth(reader)?,
            "pasid" => fields.pasid = read_number(reader)?,
            "desc" => fields.desc = read_text(reader)?,
            "name" => fields.name = read_number(reader)?,
            "fault" => fields.fault = read_truth(reader)?,
            "word" => fields.word = read_number(reader)?,
            "size" => fields.size = read_number(reader)?,
            "threshold" => fields.threshold = read_number(reader)?,
            "dedicated" => fields.dedicated = read_truth(reader)?,
            "priority" => fields.priority = read_number(reader)?,
            "batch" => fields.batch = read_number(reader)?,
            "xfer" => fields.xfer = read_number(reader)?,
            "queues" => fields.queues = read_number(reader)?,
            "engines" => fields.engines = read_number(reader)?,
            "reserved" => fields.reserved = read_number(reader)?,
            "allowed" => fields.allowed = read_number(reader)?,
            _ => skip(reader)?,
        }
        Ok(())
    })?;
    Ok(fields.step())
}

fn read_steps(reader: &mut Reader, run: &mut Run) -> Result<(), Flaw> {
    let mut number = 0;
    reader.list(|reader| {
        run.step(read_step(reader)?.ok_or(Flaw::BadStep(number))?);
        number += 1;
        Ok(())
    })
}

fn lines_of(bytes: &[u8]) -> Result<Vec<u8>, Flaw> {
    let mut reader = Reader::new(bytes)?;
    let (mut caps, mut capacity, mut run, mut passed) = (None, None, None, None);
    reader.object(|reader, key| {
        match &*key {
            "caps" => caps = read_caps(reader)?,
            "capacity" => capacity = read_number(reader)?,
            "steps" => match (caps, capacity) {
                (Some(caps), Some(capacity)) => {
                    read_steps(reader, run.insert(Run::new(caps, capacity)?))?;
                }
                _ => {
                    passed = Some(reader.clone());
                    skip(reader)?;
                }
            },
            _ => skip(reader)?,
        }
        Ok(())
    })?;
    reader.end()?;
    // Steps that come before what they need are read again.
    if let (Some(mut steps), Some(caps), Some(capacity)) = (passed, caps, capacity) {
        read_steps(&mut steps, run.insert(Run::new(caps, capacity)?))?;
    }
    Ok(run.ok_or(Flaw::BadDocument)?.into_lines())
}

fn main() -> ExitCode {
    program::run(lines_of)
}
