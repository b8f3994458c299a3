//! From the fields of a JSON object to what they say, for the readers with a tree.

use crate::model::{Caps, Descriptor, GroupConfig, QueueConfig, Step};

/// A JSON object whose fields can be asked for.
pub trait Object {
    fn number(&self, key: &str) -> Option<u64>;
    fn truth(&self, key: &str) -> Option<bool>;
    fn text(&self, key: &str) -> Option<&str>;

    /// The number, if it fits its field.
    fn field<T: TryFrom<u64>>(&self, key: &str) -> Option<T> {
        T::try_from(self.number(key)?).ok()
    }

    fn descriptor(&self) -> Option<Descriptor> {
        Descriptor::from_hex(self.text("desc")?)
    }
}

pub fn caps_of(object: &impl Object) -> Option<Caps> {
    Some(Caps {
        queues: object.field("queues")?,
        groups: object.field("groups")?,
        engines: object.field("engines")?,
        total_size: object.field("total_size")?,
        read_buffers: object.field("read_buffers")?,
        slots: object.field("slots")?,
        max_batch_shift: object.field("max_batch_shift")?,
        max_xfer_shift: object.field("max_xfer_shift")?,
    })
}

fn queue_config(object: &impl Object) -> Option<QueueConfig> {
    Some(QueueConfig {
        size: object.field("size")?,
        threshold: object.field("threshold")?,
        dedicated: object.truth("dedicated")?,
        priority: object.field("priority")?,
        pasid: object.field("pasid")?,
        batch: object.field("batch")?,
        xfer: object.field("xfer")?,
    })
}

fn group_config(object: &impl Object) -> Option<GroupConfig> {
    Some(GroupConfig {
        queues: object.field("queues")?,
        engines: object.field("engines")?,
        reserved: object.field("reserved")?,
        allowed: object.field("allowed")?,
    })
}

pub fn step_of(object: &impl Object) -> Option<Step> {
    let step = match object.text("do")? {
        "queue" => Step::Queue {
            queue: object.field("queue")?,
            config: queue_config(object)?,
        },
        "group" => Step::Group {
            group: object.field("group")?,
            config: group_config(object)?,
        },
        "enqcmd" => {
            object.field::<u16>("client")?;
            Step::Enqcmd {
                queue: object.field("queue")?,
                limited: object.truth("limited")?,
                pasid: object.field("pasid")?,
                desc: object.descriptor()?,
            }
        }
        "movdir" => {
            object.field::<u16>("client")?;
            Step::Movdir {
                queue: object.field("queue")?,
                limited: object.truth("limited")?,
                desc: object.descriptor()?,
            }
        }
        "dispatch" => Step::Dispatch {
            engine: object.field("engine")?,
        },
        "fetch" => Step::Fetch {
            engine: object.field("engine")?,
            desc: object.descriptor()?,
        },
        "start" => Step::Start {
            engine: object.field("engine")?,
        },
        "finish" => Step::Finish {
            engine: object.field("engine")?,
            name: object.field("name")?,
            fault: object.truth("fault")?,
        },
        "command" => Step::Command {
            word: object.field("word")?,
        },
        "poll" => Step::Poll,
        "clear" => Step::Clear,
        _ => return None,
    };
    Some(step)
}
