//! The lines of a run, as docs/SCENARIO.md has them.

use crate::model::{Answer, Caps, Cause, Device, Ended, Fate, Fault, Refusal, Step};

const FAULTS: [&str; 21] = [
    "",
    "SizesTooLarge",
    "TwoGroups",
    "ReservedTooMany",
    "AllowedOutOfRange",
    "GroupWithoutEngine",
    "GroupWithoutQueue",
    "SizeZero",
    "PriorityZero",
    "ThresholdZero",
    "ThresholdAboveSize",
    "BatchTooLarge",
    "NoGroup",
    "BadCommand",
    "BadQueue",
    "Locked",
    "WrongState",
    "Busy",
    "PriorityTooLarge",
    "TransferTooLarge",
    "BadIndex",
];

/// A text that lines are added to.
#[derive(Default)]
struct Lines {
    bytes: Vec<u8>,
}

impl Lines {
    fn text(&mut self, text: &str) -> &mut Lines {
        self.bytes.extend_from_slice(text.as_bytes());
        self
    }

    fn number(&mut self, mut number: u32) -> &mut Lines {
        let mut digits = [0; 10];
        let mut first = digits.len();
        loop {
            first -= 1;
            digits[first] = b'0' + (number % 10) as u8;
            number /= 10;
            if number == 0 {
                break;
            }
        }
        self.bytes.extend_from_slice(&digits[first..]);
        self
    }

    fn hex(&mut self, byte: u8) -> &mut Lines {
        const DIGITS: &[u8; 16] = b"0123456789abcdef";
        let (high, low) = (usize::from(byte >> 4), usize::from(byte & 15));
        self.bytes.extend_from_slice(&[DIGITS[high], DIGITS[low]]);
        self
    }

    fn end(&mut self) {
        self.bytes.push(b'\n');
    }

    fn answer(&mut self, answer: &Answer) {
        match answer {
            Answer::Full => self.text("full"),
            Answer::Written => self.text("written"),
            Answer::Refused(fault) => self.refused(*fault),
            Answer::Accepted(name) => self.text("accepted ").number(*name),
            Answer::Retry(cause) => self.text("retry ").text(cause_text(*cause)),
            Answer::Dropped(cause) => self.text("dropped ").text(cause_text(*cause)),
            Answer::Taken { name, queue } => self
                .text("taken ")
                .number(*name)
                .text(" from ")
                .number((*queue).into()),
            Answer::Idle => self.text("idle"),
            Answer::Fetched(name) => self.text("fetched ").number(*name),
            Answer::NoBatch => self.text("no-batch"),
            Answer::AllFetched => self.text("all-fetched"),
            Answer::Started(name) => self.text("started ").number(*name),
            Answer::FenceWait => self.text("fence-wait"),
            Answer::NoBuffers => self.text("no-buffers"),
            Answer::Abandoned(count) => self.text("abandoned ").number(*count as u32),
            Answer::Nothing => self.text("nothing"),
            Answer::Done(status) => self.text("done ").hex(*status),
            Answer::NotReady => self.text("not-ready"),
            Answer::Gone => self.text("gone"),
            Answer::Ended(count) => self.text("ended ").number(*count as u32),
            Answer::Active | Answer::StillActive => self.text("active"),
            Answer::Finished => self.text("finished"),
            Answer::Cleared(noted) => self
                .text("cleared ")
                .number(noted.queue.into())
                .text(" ")
                .text(cause_text(noted.cause))
                .text(if noted.overflow { " overflow" } else { "" }),
        }
        .end();
    }

    fn refused(&mut self, fault: Fault) -> &mut Lines {
        let number = fault as u32;
        self.text("refused ")
            .number(number)
            .text(" ")
            .text(FAULTS[number as usize])
    }

    fn ended(&mut self, ended: &Ended) {
        self.text("fate ").number(ended.name).text(" ");
        match ended.batch {
            Some(batch) => self.number(batch),
            None => self.text("-"),
        };
        match ended.fate {
            Fate::Completed(status) => self.text(" completed ").hex(status),
            Fate::Aborted(number) => self.text(" aborted ").number(number.into()),
            Fate::Abandoned => self.text(" abandoned"),
        }
        .end();
    }
}

fn cause_text(cause: Cause) -> &'static str {
    match cause {
        Cause::AtLimit => "at-limit",
        Cause::NotEnabled => "not-enabled",
        Cause::WrongKind => "wrong-kind",
    }
}

/// A run: a device and the lines of the steps that it made.
pub struct Run {
    device: Device,
    lines: Lines,
}

impl Run {
    pub fn new(caps: Caps, capacity: u64) -> Result<Run, Refusal> {
        Ok(Run {
            device: Device::new(caps, capacity)?,
            lines: Lines::default(),
        })
    }

    pub fn step(&mut self, step: Step) {
        self.lines.answer(&self.device.step(step));
    }

    /// All lines: those of the steps, then those of the entries that ended.
    pub fn into_lines(mut self) -> Vec<u8> {
        for ended in self.device.ended() {
            self.lines.ended(ended);
        }
        self.lines.bytes
    }
}
