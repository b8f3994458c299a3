//! The device of docs/MODEL.md, in plain Rust.

use std::cmp::Reverse;
use std::collections::VecDeque;

const PASID_BITS: u32 = 0xf_ffff;
const MAX_CAPACITY: u64 = 1 << 20;
const SUCCESS: u8 = 0x01;

const BATCH: u8 = 0x01;
const DRAIN: u8 = 0x02;
const MEMORY_MOVE: u8 = 0x03;
const FILL: u8 = 0x04;
const COMPARE: u8 = 0x05;

const ENABLE_DEVICE: u8 = 1;
const DISABLE_DEVICE: u8 = 2;
const DRAIN_ALL: u8 = 3;
const ABORT_ALL: u8 = 4;
const RESET_DEVICE: u8 = 5;
const ENABLE_WQ: u8 = 6;
const DISABLE_WQ: u8 = 7;
const DRAIN_WQ: u8 = 8;
const ABORT_WQ: u8 = 9;
const RESET_WQ: u8 = 10;
const DRAIN_PASID: u8 = 11;
const ABORT_PASID: u8 = 12;

#[derive(Clone, Copy)]
pub struct Caps {
    pub queues: u16,
    pub groups: u16,
    pub engines: u16,
    pub total_size: u16,
    pub read_buffers: u16,
    pub slots: u16,
    pub max_batch_shift: u8,
    pub max_xfer_shift: u8,
}

impl Caps {
    fn are_in_range(&self) -> bool {
        (1..=64).contains(&self.queues)
            && (1..=8).contains(&self.groups)
            && (1..=64).contains(&self.engines)
            && (1..=4096).contains(&self.total_size)
            && (1..=255).contains(&self.read_buffers)
            && (1..=16).contains(&self.slots)
            && (1..=10).contains(&self.max_batch_shift)
            && self.max_xfer_shift <= 31
    }
}

#[derive(Clone, Copy, Default)]
pub struct QueueConfig {
    pub size: u16,
    pub threshold: u16,
    pub dedicated: bool,
    pub priority: u8,
    pub pasid: u32,
    pub batch: u8,
    pub xfer: u8,
}

#[derive(Clone, Copy, Default)]
pub struct GroupConfig {
    pub queues: u64,
    pub engines: u64,
    pub reserved: u16,
    pub allowed: u16,
}

/// What the model reads of a descriptor.
#[derive(Clone, Copy)]
pub struct Descriptor {
    fence: bool,
    operation: u8,
    size: u32,
}

fn digit(byte: u8) -> Option<u8> {
    match byte {
        b'0'..=b'9' => Some(byte - b'0'),
        b'a'..=b'f' => Some(byte - b'a' + 10),
        b'A'..=b'F' => Some(byte - b'A' + 10),
        _ => None,
    }
}

fn is_above(size: u32, shift: u8) -> bool {
    match 1u32.checked_shl(shift.into()) {
        Some(limit) => size > limit,
        None => false,
    }
}

impl Descriptor {
    /// Reads up to 64 bytes in hexadecimal. Those that are not given are zero.
    pub fn from_hex(text: &str) -> Option<Descriptor> {
        let digits = text.as_bytes();
        if digits.len() > 128 || digits.len() % 2 != 0 {
            return None;
        }
        let mut bytes = [0; 64];
        for (byte, pair) in bytes.iter_mut().zip(digits.chunks_exact(2)) {
            *byte = digit(pair[0])? << 4 | digit(pair[1])?;
        }
        Some(Descriptor {
            fence: bytes[4] & 1 == 1,
            operation: bytes[7],
            size: u32::from_le_bytes([bytes[32], bytes[33], bytes[34], bytes[35]]),
        })
    }

    /// The status that the first failed check gives.
    fn malformed(&self, is_member: bool, config: &QueueConfig) -> Option<u8> {
        match self.operation {
            BATCH | DRAIN if is_member => Some(0x10),
            operation if operation > COMPARE => Some(0x10),
            _ if self.fence && !is_member => Some(0x11),
            MEMORY_MOVE | FILL | COMPARE if self.size == 0 || is_above(self.size, config.xfer) => {
                Some(0x13)
            }
            BATCH if self.size < 2 || is_above(self.size, config.batch) => Some(0x14),
            _ => None,
        }
    }

    /// How many read buffers it needs if it is well formed.
    fn need(&self) -> u16 {
        match self.operation {
            MEMORY_MOVE | COMPARE => self.size.div_ceil(4096).min(4) as u16,
            _ => 0,
        }
    }
}

/// A descriptor that the device holds. A queue keeps its configuration as long as it has entries,
/// so an entry is checked once, when it comes in.
#[derive(Clone, Copy)]
struct Entry {
    name: u32,
    batch: Option<u32>,
    pasid: u32,
    queue: u16,
    need: u16,
    malformed: Option<u8>,
    desc: Descriptor,
}

impl Entry {
    fn new(
        name: u32,
        batch: Option<u32>,
        (queue, config): (u16, &QueueConfig),
        pasid: u32,
        desc: Descriptor,
    ) -> Entry {
        let malformed = desc.malformed(batch.is_some(), config);
        let need = if malformed.is_none() { desc.need() } else { 0 };
        Entry {
            name,
            batch,
            pasid,
            queue,
            need,
            malformed,
            desc,
        }
    }

    fn is(&self, operation: u8) -> bool {
        self.desc.operation == operation && self.malformed.is_none()
    }

    fn status(&self, fault: bool) -> u8 {
        match (self.malformed, self.desc.operation) {
            (Some(status), _) => status,
            (None, MEMORY_MOVE | FILL | COMPARE) if fault => 0x03,
            _ => SUCCESS,
        }
    }
}

#[derive(Clone, Copy, PartialEq, Eq, Default)]
enum Phase {
    #[default]
    Off,
    On,
    Stopping,
}

#[derive(Default)]
struct Queue {
    config: QueueConfig,
    phase: Phase,
    waiting: VecDeque<Entry>,
    /// How many entries are held that came through it, wherever they are.
    held: usize,
}

#[derive(Default)]
struct Group {
    config: GroupConfig,
    /// The read buffers that its running entries need.
    used: u16,
    turn: usize,
}

/// The batch that an engine works on.
struct Batch {
    name: u32,
    queue: u16,
    pasid: u32,
    count: u32,
    fetched: u32,
    failed: bool,
    closed: bool,
}

impl Batch {
    fn is_all_fetched(&self) -> bool {
        self.fetched == self.count || self.closed
    }
}

#[derive(Default)]
struct Engine {
    /// Its group, from Enable Device on.
    group: Option<usize>,
    progress: Vec<Entry>,
    batch: Option<Batch>,
    members: VecDeque<Entry>,
    /// How many of the members run: they are the first ones.
    started: usize,
}

#[derive(Clone, Copy)]
enum Scope {
    All,
    Queues(u64),
    Pasid(u32),
}

impl Scope {
    fn has(self, entry: &Entry) -> bool {
        match self {
            Scope::All => true,
            Scope::Queues(set) => set >> entry.queue & 1 == 1,
            Scope::Pasid(pasid) => entry.pasid == pasid,
        }
    }
}

/// The command that is active, with what it waits for.
#[derive(Clone, Copy)]
enum Active {
    Drain {
        scope: Scope,
        mark: u32,
        left: usize,
    },
    DisableDevice,
    DisableQueues(u64),
}

#[derive(Clone, Copy)]
pub enum Fault {
    SizesTooLarge = 1,
    TwoGroups = 2,
    ReservedTooMany = 3,
    AllowedOutOfRange = 4,
    GroupWithoutEngine = 5,
    GroupWithoutQueue = 6,
    SizeZero = 7,
    PriorityZero = 8,
    ThresholdZero = 9,
    ThresholdAboveSize = 10,
    BatchTooLarge = 11,
    NoGroup = 12,
    BadCommand = 13,
    BadQueue = 14,
    Locked = 15,
    WrongState = 16,
    Busy = 17,
    PriorityTooLarge = 18,
    TransferTooLarge = 19,
    BadIndex = 20,
}

#[derive(Clone, Copy)]
pub enum Cause {
    AtLimit,
    NotEnabled,
    WrongKind,
}

/// The first descriptor that was dropped since the last clearing.
#[derive(Clone, Copy)]
pub struct Noted {
    pub queue: u16,
    pub cause: Cause,
    pub overflow: bool,
}

pub enum Step {
    Queue {
        queue: u16,
        config: QueueConfig,
    },
    Group {
        group: u16,
        config: GroupConfig,
    },
    Enqcmd {
        queue: u16,
        limited: bool,
        pasid: u32,
        desc: Descriptor,
    },
    Movdir {
        queue: u16,
        limited: bool,
        desc: Descriptor,
    },
    Dispatch {
        engine: u16,
    },
    Fetch {
        engine: u16,
        desc: Descriptor,
    },
    Start {
        engine: u16,
    },
    Finish {
        engine: u16,
        name: u32,
        fault: bool,
    },
    Command {
        word: u32,
    },
    Poll,
    Clear,
}

pub enum Answer {
    Full,
    Written,
    Refused(Fault),
    Accepted(u32),
    Retry(Cause),
    Dropped(Cause),
    Taken { name: u32, queue: u16 },
    Idle,
    Fetched(u32),
    NoBatch,
    AllFetched,
    Started(u32),
    FenceWait,
    NoBuffers,
    Abandoned(usize),
    Nothing,
    Done(u8),
    NotReady,
    Gone,
    Ended(usize),
    Active,
    StillActive,
    Finished,
    Cleared(Noted),
}

impl Answer {
    fn is_stored(&self) -> bool {
        use Answer::*;
        match self {
            Accepted(_)
            | Retry(_)
            | Dropped(_)
            | Taken { .. }
            | Fetched(_)
            | Started(_)
            | Abandoned(_)
            | Done(_)
            | Ended(_)
            | Active
            | Finished
            | Written
            | Cleared(_) => true,
            Full | Refused(_) | Idle | NoBatch | AllFetched | FenceWait | NoBuffers | Nothing
            | NotReady | Gone | StillActive => false,
        }
    }
}

#[derive(Clone, Copy)]
pub enum Fate {
    Completed(u8),
    Aborted(u8),
    Abandoned,
}

/// An entry that has ended.
pub struct Ended {
    pub name: u32,
    pub batch: Option<u32>,
    pub fate: Fate,
}

impl Ended {
    fn new(entry: &Entry, fate: Fate) -> Ended {
        Ended {
            name: entry.name,
            batch: entry.batch,
            fate,
        }
    }
}

/// Why no device is made.
pub enum Refusal {
    BadCaps,
    BadCapacity,
}

pub struct Device {
    caps: Caps,
    capacity: u64,
    /// How many steps the history has.
    stored: u64,
    phase: Phase,
    queues: Vec<Queue>,
    groups: Vec<Group>,
    engines: Vec<Engine>,
    noted: Option<Noted>,
    active: Option<Active>,
    next_name: u32,
    ended: Vec<Ended>,
}

fn bits(mut set: u64) -> impl Iterator<Item = usize> {
    std::iter::from_fn(move || {
        let bit = (set != 0).then(|| set.trailing_zeros() as usize)?;
        set &= set - 1;
        Some(bit)
    })
}

fn fill<T: Default>(count: u16) -> Vec<T> {
    std::iter::repeat_with(T::default)
        .take(count.into())
        .collect()
}

impl Device {
    pub fn new(caps: Caps, capacity: u64) -> Result<Device, Refusal> {
        if !caps.are_in_range() {
            return Err(Refusal::BadCaps);
        }
        if capacity > MAX_CAPACITY {
            return Err(Refusal::BadCapacity);
        }
        Ok(Device {
            capacity,
            stored: 0,
            phase: Phase::Off,
            queues: fill(caps.queues),
            groups: fill(caps.groups),
            engines: fill(caps.engines),
            noted: None,
            active: None,
            next_name: 0,
            ended: Vec::new(),
            caps,
        })
    }

    /// The entries that have ended, in the order in which they did.
    pub fn ended(&self) -> &[Ended] {
        &self.ended
    }

    pub fn step(&mut self, step: Step) -> Answer {
        if let Step::Command { word } = step {
            if command_of(word).is_none() {
                return Answer::Refused(Fault::BadCommand);
            }
        }
        if self.stored >= self.capacity {
            return Answer::Full;
        }
        let answer = match step {
            Step::Queue { queue, config } => written(self.write_queue(queue, config)),
            Step::Group { group, config } => written(self.write_group(group, config)),
            Step::Enqcmd {
                queue,
                limited,
                pasid,
                desc,
            } => match self.submit(queue, limited, Some(pasid), desc) {
                Ok(name) => Answer::Accepted(name),
                Err(cause) => Answer::Retry(cause),
            },
            Step::Movdir {
                queue,
                limited,
                desc,
            } => match self.submit(queue, limited, None, desc) {
                Ok(name) => Answer::Accepted(name),
                Err(cause) => self.drop_submission(queue, cause),
            },
            Step::Dispatch { engine } => self.dispatch(engine.into()),
            Step::Fetch { engine, desc } => self.fetch(engine.into(), desc),
            Step::Start { engine } => self.start(engine.into()),
            Step::Finish {
                engine,
                name,
                fault,
            } => self.finish(engine.into(), name, fault),
            Step::Command { word } => self.issue(word).unwrap_or_else(Answer::Refused),
            Step::Poll => self.poll(),
            Step::Clear => self.noted.take().map_or(Answer::Nothing, Answer::Cleared),
        };
        if answer.is_stored() {
            self.stored += 1;
        }
        answer
    }

    fn write_queue(&mut self, number: u16, config: QueueConfig) -> Result<(), Fault> {
        let is_off = self.phase == Phase::Off;
        let queue = self
            .queues
            .get_mut(usize::from(number))
            .ok_or(Fault::BadIndex)?;
        if queue.phase != Phase::Off || !is_off && queue.config.size != config.size {
            return Err(Fault::Locked);
        }
        queue.config = QueueConfig {
            pasid: config.pasid & PASID_BITS,
            ..config
        };
        Ok(())
    }

    fn write_group(&mut self, number: u16, config: GroupConfig) -> Result<(), Fault> {
        let group = self
            .groups
            .get_mut(usize::from(number))
            .ok_or(Fault::BadIndex)?;
        if self.phase != Phase::Off {
            return Err(Fault::Locked);
        }
        group.config = config;
        Ok(())
    }

    /// A submission by ENQCMD under this PASID, or else by MOVDIR64B.
    fn submit(
        &mut self,
        number: u16,
        limited: bool,
        pasid: Option<u32>,
        desc: Descriptor,
    ) -> Result<u32, Cause> {
        let queue = match self.queues.get_mut(usize::from(number)) {
            Some(queue) if queue.phase == Phase::On => queue,
            _ => return Err(Cause::NotEnabled),
        };
        let config = &queue.config;
        if config.dedicated != pasid.is_none() {
            return Err(Cause::WrongKind);
        }
        let is_limited = limited && !config.dedicated;
        let limit = if is_limited {
            config.threshold
        } else {
            config.size
        };
        if queue.waiting.len() >= usize::from(limit) {
            return Err(Cause::AtLimit);
        }
        let name = self.next_name;
        let pasid = pasid.unwrap_or(config.pasid) & PASID_BITS;
        let entry = Entry::new(name, None, (number, config), pasid, desc);
        queue.waiting.push_back(entry);
        queue.held += 1;
        self.next_name += 1;
        Ok(name)
    }

    fn drop_submission(&mut self, queue: u16, cause: Cause) -> Answer {
        match &mut self.noted {
            Some(noted) => noted.overflow = true,
            None => {
                self.noted = Some(Noted {
                    queue,
                    cause,
                    overflow: false,
                })
            }
        }
        Answer::Dropped(cause)
    }

    /// How many more read buffers fit the group. A group counts what it uses or what it reserves,
    /// whichever is more.
    fn room(&self, group: usize) -> u32 {
        let counted = |it: &Group| u32::from(it.used.max(it.config.reserved));
        let all: u32 = self.groups.iter().map(counted).sum();
        let group = &self.groups[group];
        let left = u32::from(self.caps.read_buffers) + counted(group) - all;
        left.min(group.config.allowed.into()) - u32::from(group.used)
    }

    fn qualifies(&self, engine: &Engine, room: u32, queue: usize) -> bool {
        let Some(front) = self.queues[queue].waiting.front() else {
            return false;
        };
        let is_blocked = front.is(BATCH) && engine.batch.is_some()
            || front.is(DRAIN) && engine.progress.iter().any(|entry| entry.is(DRAIN));
        !is_blocked && u32::from(front.need) <= room
    }

    /// The queue that the engine takes from: of the highest priority, and equals take turns.
    fn choose(&self, engine: &Engine) -> Option<(usize, usize)> {
        let group = engine.group?;
        let is_off = self.phase == Phase::Off; // then nothing is held, and groups may be written
        if is_off || engine.progress.len() >= usize::from(self.caps.slots) {
            return None;
        }
        let room = self.room(group);
        let Group { config, turn, .. } = &self.groups[group];
        let queue = bits(config.queues)
            .filter(|queue| self.qualifies(engine, room, *queue))
            .max_by_key(|queue| {
                let priority = self.queues[*queue].config.priority;
                (priority, queue >= turn, Reverse(*queue))
            })?;
        Some((group, queue))
    }

    fn dispatch(&mut self, engine: usize) -> Answer {
        let Some((group, queue)) = self.engines.get(engine).and_then(|it| self.choose(it)) else {
            return Answer::Idle;
        };
        let Some(entry) = self.queues[queue].waiting.pop_front() else {
            return Answer::Idle;
        };
        self.groups[group].used += entry.need;
        self.groups[group].turn = queue + 1;
        let engine = &mut self.engines[engine];
        if entry.is(BATCH) {
            engine.batch = Some(Batch {
                name: entry.name,
                queue: entry.queue,
                pasid: entry.pasid,
                count: entry.desc.size,
                fetched: 0,
                failed: false,
                closed: false,
            });
        }
        engine.progress.push(entry);
        Answer::Taken {
            name: entry.name,
            queue: entry.queue,
        }
    }

    fn fetch(&mut self, engine: usize, desc: Descriptor) -> Answer {
        let Some(engine) = self.engines.get_mut(engine) else {
            return Answer::NoBatch;
        };
        let Some(batch) = &mut engine.batch else {
            return Answer::NoBatch;
        };
        if batch.is_all_fetched() {
            return Answer::AllFetched;
        }
        batch.fetched += 1;
        let queue = &mut self.queues[usize::from(batch.queue)];
        queue.held += 1;
        let name = self.next_name;
        let place = (batch.queue, &queue.config);
        engine
            .members
            .push_back(Entry::new(name, Some(batch.name), place, batch.pasid, desc));
        self.next_name += 1;
        Answer::Fetched(name)
    }

    fn start(&mut self, number: usize) -> Answer {
        let Some(engine) = self.engines.get(number) else {
            return Answer::Nothing;
        };
        let Some(&member) = engine.members.get(engine.started) else {
            return Answer::Nothing;
        };
        if member.desc.fence {
            if engine.started > 0 {
                return Answer::FenceWait;
            }
            if engine.batch.as_ref().is_some_and(|batch| batch.failed) {
                return self.abandon(number);
            }
        }
        match engine.group {
            Some(group) if u32::from(member.need) <= self.room(group) => {
                self.groups[group].used += member.need;
            }
            _ => return Answer::NoBuffers,
        }
        self.engines[number].started += 1;
        Answer::Started(member.name)
    }

    /// Ends the members that are left, none of which runs, and closes the batch.
    fn abandon(&mut self, engine: usize) -> Answer {
        let engine = &mut self.engines[engine];
        let count = engine.members.len();
        if let Some(batch) = &mut engine.batch {
            batch.closed = true;
            self.queues[usize::from(batch.queue)].held -= count;
        }
        let abandoned = |entry| Ended::new(&entry, Fate::Abandoned);
        self.ended.extend(engine.members.drain(..).map(abandoned));
        Answer::Abandoned(count)
    }

    /// Whether an entry is held that the Drain waits for. What came before it has left the queue,
    /// since the Drain has.
    fn must_wait(&self, drain: &Entry) -> bool {
        self.engines
            .iter()
            .flat_map(|engine| &engine.progress)
            .any(|entry| {
                entry.name < drain.name && entry.queue == drain.queue && entry.pasid == drain.pasid
            })
    }

    fn finish(&mut self, number: usize, name: u32, fault: bool) -> Answer {
        let Some(engine) = self.engines.get(number) else {
            return Answer::Gone;
        };
        if let Some(place) = engine.progress.iter().position(|entry| entry.name == name) {
            return self.finish_submitted(number, place, fault);
        }
        // Members come in by their names.
        match engine
            .members
            .binary_search_by_key(&name, |entry| entry.name)
        {
            Ok(place) if place < engine.started => self.finish_member(number, place, fault),
            _ => Answer::Gone,
        }
    }

    fn finish_submitted(&mut self, number: usize, place: usize, fault: bool) -> Answer {
        let engine = &self.engines[number];
        let entry = engine.progress[place];
        let mut status = entry.status(fault);
        if entry.is(BATCH) {
            match &engine.batch {
                Some(batch) if !engine.members.is_empty() || !batch.is_all_fetched() => {
                    return Answer::NotReady;
                }
                Some(batch) if batch.failed => status = 0x05,
                _ => {}
            }
            self.engines[number].batch = None;
        } else if entry.is(DRAIN) && self.must_wait(&entry) {
            return Answer::NotReady;
        }
        self.engines[number].progress.remove(place);
        self.complete(number, &entry, status)
    }

    fn finish_member(&mut self, number: usize, place: usize, fault: bool) -> Answer {
        let engine = &mut self.engines[number];
        let Some(entry) = engine.members.remove(place) else {
            return Answer::Gone;
        };
        engine.started -= 1;
        let status = entry.status(fault);
        if let Some(batch) = &mut engine.batch {
            batch.failed |= status != SUCCESS;
        }
        self.complete(number, &entry, status)
    }

    /// What follows when an engine has ended an entry.
    fn complete(&mut self, engine: usize, entry: &Entry, status: u8) -> Answer {
        if let Some(group) = self.engines[engine].group {
            self.groups[group].used -= entry.need;
        }
        self.queues[usize::from(entry.queue)].held -= 1;
        if let Some(Active::Drain { scope, mark, left }) = &mut self.active {
            if entry.batch.is_none() && entry.name < *mark && scope.has(entry) {
                *left -= 1;
            }
        }
        self.ended.push(Ended::new(entry, Fate::Completed(status)));
        Answer::Done(status)
    }

    fn issue(&mut self, word: u32) -> Result<Answer, Fault> {
        let (number, operand) = command_of(word).ok_or(Fault::BadCommand)?;
        if self.active.is_some() {
            return Err(Fault::Busy);
        }
        let named = self.named_queues(number, operand)?;
        if !self.suits(number, named) {
            return Err(Fault::WrongState);
        }
        let aborted = match number {
            ENABLE_DEVICE => self.enable_device()?,
            ENABLE_WQ => self.enable_queue(operand as usize)?,
            ABORT_ALL => self.abort(number, Scope::All),
            RESET_DEVICE => self.reset_device(),
            ABORT_WQ => self.abort(number, Scope::Queues(named)),
            RESET_WQ => self.reset_queues(named),
            ABORT_PASID => self.abort(number, Scope::Pasid(operand)),
            DISABLE_DEVICE => return Ok(self.wait(Active::DisableDevice)),
            DISABLE_WQ => return Ok(self.wait(Active::DisableQueues(named))),
            DRAIN_ALL => return Ok(self.drain(Scope::All)),
            DRAIN_WQ => return Ok(self.drain(Scope::Queues(named))),
            DRAIN_PASID => return Ok(self.drain(Scope::Pasid(operand))),
            _ => return Err(Fault::BadCommand),
        };
        Ok(Answer::Ended(aborted))
    }

    /// The queues that a command names.
    fn named_queues(&self, number: u8, operand: u32) -> Result<u64, Fault> {
        let (mask, first) = match number {
            ENABLE_WQ => (1, operand),
            DISABLE_WQ..=RESET_WQ => (u64::from(operand & 0xffff), operand >> 16 << 4),
            _ => return Ok(0),
        };
        let all = u64::MAX >> (64 - self.caps.queues);
        match mask.checked_shl(first) {
            Some(named) if named != 0 && named & !all == 0 => Ok(named),
            _ => Err(Fault::BadQueue),
        }
    }

    /// Whether the device and the named queues are in the state that the command needs.
    fn suits(&self, number: u8, named: u64) -> bool {
        let are_all = |phase| bits(named).all(|queue| self.queues[queue].phase == phase);
        match number {
            ENABLE_DEVICE => self.phase == Phase::Off,
            RESET_DEVICE => true,
            ENABLE_WQ => self.phase == Phase::On && are_all(Phase::Off),
            DISABLE_WQ..=ABORT_WQ => self.phase == Phase::On && are_all(Phase::On),
            _ => self.phase == Phase::On,
        }
    }

    fn check_device(&self) -> Result<(), Fault> {
        let configs = || self.groups.iter().map(|group| &group.config);
        let (all_queues, all_engines) = (
            u64::MAX >> (64 - self.caps.queues),
            u64::MAX >> (64 - self.caps.engines),
        );
        if configs().any(|it| it.queues & !all_queues != 0 || it.engines & !all_engines != 0) {
            return Err(Fault::BadIndex);
        }
        let sizes: u32 = self
            .queues
            .iter()
            .map(|queue| u32::from(queue.config.size))
            .sum();
        if sizes > self.caps.total_size.into() {
            return Err(Fault::SizesTooLarge);
        }
        let (mut queues, mut engines) = (0, 0);
        for config in configs() {
            if queues & config.queues != 0 || engines & config.engines != 0 {
                return Err(Fault::TwoGroups);
            }
            queues |= config.queues;
            engines |= config.engines;
        }
        let total = u32::from(self.caps.read_buffers);
        let reserved: u32 = configs().map(|it| u32::from(it.reserved)).sum();
        if reserved > total {
            return Err(Fault::ReservedTooMany);
        }
        let left = total - reserved;
        if configs().any(|it| {
            it.allowed < it.reserved
                || u32::from(it.allowed - it.reserved) > left
                || it.allowed < 4 && it.engines != 0
        }) {
            return Err(Fault::AllowedOutOfRange);
        }
        if configs().any(|it| it.queues != 0 && it.engines == 0) {
            return Err(Fault::GroupWithoutEngine);
        }
        if configs().any(|it| it.queues == 0 && it.engines != 0) {
            return Err(Fault::GroupWithoutQueue);
        }
        Ok(())
    }

    fn enable_device(&mut self) -> Result<usize, Fault> {
        self.check_device()?;
        self.phase = Phase::On;
        for (number, engine) in self.engines.iter_mut().enumerate() {
            let is_home = |group: &Group| group.config.engines >> number & 1 == 1;
            engine.group = self.groups.iter().position(is_home);
        }
        Ok(0)
    }

    fn check_queue(&self, number: usize) -> Result<(), Fault> {
        let config = &self.queues[number].config;
        let is_home = |group: &Group| group.config.queues >> number & 1 == 1;
        let faults = [
            (config.size == 0, Fault::SizeZero),
            (config.priority == 0, Fault::PriorityZero),
            (config.priority > 15, Fault::PriorityTooLarge),
            (
                !config.dedicated && config.threshold == 0,
                Fault::ThresholdZero,
            ),
            (
                !config.dedicated && config.threshold > config.size,
                Fault::ThresholdAboveSize,
            ),
            (
                config.batch > self.caps.max_batch_shift,
                Fault::BatchTooLarge,
            ),
            (
                config.xfer > self.caps.max_xfer_shift,
                Fault::TransferTooLarge,
            ),
            (!self.groups.iter().any(is_home), Fault::NoGroup),
        ];
        match faults.into_iter().find(|(is_so, _)| *is_so) {
            Some((_, fault)) => Err(fault),
            None => Ok(()),
        }
    }

    fn enable_queue(&mut self, number: usize) -> Result<usize, Fault> {
        self.check_queue(number)?;
        self.queues[number].phase = Phase::On;
        Ok(0)
    }

    /// Removes what is held of the scope, and says how many entries that were.
    fn abort(&mut self, number: u8, scope: Scope) -> usize {
        let before = self.ended.len();
        for queue in &mut self.queues {
            queue.waiting.retain(|entry| {
                let is_kept = !scope.has(entry);
                if !is_kept {
                    self.ended.push(Ended::new(entry, Fate::Aborted(number)));
                    queue.held -= 1;
                }
                is_kept
            });
        }
        for engine in 0..self.engines.len() {
            self.abort_progress(engine, number, scope);
        }
        for engine in 0..self.engines.len() {
            self.abort_members(engine, number, scope);
        }
        self.ended.len() - before
    }

    fn abort_progress(&mut self, engine: usize, number: u8, scope: Scope) {
        let engine = &mut self.engines[engine];
        engine.progress.retain(|entry| {
            if !scope.has(entry) {
                return true;
            }
            if entry.is(BATCH) {
                engine.batch = None;
            }
            if let Some(group) = engine.group {
                self.groups[group].used -= entry.need;
            }
            self.queues[usize::from(entry.queue)].held -= 1;
            self.ended.push(Ended::new(entry, Fate::Aborted(number)));
            false
        });
    }

    /// The members of an engine are of one batch, so a scope has all of them or none.
    fn abort_members(&mut self, engine: usize, number: u8, scope: Scope) {
        let engine = &mut self.engines[engine];
        if !engine.members.front().is_some_and(|entry| scope.has(entry)) {
            return;
        }
        for (place, entry) in engine.members.drain(..).enumerate() {
            if let Some(group) = engine.group.filter(|_| place < engine.started) {
                self.groups[group].used -= entry.need;
            }
            self.queues[usize::from(entry.queue)].held -= 1;
            self.ended.push(Ended::new(&entry, Fate::Aborted(number)));
        }
        engine.started = 0;
    }

    fn reset_device(&mut self) -> usize {
        let aborted = self.abort(RESET_DEVICE, Scope::All);
        self.phase = Phase::Off;
        self.noted = None;
        for queue in &mut self.queues {
            queue.phase = Phase::Off;
            queue.config = QueueConfig::default();
        }
        for group in &mut self.groups {
            group.config = GroupConfig::default();
        }
        aborted
    }

    fn reset_queues(&mut self, named: u64) -> usize {
        let aborted = self.abort(RESET_WQ, Scope::Queues(named));
        for queue in bits(named) {
            let queue = &mut self.queues[queue];
            queue.phase = Phase::Off;
            queue.config = QueueConfig {
                size: queue.config.size,
                ..QueueConfig::default()
            };
        }
        aborted
    }

    fn drain(&mut self, scope: Scope) -> Answer {
        let waiting = self.queues.iter().flat_map(|queue| &queue.waiting);
        let progress = self.engines.iter().flat_map(|engine| &engine.progress);
        let left = waiting
            .chain(progress)
            .filter(|entry| scope.has(entry))
            .count();
        self.wait(Active::Drain {
            scope,
            mark: self.next_name,
            left,
        })
    }

    fn is_at_end(&self, active: Active) -> bool {
        match active {
            Active::Drain { left, .. } => left == 0,
            Active::DisableDevice => self.queues.iter().all(|queue| queue.held == 0),
            Active::DisableQueues(set) => bits(set).all(|queue| self.queues[queue].held == 0),
        }
    }

    /// Begins a drain or a disable, which may be at its end at once.
    fn wait(&mut self, active: Active) -> Answer {
        if self.is_at_end(active) {
            self.stop(active, Phase::Off);
            return Answer::Ended(0);
        }
        self.stop(active, Phase::Stopping);
        self.active = Some(active);
        Answer::Active
    }

    /// Sets the phase of what a disable stops. A drain stops nothing.
    fn stop(&mut self, active: Active, phase: Phase) {
        match active {
            Active::Drain { .. } => {}
            Active::DisableDevice => {
                self.phase = phase;
                let queues = self.queues.iter_mut();
                for queue in queues.filter(|queue| queue.phase != Phase::Off) {
                    queue.phase = phase;
                }
            }
            Active::DisableQueues(set) => bits(set).for_each(|it| self.queues[it].phase = phase),
        }
    }

    fn poll(&mut self) -> Answer {
        let Some(active) = self.active else {
            return Answer::Nothing;
        };
        if !self.is_at_end(active) {
            return Answer::StillActive;
        }
        self.stop(active, Phase::Off);
        self.active = None;
        Answer::Finished
    }
}

/// The number and the operand of a command word, if it is a command.
fn command_of(word: u32) -> Option<(u8, u32)> {
    let number = (word >> 20 & 0x7ff) as u16;
    match number {
        1..=12 => Some((number as u8, word & 0xf_ffff)),
        _ => None,
    }
}

fn written(result: Result<(), Fault>) -> Answer {
    match result {
        Ok(()) => Answer::Written,
        Err(fault) => Answer::Refused(fault),
    }
}
