//! Clients and engines in threads of their own, on one device behind a lock. It prints what the
//! program prints for `threads`. Its words are how many clients and engines there are, how many
//! descriptors each client submits, and how many turns each worker has.

mod model;

use model::{Answer, Caps, Cause, Descriptor, Device, GroupConfig, QueueConfig, Step};
use std::collections::VecDeque;
use std::process::ExitCode;
use std::sync::{Condvar, Mutex};
use std::thread;

/// How many turns a worker has before it waits for the others.
const ROUND: u32 = 8;

/// A Memory Move of 4096 bytes.
const MOVE: &str = "0000000000000003000000000000000000000000000000000000000000000000\
                    00100000";

#[derive(Default)]
struct Totals {
    accepted: u32,
    retried: u32,
    done: u32,
}

struct Load {
    clients: u16,
    engines: u16,
    each: u32,
    turns: u32,
}

/// Who has not ended, and how many of them still have turns of this round.
struct Pace {
    clients: u16,
    workers: u16,
    missing: u16,
    round: u32,
}

struct Shared {
    device: Mutex<Device>,
    pace: Mutex<Pace>,
    next_round: Condvar,
}

impl Shared {
    fn step(&self, step: Step) -> Answer {
        self.device.lock().unwrap().step(step)
    }

    fn keep_pace(&self, turn: u32) {
        if turn % ROUND != 0 {
            return;
        }
        let mut pace = self.pace.lock().unwrap();
        let round = pace.round;
        self.come(&mut pace);
        while pace.round == round && pace.clients > 0 {
            pace = self.next_round.wait(pace).unwrap();
        }
    }

    fn come(&self, pace: &mut Pace) {
        pace.missing -= 1;
        if pace.missing == 0 {
            pace.missing = pace.workers;
            pace.round += 1;
            self.next_round.notify_all();
        }
    }

    fn leave(&self, clients: u16) {
        let mut pace = self.pace.lock().unwrap();
        pace.clients -= clients;
        pace.workers -= 1;
        self.come(&mut pace);
        if pace.clients == 0 {
            self.next_round.notify_all();
        }
    }
}

fn submit_all(shared: &Shared, client: u16, load: &Load) -> Totals {
    let desc = Descriptor::from_hex(MOVE).unwrap();
    let mut totals = Totals::default();
    for turn in 0..load.turns {
        if totals.accepted == load.each {
            break;
        }
        shared.keep_pace(turn);
        let step = Step::Enqcmd {
            queue: 0,
            limited: true,
            pasid: u32::from(client) + 1,
            desc,
        };
        match shared.step(step) {
            Answer::Accepted(_) => totals.accepted += 1,
            Answer::Retry(Cause::AtLimit) => {
                totals.retried += 1;
                thread::yield_now();
            }
            _ => unreachable!(),
        }
    }
    shared.leave(1);
    totals
}

fn serve_all(shared: &Shared, engine: u16, load: &Load) -> Totals {
    let desc = Descriptor::from_hex("").unwrap();
    let mut totals = Totals::default();
    let mut taken = VecDeque::new();
    for turn in 0..load.turns {
        shared.keep_pace(turn);
        let step = match turn % 4 {
            0 => Step::Dispatch { engine },
            1 => Step::Fetch { engine, desc },
            2 => Step::Start { engine },
            _ => match taken.pop_front() {
                Some(name) => Step::Finish {
                    engine,
                    name,
                    fault: false,
                },
                None => continue,
            },
        };
        match shared.step(step) {
            Answer::Taken { name, .. } => taken.push_back(name),
            Answer::Done(_) => totals.done += 1,
            _ => {}
        }
    }
    shared.leave(0);
    totals
}

fn set_up(load: &Load) -> Option<Shared> {
    let caps = Caps {
        queues: 1,
        groups: 1,
        engines: load.engines,
        total_size: 16,
        read_buffers: 32,
        slots: 4,
        max_batch_shift: 3,
        max_xfer_shift: 20,
    };
    let config = QueueConfig {
        size: 16,
        threshold: 8,
        dedicated: false,
        priority: 1,
        pasid: 0,
        batch: 3,
        xfer: 20,
    };
    let group = GroupConfig {
        queues: 1,
        engines: (1 << load.engines) - 1,
        reserved: 0,
        allowed: 32,
    };
    let workers = load.clients + load.engines;
    let capacity = u64::from(workers + 1) * u64::from(load.turns) + 4;
    let mut device = Device::new(caps, capacity).ok()?;
    device.step(Step::Queue { queue: 0, config });
    device.step(Step::Group { group: 0, config: group });
    device.step(Step::Command { word: 1 << 20 });
    device.step(Step::Command { word: 6 << 20 });
    Some(Shared {
        device: Mutex::new(device),
        pace: Mutex::new(Pace {
            clients: load.clients,
            workers,
            missing: workers,
            round: 0,
        }),
        next_round: Condvar::new(),
    })
}

fn run(load: &Load) -> Option<Totals> {
    let shared = &set_up(load)?;
    let totals = thread::scope(|scope| {
        let clients = (0..load.clients).map(|c| scope.spawn(move || submit_all(shared, c, load)));
        let engines = (0..load.engines).map(|e| scope.spawn(move || serve_all(shared, e, load)));
        let workers: Vec<_> = clients.chain(engines).collect();
        let mut totals = Totals::default();
        for worker in workers {
            let more = worker.join().unwrap();
            totals.accepted += more.accepted;
            totals.retried += more.retried;
            totals.done += more.done;
        }
        totals
    });
    Some(totals)
}

fn read_load() -> Option<Load> {
    let words: Vec<String> = std::env::args().skip(1).collect();
    let [clients, engines, each, turns] = words.as_slice() else {
        return None;
    };
    Some(Load {
        clients: clients.parse().ok()?,
        engines: engines.parse().ok()?,
        each: each.parse().ok()?,
        turns: turns.parse().ok()?,
    })
}

fn main() -> ExitCode {
    let Some(totals) = read_load().and_then(|load| run(&load)) else {
        eprintln!("threads: four numbers are wanted: clients, engines, each and turns");
        return ExitCode::FAILURE;
    };
    println!("accepted {}\nfetched 0\nretried {}", totals.accepted, totals.retried);
    println!("done {}\nlost 0\nheld {}", totals.done, totals.accepted - totals.done);
    println!("balanced");
    ExitCode::SUCCESS
}
