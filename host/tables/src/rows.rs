//! A record as a row of 32 words, and back: the layout of crates/codec/specs/Codec.antt.

use kernel::oracle::*;

/// One record.
pub type Row = [u64; 32];

/// The steps of one descent, lent for the time of a call.
pub type Path = [[u64; 2]; 40];

pub const TREE_WORDS: usize = 17;

pub fn link_words(link: Option<u64>) -> [u64; 2] {
    [link.is_some().into(), link.unwrap_or(0)]
}

pub fn membership_words(membership: Membership) -> [u64; 3] {
    match membership {
        Membership::None => [0, 0, 0],
        Membership::ReadyFifo { cpu, priority } => [1, cpu.into(), priority.into()],
        Membership::ReadyFair { cpu } => [2, cpu.into(), 0],
        Membership::Waiting { queue } => [3, queue, 0],
        Membership::Terminated => [4, 0, 0],
    }
}

pub fn tree_words(links: Links) -> [u64; 5] {
    let ([a, b], [c, d]) = (link_words(links.left), link_words(links.right));
    [a, b, c, d, links.height.into()]
}

fn parameters_words(params: Params) -> [u64; 11] {
    let (tag, priority) = match params.policy {
        Policy::Fifo(priority) => (0, priority.into()),
        Policy::Fair => (1, 0),
        Policy::Budget => (2, 0),
        Policy::Idle => (3, 0),
    };
    let role = match params.role {
        Role::Ordinary => 0,
        Role::Priority => 1,
        Role::Protected => 2,
    };
    let backend = match params.backend {
        Backend::Stride => 0,
        Backend::RoundRobin => 1,
    };
    let [some, budget, period, burst] = params
        .budget
        .map_or([0; 4], |b| [1, b.budget, b.period, b.burst]);
    let (band, weight) = (params.band.into(), params.weight.into());
    [
        tag,
        priority,
        band,
        role,
        weight,
        params.quantum,
        backend,
        some,
        budget,
        period,
        burst,
    ]
}

fn runtime_words(runtime: Runtime) -> [u64; 5] {
    match runtime {
        Runtime::Fifo => [0; 5],
        Runtime::Fair { pass, remaining } => [1, (pass >> 64) as u64, pass as u64, remaining, 0],
        Runtime::Budget(budget) => {
            let [some, epoch] = link_words(budget.epoch);
            [2, some, epoch, budget.remaining, budget.burst]
        }
        Runtime::Idle => [3, 0, 0, 0, 0],
    }
}

pub fn row_of(record: &Record) -> Row {
    let mut row = [0; 32];
    row[0..11].copy_from_slice(&parameters_words(record.params));
    row[11..16].copy_from_slice(&runtime_words(record.runtime));
    row[16] = record.turn;
    row[17..22].copy_from_slice(&tree_words(record.tree));
    row[22..24].copy_from_slice(&link_words(record.list.previous));
    row[24..26].copy_from_slice(&link_words(record.list.next));
    row[26..29].copy_from_slice(&membership_words(record.membership));
    row[29] = record.cpu.into();
    row
}

pub fn link(tag: u64, number: u64) -> Option<u64> {
    (tag != 0).then_some(number)
}

pub fn byte(word: u64) -> u8 {
    (word % 256) as u8
}

pub fn parameters(row: &Row) -> Params {
    Params {
        policy: match row[0] {
            0 => Policy::Fifo(byte(row[1])),
            1 => Policy::Fair,
            2 => Policy::Budget,
            _ => Policy::Idle,
        },
        band: byte(row[2]),
        role: match row[3] {
            0 => Role::Ordinary,
            1 => Role::Priority,
            _ => Role::Protected,
        },
        weight: (row[4] % 65536) as u16,
        quantum: row[5],
        backend: match row[6] {
            0 => Backend::Stride,
            _ => Backend::RoundRobin,
        },
        budget: (row[7] != 0).then_some(Budget {
            budget: row[8],
            period: row[9],
            burst: row[10],
        }),
    }
}

fn runtime(row: &Row) -> Runtime {
    match row[11] {
        0 => Runtime::Fifo,
        1 => Runtime::Fair {
            pass: u128::from(row[12]) << 64 | u128::from(row[13]),
            remaining: row[14],
        },
        2 => Runtime::Budget(BudgetRt {
            epoch: link(row[12], row[13]),
            remaining: row[14],
            burst: row[15],
        }),
        _ => Runtime::Idle,
    }
}

fn membership(row: &Row) -> Membership {
    match row[26] {
        0 => Membership::None,
        1 => Membership::ReadyFifo {
            cpu: byte(row[27]),
            priority: byte(row[28]),
        },
        2 => Membership::ReadyFair { cpu: byte(row[27]) },
        3 => Membership::Waiting { queue: row[27] },
        _ => Membership::Terminated,
    }
}

pub fn record_of(row: &Row) -> Record {
    let mut record = Record::new(parameters(row), runtime(row), row[16], byte(row[29]));
    record.tree = Links {
        left: link(row[17], row[18]),
        right: link(row[19], row[20]),
        height: byte(row[21]),
    };
    record.list = ListLinks {
        previous: link(row[22], row[23]),
        next: link(row[24], row[25]),
    };
    record.membership = membership(row);
    record
}
