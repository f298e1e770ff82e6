//! Plain mirrors of the scheduler's types: policies, runtimes, windows, records, queues and processors.

#[derive(Clone, Copy, Debug, PartialEq, Eq)]
pub struct Budget {
    pub budget: u64,
    pub period: u64,
    pub burst: u64,
}

#[derive(Clone, Copy, Debug, PartialEq, Eq)]
pub struct BudgetRt {
    pub epoch: Option<u64>,
    pub remaining: u64,
    pub burst: u64,
}

#[derive(Clone, Copy, Debug, PartialEq, Eq)]
pub enum Policy {
    Fifo(u8),
    Fair,
    Budget,
    Idle,
}

#[derive(Clone, Copy, Debug, PartialEq, Eq)]
pub enum Class {
    RealTime,
    Fair,
    Budget,
    Idle,
}

#[derive(Clone, Copy, Debug, PartialEq, Eq)]
pub enum Role {
    Ordinary,
    Priority,
    Protected,
}

#[derive(Clone, Copy, Debug, PartialEq, Eq)]
pub enum Backend {
    Stride,
    RoundRobin,
}

#[derive(Clone, Copy, Debug, PartialEq, Eq)]
pub struct Params {
    pub policy: Policy,
    pub band: u8,
    pub role: Role,
    pub weight: u16,
    pub quantum: u64,
    pub backend: Backend,
    pub budget: Option<Budget>,
}

#[derive(Clone, Copy, Debug, PartialEq, Eq)]
pub enum Runtime {
    Fifo,
    Fair { pass: u128, remaining: u64 },
    Budget(BudgetRt),
    Idle,
}

#[derive(Clone, Copy, Debug, PartialEq, Eq)]
pub struct Order {
    pub priority: u8,
    pub budget: u8,
    pub fair: u8,
    pub borrow: u8,
}

#[derive(Clone, Copy, Debug, PartialEq, Eq)]
pub struct Config {
    pub period: u64,
    pub allowance: u64,
    pub floor: u64,
    pub order: Order,
    pub prefer_fair: bool,
}

#[derive(Clone, Copy, Debug, PartialEq, Eq)]
pub struct Window {
    pub config: Config,
    pub epoch: Option<u64>,
    pub priority_remaining: u64,
    pub protected_remaining: u64,
}

#[derive(Clone, Copy, Debug, Default, PartialEq, Eq)]
pub struct Demand {
    pub protected: bool,
    pub fair: bool,
    pub window_sensitive: bool,
    pub eligible_budget: bool,
    pub any_budget: bool,
}

#[derive(Clone, Copy, Debug, PartialEq, Eq)]
pub struct Candidate {
    pub params: Params,
    pub fair_pass: u128,
    pub turn: u64,
    pub budget_available: bool,
}

/// Compared by `key_compare`, which asks the source's own order.
#[derive(Clone, Copy, Debug, PartialEq, Eq)]
pub struct Key {
    pub urgency: u8,
    pub rank: u8,
    pub algorithm_rank: u8,
    pub algorithm: u128,
    pub band: u8,
    pub turn: u64,
}

#[derive(Clone, Copy, Debug, PartialEq, Eq)]
pub enum Mode {
    StrictFifo,
    Priority,
    Protected,
    Ordinary,
    Borrow,
}

/// A record's links in its ready tree.
#[derive(Clone, Copy, Debug, PartialEq, Eq)]
pub struct Links {
    pub left: Option<u64>,
    pub right: Option<u64>,
    pub height: u8,
}

impl Links {
    pub const EMPTY: Self = Self {
        left: None,
        right: None,
        height: 1,
    };
}

/// A record's neighbours in its ready list.
#[derive(Clone, Copy, Debug, PartialEq, Eq)]
pub struct ListLinks {
    pub previous: Option<u64>,
    pub next: Option<u64>,
}

impl ListLinks {
    pub const EMPTY: Self = Self {
        previous: None,
        next: None,
    };
}

#[derive(Clone, Copy, Debug, PartialEq, Eq)]
pub enum Membership {
    None,
    ReadyFifo { cpu: u8, priority: u8 },
    ReadyFair { cpu: u8 },
    Waiting { queue: u64 },
    Terminated,
}

/// Where a running FIFO thread goes after its priority changed.
#[derive(Clone, Copy, Debug, PartialEq, Eq)]
pub enum Deferred {
    Head,
    Tail,
}

/// One thread of the table; its number is its place.
#[derive(Clone, Copy, Debug, PartialEq, Eq)]
pub struct Record {
    pub params: Params,
    pub runtime: Runtime,
    pub turn: u64,
    pub tree: Links,
    pub list: ListLinks,
    pub membership: Membership,
    /// The assigned processor.
    pub cpu: u8,
    /// The thread's state is Running; only the decisions about a current thread look at it.
    pub running: bool,
    pub deferred: Option<Deferred>,
}

impl Record {
    /// A record that stands in no queue.
    pub const fn new(params: Params, runtime: Runtime, turn: u64, cpu: u8) -> Self {
        Self {
            params,
            runtime,
            turn,
            tree: Links::EMPTY,
            list: ListLinks::EMPTY,
            membership: Membership::None,
            cpu,
            running: false,
            deferred: None,
        }
    }
}

/// Head, tail and length of one list of threads.
#[derive(Clone, Copy, Debug, PartialEq, Eq)]
pub struct List {
    pub head: Option<u64>,
    pub tail: Option<u64>,
    pub len: u64,
}

impl List {
    pub const EMPTY: Self = Self {
        head: None,
        tail: None,
        len: 0,
    };
}

/// A processor's run queue. Roots stand as FIFO, Fair, Budget with time left and Budget exhausted,
/// each by role Ordinary, Priority, Protected.
#[derive(Clone, Copy, Debug, PartialEq, Eq)]
pub struct Queue {
    pub fifo: [List; 256],
    pub fifo_length: u64,
    pub fair: List,
    pub budget_count: u64,
    pub roots: [Option<u64>; 12],
    pub epoch: Option<u64>,
}

impl Queue {
    pub const EMPTY: Self = Self {
        fifo: [List::EMPTY; 256],
        fifo_length: 0,
        fair: List::EMPTY,
        budget_count: 0,
        roots: [None; 12],
        epoch: None,
    };
}

/// The thread that selection names.
#[derive(Clone, Copy, Debug, PartialEq, Eq)]
pub struct Ready {
    pub number: u64,
    pub policy: Policy,
    pub key: Key,
}

#[derive(Clone, Copy, Debug, PartialEq, Eq)]
pub struct Selection {
    pub ready: Option<Ready>,
    pub demand: Demand,
    pub fair_min_pass: Option<u128>,
}

/// What the oracle's table adds to the source during a selection.
#[derive(Clone, Copy, Debug, PartialEq, Eq)]
pub struct Rules {
    /// Judge each record just before the source refreshes it (`record_agrees`).
    pub judge_records: bool,
    /// Moves at a change of period, all roles together, before `Refusal::MoveLimit`.
    pub move_limit: u64,
}

impl Rules {
    /// The port's rules for a table of so many records.
    pub const fn port(records: usize) -> Self {
        Self {
            judge_records: true,
            move_limit: records as u64,
        }
    }

    /// The source on its own access to its records, with nothing beside it.
    pub const NONE: Self = Self {
        judge_records: false,
        move_limit: u64::MAX,
    };

    /// The source alone; the limit only stops a walk that would go on for ever.
    pub const SOURCE: Self = Self {
        judge_records: false,
        move_limit: 1_000_000,
    };
}

/// Why a queue, tree or scheduler call did not succeed.
#[derive(Clone, Copy, Debug, PartialEq, Eq)]
pub enum Refusal {
    /// A number outside the table: the argument, or a link, head, tail or root.
    ThreadNotFound,
    QueueCorrupted,
    InvalidThreadState,
    ThreadAlreadyQueued,
    InvalidSchedulingParameters,
    PreemptionInvariant,
    /// The table judged a record (`Rules::judge_records`).
    RecordDisagrees,
    /// The table stopped a move (`Rules::move_limit`), before its first store.
    MoveLimit,
    /// The source panicked; its stores so far are in the values handed back.
    Halted(super::Panic),
    /// An error that these calls do not give.
    Other,
}

pub type Answer<T> = Result<T, Refusal>;

/// Compared as a whole: algorithm, band, turn, number.
pub type TreeKey = (u128, u8, u64, u64);

/// A tree node by itself, of any key.
#[derive(Clone, Copy, Debug, PartialEq, Eq)]
pub struct Node {
    pub key: TreeKey,
    pub links: Links,
}

/// The two turn counters.
#[derive(Clone, Copy, Debug, PartialEq, Eq)]
pub struct Turns {
    pub back: u64,
    pub front: u64,
}

impl Turns {
    pub const NEW: Self = Self {
        back: 1 << 63,
        front: 1 << 63,
    };
}

/// One processor's scheduler, without its table.
#[derive(Clone, Copy, Debug, PartialEq, Eq)]
pub struct Processor {
    pub cpu: u8,
    pub current: u64,
    pub queue: Queue,
    pub window: Window,
    /// The last accounted reading, which is the decisions' present.
    pub now: Option<u64>,
    pub mode: Mode,
    pub armed_deadline: Option<u64>,
    pub deadline_generation: u64,
    pub fair_floor: u128,
}
