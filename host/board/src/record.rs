//! Records, the rows of a table, and the running thread as a candidate.

use crate::choices::{Backend, Policy, Role};
use crate::words::{
    BACKEND_TAG, BAND, BUDGET_BURST, BUDGET_NS, BUDGET_PERIOD, BUDGET_TAG, CANDIDATE_AVAILABLE,
    CANDIDATE_PASS_HIGH, CANDIDATE_PASS_LOW, CANDIDATE_TURN, CPU, FIFO_PRIORITY, HEIGHT,
    MEMBERSHIP_FIRST, MEMBERSHIP_SECOND, MEMBERSHIP_TAG, POLICY_TAG, QUANTUM, READY_TURN, ROLE_TAG,
    ROW_WORDS, RUNTIME_FIRST, RUNTIME_FOURTH, RUNTIME_SECOND, RUNTIME_TAG, RUNTIME_THIRD, Row,
    SPARE, WEIGHT,
};

/// The most records that a table may have; a thread's number is its place in the table.
pub const MOST_RECORDS: usize = crate::words::MAX_RECORDS;

/// The band of a new record.
pub const USUAL_BAND: u8 = 128;

/// The weight of a new record that names none.
pub const USUAL_WEIGHT: u16 = 16;

/// The height of a record that stands alone.
const LEAF_HEIGHT: u64 = 1;

/// The number of two halves.
pub(crate) const fn whole(high: u64, low: u64) -> u128 {
    (high as u128) << u64::BITS | low as u128
}

/// A number that may be absent: its flag, then the number.
pub(crate) const fn present(flag: u64, number: u64) -> Option<u64> {
    if flag == 0 { None } else { Some(number) }
}

/// The time that a Budget thread has in each period.
#[derive(Clone, Copy, Debug, PartialEq, Eq, Hash)]
pub struct Budget {
    /// How long it may run in a period: 1 to the period.
    pub budget_ns: u64,
    /// The period, 1 to 1,000,000,000. It is to be the window's, else the thread has no key.
    pub period_ns: u64,
    /// How long it may run at a stretch while other Budget threads wait: 1 to the period.
    pub burst_ns: u64,
}

/// What a thread has left, by its policy.
#[derive(Clone, Copy, Debug, PartialEq, Eq, Hash)]
pub enum Runtime {
    /// FIFO keeps nothing.
    Fifo,
    /// Of a Fair thread.
    Fair {
        /// Its pass, which a board keeps: no call changes it.
        pass: u128,
        /// What is left of its slice, which a board keeps: no call changes it.
        slice_left_ns: u64,
    },
    /// Of a Budget thread.
    Budget {
        /// The period that the time left is of, counted from 0; none before the first.
        epoch: Option<u64>,
        /// What is left of the budget.
        time_left_ns: u64,
        /// What is left of the burst.
        burst_left_ns: u64,
    },
    /// Idle keeps nothing.
    Idle,
}

/// Which list a thread is in.
#[derive(Clone, Copy, Debug, PartialEq, Eq, Hash)]
pub enum Membership {
    /// In none: it can be enqueued.
    None,
    /// Queued in the list of a priority.
    ReadyFifo {
        /// The queue's processor.
        cpu: u8,
        /// The list's priority.
        priority: u8,
    },
    /// Queued in the list of Fair and Budget threads.
    ReadyFair {
        /// The queue's processor.
        cpu: u8,
    },
    /// In a wait list of the board's.
    Waiting {
        /// The list's number.
        queue: u64,
    },
    /// It has ended.
    Terminated,
}

/// One thread, 256 bytes: a board keeps a table of them and lends it to each call. Made by [`Record::fifo`],
/// [`Record::fair`], [`Record::budget`] and [`Record::idle`]; turn, links and what is left of a budget are the calls'.
///
/// While a thread is queued its record is to be left alone: what stands in it decides where the trees have it.
#[derive(Clone, Copy, Debug, PartialEq, Eq)]
#[repr(transparent)]
pub struct Record(Row);

/// A table's records as the rows that the entries take.
pub(crate) const fn rows(table: &[Record]) -> &[Row] {
    // SAFETY: a record is its row (`repr(transparent)`), so address, alignment and count are those of the rows.
    unsafe { core::slice::from_raw_parts(table.as_ptr().cast(), table.len()) }
}

/// The same, for calls that change them: any words that they leave are a record's.
pub(crate) const fn rows_mut(table: &mut [Record]) -> &mut [Row] {
    // SAFETY: as above; the records stay borrowed while the rows are.
    unsafe { core::slice::from_raw_parts_mut(table.as_mut_ptr().cast(), table.len()) }
}

impl Record {
    /// A thread of processor 0 that is in no list and had no turn yet. Its runtime's kind is its policy's.
    const fn new(policy: Policy, role: Role) -> Self {
        let mut row = [0; ROW_WORDS];
        row[POLICY_TAG] = policy.word();
        row[RUNTIME_TAG] = policy.word();
        row[ROLE_TAG] = role.word();
        row[BAND] = USUAL_BAND as u64;
        row[WEIGHT] = USUAL_WEIGHT as u64;
        row[HEIGHT] = LEAF_HEIGHT;
        Self(row)
    }

    /// A new FIFO thread; the least priority comes first.
    pub const fn fifo(priority: u8, role: Role) -> Self {
        let mut record = Self::new(Policy::Fifo, role);
        record.0[FIFO_PRIORITY] = priority as u64;
        record
    }

    /// A new Fair thread with pass 0 and a whole slice of `quantum_ns`.
    pub const fn fair(backend: Backend, weight: u16, quantum_ns: u64, role: Role) -> Self {
        let mut record = Self::new(Policy::Fair, role);
        record.0[BACKEND_TAG] = backend.word();
        record.0[WEIGHT] = weight as u64;
        record.0[QUANTUM] = quantum_ns;
        record.0[RUNTIME_THIRD] = quantum_ns;
        record
    }

    /// A new Budget thread with budget and burst whole. A budget that is not as [`Budget`] says makes a record that
    /// every call refuses as [`BadRecord`](crate::Refusal::BadRecord).
    pub const fn budget(budget: Budget, role: Role) -> Self {
        let mut record = Self::new(Policy::Budget, role);
        record.0[BUDGET_TAG] = true as u64;
        record.0[BUDGET_NS] = budget.budget_ns;
        record.0[BUDGET_PERIOD] = budget.period_ns;
        record.0[BUDGET_BURST] = budget.burst_ns;
        record.0[RUNTIME_THIRD] = budget.budget_ns;
        record.0[RUNTIME_FOURTH] = budget.burst_ns;
        record
    }

    /// A new Idle thread: what runs where nobody else does.
    pub const fn idle() -> Self {
        Self::new(Policy::Idle, Role::Ordinary)
    }

    /// With another band, the least of which comes first among equal ones of an algorithm.
    pub const fn with_band(mut self, band: u8) -> Self {
        self.0[BAND] = band as u64;
        self
    }

    /// Of another processor.
    pub const fn with_cpu(mut self, cpu: u8) -> Self {
        self.0[CPU] = cpu as u64;
        self
    }

    /// A Fair thread's pass and what is left of its slice, which the board counts, not the calls. The record of a
    /// thread of another policy stays as it is.
    pub const fn set_fair(&mut self, pass: u128, slice_left_ns: u64) {
        if let Policy::Fair = Policy::from_word(self.0[RUNTIME_TAG]) {
            self.0[RUNTIME_FIRST] = (pass >> u64::BITS) as u64;
            self.0[RUNTIME_SECOND] = pass as u64;
            self.0[RUNTIME_THIRD] = slice_left_ns;
        }
    }

    /// The two words that no call reads or changes, for numbers of the board's own. A record where they are not 0 has
    /// no image ([`store_record`](crate::store_record)).
    pub const fn set_spare(&mut self, words: [u64; 2]) {
        [self.0[SPARE], self.0[SPARE + 1]] = words;
    }

    /// The two words of [`set_spare`](Record::set_spare).
    pub const fn spare(&self) -> [u64; 2] {
        [self.0[SPARE], self.0[SPARE + 1]]
    }

    /// Its policy.
    pub const fn policy(&self) -> Policy {
        Policy::from_word(self.0[POLICY_TAG])
    }

    /// The priority of a FIFO thread.
    pub const fn priority(&self) -> u8 {
        self.0[FIFO_PRIORITY] as u8
    }

    /// Its band.
    pub const fn band(&self) -> u8 {
        self.0[BAND] as u8
    }

    /// Its role.
    pub const fn role(&self) -> Role {
        Role::from_word(self.0[ROLE_TAG])
    }

    /// Its weight.
    pub const fn weight(&self) -> u16 {
        self.0[WEIGHT] as u16
    }

    /// The length of a Fair thread's slice.
    pub const fn quantum_ns(&self) -> u64 {
        self.0[QUANTUM]
    }

    /// The backend of a Fair thread.
    pub const fn backend(&self) -> Backend {
        Backend::from_word(self.0[BACKEND_TAG])
    }

    /// Its budget, where it has one.
    pub const fn budget_parameters(&self) -> Option<Budget> {
        if self.0[BUDGET_TAG] == 0 {
            return None;
        }
        Some(Budget {
            budget_ns: self.0[BUDGET_NS],
            period_ns: self.0[BUDGET_PERIOD],
            burst_ns: self.0[BUDGET_BURST],
        })
    }

    /// What it has left.
    pub const fn runtime(&self) -> Runtime {
        match Policy::from_word(self.0[RUNTIME_TAG]) {
            Policy::Fifo => Runtime::Fifo,
            Policy::Fair => Runtime::Fair {
                pass: whole(self.0[RUNTIME_FIRST], self.0[RUNTIME_SECOND]),
                slice_left_ns: self.0[RUNTIME_THIRD],
            },
            Policy::Budget => Runtime::Budget {
                epoch: present(self.0[RUNTIME_FIRST], self.0[RUNTIME_SECOND]),
                time_left_ns: self.0[RUNTIME_THIRD],
                burst_left_ns: self.0[RUNTIME_FOURTH],
            },
            Policy::Idle => Runtime::Idle,
        }
    }

    /// Its turn, by [`prepare`](crate::prepare); 0 where it had none.
    pub const fn turn(&self) -> u64 {
        self.0[READY_TURN]
    }

    /// Which list it is in.
    pub const fn membership(&self) -> Membership {
        let (first, second) = (self.0[MEMBERSHIP_FIRST], self.0[MEMBERSHIP_SECOND]);
        match self.0[MEMBERSHIP_TAG] {
            0 => Membership::None,
            1 => Membership::ReadyFifo {
                cpu: first as u8,
                priority: second as u8,
            },
            2 => Membership::ReadyFair { cpu: first as u8 },
            3 => Membership::Waiting { queue: first },
            _ => Membership::Terminated,
        }
    }

    /// The processor that it is assigned to.
    pub const fn cpu(&self) -> u8 {
        self.0[CPU] as u8
    }

    /// The record of any words ([`words`](crate::words)).
    pub const fn from_words(words: Row) -> Self {
        Self(words)
    }

    /// Its words ([`words`](crate::words)).
    pub const fn words(&self) -> &Row {
        &self.0
    }

    pub(crate) const fn words_mut(&mut self) -> &mut Row {
        &mut self.0
    }
}

/// The running thread as selection and keys take it: its parameters, its pass, its turn and whether it has time left.
/// Made by [`candidate`](crate::candidate).
#[derive(Clone, Copy, Debug, PartialEq, Eq)]
#[repr(transparent)]
pub struct Candidate(Row);

impl Candidate {
    /// Lent where no thread is running; nothing of it is looked at.
    pub(crate) const NONE: Self = Self([0; ROW_WORDS]);

    /// Its policy.
    pub const fn policy(&self) -> Policy {
        Policy::from_word(self.0[POLICY_TAG])
    }

    /// Its role.
    pub const fn role(&self) -> Role {
        Role::from_word(self.0[ROLE_TAG])
    }

    /// The pass of a Fair thread, else 0.
    pub const fn pass(&self) -> u128 {
        whole(self.0[CANDIDATE_PASS_HIGH], self.0[CANDIDATE_PASS_LOW])
    }

    /// Whether its budget has time left; so of every thread without a budget.
    pub const fn has_time(&self) -> bool {
        self.0[CANDIDATE_AVAILABLE] != 0
    }

    /// Its turn.
    pub const fn turn(&self) -> u64 {
        self.0[CANDIDATE_TURN]
    }

    /// The candidate of any words ([`words`](crate::words)).
    pub const fn from_words(words: Row) -> Self {
        Self(words)
    }

    /// Its words ([`words`](crate::words)).
    pub const fn words(&self) -> &Row {
        &self.0
    }

    pub(crate) const fn words_mut(&mut self) -> &mut Row {
        &mut self.0
    }
}
