//! Turns, accounting, the switch rule and deadlines of one processor, run by the source.

use std::sync::{Mutex, PoisonError};

use super::super::Error;
use super::super::algorithms::arbitration::CpuWindow;
use super::super::queue::{LocalReadyQueueAuthority, ReadyThread, Selection as SourceSelection};
use super::super::registry::CpuThreadTableAuthority;
use super::super::state::CpuScheduler;
use super::super::state::runtime::access;
use super::*;
use crate::oracle::{Candidate, Demand, Mode, Processor, Ready, Turns, Window};

/// The source's counters are statics: one call at a time.
static TURNS: Mutex<()> = Mutex::new(());

/// `prepare_enqueue`: the budget's refresh and the turn; floor and origin stay out.
pub fn prepare_enqueue(
    turns: &mut Turns,
    record: &mut Record,
    front: bool,
    now: u64,
) -> Answer<()> {
    let _counters = TURNS.lock().unwrap_or_else(PoisonError::into_inner);
    let mut schedule = record_to_source(record);
    access::set_turns(turns.back, turns.front);
    let result = answer(|| {
        access::prepare(&mut schedule, 0, front, now);
        Ok(())
    });
    (turns.back, turns.front) = access::turns();
    *record = record_from_source(&schedule);
    result
}

fn with_scheduler<T>(
    processor: &mut Processor,
    records: &mut [Record],
    rules: Rules,
    given: Option<SourceSelection>,
    call: impl FnOnce(&mut CpuScheduler) -> Result<T, Error>,
) -> Answer<T> {
    let mut scheduler = CpuScheduler {
        index: CpuIndex::from(processor.cpu),
        current: thread(processor.current),
        run_queue: queue_to_source(&processor.queue),
        window: processor.window.to_source(),
        last_account_ns: processor.now,
        fair_floor: processor.fair_floor,
        dispatch_mode: processor.mode.to_source(),
        armed_deadline_ns: processor.armed_deadline,
        deadline_generation: processor.deadline_generation,
        records: records_to_source(records),
        rules,
        move_limit_reached: false,
        given_selection: given,
    };
    let result = answer(|| call(&mut scheduler));
    records_from_source(&scheduler.records, records);
    processor.queue = queue_from_source(&scheduler.run_queue);
    processor.window = Mirror::from_source(scheduler.window);
    processor.now = scheduler.last_account_ns;
    processor.fair_floor = scheduler.fair_floor;
    processor.mode = Mirror::from_source(scheduler.dispatch_mode);
    processor.armed_deadline = scheduler.armed_deadline_ns;
    processor.deadline_generation = scheduler.deadline_generation;
    if scheduler.move_limit_reached {
        return Err(Refusal::MoveLimit);
    }
    result
}

/// `account_current` with the clock at `reading` (none: the clock cannot be read yet).
pub fn account_processor(
    processor: &mut Processor,
    records: &mut [Record],
    reading: Option<u64>,
) -> Answer<()> {
    crate::time::set_monotonic_nanoseconds(reading);
    let result = with_scheduler(processor, records, Rules::SOURCE, None, access::account);
    crate::time::set_monotonic_nanoseconds(None);
    result
}

/// `current_candidate`: none unless the current thread is Running; refreshes its budget.
pub fn current_candidate(
    processor: &mut Processor,
    records: &mut [Record],
) -> Answer<Option<Candidate>> {
    let current = with_scheduler(processor, records, Rules::SOURCE, None, access::candidate);
    current.map(|candidate| candidate.map(Mirror::from_source))
}

/// `choose_ready`: the thread to switch to and whether the current one goes to the front.
pub fn choose_ready(
    rules: Rules,
    processor: &mut Processor,
    records: &mut [Record],
    yielding: bool,
) -> Answer<Option<(u64, bool)>> {
    let chosen = with_scheduler(processor, records, rules, None, |scheduler| {
        access::choose(scheduler, yielding)
    });
    chosen.map(|chosen| chosen.map(|(id, front)| (number(id), front)))
}

/// `refresh_deadline`: the deadline stands in `armed_deadline`, the mode in `mode`.
pub fn refresh_deadline(
    rules: Rules,
    processor: &mut Processor,
    records: &mut [Record],
) -> Answer<()> {
    with_scheduler(processor, records, rules, None, access::deadline)
}

/// A processor that runs the one given record over an empty queue.
fn alone(record: &Record, window: Window, now: Option<u64>, mode: Mode) -> Processor {
    Processor {
        cpu: record.cpu,
        current: 0,
        queue: Queue::EMPTY,
        window,
        now,
        mode,
        armed_deadline: None,
        deadline_generation: 0,
        fair_floor: 0,
    }
}

fn given(ready: Option<Ready>, demand: Demand) -> SourceSelection {
    SourceSelection {
        ready: ready.map(|ready| ReadyThread {
            id: thread(ready.number),
            policy: ready.policy.to_source(),
            key: ready.key.to_source(),
        }),
        demand: demand.to_source(),
        fair_min_pass: None,
    }
}

/// `account_current` of one record and a window between two readings.
pub fn account_current(
    record: &mut Record,
    window: &mut Window,
    mode: Mode,
    start: u64,
    end: u64,
) -> Answer<()> {
    let mut processor = alone(record, *window, Some(start), mode);
    let result = account_processor(&mut processor, core::slice::from_mut(record), Some(end));
    *window = processor.window;
    result
}

/// The switch rule of `choose_ready` for a given selection: some front flag where it switches.
///
/// The record is the current thread: its budget is refreshed, its turn ended where it expired or
/// yields, and its deferred placement taken.
pub fn switch_rule(
    record: &mut Record,
    window: &mut Window,
    now: u64,
    ready: Option<Ready>,
    demand: Demand,
    yielding: bool,
) -> Answer<Option<bool>> {
    let mut processor = alone(record, *window, Some(now), Mode::Ordinary);
    let chosen = with_scheduler(
        &mut processor,
        core::slice::from_mut(record),
        Rules::SOURCE,
        Some(given(ready, demand)),
        |scheduler| access::choose(scheduler, yielding),
    );
    *window = processor.window;
    chosen.map(|chosen| chosen.map(|(_, front)| front))
}

/// The choice of deadline in `refresh_deadline` for a given selection and given queue lengths.
///
/// `mode` changes only where the current thread has a key.
pub fn deadline_rule(
    record: &mut Record,
    window: &mut Window,
    mode: &mut Mode,
    now: u64,
    ready: Option<Ready>,
    demand: Demand,
    competition: bool,
    budget_peer: bool,
) -> Answer<Option<u64>> {
    let mut processor = alone(record, *window, Some(now), *mode);
    processor.queue.fifo_length = u64::from(competition);
    processor.queue.budget_count = u64::from(budget_peer);
    let result = with_scheduler(
        &mut processor,
        core::slice::from_mut(record),
        Rules::SOURCE,
        Some(given(ready, demand)),
        access::deadline,
    );
    *window = processor.window;
    *mode = processor.mode;
    result.map(|()| processor.armed_deadline)
}

/// A processor that runs thread 0 of records that stay the source's own between calls, with a given selection: for
/// counts of instructions.
pub struct KeptScheduler(CpuScheduler);

impl KeptScheduler {
    /// On processor 0, last accounted at `now`; the queue says that a FIFO and a budget thread wait.
    pub fn of(
        records: &[Record],
        window: Window,
        now: u64,
        ready: Option<Ready>,
        demand: Demand,
    ) -> Self {
        let queue = Queue {
            fifo_length: 1,
            budget_count: 1,
            ..Queue::EMPTY
        };
        Self(CpuScheduler {
            index: CpuIndex::from(0),
            current: thread(0),
            run_queue: queue_to_source(&queue),
            window: window.to_source(),
            last_account_ns: Some(now),
            fair_floor: 0,
            dispatch_mode: Mode::Ordinary.to_source(),
            armed_deadline_ns: None,
            deadline_generation: 0,
            records: records_to_source(records),
            rules: Rules::SOURCE,
            move_limit_reached: false,
            given_selection: Some(given(ready, demand)),
        })
    }

    /// `prepare_enqueue` of thread 0; the counters run on.
    pub fn prepare(&mut self, front: bool, now: u64) {
        access::prepare(&mut self.0.records[0], 0, front, now);
    }

    /// The clock that `account` reads.
    pub fn set_clock(reading: u64) {
        crate::time::set_monotonic_nanoseconds(Some(reading));
    }

    /// `account_current` up to the clock's reading.
    pub fn account(&mut self) -> Answer<()> {
        access::account(&mut self.0).map_err(refusal)
    }

    /// `choose_ready`: whether it switches.
    pub fn choose(&mut self) -> Answer<bool> {
        let chosen = access::choose(&mut self.0, false).map_err(refusal)?;
        Ok(chosen.is_some())
    }

    /// `refresh_deadline`.
    pub fn deadline(&mut self) -> Answer<Option<u64>> {
        access::deadline(&mut self.0).map_err(refusal)?;
        Ok(self.0.armed_deadline_ns)
    }

    /// `finish_turn` of thread 0's runtime.
    pub fn finish(&mut self) {
        let schedule = &mut self.0.records[0];
        schedule.runtime.finish_turn(schedule.parameters);
    }
}

/// A board over records and a queue that stay the source's own between calls, through the source's own access: for
/// counts of instructions and times.
pub struct KeptBoard(CpuScheduler);

impl KeptBoard {
    /// On processor 0, last accounted at `now`, with an empty queue; the thread `current` runs.
    pub fn of(records: &[Record], window: Window, now: u64, current: u64) -> Self {
        Self(CpuScheduler {
            index: CpuIndex::from(0),
            current: thread(current),
            run_queue: queue_to_source(&Queue::EMPTY),
            window: window.to_source(),
            last_account_ns: Some(now),
            fair_floor: 0,
            dispatch_mode: Mode::Ordinary.to_source(),
            armed_deadline_ns: None,
            deadline_generation: 0,
            records: records_to_source(records),
            rules: Rules::NONE,
            move_limit_reached: false,
            given_selection: None,
        })
    }

    /// `prepare_enqueue`, then the enqueue at the end that it says; the counters run on.
    pub fn enqueue(&mut self, place: u64, front: bool, now: u64) -> Answer<()> {
        let local = &mut self.0;
        access::prepare(&mut local.records[length(place)], 0, front, now);
        let table = CpuThreadTableAuthority::new(local.index, &mut local.records);
        let threads = &mut LocalReadyQueueAuthority::new(table);
        let (queue, id) = (&mut local.run_queue, thread(place));
        match front {
            true => queue.enqueue_front(threads, id, local.index),
            false => queue.enqueue(threads, id, local.index),
        }
        .map_err(refusal)
    }

    /// The thread leaves the queue and runs.
    pub fn run(&mut self, place: u64) -> Answer<()> {
        let local = &mut self.0;
        let membership = local.records[length(place)].ready_queue_links.membership;
        let table = CpuThreadTableAuthority::new(local.index, &mut local.records);
        let threads = &mut LocalReadyQueueAuthority::new(table);
        let removed = local
            .run_queue
            .remove(threads, thread(place), local.index, membership);
        local.current = thread(place);
        local.records[length(place)].state = ThreadState::Running;
        removed.map_err(refusal)
    }

    /// The clock that `account` reads.
    pub fn set_clock(reading: u64) {
        KeptScheduler::set_clock(reading);
    }

    /// `account_current` up to the clock's reading.
    pub fn account(&mut self) -> Answer<()> {
        access::account(&mut self.0).map_err(refusal)
    }

    /// `choose_ready`: the thread to switch to, and whether the running one goes to the front.
    pub fn choose(&mut self, yielding: bool) -> Answer<Option<(u64, bool)>> {
        let chosen = access::choose(&mut self.0, yielding).map_err(refusal)?;
        Ok(chosen.map(|(id, front)| (number(id), front)))
    }

    /// `refresh_deadline`.
    pub fn deadline(&mut self) -> Answer<Option<u64>> {
        access::deadline(&mut self.0).map_err(refusal)?;
        Ok(self.0.armed_deadline_ns)
    }
}
