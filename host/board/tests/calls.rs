//! The calls on types: what each answers and changes on a small board, and each refusal that they have.

use board::words::{
    BAND, HEIGHT, MEMBERSHIP_TAG, QUEUE_ROW_WORDS, QUEUE_ROWS, ROW_WORDS, RUNTIME_TAG,
};
use board::*;

const CPU: u8 = 0;
/// Where a queue has the roots of its trees (crates/lent_queue/specs/LentQueue.antt): first FIFO's, by role.
const ROOT_ROWS: usize = 257;
/// Where a list of a queue has its head and its tail.
const HEAD: usize = 1;
const TAIL: usize = 3;
/// Of the FIFO thread.
const PRIORITY: u8 = 7;
const SWAY: Budget = Budget {
    budget_ns: 2_000_000,
    period_ns: 10_000_000,
    burst_ns: 1_000_000,
};
const CONFIG: Config = Config::new(10_000_000, 2_000_000, 3_000_000);
/// When the floor is all that is left of the period.
const DUE: u64 = 7_000_000;

const FIFO: u64 = 0;
const FAIR: u64 = 1;
const BUDGET: u64 = 2;
const IDLE: u64 = 3;
const TABLE: [Record; 4] = [
    Record::fifo(PRIORITY, Role::Priority),
    Record::fair(Backend::RoundRobin, 32, 4_000_000, Role::Ordinary),
    Record::budget(SWAY, Role::Protected),
    Record::idle(),
];

/// What a board keeps.
struct Board {
    queue: Queue,
    table: [Record; 4],
    path: Path,
    turns: Turns,
    window: Window,
}

impl Board {
    fn new() -> Self {
        Self {
            queue: Queue::EMPTY,
            table: TABLE,
            path: Path::NEW,
            turns: Turns::START,
            window: window(&CONFIG).expect("a window"),
        }
    }

    /// With everybody queued but the idle thread.
    fn full() -> Self {
        let mut board = Self::new();
        for id in [FIFO, FAIR, BUDGET] {
            prepare(&mut board.table, id, false, 0, &mut board.turns).expect("prepared");
            board.enqueue(id).expect("enqueued");
        }
        board
    }

    fn enqueue(&mut self, id: u64) -> Result<(), Refusal> {
        enqueue(&mut self.queue, &mut self.table, &mut self.path, id, CPU)
    }

    fn remove(&mut self, id: u64) -> Result<(), Refusal> {
        remove(&mut self.queue, &mut self.table, &mut self.path, id, CPU)
    }

    fn select(&mut self, now: u64, current: Option<&Candidate>) -> Result<Selection, Refusal> {
        let (queue, table, path) = (&mut self.queue, &mut self.table, &mut self.path);
        select(queue, table, path, CPU, now, &mut self.window, current)
    }
}

#[test]
fn new_records_have_the_parts_that_they_were_given() {
    let [fifo, fair, budget, idle] = TABLE;
    let policies = [fifo, fair, budget, idle].map(|record| record.policy());
    assert_eq!(
        policies,
        [Policy::Fifo, Policy::Fair, Policy::Budget, Policy::Idle]
    );
    let roles = [fifo, fair, budget, idle].map(|record| record.role());
    assert_eq!(
        roles,
        [
            Role::Priority,
            Role::Ordinary,
            Role::Protected,
            Role::Ordinary
        ]
    );
    assert_eq!((fifo.priority(), fifo.weight()), (7, USUAL_WEIGHT));
    let parts = (fair.backend(), fair.weight(), fair.quantum_ns());
    assert_eq!(parts, (Backend::RoundRobin, 32, 4_000_000));
    let budgets = [fifo, fair, budget, idle].map(|record| record.budget_parameters());
    assert_eq!(budgets, [None, None, Some(SWAY), None]);
}

#[test]
fn new_records_are_whole_and_in_no_list() {
    let fair = Runtime::Fair {
        pass: 0,
        slice_left_ns: 4_000_000,
    };
    let budget = Runtime::Budget {
        epoch: None,
        time_left_ns: 2_000_000,
        burst_left_ns: 1_000_000,
    };
    let runtimes = TABLE.map(|record| record.runtime());
    assert_eq!(runtimes, [Runtime::Fifo, fair, budget, Runtime::Idle]);
    for record in TABLE {
        assert_eq!(
            (record.band(), record.turn(), record.cpu()),
            (USUAL_BAND, 0, 0)
        );
        assert_eq!(
            (record.membership(), record.words()[HEIGHT]),
            (Membership::None, 1)
        );
    }
}

#[test]
fn new_records_have_images_and_are_taken() {
    for record in TABLE {
        let mut bytes = [0; RECORD_BYTES];
        store_record(&record, &mut bytes).expect("an image");
        assert_eq!(load_record(&bytes), Ok(record));
        assert_eq!(expired(&[record], 0), Ok(false));
    }
}

#[test]
fn records_are_changed_by_name() {
    let record = TABLE[FAIR as usize].with_band(9).with_cpu(3);
    assert_eq!((record.band(), record.cpu(), record.weight()), (9, 3, 32));
    let mut fair = record;
    fair.set_fair(u128::MAX - 1, 5);
    assert_eq!(
        fair.runtime(),
        Runtime::Fair {
            pass: u128::MAX - 1,
            slice_left_ns: 5
        }
    );
    let mut fifo = TABLE[FIFO as usize];
    fifo.set_fair(1, 1);
    assert_eq!(fifo, TABLE[FIFO as usize]);
    fifo.set_spare([4, 5]);
    assert_eq!(fifo.spare(), [4, 5]);
    assert_eq!(
        store_record(&fifo, &mut [0; RECORD_BYTES]),
        Err(Refusal::BadRecord)
    );
}

#[test]
fn choices_beyond_the_last_are_the_last() {
    assert_eq!(
        [0, 1, 2, 3, 9].map(Policy::from_word)[2..],
        [Policy::Budget, Policy::Idle, Policy::Idle]
    );
    assert_eq!(
        [0, 1, 2, 9].map(Role::from_word)[1..],
        [Role::Priority, Role::Protected, Role::Protected]
    );
    assert_eq!([1, 9].map(Backend::from_word), [Backend::RoundRobin; 2]);
    assert_eq!([4, 9].map(Mode::from_word), [Mode::Borrow; 2]);
}

#[test]
fn enqueued_threads_are_counted_and_removed() {
    let mut board = Board::full();
    let counted = lengths(&board.queue).expect("lengths");
    assert_eq!(
        (counted.real_time(), counted.fair(), counted.budget()),
        (1, 2, 1)
    );
    let ready = Membership::ReadyFifo {
        cpu: CPU,
        priority: 7,
    };
    assert_eq!(board.table[FIFO as usize].membership(), ready);
    assert_eq!(
        board.table[BUDGET as usize].membership(),
        Membership::ReadyFair { cpu: CPU }
    );
    assert_eq!(board.turns.back(), Turns::START.back() + 3);
    for id in [FIFO, FAIR, BUDGET] {
        board.remove(id).expect("removed");
    }
    assert!(lengths(&board.queue).expect("lengths").is_empty());
    assert_eq!(board.select(0, None).expect("a selection").thread(), None);
}

#[test]
fn a_thread_at_the_front_comes_first() {
    let mut board = Board::new();
    board.table[FAIR as usize] = TABLE[FIFO as usize];
    prepare(&mut board.table, FIFO, false, 0, &mut board.turns).expect("prepared");
    board.enqueue(FIFO).expect("enqueued");
    prepare(&mut board.table, FAIR, true, 0, &mut board.turns).expect("prepared");
    let (queue, table, path) = (&mut board.queue, &mut board.table, &mut board.path);
    enqueue_front(queue, table, path, FAIR, CPU).expect("enqueued");
    let list = board.queue.words()[PRIORITY as usize];
    assert_eq!((list[HEAD], list[TAIL]), (FAIR, FIFO));
    assert_eq!(
        board.select(0, None).expect("a selection").thread(),
        Some(FAIR)
    );
    assert_eq!(board.turns.front(), Turns::START.front() - 1);
}

#[test]
fn a_selection_tells_who_and_why() {
    let mut board = Board::full();
    let selection = board.select(DUE, None).expect("a selection");
    let ready = selection.ready().expect("a thread");
    assert_eq!((ready.thread(), ready.policy()), (BUDGET, Policy::Budget));
    assert_eq!(
        (
            ready.urgency(),
            ready.rank(),
            ready.algorithm_rank(),
            ready.band()
        ),
        (1, 0, 2, USUAL_BAND)
    );
    assert_eq!(ready.algorithm(), u128::from(ready.turn()));
    assert_eq!(ready.turn(), board.table[BUDGET as usize].turn());
    let demand = selection.demand();
    assert!(demand.protected() && demand.fair() && demand.window_sensitive());
    assert!(demand.eligible_budget() && demand.any_budget());
    assert_eq!(selection.lowest_pass(), Some(0));
    assert_eq!(
        (board.window.epoch(), board.window.floor_left_ns()),
        (Some(0), 3_000_000)
    );
    board.remove(BUDGET).expect("removed");
    let first = board
        .select(7_000_000, None)
        .expect("a selection")
        .ready()
        .expect("a thread");
    assert_eq!(
        (first.thread(), first.priority(), first.urgency()),
        (FIFO, 7, 2)
    );
}

/// The drive runs while the sway loop is due: its candidate, the selection and its key at that reading.
fn due() -> (Board, Candidate, Selection, Key) {
    let mut board = Board::full();
    board.remove(FIFO).expect("removed");
    let candidate = candidate(&mut board.table, FIFO, true, DUE).expect("answered");
    let current = candidate.expect("a thread that runs");
    let selection = board.select(DUE, Some(&current)).expect("a selection");
    let its = key(&mut board.window, DUE, &current, &selection.demand()).expect("answered");
    (board, current, selection, its.expect("a key"))
}

#[test]
fn the_running_thread_has_a_key_and_gives_way() {
    let (_, current, selection, its) = due();
    let parts = (current.policy(), current.role(), current.has_time());
    assert_eq!(parts, (Policy::Fifo, Role::Priority, true));
    assert_eq!((current.turn(), current.pass()), (its.turn(), 0));
    let parts = (its.mode(), its.urgency(), its.rank(), its.algorithm_rank());
    assert_eq!(parts, (Mode::Priority, 2, 0, 0));
    assert_eq!((its.algorithm(), its.band()), (7, USUAL_BAND));
    let choice = switch(&selection, Some(&its), Some(&current), false, false, false);
    let choice = choice.expect("a choice");
    assert!(choice.switches() && choice.to_front());
    let yields = switch(&selection, Some(&its), Some(&current), false, true, false);
    let yields = yields.expect("a choice");
    assert!(yields.switches() && !yields.to_front());
}

#[test]
fn the_running_thread_has_a_deadline_and_is_charged() {
    let (mut board, _, selection, its) = due();
    let counted = lengths(&board.queue).expect("lengths");
    let (table, window) = (&mut board.table, &mut board.window);
    let at = deadline(table, FIFO, DUE, Some(&its), window, &counted, &selection);
    assert_eq!(at, Ok(Some(DUE)));
    account(table, FIFO, window, its.mode(), DUE, DUE + 400_000).expect("charged");
    assert_eq!(window.allowance_left_ns(), window.allowance_ns() - 400_000);
    assert_eq!(window.floor_left_ns(), window.floor_ns());
}

#[test]
fn only_who_runs_takes_part_in_a_selection() {
    let mut board = Board::new();
    let demand = board.select(0, None).expect("a selection").demand();
    assert_eq!(demand, Demand::from_words([0; words::DEMAND_WORDS]));
    let candidate = candidate(&mut board.table, FAIR, true, 0).expect("answered");
    let demand = board
        .select(0, candidate.as_ref())
        .expect("a selection")
        .demand();
    assert!(demand.fair() && demand.window_sensitive() && !demand.any_budget());
}

/// Two FIFO threads of one priority, of which one runs: whether it gives way, and whether to the front.
fn between_equals(expired: bool, yielding: bool, tail: bool) -> (bool, bool) {
    let mut board = Board::new();
    board.table[FAIR as usize] = TABLE[FIFO as usize];
    prepare(&mut board.table, FIFO, false, 0, &mut board.turns).expect("prepared");
    board.enqueue(FIFO).expect("enqueued");
    let candidate = candidate(&mut board.table, FAIR, true, 0).expect("answered");
    let current = candidate.expect("a thread that runs");
    let selection = board.select(0, Some(&current)).expect("a selection");
    let its = key(&mut board.window, 0, &current, &selection.demand()).expect("answered");
    let choice = switch(
        &selection,
        its.as_ref(),
        Some(&current),
        expired,
        yielding,
        tail,
    );
    let choice = choice.expect("a choice");
    (choice.switches(), choice.to_front())
}

#[test]
fn each_flag_of_a_switch_counts() {
    assert_eq!(between_equals(false, false, false), (false, true));
    assert_eq!(between_equals(true, false, false), (false, false));
    assert_eq!(between_equals(false, true, false), (true, false));
    assert_eq!(between_equals(false, false, true), (true, true));
}

/// The deadline of the Fair thread, which runs beside whoever is queued.
fn deadline_of_fair(board: &mut Board, now: u64) -> Option<u64> {
    let candidate = candidate(&mut board.table, FAIR, true, now).expect("answered");
    let current = candidate.expect("a thread that runs");
    let selection = board.select(now, Some(&current)).expect("a selection");
    let its = key(&mut board.window, now, &current, &selection.demand()).expect("answered");
    let counted = lengths(&board.queue).expect("lengths");
    let (table, window) = (&mut board.table, &mut board.window);
    deadline(table, FAIR, now, its.as_ref(), window, &counted, &selection).expect("answered")
}

#[test]
fn a_slice_counts_where_a_thread_is_ready() {
    let mut board = Board::new();
    assert_eq!(deadline_of_fair(&mut board, 0), None);
    let (table, window) = (&mut board.table, &mut board.window);
    account(table, BUDGET, window, Mode::Ordinary, 0, SWAY.budget_ns).expect("charged");
    prepare(table, BUDGET, false, SWAY.budget_ns, &mut board.turns).expect("prepared");
    board.enqueue(BUDGET).expect("enqueued");
    // The budget is exhausted, so nobody is ready before the next period.
    assert_eq!(
        deadline_of_fair(&mut board, SWAY.budget_ns),
        Some(SWAY.period_ns)
    );
    board.remove(BUDGET).expect("removed");
    board.table[IDLE as usize] = TABLE[FAIR as usize];
    prepare(&mut board.table, IDLE, false, 0, &mut board.turns).expect("prepared");
    board.enqueue(IDLE).expect("enqueued");
    assert_eq!(deadline_of_fair(&mut board, 0), Some(4_000_000));
}

#[test]
fn the_mode_says_what_is_charged() {
    for (mode, left) in [(Mode::Ordinary, 2_000_000), (Mode::Priority, 1_900_000)] {
        let mut board = Board::new();
        account(&mut board.table, FAIR, &mut board.window, mode, 0, 100_000).expect("charged");
        assert_eq!(board.window.allowance_left_ns(), left);
    }
}

/// The deadline where the idle thread, which has no key, runs beside the queued.
fn deadline_of_idle(board: &mut Board, now: u64) -> Option<u64> {
    let selection = board.select(now, None).expect("a selection");
    let counted = lengths(&board.queue).expect("lengths");
    let (table, window) = (&mut board.table, &mut board.window);
    deadline(table, IDLE, now, None, window, &counted, &selection).expect("answered")
}

#[test]
fn nobody_runs() {
    let mut board = Board::full();
    assert_eq!(candidate(&mut board.table, IDLE, false, 0), Ok(None));
    let selection = board.select(0, None).expect("a selection");
    let choice = switch(&selection, None, None, false, false, false).expect("a choice");
    assert!(choice.switches());
    assert_eq!(deadline_of_idle(&mut board, 9), Some(9));
    board
        .remove(FAIR)
        .and(board.remove(BUDGET))
        .expect("removed");
    assert_eq!(deadline_of_idle(&mut board, 9), Some(9));
    board.remove(FIFO).expect("removed");
    assert_eq!(deadline_of_idle(&mut board, 9), None);
}

#[test]
fn a_burst_is_spent_and_made_whole() {
    let mut board = Board::new();
    let (table, window) = (&mut board.table, &mut board.window);
    account(table, BUDGET, window, Mode::Ordinary, 0, 1_000_000).expect("charged");
    assert_eq!(expired(table, BUDGET), Ok(true));
    let spent = Runtime::Budget {
        epoch: Some(0),
        time_left_ns: 1_000_000,
        burst_left_ns: 0,
    };
    assert_eq!(table[BUDGET as usize].runtime(), spent);
    finish(table, BUDGET).expect("finished");
    assert_eq!(expired(table, BUDGET), Ok(false));
    assert_eq!(
        (window.floor_left_ns(), window.allowance_left_ns()),
        (2_000_000, 2_000_000)
    );
}

#[test]
fn calls_on_a_table_refuse_what_is_not_there() {
    let mut board = Board::full();
    let beyond = board.table.len() as u64;
    assert_eq!(board.enqueue(beyond), Err(Refusal::NoThread));
    assert_eq!(board.enqueue(FIFO), Err(Refusal::Already));
    assert_eq!(board.enqueue(IDLE), Err(Refusal::BadState));
    assert_eq!(board.remove(IDLE), Err(Refusal::BadState));
    let (table, turns) = (&mut board.table, &mut board.turns);
    assert_eq!(prepare(table, FIFO, false, 0, turns), Err(Refusal::Already));
    assert_eq!(
        prepare(
            &mut TABLE.clone(),
            FIFO,
            true,
            0,
            &mut Turns::from_words([0; 2])
        ),
        Err(Refusal::TurnsSpent)
    );
    let back = account(table, FIFO, &mut board.window, Mode::Priority, 2, 1);
    assert_eq!(back, Err(Refusal::BackInTime));
    let mut many = vec![Record::idle(); MOST_RECORDS + 1];
    assert_eq!(finish(&mut many, 0), Err(Refusal::BadTable));
    assert_eq!(finish(&mut many[1..], 0), Ok(()));
    assert_eq!(finish(&mut [], 0), Err(Refusal::NoThread));
}

#[test]
fn bad_records_and_windows_are_refused() {
    let mut board = Board::new();
    let endless = Budget {
        budget_ns: 0,
        ..SWAY
    };
    board.table[BUDGET as usize] = Record::budget(endless, Role::Protected);
    assert_eq!(board.enqueue(BUDGET), Err(Refusal::BadRecord));
    let mut words = *TABLE[FIFO as usize].words();
    words[RUNTIME_TAG] = Policy::Fair.word();
    assert_eq!(
        expired(&[Record::from_words(words)], 0),
        Err(Refusal::BadRecord)
    );
    let falling = CONFIG.with_ranks(Ranks {
        budget: 2,
        fair: 2,
        ..Ranks::USUAL
    });
    assert_eq!(window(&falling), Err(Refusal::BadConfig));
    board.window = Window::from_words([0; words::WINDOW_WORDS]);
    assert_eq!(board.select(0, None), Err(Refusal::BadConfig));
}

#[test]
fn damage_is_refused_and_a_halted_queue_is_made_anew() {
    let mut board = Board::new();
    assert_eq!(board.remove(FIFO), Err(Refusal::Damaged));
    // A root that leads outside the table: the list is stored before the tree is met.
    let mut rows = *Queue::EMPTY.words();
    let (root, outside) = (
        ROOT_ROWS + Role::Priority.word() as usize,
        TABLE.len() as u64,
    );
    rows[root][..2].copy_from_slice(&[1, outside]);
    board.queue = Queue::from_words(rows);
    assert_eq!(board.enqueue(FIFO), Err(Refusal::Halted));
    assert_eq!(board.enqueue(FAIR), Err(Refusal::Halted));
    new(&mut board.queue).expect("a new queue");
    assert_eq!(board.queue, Queue::EMPTY);
    assert_eq!(board.enqueue(FAIR), Ok(()));
}

#[test]
fn a_new_queue_is_empty_whatever_it_was() {
    let mut queue = Queue::from_words([[u64::MAX; QUEUE_ROW_WORDS]; QUEUE_ROWS]);
    new(&mut queue).expect("a new queue");
    assert_eq!(queue, Queue::EMPTY);
}

#[test]
fn what_is_saved_is_loaded_again() {
    let mut board = Board::full();
    board.select(0, None).expect("a selection");
    let (mut of_table, mut of_queue) = ([0; RECORD_BYTES * TABLE.len()], [0; QUEUE_BYTES]);
    let mut of_window = [0; WINDOW_BYTES];
    store_table(&board.table, &mut of_table).expect("an image");
    store_queue(&board.queue, &mut of_queue).expect("an image");
    store_window(&board.window, &mut of_window).expect("an image");
    let (mut table, mut queue) = (TABLE, Queue::EMPTY);
    load_table(&of_table, &mut table).expect("a table");
    load_queue(&of_queue, &mut queue).expect("a queue");
    assert_eq!((table, queue), (board.table, board.queue));
    assert_eq!(load_window(&of_window), Ok(board.window));
}

#[test]
fn images_are_refused() {
    assert_eq!(load_record(&[0; RECORD_BYTES - 1]), Err(Refusal::BadTable));
    let mut words = [0; ROW_WORDS];
    words[BAND] = 256;
    assert_eq!(
        store_record(&Record::from_words(words), &mut [0; RECORD_BYTES]),
        Err(Refusal::BadRecord)
    );
    words[BAND] = 0;
    words[MEMBERSHIP_TAG] = 5;
    assert_eq!(
        store_table(&[Record::from_words(words)], &mut [0; RECORD_BYTES]),
        Err(Refusal::BadRecord)
    );
    assert_eq!(load_window(&[2; WINDOW_BYTES]), Err(Refusal::BadConfig));
    assert_eq!(
        load_queue(&[2; QUEUE_BYTES], &mut Queue::EMPTY.clone()),
        Err(Refusal::Damaged)
    );
}

#[test]
fn refusals_have_their_numbers_and_names() {
    assert_eq!(Refusal::from_number(0), None);
    let names: Vec<_> = (1..=12)
        .filter_map(Refusal::from_number)
        .map(Refusal::name)
        .collect();
    let documents = "Damaged BadState Already NoThread BadConfig BadBudget BackInTime TurnsSpent \
        Halted BadTable BadRecord RecordOrder";
    assert_eq!(names.join(" "), documents);
    for number in 1..=13 {
        assert_eq!(
            Refusal::from_number(number).map(Refusal::number),
            Some(number)
        );
    }
    let later = Refusal::from_number(13).expect("a refusal");
    assert_eq!(
        later.to_string(),
        "Unknown (13): a refusal of a later version"
    );
    let error: &dyn core::error::Error = &Refusal::Halted;
    assert_eq!(error.to_string(), "Halted (9): the queue is halted");
}

#[test]
fn package_and_library_are_of_one_version() {
    assert_eq!(version(), VERSION);
}
