/* The scheduling core of a hoist board: the entries of libboard.a, and at the end those of libimages.a, which save what
 * the core works on as bytes. C99 and C++11. docs/BOARD.md has how a board uses it, host/c/cycle.c a board's main loop.
 *
 * The board keeps everything and lends it for the time of one call: a queue, a table with a record for each thread, a
 * window, two turn counters, a lift record. The core keeps nothing between calls, allocates nothing, and every call
 * ends. Times are nanoseconds of one clock that the board chooses.
 *
 * Every call but board_version answers 0 (BOARD_MADE) where it was made, else one of the refusals below. Any words are
 * taken, whatever they are: a flag is set where its word is not 0, a byte is its word's remainder by 256, a number
 * beyond the last of a choice stands for the last.
 *
 * Asked of the caller: each address is that of a whole struct, the table's of as many records and a lift record's of as
 * many words as the count says (it is an aligned address and not null also where the count is 0); what is lent to one
 * call does not overlap, unless the call changes none of it; and one queue and its table are lent to one call at a
 * time, as is a lift record while board_append changes it.
 */
#ifndef BOARD_H
#define BOARD_H

#include <stddef.h>
#include <stdint.h>

#ifdef __cplusplus
extern "C" {
#endif

/* Rises with every changed signature, length or struct of this header. board_version answers that of the archive: a
   board asks once whether the two are the same. */
#define BOARD_VERSION 1

uint64_t board_version(void);

/* Why a call was not made. Where several hold, a call answers the first in the order that is named at each call. */
enum board_refusal {
    BOARD_MADE = 0,
    BOARD_DAMAGED = 1,      /* lists, trees or links do not agree with one another or with the table */
    BOARD_BAD_STATE = 2,    /* an Idle thread, or on enqueue a thread of another processor */
    BOARD_ALREADY = 3,      /* the thread is in a list already, on enqueue and preparing */
    BOARD_NO_THREAD = 4,    /* the thread's number is not below the count of records */
    BOARD_BAD_CONFIG = 5,   /* a window whose period, allowance, floor and ranks no window can have */
    BOARD_BAD_BUDGET = 6,   /* a budget that cannot be made; no call of this header answers it: see BOARD_BAD_RECORD */
    BOARD_BACK_IN_TIME = 7, /* accounting with the end before the start */
    BOARD_TURNS_SPENT = 8,  /* a turn counter is at its end */
    BOARD_HALTED = 9,       /* the queue cannot go on: it is marked, and refuses each enqueue, removal and selection */
    BOARD_BAD_TABLE = 10,   /* more than BOARD_MOST_RECORDS records; of an image, another count of bytes than it has;
                               of a lift record, no room for a run more */
    BOARD_BAD_RECORD = 11,  /* policy, budget and runtime disagree, or the budget is bad */
    BOARD_RECORD_ORDER = 12 /* of a lift record: its words are not whole runs, or its runs are out of order */
};

/* The refusal's name, for a message. */
static inline const char *board_refusal_name(uint64_t refusal)
{
    switch (refusal) {
    case BOARD_MADE: return "Made";
    case BOARD_DAMAGED: return "Damaged";
    case BOARD_BAD_STATE: return "BadState";
    case BOARD_ALREADY: return "Already";
    case BOARD_NO_THREAD: return "NoThread";
    case BOARD_BAD_CONFIG: return "BadConfig";
    case BOARD_BAD_BUDGET: return "BadBudget";
    case BOARD_BACK_IN_TIME: return "BackInTime";
    case BOARD_TURNS_SPENT: return "TurnsSpent";
    case BOARD_HALTED: return "Halted";
    case BOARD_BAD_TABLE: return "BadTable";
    case BOARD_BAD_RECORD: return "BadRecord";
    case BOARD_RECORD_ORDER: return "RecordOrder";
    default: return "unknown";
    }
}

/* ---- choices ---- */

#define BOARD_POLICY_FIFO 0
#define BOARD_POLICY_FAIR 1
#define BOARD_POLICY_BUDGET 2
#define BOARD_POLICY_IDLE 3

#define BOARD_ROLE_ORDINARY 0  /* of FIFO: comes before all others, whatever the window has left */
#define BOARD_ROLE_PRIORITY 1  /* runs on the window's allowance */
#define BOARD_ROLE_PROTECTED 2 /* the window's floor is kept for it */

#define BOARD_BACKEND_STRIDE 0 /* the least pass comes first */
#define BOARD_BACKEND_ROUND_ROBIN 1

/* Under which title a thread runs: what its time is charged to. */
#define BOARD_MODE_STRICT_FIFO 0
#define BOARD_MODE_PRIORITY 1
#define BOARD_MODE_PROTECTED 2
#define BOARD_MODE_ORDINARY 3
#define BOARD_MODE_BORROW 4

/* In which list a thread is. The calls set the first three; a board may set the others, and sets the first again before
   it enqueues the thread. */
#define BOARD_MEMBER_NONE 0
#define BOARD_MEMBER_READY_FIFO 1
#define BOARD_MEMBER_READY_FAIR 2
#define BOARD_MEMBER_WAITING 3
#define BOARD_MEMBER_TERMINATED 4

/* ---- what is lent ---- */

#define BOARD_MOST_RECORDS 4096 /* of a table; a thread's number is its record's place, 0 to 4095 */
#define BOARD_QUEUE_ROWS 270
#define BOARD_QUEUE_ROW_WORDS 5
#define BOARD_PATH_ROWS 40
#define BOARD_PATH_ROW_WORDS 2

/* A run queue of one processor: made by board_new, changed by the calls alone. */
typedef struct board_queue_t {
    uint64_t rows[BOARD_QUEUE_ROWS][BOARD_QUEUE_ROW_WORDS];
} board_queue_t;

/* Room for the steps of one descent in a tree. Its words say nothing before or after a call. */
typedef struct board_path_t {
    uint64_t rows[BOARD_PATH_ROWS][BOARD_PATH_ROW_WORDS];
} board_path_t;

/* What a thread is. A board sets it while the thread is not queued; no call changes it. */
typedef struct board_parameters_t {
    uint64_t policy;     /* BOARD_POLICY_.. */
    uint64_t priority;   /* of FIFO: 0 to 255, the least comes first */
    uint64_t band;       /* 0 to 255: of equal ones the least band comes first */
    uint64_t role;       /* BOARD_ROLE_.. */
    uint64_t weight;     /* of Fair, for the board's own use: no call looks at it */
    uint64_t quantum_ns; /* of Fair, the same */
    uint64_t backend;    /* of Fair: BOARD_BACKEND_.., the same for all threads of a processor */
    uint64_t has_budget; /* set exactly where the policy is Budget */
    uint64_t budget_ns;  /* how long it may run in each period: 1 to the period */
    uint64_t period_ns;  /* 1 to 1,000,000,000; the window's, else the thread is never named */
    uint64_t burst_ns;   /* how long at a stretch while another Budget thread waits: 1 to the period */
} board_parameters_t;

/* What a Fair thread has. The board keeps it, while the thread is not queued: no call changes it. */
typedef struct board_fair_runtime_t {
    uint64_t pass_high; /* the pass has 128 bits */
    uint64_t pass_low;
    uint64_t slice_left_ns;
    uint64_t unused;
} board_fair_runtime_t;

/* What a Budget thread has left. The calls keep it. */
typedef struct board_budget_runtime_t {
    uint64_t has_epoch; /* whether the time left is that of a period */
    uint64_t epoch;     /* of which: a reading divided by the period */
    uint64_t time_left_ns;
    uint64_t burst_left_ns;
} board_budget_runtime_t;

/* By the record's runtime_kind; FIFO and Idle have neither. */
typedef union board_runtime_t {
    board_budget_runtime_t budget;
    board_fair_runtime_t fair;
} board_runtime_t;

/* Another thread, or none. */
typedef struct board_link_t {
    uint64_t is_set;
    uint64_t thread;
} board_link_t;

typedef struct board_membership_t {
    uint64_t kind;     /* BOARD_MEMBER_.. */
    uint64_t owner;    /* of a ready list its processor, of a wait list its number */
    uint64_t priority; /* of a list of FIFO threads */
} board_membership_t;

/* One thread. A board makes it by one of the initialisers below; from its turn to its membership the calls keep it. */
typedef struct board_record_t {
    board_parameters_t parameters;
    uint64_t runtime_kind; /* the policy again: BOARD_POLICY_.. */
    board_runtime_t runtime;
    uint64_t turn; /* by board_prepare; 0 where it had none */
    board_link_t left, right;
    uint64_t height;
    board_link_t previous, next;
    board_membership_t membership;
    uint64_t cpu;      /* its processor, 0 to 255 */
    uint64_t spare[2]; /* the board's own: no call looks at them or changes them; an image takes 0 alone */
} board_record_t;

/* The running thread as selections and keys see it; made by board_candidate. */
typedef struct board_candidate_t {
    board_parameters_t parameters;
    uint64_t unused;
    uint64_t pass_high;
    uint64_t pass_low;
    uint64_t has_time; /* whether its budget has time left; set where it has no budget */
    uint64_t unused_too;
    uint64_t turn;
    uint64_t unused_rest[15];
} board_candidate_t;

/* What a window is made from. The floor is above 0 and below the period, the allowance below what the floor leaves of
   the period, and the four ranks, 0 to 255, rise in their order. */
typedef struct board_config_t {
    uint64_t period_ns;    /* 1 to 1,000,000,000 */
    uint64_t allowance_ns; /* of each period, for how long threads of role Priority have the priority rank */
    uint64_t floor_ns;     /* of each period, how much is kept for threads of role Protected: see docs/BOARD.md */
    uint64_t priority_rank;
    uint64_t budget_rank;
    uint64_t fair_rank;
    uint64_t borrow_rank;
    uint64_t prefer_fair; /* whether Fair threads run on the allowance too */
} board_config_t;

/* What is left of allowance and floor in this period; made by board_window, one for each processor. */
typedef struct board_window_t {
    board_config_t config;
    uint64_t has_epoch;
    uint64_t epoch;
    uint64_t allowance_left_ns;
    uint64_t floor_left_ns;
} board_window_t;

/* The two counters that turns come from; both start as BOARD_TURNS has them. */
typedef struct board_turns_t {
    uint64_t back;
    uint64_t front;
} board_turns_t;

/* One run of a lift record: from which reading to which a thread ran. A run may have the length 0. */
typedef struct board_run_t {
    uint64_t start;
    uint64_t end;
    uint64_t thread; /* its number; no call looks at it */
} board_run_t;

#define BOARD_RUN_WORDS 3

/* ---- what is answered ---- */

/* Why a thread comes where it does. Keys compare by urgency, rank, algorithm rank, algorithm, band and turn, in this
   order, and the least comes first. */
typedef struct board_key_t {
    uint64_t is_set; /* whether there is a key; a thread without one gives way to any other */
    uint64_t mode;   /* BOARD_MODE_.. */
    uint64_t urgency;
    uint64_t rank;
    uint64_t algorithm_rank;
    uint64_t algorithm_high; /* the algorithm has 128 bits */
    uint64_t algorithm_low;
    uint64_t band;
    uint64_t turn;
} board_key_t;

/* The thread that a selection names, with its key. */
typedef struct board_ready_t {
    uint64_t is_set; /* whether a thread is named */
    uint64_t thread; /* its number */
    uint64_t urgency;
    uint64_t rank;
    uint64_t algorithm_rank;
    uint64_t algorithm_high;
    uint64_t algorithm_low;
    uint64_t band;
    uint64_t turn;
} board_ready_t;

/* What the queued threads and the running one ask for together: five flags. */
typedef struct board_demand_t {
    uint64_t protection;       /* a thread of role Protected is there, with time left if it is Budget */
    uint64_t fair;             /* a FIFO or Fair thread */
    uint64_t window_sensitive; /* a Fair thread, or one of role Priority */
    uint64_t eligible_budget;  /* a Budget thread with time left */
    uint64_t any_budget;       /* a Budget thread */
} board_demand_t;

typedef struct board_selection_t {
    board_ready_t ready;
    uint64_t policy;   /* of the thread that is named */
    uint64_t priority; /* of FIFO */
    board_demand_t demand;
    uint64_t has_pass; /* whether there is a Fair thread, and the lowest pass of them */
    uint64_t pass_high;
    uint64_t pass_low;
} board_selection_t;

/* How many threads are queued. */
typedef struct board_lengths_t {
    uint64_t fifo;
    uint64_t fair_and_budget;
    uint64_t budget;
} board_lengths_t;

typedef struct board_choice_t {
    uint64_t switches; /* whether the running thread gives way to the one that is named */
    uint64_t to_front; /* whether it is then enqueued at the front */
} board_choice_t;

typedef struct board_deadline_t {
    uint64_t is_set; /* whether there is one: else nothing has to be looked at before somebody wakes */
    uint64_t at_ns;
} board_deadline_t;

/* A part of a lift record, in runs. */
typedef struct board_place_t {
    uint64_t first; /* the number of its first run; of an empty part, of the run that it lies before */
    uint64_t count; /* how many runs it has */
} board_place_t;

/* What a slide answers. */
typedef struct board_slid_t {
    uint64_t first; /* as of a place */
    uint64_t count;
    uint64_t afresh; /* whether it searched, since it could not go on from the earlier place: 1 or 0 */
} board_slid_t;

/* The entries take each of these as so many words with nothing between them: asked here at compile time. */
#define BOARD_HAS_WORDS(type, words) \
    typedef char type##_has_its_words[sizeof(type) == (words) * sizeof(uint64_t) ? 1 : -1]

BOARD_HAS_WORDS(board_queue_t, 1350);
BOARD_HAS_WORDS(board_path_t, 80);
BOARD_HAS_WORDS(board_record_t, 32);
BOARD_HAS_WORDS(board_candidate_t, 32);
BOARD_HAS_WORDS(board_config_t, 8);
BOARD_HAS_WORDS(board_window_t, 12);
BOARD_HAS_WORDS(board_turns_t, 2);
BOARD_HAS_WORDS(board_run_t, BOARD_RUN_WORDS);
BOARD_HAS_WORDS(board_key_t, 9);
BOARD_HAS_WORDS(board_ready_t, 9);
BOARD_HAS_WORDS(board_demand_t, 5);
BOARD_HAS_WORDS(board_selection_t, 19);
BOARD_HAS_WORDS(board_lengths_t, 3);
BOARD_HAS_WORDS(board_choice_t, 2);
BOARD_HAS_WORDS(board_deadline_t, 2);
BOARD_HAS_WORDS(board_place_t, 2);
BOARD_HAS_WORDS(board_slid_t, 3);

/* And that a part stands at the word that the entries look at. */
#define BOARD_STANDS_AT(type, field, word) \
    typedef char type##_##field##_in_its_place[offsetof(type, field) == (word) * sizeof(uint64_t) ? 1 : -1]

BOARD_STANDS_AT(board_record_t, runtime_kind, 11);
BOARD_STANDS_AT(board_record_t, runtime, 12);
BOARD_STANDS_AT(board_record_t, turn, 16);
BOARD_STANDS_AT(board_record_t, left, 17);
BOARD_STANDS_AT(board_record_t, right, 19);
BOARD_STANDS_AT(board_record_t, height, 21);
BOARD_STANDS_AT(board_record_t, previous, 22);
BOARD_STANDS_AT(board_record_t, next, 24);
BOARD_STANDS_AT(board_record_t, membership, 26);
BOARD_STANDS_AT(board_record_t, cpu, 29);
BOARD_STANDS_AT(board_candidate_t, pass_high, 12);
BOARD_STANDS_AT(board_candidate_t, has_time, 14);
BOARD_STANDS_AT(board_candidate_t, turn, 16);
BOARD_STANDS_AT(board_window_t, has_epoch, 8);
BOARD_STANDS_AT(board_window_t, floor_left_ns, 11);
BOARD_STANDS_AT(board_key_t, turn, 8);
BOARD_STANDS_AT(board_ready_t, turn, 8);
BOARD_STANDS_AT(board_selection_t, policy, 9);
BOARD_STANDS_AT(board_selection_t, demand, 11);
BOARD_STANDS_AT(board_selection_t, has_pass, 16);
BOARD_STANDS_AT(board_turns_t, front, 1);
BOARD_STANDS_AT(board_run_t, end, 1);
BOARD_STANDS_AT(board_run_t, thread, 2);
BOARD_STANDS_AT(board_choice_t, to_front, 1);
BOARD_STANDS_AT(board_deadline_t, at_ns, 1);
BOARD_STANDS_AT(board_place_t, count, 1);
BOARD_STANDS_AT(board_slid_t, count, 1);
BOARD_STANDS_AT(board_slid_t, afresh, 2);

/* ---- initialisers ---- */

/* New records: in no list, with no turn yet; a Budget thread full and of no period yet, a Fair thread with pass 0 and a
 * whole slice. For a table that is initialised where it is declared:
 *
 *     static board_record_t table[THREADS] = {
 *         [SWAY]  = BOARD_BUDGET(2000000, 10000000, 1000000, BOARD_ROLE_PROTECTED),
 *         [BRAKE] = BOARD_FIFO(1, BOARD_ROLE_ORDINARY),
 *         [LOG]   = BOARD_FAIR(BOARD_BACKEND_STRIDE, BOARD_USUAL_WEIGHT, 4000000, BOARD_ROLE_ORDINARY),
 *         [IDLE]  = BOARD_IDLE,
 *     };
 *
 * and, the same as functions, `table[BRAKE] = board_fifo(1, BOARD_ROLE_ORDINARY);`. In C++, which has no `[BRAKE] =`,
 * the macros stand in their order. These are for processor 0 and for the usual band, in the middle; with another
 * processor and band: BOARD_FIFO_ON(1, 64, 1, BOARD_ROLE_ORDINARY), or `table[BRAKE].parameters.band = 64` before the
 * thread is enqueued. An argument may be looked at twice. */
#define BOARD_USUAL_BAND 128
#define BOARD_USUAL_WEIGHT 16
#define BOARD_NEW_HEIGHT 1

#define BOARD_FIFO(priority, role) BOARD_FIFO_ON(0, BOARD_USUAL_BAND, priority, role)
#define BOARD_FAIR(backend, weight, slice_ns, role) \
    BOARD_FAIR_ON(0, BOARD_USUAL_BAND, backend, weight, slice_ns, role)
#define BOARD_BUDGET(budget_ns, period_ns, burst_ns, role) \
    BOARD_BUDGET_ON(0, BOARD_USUAL_BAND, budget_ns, period_ns, burst_ns, role)
#define BOARD_IDLE BOARD_IDLE_ON(0)

#define BOARD_FIFO_ON(cpu, band, priority, role) \
    BOARD_NEW_RECORD(cpu, 0, 0, BOARD_POLICY_FIFO, priority, band, role, BOARD_USUAL_WEIGHT, 0, BOARD_BACKEND_STRIDE, \
                     0, 0, 0, 0)
#define BOARD_FAIR_ON(cpu, band, backend, weight, slice_ns, role) \
    BOARD_NEW_RECORD(cpu, slice_ns, 0, BOARD_POLICY_FAIR, 0, band, role, weight, slice_ns, backend, 0, 0, 0, 0)
#define BOARD_BUDGET_ON(cpu, band, budget_ns, period_ns, burst_ns, role) \
    BOARD_NEW_RECORD(cpu, budget_ns, burst_ns, BOARD_POLICY_BUDGET, 0, band, role, BOARD_USUAL_WEIGHT, 0, \
                     BOARD_BACKEND_STRIDE, 1, budget_ns, period_ns, burst_ns)
#define BOARD_IDLE_ON(cpu) \
    BOARD_NEW_RECORD(cpu, 0, 0, BOARD_POLICY_IDLE, 0, BOARD_USUAL_BAND, BOARD_ROLE_ORDINARY, BOARD_USUAL_WEIGHT, 0, \
                     BOARD_BACKEND_STRIDE, 0, 0, 0, 0)

/* A record by its fields in their order, since C++ has no other way: `left_ns` and `burst_left_ns` are the last two of
   its runtime, the arguments behind the policy the other ten parameters. */
#define BOARD_NEW_RECORD(cpu, left_ns, burst_left_ns, policy, ...) \
    {{policy, __VA_ARGS__}, policy, {{0, 0, left_ns, burst_left_ns}}, 0, {0, 0}, {0, 0}, BOARD_NEW_HEIGHT, {0, 0}, \
     {0, 0}, {BOARD_MEMBER_NONE, 0, 0}, cpu, {0, 0}}

static inline board_record_t board_fifo(uint64_t priority, uint64_t role)
{
    board_record_t record = BOARD_FIFO(priority, role);
    return record;
}

static inline board_record_t board_fair(uint64_t backend, uint64_t weight, uint64_t slice_ns, uint64_t role)
{
    board_record_t record = BOARD_FAIR(backend, weight, slice_ns, role);
    return record;
}

static inline board_record_t board_budget(uint64_t budget_ns, uint64_t period_ns, uint64_t burst_ns, uint64_t role)
{
    board_record_t record = BOARD_BUDGET(budget_ns, period_ns, burst_ns, role);
    return record;
}

static inline board_record_t board_idle(void)
{
    board_record_t record = BOARD_IDLE;
    return record;
}

/* A configuration with the usual ranks (priority before budget before fair before borrow), by the names of the other
 * parts:
 *
 *     static const board_config_t config =
 *         BOARD_CONFIG(.period_ns = 10000000, .allowance_ns = 2000000, .floor_ns = 3000000);
 *
 * Who wants other ranks names all parts in a plain initialiser. In C++: board_config, by their order. */
#define BOARD_USUAL_PRIORITY_RANK 0
#define BOARD_USUAL_BUDGET_RANK 1
#define BOARD_USUAL_FAIR_RANK 2
#define BOARD_USUAL_BORROW_RANK 3

#ifndef __cplusplus
#define BOARD_CONFIG(...) \
    {.priority_rank = BOARD_USUAL_PRIORITY_RANK, .budget_rank = BOARD_USUAL_BUDGET_RANK, \
     .fair_rank = BOARD_USUAL_FAIR_RANK, .borrow_rank = BOARD_USUAL_BORROW_RANK, __VA_ARGS__}
#endif

static inline board_config_t board_config(uint64_t period_ns, uint64_t allowance_ns, uint64_t floor_ns)
{
    board_config_t config = {period_ns, allowance_ns, floor_ns, BOARD_USUAL_PRIORITY_RANK, BOARD_USUAL_BUDGET_RANK,
                             BOARD_USUAL_FAIR_RANK, BOARD_USUAL_BORROW_RANK, 0};
    return config;
}

/* Both counters at their start, in the middle of their range. */
#define BOARD_TURNS_START UINT64_C(9223372036854775808)
#define BOARD_TURNS {BOARD_TURNS_START, BOARD_TURNS_START}

/* ---- the queue ---- */

/* Makes a queue new and empty. A board calls it once for each processor before anything else, and again to start anew
   after Halted or Damaged (records that stood in the queue are then set to BOARD_MEMBER_NONE). Changes the queue. Not
   refused. */
uint64_t board_new(board_queue_t *queue);

/* Puts a thread at the end of the list of its priority (FIFO) or of the fair list (Fair, Budget), and into its tree. A
 * board calls it for a thread that wakes, and for one that gives way and is not to go to the front, right after
 * board_prepare. Changes the queue, the thread's record, and the links of others in its list and its tree.
 * Refused: BadTable, Halted, NoThread, BadRecord, BadState (Idle), Already, BadState (another processor), Damaged: then
 * nothing is changed. Last, Halted for the first time, where the links mislead it halfway: then the stores up to there
 * stay, and the queue is marked. */
uint64_t board_enqueue(board_queue_t *queue, board_record_t *table, uint64_t count, board_path_t *path,
                       uint64_t thread, uint8_t cpu);

/* The same at the front: for a thread that gives way where board_switch answers to_front. */
uint64_t board_enqueue_front(board_queue_t *queue, board_record_t *table, uint64_t count, board_path_t *path,
                             uint64_t thread, uint8_t cpu);

/* Takes a thread out of its list and its tree. A board calls it for the thread that it lets run, and for one that is
 * stopped while it is queued. Changes the queue, the thread's record, and the links of others in its list and its tree.
 * Refused: BadTable, Halted, NoThread, BadRecord, BadState (Idle), Damaged (also where it is not queued here): then
 * nothing is changed. Last, Halted for the first time, as with board_enqueue. */
uint64_t board_remove(board_queue_t *queue, board_record_t *table, uint64_t count, board_path_t *path, uint64_t thread,
                      uint8_t cpu);

/* How many threads are queued. A board calls it before board_deadline, which asks whether anybody competes. Changes the
   answer. Not refused. */
uint64_t board_lengths(const board_queue_t *queue, board_lengths_t *lengths);

/* ---- choosing ---- */

/* Makes a window from a configuration, with the whole allowance and floor. A board calls it once for each processor.
   Changes the window. Refused: BadConfig, then nothing is changed. */
uint64_t board_window(board_window_t *window, const board_config_t *config);

/* Refreshes the thread's budget and writes it as a candidate into `current`, where it is `running`; where it is not,
 * nothing is changed. A board calls it for its running thread before board_select. Changes the thread's record and
 * `current`. Refused: BadTable, NoThread, BadRecord, then nothing is changed. */
uint64_t board_candidate(board_record_t *table, uint64_t count, uint64_t thread, uint64_t running, uint64_t now_ns,
                         board_candidate_t *current);

/* Names the thread with the least key among the heads of the trees, or none; under the conditions of docs/BOARD.md that
 * is the least of all queued threads. `current` counts where `running` is set, in what is asked for (the demand); it is
 * not queued and is not named. A board calls it whenever somebody woke, the running thread's work or deadline ended, or
 * the period changed: the first selection of a period refreshes every Budget thread that had spent its time and files
 * it as having time left. Changes the queue and the records of those threads and of
 * the heads of the trees, the window, which is refreshed (not on an empty queue), and the answer.
 * Refused: BadTable, BadConfig, Halted: then nothing is changed. After that, where they are met, Damaged, BadRecord and
 * Halted for the first time: then window and answer are as they were, queue and table keep the stores so far (threads
 * that were moved and refreshed, refreshed heads and, once all were moved, the queue's epoch). */
uint64_t board_select(board_queue_t *queue, board_record_t *table, uint64_t count, board_path_t *path, uint8_t cpu,
                      uint64_t now_ns, board_window_t *window, uint64_t running, const board_candidate_t *current,
                      board_selection_t *selection);

/* The key of a candidate under a selection's demand. A board calls it for its running thread after board_select.
   Changes the window, which is refreshed, and the key. Refused: BadConfig, then nothing is changed. */
uint64_t board_key(board_window_t *window, uint64_t now_ns, const board_candidate_t *current,
                   const board_demand_t *demand, board_key_t *key);

/* Whether the thread's slice or burst is spent: 1 or 0 in `expired`. A board asks it of its running thread before
   board_switch. Refused: BadTable, NoThread, BadRecord, then nothing is changed. */
uint64_t board_expired(const board_record_t *table, uint64_t count, uint64_t thread, uint64_t *expired);

/* Whether the running thread, of key `key` and parameters `current`, gives way to `ready`, which a selection named, and
 * where it then goes. `expired`: its slice or burst is spent; `yielding`: it gives way by itself; `tail`: it is to go
 * to the end of its list. Where nobody runs, the key is one that is not set. Changes the answer. Not refused. */
uint64_t board_switch(const board_ready_t *ready, const board_key_t *key, const board_candidate_t *current,
                      uint64_t expired, uint64_t yielding, uint64_t tail, board_choice_t *choice);

/* ---- turns, deadlines, accounting ---- */

/* Refreshes the thread's budget and gives it a turn: at the back, or where `front` is set at the front (a FIFO thread a
 * turn before all others; another keeps the one it has, if any). A board calls it before each board_enqueue with front
 * 0 and each board_enqueue_front with front 1. Changes the thread's record and the counters.
 * Refused: BadTable, NoThread, BadRecord, Already, TurnsSpent, then nothing is changed. */
uint64_t board_prepare(board_record_t *table, uint64_t count, uint64_t thread, uint64_t front, uint64_t now_ns,
                       board_turns_t *turns);

/* Ends a turn: the thread's burst is whole again. A board calls it where board_expired answered 1, after board_switch.
   Changes the thread's record. Refused: BadTable, NoThread, BadRecord, then nothing is changed. */
uint64_t board_finish(board_record_t *table, uint64_t count, uint64_t thread);

/* When the board has to look again, for the running thread of key `key`. `competition`: other threads are queued;
 * `budget_peer`: Budget threads are among them; `ready`: the selection named one. A board calls it when it is settled
 * who runs, and sets its timer to the answer. Changes the thread's record and the window, which are refreshed, and the
 * answer. Refused: BadTable, BadConfig, NoThread, BadRecord, then nothing is changed. */
uint64_t board_deadline(board_record_t *table, uint64_t count, uint64_t thread, uint64_t now_ns, const board_key_t *key,
                        board_window_t *window, uint64_t competition, uint64_t budget_peer, uint64_t ready,
                        const board_demand_t *demand, board_deadline_t *deadline);

/* Charges the thread and the window for the time from `start_ns` to `end_ns` under a mode, that of the thread's key. A
 * board calls it whenever the running thread stopped, before anything else. Changes the thread's record and the window.
 * Refused: BadTable, BadConfig, NoThread, BadRecord, BackInTime, then nothing is changed. */
uint64_t board_account(board_record_t *table, uint64_t count, uint64_t thread, board_window_t *window, uint64_t mode,
                       uint64_t start_ns, uint64_t end_ns);

/* ---- the lift record ---- */

/* Who ran when: a list of runs in the board's own memory. A list is in order where each run's end is at least its start
 * and each start at least the end of the run before; the first start is free, and a thread may be any number.
 *
 * A list goes to the calls as its words, BOARD_RUN_WORDS a run, and their count, since a count that is no whole number
 * of runs is one of the things that are refused. Of a list of board_run_t:
 *
 *     static board_run_t list[ROOM];
 *     board_append((uint64_t *)list, BOARD_RUN_WORDS * ROOM, runs, start, end, thread);
 *     board_lift((const uint64_t *)list, BOARD_RUN_WORDS * runs, now_ns, width_ns, &place);
 *
 * The part is then the place.count runs from list[place.first] on; where the board's own list is one of words, the
 * BOARD_RUN_WORDS * place.count words from list + BOARD_RUN_WORDS * place.first on. It stands in the list itself,
 * nothing is copied. */

/* The runs whose end lies after `now_ns` less `width_ns` (after 0 where that is negative) and whose start lies before
 * `now_ns`: all of them and only these, by their place. A width of 0 finds the run that goes on at `now_ns`. An empty
 * part lies at the first run with such an end, also where that run starts at `now_ns` or later, else behind the last
 * run. A board calls it for a list that it did not make by board_append, since it judges every run. Changes the place.
 * Refused: RecordOrder, before anything else, where the words are not whole runs or any run of the list is out of
 * order: then the place is 0, 0. */
uint64_t board_lift(const uint64_t *list, uint64_t words, uint64_t now_ns, uint64_t width_ns, board_place_t *place);

/* The same, in the steps of two halvings, for a list whose first `ordered` runs are known to be in order (`ordered` may
 * be more than there are): only the runs behind these are judged, with how they follow the run before them. A board
 * calls it for the list that it makes by board_append, with the count of its runs as `ordered`. Where those runs are
 * not in order after all, the answer is some place within the list. Changes the place. Refused: RecordOrder, where the
 * words are not whole runs or a run from run `ordered` on is out of order: then the place is 0, 0. */
uint64_t board_lift_from(const uint64_t *list, uint64_t words, uint64_t ordered, uint64_t now_ns, uint64_t width_ns,
                         board_place_t *place);

/* What board_lift answers at `now_ns`, from the place of an earlier reading with the same width: `first` and `count`
 * are what was answered at `earlier_ns`, and may be any two numbers. `afresh` is set exactly where `now_ns` is before
 * `earlier_ns`, or where the place is not what board_lift answers at `earlier_ns` in this list; else the place is moved
 * on run by run. A run that is recorded later, but began before `earlier_ns`, changes that reading's place: over a list
 * that grows a slide is often afresh (docs/BOARD.md). A board calls it for a stretch that moves over a list that is
 * complete. Changes the answer. Refused as board_lift: then the answer is 0, 0, 0. */
uint64_t board_slide(const uint64_t *list, uint64_t words, uint64_t width_ns, uint64_t earlier_ns, uint64_t first,
                     uint64_t count, uint64_t now_ns, board_slid_t *slid);

/* Records a run behind the first `runs` of a list, which are all that it has so far; `words` is the room of the whole
 * list. A board calls it whenever a run has ended. The runs before are not judged, but for the end of the last of them.
 * Changes the words of run number `runs`. Refused: BadTable, where the list has no room for it; RecordOrder, where
 * `end` is before `start` or `start` before the end of the run before: then nothing is changed. */
uint64_t board_append(uint64_t *list, uint64_t words, uint64_t runs, uint64_t start, uint64_t end, uint64_t thread);

/* ---- images ---- */

/* What is saved or sent: the words in their order, each as eight bytes, the lowest first. A load takes just those bytes
 * that a store gives: a choice or a flag is a number that there is, a byte is below 256, a weight below 65536, and a
 * word that nothing uses is 0 (the number of an absent link, epoch or budget, the spare words of a record). Whether
 * policy, budget and runtime agree is not asked, nor whether a window's configuration is one that board_window takes:
 * the calls above ask it. What was stored is loaded again as it was, word for word, and the other way round.
 *
 * `byte_count` is how many bytes are lent. Refused: BadTable, where they are not as many as the image has; then the
 * refusal that is named at the call, where the words or bytes are no encoding. Then nothing is changed. */
#define BOARD_RECORD_BYTES 256 /* a table has as many for each of its records */
#define BOARD_WINDOW_BYTES 96
#define BOARD_QUEUE_BYTES 10800

/* One record. Refused: BadTable, BadRecord. */
uint64_t image_load_record(const uint8_t *bytes, uint64_t byte_count, board_record_t *record);
uint64_t image_store_record(const board_record_t *record, uint8_t *bytes, uint64_t byte_count);

/* A window. Refused: BadTable, BadConfig. */
uint64_t image_load_window(const uint8_t *bytes, uint64_t byte_count, board_window_t *window);
uint64_t image_store_window(const board_window_t *window, uint8_t *bytes, uint64_t byte_count);

/* A queue. Refused: BadTable, Damaged. Whether its lists and trees are sound is not asked. */
uint64_t image_load_queue(const uint8_t *bytes, uint64_t byte_count, board_queue_t *queue);
uint64_t image_store_queue(const board_queue_t *queue, uint8_t *bytes, uint64_t byte_count);

/* A table. Refused: BadTable (also where the records are more than BOARD_MOST_RECORDS), BadRecord: then no record is
   changed, those before the one that is no encoding neither. */
uint64_t image_load_table(const uint8_t *bytes, uint64_t byte_count, board_record_t *table, uint64_t count);
uint64_t image_store_table(const board_record_t *table, uint64_t count, uint8_t *bytes, uint64_t byte_count);

#ifdef __cplusplus
}
#endif

#endif
