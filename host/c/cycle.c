/* A board's main loop: who wakes is enqueued, it is chosen who runs, that one runs to its deadline and is charged for
 * its time. Copy it down to "simulated", and put the board's own timer and dispatch in the place of what comes there.
 *
 * Here clock, wakes and work are simulated over two lifts of a crane with two hooks, those of the scenarios
 * twin-hook.txt and change-of-period.txt. Printed is, for each stretch, since when which thread runs and why, for how
 * long, and until when at the latest; the times are nanoseconds. */
#include <inttypes.h>
#include <stdio.h>
#include <stdlib.h>
#include <string.h>

#include "board.h"

enum { US = 1000, MS = 1000 * US };

/* ---- what a board keeps ---- */

enum { HOOK_A_SWAY_1, HOOK_A_SWAY_2, HOOK_B_SWAY_1, HOOK_B_SWAY_2, BRAKE, DRIVE, LOG, IDLE, THREADS };
enum { CPU = 0 };

static board_queue_t queue;
static board_path_t path;
static board_record_t table[THREADS];
static board_window_t window;
static board_turns_t turns;

/* The last reading; who runs, whether it goes on, and what its time is charged to. */
static uint64_t now_ns, current, running, mode;

/* ---- what a board provides ---- */

#define NOBODY UINT64_MAX

/* A thread that woke by now, each wake once; NOBODY where there is none. An interrupt notes a wake, and the loop takes
   it from here, so that no call of the core comes in the middle of another. */
static uint64_t next_woken(void);

/* Sets the timer and lets `current` run; the reading at which it stopped: at the deadline, because somebody woke, or
   because its work is done. */
static uint64_t run_until(board_deadline_t deadline);

/* Whether a thread has work left, else it waits for its next wake. */
static uint64_t goes_on(uint64_t thread);

/* Holds the load; does not come back. */
static void stop(const char *call, uint64_t refusal);

/* Notes who ran since when, and why. */
static void say_stretch(uint64_t start_ns, const board_key_t *key, board_deadline_t deadline);

/* ---- the loop ---- */

/* This loop gives no call a reason to refuse, so a refusal is a mistake in the board's program, or its memory was
   overwritten. */
static void must(const char *call, uint64_t answer)
{
    if (answer != BOARD_MADE) {
        stop(call, answer);
    }
}

static void start(void)
{
    const board_config_t config = board_config(10 * MS, 2 * MS, 3 * MS);
    const board_turns_t both = BOARD_TURNS;
    const board_record_t sway = board_budget(2 * MS, 10 * MS, 1 * MS, BOARD_ROLE_PROTECTED);
    table[HOOK_A_SWAY_1] = table[HOOK_A_SWAY_2] = sway;
    table[HOOK_B_SWAY_1] = table[HOOK_B_SWAY_2] = sway;
    table[BRAKE] = board_fifo(1, BOARD_ROLE_ORDINARY);
    table[DRIVE] = board_fifo(2, BOARD_ROLE_PRIORITY);
    table[LOG] = board_fair(BOARD_BACKEND_STRIDE, BOARD_USUAL_WEIGHT, 4 * MS, BOARD_ROLE_ORDINARY);
    table[IDLE] = board_idle();
    turns = both;
    now_ns = 0;
    current = IDLE;
    running = 1;
    mode = BOARD_MODE_ORDINARY;
    must("board_new", board_new(&queue));
    must("board_window", board_window(&window, &config));
}

static void enqueue(uint64_t thread, uint64_t front)
{
    must("board_prepare", board_prepare(table, THREADS, thread, front, now_ns, &turns));
    if (front) {
        must("board_enqueue_front", board_enqueue_front(&queue, table, THREADS, &path, thread, CPU));
    } else {
        must("board_enqueue", board_enqueue(&queue, table, THREADS, &path, thread, CPU));
    }
}

static void enqueue_woken(void)
{
    for (uint64_t thread = next_woken(); thread != NOBODY; thread = next_woken()) {
        enqueue(thread, 0);
    }
}

/* The running thread, who of the queued ones comes first beside it, and the running thread's key. */
struct view {
    board_candidate_t candidate;
    board_selection_t selection;
    board_key_t key; /* not set where nobody runs */
};

static void look(struct view *seen)
{
    memset(seen, 0, sizeof *seen);
    must("board_candidate", board_candidate(table, THREADS, current, running, now_ns, &seen->candidate));
    must("board_select", board_select(&queue, table, THREADS, &path, CPU, now_ns, &window, running, &seen->candidate,
                                      &seen->selection));
    if (running) {
        must("board_key", board_key(&window, now_ns, &seen->candidate, &seen->selection.demand, &seen->key));
    }
}

/* The running thread, unless it waits or is the idle one, goes into the queue, and the chosen one comes out of it. */
static void switch_to(uint64_t thread, uint64_t to_front)
{
    if (running && current != IDLE) {
        enqueue(current, to_front);
    }
    must("board_remove", board_remove(&queue, table, THREADS, &path, thread, CPU));
    current = thread;
    running = 1;
}

static void choose(void)
{
    struct view seen;
    board_choice_t choice;
    uint64_t expired;
    look(&seen);
    must("board_expired", board_expired(table, THREADS, current, &expired));
    must("board_switch", board_switch(&seen.selection.ready, &seen.key, &seen.candidate, expired, 0, 0, &choice));
    if (expired) {
        must("board_finish", board_finish(table, THREADS, current));
    }
    if (choice.switches) {
        switch_to(seen.selection.ready.thread, choice.to_front);
    } else if (!running) {
        current = IDLE;
        running = 1;
    }
}

/* When the board has to look again at the latest, and the key under which the thread runs until then. */
static board_deadline_t arm(board_key_t *key)
{
    struct view seen;
    board_lengths_t queued;
    board_deadline_t deadline;
    look(&seen);
    must("board_lengths", board_lengths(&queue, &queued));
    must("board_deadline", board_deadline(table, THREADS, current, now_ns, &seen.key, &window,
                                          queued.fifo != 0 || queued.fair_and_budget != 0, queued.budget != 0,
                                          seen.selection.ready.is_set, &seen.selection.demand, &deadline));
    *key = seen.key;
    return deadline;
}

/* A thread without a key is charged as the one before it. The core charges budgets and the window; slice and pass of a
   Fair thread are the board's to keep (docs/BOARD.md): there is only one here, which needs neither. */
static void run(const board_key_t *key, board_deadline_t deadline)
{
    uint64_t start_ns = now_ns;
    if (key->is_set) {
        mode = key->mode;
    }
    now_ns = run_until(deadline);
    say_stretch(start_ns, key, deadline);
    must("board_account", board_account(table, THREADS, current, &window, mode, start_ns, now_ns));
    running = goes_on(current);
}

static void cycle(void)
{
    board_key_t key;
    board_deadline_t deadline;
    enqueue_woken();
    choose();
    deadline = arm(&key);
    run(&key, deadline);
}

/* ---- simulated: a board has its timer, its dispatch, its interrupts and its brakes here ---- */

#define ENDLESS UINT64_MAX

/* A thread that wakes, and how long it then works before it waits again. */
struct wake {
    uint64_t at_ns;
    uint64_t thread;
    uint64_t work_ns;
};

enum { MOST_WAKES = 6 };

struct lift {
    const char *name;
    uint64_t until_ns;
    uint64_t wakes;
    struct wake wake[MOST_WAKES]; /* in the order of their times */
};

static const struct lift *lift;
static uint64_t woken, work_left[THREADS];

static uint64_t least(uint64_t left, uint64_t right)
{
    return left < right ? left : right;
}

static uint64_t next_woken(void)
{
    if (woken == lift->wakes || now_ns < lift->wake[woken].at_ns) {
        return NOBODY;
    }
    const struct wake *wake = &lift->wake[woken++];
    work_left[wake->thread] = wake->work_ns;
    return wake->thread;
}

/* To the deadline, which is never before the reading that it was asked at, the next wake, the end of the thread's work
   or the end of the lift. */
static uint64_t run_until(board_deadline_t deadline)
{
    uint64_t end_ns = lift->until_ns;
    if (deadline.is_set) {
        end_ns = least(end_ns, deadline.at_ns);
    }
    if (woken < lift->wakes) {
        end_ns = least(end_ns, lift->wake[woken].at_ns);
    }
    uint64_t ran_ns = least(end_ns - now_ns, work_left[current]);
    work_left[current] -= ran_ns;
    return now_ns + ran_ns;
}

static uint64_t goes_on(uint64_t thread)
{
    return work_left[thread] != 0;
}

/* A board has its brakes set first. Halted and Damaged say that the memory of queue or table was overwritten: it then
   starts anew, if at all, from records that it makes again. Other refusals are mistakes of this program. */
static void stop(const char *call, uint64_t refusal)
{
    int overwritten = refusal == BOARD_HALTED || refusal == BOARD_DAMAGED;
    fprintf(stderr, "cycle: at %" PRIu64 " %s was refused, %s (%" PRIu64 "): %s\n", now_ns, call,
            board_refusal_name(refusal), refusal, overwritten ? "queue or table overwritten" : "a mistake in the call");
    exit(EXIT_FAILURE);
}

/* ---- printed ---- */

enum { GROUPED = 27 }; /* twenty digits, six underlines and the end */

/* In groups of three digits. */
static const char *grouped(uint64_t number, char text[GROUPED])
{
    char *at = text + GROUPED - 1;
    *at = '\0';
    for (int digits = 1; digits == 1 || number != 0; digits++) {
        *--at = (char)('0' + number % 10);
        number /= 10;
        if (digits % 3 == 0 && number != 0) {
            *--at = '_';
        }
    }
    return at;
}

static const char *mode_name(uint64_t its_mode)
{
    switch (its_mode) {
    case BOARD_MODE_STRICT_FIFO: return "strict FIFO";
    case BOARD_MODE_PRIORITY: return "priority";
    case BOARD_MODE_PROTECTED: return "protected";
    case BOARD_MODE_ORDINARY: return "ordinary";
    case BOARD_MODE_BORROW: return "borrow";
    default: return "unknown";
    }
}

static void say_why(const board_key_t *key)
{
    if (key->is_set) {
        printf("%-16s%7" PRIu64 "%5" PRIu64, mode_name(key->mode), key->urgency, key->rank);
    } else {
        printf("%-16s%7s%5s", "no key", "-", "-");
    }
}

static void say_stretch(uint64_t start_ns, const board_key_t *key, board_deadline_t deadline)
{
    static const char *const names[THREADS] = {"hook A sway 1", "hook A sway 2", "hook B sway 1", "hook B sway 2",
                                               "brake", "drive", "log", "idle"};
    char start[GROUPED], ran[GROUPED], end[GROUPED];
    printf("%14s  %-16s", grouped(start_ns, start), names[current]);
    say_why(key);
    printf("%15s%15s\n", grouped(now_ns - start_ns, ran), deadline.is_set ? grouped(deadline.at_ns, end) : "none");
}

/* ---- the lifts ---- */

static const struct lift twin_hook = {
    "twin-hook.txt", 10 * MS, 5, {
        {0, LOG, ENDLESS},
        {1000 * US, BRAKE, 500 * US},
        {5500 * US, DRIVE, 2300 * US},
        {5600 * US, HOOK_B_SWAY_1, 1200 * US},
        {5700 * US, HOOK_A_SWAY_1, 800 * US},
    }};

static const struct lift change_of_period = {
    "change-of-period.txt", 13 * MS, 6, {
        {1000 * US, HOOK_A_SWAY_1, 2500 * US},
        {1000 * US, HOOK_B_SWAY_1, 2500 * US},
        {1000 * US, HOOK_A_SWAY_2, 2500 * US},
        {1000 * US, HOOK_B_SWAY_2, 2500 * US},
        {9200 * US, LOG, ENDLESS},
        {9800 * US, BRAKE, 400 * US},
    }};

static void play(const struct lift *given)
{
    lift = given;
    woken = 0;
    memset(work_left, 0, sizeof work_left);
    work_left[IDLE] = ENDLESS;
    printf("%s\n", lift->name);
    printf("       reading  thread          why             urgency rank            for       deadline\n");
    start();
    while (now_ns < lift->until_ns) {
        cycle();
    }
}

int main(void)
{
    if (board_version() != BOARD_VERSION) {
        fprintf(stderr, "cycle: board.h and libboard.a are not of the same version\n");
        return EXIT_FAILURE;
    }
    play(&twin_hook);
    play(&change_of_period);
    return 0;
}
