/* How much memory the core asks of a board: the bytes of each struct, then the stack that each entry takes. For that an
 * entry is called on a stack of its own that was painted before, and the deepest byte that is no longer paint tells.
 * 4,095 threads are queued in one tree; the selection at a change of period moves all of them; an enqueue and a removal
 * are made with many threads, so that the tree turns in every way, and the most is taken; a lift record has 1,000 runs,
 * searched and slid over from end to end. What a function takes that calls nothing is measured the same way and taken
 * off, so that the figure is what the caller gives for the call: arguments, return address, and all that the entry
 * takes. Prints a line each, in bytes; the exit status is 0 where every call was made. */
#define _XOPEN_SOURCE 700
#include <inttypes.h>
#include <stdio.h>
#include <string.h>
#include <ucontext.h>

#include "board.h"

enum { THREADS = BOARD_MOST_RECORDS, TIMES = 2000, STACK = 1 << 15, GAP = 1 << 14, PAINT = 0xA5, PERIOD = 10000000 };

static board_queue_t queue;
static board_path_t path;
static board_record_t table[THREADS];
static board_window_t window;
static board_turns_t turns = BOARD_TURNS;
static board_candidate_t current;
static board_selection_t selection;
static board_key_t key;
static board_lengths_t queued;
static board_choice_t choice;
static board_deadline_t armed;
static uint64_t spent;

/* A run each 100 ns, with nothing between them. */
enum { RUNS = 1000, RUN_NS = 100, LIST_WORDS = BOARD_RUN_WORDS * RUNS };

static board_run_t list[RUNS];
static uint64_t runs;
static board_place_t place;
static board_slid_t slid;

/* The thread that is called with, the only one that is not queued. */
static uint64_t one = 7;

static unsigned char stack[STACK];
static ucontext_t here, there;
static uint64_t answer;

/* ---- the calls ---- */

static void nothing(void) { answer = 0; }
static void new_queue(void) { answer = board_new(&queue); }
static void enqueue(void) { answer = board_enqueue(&queue, table, THREADS, &path, one, 0); }
static void enqueue_front(void) { answer = board_enqueue_front(&queue, table, THREADS, &path, one, 0); }
static void remove_one(void) { answer = board_remove(&queue, table, THREADS, &path, one, 0); }
static void lengths(void) { answer = board_lengths(&queue, &queued); }

static void new_window(void)
{
    static const board_config_t config =
        BOARD_CONFIG(.period_ns = PERIOD, .allowance_ns = 2000000, .floor_ns = 3000000);
    answer = board_window(&window, &config);
}

/* The first time at a change of period, from then on within it. */
static void select_thread(void)
{
    answer = board_select(&queue, table, THREADS, &path, 0, 2 * PERIOD, &window, 1, &current, &selection);
}

static void prepare(void) { answer = board_prepare(table, THREADS, one, 0, PERIOD, &turns); }

static void account(void)
{
    answer = board_account(table, THREADS, one, &window, BOARD_MODE_PROTECTED, PERIOD, PERIOD + 1000);
}

static void candidate(void) { answer = board_candidate(table, THREADS, one, 1, PERIOD, &current); }
static void expired(void) { answer = board_expired(table, THREADS, one, &spent); }
static void finish(void) { answer = board_finish(table, THREADS, one); }
static void key_of(void) { answer = board_key(&window, PERIOD, &current, &selection.demand, &key); }
static void choose(void) { answer = board_switch(&selection.ready, &key, &current, 0, 1, 0, &choice); }

static void deadline(void)
{
    answer = board_deadline(table, THREADS, one, PERIOD, &key, &window, 1, 1, 1, &selection.demand, &armed);
}

static void append(void)
{
    answer = board_append((uint64_t *)list, LIST_WORDS, runs, runs * RUN_NS, (runs + 1) * RUN_NS, one);
    runs++;
}

static void lift(void) { answer = board_lift((uint64_t *)list, LIST_WORDS, RUNS * RUN_NS, RUN_NS, &place); }

static void lift_from(void)
{
    answer = board_lift_from((uint64_t *)list, LIST_WORDS, RUNS, RUNS * RUN_NS, RUN_NS, &place);
}

/* From the first run, which is the part at RUN_NS, to the last; and with a place that is not that reading's. */
static void slide(void)
{
    answer = board_slide((uint64_t *)list, LIST_WORDS, RUN_NS, RUN_NS, 0, 1, RUNS * RUN_NS, &slid);
}

static void slide_afresh(void)
{
    answer = board_slide((uint64_t *)list, LIST_WORDS, RUN_NS, RUN_NS, 1, 1, RUNS * RUN_NS, &slid);
}

/* ---- between two calls of an entry ---- */

static uint64_t any(void)
{
    static uint64_t state = 1;
    state = state * UINT64_C(6364136223846793005) + UINT64_C(1442695040888963407);
    return state >> 32;
}

/* Another thread is the one, with another turn. */
static void change_one(void)
{
    one = any() % THREADS;
    remove_one();
    table[one].turn = any();
}

static void put_back(void)
{
    enqueue();
    change_one();
    enqueue();
    one = any() % THREADS;
}

/* ---- measuring ---- */

/* The call, below a gap that starting and leaving the stack stay within, so that only the call goes below it. */
static void (*below_gap)(void);

static void deep(void)
{
    volatile unsigned char gap[GAP];
    gap[0] = 0;
    below_gap();
    gap[GAP - 1] = gap[0];
}

/* Bytes of the painted stack that a call used, with the gap, in whole words. */
static size_t used(void (*call)(void))
{
    memset(stack, PAINT, sizeof stack);
    below_gap = call;
    getcontext(&there);
    there.uc_stack.ss_sp = stack;
    there.uc_stack.ss_size = sizeof stack;
    there.uc_link = &here;
    makecontext(&there, deep, 0);
    swapcontext(&here, &there);
    size_t at = 0;
    while (at < sizeof stack && stack[at] == PAINT) {
        at++;
    }
    return (sizeof stack - at + sizeof(uint64_t) - 1) / sizeof(uint64_t) * sizeof(uint64_t);
}

static int refused;

static void say(const char *name, size_t bytes)
{
    printf("%-24s %6zu\n", name, bytes);
}

/* The most that so many calls took, with what comes between two of them. */
static void measure(const char *name, void (*call)(void), int times, void (*between)(void))
{
    size_t most = 0;
    for (int n = 0; n < times; n++) {
        size_t bytes = used(call);
        refused += answer != BOARD_MADE;
        most = bytes > most ? bytes : most;
        between();
        refused += answer != BOARD_MADE;
    }
    say(name, most - used(nothing));
}

/* Budget threads without time left, all in one tree but for the one. */
static void fill(void)
{
    for (uint64_t thread = 0; thread < THREADS; thread++) {
        board_record_t *record = &table[thread];
        *record = board_budget(PERIOD, PERIOD, PERIOD, BOARD_ROLE_PROTECTED);
        record->runtime.budget.has_epoch = 1;
        record->runtime.budget.epoch = 1;
        record->runtime.budget.time_left_ns = 0;
        record->runtime.budget.burst_left_ns = 0;
        record->turn = any();
        if (thread != one) {
            refused += board_enqueue(&queue, table, THREADS, &path, thread, 0) != BOARD_MADE;
        }
    }
}

static void say_structs(void)
{
    say("board_record_t", sizeof(board_record_t));
    say("board_queue_t", sizeof(board_queue_t));
    say("board_window_t", sizeof(board_window_t));
    say("board_turns_t", sizeof(board_turns_t));
    say("board_path_t", sizeof(board_path_t));
    say("board_candidate_t", sizeof(board_candidate_t));
    say("board_selection_t", sizeof(board_selection_t));
    say("board_key_t", sizeof(board_key_t));
    say("board_lengths_t", sizeof(board_lengths_t));
    say("board_choice_t", sizeof(board_choice_t));
    say("board_deadline_t", sizeof(board_deadline_t));
    say("board_run_t", sizeof(board_run_t));
    say("board_place_t", sizeof(board_place_t));
    say("board_slid_t", sizeof(board_slid_t));
}

/* Slides are to have gone the two ways that they are measured for. */
static void measure_record(void)
{
    measure("board_append", append, RUNS, nothing);
    measure("board_lift", lift, 1, nothing);
    measure("board_lift_from", lift_from, 1, nothing);
    measure("board_slide", slide, 1, nothing);
    refused += slid.afresh != 0;
    measure("board_slide, afresh", slide_afresh, 1, nothing);
    refused += slid.afresh != 1;
}

int main(void)
{
    say_structs();
    new_queue();
    new_window();
    fill();
    candidate();
    measure("board_select, renewing", select_thread, 1, nothing);
    measure("board_prepare", prepare, 1, nothing);
    measure("board_enqueue", enqueue, TIMES, change_one);
    measure("board_enqueue_front", enqueue_front, TIMES, change_one);
    enqueue();
    measure("board_remove", remove_one, TIMES, put_back);
    remove_one();
    measure("board_lengths", lengths, 1, nothing);
    measure("board_window", new_window, 1, nothing);
    measure("board_select", select_thread, 1, nothing);
    measure("board_account", account, 1, nothing);
    measure("board_candidate", candidate, 1, nothing);
    measure("board_expired", expired, 1, nothing);
    measure("board_finish", finish, 1, nothing);
    measure("board_key", key_of, 1, nothing);
    measure("board_switch", choose, 1, nothing);
    measure("board_deadline", deadline, 1, nothing);
    measure("board_new", new_queue, 1, nothing);
    measure_record();
    puts(refused == 0 ? "every call was made" : "a call was refused");
    return refused != 0;
}
