/* Two protected sway loops of two hooks and a brake on one processor: who is named just before protection is due, and
   when it is due. Then calls that are refused, and a queue that halts and is made anew. */
#include <inttypes.h>
#include <stdio.h>

#include "board.h"

enum { SWAY_A, SWAY_B, BRAKE, THREADS };

static const char *const names[THREADS] = {"sway loop of hook A", "sway loop of hook B", "brake"};

/* A sway loop has 2 ms in each 10, at most 1 at a stretch. */
static board_record_t table[THREADS] = {
    BOARD_BUDGET(2000000, 10000000, 1000000, BOARD_ROLE_PROTECTED),
    BOARD_BUDGET(2000000, 10000000, 1000000, BOARD_ROLE_PROTECTED),
    BOARD_FIFO(0, BOARD_ROLE_PRIORITY),
};

static board_queue_t queue;
static board_path_t path;
static board_window_t window;
static board_turns_t turns = BOARD_TURNS;

static void say(const char *what, uint64_t answer)
{
    printf("%s: %" PRIu64 " %s\n", what, answer, board_refusal_name(answer));
}

static void enqueue(uint64_t thread, uint64_t now_ns)
{
    uint64_t prepared = board_prepare(table, THREADS, thread, 0, now_ns, &turns);
    uint64_t answer = board_enqueue(&queue, table, THREADS, &path, thread, 0);
    printf("%s enqueued: %" PRIu64 " %" PRIu64 "\n", names[thread], prepared, answer);
}

/* With nobody running, so that `current` is not looked at. */
static void choose(uint64_t now_ns)
{
    static board_candidate_t nobody;
    board_selection_t selection;
    uint64_t answer = board_select(&queue, table, THREADS, &path, 0, now_ns, &window, 0, &nobody, &selection);
    if (answer != BOARD_MADE) {
        say("select refused", answer);
    } else if (!selection.ready.is_set) {
        printf("at %" PRIu64 " nobody\n", now_ns);
    } else {
        printf("at %" PRIu64 " %s, urgency %" PRIu64 " and rank %" PRIu64 "\n", now_ns, names[selection.ready.thread],
               selection.ready.urgency, selection.ready.rank);
    }
}

static const char *list_of(uint64_t thread)
{
    switch (table[thread].membership.kind) {
    case BOARD_MEMBER_NONE: return "in no list";
    case BOARD_MEMBER_READY_FIFO: return "in a list of FIFO threads";
    case BOARD_MEMBER_READY_FAIR: return "in the list of Fair and Budget threads";
    default: return "elsewhere";
    }
}

static void enqueue_all(uint64_t now_ns)
{
    enqueue(SWAY_B, now_ns);
    enqueue(SWAY_A, now_ns);
    enqueue(BRAKE, now_ns);
}

static void refused(void)
{
    static board_record_t large[BOARD_MOST_RECORDS + 1];
    board_lengths_t lengths;
    const board_config_t no_floor = board_config(10000000, 7000000, 3000000);
    say("a table of 4,097 records", board_finish(large, BOARD_MOST_RECORDS + 1, BRAKE));
    say("a number that no record has", board_remove(&queue, table, THREADS, &path, THREADS, 0));
    say("a thread that is queued", board_enqueue(&queue, table, THREADS, &path, BRAKE, 0));
    say("an allowance that leaves no floor", board_window(&window, &no_floor));
    say("time that goes back", board_account(table, THREADS, BRAKE, &window, BOARD_MODE_PRIORITY, 2, 1));
    say("lengths", board_lengths(&queue, &lengths));
    printf("FIFO %" PRIu64 ", Fair and Budget %" PRIu64 ", Budget %" PRIu64 "\n", lengths.fifo, lengths.fair_and_budget,
           lengths.budget);
}

/* A board may note in a record that its thread waits or has ended: such a thread is not enqueued. */
static void waits(void)
{
    say("brake removed", board_remove(&queue, table, THREADS, &path, BRAKE, 0));
    printf("brake is %s\n", list_of(BRAKE));
    table[BRAKE].membership.kind = BOARD_MEMBER_WAITING;
    say("a thread that waits", board_enqueue(&queue, table, THREADS, &path, BRAKE, 0));
    table[BRAKE].membership.kind = BOARD_MEMBER_TERMINATED;
    say("a thread that has ended", board_enqueue(&queue, table, THREADS, &path, BRAKE, 0));
    table[BRAKE].membership.kind = BOARD_MEMBER_NONE;
}

/* A halted queue takes no call any more. The way back: every record out of its list, a new queue, and whoever is ready
   enqueued again. */
static void start_anew(uint64_t now_ns)
{
    for (uint64_t thread = 0; thread < THREADS; thread++) {
        table[thread].membership.kind = BOARD_MEMBER_NONE;
    }
    say("a new queue", board_new(&queue));
    enqueue_all(now_ns);
}

static void halts(void)
{
    enum { ROOT_OF_BRAKES = 258 }; /* the queue's row for the tree of FIFO threads of role Priority */
    queue.rows[ROOT_OF_BRAKES][0] = 1;
    queue.rows[ROOT_OF_BRAKES][1] = THREADS;
    say("a root that no record has", board_enqueue(&queue, table, THREADS, &path, BRAKE, 0));
    say("a call on the halted queue", board_remove(&queue, table, THREADS, &path, SWAY_A, 0));
    start_anew(7000000);
    choose(7000000);
}

int main(void)
{
    /* Period 10 ms, of which the brake may have 2 before others, and 3 are kept for the protected loops. */
    const board_config_t config = board_config(10000000, 2000000, 3000000);
    say("new queue", board_new(&queue));
    say("new window", board_window(&window, &config));
    choose(0);
    enqueue_all(5800000);
    printf("brake is %s, %s is %s\n", list_of(BRAKE), names[SWAY_A], list_of(SWAY_A));
    choose(6999999);
    choose(7000000);
    refused();
    waits();
    halts();
    return 0;
}
