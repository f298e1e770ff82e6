/* Every entry of board.h that is lent anything, on any words and tables of any length: fuzz [--calls N] [--seed S]
 * [--faults F], which ends after N calls, or after F faults.
 *
 * Each lent thing stands in pages of its own between pages that nobody may touch, directly before the one behind or
 * directly behind the one before; on its other side words are watched. Tables have 0 to some hundred rows, at times
 * 4,096 and 4,097. A round starts from a new queue and sound rows, and its words are then damaged at times, or from
 * words of any kind. A fault is: a crash, a call that takes longer than a second or two, a word read or written
 * outside, a word changed that is only to be read, an answer that document 01 does not have for the entry, 10, 5, 9 or
 * 4 where another is due or missed, a halt without its mark, a word changed by a refusal that leaves it; and, whatever
 * is answered, a row's parameters, processor or spare words changed, those of a root's row in the queue too, a part of
 * a row (a link, say) that is neither as it was nor an encoding, and a row changed that the call has nothing to do
 * with: of a queue's call one that no link leads to from the queue or the named thread, of the others any but the named
 * thread's. Lift records have 0 to some hundred runs, in order or not, in words that may be no whole runs; every answer
 * of theirs is judged by document 02's sentences over all runs: 12 or 10 exactly where it is due, a part that has all
 * runs that it is to have and no other, an empty one in its place, afresh exactly where it is to be, zeros with 12, and
 * of a recorded run its three words and no other. The table of answers is printed; the last line is
 * `fuzz: N calls, 0 faults`, and the exit status then 0.
 *
 * A seed gives the same calls and the same table on every compiler and target: no expression draws two random numbers
 * whose order the language leaves open. */
#define _GNU_SOURCE
#include <inttypes.h>
#include <setjmp.h>
#include <signal.h>
#include <stdbool.h>
#include <stddef.h>
#include <stdio.h>
#include <stdlib.h>
#include <string.h>
#include <sys/mman.h>
#include <sys/time.h>

#include "board.h"

/* Things are lent and judged as words: how many a struct has, and at which of them a field stands. */
#define WORDS(type) (sizeof(type) / sizeof(uint64_t))
#define WORD(type, field) (offsetof(type, field) / sizeof(uint64_t))

enum { ANSWERS = 14, SHOWN = 20, WATCHED = 64, PAGE = 4096 };

enum { QUEUE_WORDS = WORDS(board_queue_t), PATH_WORDS = WORDS(board_path_t), ROW_WORDS = WORDS(board_record_t),
       WINDOW_WORDS = WORDS(board_window_t), CONFIG_WORDS = WORDS(board_config_t), TURN_WORDS = WORDS(board_turns_t),
       SELECTION_WORDS = WORDS(board_selection_t), KEY_WORDS = WORDS(board_key_t),
       DEMAND_WORDS = WORDS(board_demand_t), LENGTH_WORDS = WORDS(board_lengths_t),
       CHOICE_WORDS = WORDS(board_choice_t), DEADLINE_WORDS = WORDS(board_deadline_t), FLAG_WORDS = 1,
       PLACE_WORDS = WORDS(board_place_t), SLID_WORDS = WORDS(board_slid_t) };

/* Words of a thread's row, at which its parts begin. */
enum { RUNTIME = WORD(board_record_t, runtime_kind), LEFT = WORD(board_record_t, left),
       RIGHT = WORD(board_record_t, right), HEIGHT = WORD(board_record_t, height),
       PREVIOUS = WORD(board_record_t, previous), NEXT = WORD(board_record_t, next),
       MEMBERSHIP = WORD(board_record_t, membership), PROCESSOR = WORD(board_record_t, cpu) };

/* Rows of a queue: lists, of which the fair one is the last, roots, and counts, epoch and mark. */
enum { FAIR_ROW = 256, ROOT_ROW = 257, MARK_ROW = 269, MARK_WORD = 4 };

#define CANARY UINT64_C(0xa5a5a5a5a5a5a5a5)

/* ---- numbers ---- */

static uint64_t random_state;

static uint64_t any(void)
{
    uint64_t mixed = random_state += UINT64_C(0x9e3779b97f4a7c15);
    mixed = (mixed ^ mixed >> 30) * UINT64_C(0xbf58476d1ce4e5b9);
    mixed = (mixed ^ mixed >> 27) * UINT64_C(0x94d049bb133111eb);
    return mixed ^ mixed >> 31;
}

static uint64_t below(uint64_t bound)
{
    return any() % bound;
}

static bool one_in(uint64_t bound)
{
    return below(bound) == 0;
}

/* Any number, small ones and those near 2^64 more often. */
static uint64_t number(void)
{
    uint64_t whole = any();
    uint64_t shorter = whole >> below(64);
    return one_in(8) ? ~shorter : shorter;
}

/* ---- lent things ---- */

struct lent {
    unsigned char *begin; /* of the pages between the two that nobody may touch */
    size_t room;          /* their bytes */
    uint64_t *at;         /* the words of this call */
    size_t words;
    bool at_the_end;
    uint64_t before; /* the words' hash before the call */
};

static struct lent queue, path, table, window, config, turns, current, demand, key, ready, answer, list;

static struct lent *const all[] = {&queue, &path, &table, &window, &config, &turns, &current, &demand, &key, &ready,
                                   &answer, &list};

static void make_room(struct lent *thing, size_t words)
{
    size_t room = (words * sizeof(uint64_t) + PAGE - 1) / PAGE * PAGE + PAGE;
    unsigned char *pages = mmap(NULL, room + 2 * PAGE, PROT_NONE, MAP_PRIVATE | MAP_ANONYMOUS, -1, 0);
    if (pages == MAP_FAILED || mprotect(pages + PAGE, room, PROT_READ | PROT_WRITE) != 0) {
        perror("fuzz: pages");
        exit(2);
    }
    thing->begin = pages + PAGE;
    thing->room = room;
}

static void place(struct lent *thing, size_t words)
{
    thing->words = words;
    thing->at_the_end = one_in(2);
    thing->at = (uint64_t *)(void *)(thing->at_the_end ? thing->begin + thing->room - words * sizeof(uint64_t)
                                     : thing->begin);
}

/* The watched words of the side that has no page behind it. */
static uint64_t *watched(const struct lent *thing)
{
    return thing->at_the_end ? thing->at - WATCHED : thing->at + thing->words;
}

static uint64_t hash(const struct lent *thing)
{
    uint64_t sum = thing->words;
    for (size_t k = 0; k < thing->words; k++) {
        sum = (sum ^ thing->at[k]) * UINT64_C(0x9e3779b97f4a7c15);
        sum ^= sum >> 29;
    }
    return sum;
}

static bool unchanged(const struct lent *thing)
{
    return hash(thing) == thing->before;
}

/* The table's rows and the queue's before the call. */
static uint64_t rows_before[BOARD_MOST_RECORDS + 1][ROW_WORDS];
static uint64_t queue_before[BOARD_QUEUE_ROWS][BOARD_QUEUE_ROW_WORDS];

/* The same of a lift record, which has so many runs at most, and at times words behind them. */
enum { MOST_RUNS = 400 };
static board_run_t list_before[MOST_RUNS + 1];

/* None has no number. */
static bool option_encodes(const uint64_t *w)
{
    return w[0] == 0 ? w[1] == 0 : w[0] == 1;
}

static bool zeros(const uint64_t *w, size_t count)
{
    for (size_t k = 0; k < count; k++) {
        if (w[k] != 0) {
            return false;
        }
    }
    return true;
}

static bool runtime_encodes(const uint64_t *w)
{
    switch (w[0]) {
    case BOARD_POLICY_FAIR: return w[4] == 0;
    case BOARD_POLICY_BUDGET: return option_encodes(w + 1);
    default: return w[0] <= BOARD_POLICY_IDLE && zeros(w + 1, 4);
    }
}

static bool membership_encodes(const uint64_t *w)
{
    switch (w[0]) {
    case BOARD_MEMBER_READY_FIFO: return w[1] < 256 && w[2] < 256;
    case BOARD_MEMBER_READY_FAIR: return w[1] < 256 && w[2] == 0;
    case BOARD_MEMBER_WAITING: return w[2] == 0;
    default: return w[0] <= BOARD_MEMBER_TERMINATED && zeros(w + 1, 2);
    }
}

static bool same(const uint64_t *was, const uint64_t *is, size_t count)
{
    return memcmp(was, is, count * sizeof *is) == 0;
}

/* What became of a part is an encoding, or is what it was: of an option, and of a runtime, whose burst is stored with
   it and by itself. */
static bool option_stored(const uint64_t *was, const uint64_t *is)
{
    return option_encodes(is) || same(was, is, 2);
}

static bool runtime_stored(const uint64_t *was, const uint64_t *is)
{
    uint64_t first[5] = {is[0], is[1], is[2], is[3], 0};
    bool burst = is[0] == BOARD_POLICY_BUDGET || is[4] == 0;
    return (runtime_encodes(first) || same(was, is, 4)) && (burst || (was[0] == is[0] && was[4] == is[4]));
}

static bool row_stored(const uint64_t *was, const uint64_t *is)
{
    return runtime_stored(was + RUNTIME, is + RUNTIME) && option_stored(was + LEFT, is + LEFT)
        && option_stored(was + RIGHT, is + RIGHT) && (is[HEIGHT] < 256 || is[HEIGHT] == was[HEIGHT])
        && option_stored(was + PREVIOUS, is + PREVIOUS) && option_stored(was + NEXT, is + NEXT)
        && (membership_encodes(is + MEMBERSHIP) || same(was + MEMBERSHIP, is + MEMBERSHIP, 3));
}

/* A queue's row: a list, a root with three spare words, or counts, epoch and mark. */
static bool queue_row_stored(size_t k, const uint64_t *was, const uint64_t *is)
{
    if (k < ROOT_ROW) {
        return option_stored(was, is) && option_stored(was + 2, is + 2);
    }
    if (k < MARK_ROW) {
        return option_stored(was, is) && same(was + 2, is + 2, 3);
    }
    return option_stored(was + 2, is + 2) && (is[MARK_WORD] < 2 || is[MARK_WORD] == was[MARK_WORD]);
}

/* ---- the caller's own words, which go from call to call ---- */

static size_t rows;
static board_window_t own_window;
static board_config_t own_config;
static board_turns_t own_turns;
static board_candidate_t own_current;
static board_demand_t own_demand;
static board_key_t own_key;
static board_selection_t own_selection;
static uint64_t now_ns, period;

/* A struct as its words. */
static uint64_t *words_of(void *whole)
{
    return (uint64_t *)whole;
}

static void fill(uint64_t *words, size_t count)
{
    for (size_t k = 0; k < count; k++) {
        words[k] = one_in(2) ? below(5) : number();
    }
}

static void fill_budget(board_record_t *record)
{
    board_parameters_t *its = &record->parameters;
    board_budget_runtime_t *left = &record->runtime.budget;
    its->has_budget = 1;
    its->period_ns = one_in(8) ? 1 + below(20) : period;
    its->budget_ns = 1 + below(its->period_ns);
    its->burst_ns = 1 + below(its->period_ns);
    left->has_epoch = below(2);
    left->epoch = left->has_epoch * (now_ns / period);
    left->time_left_ns = one_in(2) ? 0 : below(its->budget_ns + 1);
    left->burst_left_ns = below(its->burst_ns + 1);
}

/* A record that a queue takes, mostly. */
static void fill_record(board_record_t *record)
{
    uint64_t policy = one_in(16) ? below(5) : below(3);
    memset(record, 0, sizeof *record);
    record->parameters.policy = policy;
    record->parameters.priority = policy == BOARD_POLICY_FIFO ? below(4) : 0;
    record->parameters.band = below(3);
    record->parameters.role = below(3);
    record->parameters.weight = BOARD_USUAL_WEIGHT;
    record->parameters.backend = below(2);
    record->runtime_kind = policy;
    record->turn = one_in(4) ? 0 : BOARD_TURNS_START + below(16);
    record->height = BOARD_NEW_HEIGHT;
    record->cpu = one_in(32);
    if (policy == BOARD_POLICY_FAIR) {
        record->runtime.fair.pass_low = below(8);
        record->runtime.fair.slice_left_ns = below(3);
    } else if (policy == BOARD_POLICY_BUDGET) {
        fill_budget(record);
    }
}

static uint64_t *row(size_t i)
{
    return table.at + i * ROW_WORDS;
}

static board_record_t *records(void)
{
    return (board_record_t *)(void *)table.at;
}

static void fill_config(board_config_t *config)
{
    uint64_t floor = 1 + below(period - 1);
    uint64_t allowance = below(period - floor);
    *config = board_config(period, allowance, floor);
    config->prefer_fair = below(2);
}

static size_t row_count(void)
{
    switch (below(64)) {
    case 0: return 0;
    case 1: return BOARD_MOST_RECORDS;
    case 2: return BOARD_MOST_RECORDS + 1;
    case 3: case 4: case 5: return 13 + below(400);
    default: return 1 + below(12);
    }
}

/* A new queue over sound records, with a window that is not yet of any period. */
static void begin_sound(void)
{
    memset(queue.at, 0, queue.words * sizeof(uint64_t));
    for (size_t i = 0; i < rows; i++) {
        fill_record(&records()[i]);
    }
    fill_config(&own_config);
    memset(&own_window, 0, sizeof own_window);
    own_window.config = own_config;
    own_window.allowance_left_ns = own_config.allowance_ns;
    own_window.floor_left_ns = own_config.floor_ns;
    own_turns.back = own_turns.front = BOARD_TURNS_START;
    board_record_t running;
    fill_record(&running);
    memcpy(&own_current, &running, sizeof own_current);
}

static uint64_t *mark(void)
{
    return queue.at + MARK_ROW * BOARD_QUEUE_ROW_WORDS + MARK_WORD;
}

static void begin_of_any_kind(void)
{
    fill(table.at, table.words);
    fill(queue.at, queue.words);
    *mark() = one_in(8);
    fill(words_of(&own_current), ROW_WORDS);
    if (one_in(2)) {
        fill(words_of(&own_window), WINDOW_WORDS);
    }
}

/* A lift record: its runs, how many words it has room for, and how many runs are recorded. */
static board_run_t own_list[MOST_RUNS + 1];
static size_t own_room;
static uint64_t own_runs;

/* The last part that was found: of which reading and width, and its place. */
static uint64_t last_ns, last_width;
static board_place_t last_place;

/* A little later or at once, and not beyond the greatest reading. */
static uint64_t after(uint64_t time)
{
    uint64_t step = one_in(2) ? 0 : below(5);
    return time > UINT64_MAX - step ? UINT64_MAX : time + step;
}

/* In words, at times no whole number of runs. */
static size_t list_room(void)
{
    uint64_t runs = one_in(16) ? below(MOST_RUNS) : below(12);
    uint64_t rest = one_in(4) ? below(BOARD_RUN_WORDS) : 0;
    return (size_t)(runs * BOARD_RUN_WORDS + rest);
}

/* Some runs in order, from about 0, the clock or near the greatest reading on; behind them words of any kind. */
static void begin_list(void)
{
    uint64_t time = one_in(2) ? below(4) : one_in(2) ? now_ns : UINT64_MAX - below(40);
    own_room = list_room();
    own_runs = below(own_room / BOARD_RUN_WORDS + 1);
    fill(words_of(own_list), own_room);
    for (uint64_t i = 0; i < own_runs; i++) {
        own_list[i].start = time = after(time);
        own_list[i].end = time = after(time);
    }
}

/* A new round: a new queue over sound records, or words of any kind. */
static void begin_round(void)
{
    bool of_any_kind = one_in(4);
    period = one_in(2) ? 10 : 2 + below(999999999);
    now_ns = one_in(8) ? number() : below(4 * period);
    rows = row_count();
    place(&table, rows * ROW_WORDS);
    place(&queue, QUEUE_WORDS);
    begin_sound();
    fill(words_of(&own_key), KEY_WORDS);
    fill(words_of(&own_demand), DEMAND_WORDS);
    fill(words_of(&own_selection), SELECTION_WORDS);
    begin_list();
    if (of_any_kind) {
        begin_of_any_kind();
    }
}

/* One word of the queue or, more often, of the table overwritten, or a bit of it turned. */
static void damage_word(void)
{
    struct lent *const things[] = {&queue, &table, &table};
    struct lent *thing = things[below(3)];
    if (thing->words != 0) {
        uint64_t *word = thing->at + below(thing->words);
        *word = one_in(2) ? *word ^ UINT64_C(1) << below(64) : one_in(2) ? below(rows + 2) : number();
    }
}

/* A word of the fair list, of a root, or of counts and epoch. */
static void damage_root(void)
{
    uint64_t its_row = FAIR_ROW + below(BOARD_QUEUE_ROWS - FAIR_ROW);
    uint64_t its_word = below(MARK_WORD);
    queue.at[its_row * BOARD_QUEUE_ROW_WORDS + its_word] = one_in(2) ? below(rows + 2) : below(2);
}

/* The window's configuration is made sound again at times, so that a round goes on. */
static void damage_window(void)
{
    if (one_in(2)) {
        fill_config(&own_window.config);
        return;
    }
    uint64_t its_word = below(WINDOW_WORDS);
    words_of(&own_window)[its_word] = number();
}

/* A counter near an end. */
static void damage_turns(void)
{
    uint64_t its_word = below(TURN_WORDS);
    uint64_t near_end = below(3);
    words_of(&own_turns)[its_word] = one_in(2) ? near_end : ~near_end;
}

/* A word overwritten or a bit of it turned; or the list begun anew, so that a round goes on. */
static void damage_list(void)
{
    if (own_room == 0 || one_in(2)) {
        begin_list();
        return;
    }
    uint64_t *word = words_of(own_list) + below(own_room);
    *word = one_in(2) ? *word ^ UINT64_C(1) << below(64) : one_in(2) ? *word + below(9) - 4 : number();
}

/* The mark of a halted queue is taken away at times, so that a round goes on. */
static void damage(void)
{
    for (uint64_t n = 1 + below(3); n > 0; n--) {
        damage_word();
    }
    if (one_in(2)) {
        damage_root();
    }
    if (one_in(3)) {
        damage_window();
    }
    if (one_in(4)) {
        damage_turns();
    }
    if (one_in(2)) {
        damage_list();
    }
    if (one_in(2)) {
        *mark() = 0;
    }
}

/* ---- one call ---- */

enum entry { NEW, ENQUEUE, FRONT, REMOVE, LENGTHS, WINDOW, SELECT, PREPARE, ACCOUNT, CANDIDATE, EXPIRED, FINISH, KEY,
            SWITCH, DEADLINE, LIFT, LIFT_FROM, SLIDE, APPEND, ENTRIES };

static const char *const names[ENTRIES] = {"board_new", "board_enqueue", "board_enqueue_front", "board_remove",
                                           "board_lengths", "board_window", "board_select", "board_prepare",
                                           "board_account", "board_candidate", "board_expired", "board_finish",
                                           "board_key", "board_switch", "board_deadline", "board_lift",
                                           "board_lift_from", "board_slide", "board_append"};

#define BIT(n) (1u << (n))

/* The answers that documents 01 and 02 have for each. */
static const unsigned allowed[ENTRIES] = {
    BIT(0),
    BIT(0) | BIT(1) | BIT(2) | BIT(3) | BIT(4) | BIT(9) | BIT(10) | BIT(11),
    BIT(0) | BIT(1) | BIT(2) | BIT(3) | BIT(4) | BIT(9) | BIT(10) | BIT(11),
    BIT(0) | BIT(1) | BIT(2) | BIT(4) | BIT(9) | BIT(10) | BIT(11),
    BIT(0),
    BIT(0) | BIT(5),
    BIT(0) | BIT(1) | BIT(5) | BIT(9) | BIT(10) | BIT(11),
    BIT(0) | BIT(3) | BIT(4) | BIT(8) | BIT(10) | BIT(11),
    BIT(0) | BIT(4) | BIT(5) | BIT(7) | BIT(10) | BIT(11),
    BIT(0) | BIT(4) | BIT(10) | BIT(11),
    BIT(0) | BIT(4) | BIT(10) | BIT(11),
    BIT(0) | BIT(4) | BIT(10) | BIT(11),
    BIT(0) | BIT(5),
    BIT(0),
    BIT(0) | BIT(4) | BIT(5) | BIT(10) | BIT(11),
    BIT(0) | BIT(12),
    BIT(0) | BIT(12),
    BIT(0) | BIT(12),
    BIT(0) | BIT(10) | BIT(12),
};

/* What an entry is lent. */
enum { LENDS_QUEUE = 1, LENDS_TABLE = 2, LENDS_WINDOW = 4, NAMES_A_THREAD = 8, LENDS_LIST = 16 };

static const unsigned lends[ENTRIES] = {
    LENDS_QUEUE,
    LENDS_QUEUE | LENDS_TABLE | NAMES_A_THREAD,
    LENDS_QUEUE | LENDS_TABLE | NAMES_A_THREAD,
    LENDS_QUEUE | LENDS_TABLE | NAMES_A_THREAD,
    0,
    0,
    LENDS_QUEUE | LENDS_TABLE | LENDS_WINDOW,
    LENDS_TABLE | NAMES_A_THREAD,
    LENDS_TABLE | LENDS_WINDOW | NAMES_A_THREAD,
    LENDS_TABLE | NAMES_A_THREAD,
    LENDS_TABLE | NAMES_A_THREAD,
    LENDS_TABLE | NAMES_A_THREAD,
    LENDS_WINDOW,
    0,
    LENDS_TABLE | LENDS_WINDOW | NAMES_A_THREAD,
    LENDS_LIST,
    LENDS_LIST,
    LENDS_LIST,
    LENDS_LIST,
};

static uint64_t counts[ENTRIES][ANSWERS];
static uint64_t calls, faults, seed = 1;
static enum entry entry;
static uint64_t id;

static void fault(const char *what, uint64_t got)
{
    faults++;
    if (faults <= SHOWN) {
        printf("fault: %s, call %" PRIu64 " of seed %" PRIu64 ": %s (%" PRIu64 ")\n", names[entry], calls, seed, what,
               got);
    }
}

/* Lends own words in an array of their length. */
static void lend(struct lent *thing, const uint64_t *own, size_t length)
{
    place(thing, length);
    memcpy(thing->at, own, length * sizeof *own);
}

/* By the first words of a window too. */
static bool sound_config(const uint64_t *words)
{
    board_config_t its;
    memcpy(&its, words, sizeof its);
    uint64_t priority = its.priority_rank % 256, budget = its.budget_rank % 256, fair = its.fair_rank % 256;
    return priority < budget && budget < fair && fair < its.borrow_rank % 256 && its.period_ns != 0
        && its.period_ns <= 1000000000 && its.floor_ns != 0 && its.floor_ns < its.period_ns
        && its.allowance_ns < its.period_ns - its.floor_ns;
}

static bool is_halted(void)
{
    return *mark() != 0;
}

/* ---- a lift record by document 02, sentence by sentence over all runs ---- */

/* What is asked of the list. */
static struct {
    uint64_t words; /* how many of the list are lent */
    uint64_t runs;  /* how many are said to be in order, or to be recorded */
    uint64_t now_ns, width_ns, earlier_ns;
    board_place_t place; /* said to be the earlier reading's */
    board_run_t run;     /* to be recorded */
} asked;

static const board_run_t *lent_runs(void)
{
    return (const board_run_t *)(const void *)list.at;
}

/* Each run's end is at least its start, and each start at least the end before it. */
static bool in_order(const board_run_t *runs, uint64_t from, uint64_t to)
{
    for (uint64_t i = from; i < to; i++) {
        if (runs[i].end < runs[i].start || (i > 0 && runs[i].start < runs[i - 1].end)) {
            return false;
        }
    }
    return true;
}

/* The first run that ends after a time, else the list's end. */
static uint64_t first_after(const board_run_t *runs, uint64_t count, uint64_t time)
{
    uint64_t i = 0;
    while (i < count && runs[i].end <= time) {
        i++;
    }
    return i;
}

/* Whether a place has all runs that end after the reading less the width and start before the reading, and no other; an
   empty one lies at the first run with such an end. */
static bool is_part(const board_run_t *runs, uint64_t count, board_place_t of, uint64_t now, uint64_t width)
{
    uint64_t since = now < width ? 0 : now - width;
    if (of.first > count || of.count > count - of.first) {
        return false;
    }
    for (uint64_t i = 0; i < count; i++) {
        bool inside = of.first <= i && i - of.first < of.count;
        if (inside != (runs[i].end > since && runs[i].start < now)) {
            return false;
        }
    }
    return of.count != 0 || of.first == first_after(runs, count, since);
}

/* How many runs the call may take to be in order without looking. */
static uint64_t taken_for_ordered(uint64_t count)
{
    return entry != LIFT_FROM ? 0 : asked.runs < count ? asked.runs : count;
}

/* The refusals of a lift record; 0 where none holds. */
static uint64_t due_of_list(void)
{
    const board_run_t *runs = lent_runs(), *run = &asked.run;
    uint64_t count = list.words / BOARD_RUN_WORDS;
    if (entry != APPEND) {
        bool whole = list.words % BOARD_RUN_WORDS == 0;
        return whole && in_order(runs, taken_for_ordered(count), count) ? 0 : BOARD_RECORD_ORDER;
    }
    if (asked.runs >= count) {
        return BOARD_BAD_TABLE;
    }
    bool follows = asked.runs == 0 || runs[asked.runs - 1].end <= run->start;
    return follows && run->start <= run->end ? 0 : BOARD_RECORD_ORDER;
}

/* Document 01's refusals that come before all others, in its order, and those of a lift record; 0 where none holds. */
static uint64_t due(void)
{
    unsigned its = lends[entry];
    if (its & LENDS_LIST) {
        return due_of_list();
    }
    if ((its & LENDS_TABLE) && rows > BOARD_MOST_RECORDS) {
        return BOARD_BAD_TABLE;
    }
    if (entry == WINDOW && !sound_config(config.at)) {
        return BOARD_BAD_CONFIG;
    }
    if ((its & LENDS_WINDOW) && !sound_config(window.at)) {
        return BOARD_BAD_CONFIG;
    }
    if (entry != NEW && (its & LENDS_QUEUE) && is_halted()) {
        return BOARD_HALTED;
    }
    if ((its & NAMES_A_THREAD) && id >= rows) {
        return BOARD_NO_THREAD;
    }
    return 0;
}

static uint64_t a_thread(void)
{
    switch (below(32)) {
    case 0: return rows + below(3);
    case 1: return number();
    default: return rows == 0 ? 0 : below(rows);
    }
}

static uint64_t flag(void)
{
    return one_in(8) ? number() : below(2);
}

static uint8_t processor(void)
{
    return (uint8_t)(one_in(32) ? any() : 0);
}

static void tick(void)
{
    switch (below(16)) {
    case 0: now_ns = number(); break;
    case 1: now_ns -= below(period); break;
    case 2: now_ns += 5 * period; break;
    default: now_ns += below(period) / 4; break;
    }
}

static uint64_t start_before(uint64_t end)
{
    return one_in(8) ? number() : end - (end == 0 ? 0 : below(end < 2 * period ? end + 1 : 2 * period));
}

/* A reading at an edge of a run of the own list or beside it, or any. */
static uint64_t list_reading(void)
{
    if (own_runs == 0 || one_in(8)) {
        return number();
    }
    const board_run_t *run = &own_list[below(own_runs)];
    uint64_t edge = one_in(2) ? run->start : run->end;
    return edge + below(3) - 1;
}

/* The number as it was, one more or less, or any. */
static uint64_t about(uint64_t was)
{
    return one_in(8) ? number() : one_in(8) ? was + below(3) - 1 : was;
}

/* A slide is mostly asked for with the last part's reading, width and place, and goes on from there. */
static void ask_for_part(void)
{
    asked.earlier_ns = about(last_ns);
    asked.place.first = about(last_place.first);
    asked.place.count = about(last_place.count);
    asked.now_ns = list_reading();
    asked.width_ns = one_in(8) ? number() : below(12);
    if (entry == SLIDE && !one_in(8)) {
        asked.width_ns = last_width;
    }
    if (entry == SLIDE && one_in(2)) {
        asked.now_ns = after(asked.earlier_ns);
    }
}

/* A run that follows the one before it, mostly. */
static void ask_to_record(void)
{
    bool has_one_before = asked.runs != 0 && asked.runs <= own_room / BOARD_RUN_WORDS;
    uint64_t since = has_one_before ? own_list[asked.runs - 1].end : 0;
    asked.run.start = about(after(since));
    asked.run.end = about(after(asked.run.start));
    asked.run.thread = number();
}

/* A full list is begun anew at times, so that runs are recorded. */
static void ask_of_list(void)
{
    uint64_t room = own_room / BOARD_RUN_WORDS;
    if (entry == APPEND && own_runs == room && !one_in(4)) {
        begin_list();
        room = own_room / BOARD_RUN_WORDS;
    }
    asked.runs = one_in(4) ? below(room + 2) : about(own_runs);
    asked.words = entry == APPEND ? own_room : one_in(8) ? below(own_room + 1) : BOARD_RUN_WORDS * own_runs;
    if (entry == APPEND) {
        ask_to_record();
    } else {
        ask_for_part();
    }
}

/* What the next call is handed beside what is lent to it. */
struct numbers {
    uint8_t cpu;
    uint64_t first, second, third; /* flags */
    uint64_t mode, start_ns;
};

/* Drawn one after the other, as many as the entry takes. */
static struct numbers drawn(void)
{
    struct numbers with = {0, 0, 0, 0, 0, 0};
    if (entry == ENQUEUE || entry == FRONT || entry == REMOVE || entry == SELECT) {
        with.cpu = processor();
    }
    if (entry == SELECT || entry == PREPARE || entry == CANDIDATE || entry == SWITCH || entry == DEADLINE) {
        with.first = flag();
    }
    if (entry == SWITCH || entry == DEADLINE) {
        with.second = flag();
        with.third = flag();
    }
    if (entry == ACCOUNT) {
        with.mode = one_in(8) ? number() : below(5);
        with.start_ns = start_before(now_ns);
    }
    return with;
}

static uint64_t made_on_list(void)
{
    const board_run_t *run = &asked.run;
    board_place_t *place = (board_place_t *)(void *)answer.at;
    switch (entry) {
    case LIFT: return board_lift(list.at, list.words, asked.now_ns, asked.width_ns, place);
    case LIFT_FROM: return board_lift_from(list.at, list.words, asked.runs, asked.now_ns, asked.width_ns, place);
    case SLIDE: return board_slide(list.at, list.words, asked.width_ns, asked.earlier_ns, asked.place.first,
                                   asked.place.count, asked.now_ns, (board_slid_t *)(void *)answer.at);
    default: return board_append(list.at, list.words, asked.runs, run->start, run->end, run->thread);
    }
}

static uint64_t made(struct numbers with)
{
    board_queue_t *q = (board_queue_t *)(void *)queue.at;
    board_path_t *p = (board_path_t *)(void *)path.at;
    board_record_t *t = records();
    board_window_t *w = (board_window_t *)(void *)window.at;
    board_candidate_t *c = (board_candidate_t *)(void *)current.at;
    board_demand_t *d = (board_demand_t *)(void *)demand.at;
    board_key_t *k = (board_key_t *)(void *)key.at;
    void *o = answer.at;
    switch (entry) {
    case NEW: return board_new(q);
    case ENQUEUE: return board_enqueue(q, t, rows, p, id, with.cpu);
    case FRONT: return board_enqueue_front(q, t, rows, p, id, with.cpu);
    case REMOVE: return board_remove(q, t, rows, p, id, with.cpu);
    case LENGTHS: return board_lengths(q, (board_lengths_t *)o);
    case WINDOW: return board_window(w, (board_config_t *)(void *)config.at);
    case SELECT: return board_select(q, t, rows, p, with.cpu, now_ns, w, with.first, c, (board_selection_t *)o);
    case PREPARE: return board_prepare(t, rows, id, with.first, now_ns, (board_turns_t *)(void *)turns.at);
    case ACCOUNT: return board_account(t, rows, id, w, with.mode, with.start_ns, now_ns);
    case CANDIDATE: return board_candidate(t, rows, id, with.first, now_ns, c);
    case EXPIRED: return board_expired(t, rows, id, answer.at);
    case FINISH: return board_finish(t, rows, id);
    case KEY: return board_key(w, now_ns, c, d, k);
    case SWITCH: return board_switch((board_ready_t *)(void *)ready.at, k, c, with.first, with.second, with.third,
                                     (board_choice_t *)o);
    case DEADLINE: return board_deadline(t, rows, id, now_ns, k, w, with.first, with.second, with.third, d,
                                         (board_deadline_t *)o);
    default: return made_on_list();
    }
}

static size_t answer_length(void)
{
    switch (entry) {
    case LENGTHS: return LENGTH_WORDS;
    case SELECT: return SELECTION_WORDS;
    case EXPIRED: return FLAG_WORDS;
    case SWITCH: return CHOICE_WORDS;
    case LIFT: case LIFT_FROM: return PLACE_WORDS;
    case SLIDE: return SLID_WORDS;
    default: return DEADLINE_WORDS;
    }
}

static bool entry_lends(const struct lent *thing)
{
    switch (entry) {
    case LENGTHS: return thing == &answer;
    case WINDOW: return thing == &window || thing == &config;
    case SELECT: return thing == &window || thing == &current || thing == &answer;
    case PREPARE: return thing == &turns;
    case ACCOUNT: return thing == &window;
    case CANDIDATE: return thing == &current;
    case EXPIRED: return thing == &answer;
    case KEY: return thing == &window || thing == &current || thing == &demand || thing == &key;
    case SWITCH: return thing == &ready || thing == &key || thing == &current || thing == &answer;
    case DEADLINE: return thing == &key || thing == &window || thing == &demand || thing == &answer;
    case LIFT: case LIFT_FROM: case SLIDE: return thing == &list || thing == &answer;
    case APPEND: return thing == &list;
    default: return false;
    }
}

/* Lends own words where the entry takes them, else nothing; and takes back what was lent. */
static void lent_to_entry(struct lent *thing, const void *own, size_t length)
{
    if (entry_lends(thing)) {
        lend(thing, (const uint64_t *)own, length);
    }
}

static void take_back(const struct lent *thing, void *own, size_t length)
{
    if (entry_lends(thing)) {
        memcpy(own, thing->at, length * sizeof(uint64_t));
    }
}

/* What the entry may change, whatever it answers. */
static bool may_change(const struct lent *thing)
{
    if (lends[entry] & LENDS_LIST) {
        return thing == (entry == APPEND ? &list : &answer);
    }
    if (thing == &path) {
        return entry == ENQUEUE || entry == FRONT || entry == REMOVE || entry == SELECT;
    }
    if (thing == &queue) {
        return (lends[entry] & LENDS_QUEUE) != 0;
    }
    if (thing == &table) {
        return (lends[entry] & LENDS_TABLE) != 0 && entry != EXPIRED;
    }
    if (thing == &current) {
        return entry == CANDIDATE;
    }
    if (thing == &key) {
        return entry == KEY;
    }
    return thing == &window ? entry != SWITCH : thing == &turns ? entry == PREPARE : thing == &answer ? entry != KEY
        : false;
}

/* Whether a refusal leaves the queue and the table as they were: all but what selection did before it met damage, and a
   halt. */
static bool leaves_all(uint64_t number, bool halted_before)
{
    if (number == BOARD_HALTED) {
        return halted_before;
    }
    return entry != SELECT || number == BOARD_BAD_TABLE || number == BOARD_BAD_CONFIG;
}

/* The rows that a call has to do with: the named thread's, and of a queue's call those that links lead to from it, from
   the queue's words and from one another. */
static bool reached[BOARD_MOST_RECORDS + 1];
static size_t waiting[BOARD_MOST_RECORDS + 1], waiting_rows;

static void reach(const uint64_t *link)
{
    if (link[0] != 0 && link[1] < rows && !reached[link[1]]) {
        reached[link[1]] = true;
        waiting[waiting_rows++] = (size_t)link[1];
    }
}

static void reach_from_queue(void)
{
    for (size_t k = 0; k < MARK_ROW; k++) {
        const uint64_t *words = queue.at + k * BOARD_QUEUE_ROW_WORDS;
        reach(words);
        if (k < ROOT_ROW) {
            reach(words + 2);
        }
    }
}

static void reach_from_rows(void)
{
    while (waiting_rows > 0) {
        const uint64_t *words = row(waiting[--waiting_rows]);
        reach(words + LEFT);
        reach(words + RIGHT);
        reach(words + PREVIOUS);
        reach(words + NEXT);
    }
}

static void find_reached(void)
{
    const uint64_t named[2] = {(lends[entry] & NAMES_A_THREAD) != 0, id};
    memset(reached, 0, sizeof reached);
    waiting_rows = 0;
    reach(named);
    if (lends[entry] & LENDS_QUEUE) {
        reach_from_queue();
        reach_from_rows();
    }
}

/* What no call does to the rows, whatever it answers. */
static void judge_rows(void)
{
    for (size_t i = 0; i < rows; i++) {
        const uint64_t *was = rows_before[i], *is = row(i);
        if (!same(was, is, RUNTIME)
            || !same(was + PROCESSOR, is + PROCESSOR, ROW_WORDS - PROCESSOR)) {
            fault("parameters, processor or spare words of a row are changed", i);
        }
        if (!row_stored(was, is)) {
            fault("what is stored to a row is no record's encoding", i);
        }
        if (!reached[i] && !same(was, is, ROW_WORDS)) {
            fault("a row that the call has nothing to do with is changed", i);
        }
    }
}

static void judge_queue(void)
{
    for (size_t k = 0; k < BOARD_QUEUE_ROWS; k++) {
        if (!queue_row_stored(k, queue_before[k], queue.at + k * BOARD_QUEUE_ROW_WORDS)) {
            fault("what is stored to a row of the queue is no encoding, or a spare word of it is changed", k);
        }
    }
}

static void judge_answer(uint64_t got, uint64_t wanted)
{
    if (got >= ANSWERS - 1 || (allowed[entry] & BIT(got)) == 0) {
        fault("an answer that it does not have", got);
    }
    if (wanted != 0 && got != wanted) {
        fault("another answer is due first", wanted);
    }
    if (wanted == 0 && (got == BOARD_BAD_TABLE || got == BOARD_BAD_CONFIG || got == BOARD_NO_THREAD
                        || got == BOARD_RECORD_ORDER)) {
        fault("a refusal without its reason", got);
    }
    if (got == BOARD_HALTED && !is_halted()) {
        fault("a halt without its mark", got);
    }
}

/* A part that was found. Where runs that were taken to be in order are not, it only lies within the list. */
static void judge_part(const board_run_t *runs, uint64_t count)
{
    const board_place_t *found = (const board_place_t *)(const void *)answer.at;
    bool within = found->first <= count && found->count <= count - found->first;
    bool known = in_order(runs, 0, taken_for_ordered(count));
    if (!within || (known && !is_part(runs, count, *found, asked.now_ns, asked.width_ns))) {
        fault("another part than the reading's", found->first);
    }
}

static void judge_slide(const board_run_t *runs, uint64_t count)
{
    const board_slid_t *slid = (const board_slid_t *)(const void *)answer.at;
    bool earlier = is_part(runs, count, asked.place, asked.earlier_ns, asked.width_ns);
    if (slid->afresh != (asked.now_ns < asked.earlier_ns || !earlier)) {
        fault("afresh where it is not to be, or not where it is to be", slid->afresh);
    }
}

/* The run stands in its place, and every other word is as it was. */
static void judge_recorded(void)
{
    list_before[asked.runs] = asked.run;
    if (memcmp(list_before, list.at, list.words * sizeof(uint64_t)) != 0) {
        fault("another list than the one with this run more", asked.runs);
    }
}

/* What a call on a list answers beside its number. That a refused run changes nothing is judged as of all calls. */
static void judge_list(uint64_t got)
{
    uint64_t count = list.words / BOARD_RUN_WORDS;
    if (entry == APPEND) {
        if (got == BOARD_MADE) {
            judge_recorded();
        }
    } else if (got != BOARD_MADE) {
        if (!zeros(answer.at, answer.words)) {
            fault("a refusal that leaves a place", answer.at[0]);
        }
    } else {
        judge_part(lent_runs(), count);
        if (entry == SLIDE) {
            judge_slide(lent_runs(), count);
        }
    }
}

static bool side_is_touched(const struct lent *thing)
{
    const uint64_t *side = watched(thing);
    for (size_t k = 0; k < WATCHED; k++) {
        if (side[k] != CANARY) {
            return true;
        }
    }
    return false;
}

/* A thing that was lent, this time or before. `refused`: the call was; `leaves`: and leaves queue and table. */
static void judge_thing(size_t i, bool refused, bool leaves)
{
    const struct lent *thing = all[i];
    if (thing->at == NULL) {
        return;
    }
    bool everywhere = thing != &queue && thing != &table;
    bool zeroed = thing == &answer && (lends[entry] & LENDS_LIST) != 0 && entry != APPEND;
    bool kept = !may_change(thing) || ((leaves || (refused && everywhere)) && !zeroed);
    if (kept && thing != &path && !unchanged(thing)) {
        fault("words that were to stay are changed", i);
    }
    if (side_is_touched(thing)) {
        fault("a word outside is changed", i);
    }
}

static void judge(uint64_t got, uint64_t wanted, bool halted_before)
{
    judge_answer(got, wanted);
    if (lends[entry] & LENDS_TABLE) {
        judge_rows();
    }
    if ((lends[entry] & LENDS_QUEUE) && entry != NEW) {
        judge_queue();
    }
    if (lends[entry] & LENDS_LIST) {
        judge_list(got);
    }
    bool refused = got != BOARD_MADE;
    bool leaves = refused && leaves_all(got, halted_before);
    for (size_t i = 0; i < sizeof all / sizeof *all; i++) {
        judge_thing(i, refused, leaves);
    }
}

static sigjmp_buf out;
static volatile sig_atomic_t calling;
static uint64_t seen;

static void caught(int number)
{
    if (number == SIGALRM) {
        bool same = calling && seen == calls;
        seen = calls;
        if (!same) {
            return;
        }
    }
    if (!calling) {
        signal(number, SIG_DFL);
        raise(number);
        return;
    }
    siglongjmp(out, number);
}

/* Which entry is called, of which thread and when. */
static void choose_call(void)
{
    entry = (enum entry)below(ENTRIES);
    if (entry == NEW && !one_in(16)) {
        entry = one_in(2) ? SELECT : ENQUEUE;
    }
    id = a_thread();
    tick();
    if (lends[entry] & LENDS_LIST) {
        ask_of_list();
    }
}

static void damage_config(void)
{
    uint64_t its_word = below(CONFIG_WORDS);
    words_of(&own_config)[its_word] = number();
}

static void lend_all(void)
{
    place(&path, PATH_WORDS);
    lent_to_entry(&window, &own_window, WINDOW_WORDS);
    if (entry == WINDOW && one_in(2)) {
        damage_config();
    }
    lent_to_entry(&config, &own_config, CONFIG_WORDS);
    lent_to_entry(&current, &own_current, ROW_WORDS);
    lent_to_entry(&demand, &own_demand, DEMAND_WORDS);
    lent_to_entry(&key, &own_key, KEY_WORDS);
    lent_to_entry(&ready, &own_selection.ready, KEY_WORDS);
    lent_to_entry(&answer, &own_selection, answer_length());
    lent_to_entry(&turns, &own_turns, TURN_WORDS);
    lent_to_entry(&list, own_list, (size_t)asked.words);
}

/* What a thing is before the call, and the words beside it. */
static void watch(struct lent *thing)
{
    thing->before = hash(thing);
    uint64_t *side = watched(thing);
    for (size_t k = 0; k < WATCHED; k++) {
        side[k] = CANARY;
    }
}

static void watch_all(void)
{
    for (size_t i = 0; i < sizeof all / sizeof *all; i++) {
        if (all[i]->at != NULL) {
            watch(all[i]);
        }
    }
    if (lends[entry] & LENDS_TABLE) {
        memcpy(rows_before, table.at, table.words * sizeof(uint64_t));
        find_reached();
    }
    if (lends[entry] & LENDS_QUEUE) {
        memcpy(queue_before, queue.at, sizeof queue_before);
    }
    if (lends[entry] & LENDS_LIST) {
        memcpy(list_before, list.at, list.words * sizeof(uint64_t));
    }
}

/* The list goes on with a run that was recorded behind the others, and the next slide from the part that was found. */
static void go_on_with_list(void)
{
    if (entry == APPEND) {
        take_back(&list, own_list, own_room);
        own_runs += asked.runs == own_runs;
        return;
    }
    last_ns = asked.now_ns;
    last_width = asked.width_ns;
    memcpy(&last_place, answer.at, sizeof last_place);
}

static void take_all_back(void)
{
    take_back(&window, &own_window, WINDOW_WORDS);
    take_back(&current, &own_current, ROW_WORDS);
    take_back(&key, &own_key, KEY_WORDS);
    take_back(&turns, &own_turns, TURN_WORDS);
    if (entry == SELECT) {
        take_back(&answer, &own_selection, SELECTION_WORDS);
        own_demand = own_selection.demand;
    }
}

/* Makes the call; whether it came back. By itself, so that no count of a loop is lost where it does not. */
static bool came_back(struct numbers with, uint64_t *got)
{
    int signalled = sigsetjmp(out, 1);
    if (signalled != 0) {
        calling = 0;
        fault(signalled == SIGALRM ? "it does not end" : "it crashes", (uint64_t)signalled);
        return false;
    }
    calling = 1;
    *got = made(with);
    calling = 0;
    return true;
}

static void call(void)
{
    choose_call();
    lend_all();
    watch_all();
    uint64_t got, wanted = due();
    bool halted_before = is_halted();
    if (!came_back(drawn(), &got)) {
        begin_round();
        return;
    }
    counts[entry][got < ANSWERS - 1 ? got : ANSWERS - 1]++;
    judge(got, wanted, halted_before);
    take_all_back();
    if ((lends[entry] & LENDS_LIST) && got == BOARD_MADE) {
        go_on_with_list();
    }
}

/* ---- the run ---- */

static void prepare_signals(void)
{
    struct sigaction action;
    memset(&action, 0, sizeof action);
    action.sa_handler = caught;
    sigemptyset(&action.sa_mask);
    static const int numbers[] = {SIGSEGV, SIGBUS, SIGFPE, SIGILL, SIGALRM};
    for (size_t i = 0; i < sizeof numbers / sizeof *numbers; i++) {
        sigaction(numbers[i], &action, NULL);
    }
    struct itimerval each = {{1, 0}, {1, 0}};
    setitimer(ITIMER_REAL, &each, NULL);
}

static void report_entry(size_t its)
{
    printf("%-20s", names[its]);
    for (size_t n = 0; n < ANSWERS - 1; n++) {
        printf(" %8" PRIu64, counts[its][n]);
    }
    printf("\n");
}

static void report_heading(void)
{
    printf("%-20s", "answers");
    for (unsigned n = 0; n < ANSWERS - 1; n++) {
        printf(" %8u", n);
    }
    printf("\n");
}

static void report(void)
{
    report_heading();
    for (size_t its = 0; its < ENTRIES; its++) {
        report_entry(its);
    }
    printf("fuzz: %" PRIu64 " calls, %" PRIu64 " faults\n", calls, faults);
}

/* The address checks leave crashes to the handler above. */
const char *__asan_default_options(void);
const char *__asan_default_options(void)
{
    return "handle_segv=0:handle_sigbus=0:handle_sigfpe=0:handle_sigill=0:detect_leaks=0";
}

static uint64_t limit = 1000000, most_faults = UINT64_MAX;

/* Whether the words of the command are understood. */
static bool read_words(int count, char **words)
{
    for (int i = 1; i < count; i += 2) {
        uint64_t n = i + 1 < count ? strtoull(words[i + 1], NULL, 10) : 0;
        if (i + 1 < count && strcmp(words[i], "--calls") == 0) {
            limit = n;
        } else if (i + 1 < count && strcmp(words[i], "--seed") == 0) {
            seed = n;
        } else if (i + 1 < count && strcmp(words[i], "--faults") == 0) {
            most_faults = n;
        } else {
            return false;
        }
    }
    return true;
}

static void make_all_room(void)
{
    for (size_t i = 0; i < sizeof all / sizeof *all; i++) {
        make_room(all[i], all[i] == &table ? (BOARD_MOST_RECORDS + 1) * ROW_WORDS : QUEUE_WORDS);
    }
}

int main(int count, char **words)
{
    if (!read_words(count, words)) {
        fprintf(stderr, "usage: fuzz [--calls N] [--seed S] [--faults F]\n");
        return 2;
    }
    random_state = seed;
    make_all_room();
    prepare_signals();
    uint64_t left = 0;
    for (calls = 0; calls < limit && faults < most_faults; calls++) {
        if (left == 0) {
            begin_round();
            left = rows > 512 ? 16 : 64 + below(192);
        }
        left--;
        if (one_in(24)) {
            damage();
        }
        call();
    }
    report();
    return faults == 0 ? 0 : 1;
}
