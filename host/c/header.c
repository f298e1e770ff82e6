/* That include/board.h is what it says, in C99, C11, C++11 and C++17: each field of its structs has the place of the
 * word that the Rattle sources name so (host/c/run takes those numbers from crates/ into words.h), each choice has the
 * number by which the archive goes, the parts of a lift record are those that it takes and stores, each initialiser
 * gives the same record as its function, every refusal has its name, and the archive has the header's version. Prints
 * what is wrong, and how much was asked; the exit status is 0 where nothing is wrong. */
#include <inttypes.h>
#include <stddef.h>
#include <stdio.h>
#include <string.h>

#include "board.h"
#include "words.h"

/* A field's place against a word's number, at compile time. */
#define PLACE(type, field) (offsetof(type, field) / sizeof(uint64_t))
#define JOINED_WITH(left, right) left##right
#define JOINED(left, right) JOINED_WITH(left, right)
#define STANDS_AT(type, field, word) \
    typedef char JOINED(stands_at_, __LINE__)[PLACE(type, field) == (word) ? 1 : -1]

STANDS_AT(board_record_t, parameters.policy, policy_words_POLICY_TAG);
STANDS_AT(board_record_t, parameters.priority, policy_words_FIFO_PRIORITY);
STANDS_AT(board_record_t, parameters.band, policy_words_BAND);
STANDS_AT(board_record_t, parameters.role, policy_words_ROLE_TAG);
STANDS_AT(board_record_t, parameters.weight, policy_words_WEIGHT);
STANDS_AT(board_record_t, parameters.quantum_ns, policy_words_QUANTUM);
STANDS_AT(board_record_t, parameters.backend, policy_words_BACKEND_TAG);
STANDS_AT(board_record_t, parameters.has_budget, policy_words_BUDGET_TAG);
STANDS_AT(board_record_t, parameters.budget_ns, policy_words_BUDGET_NS);
STANDS_AT(board_record_t, parameters.period_ns, policy_words_BUDGET_PERIOD);
STANDS_AT(board_record_t, parameters.burst_ns, policy_words_BUDGET_BURST);
STANDS_AT(board_record_t, runtime_kind, policy_words_RUNTIME_TAG);
STANDS_AT(board_record_t, runtime.fair.pass_high, policy_words_RUNTIME_FIRST);
STANDS_AT(board_record_t, runtime.fair.pass_low, policy_words_RUNTIME_SECOND);
STANDS_AT(board_record_t, runtime.fair.slice_left_ns, policy_words_RUNTIME_THIRD);
STANDS_AT(board_record_t, runtime.budget.has_epoch, policy_words_RUNTIME_FIRST);
STANDS_AT(board_record_t, runtime.budget.epoch, policy_words_RUNTIME_SECOND);
STANDS_AT(board_record_t, runtime.budget.time_left_ns, policy_words_RUNTIME_THIRD);
STANDS_AT(board_record_t, runtime.budget.burst_left_ns, policy_words_RUNTIME_FOURTH);
STANDS_AT(board_record_t, turn, codec_READY_TURN);
STANDS_AT(board_record_t, left.is_set, codec_LEFT_TAG);
STANDS_AT(board_record_t, left.thread, codec_LEFT);
STANDS_AT(board_record_t, right.is_set, codec_RIGHT_TAG);
STANDS_AT(board_record_t, right.thread, codec_RIGHT);
STANDS_AT(board_record_t, height, codec_HEIGHT);
STANDS_AT(board_record_t, previous.is_set, codec_PREVIOUS_TAG);
STANDS_AT(board_record_t, previous.thread, codec_PREVIOUS);
STANDS_AT(board_record_t, next.is_set, codec_NEXT_TAG);
STANDS_AT(board_record_t, next.thread, codec_NEXT);
STANDS_AT(board_record_t, membership.kind, codec_MEMBERSHIP_TAG);
STANDS_AT(board_record_t, membership.owner, codec_MEMBERSHIP_FIRST);
STANDS_AT(board_record_t, membership.priority, codec_MEMBERSHIP_SECOND);
STANDS_AT(board_record_t, cpu, codec_CPU);
STANDS_AT(board_record_t, spare, codec_CPU + 1);

STANDS_AT(board_candidate_t, parameters, policy_words_POLICY_TAG);
STANDS_AT(board_candidate_t, pass_high, window_words_CANDIDATE_PASS_HIGH);
STANDS_AT(board_candidate_t, pass_low, window_words_CANDIDATE_PASS_LOW);
STANDS_AT(board_candidate_t, has_time, window_words_CANDIDATE_AVAILABLE);
STANDS_AT(board_candidate_t, turn, window_words_CANDIDATE_TURN);

STANDS_AT(board_window_t, config.period_ns, window_words_WINDOW_PERIOD);
STANDS_AT(board_window_t, config.allowance_ns, window_words_WINDOW_ALLOWANCE);
STANDS_AT(board_window_t, config.floor_ns, window_words_WINDOW_FLOOR);
STANDS_AT(board_window_t, config.priority_rank, window_words_PRIORITY_RANK);
STANDS_AT(board_window_t, config.budget_rank, window_words_BUDGET_RANK);
STANDS_AT(board_window_t, config.fair_rank, window_words_FAIR_RANK);
STANDS_AT(board_window_t, config.borrow_rank, window_words_BORROW_RANK);
STANDS_AT(board_window_t, config.prefer_fair, window_words_PREFER_FAIR);
STANDS_AT(board_window_t, has_epoch, window_words_EPOCH_TAG);
STANDS_AT(board_window_t, epoch, window_words_EPOCH);
STANDS_AT(board_window_t, allowance_left_ns, window_words_ALLOWANCE_LEFT);
STANDS_AT(board_window_t, floor_left_ns, window_words_FLOOR_LEFT);

STANDS_AT(board_demand_t, protection, window_words_DEMAND_PROTECTED);
STANDS_AT(board_demand_t, fair, window_words_DEMAND_FAIR);
STANDS_AT(board_demand_t, window_sensitive, window_words_DEMAND_SENSITIVE);
STANDS_AT(board_demand_t, eligible_budget, window_words_DEMAND_ELIGIBLE);
STANDS_AT(board_demand_t, any_budget, window_words_DEMAND_ANY);

STANDS_AT(board_key_t, is_set, window_words_KEY_TAG);
STANDS_AT(board_key_t, mode, window_words_KEY_MODE);
STANDS_AT(board_key_t, urgency, window_words_KEY_URGENCY);
STANDS_AT(board_key_t, rank, window_words_KEY_RANK);
STANDS_AT(board_key_t, algorithm_rank, window_words_KEY_ALGORITHM_RANK);
STANDS_AT(board_key_t, algorithm_high, window_words_KEY_HIGH);
STANDS_AT(board_key_t, algorithm_low, window_words_KEY_LOW);
STANDS_AT(board_key_t, band, window_words_KEY_BAND);
STANDS_AT(board_key_t, turn, window_words_KEY_TURN);

/* A selection's first words are the key that the switch rule compares. */
STANDS_AT(board_selection_t, ready.is_set, board_words_SELECTED_TAG);
STANDS_AT(board_selection_t, ready.thread, board_words_SELECTED_ID);
STANDS_AT(board_selection_t, ready.urgency, window_words_KEY_URGENCY);
STANDS_AT(board_selection_t, ready.rank, window_words_KEY_RANK);
STANDS_AT(board_selection_t, ready.algorithm_rank, window_words_KEY_ALGORITHM_RANK);
STANDS_AT(board_selection_t, ready.algorithm_high, window_words_KEY_HIGH);
STANDS_AT(board_selection_t, ready.algorithm_low, window_words_KEY_LOW);
STANDS_AT(board_selection_t, ready.band, window_words_KEY_BAND);
STANDS_AT(board_selection_t, ready.turn, window_words_KEY_TURN);
STANDS_AT(board_selection_t, policy, window_words_KEY_WORDS);
STANDS_AT(board_selection_t, priority, window_words_KEY_WORDS + 1);
STANDS_AT(board_selection_t, demand.protection, board_words_SELECTION_PROTECTED);
STANDS_AT(board_selection_t, demand.any_budget, board_words_SELECTION_ANY);
STANDS_AT(board_selection_t, has_pass, board_words_MIN_PASS_TAG);
STANDS_AT(board_selection_t, pass_high, board_words_MIN_PASS_HIGH);
STANDS_AT(board_selection_t, pass_low, board_words_MIN_PASS_LOW);

STANDS_AT(board_turns_t, back, board_words_BACK_TURN);
STANDS_AT(board_turns_t, front, board_words_FRONT_TURN);

STANDS_AT(board_run_t, start, lift_record_START);
STANDS_AT(board_run_t, end, lift_record_END);
STANDS_AT(board_run_t, thread, lift_record_THREAD);

/* What crate lift_record stores begins with the number that the entries answer; the place stands behind it. */
STANDS_AT(board_place_t, first, lift_record_FOUND_FIRST - 1);
STANDS_AT(board_place_t, count, lift_record_FOUND_COUNT - 1);
STANDS_AT(board_slid_t, first, lift_record_FOUND_FIRST - 1);
STANDS_AT(board_slid_t, count, lift_record_FOUND_COUNT - 1);
STANDS_AT(board_slid_t, afresh, lift_record_SLID_AFRESH - 1);

/* How many words each has. */
#define FILLS(type, words) typedef char JOINED(fills_, __LINE__)[sizeof(type) == (words) * sizeof(uint64_t) ? 1 : -1]

FILLS(board_queue_t, lent_queue_QUEUE_ROWS * lent_queue_QUEUE_ROW_WORDS);
FILLS(board_path_t, ready_index_MAX_PATH * ready_index_PATH_STEP_WORDS);
FILLS(board_record_t, policy_words_ROW_WORDS);
FILLS(board_candidate_t, policy_words_ROW_WORDS);
FILLS(board_config_t, window_words_CONFIG_WORDS);
FILLS(board_window_t, window_words_WINDOW_WORDS);
FILLS(board_turns_t, board_words_TURN_WORDS);
FILLS(board_key_t, window_words_KEY_WORDS);
FILLS(board_ready_t, window_words_KEY_WORDS);
FILLS(board_demand_t, window_words_DEMAND_WORDS);
FILLS(board_selection_t, board_words_SELECTION_WORDS);
FILLS(board_lengths_t, board_words_LENGTH_WORDS);
FILLS(board_choice_t, board_words_CHOICE_WORDS);
FILLS(board_deadline_t, policy_words_DEADLINE_WORDS);
FILLS(board_run_t, lift_record_RUN_WORDS);
FILLS(uint64_t[BOARD_RUN_WORDS], lift_record_RUN_WORDS);
FILLS(board_place_t, lift_record_FOUND_WORDS - 1);
FILLS(board_slid_t, lift_record_SLID_WORDS - 1);
FILLS(uint64_t, board_words_FLAG_WORDS);

/* An image has the bytes of its words. */
FILLS(uint8_t[BOARD_RECORD_BYTES], policy_words_ROW_WORDS);
FILLS(uint8_t[BOARD_WINDOW_BYTES], window_words_WINDOW_WORDS);
FILLS(uint8_t[BOARD_QUEUE_BYTES], lent_queue_QUEUE_ROWS * lent_queue_QUEUE_ROW_WORDS);
FILLS(uint64_t[BOARD_MOST_RECORDS], rows_MAX_RECORDS);

static int asked, wrong;

static void ask(const char *what, int holds)
{
    asked++;
    if (!holds) {
        wrong++;
        printf("wrong: %s\n", what);
    }
}

static void names(void)
{
    static const char *const due[] = {"Made", "Damaged", "BadState", "Already", "NoThread", "BadConfig", "BadBudget",
                                      "BackInTime", "TurnsSpent", "Halted", "BadTable", "BadRecord", "RecordOrder",
                                      "unknown"};
    for (uint64_t refusal = 0; refusal < sizeof due / sizeof *due; refusal++) {
        ask(due[refusal], strcmp(board_refusal_name(refusal), due[refusal]) == 0);
    }
    ask("a number beyond 32 bits", strcmp(board_refusal_name(UINT64_C(1) << 32), "unknown") == 0);
}

/* Two records or configurations word for word. */
static int same(const void *left, const void *right, uint64_t bytes)
{
    return memcmp(left, right, (size_t)bytes) == 0;
}

enum { SWAY, BRAKE, LOG, IDLE, THREADS };

static const board_record_t in_order[THREADS] = {
    BOARD_BUDGET(2000000, 10000000, 1000000, BOARD_ROLE_PROTECTED),
    BOARD_FIFO(7, BOARD_ROLE_PRIORITY),
    BOARD_FAIR(BOARD_BACKEND_ROUND_ROBIN, 40, 4000000, BOARD_ROLE_ORDINARY),
    BOARD_IDLE,
};

/* What any new record has, and no field but those of its policy is set. */
static void new_record(board_record_t record, uint64_t policy, uint64_t role)
{
    static board_record_t nothing;
    ask("its policy", record.parameters.policy == policy && record.runtime_kind == policy);
    ask("its role", record.parameters.role == role);
    ask("the middle band", record.parameters.band == 128);
    ask("the height of a leaf", record.height == 1);
    memset(&record.parameters, 0, sizeof record.parameters);
    memset(&record.runtime, 0, sizeof record.runtime);
    record.runtime_kind = record.height = 0;
    ask("nothing else", same(&record, &nothing, sizeof record));
}

static void records(void)
{
    const board_parameters_t *sway = &in_order[SWAY].parameters, *log = &in_order[LOG].parameters;
    const board_budget_runtime_t *sway_has = &in_order[SWAY].runtime.budget;
    const board_fair_runtime_t *log_has = &in_order[LOG].runtime.fair;
    new_record(in_order[SWAY], BOARD_POLICY_BUDGET, BOARD_ROLE_PROTECTED);
    new_record(in_order[BRAKE], BOARD_POLICY_FIFO, BOARD_ROLE_PRIORITY);
    new_record(in_order[LOG], BOARD_POLICY_FAIR, BOARD_ROLE_ORDINARY);
    new_record(in_order[IDLE], BOARD_POLICY_IDLE, BOARD_ROLE_ORDINARY);
    ask("a budget", sway->has_budget == 1 && sway->budget_ns == 2000000 && sway->period_ns == 10000000);
    ask("a burst", sway->burst_ns == 1000000);
    ask("a full budget", sway_has->time_left_ns == 2000000 && sway_has->burst_left_ns == 1000000);
    ask("of no period yet", sway_has->has_epoch == 0 && sway_has->epoch == 0);
    ask("a priority", in_order[BRAKE].parameters.priority == 7 && in_order[BRAKE].parameters.has_budget == 0);
    ask("the usual weight", in_order[BRAKE].parameters.weight == 16);
    ask("a backend", log->backend == BOARD_BACKEND_ROUND_ROBIN && log->weight == 40 && log->quantum_ns == 4000000);
    ask("a whole slice", log_has->slice_left_ns == 4000000 && log_has->pass_high == 0 && log_has->pass_low == 0);
}

static void functions(void)
{
    const board_record_t sway = board_budget(2000000, 10000000, 1000000, BOARD_ROLE_PROTECTED);
    const board_record_t brake = board_fifo(7, BOARD_ROLE_PRIORITY);
    const board_record_t log = board_fair(BOARD_BACKEND_ROUND_ROBIN, 40, 4000000, BOARD_ROLE_ORDINARY);
    const board_record_t idle = board_idle();
    ask("board_budget", same(&sway, &in_order[SWAY], sizeof sway));
    ask("board_fifo", same(&brake, &in_order[BRAKE], sizeof brake));
    ask("board_fair", same(&log, &in_order[LOG], sizeof log));
    ask("board_idle", same(&idle, &in_order[IDLE], sizeof idle));
}

static void elsewhere(void)
{
    board_record_t due[THREADS];
    const board_record_t given[THREADS] = {
        BOARD_BUDGET_ON(3, 64, 2000000, 10000000, 1000000, BOARD_ROLE_PROTECTED),
        BOARD_FIFO_ON(3, 64, 7, BOARD_ROLE_PRIORITY),
        BOARD_FAIR_ON(3, 64, BOARD_BACKEND_ROUND_ROBIN, 40, 4000000, BOARD_ROLE_ORDINARY),
        BOARD_IDLE_ON(3),
    };
    memcpy(due, in_order, sizeof due);
    for (int thread = 0; thread < THREADS; thread++) {
        due[thread].cpu = 3;
        due[thread].parameters.band = thread == IDLE ? 128 : 64;
        ask("another processor and band", same(&given[thread], &due[thread], sizeof due[thread]));
    }
}

#ifndef __cplusplus
/* By name, which C++11 has not. */
static const board_record_t by_name[THREADS] = {
    [IDLE] = BOARD_IDLE,
    [BRAKE] = BOARD_FIFO(7, BOARD_ROLE_PRIORITY),
    [LOG] = BOARD_FAIR(BOARD_BACKEND_ROUND_ROBIN, 40, 4000000, BOARD_ROLE_ORDINARY),
    [SWAY] = BOARD_BUDGET(2000000, 10000000, 1000000, BOARD_ROLE_PROTECTED),
};
static const board_config_t named = BOARD_CONFIG(.period_ns = 10000000, .allowance_ns = 2000000, .floor_ns = 3000000);

static void named_parts(void)
{
    const board_config_t config = board_config(10000000, 2000000, 3000000);
    ask("a table by name", same(by_name, in_order, sizeof in_order));
    ask("BOARD_CONFIG", same(&named, &config, sizeof config));
}
#endif

static void others(void)
{
    const board_config_t config = board_config(10000000, 2000000, 3000000);
    const board_turns_t turns = BOARD_TURNS;
    ask("times", config.period_ns == 10000000 && config.allowance_ns == 2000000 && config.floor_ns == 3000000);
    ask("ranks that rise", config.priority_rank < config.budget_rank && config.budget_rank < config.fair_rank
        && config.fair_rank < config.borrow_rank && config.prefer_fair == 0);
    ask("the archive's version", board_version() == BOARD_VERSION);
    ask("turns", turns.back == UINT64_C(1) << 63 && turns.front == UINT64_C(1) << 63);
}

/* ---- choices: each policy, role, backend and mode is what the archive takes for it ---- */

/* How many threads are queued once this one is. */
static board_lengths_t queued(board_record_t record, uint64_t *refusal)
{
    static board_queue_t queue;
    static board_path_t path;
    board_lengths_t lengths;
    board_new(&queue);
    *refusal = board_enqueue(&queue, &record, 1, &path, 0, 0);
    board_lengths(&queue, &lengths);
    return lengths;
}

static void policies(void)
{
    uint64_t refusal;
    board_lengths_t of = queued(board_fifo(1, BOARD_ROLE_ORDINARY), &refusal);
    ask("policy FIFO", of.fifo == 1 && of.fair_and_budget == 0);
    of = queued(board_fair(BOARD_BACKEND_STRIDE, BOARD_USUAL_WEIGHT, 4000000, BOARD_ROLE_ORDINARY), &refusal);
    ask("policy Fair", of.fifo == 0 && of.fair_and_budget == 1 && of.budget == 0);
    of = queued(board_budget(2000000, 10000000, 1000000, BOARD_ROLE_PROTECTED), &refusal);
    ask("policy Budget", of.fifo == 0 && of.fair_and_budget == 1 && of.budget == 1);
    of = queued(board_idle(), &refusal);
    ask("policy Idle", refusal == BOARD_BAD_STATE && of.fifo == 0 && of.fair_and_budget == 0);
}

/* The key of a running thread at 7 ms of a period of 10, when protection is due where the demand asks for it. */
static board_key_t key_of(board_record_t record, uint64_t protection, uint64_t fair)
{
    const board_config_t config = board_config(10000000, 2000000, 3000000);
    const board_demand_t demand = {protection, fair, fair, 0, 1};
    board_window_t window;
    board_candidate_t candidate;
    board_key_t key;
    memset(&candidate, 0, sizeof candidate);
    board_window(&window, &config);
    board_candidate(&record, 1, 0, 1, 7000000, &candidate);
    board_key(&window, 7000000, &candidate, &demand, &key);
    return key;
}

static void roles_and_modes(void)
{
    board_record_t sway = board_budget(2000000, 10000000, 1000000, BOARD_ROLE_PROTECTED);
    board_key_t key = key_of(board_fifo(1, BOARD_ROLE_ORDINARY), 0, 1);
    ask("role Ordinary, mode strict FIFO", key.urgency == 0 && key.mode == BOARD_MODE_STRICT_FIFO);
    key = key_of(board_fifo(1, BOARD_ROLE_PRIORITY), 0, 1);
    ask("role Priority, mode Priority",
        key.urgency == 2 && key.rank == BOARD_USUAL_PRIORITY_RANK && key.mode == BOARD_MODE_PRIORITY);
    key = key_of(sway, 1, 1);
    ask("role and mode Protected", key.urgency == 1 && key.mode == BOARD_MODE_PROTECTED);
    sway.runtime.budget.has_epoch = 1;
    sway.runtime.budget.time_left_ns = 0;
    key = key_of(sway, 0, 0);
    ask("mode Borrow", key.rank == BOARD_USUAL_BORROW_RANK && key.mode == BOARD_MODE_BORROW);
}

static void backends(void)
{
    board_record_t log = board_fair(BOARD_BACKEND_STRIDE, BOARD_USUAL_WEIGHT, 4000000, BOARD_ROLE_ORDINARY);
    board_key_t key;
    log.runtime.fair.pass_low = 5;
    log.turn = 7;
    key = key_of(log, 0, 1);
    ask("backend Stride, mode Ordinary", key.algorithm_low == 5 && key.mode == BOARD_MODE_ORDINARY);
    log.parameters.backend = BOARD_BACKEND_ROUND_ROBIN;
    ask("backend round robin", key_of(log, 0, 1).algorithm_low == 7);
}

/* ---- the lift record: the parts of a run, a place and a slide are what the archive takes and stores ---- */

static const board_run_t runs[] = {{0, 4, 0}, {4, 9, 1}, {10, 10, 2}, {12, 20, 0}};
enum { ITS_RUNS = sizeof runs / sizeof *runs, ITS_WORDS = BOARD_RUN_WORDS * ITS_RUNS };

static void lift_record(void)
{
    const uint64_t *words = (const uint64_t *)runs;
    board_run_t list[ITS_RUNS];
    board_place_t place;
    board_slid_t slid;
    memcpy(list, runs, sizeof list);
    ask("a place", board_lift(words, ITS_WORDS, 10, 5, &place) == BOARD_MADE && place.first == 1 && place.count == 1);
    ask("a slide that goes on", board_slide(words, ITS_WORDS, 5, 10, 1, 1, 15, &slid) == BOARD_MADE && slid.first == 3
        && slid.count == 1 && slid.afresh == 0);
    ask("a slide afresh", board_slide(words, ITS_WORDS, 5, 10, 0, 1, 15, &slid) == BOARD_MADE && slid.afresh == 1);
    ask("a run", board_append((uint64_t *)list, ITS_WORDS, 3, 11, 14, 7) == BOARD_MADE && list[3].start == 11
        && list[3].end == 14 && list[3].thread == 7);
    ask("no room", board_append((uint64_t *)list, ITS_WORDS, ITS_RUNS, 14, 15, 0) == BOARD_BAD_TABLE);
    ask("words that are no runs", board_lift(words, ITS_WORDS - 1, 10, 5, &place) == BOARD_RECORD_ORDER);
}

int main(void)
{
    policies();
    roles_and_modes();
    backends();
    lift_record();
    names();
    records();
    functions();
    elsewhere();
#ifndef __cplusplus
    named_parts();
#endif
    others();
    printf("header: %d asked, %d wrong\n", asked, wrong);
    return wrong != 0;
}
