/* Faults between the program fuzz and the library, to see that it notices them: built with -DPLANT=N and the linker's
   --wrap of the entry that has the fault. */
#include <stdbool.h>

#include "board.h"

/* How many calls a fault comes after. */
enum { SELDOM = 1024, AT_TIMES = 64 };

static unsigned number;

#if PLANT == 1
/* One word behind the answer is written at times. */
uint64_t __real_board_switch(const board_ready_t *, const board_key_t *, const board_candidate_t *, uint64_t, uint64_t,
                             uint64_t, board_choice_t *);
uint64_t __wrap_board_switch(const board_ready_t *ready, const board_key_t *key, const board_candidate_t *current,
                             uint64_t expired, uint64_t yielding, uint64_t tail, board_choice_t *choice);
uint64_t __wrap_board_switch(const board_ready_t *ready, const board_key_t *key, const board_candidate_t *current,
                             uint64_t expired, uint64_t yielding, uint64_t tail, board_choice_t *choice)
{
    uint64_t got = __real_board_switch(ready, key, current, expired, yielding, tail, choice);
    if (++number % SELDOM == 0) {
        uint64_t *behind = (uint64_t *)(void *)(choice + 1);
        *behind = 1;
    }
    return got;
}
#elif PLANT == 7
/* A spare word of a root's row is changed at times, though the call was made. */
enum { A_ROOT = 260, ITS_LAST_WORD = BOARD_QUEUE_ROW_WORDS - 1 };

uint64_t __real_board_enqueue(board_queue_t *, board_record_t *, uint64_t, board_path_t *, uint64_t, uint8_t);
uint64_t __wrap_board_enqueue(board_queue_t *queue, board_record_t *table, uint64_t count, board_path_t *path,
                              uint64_t thread, uint8_t cpu);
uint64_t __wrap_board_enqueue(board_queue_t *queue, board_record_t *table, uint64_t count, board_path_t *path,
                              uint64_t thread, uint8_t cpu)
{
    uint64_t got = __real_board_enqueue(queue, table, count, path, thread, cpu);
    if (got == BOARD_MADE && ++number % AT_TIMES == 0) {
        queue->rows[A_ROOT][ITS_LAST_WORD] += 1;
    }
    return got;
}
#elif PLANT == 8
/* At each selection that is made an absent link with a number beside it becomes 0, 0, in any record. */
uint64_t __real_board_select(board_queue_t *, board_record_t *, uint64_t, board_path_t *, uint8_t, uint64_t,
                             board_window_t *, uint64_t, const board_candidate_t *, board_selection_t *);
uint64_t __wrap_board_select(board_queue_t *queue, board_record_t *table, uint64_t count, board_path_t *path,
                             uint8_t cpu, uint64_t now_ns, board_window_t *window, uint64_t running,
                             const board_candidate_t *current, board_selection_t *selection);
uint64_t __wrap_board_select(board_queue_t *queue, board_record_t *table, uint64_t count, board_path_t *path,
                             uint8_t cpu, uint64_t now_ns, board_window_t *window, uint64_t running,
                             const board_candidate_t *current, board_selection_t *selection)
{
    uint64_t got = __real_board_select(queue, table, count, path, cpu, now_ns, window, running, current, selection);
    for (uint64_t thread = 0; got == BOARD_MADE && thread < count; thread++) {
        number++;
        if (table[thread].left.is_set == 0) {
            table[thread].left.thread = 0;
        }
    }
    return got;
}
#elif PLANT == 9 || PLANT == 10
/* At times the part has the run before it too (PLANT 9), or a refusal leaves the place as it was (10). */
uint64_t __real_board_lift(const uint64_t *, uint64_t, uint64_t, uint64_t, board_place_t *);
uint64_t __wrap_board_lift(const uint64_t *list, uint64_t words, uint64_t now_ns, uint64_t width_ns,
                           board_place_t *place);
uint64_t __wrap_board_lift(const uint64_t *list, uint64_t words, uint64_t now_ns, uint64_t width_ns,
                           board_place_t *place)
{
    const board_place_t before = *place;
    uint64_t got = __real_board_lift(list, words, now_ns, width_ns, place);
    bool concerned = PLANT == 9 ? got == BOARD_MADE && place->first != 0 : got != BOARD_MADE;
    if (!concerned || ++number % AT_TIMES != 0) {
        return got;
    }
    if (PLANT == 9) {
        place->first -= 1;
        place->count += 1;
    } else {
        *place = before;
    }
    return got;
}
#elif PLANT == 11
/* At times a slide that searched afresh does not say so. */
uint64_t __real_board_slide(const uint64_t *, uint64_t, uint64_t, uint64_t, uint64_t, uint64_t, uint64_t,
                            board_slid_t *);
uint64_t __wrap_board_slide(const uint64_t *list, uint64_t words, uint64_t width_ns, uint64_t earlier_ns,
                            uint64_t first, uint64_t count, uint64_t now_ns, board_slid_t *slid);
uint64_t __wrap_board_slide(const uint64_t *list, uint64_t words, uint64_t width_ns, uint64_t earlier_ns,
                            uint64_t first, uint64_t count, uint64_t now_ns, board_slid_t *slid)
{
    uint64_t got = __real_board_slide(list, words, width_ns, earlier_ns, first, count, now_ns, slid);
    if (slid->afresh && ++number % AT_TIMES == 0) {
        slid->afresh = 0;
    }
    return got;
}
#elif PLANT == 12
/* At times a run that would stand out of order is refused and stored all the same. */
uint64_t __real_board_append(uint64_t *, uint64_t, uint64_t, uint64_t, uint64_t, uint64_t);
uint64_t __wrap_board_append(uint64_t *list, uint64_t words, uint64_t runs, uint64_t start, uint64_t end,
                             uint64_t thread);
uint64_t __wrap_board_append(uint64_t *list, uint64_t words, uint64_t runs, uint64_t start, uint64_t end,
                             uint64_t thread)
{
    uint64_t got = __real_board_append(list, words, runs, start, end, thread);
    if (got == BOARD_RECORD_ORDER && ++number % AT_TIMES == 0) {
        const board_run_t run = {start, end, thread};
        ((board_run_t *)(void *)list)[runs] = run;
    }
    return got;
}
#else
/* At times it answers a number that there is not (PLANT 2), changes the table though it refuses (3), does not end (4),
   changes another thread's record (5), or a spare word of its own (6), though it was made. */
enum { NO_ANSWER = BOARD_RECORD_ORDER + 1 };

uint64_t __real_board_finish(board_record_t *, uint64_t, uint64_t);
uint64_t __wrap_board_finish(board_record_t *table, uint64_t count, uint64_t thread);
uint64_t __wrap_board_finish(board_record_t *table, uint64_t count, uint64_t thread)
{
    uint64_t got = __real_board_finish(table, count, thread);
    bool refused = got != BOARD_MADE && count != 0;
    bool made = got == BOARD_MADE && count > 1;
    if ((PLANT == 3 && !refused) || (PLANT > 4 && !made) || ++number % AT_TIMES != 0) {
        return got;
    }
    if (PLANT == 3) {
        table[0].spare[1] += 1;
    } else if (PLANT == 5) {
        table[thread == 0].turn += 1;
    } else if (PLANT == 6) {
        table[thread].spare[0] += 1;
    }
    for (volatile int on = PLANT == 4; on;) {
    }
    return PLANT == 2 ? NO_ANSWER : got;
}
#endif
