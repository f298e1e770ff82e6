/* A lift record: runs are recorded as they end, a screen asks which of them lie in the stretch before a reading, and
   moves that stretch on. Then a list that grows between two readings, and what is refused. */
#include <inttypes.h>
#include <stdio.h>

#include "board.h"

enum { ROOM = 6 };

/* The runs, and how many there are so far. */
static board_run_t list[ROOM];
static uint64_t runs;

/* The calls take words: those of the whole room, and those of the runs so far. */
static uint64_t *words(void) { return (uint64_t *)list; }
static uint64_t room_words(void) { return BOARD_RUN_WORDS * ROOM; }
static uint64_t run_words(void) { return BOARD_RUN_WORDS * runs; }

static void say(const char *what, uint64_t answer)
{
    printf("%s: %" PRIu64 " %s\n", what, answer, board_refusal_name(answer));
}

static void record(uint64_t start, uint64_t end, uint64_t thread)
{
    uint64_t answer = board_append(words(), room_words(), runs, start, end, thread);
    printf("run %" PRIu64 ", %" PRIu64 " to %" PRIu64 " of thread %" PRIu64 ": %" PRIu64 " %s\n", runs, start, end,
           thread, answer, board_refusal_name(answer));
    if (answer == BOARD_MADE) {
        runs++;
    }
}

/* A place, and the runs of the part, which stand in the list itself. */
static void say_part(uint64_t first, uint64_t count)
{
    const board_run_t *part = list + first;
    printf("first %" PRIu64 ", count %" PRIu64 ":", first, count);
    for (uint64_t i = 0; i < count; i++) {
        printf(" %" PRIu64 "-%" PRIu64 " of %" PRIu64, part[i].start, part[i].end, part[i].thread);
    }
    puts(count == 0 ? " none" : "");
}

/* By both searches: the second takes the order of all runs from board_append, and looks at few of them. */
static board_place_t search(uint64_t now_ns, uint64_t width_ns)
{
    board_place_t place, again;
    uint64_t answer = board_lift(words(), run_words(), now_ns, width_ns, &place);
    uint64_t quick = board_lift_from(words(), run_words(), runs, now_ns, width_ns, &again);
    printf("at %" PRIu64 ", width %" PRIu64 ": ", now_ns, width_ns);
    say_part(place.first, place.count);
    if (answer != quick || place.first != again.first || place.count != again.count) {
        puts("but board_lift_from answers something else");
    }
    return place;
}

static void slide(uint64_t width_ns, uint64_t earlier_ns, uint64_t first, uint64_t count, uint64_t now_ns)
{
    board_slid_t slid;
    uint64_t answer = board_slide(words(), run_words(), width_ns, earlier_ns, first, count, now_ns, &slid);
    printf("from %" PRIu64 " with %" PRIu64 ", %" PRIu64 " to %" PRIu64 ": %s, ", earlier_ns, first, count, now_ns,
           answer != BOARD_MADE ? board_refusal_name(answer) : slid.afresh ? "afresh" : "moved on");
    say_part(slid.first, slid.count);
}

static void record_lift(void)
{
    puts("recording");
    record(0, 4, 0);
    record(4, 9, 1);
    record(10, 9, 2);
    record(8, 10, 2);
    record(10, 10, 2);
    record(12, 20, 0);
    record(20, 20, 1);
    record(25, 30, 2);
    record(30, 31, 0);
}

/* Both edges are left out: a run that ends where the stretch begins, and one that starts at the reading. */
static void search_lift(void)
{
    puts("searching");
    search(15, 6);
    search(20, 20);
    search(20, 0);
    search(15, 0);
    search(10, 0);
    search(0, 5);
    search(24, 3);
    search(40, 5);
    search(30, 8);
}

static void slide_lift(void)
{
    puts("sliding, width 6");
    slide(6, 15, 2, 2, 24);
    slide(6, 15, 2, 2, 15);
    slide(6, 15, 2, 2, 100);
    slide(6, 15, 2, 2, 14);
    slide(6, 15, 2, 1, 24);
    slide(6, 15, UINT64_MAX, 0, 24);
    slide(6, 15, UINT64_MAX, UINT64_MAX, 24);
}

/* A run is recorded at its end. The one that went on at 6 was not in the list then; once it is, it belongs to the part
   at 6 too, so that the place from before is no longer that of 6. */
static void grow(void)
{
    puts("a list that grows");
    runs = 0;
    record(0, 4, 0);
    board_place_t place = search(6, 10);
    record(4, 9, 1);
    slide(10, 6, place.first, place.count, 10);
}

/* The second run starts before the first has ended. */
static const uint64_t out_of_order[] = {0, 4, 0, 3, 9, 1};
enum { ITS_WORDS = sizeof out_of_order / sizeof *out_of_order };

static void say_place(const char *what, uint64_t answer, const board_place_t *place)
{
    printf("%s: %" PRIu64 " %s, place %" PRIu64 ", %" PRIu64 "\n", what, answer, board_refusal_name(answer),
           place->first, place->count);
}

/* A refusal stores zeros, whatever stood there. Runs that are said to be in order are not judged. */
static void refused(void)
{
    board_place_t place = {7, 7}, other = {7, 7}, from = {7, 7};
    board_slid_t slid = {7, 7, 7};
    puts("refused");
    say_place("a word too few", board_lift(words(), run_words() - 1, 6, 10, &place), &place);
    say_place("a start before the end before", board_lift(out_of_order, ITS_WORDS, 6, 10, &other), &other);
    say_place("the same, judged from run 1 on", board_lift_from(out_of_order, ITS_WORDS, 1, 6, 10, &from), &from);
    say_place("the same, said to be in order", board_lift_from(out_of_order, ITS_WORDS, 2, 6, 10, &place), &place);
    say("a slide", board_slide(out_of_order, ITS_WORDS, 10, 6, 0, 1, 10, &slid));
    printf("its answer: %" PRIu64 ", %" PRIu64 ", %" PRIu64 "\n", slid.first, slid.count, slid.afresh);
}

int main(void)
{
    record_lift();
    search_lift();
    slide_lift();
    grow();
    refused();
    return 0;
}
