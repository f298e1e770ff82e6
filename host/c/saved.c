/* A table saved as bytes and loaded into another, and each refusal of a load and a store; then a record, a window and a
   queue. */
#include <inttypes.h>
#include <stddef.h>
#include <stdio.h>
#include <string.h>

#include "board.h"

enum { THREADS = 3, LAST = THREADS - 1 };

static board_record_t table[THREADS], other[THREADS], large[BOARD_MOST_RECORDS + 1];
static uint8_t bytes[BOARD_RECORD_BYTES * THREADS], large_bytes[BOARD_RECORD_BYTES * (BOARD_MOST_RECORDS + 1)];

/* The bytes of the last record. */
static uint8_t *const last_bytes = bytes + LAST * BOARD_RECORD_BYTES;

static void say(const char *what, uint64_t answer)
{
    printf("%s: %" PRIu64 "\n", what, answer);
}

static void fill(void)
{
    for (uint64_t thread = 0; thread < THREADS; thread++) {
        table[thread] = board_fair(BOARD_BACKEND_STRIDE, 16 + 256 * thread, 4000000, BOARD_ROLE_ORDINARY);
        table[thread].turn = BOARD_TURNS_START + thread;
    }
}

static void of_table(void)
{
    const uint8_t *weight = last_bytes + offsetof(board_record_t, parameters.weight);
    say("table stored", image_store_table(table, THREADS, bytes, sizeof bytes));
    printf("weight of the last: bytes %d and %d\n", weight[0], weight[1]);
    say("table loaded", image_load_table(bytes, sizeof bytes, other, THREADS));
    printf("the same: %s\n", memcmp(table, other, sizeof table) == 0 ? "yes" : "no");
}

static void of_table_refused(void)
{
    uint8_t before[sizeof bytes];
    memcpy(before, bytes, sizeof bytes);
    say("a byte too few", image_load_table(bytes, sizeof bytes - 1, other, THREADS));
    say("bytes for a record more", image_store_table(table, THREADS - 1, bytes, sizeof bytes));
    say("4,097 records", image_load_table(large_bytes, sizeof large_bytes, large, BOARD_MOST_RECORDS + 1));
    table[LAST].parameters.role = BOARD_ROLE_PROTECTED + 1;
    say("a role that there is not", image_store_table(table, THREADS, bytes, sizeof bytes));
    printf("bytes as they were: %s\n", memcmp(before, bytes, sizeof bytes) == 0 ? "yes" : "no");
    last_bytes[offsetof(board_record_t, spare)] = 1;
    memset(other, 0, sizeof other);
    say("a spare word that is used", image_load_table(bytes, sizeof bytes, other, THREADS));
    printf("first record as it was: %s\n", other[0].parameters.policy == 0 ? "yes" : "no");
}

static void of_others(void)
{
    static board_queue_t queue;
    static board_window_t window;
    static uint8_t of_queue[BOARD_QUEUE_BYTES], of_window[BOARD_WINDOW_BYTES];
    say("record loaded", image_load_record(bytes, BOARD_RECORD_BYTES, &other[0]));
    say("record stored", image_store_record(&other[0], bytes, BOARD_RECORD_BYTES));
    other[0].parameters.band = 256;
    say("a band of 256", image_store_record(&other[0], bytes, BOARD_RECORD_BYTES));
    say("window without a period", image_load_window(of_window, sizeof of_window, &window));
    window.config.prefer_fair = 2;
    say("a flag of 2", image_store_window(&window, of_window, sizeof of_window));
    say("queue stored", image_store_queue(&queue, of_queue, sizeof of_queue));
    of_queue[sizeof(uint64_t)] = 5;
    say("an empty list with a head", image_load_queue(of_queue, sizeof of_queue, &queue));
    say("a queue's bytes for a window", image_load_window(of_queue, sizeof of_queue, &window));
}

int main(void)
{
    fill();
    of_table();
    of_table_refused();
    of_others();
    return 0;
}
