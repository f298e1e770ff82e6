/* recorded FILE: the list of calls that were recorded beside the unchanged Rust (crates/cases/data/recorded.txt), made
 * again through the entries of board.h, on whatever processor this is built for. A line of the list is a call with the
 * Rust's answer, a word to store, or one number for all words that the calls have left; crates/cases/stdin has the
 * letters. The last line printed is `recorded: N calls, M sums, differs D`, and the exit status is 0 where none
 * differs. Lines that make a budget (`b`) are no call of the header and are counted as left out. */
#include <inttypes.h>
#include <stdio.h>
#include <stdlib.h>
#include <string.h>

#include "board.h"

/* The list stands in blocks of so many bytes, and starts anew with each. */
enum { BLOCK = 65536, MOST_NUMBERS = 6, WORDS = 32, TABLE = BOARD_MOST_RECORDS + 1 };

/* Rows that stand for what a call is handed beside table and queue. */
enum { CURRENT, TURNS, DEMAND, KEY, READY, DUE, SELECTION, WINDOW, SCRATCH };

/* A new case has nine records: those that the table has from row 4,000 on come to its front. */
enum { KEPT = 4000, NEW_COUNT = 9 };

static uint64_t rows[TABLE][WORDS];
static uint64_t scratch[SCRATCH][WORDS];
static uint64_t count;
static board_queue_t queue;
static board_path_t path;

static uint64_t calls, sums, left_out, differs;
static uint64_t line_number;

static void new_case(void)
{
    static const uint64_t window[] = {10, 2, 3, 0, 1, 2, 3, 0, 0, 0, 2, 3};
    board_new(&queue);
    memmove(rows[0], rows[KEPT], (TABLE - KEPT) * sizeof rows[0]);
    memcpy(scratch[WINDOW], window, sizeof window);
    count = NEW_COUNT;
}

static uint64_t with_words(uint64_t sum, const uint64_t *words, uint64_t many)
{
    const uint64_t prime = 2147483647, weight = 1000003;
    for (uint64_t k = 0; k < many; k++) {
        sum = (sum % prime * weight + words[k] % prime) % prime;
    }
    return sum;
}

/* One number for the case's records, the scratch and the queue. */
static uint64_t sum_of_all(void)
{
    uint64_t sum = with_words(0, rows[0], count * WORDS);
    sum = with_words(sum, scratch[0], SCRATCH * WORDS);
    return with_words(sum, (const uint64_t *)(const void *)&queue, sizeof queue / sizeof(uint64_t));
}

static uint64_t queue_call(char letter, const uint64_t *a)
{
    uint8_t cpu = (uint8_t)(a[1] % 256);
    switch (letter) {
    case 'e': return board_enqueue(&queue, (void *)rows, count, &path, a[0], cpu);
    case 'f': return board_enqueue_front(&queue, (void *)rows, count, &path, a[0], cpu);
    default: return board_remove(&queue, (void *)rows, count, &path, a[0], cpu);
    }
}

static uint64_t selected(const uint64_t *a)
{
    return board_select(&queue, (void *)rows, count, &path, (uint8_t)(a[2] % 256), a[0], (void *)scratch[WINDOW], a[1],
                        (void *)scratch[CURRENT], (void *)scratch[SELECTION]);
}

/* 0: stay; 1: switch; 3: switch, and the running thread goes to the front. */
static uint64_t chosen(const uint64_t *a)
{
    static uint64_t none[WORDS];
    uint64_t choice[2] = {0, 0};
    uint64_t *row = a[0] < TABLE ? rows[a[0]] : none;
    board_switch((void *)scratch[READY], (void *)scratch[KEY], (void *)row, a[1], a[2], a[3], (void *)choice);
    return choice[0] == 0 ? 0 : choice[1] == 0 ? 1 : 3;
}

static uint64_t deadline(const uint64_t *a)
{
    return board_deadline((void *)rows, count, a[0], a[1], (void *)scratch[KEY], (void *)scratch[WINDOW], a[2], a[3],
                          a[4], (void *)scratch[DEMAND], (void *)scratch[DUE]);
}

static uint64_t called(char letter, const uint64_t *a)
{
    calls++;
    switch (letter) {
    case 'P': return selected(a);
    case 'p': return board_prepare((void *)rows, count, a[0], a[1], a[2], (void *)scratch[TURNS]);
    case 'a': return board_account((void *)rows, count, a[0], (void *)scratch[WINDOW], a[1], a[2], a[3]);
    case 'o': return board_finish((void *)rows, count, a[0]);
    case 'h': return chosen(a);
    case 'd': return deadline(a);
    case 'm': return board_key((void *)scratch[WINDOW], a[0], (void *)scratch[CURRENT], (void *)scratch[DEMAND],
                               (void *)scratch[KEY]);
    default: return queue_call(letter, a);
    }
}

/* The words to store, and the number of records. Whether the line is one of these. */
static int stored(char letter, const uint64_t *a)
{
    switch (letter) {
    case 'N': count = a[0] < TABLE ? a[0] : TABLE; return 1;
    case 'W': scratch[WINDOW][a[0] % WORDS] = a[1]; return 1;
    case 'X': scratch[a[0] % SCRATCH][a[1] % WORDS] = a[2]; return 1;
    case 'T': rows[a[0] % TABLE][a[1] % WORDS] = a[2]; return 1;
    case 'Q': queue.rows[a[0] % BOARD_QUEUE_ROWS][a[1] % BOARD_QUEUE_ROW_WORDS] = a[2]; return 1;
    default: return 0;
    }
}

static void judge(uint64_t got, uint64_t said)
{
    if (got == said) {
        return;
    }
    differs++;
    if (differs <= 10) {
        printf("line %" PRIu64 ": answered %" PRIu64 ", the Rust %" PRIu64 "\n", line_number, got, said);
    }
}

/* A line's letter and numbers; the last of these is the answer that is said. */
static void line(char *text)
{
    uint64_t a[MOST_NUMBERS] = {0};
    int many = 0;
    char *at = text + 1;
    line_number++;
    if (*text == '#' || *text == 0) {
        return;
    }
    if (*text == '=') {
        new_case();
        return;
    }
    while (many < MOST_NUMBERS && *at == ' ') {
        a[many++] = strtoull(at, &at, 10);
    }
    if (many == 0 || *at != 0 || strchr("NWXTQCbeframodhpP", *text) == NULL) {
        printf("line %" PRIu64 " is no line of a list: %s\n", line_number, text);
        differs++;
    } else if (*text == 'C') {
        sums++;
        judge(sum_of_all(), a[0]);
    } else if (*text == 'b') {
        left_out++;
    } else if (!stored(*text, a)) {
        judge(called(*text, a), a[many - 1]);
    }
}

static void block(char *text)
{
    memset(rows, 0, sizeof rows);
    memset(scratch, 0, sizeof scratch);
    for (char *next; text != NULL && *text != 0; text = next) {
        next = strchr(text, '\n');
        if (next != NULL) {
            *next++ = 0;
        }
        line(text);
    }
}

int main(int argc, char **argv)
{
    static char text[BLOCK + 1];
    FILE *file = argc == 2 ? fopen(argv[1], "rb") : NULL;
    if (file == NULL) {
        fprintf(stderr, "usage: recorded FILE (a list of calls that can be read)\n");
        return 2;
    }
    for (size_t many; (many = fread(text, 1, BLOCK, file)) > 0;) {
        text[many] = 0;
        block(text);
    }
    fclose(file);
    printf("recorded: %" PRIu64 " calls, %" PRIu64 " sums, %" PRIu64 " left out, differs %" PRIu64 "\n", calls, sums,
           left_out, differs);
    return differs != 0 || calls == 0;
}
