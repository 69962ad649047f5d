/*
 * How much stack each call of the libraries takes: the call runs in a thread of its own on a stack
 * that was filled with one byte, and the deepest byte that is another one afterwards tells. What
 * the thread itself takes, counted with a call that does nothing, is taken off.
 */
#include <pthread.h>
#include <stdio.h>
#include <stdlib.h>
#include <string.h>

#include "../../clients/c/trigger.h"

#define STACK (1 << 18)
#define PAINT 0xa5

static trigger_card card, row[TRIGGER_RACK];
static trigger_tallies tallies;
static uint8_t reply[TRIGGER_REPLY], store[TRIGGER_LARGE_RECORD], row_store[TRIGGER_RECORD], text[TRIGGER_TEXT];
static size_t record_len;
static const char *given;
static const trigger_input input = {0, 0x0100, 0xffff};
static const trigger_rackinput rack_input = {0, 0x01, 0xff, TRIGGER_RACK, {{0, 0xff}, {0, 0xff}, {0, 0xff}, {0, 0xff}}};

static void nothing(void) {}
static void full_tick(void) { card = trigger_full_tick(card, input).card; }
static void quick_tick(void) { card = trigger_quick_tick(card, input).card; }
static void at_rest(void) { trigger_at_rest(card, input); }
static void steady_for(void) { trigger_steady_for(card, input); }
static void advance(void) { trigger_advance(card, input, 1000); }
static void line(void)
{
    card = trigger_line(card, (const uint8_t *)given, strlen(given), reply, sizeof reply, store, sizeof store).card;
}
static void load(void) { card = trigger_load(card, store, record_len).card; }
static void print(void) { trigger_print(card, text, sizeof text); }
static void convert(void) { trigger_convert(store, record_len, text, sizeof text); }
static void survey(void) { trigger_survey(card, 41); }
static void read_tallies(void) { tallies = trigger_read_tallies(card); }
static void start_row(void) { rack_start(row, TRIGGER_RACK); }
static void tick_row_full(void) { rack_tick(row, TRIGGER_RACK, true, rack_input); }
static void tick_row_quick(void) { rack_tick(row, TRIGGER_RACK, false, rack_input); }
static void line_to_row(void)
{
    rack_line(row, TRIGGER_RACK, 1, (const uint8_t *)given, strlen(given), reply, sizeof reply, row_store,
              sizeof row_store);
}
static void load_to_row(void) { rack_load(row, TRIGGER_RACK, 1, row_store, sizeof row_store); }

static void *run(void *call)
{
    (*(void (**)(void))call)();
    return NULL;
}

static long depth(void (*call)(void))
{
    uint8_t *stack = aligned_alloc(4096, STACK);
    pthread_attr_t attr;
    pthread_t thread;
    long free_bytes = 0;
    if (stack == NULL)
        exit(2);
    memset(stack, PAINT, STACK);
    if (pthread_attr_init(&attr) || pthread_attr_setstack(&attr, stack, STACK) ||
        pthread_create(&thread, &attr, run, &call) || pthread_join(thread, NULL))
        exit(2);
    while (free_bytes < STACK && stack[free_bytes] == PAINT)
        free_bytes++;
    pthread_attr_destroy(&attr);
    free(stack);
    return STACK - free_bytes;
}

static void wire(const char *lines[], void (*function)(void))
{
    for (; *lines != NULL; lines++) {
        given = *lines;
        function();
        if (reply[1] != 'A')
            exit(3);
    }
}

/*
 * The card that is measured: a preset of sixteen cells, one of connectors, and a timer; and a row
 * whose first card has that preset of cells.
 */
static void prepare(int large)
{
    const char *lines[] = {"36CCA X=4", "36CCA X=19", "M E=1", "36CCA Y=14", "36CCB X=41 Y=192", "36SS Z", NULL};
    const char *row_lines[] = {"36CCA X=4", "36SS Z", NULL};
    card = large ? trigger_fresh_large() : trigger_fresh();
    record_len = large ? TRIGGER_LARGE_RECORD : TRIGGER_RECORD;
    wire(lines, line);
    for (size_t i = 0; i < TRIGGER_RACK; i++)
        row[i] = trigger_fresh();
    start_row();
    wire(row_lines, line_to_row);
}

static long call(const char *text_of_line, void (*function)(void), int large)
{
    prepare(large);
    given = text_of_line;
    return depth(function) - depth(nothing);
}

int main(void)
{
    static const struct {
        const char *name, *line;
        void (*function)(void);
    } calls[] = {
        {"full tick", NULL, full_tick},
        {"quick tick", NULL, quick_tick},
        {"at rest", NULL, at_rest},
        {"steady for", NULL, steady_for},
        {"advance", NULL, advance},
        {"a line: M E=2", "M E=2", line},
        {"a line: 36CCB X=41 Y=192", "36CCB X=41 Y=192", line},
        {"a line: HOME E", "HOME E", line},
        {"a line: 36CCA X=4 (preset)", "36CCA X=4", line},
        {"a line: 36SS Z", "36SS Z", line},
        {"load", NULL, load},
        {"print", NULL, print},
        {"convert", NULL, convert},
        {"survey", NULL, survey},
        {"read the tallies", NULL, read_tallies},
        {"rack of four: start", NULL, start_row},
        {"rack of four: full tick", NULL, tick_row_full},
        {"rack of four: quick tick", NULL, tick_row_quick},
        {"rack of four: M E=2", "M E=2", line_to_row},
        {"rack of four: 36CCA X=4 (preset)", "36CCA X=4", line_to_row},
        {"rack of four: 36SS Z", "36SS Z", line_to_row},
        {"rack of four: load", NULL, load_to_row},
    };
    printf("%-34s %8s %8s\n", "call", "16 cells", "32 cells");
    for (size_t i = 0; i < sizeof calls / sizeof calls[0]; i++)
        printf("%-34s %8ld %8ld\n", calls[i].name, call(calls[i].line, calls[i].function, 0),
               call(calls[i].line, calls[i].function, 1));
    return 0;
}
