/*
 * How much stack each call takes: it runs on a stack of its own that was filled with one byte, and
 * the deepest byte that is another one afterwards tells. What the way there takes, counted with a
 * call that does nothing, is taken off.
 */
#include "bare/bare.h"
#include "trigger.h"

#define STACK 32768
#define PAINT 0xa5

static _Alignas(16) uint8_t stack[STACK];
static trigger_card card;
static trigger_answer answer;
static trigger_surveyed surveyed;
static trigger_tallies tallies;
static trigger_card row[TRIGGER_RACK];
static trigger_rackticked ticked;
static uint8_t reply[TRIGGER_REPLY], store[TRIGGER_LARGE_RECORD], row_store[TRIGGER_RECORD], text[TRIGGER_TEXT];
static size_t record_len, len;
static const char *given;
static const trigger_input input = {0, 0x0100, 0xffff};
static const trigger_rackinput rack_input = {0, 0x01, 0xff, TRIGGER_RACK, {{0, 0xff}, {0, 0xff}, {0, 0xff}, {0, 0xff}}};

static void nothing(void) {}
static void full_tick(void) { trigger_full_tick_at(&card, &input, &answer); }
static void quick_tick(void) { trigger_quick_tick_at(&card, &input, &answer); }
static void at_rest(void) { trigger_at_rest_at(&card, &input); }
static void steady_for(void) { trigger_steady_for_at(&card, &input); }
static void advance(void) { trigger_advance_at(&card, &input, 1000, &answer); }
static void line(void)
{
    trigger_line_at(&card, (const uint8_t *)given, length(given), reply, sizeof reply, store, sizeof store, &len);
}
static void load(void) { trigger_load_at(&card, store, record_len); }
static void print(void) { trigger_print_at(&card, text, sizeof text, &len); }
static void convert(void) { trigger_convert_at(store, record_len, text, sizeof text, &len); }
static void survey(void) { trigger_survey_at(&card, TRIGGER_TTL0, &surveyed); }
static void read_tallies(void) { trigger_read_tallies_at(&card, &tallies); }
static void start_row(void) { rack_start_at(row, TRIGGER_RACK); }
static void tick_row_full(void) { rack_tick_at(row, TRIGGER_RACK, true, &rack_input, &ticked); }
static void tick_row_quick(void) { rack_tick_at(row, TRIGGER_RACK, false, &rack_input, &ticked); }
static void line_to_row(void)
{
    rack_line_at(row, TRIGGER_RACK, 1, (const uint8_t *)given, length(given), reply, sizeof reply, row_store,
                 sizeof row_store, &len);
}
static void load_to_row(void) { rack_load_at(row, TRIGGER_RACK, 1, row_store, sizeof row_store); }

static uint32_t depth(void (*call)(void))
{
    size_t clean = 0;
    for (size_t i = 0; i < STACK; i++)
        stack[i] = PAINT;
    call_on(call, stack + STACK);
    while (clean < STACK && stack[clean] == PAINT)
        clean++;
    if (clean == 0) {
        put_text("the stack was too small\n");
        stop(1);
    }
    return (uint32_t)(STACK - clean);
}

/* A line that must be obeyed. */
static void wire(const char *text_of_line, void (*function)(void))
{
    given = text_of_line;
    function();
    if (reply[1] != 'A') {
        put_text("a line was refused\n");
        stop(1);
    }
}

/*
 * The card that is measured: a preset of sixteen cells, one of connectors, a timer, and its record
 * in the store. The first card of the row has the same preset.
 */
static void prepare(bool large)
{
    static const char *const lines[] = {"36CCA X=4", "36CCA X=19", "M E=1", "36CCA Y=14", "36CCB X=41 Y=192", "36SS Z"};
    (large ? trigger_fresh_large_at : trigger_fresh_at)(&card);
    record_len = large ? TRIGGER_LARGE_RECORD : TRIGGER_RECORD;
    for (size_t i = 0; i < TRIGGER_RACK; i++)
        trigger_fresh_at(&row[i]);
    start_row();
    wire("36CCA X=4", line_to_row);
    wire("36SS Z", line_to_row);
    for (size_t i = 0; i < sizeof lines / sizeof lines[0]; i++)
        wire(lines[i], line);
}

static uint32_t call(const char *text_of_line, void (*function)(void), bool large)
{
    prepare(large);
    given = text_of_line;
    return depth(function) - depth(nothing);
}

int main(int argc, char **argv)
{
    static const struct {
        const char *name, *line;
        void (*function)(void);
    } calls[] = {
        {"full tick", NULL, full_tick},
        {"quick tick", NULL, quick_tick},
        {"at rest", NULL, at_rest},
        {"steady for", NULL, steady_for},
        {"advance", NULL, advance},
        {"a line: M E=2", "M E=2", line},
        {"a line: 36CCB X=41 Y=192", "36CCB X=41 Y=192", line},
        {"a line: HOME E", "HOME E", line},
        {"a line: 36CCA X=4 (preset)", "36CCA X=4", line},
        {"a line: 36SS Z", "36SS Z", line},
        {"load", NULL, load},
        {"print", NULL, print},
        {"convert", NULL, convert},
        {"survey", NULL, survey},
        {"read the tallies", NULL, read_tallies},
        {"rack of four: start", NULL, start_row},
        {"rack of four: full tick", NULL, tick_row_full},
        {"rack of four: quick tick", NULL, tick_row_quick},
        {"rack of four: M E=2", "M E=2", line_to_row},
        {"rack of four: 36CCA X=4 (preset)", "36CCA X=4", line_to_row},
        {"rack of four: 36SS Z", "36SS Z", line_to_row},
        {"rack of four: load", NULL, load_to_row},
    };
    (void)argc, (void)argv;
    for (size_t i = 0; i < sizeof calls / sizeof calls[0]; i++) {
        put_text(calls[i].name);
        put_text("\t");
        put_decimal(call(calls[i].line, calls[i].function, false), 0);
        put_text("\t");
        put_decimal(call(calls[i].line, calls[i].function, true), 0);
        put_text("\n");
    }
    return 0;
}
