/*
 * The constants of the header held to the library: the last of each range is taken and the next
 * refused, and each refusal that a line, a load, a print or a rack can meet comes with its name. It
 * prints what is not as the header says, and nothing else.
 */
#include <stdio.h>
#include <string.h>

#include "trigger.h"

static int faults;
static trigger_card card;

static void must(bool holds, const char *what)
{
    if (!holds) {
        puts(what);
        faults++;
    }
}

static int line(const char *text)
{
    uint8_t reply[TRIGGER_REPLY], store[TRIGGER_LARGE_RECORD];
    trigger_answered a =
        trigger_line(card, (const uint8_t *)text, strlen(text), reply, sizeof reply, store, sizeof store);
    card = a.card;
    return a.k;
}

/* The number of the refusal of a command that ends in a number. */
static int with(const char *command, int number)
{
    char text[40];
    snprintf(text, sizeof text, "%s%d", command, number);
    return line(text);
}

/* A range from its first number to its last one. */
static void range(const char *command, int first, int last, int refusal)
{
    must(with(command, first) == 0 && with(command, last) == 0, command);
    must(with(command, last + 1) == refusal, command);
}

/*
 * Each type by what it has: a slot F, a configuration of this size, a state of this size; none is
 * -1.
 */
static void type(int kind, bool f, long long configuration, long long state)
{
    char text[40];
    must(with("36CCA Y=", kind) == 0 && card.cells[0].kind == kind, "a type");
    must((line("36CCB F=0") == 0) == f, "its last slot");
    snprintf(text, sizeof text, "36CCA Z=%lld", configuration);
    must(configuration < 0 ? line("36CCA Z=0") == TRIGGER_REFUSED_CONFIGURATION : line(text) == 0, "its configuration");
    snprintf(text, sizeof text, "36CCA F=%lld", state);
    must(state < 0 ? line("36CCA F=0") == TRIGGER_REFUSED_STATE : line(text) == 0, "its state");
}

static void types(void)
{
    const long long longest = UINT32_MAX, count = 65535;
    line("M E=1");
    type(TRIGGER_CONSTANT, false, 1, -1);
    type(TRIGGER_D_FLOP, true, -1, 1);
    type(TRIGGER_LOOKUP2, false, 15, -1);
    type(TRIGGER_LOOKUP3, false, 255, -1);
    type(TRIGGER_LOOKUP4, true, 65535, -1);
    type(TRIGGER_AND2, false, -1, -1);
    type(TRIGGER_OR2, false, -1, -1);
    type(TRIGGER_XOR2, false, -1, -1);
    type(TRIGGER_ONE_SHOT_RETRIGGERABLE, false, longest, longest);
    type(TRIGGER_DELAY_RETRIGGERABLE, false, longest, longest);
    type(TRIGGER_AND4, true, -1, -1);
    type(TRIGGER_OR4, true, -1, -1);
    type(TRIGGER_SYNC_D_FLOP, true, -1, 1);
    type(TRIGGER_JK_FLOP, false, -1, 1);
    type(TRIGGER_ONE_SHOT, false, longest, longest);
    type(TRIGGER_DELAY, false, longest, longest);
    type(TRIGGER_ONE_SHOT_TWO_TRIGGERS, true, longest, longest);
    type(TRIGGER_DELAY_TWO_TRIGGERS, true, longest, longest);
    type(TRIGGER_D_FLOP_TWO_RESETS, true, -1, 1);
    type(TRIGGER_COUNTER_AND, true, -1, count);
    type(TRIGGER_COUNTER_OR, true, -1, count);
    type(TRIGGER_COUNTER_START_STOP, true, -1, count);
    type(TRIGGER_COUNTER_START_AT_ZERO, true, -1, count);
}

static void ranges(void)
{
    range("36CCA Y=", TRIGGER_CONSTANT, TRIGGER_LAST_TYPE, TRIGGER_REFUSED_TYPE);
    range("36CCA X=", 0, TRIGGER_LAST_PRESET, TRIGGER_REFUSED_PRESET);
    range("M E=", TRIGGER_BNC1, TRIGGER_CONNECTORS_END - 1, TRIGGER_REFUSED_PLACE);
    range("M E=", TRIGGER_CELL1, TRIGGER_SMALL, TRIGGER_REFUSED_PLACE);
    must(with("M E=", TRIGGER_TTL0) == 0, "TTL0");
    range("36CCA Y=", TRIGGER_INPUT, TRIGGER_PUSH_PULL, TRIGGER_REFUSED_TYPE);
    for (int kind = TRIGGER_INPUT; kind <= TRIGGER_PUSH_PULL; kind++)
        must(with("36CCA Y=", kind) == 0 && trigger_connector_type(&card, TRIGGER_TTL0 - TRIGGER_BNC1) == kind,
             "a connector's type");
    must(with("36CCA Z=", TRIGGER_HIGH) == 0 && with("36CCA Z=", TRIGGER_NEVER) == 0 &&
             with("36CCA Z=", TRIGGER_EACH_TICK) == 0,
         "addresses without a base");
    must(with("36CCA Z=", TRIGGER_CONNECTORS_END - 1 + TRIGGER_FALL) == 0, "the last address");
    must(with("36CCA Z=", TRIGGER_CONNECTORS_END + TRIGGER_FALL) == TRIGGER_REFUSED_ADDRESS, "one after it");
    line("M E=33");
    must(line("36CCA Y=0") == 0, "BNC1 an input");
    range("PM E=", 0, TRIGGER_LAST_SOURCE, TRIGGER_REFUSED_TYPE);
}

static void refusals(void)
{
    uint8_t none[1] = {0};
    must(with("36CCA Y=", TRIGGER_PUSH_PULL) == TRIGGER_REFUSED_BNC1, "13");
    must(with("PM E=", TRIGGER_SOURCE_BNC1 - 1) == 0 && with("36CCA Y=", TRIGGER_PUSH_PULL) == 0, "another source");
    must(trigger_line(card, none, 0, none, 0, none, 0).k == TRIGGER_REFUSED_ROOM, "1");
    must(line("no line") == TRIGGER_REFUSED_FORM, "2");
    must(line("35CCA Y=1") == TRIGGER_REFUSED_CARD, "3");
    must(line("M E=4294967296") == TRIGGER_REFUSED_NUMBER, "4");
    must(line("36CCB X=1") == TRIGGER_REFUSED_AT_CONNECTOR, "6");
    line("M E=1");
    with("36CCA Y=", TRIGGER_CONSTANT);
    must(line("36CCB X=1") == TRIGGER_REFUSED_SLOT, "10");
    must(trigger_load(card, none, 0).k == TRIGGER_REFUSED_RECORD, "14");
    must(trigger_print(card, none, 0).k == TRIGGER_REFUSED_TEXT, "16");
}

/* A line to the first card of a row. */
static int line_to(trigger_card *row, size_t row_len, const char *text)
{
    uint8_t reply[TRIGGER_REPLY], store[1];
    return rack_line(row, row_len, 1, (const uint8_t *)text, strlen(text), reply, sizeof reply, store, 0).k;
}

/*
 * A rack has up to TRIGGER_RACK cards. With four, each may have four push-pull front connectors and
 * none a fifth.
 */
static void racks(void)
{
    trigger_card row[TRIGGER_RACK + 1];
    char text[40];
    for (size_t i = 0; i <= TRIGGER_RACK; i++)
        row[i] = trigger_fresh();
    must(rack_start(row, 0) == TRIGGER_REFUSED_RACK && rack_start(row, TRIGGER_RACK + 1) == TRIGGER_REFUSED_RACK, "20");
    must(rack_start(row, 1) == 0 && rack_start(row, TRIGGER_RACK) == 0, "a rack");
    for (int i = 0; i <= 4; i++) {
        snprintf(text, sizeof text, "M E=%d", TRIGGER_BNC1 + i);
        must(line_to(row, TRIGGER_RACK, text) == 0, "a front connector");
        snprintf(text, sizeof text, "36CCA Y=%d", TRIGGER_PUSH_PULL);
        must(line_to(row, TRIGGER_RACK, text) == (i < 4 ? 0 : TRIGGER_REFUSED_SUPPLY), "19");
    }
}

int main(void)
{
    card = trigger_fresh();
    types();
    ranges();
    refusals();
    racks();
    return faults == 0 ? 0 : 1;
}
