/*
 * The calls at the limits of their buffers: of just the length that is needed, one byte less, and
 * none. Every buffer has its own memory, so that a checker of memory sees a byte beyond it. It
 * prints what is not as the header says, and nothing else.
 */
#include <stdio.h>
#include <stdlib.h>
#include <string.h>

#include "trigger.h"

static int faults;

static void must(bool holds, const char *what)
{
    if (!holds) {
        puts(what);
        faults++;
    }
}

/* A buffer full of sevens. */
static uint8_t *sevens(size_t len)
{
    uint8_t *bytes = malloc(len > 0 ? len : 1);
    if (bytes == NULL)
        exit(2);
    memset(bytes, 7, len);
    return bytes;
}

static bool all_sevens(const uint8_t *bytes, size_t len)
{
    for (size_t i = 0; i < len; i++)
        if (bytes[i] != 7)
            return false;
    return true;
}

/*
 * The number that a line gets with buffers of these lengths. Where it is refused, the store must be
 * as it was.
 */
static int line(trigger_card *card, const char *text, size_t reply_len, size_t store_len)
{
    size_t len = strlen(text);
    uint8_t *given = sevens(len), *reply = sevens(reply_len), *store = sevens(store_len);
    memcpy(given, text, len);
    trigger_answered a = trigger_line(*card, given, len, reply, reply_len, store, store_len);
    must(a.len <= reply_len && (a.len > 0) == (reply_len >= TRIGGER_REPLY), "a reply has another length");
    must(all_sevens(reply + a.len, reply_len - a.len), "bytes after a reply are written");
    must(a.k == 0 || all_sevens(store, store_len), "a refused line writes to the store");
    *card = a.card;
    free(given);
    free(reply);
    free(store);
    return a.k;
}

/* The number that a load of sevens gets, with the card as it was. */
static int load(const trigger_card *card, size_t len)
{
    uint8_t *bytes = sevens(len);
    trigger_loaded l = trigger_load(*card, bytes, len);
    must(l.card.pointer == card->pointer, "a refused load changes the card");
    free(bytes);
    return l.k;
}

/* The number that a print to a buffer of a length gets. */
static int print(const trigger_card *card, size_t len, size_t *written)
{
    uint8_t *buffer = sevens(len);
    trigger_printed p = trigger_print(*card, buffer, len);
    must(p.len <= len && (p.k == 0 || p.len == 0), "a text has another length");
    must(all_sevens(buffer + p.len, len - p.len), "bytes after a text are written");
    *written = p.len;
    free(buffer);
    return p.k;
}

/* The number that a conversion of sevens gets, with the buffer as it was. */
static int convert(size_t bytes_len, size_t len)
{
    uint8_t *bytes = sevens(bytes_len), *buffer = sevens(len);
    trigger_converted c = trigger_convert(bytes, bytes_len, buffer, len);
    must(c.len == 0 && all_sevens(buffer, len), "a refused conversion writes");
    free(bytes);
    free(buffer);
    return c.k;
}

/* A saved record there and back, in buffers of just the lengths that are needed. */
static void there_and_back(trigger_card card)
{
    uint8_t *reply = sevens(TRIGGER_REPLY), *store = sevens(TRIGGER_RECORD);
    uint8_t *old = sevens(TRIGGER_OLD_RECORD), *back = sevens(TRIGGER_RECORD);
    trigger_line(card, (const uint8_t *)"36SS Z", 6, reply, TRIGGER_REPLY, store, TRIGGER_RECORD);
    trigger_converted there = trigger_convert(store, TRIGGER_RECORD, old, TRIGGER_OLD_RECORD);
    trigger_converted again = trigger_convert(old, TRIGGER_OLD_RECORD, back, TRIGGER_RECORD);
    must(there.k == 0 && there.len == TRIGGER_OLD_RECORD, "a record in the old form");
    must(again.k == 0 && again.len == TRIGGER_RECORD && memcmp(store, back, TRIGGER_RECORD) == 0, "there and back");
    free(reply);
    free(store);
    free(old);
    free(back);
}

/* A card of thirty-two cells: its places, its record, and that record in the old form. */
static void large(void)
{
    trigger_card card = trigger_fresh_large();
    must(card.size == TRIGGER_LARGE && trigger_fresh().size == TRIGGER_SMALL, "the numbers of cells");
    must(line(&card, "36SS Z", TRIGGER_REPLY, TRIGGER_LARGE_RECORD) == 0, "a store of a large record's length");
    must(line(&card, "36SS Z", TRIGGER_REPLY, TRIGGER_LARGE_RECORD - 1) == 1, "a store too short for a large record");
    must(load(&card, TRIGGER_RECORD) == 14 && load(&card, TRIGGER_LARGE_RECORD) == 14, "no record of thirty-two cells");

    uint8_t *reply = sevens(TRIGGER_REPLY), *store = sevens(TRIGGER_LARGE_RECORD), *old = sevens(TRIGGER_OLD_RECORD);
    trigger_line(card, (const uint8_t *)"36SS Z", 6, reply, TRIGGER_REPLY, store, TRIGGER_LARGE_RECORD);
    trigger_converted small = trigger_convert(store, TRIGGER_LARGE_RECORD, old, TRIGGER_OLD_RECORD);
    must(small.k == 0 && small.len == TRIGGER_OLD_RECORD, "a large record in the old form");
    must(trigger_convert(store, TRIGGER_LARGE_RECORD, old, TRIGGER_OLD_RECORD - 1).k == 1, "a short buffer for it");
    must(trigger_load(card, store, TRIGGER_LARGE_RECORD).k == 0, "a large record loads on a large card");
    must(trigger_load(trigger_fresh(), store, TRIGGER_LARGE_RECORD).k == 14, "and not on a small one");
    must(line(&card, "M E=32", TRIGGER_REPLY, 0) == 0 && line(&card, "36CCA Z=1", TRIGGER_REPLY, 0) == 0, "cell 32");
    must(card.cells[31].config == 1, "its configuration");
    trigger_line(card, (const uint8_t *)"36SS Z", 6, reply, TRIGGER_REPLY, store, TRIGGER_LARGE_RECORD);
    must(trigger_convert(store, TRIGGER_LARGE_RECORD, old, TRIGGER_OLD_RECORD).k == 18, "a cell that sixteen have not");
    free(reply);
    free(store);
    free(old);
}

/*
 * What depends on a line: TTL0 with cell 32 on its inverse and BNC1 from cell 32, a push-pull line,
 * and places that are no connector's.
 */
static void survey(void)
{
    trigger_card card = trigger_fresh_large();
    must(line(&card, "M E=32", TRIGGER_REPLY, 0) == 0 && line(&card, "36CCA Y=5", TRIGGER_REPLY, 0) == 0,
         "an AND2 in cell 32");
    must(line(&card, "36CCB X=105 Y=64", TRIGGER_REPLY, 0) == 0, "the inverse of TTL0");
    must(line(&card, "M E=33", TRIGGER_REPLY, 0) == 0 && line(&card, "36CCA Z=32", TRIGGER_REPLY, 0) == 0,
         "BNC1 from cell 32");
    trigger_surveyed back = trigger_survey(card, 41), front = trigger_survey(card, 33), none = trigger_survey(card, 49);
    must(back.k == 0 && back.cells == UINT32_C(0x80000000) && back.connectors == 0x0101, "what depends on TTL0");
    must(front.k == 0 && front.cells == 0 && front.connectors == 0, "nothing depends on a push-pull line");
    must(none.k == 5 && none.cells == 0 && none.connectors == 0, "no connector");
    must(trigger_survey(card, UINT64_MAX).k == 5 && trigger_survey(card, UINT64_C(0x100000029)).k == 5,
         "a place past all");
}

/*
 * A full tick of a fresh card names no cell; an edited one is named; the tick that brings the total
 * to the limit still counts, and no other does.
 */
static void tallies(void)
{
    trigger_input input = {.code = 0, .sample = 0, .attached = 0xffff};
    trigger_card card = trigger_full_tick(trigger_fresh(), input).card;
    trigger_tallies t = trigger_read_tallies(card);
    must(t.total == 1 && t.cells[0] == 0 && t.cells[31] == 0, "one tick, and nobody named");
    card.edited = 1;
    card.tallies.total = UINT32_MAX - 1;
    t = trigger_read_tallies(trigger_full_tick(card, input).card);
    must(t.total == UINT32_MAX && t.cells[0] == 1 && t.cells[1] == 0, "the tick that reaches the limit");
    card.tallies = t;
    t = trigger_read_tallies(trigger_quick_tick(card, input).card);
    must(t.total == UINT32_MAX && t.cells[0] == 1, "none changes any more");
}

int main(void)
{
    trigger_card card = trigger_fresh();
    size_t len, none;
    must(line(&card, "M E=16", TRIGGER_REPLY, 0) == 0, "a line needs no store");
    must(line(&card, "36CCA Y=8", TRIGGER_REPLY, 0) == 0, "a type");
    must(line(&card, "36CCA Z=4294967295", TRIGGER_REPLY, 0) == 0, "the longest duration");
    must(line(&card, "36CCA Z?", TRIGGER_REPLY, 0) == 0, "the longest reply");
    must(line(&card, "M E=1", TRIGGER_REPLY - 1, 0) == 1, "a short reply buffer");
    must(line(&card, "M E=1", 0, 0) == 1, "no reply buffer");
    must(line(&card, "", TRIGGER_REPLY, 0) == 2, "no line");
    must(line(&card, "36SS Z", TRIGGER_REPLY, TRIGGER_RECORD) == 0, "a store of a record's length");
    must(line(&card, "36SS Z", TRIGGER_REPLY, TRIGGER_RECORD + 1) == 0, "a longer store");
    must(line(&card, "36SS Z", TRIGGER_REPLY, TRIGGER_RECORD - 1) == 1, "a short store");
    must(card.pointer == 16 && card.cells[15].kind == 8 && card.cells[15].config == UINT32_MAX, "the fields of a card");
    must(load(&card, TRIGGER_RECORD) == 14 && load(&card, TRIGGER_OLD_RECORD) == 14, "sevens are no record");
    must(load(&card, TRIGGER_RECORD - 1) == 14 && load(&card, 0) == 14, "a record of another length");
    must(print(&card, TRIGGER_TEXT, &len) == 0, "any wiring has room");
    must(print(&card, len, &none) == 0 && none == len, "a buffer of the text's length");
    must(print(&card, len - 1, &none) == 16 && print(&card, 0, &none) == 16, "a buffer with no room for the text");
    must(convert(TRIGGER_RECORD, TRIGGER_OLD_RECORD) == 14 && convert(0, TRIGGER_RECORD) == 14,
         "sevens are no record to convert");
    must(convert(TRIGGER_RECORD, TRIGGER_OLD_RECORD - 1) == 1 && convert(TRIGGER_OLD_RECORD, 0) == 1,
         "a buffer with no room for the result");
    there_and_back(trigger_fresh());
    survey();
    tallies();
    large();
    return faults == 0 ? 0 : 1;
}
