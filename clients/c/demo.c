/*
 * A card wired, ticked, saved, printed, and loaded again, through the static library:
 *
 *     demo          prints what the card answers, as plrun does, then its wiring, then what became of the record
 *     demo lines    prints what plrun is to be given for the same answers
 */
#include <stdio.h>
#include <stdlib.h>
#include <string.h>

#include "trigger.h"

/* A card with its store; `shows_lines` says what is printed. */
typedef struct {
    trigger_card card;
    uint8_t *store;
    bool shows_lines;
} session;

/*
 * A one-shot of two pulses, started by TTL0, shown at BNC3; a delay of 70000 pulses of TTL1; the
 * place read; a line that is refused.
 */
static const char *const wiring[] = {
    "M E=1",         "36CCA Y=14",     "36CCA Z=2", "36CCB X=41 Y=192", "M E=2", "36CCA Y=9",
    "36CCA Z=70000", "36CCB X=1 Y=42", "M E=35",    "36CCA Z=1",        "W E",   "36CCB X=1",
};

/*
 * Buffers of just the length that is needed, so that a checker of memory sees a byte beyond them.
 */
static uint8_t *buffer(size_t len)
{
    uint8_t *bytes = calloc(len, 1);
    if (bytes == NULL) {
        fputs("no memory\n", stderr);
        exit(1);
    }
    return bytes;
}

/* A line, and its reply without CR LF. */
static void line(session *s, const char *text)
{
    uint8_t *reply = buffer(TRIGGER_REPLY);
    trigger_answered a = trigger_line(s->card, (const uint8_t *)text, strlen(text), reply, TRIGGER_REPLY, s->store,
                                      TRIGGER_RECORD);
    s->card = a.card;
    if (s->shows_lines)
        puts(text);
    else
        printf("%.*s\n", (int)a.len - 2, (const char *)reply);
    free(reply);
}

/* A tick, and its answer. */
static void tick(session *s, char kind, trigger_input input)
{
    trigger_ticked t = kind == 'F' ? trigger_full_tick(s->card, input) : trigger_quick_tick(s->card, input);
    trigger_answer a = t.answer;
    s->card = t.card;
    if (s->shows_lines)
        printf("T %d %04x %04x %c\n", input.code, input.sample, input.attached, kind);
    else if (a.ran)
        printf("T %04x %04x %04x %u\n", a.driven, a.cells, a.woken, (unsigned)a.count);
    else
        puts("T -");
}

/* The wiring as lines; the caller frees it. */
static uint8_t *printed(const trigger_card *card, size_t *len)
{
    uint8_t *text = buffer(TRIGGER_TEXT);
    trigger_printed p = trigger_print(*card, text, TRIGGER_TEXT);
    *len = p.len;
    return text;
}

/* Prints the wiring, and compares it with that of a fresh card that loads the record. */
static bool loads_again(const session *s)
{
    size_t len, len2;
    trigger_loaded loaded = trigger_load(trigger_fresh(), s->store, TRIGGER_RECORD);
    uint8_t *text = printed(&s->card, &len);
    uint8_t *text2 = printed(&loaded.card, &len2);
    bool same = loaded.k == 0 && len == len2 && memcmp(text, text2, len) == 0;
    fwrite(text, 1, len, stdout);
    printf("load %d, %s wiring\n", loaded.k, same ? "the same" : "another");
    free(text);
    free(text2);
    return same;
}

int main(int argc, char **argv)
{
    trigger_input high = {0, 0x0100, 0xffff}, low = {0, 0, 0xffff}, other_clock = {9, 0, 0xffff};
    session s = {trigger_fresh(), buffer(TRIGGER_RECORD), argc == 2 && strcmp(argv[1], "lines") == 0};
    if (argc > 2 || (argc == 2 && !s.shows_lines)) {
        fputs("demo [lines]\n", stderr);
        return 2;
    }
    for (size_t i = 0; i < sizeof wiring / sizeof wiring[0]; i++)
        line(&s, wiring[i]);
    for (int i = 0; i < 4; i++)
        tick(&s, 'Q', high);
    for (int i = 0; i < 2; i++)
        tick(&s, 'F', low);
    tick(&s, 'F', high);
    tick(&s, 'Q', other_clock);
    while (!trigger_at_rest(s.card, low))
        tick(&s, 'Q', low);
    line(&s, "36SS Z");
    bool same = s.shows_lines || loads_again(&s);
    free(s.store);
    return same ? 0 : 1;
}
