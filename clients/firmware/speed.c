/*
 * Ticks of a card, for a count of instructions: `speed CARD KIND N` makes N ticks, of the kind
 * full, quick, idle (of another clock), rest (asks whether the card is at rest), steady (asks for
 * how many ticks it is steady), advance (makes a thousand at once) or none. CARD is fresh, counter
 * (presets 4 and 19), delay (of two hours in cell 1, which runs), or busy: sixteen JK flip-flops
 * that toggle in every tick.
 */
#include "bare/bare.h"
#include "trigger.h"

static trigger_card card;
static uint8_t reply[TRIGGER_REPLY], store[TRIGGER_RECORD];

static const char *const places[TRIGGER_SMALL] = {
    "M E=1", "M E=2",  "M E=3",  "M E=4",  "M E=5",  "M E=6",  "M E=7",  "M E=8",
    "M E=9", "M E=10", "M E=11", "M E=12", "M E=13", "M E=14", "M E=15", "M E=16",
};

static void line(const char *text)
{
    size_t len;
    if (trigger_line_at(&card, (const uint8_t *)text, length(text), reply, sizeof reply, store, sizeof store, &len) !=
        0) {
        put_text("a line was refused\n");
        stop(1);
    }
}

static void wire(const char *name)
{
    trigger_fresh_at(&card);
    if (same(name, length(name), "counter")) {
        line("36CCA X=4");
        line("36CCA X=19");
    }
    if (same(name, length(name), "delay")) {
        line("36CCA Y=15");
        line("36CCA Z=28800000");
        line("36CCB X=192 Y=192");
    }
    for (size_t i = 0; i < TRIGGER_SMALL && same(name, length(name), "busy"); i++) {
        line(places[i]);
        line("36CCA Y=13");
        line("36CCB X=64 Y=64 Z=192");
    }
}

int main(int argc, char **argv)
{
    trigger_input input = {0, 0, 0xffff};
    trigger_answer answer = {0};
    uint32_t steady = 0;
    uint32_t count = 0;
    if (argc != 4)
        stop(2);
    for (const char *digit = argv[3]; *digit != 0; digit++)
        count = count * 10 + (uint32_t)(*digit - '0');
    wire(argv[1]);
    for (uint32_t i = 0; i < 3; i++)
        trigger_quick_tick_at(&card, &input, &answer);
    for (uint32_t i = 0; i < count; i++) {
        switch (argv[2][0]) {
        case 'f':
            trigger_full_tick_at(&card, &input, &answer);
            break;
        case 'i':
            input.code = 9;
            trigger_quick_tick_at(&card, &input, &answer);
            break;
        case 'q':
            trigger_quick_tick_at(&card, &input, &answer);
            break;
        case 'r':
            answer.ran = trigger_at_rest_at(&card, &input);
            break;
        case 's':
            steady ^= trigger_steady_for_at(&card, &input);
            break;
        case 'a':
            steady ^= trigger_advance_at(&card, &input, 1000, &answer);
            break;
        }
    }
    put_hex(answer.cells ^ steady, 8);
    put_text("\n");
    return 0;
}
