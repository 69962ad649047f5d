/*
 * The manual's first wiring in C, by the calls that the libraries of every processor have. It prints
 * what plrun prints for the first fifteen lines of crates/gate_sessions/data/manual.in.
 */
#include <stdio.h>
#include <string.h>

#include "trigger.h"

/* Cell 1 is a one-shot of two ticks that TTL0 triggers, and BNC3 follows it. */
static const char *const wiring[] = {
    "M E=1", "36CCA Y=14", "36CCA Z=2", "36CCB X=41 Y=192", "M E=35", "36CCA Z=1",
};

/* TTL0 is bit 8. */
static const uint16_t samples[] = {0x0000, 0x0100, 0x0100, 0x0100, 0x0000, 0x0100, 0x0000, 0x0000, 0x0000};

int main(void)
{
    trigger_card card;
    uint8_t reply[TRIGGER_REPLY], store[TRIGGER_RECORD];

    if (!trigger_matches()) {
        fputs("header and library do not belong together\n", stderr);
        return 1;
    }
    trigger_fresh_at(&card);
    for (size_t i = 0; i < sizeof wiring / sizeof wiring[0]; i++) {
        size_t len;
        const uint8_t *line = (const uint8_t *)wiring[i];
        uint8_t refused =
            trigger_line_at(&card, line, strlen(wiring[i]), reply, sizeof reply, store, sizeof store, &len);
        printf("%.*s\n", (int)len - 2, (const char *)reply); /* a reply ends with CR LF */
        if (refused != 0)
            return 1;
    }
    for (size_t i = 0; i < sizeof samples / sizeof samples[0]; i++) {
        const trigger_input input = {0, samples[i], 0xffff};
        trigger_answer answer;
        trigger_quick_tick_at(&card, &input, &answer);
        printf("T %04x %04x %04x %u\n", (unsigned)answer.driven, (unsigned)answer.cells, (unsigned)answer.woken,
               (unsigned)answer.count);
    }
    return 0;
}
