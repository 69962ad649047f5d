/*
 * Two cards hand a pulse over the backplane: card 1 pulls TTL0 low while its one-shot is on, and
 * card 2 starts one of its own when TTL0 falls.
 */
#include <stdio.h>
#include <string.h>

#include "trigger.h"

static const struct {
    size_t number;
    const char *text;
} lines[] = {
    {1, "36CCA Y=14"}, {1, "36CCA Z=2"}, {1, "36CCB X=33 Y=192"},  {1, "M E=41"}, {1, "36CCA Y=1"}, {1, "36CCA Z=65"},
    {2, "36CCA Y=14"}, {2, "36CCA Z=3"}, {2, "36CCB X=233 Y=192"}, {2, "M E=35"}, {2, "36CCA Y=2"}, {2, "36CCA Z=1"},
};

static void show(trigger_answer a)
{
    if (a.ran)
        printf("T %04x %04x %04x %u", a.driven, (unsigned)a.cells, (unsigned)a.woken, (unsigned)a.count);
    else
        printf("T -");
}

int main(void)
{
    trigger_card row[2] = {trigger_fresh(), trigger_fresh()};
    uint8_t reply[TRIGGER_REPLY], store[1];
    static const uint8_t bnc1[] = {0, 0, 1, 0, 0, 0, 0, 0};

    if (rack_start(row, 2) != 0)
        return 1;
    for (size_t i = 0; i < sizeof lines / sizeof lines[0]; i++) {
        const uint8_t *text = (const uint8_t *)lines[i].text;
        trigger_replied r =
            rack_line(row, 2, lines[i].number, text, strlen(lines[i].text), reply, sizeof reply, store, 0);
        printf("%zu %s: %.*s\n", lines[i].number, lines[i].text, (int)r.len - 2, (const char *)reply);
    }
    for (size_t i = 0; i < sizeof bnc1; i++) {
        trigger_rackinput input = {0, 0xff, 0xff, 2, {{bnc1[i], 0xff}, {0, 0xff}, {0, 0xff}, {0, 0xff}}};
        trigger_rackticked t = rack_tick(row, 2, false, input);
        if (t.k != 0)
            return 1;
        show(t.answers[0]);
        printf("; ");
        show(t.answers[1]);
        printf("\n");
    }
    return 0;
}
