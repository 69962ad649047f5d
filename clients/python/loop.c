/*
 * Ticks for Python: one, and a row of them. No proof covers this file. Each tick in it is the
 * proved call of trigger.h; what is added is the loop over the samples, and the copies of words to
 * where Python reads them. `make` compiles it into the shared library beside the proved calls, and
 * its own calls have names that start with python_.
 */
#include "trigger.h"

/* One tick: Python writes `input` and `full`, and reads the rest. */
typedef struct {
    trigger_input input;
    bool full;
    trigger_answer answer;
    uint16_t levels;
} python_row;

/* card.py packs and unpacks a row at these places. */
_Static_assert(offsetof(python_row, full) == 6, "full is at 6");
_Static_assert(offsetof(python_row, answer) == 8, "answer is at 8");
_Static_assert(offsetof(python_row, levels) == 24, "levels are at 24");

/* Whether the library belongs to the header that this file was compiled with. */
bool python_matches(void)
{
    return trigger_matches();
}

/* The levels of the last tick that ran. */
uint16_t python_levels(const trigger_card *card)
{
    return card->memory.levels;
}

void python_tick(trigger_card *card, python_row *row)
{
    (row->full ? trigger_full_tick_at : trigger_quick_tick_at)(card, &row->input, &row->answer);
    row->levels = card->memory.levels;
}

/*
 * A tick for each of `count` samples, and of each the words. `attached` has a word for each tick
 * where `attached_step` is 1, and one for all where it is 0. The answer is whether the ticks ran:
 * all do, or none, since ticks leave the card's clock as it is.
 */
bool python_run(trigger_card *card, uint8_t clock, bool full, size_t count, const uint16_t *samples,
                const uint16_t *attached, size_t attached_step, uint16_t *driven, uint32_t *cells, uint32_t *woken,
                uint16_t *levels)
{
    trigger_answer answer = {false, 0, 0, 0, 0};
    for (size_t i = 0; i < count; i++) {
        const trigger_input input = {clock, samples[i], attached[i * attached_step]};
        (full ? trigger_full_tick_at : trigger_quick_tick_at)(card, &input, &answer);
        driven[i] = answer.driven;
        cells[i] = answer.cells;
        woken[i] = answer.woken;
        levels[i] = card->memory.levels;
    }
    return answer.ran;
}
