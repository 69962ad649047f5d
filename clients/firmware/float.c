/*
 * The loop of a float: it samples, asks for how many ticks nothing but counts changes, and sleeps
 * through them; then it makes the ticks that have passed, drives the outputs, and obeys the line
 * that woke it. Its memory is below; the library has none of its own. docs/PERFORMANCE.md has the
 * bytes.
 */
#include "board.h"
#include "trigger.h"

/*
 * A card of sixteen cells takes ticks of clock 0 until a line says otherwise; the board's timer is
 * that clock.
 */
#define CLOCK 0
#define LONGEST_LINE 80

static trigger_card card;
static trigger_input input;
static uint8_t record[TRIGGER_RECORD];

/*
 * The settings that were saved last, on a fresh card; without a record, or with one that is
 * refused, the card stays fresh.
 */
static void power_up(void)
{
    size_t len = board_read_record(record, sizeof record);
    trigger_fresh_at(&card);
    if (len > 0)
        trigger_load_at(&card, record, len);
}

/*
 * The ticks for which the outputs may stay as they are, and the one after them, with the input as
 * it is now.
 */
static uint32_t sample(void)
{
    input.code = CLOCK;
    input.sample = board_levels();
    input.attached = board_attached();
    uint32_t steady = trigger_steady_for_at(&card, &input);
    return steady < TRIGGER_FOREVER ? steady + 1 : steady;
}

/*
 * The ticks that have passed since the input was sampled: they saw that input, whatever has come
 * since.
 */
static void catch_up(uint32_t ticks)
{
    trigger_answer answer;
    while (ticks > 0) {
        ticks -= trigger_advance_at(&card, &input, ticks, &answer);
        if (answer.ran)
            board_drive(answer.driven);
    }
}

static bool is_save(const uint8_t *line, size_t len)
{
    static const char save[] = "36SS Z";
    size_t i = 0;
    while (i < len && i < sizeof save - 1 && line[i] == (uint8_t)save[i])
        i++;
    return i == len && len == sizeof save - 1;
}

static void obey(void)
{
    uint8_t line[LONGEST_LINE + 1], reply[TRIGGER_REPLY];
    size_t len = board_line(line, sizeof line), replied;
    uint8_t k = trigger_line_at(&card, line, len, reply, sizeof reply, record, sizeof record, &replied);
    board_reply(reply, replied);
    if (k == 0 && is_save(line, len))
        board_write_record(record, sizeof record);
}

int main(void)
{
    if (!trigger_matches())
        board_fail();
    power_up();
    for (;;) {
        uint32_t ticks;
        board_event event = board_wait(sample(), &ticks);
        catch_up(ticks);
        if (event == BOARD_LINE)
            obey();
        if (event == BOARD_OFF)
            return 0;
    }
}
