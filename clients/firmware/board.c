/*
 * A board on Linux, for float.c: the standard input is a script. A row `N w a` lets N ticks of the
 * clock pass with levels w and attached word a, hex; any other row is a line that comes in. It
 * prints what was driven, tick by tick: `N T` and the driven word for N ticks in a row. Replies are
 * printed as they come. The last row says how often the processor woke, and in how many ticks; what
 * wakes it is a tick that it waited for, a row of ticks with other levels, and a line.
 */
#include "bare/bare.h"
#include "board.h"

static uint8_t row[128];
static size_t row_len;
static uint32_t ticks_left, run, wakings, all_ticks;
static uint16_t levels, attached, driven, run_driven;

static bool number(const char **at, uint32_t base, uint32_t *n)
{
    const char *start = *at;
    for (*n = 0;; (*at)++) {
        char c = **at;
        uint32_t digit = c >= '0' && c <= '9'   ? (uint32_t)(c - '0')
                         : c >= 'a' && c <= 'f' ? (uint32_t)(c - 'a') + 10
                                                : base;
        if (digit >= base)
            return *at != start;
        *n = *n * base + digit;
    }
}

/* The row as ticks. */
static bool is_ticks(void)
{
    const char *at = (const char *)row;
    uint32_t n, w, a;
    row[row_len] = 0;
    if (!number(&at, 10, &n) || *at++ != ' ' || !number(&at, 16, &w) || *at++ != ' ' || !number(&at, 16, &a) ||
        *at != 0)
        return false;
    ticks_left = n;
    levels = (uint16_t)w;
    attached = (uint16_t)a;
    return true;
}

static bool take_row(void)
{
    row_len = 0;
    for (;;) {
        int byte = next();
        if (byte < 0)
            return false;
        if (byte == '\n')
            return true;
        if (row_len < sizeof row - 1)
            row[row_len++] = (uint8_t)byte;
    }
}

static void put_run(void)
{
    if (run == 0)
        return;
    put_decimal(run, 0);
    put_text(" T ");
    put_hex(run_driven, 4);
    put_text("\n");
    run = 0;
}

/* Ticks have passed that drove the word that is driven now. */
static void passed(uint32_t ticks)
{
    if (ticks > 0 && driven != run_driven) {
        put_run();
        run_driven = driven;
    }
    run += ticks;
    all_ticks += ticks;
}

static board_event off(void)
{
    put_run();
    put_text("woke ");
    put_decimal(wakings, 0);
    put_text(" times in ");
    put_decimal(all_ticks, 0);
    put_text(" ticks\n");
    return BOARD_OFF;
}

/*
 * The outputs keep their word while the processor sleeps. What the last tick of a wait drives is
 * known at the next.
 */
board_event board_wait(uint32_t most, uint32_t *ticks)
{
    static bool last;
    passed(last ? 1 : 0);
    last = ticks_left >= most;
    *ticks = last ? most : ticks_left;
    passed(last ? most - 1 : ticks_left);
    ticks_left -= *ticks;
    if (!last && !take_row())
        return off();
    wakings++;
    if (last)
        return BOARD_TICK;
    return is_ticks() ? BOARD_CHANGE : BOARD_LINE;
}

uint16_t board_levels(void)
{
    return levels;
}

uint16_t board_attached(void)
{
    return attached;
}

void board_drive(uint16_t word)
{
    driven = word;
}

size_t board_line(uint8_t *line, size_t room)
{
    size_t len = row_len < room ? row_len : room;
    for (size_t i = 0; i < len; i++)
        line[i] = row[i];
    return len;
}

void board_reply(const uint8_t *reply, size_t len)
{
    put_run();
    put(reply, len < 2 ? 0 : len - 2);
    put_text("\n");
}

size_t board_read_record(uint8_t *record, size_t room)
{
    (void)record, (void)room;
    return 0;
}

void board_write_record(const uint8_t *record, size_t len)
{
    (void)record, (void)len;
}

_Noreturn void board_fail(void)
{
    put_text("the library is not that of the header\n");
    stop(1);
}
